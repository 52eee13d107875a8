"""What the tests with programs of others share: they try what these make of what is made here.

The whole test leaves them out, as they need more than tools/setup installs, some 600 MB of Debian's packages: caddy,
chromium, iproute2, libreoffice-calc-nogui, libxml2-utils, lintian, openssh-server, poppler-utils, python3-pandas,
python3-zbar, r-base-core, r-cran-rsdmx, rclone, rsync, systemd-container. A test fails if one that it needs is missing,
unless NAME, such as Rscript or pandas, leaves it out; a line then says what was left out.

    tests/run tests/outside --program FILE [--leave-out NAME]
"""

from __future__ import annotations

import importlib.util
import os
import shutil
import subprocess
from collections.abc import Callable, Iterator
from pathlib import Path

import pytest

from lib.places import ROOT
from .systems import FIRST, SECOND, System, two_systems


@pytest.fixture(scope="session")
def program(program_file: str) -> Path:
    """The program that is tried."""
    return Path(program_file)


@pytest.fixture(scope="session")
def kills(request: pytest.FixtureRequest) -> int:
    """How often the first machine is killed."""
    kills: int = request.config.getoption("--kills")
    return kills


@pytest.fixture(scope="session")
def every(request: pytest.FixtureRequest) -> int:
    """The seconds from one round of the second copy to the next."""
    found: int = request.config.getoption("--every")
    return found


@pytest.fixture(scope="session")
def needed(request: pytest.FixtureRequest) -> Callable[[str], str]:
    """Where a program of others, or a package of Python, is; a test fails where it isn't there and isn't left out."""
    left_out = request.config.getoption("--leave-out")

    def found(name: str) -> str:
        if name in left_out:
            pytest.skip(f"{name} is left out")
        path = shutil.which(name, path=f"{os.environ['PATH']}:/usr/sbin:/sbin")
        if path is None and importlib.util.find_spec(name) is None:
            pytest.fail(f"there is no {name} (--leave-out {name} leaves out what needs it)", pytrace=False)
        return path or name

    return found


@pytest.fixture
def systems(needed: Callable[[str], str], program: Path, tmp_path: Path) -> Iterator[tuple[System, System]]:
    """Two machines with the package installed and the desk's key, as the guide asks."""
    for name in ("dpkg-deb", "ip", "nsenter", "rrsync", "rsync", "sshd", "systemd-nspawn", "unshare"):
        needed(name)
    subprocess.run([ROOT / "tools/package", "--to", tmp_path, "--program", program], capture_output=True, check=True)
    (package,) = tmp_path.glob("*.deb")
    with two_systems(tmp_path, package) as (first, second):
        for each in (first, second):
            each.boot()
            each.run("dpkg --no-triggers -i cpi.deb > /dev/null; (umask 077; printf '%032d' 7 > /etc/cpi/desk-key)")
            each.run("echo CPI_ZONE=Europe/Prague >> /etc/cpi/office.conf")
            each.run(f"printf '{FIRST} first.example\\n{SECOND} second.example\\n' >> /etc/hosts")
            each.run("rm -f /etc/ssh/ssh_host_*; ssh-keygen -A > /dev/null; systemctl restart ssh")
        yield first, second
