"""The package as Debian's own tools see it: lintian finds no error, apt-get installs it in a system of its own, and who
upgrades a running office is told what to do."""

from __future__ import annotations

import subprocess
from collections.abc import Callable
from pathlib import Path

import pytest

from lib.places import ROOT


@pytest.fixture(scope="module")
def package(needed: Callable[[str], str], program: Path, tmp_path_factory: pytest.TempPathFactory) -> Path:
    needed("dpkg-deb")
    to = tmp_path_factory.mktemp("package")
    subprocess.run([ROOT / "tools/package", "--to", to, "--program", program], stdout=subprocess.DEVNULL, check=True)
    (package,) = to.glob("*.deb")
    return package


def test_lintian_finds_no_error_and_no_warning(needed: Callable[[str], str], package: Path) -> None:
    """But that nothing is stripped of the program: it has the bytes that were proved, and the package says so."""
    words = [needed("lintian"), "--allow-root", "--tag-display-limit", "0", str(package)]
    ran = subprocess.run(words, capture_output=True, text=True, check=False)
    assert (ran.returncode, ran.stdout) == (0, ""), ran.stderr


# A system that has this one's files, and whose own changes lie in memory and go at the end.
SYSTEM = """
mount -t tmpfs tmpfs "$1"
mkdir "$1/changes" "$1/work" "$1/root"
mount -t overlay overlay -o "lowerdir=/,upperdir=$1/changes,workdir=$1/work" "$1/root"
mount -t proc proc "$1/root/proc" && mount --bind /dev "$1/root/dev"
cp "$2" "$1/root/root/"
chroot "$1/root" bash -euc "$3"
"""

COMMANDS = """
cd /root
apt-get install -y -q --no-install-recommends ./cpi_*.deb > /dev/null
getent passwd cpi | cut -d : -f 1,5,6
cd /usr/share/cpi && ./cpi replay < examples/table.csv | sed -n 18,20p
cpi-tools backup --help | head -n 1 | cut -c 1-23
man -w cpi cpi-tools
! ls /etc/systemd/system/*.wants | grep '^cpi'
stat -c '%n %U %a' /var/lib/cpi*
apt-get purge -y -q cpi > /dev/null
ls -d /usr/bin/cpi* /usr/share/cpi /etc/cpi /var/lib/cpi* 2> /dev/null | wc -l
"""

WANTED = """\
cpi:Price index office:/var/lib/cpi
{"receipt":2}
{"refused":47}
{"done":true}
usage: cpi-tools backup
/usr/share/man/man1/cpi.1.gz
/usr/share/man/man1/cpi-tools.1.gz
/var/lib/cpi cpi 700
/var/lib/cpi-backup cpi 700
/var/lib/cpi-keep cpi-keep 700
/var/lib/cpi-site cpi 755
0
"""

# A later version comes while systemd says that the office runs.
UPGRADE = """
cd /root
dpkg --no-triggers -i cpi_*.deb > /dev/null
dpkg-deb --raw-extract cpi_*.deb later
sed -i 's/^Version: .*/Version: 99/' later/DEBIAN/control
dpkg-deb --build later later.deb > /dev/null
mkdir -p /run/systemd/system
printf '#!/bin/sh\necho "$@" >> /root/asked\n' > /usr/local/bin/systemctl
chmod +x /usr/local/bin/systemctl
dpkg --no-triggers -i later.deb | grep '^cpi: '
sort -u asked
"""

UPGRADED = """\
cpi: set the office's clock before its next start, by a line CPI_ZONE=Europe/Prague in /etc/cpi/office.conf
cpi: (before 1.1 an office without this line had CPI_ZONE=UTC0)
cpi: the office still runs the program of before, and nothing restarts it. Stop it, and copy its file and log
cpi: before you start it again: /usr/share/doc/cpi/docs/run/RUNNING.md, Upgrading
cpi: these run the program of before, too, until: systemctl restart cpi-desk.service cpi-follow.service
--quiet is-active cpi-desk.service
--quiet is-active cpi-follow.service
--quiet is-active cpi.service
--system daemon-reload
"""


@pytest.mark.parametrize("commands, wanted", [(COMMANDS, WANTED), (UPGRADE, UPGRADED)], ids=["installed", "upgraded"])
def test_in_a_system_of_its_own(
    needed: Callable[[str], str], package: Path, tmp_path: Path, commands: str, wanted: str
) -> None:
    """It comes and goes by apt-get, and an upgrade leaves a running office alone. This asks for root, and for a system
    that lets it mount."""
    needed("apt-get")
    words = [needed("unshare"), "--mount", "bash", "-euc", SYSTEM, "system", str(tmp_path), str(package), commands]
    ran = subprocess.run(words, capture_output=True, text=True, check=False)
    assert (ran.returncode, ran.stdout) == (0, wanted), ran.stderr
