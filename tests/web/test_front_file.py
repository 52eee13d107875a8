"""What FRONT says of the file of nginx: its words filled in for a name, and who may read the logs."""

from __future__ import annotations

import os
import re
import subprocess
from pathlib import Path

import pytest

from lib.places import ROOT
from cpi_tools.tryout.trial_services import draw_certificate, system_program, whole_configuration
from lib.served import free_port

HOST = "prices.example"


def guide() -> str:
    return (ROOT / "docs/run/FRONT.md").read_text(encoding="utf-8")


@pytest.fixture(scope="module")
def written(tmp_path_factory: pytest.TempPathFactory) -> str:
    """The file that the command of FRONT writes. It leaves nothing where it runs, such as in /usr/share/cpi."""
    folder, filled = tmp_path_factory.mktemp("installed"), tmp_path_factory.mktemp("filled")
    (folder / "ops").symlink_to(ROOT / "ops")
    commands = re.findall(r"^```sh\n(.*?)^```\n", guide(), re.S | re.M)
    (command,) = [each for each in commands if "ops/nginx.conf" in each]
    words, paths = ["bash", "-c", command], {**os.environ, "TMPDIR": str(filled)}
    ran = subprocess.run(words, cwd=folder, env=paths, capture_output=True, text=True, check=False)
    assert (ran.stdout, ran.stderr) == ("0\n", "") and [*folder.iterdir()] == [folder / "ops"]
    (file,) = filled.iterdir()
    return file.read_text(encoding="utf-8")


def test_the_words_of_the_front_are_filled_in_for_a_name(written: str) -> None:
    assert re.findall(r"@\w+@", written) == []
    assert set(re.findall(r"^ *server_name ([^;]+);", written, re.M)) == {HOST, "cpi_whole"}
    assert set(re.findall(r"^ *listen ([^;]+);", written, re.M)) == {
        "80", "[::]:80", "443 ssl http2", "[::]:443 ssl http2", "unix:/run/cpi-whole.sock",
    }  # fmt: skip


def test_nginx_takes_the_file_that_is_filled_in_so(written: str, tmp_path: Path) -> None:
    """With its paths below a folder that has what Debian has, and ports that anybody may take."""
    for name in ("var/cache", "var/log/nginx", "run"):
        (tmp_path / name).mkdir(parents=True)
    draw_certificate(tmp_path, HOST)
    live = f"/etc/letsencrypt/live/{HOST}"
    text = written.replace(f"{live}/fullchain.pem", "/site.pem").replace(f"{live}/privkey.pem", "/site.key")
    text = re.sub(r"(?<=[ :])/(?=(var|run|usr|etc|site)\b)", f"{tmp_path}/", text)
    text = re.sub(r"^ *listen \[::\].*\n", "", text, flags=re.M)
    text = re.sub(r"(?<=listen )(80|443)\b", lambda _: str(free_port()), text)
    (tmp_path / "nginx.conf").write_text(whole_configuration(text, tmp_path), encoding="utf-8")
    words = ["-t", "-c", str(tmp_path / "nginx.conf"), "-e", str(tmp_path / "error.log")]
    ran = subprocess.run([system_program("nginx"), *words], capture_output=True, text=True, check=False)
    assert ran.returncode == 0, ran.stderr
    assert {path.name for path in (tmp_path / "var/cache").iterdir()} == {"nginx-cpi", "nginx-cpi-lists"}


def test_the_logs_are_made_as_logrotate_keeps_them(written: str) -> None:
    """No other user reads them; and no name is one that Debian's file for nginx rotates too, which it does `*.log`."""
    kept = (ROOT / "ops/logrotate-cpi").read_text(encoding="utf-8")
    (names,) = re.findall(r"^(/.*) \{$", kept, re.M)
    (mode, owner, group) = re.findall(r"^ *create (\d+) (\S+) (\S+)$", kept, re.M)[0]
    assert (mode, set(re.findall(r"_log ([^ ;]+)", written)) - {"off"}) == ("0640", set(names.split()))
    assert not any(name.endswith(".log") for name in names.split())
    for name in names.split():
        assert f"    install -m {mode[1:]} -o {owner} -g {group} /dev/null {name}\n" in guide()
