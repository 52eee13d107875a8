"""`ops/try`: it starts an office behind the front, tells where, and leaves nothing running."""

from __future__ import annotations

import contextlib
import datetime
import http.client
import importlib.machinery
import importlib.util
import json
import os
import re
import shutil
import signal
import ssl
import subprocess
import time
from collections.abc import Iterator
from pathlib import Path
from typing import Optional

import pytest

from lib.places import ROOT
from cpi_tools.tryout.trial_services import children_of, fingerprint
from cpi_tools.office.program import Cpi
from lib.served import free_port
from .offices import ANNA, NOW
from .stage import Stage

TRY = ROOT / "ops/try"
SECONDS = 120.0


class Trial:
    """A running ops/try, and what it has told."""

    def __init__(self, cpi: Cpi, folder: Path, *words: str):
        self.folder, self.port = folder, free_port()
        given = ["--folder", str(folder), "--port", str(self.port), "--program", str(cpi.path), *words]
        # (a signal that this process ignores would be ignored there too)
        self.process = subprocess.Popen(
            ["env", "--default-signal=INT", str(TRY), *given], stdout=subprocess.PIPE, text=True
        )
        assert self.process.stdout
        self.told = ""
        for line in self.process.stdout:
            self.told += line
            if "Ctrl-C" in line:
                break
        self.children = children_of(self.process.pid)

    def get(self, path: str, key: str = "") -> tuple[int, bytes]:
        """A page, as a phone that trusts the certificate asks for it."""
        return self.asked("GET", path, key, None)

    def put(self, path: str, key: str, body: str) -> int:
        """The status of what a phone sends."""
        return self.asked("PUT", path, key, body)[0]

    def asked(self, method: str, path: str, key: str, body: Optional[str]) -> tuple[int, bytes]:
        """The status and the body of an answer."""
        context = ssl.create_default_context(cafile=str(self.folder / "ca.crt"))
        line = http.client.HTTPSConnection("localhost", self.port, context=context, timeout=SECONDS)
        with contextlib.closing(line):
            line.request(method, path, body, {"Authorization": f"CPI-Key {key}"} if key else {})
            answer = line.getresponse()
            assert not answer.getheader("Strict-Transport-Security")
            return answer.status, answer.read()

    def signs_in_at_the_desk(self, key: str) -> None:
        """A person signs in with the desk's key, and sees the month."""
        context = ssl.create_default_context(cafile=str(self.folder / "ca.crt"))
        line = http.client.HTTPSConnection("localhost", self.port, context=context, timeout=SECONDS)
        fields = {"Content-Type": "application/x-www-form-urlencoded", "Origin": f"https://localhost:{self.port}"}
        with contextlib.closing(line):
            line.request("POST", "/desk/sign-in", f"name=Ada&key={key}&to=/month/{NOW}/", fields)
            answer = line.getresponse()
            assert (answer.status, answer.read()) and answer.status == 303, answer.status
            cookie = str(answer.getheader("Set-Cookie")).partition(";")[0]
            line.request("GET", str(answer.getheader("Location")), headers={"Cookie": cookie})
            answer = line.getresponse()
            page = answer.read().decode()
            assert answer.status == 200 and f"/desk/month/{NOW}/table" in page and "The window closes" in page
            # (a second policy, that of the server, would forbid a browser the forms of these pages)
            policies = answer.headers.get_all("Content-Security-Policy") or []
            assert len(policies) == 1 and "form-action 'self'" in policies[0], policies

    def stop(self, how: int) -> int:
        """Its status after a signal."""
        with self.process:
            self.process.send_signal(how)
            return self.process.wait(SECONDS)

    def left(self) -> list[int]:
        """Which of its children still run, after a moment at most."""
        begun = time.monotonic()
        while (children := [child for child in self.children if is_running(child)]) and time.monotonic() - begun < 20:
            time.sleep(0.05)
        return children


def is_running(process: int) -> bool:
    with contextlib.suppress(OSError):
        return Path(f"/proc/{process}/stat").read_text().rpartition(")")[2].split()[0] != "Z"
    return False


@pytest.fixture
def trial(cpi: Cpi, made: Path, tmp_path: Path) -> Iterator[Trial]:
    """A trial of the made-up country; a small office stands in its place, as if it had been made this month."""
    shutil.copy(made, tmp_path / f"{datetime.date.today():%Y-%m}.db")
    trial = Trial(cpi, tmp_path)
    yield trial
    if trial.process.poll() is None:
        trial.stop(signal.SIGTERM)


def test_it_tells_where_to_point_a_phone_and_stops_at_ctrl_c(trial: Trial) -> None:
    url = f"https://localhost:{trial.port}"
    collector = re.search(rf"^  collectors +{url}/collect/ +key ([0-9a-f]{{32}})$", trial.told, re.M)
    link = re.search(rf"^ +{url}/collect/#key=([0-9a-f]{{32}})&name=Collector%201 +signs in ", trial.told, re.M)
    desk = re.search(rf"^  the desk +{url}/desk/ +key ([0-9a-f]{{32}})$", trial.told, re.M)
    supervisors = re.search(rf"^  supervisors +{url}/desk/team/ +key ([0-9a-f]{{32}})$", trial.told, re.M)
    assert collector and desk and link and supervisors, trial.told
    assert f"everybody   {url}/\n" in trial.told
    assert f"{url}/ca.crt" in trial.told and fingerprint(trial.folder / "ca.crt") in trial.told
    known = (ROOT / "examples/national/collectors.csv").read_text().splitlines()[1].split(",")[1]
    assert collector[1] == link[1] == known
    paths = ("/published/", "/published/fr/", "/collect/", "/desk/sign-in", "/desk/team/sign-in", "/api/tables")
    assert [trial.get(path)[0] for path in paths] == [200] * 6
    assert [trial.get(path)[0] for path in ("/", "/tables/", "/desk/")] == [302, 301, 302]
    assert b"Sign in at the desk" in trial.get("/desk/sign-in")[1]
    assert "in February 2011" in trial.get("/published/")[1].decode().partition("<h1>")[2].replace("In ", "in ")
    assert f'href="{url}/published/"' in trial.get("/published/")[1].decode()
    assert trial.get("/ca.crt") == (200, (trial.folder / "ca.crt").read_bytes())
    assert trial.get(f"/api/work/{NOW}", ANNA)[0] == 200
    assert trial.get(f"/api/work/{NOW}", desk[1])[0] == 403  # (the desk has no work list)
    (window,) = json.loads(trial.get("/calendar.json")[1])["months"]
    assert window["month"] == NOW and window["closes"] > time.time()
    assert window["opens_zone"] in (["CET", 3600], ["CEST", 7200])
    assert not (trial.folder / "ca.key").exists()
    assert len(trial.children) == 3
    trial.signs_in_at_the_desk(desk[1])
    assert b'  notes: true,\n  map: "geo:0,0?q={shop}",\n' in trial.get("/config.js")[1]
    assert trial.get("/notes/questions", ANNA) == (200, b'{"questions":[]}\n')
    assert trial.stop(signal.SIGINT) == 0
    assert trial.left() == []


def test_it_goes_on_where_it_was_stopped(trial: Trial, cpi: Cpi) -> None:
    """With the same keys, what was sent, and the website that was published; its calendar names the window's moment."""
    again = re.compile(r"^  (?:the desk|supervisors) .*$", re.M)
    assert trial.put(f"/api/quote/1/{NOW}", ANNA, "price,219,confirm") == 200
    first = json.loads(trial.get("/published/manifest.json")[1])
    announced = (trial.folder / "announced.csv").read_text().splitlines()
    (window,) = [month for month in json.loads(trial.get("/calendar.json")[1])["months"] if month["month"] == NOW]
    assert f"{NOW},{window['closes']}" in announced  # (the window of this office closes as its table comes out)
    assert trial.stop(signal.SIGINT) == 0
    other = Trial(cpi, trial.folder)
    try:
        ports = (str(trial.port), str(other.port))
        assert again.findall(other.told) == [element.replace(*ports) for element in again.findall(trial.told)]
        quotes = json.loads(other.get(f"/api/quotes/{NOW}/{NOW}", ANNA)[1])["quotes"]
        assert [row[3] for row in quotes if row[0] == 1] == [219]
        then = json.loads(other.get("/published/manifest.json")[1])
        assert then["tables"] == first["tables"] and len(then["tables"]) == 4
        assert (trial.folder / "published-of").read_text() == str(trial.folder / f"{NOW}.db")
    finally:
        assert other.stop(signal.SIGTERM) == 143


def test_another_office_is_copied_and_the_certificate_stays(cpi: Cpi, made: Path, tmp_path: Path) -> None:
    """The copy stays as well, with what was sent to it, until the office's file changes."""
    before, prints = made.read_bytes(), []
    office = tmp_path / "own.db"
    shutil.copy(made, office)
    for start in range(3):
        if start == 2:
            os.utime(office)
        trial = Trial(cpi, tmp_path / "try", "--db", str(office))
        assert " key " not in trial.told.partition("everybody")[0] and "#key=" not in trial.told
        assert json.loads(trial.get("/calendar.json")[1])["months"][-1]["month"] == NOW
        assert trial.get(f"/api/work/{NOW}", ANNA)[0] == 200
        quotes = json.loads(trial.get(f"/api/quotes/{NOW}/{NOW}", ANNA)[1])["quotes"]
        assert [row[3] for row in quotes if row[0] == 1] == ([219] if start == 1 else [])
        assert ("The copy of the trial before is used again" in trial.told) == (start == 1)
        assert trial.put(f"/api/quote/1/{NOW}", ANNA, "price,219,confirm") == 200
        prints.append(fingerprint(tmp_path / "try/ca.crt"))
        assert trial.stop(signal.SIGTERM) == 143
        assert trial.left() == []
    assert len({*prints}) == 1
    assert office.read_bytes() == made.read_bytes() == before


def test_its_pages_speak_a_language(cpi: Cpi, made: Path, tmp_path: Path) -> None:
    trial = Trial(cpi, tmp_path / "try", "--db", str(made), "--language", "fr")
    try:
        config = trial.get("/config.js")[1].decode()
        assert 'language: "fr",' in config and 'decimal: ",",' in config and "notes: true," in config
        assert b'<html lang="fr"' in trial.get("/published/")[1]
        assert b'<html lang="en"' in trial.get("/published/en/")[1]
    finally:
        assert trial.stop(signal.SIGTERM) == 143


def test_the_commands_of_the_guide_are_its_words() -> None:
    loader = importlib.machinery.SourceFileLoader("ops_try", f"{TRY}.py")
    spec = importlib.util.spec_from_loader(loader.name, loader)
    assert spec
    module = importlib.util.module_from_spec(spec)
    loader.exec_module(module)
    guide = (ROOT / "docs/desk/PHONE.md").read_text(encoding="utf-8")
    commands = re.findall(r"^    ops/try(.*)$", guide, re.M)
    addresses = [module.parser().parse_args(words.split()).address for words in commands]
    assert addresses == ["localhost", "192.168.1.5"]
    told = set(re.findall(r"--[a-z]+", guide))
    assert told <= set(re.findall(r"--[a-z]+", module.parser().format_help()))


@pytest.mark.parametrize(
    ("words", "status", "told"),
    [
        (["--address", "203.0.113.9"], 1, "ops/try: 203.0.113.9 is no address of this machine: "),
        (["--db", "/nowhere/office.db"], 1, "ops/try: /nowhere/office.db: No such file or directory"),
        (["--program", "/nowhere/cpi"], 1, "ops/try: /nowhere/cpi, named by --program, is no program"),
        (["--zone", "CET"], 1, "ops/try: --zone CET: cpi: bad zone"),
        (["--db", str(TRY)], 1, "ops/try: /"),  # (it is no office)
        (["--language", "xx"], 2, "ops/try: argument --language: 'xx' has no catalogue: one of en, ar, es, fr"),
        (["--port", "x"], 2, "ops/try: argument --port: x is no port: 1 to 65535"),
        (["--port", "65536"], 2, "ops/try: argument --port: 65536 is no port: 1 to 65535"),
        (["--other"], 2, "ops/try: unrecognized arguments: --other"),
    ],
)
def test_what_is_wrong_is_one_line(cpi: Cpi, words: list[str], status: int, told: str, tmp_path: Path) -> None:
    given = [
        str(TRY),
        "--folder",
        str(tmp_path / "try"),
        "--port",
        str(free_port()),
        "--program",
        str(cpi.path),
        *words,
    ]
    ran = subprocess.run(given, capture_output=True, text=True, timeout=SECONDS, check=False)
    assert (ran.returncode, ran.stderr.count("\n")) == (status, 1), ran.stderr
    assert ran.stderr.startswith(told)


def test_a_port_that_is_taken_is_told(stage: Stage, tmp_path: Path) -> None:
    given = [str(TRY), "--folder", str(tmp_path), "--port", str(stage.port), "--program", str(stage.cpi.path)]
    ran = subprocess.run(given, capture_output=True, text=True, timeout=SECONDS, check=False)
    told = f"ops/try: port {stage.port} of localhost is taken: name another by --port\n"
    assert (ran.returncode, ran.stderr) == (1, told)


@pytest.mark.long
def test_the_made_up_country_may_be_moved_to_another_year(cpi: Cpi, tmp_path: Path) -> None:
    """Its tables are the same, a few years later, and the month that is asked for is open."""
    run = [str(ROOT / "examples/national/run"), "--program", str(cpi.path), "--out"]
    runs = [
        subprocess.Popen(
            [*run, str(tmp_path / folder), "--open", month], stdout=subprocess.PIPE, stderr=subprocess.DEVNULL
        )
        for folder, month in (("plain", "2026-01"), ("moved", "2031-01"))
    ]
    told = [running.communicate()[0].decode() for running in runs]
    assert [running.returncode for running in runs] == [0, 0]
    assert "All items in 2030-12: " in told[1]
    plain = sorted((tmp_path / "plain/tables").iterdir())
    moved = sorted((tmp_path / "moved/tables").iterdir())
    later = [f"{int(path.name[:4]) + 5}{path.name[4:]}" for path in plain]
    assert later == [path.name for path in moved]
    assert [path.read_bytes() for path in plain] == [path.read_bytes() for path in moved]
    assert len(plain) == 25 + 2  # (two months were revised)
    *_, window, table = (tmp_path / "moved/records.csv").read_text().splitlines()
    assert window.partition(",desk,")[2] == "calendar,2031-01,2031-01-01T00:00,2031-03-01T00:00,2031-03-01T00:00"
    assert table.endswith(",public,table,2030-12,text")
