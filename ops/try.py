"""Starts an office behind the front, to be tried by hand with a phone or a browser, and stops all of it at Ctrl-C.

    ops/try [--address ADDRESS] [--port PORT] [--db FILE] [--zone RULE] [--language LANG] [--folder FOLDER]
            [--program FILE]

The office is the made-up country of examples/national: two to three years of published tables up to last month, and
this month's window is open. It is made by the first call in a month, which takes a minute or more, and stays in FOLDER
with what is sent to it, so the next call goes on where this one was stopped: out/try in the repository, and
~/.cache/sabrethog/out/try if this is installed. With --db it is a copy of the office in FILE instead, which is copied
anew once FILE has changed. Each start publishes its website, in all languages that the country has texts in, and the
desk's pages are served beside the office; their log, and the notes that phones send, are beside the office's file. The
keys of the desk and of supervisors are in FOLDER. Nothing else on the machine is changed.

It listens at this machine alone, or at the ADDRESS of it that is named, for a phone in the same network: who can reach
that address can read and send what its pages can, so let it be a network that you trust. The certificate is drawn for
this address by an authority that can speak for no other, whose key is thrown away; it stays for 90 days.

It needs nginx, openssl, jinja2, flask, waitress and Pillow (Debian: nginx-light, openssl, python3-jinja2, python3-flask,
python3-waitress, python3-pil), Python 3.9 or later, and for another language than English Babel (python3-babel). Exit
status: 0 after Ctrl-C, 1 where something fails, in one line, 2 where the words are refused.

example: ops/try --address 192.168.1.5 --language fr
"""

# ruff: noqa: E402
from __future__ import annotations

import sys

sys.dont_write_bytecode = True

from cpi_tools import ctrl_c  # (ops/try says where it is)

if __name__ == "__main__":
    ctrl_c.ends_silently()

import argparse
import contextlib
import csv
import fcntl
import os
import re
import shutil
import subprocess
import tempfile
import time
from collections.abc import Iterator, Sequence
from functools import partial
from pathlib import Path
from typing import NoReturn, Optional, Union

from cpi_tools.office.calendar_file import write_calendar
from cpi_tools.office.copying import right_copy
from cpi_tools.tryout.trial_services import (
    LOCALHOST,
    Front,
    Place,
    TrialSite,
    Tried,
    TriedDesk,
    desk_needs,
    fingerprint,
    folder_of_trial,
    free_port,
    is_listening,
    keep_certificate,
    standing,
    system_program,
    write_config,
    write_site_config,
)
from cpi_tools.text.languages import SOURCE, a_language
from cpi_tools.text.clocks import clock_of
from cpi_tools.publish.figures.config import read_config
from cpi_tools.office.public import Published, from_file
from cpi_tools.office.stored import Window
from cpi_tools.office.program import Cpi, CpiFailed, add_program, end_text as told_end
from cpi_tools.publish.pack import publish
from cpi_tools.desk.serve.watched_office import state_of
from cpi_tools.desk.keys.keys_cli import address_of_page, link_of
from cpi_tools.text.terminal import Fault, ToolWords, because_of, ends_by_signals, needs
from cpi_tools.tryout.trial_calendar import month_now, write_announced
from cpi_tools.tryout.trial_keys import SUPERVISORS, first_key, kept_desk_key, kept_supervisors

ROOT = Path(__file__).resolve().parents[1]

ZONE = "CET-1CEST,M3.5.0,M10.5.0/3"
"""The clock of the made-up country."""

COUNTRY = ROOT / "examples/national/office.ini"
"""Who publishes the website of the made-up country."""

SITE, SITE_OF = "published", "published-of"
"""The folder of the website, and the file that says of which office's file it is."""

CALENDAR = "calendar.json"
"""The windows of the office's calendar, which the desk's application writes again once it sends one."""

DESK_SOCKET = "desk.sock"
"""Where the desk's application listens for the front, and for nobody else: it is in the folder of a trial."""

IN_MEMORY = "/dev/shm"
"""Where the made-up country lives, if it can: a disk would keep each of its 200,000 commands, one after another."""

LOOK_SECONDS = 0.2
"""How often it is looked whether office and front still run."""


# ---- the office


def made_up_country(folder: Path, cpi: Cpi, month: str) -> Path:
    """The file of the made-up country with this month open; it is made where it isn't there yet."""
    file = folder / f"{month}.db"
    if file.exists():
        return file
    for earlier in sorted(folder.glob("[0-9][0-9][0-9][0-9]-[0-9][0-9].db"))[-1:]:
        print(
            f"The office of {earlier.stem}, with what was sent to it, stays: --db {earlier} shows a copy of it.",
            flush=True,
        )
    print("The made-up country lives through two to three years first: a minute or more, once a month.", flush=True)
    made = file.with_suffix(".new")
    room = Path(IN_MEMORY) if os.access(IN_MEMORY, os.W_OK) else folder
    with tempfile.TemporaryDirectory(prefix="cpi-try-", dir=room) as at:
        run = [sys.executable, str(ROOT / "examples/national/run"), "--program", str(cpi.path), "--open", month]
        ran = subprocess.run([*run, "--db", f"{at}/office.db", "--out", f"{at}/out"], stdout=subprocess.DEVNULL)
        if ran.returncode:
            raise Fault(f"examples/national/run ended with status {ran.returncode}")
        shutil.copy(f"{at}/office.db", made)
    made.rename(file)
    return file


def copy_of(office: Path, folder: Path) -> Path:
    """A copy of an office's own file, as it is now: the one of the trial before, with what was sent to it, if the file
    hasn't changed since."""
    copies = folder / "copy"
    file, copied = copies / office.name, copies / "copied-of.txt"
    try:
        state = f"{office.resolve()} {state_of(office)}"
    except OSError as fault:
        raise Fault(because_of(fault)) from fault
    if file.exists() and copied.exists() and copied.read_text(encoding="utf-8") == state:
        print("The copy of the trial before is used again: the office's file hasn't changed since.", flush=True)
        return file
    shutil.rmtree(copies, ignore_errors=True)
    copies.mkdir()
    copy = right_copy(office, copies)
    copied.write_text(state, encoding="utf-8")
    return copy


def write_website(cpi: Cpi, file: Path, folder: Path, windows: Optional[Sequence[Window]], of: TrialSite) -> Path:
    """The website of what an office has published until now, in `published`; none if that is no table yet. The file of
    its configuration. `windows` are those of the made-up country, None of another office."""
    published = from_file(cpi, file, int(time.time()))
    first = min((each.listed.month for each in published if each.table), default="")
    if windows is not None:
        write_announced(folder, (each.listed for each in published), windows)
    config = write_site_config(folder, COUNTRY if windows is not None else None, first, of)
    if first:
        publish_tables(published, config, folder, file)
    return config


def publish_tables(published: Sequence[Published], config: Path, folder: Path, file: Path) -> None:
    """Publishes tables after those of the trial before, if they are of the same file. Else, or if that is refused, such
    as by newer tools, they take the place of all that is there."""
    site, owner = folder / SITE, folder / SITE_OF
    if owner.exists() and owner.read_text(encoding="utf-8") == str(file):
        with contextlib.suppress(Fault):
            publish(published, read_config(config), site, None, lambda _: None)
            return
    owner.unlink(missing_ok=True)
    shutil.rmtree(site, ignore_errors=True)
    publish(published, read_config(config), site, None, lambda _: None)
    owner.write_text(str(file), encoding="utf-8")


class Office:
    """A running `cpi serve`; it ends after its connections, and is started again then."""

    def __init__(self, cpi: Cpi, file: Path, port: int, zone: str, desk_key: str):
        self.cpi, self.file, self.port, self.zone, self.desk_key = cpi, file, port, zone, desk_key
        self.process: Optional[subprocess.Popen[bytes]] = None

    def start(self) -> None:
        """Starts it, and waits until it listens: it reads its whole file first."""
        words = ["serve", "--db", str(self.file), "--port", str(self.port), "--desk-key", self.desk_key]
        words = [str(self.cpi.path), *words, "--limit", "1000000", "--zone", self.zone]
        pipe = subprocess.PIPE
        self.process = subprocess.Popen(words, stdin=subprocess.DEVNULL, stdout=pipe, stderr=pipe)
        assert self.process.stdout
        if not self.process.stdout.readline():
            self._fail()

    def look(self) -> None:
        """Starts it again where it ended after its connections."""
        assert self.process
        status = self.process.poll()
        if status == 0:
            self.start()
        elif status is not None:
            self._fail()

    def _fail(self) -> NoReturn:
        assert self.process and self.process.stderr
        errors, status = self.process.stderr.read(), self.process.wait()
        raise Fault(f"{self.file}: {told_end(status, errors)}")

    def stop(self) -> None:
        """Ends the program, if it runs."""
        if self.process:
            with self.process:
                self.process.terminate()


# ---- what is told


def told(place: Place, office: Office, is_country: bool, folder: Path) -> str:
    """Where to point a phone, and the keys; of the made-up country also the link by which a collector signs in."""
    with open(ROOT / "examples/national/collectors.csv", encoding="utf-8", newline="") as file:
        collector = next(csv.DictReader(file))
    key, link = collector["key"], link_of(place.url, collector["key"], f"Collector {collector['collector']}")
    rows = [
        ("collectors", address_of_page(place.url), f"key {key}" if is_country else "with their keys"),
        *([("", link, "signs in without typing")] if is_country else []),
        ("everybody", f"{place.url}/", ""),
        ("the desk", f"{place.url}/desk/", f"key {office.desk_key}"),
        ("supervisors", f"{place.url}/desk/team/", f"key {first_key(folder / SUPERVISORS)}"),
    ]
    addresses = "".join(f"  {who:<11} {address}  {key}".rstrip() + "\n" for who, address, key in rows)
    return (
        f"\n{addresses}\n"
        "Browsers warn of the certificate, which is this trial's own. To use the phone's page without a line too, the\n"
        f"phone has to trust it: open {place.url}/ca.crt there and install it. Its SHA-256 is\n"
        f"  {fingerprint(folder / 'ca.crt')}\n"
        "\nCtrl-C stops all of it.\n"
    )


# ---- the front


def place_of(address: str, port: int, folder: Path) -> Place:
    """Where the front listens; a Fault where that address isn't this machine's, or the port is taken."""
    host, at = (LOCALHOST, "127.0.0.1") if address in (LOCALHOST, "127.0.0.1") else (address, address)
    try:
        free_port(at)
    except OSError as fault:
        raise Fault(f"{address} is no address of this machine: {because_of(fault)}") from fault
    if is_listening(at, port):
        raise Fault(f"port {port} of {address} is taken: name another by --port")
    own = {"published": folder / SITE, "calendar": folder / CALENDAR}
    return Place(
        host,
        at,
        port,
        f"unix:{folder}/plain.sock",
        free_port(),
        ROOT / "web",
        **own,
        desk=f"unix:{folder / DESK_SOCKET}",
    )


def of_a_trial(folder: Path, text: str) -> str:
    """The front's file with the certificate that a phone has to trust, and without the field by which a browser would
    remember, for a year, to speak TLS alone here."""
    # (an empty field isn't sent; a location without any field would have all those of its server)
    forgetful = re.sub(r'"max-age=31536000"', '""', text)
    certificate = f"    location = /ca.crt {{ root {folder}; }}\n\n"
    return re.sub(r"^ *location = /config\.js ", rf"{certificate}\g<0>", forgetful, count=1, flags=re.M)


@contextlib.contextmanager
def held(folder: Path) -> Iterator[None]:
    """A folder that no other trial uses meanwhile: it would take away what this one serves."""
    folder.mkdir(mode=0o700, parents=True, exist_ok=True)
    with (folder / "lock").open("w") as lock:
        try:
            fcntl.flock(lock, fcntl.LOCK_EX | fcntl.LOCK_NB)
        except BlockingIOError as fault:
            raise Fault(f"another trial runs in {folder}: stop it, or name another by --folder") from fault
        yield


Process = Union[Office, TriedDesk]


@contextlib.contextmanager
def started(process: Process) -> Iterator[Process]:
    """An office, or the desk's application, that runs meanwhile."""
    try:
        process.start()
        yield process
    finally:
        process.stop()


def looked_at(chosen: argparse.Namespace) -> Cpi:
    """The program, once all is there that is needed and the words can be right: before minutes of work."""
    for needed in ("nginx", "openssl"):
        system_program(needed)
    desk_needs()
    if chosen.language != SOURCE:
        needs("babel", "python3-babel")
    cpi = Cpi(chosen.program)
    try:
        cpi.replay([], zone=chosen.zone)
    except CpiFailed as fault:
        raise Fault(f"--zone {chosen.zone}: {fault}") from fault
    return cpi


def run(chosen: argparse.Namespace) -> int:
    """Starts all of it, and waits for Ctrl-C."""
    cpi, folder = looked_at(chosen), Path(chosen.folder).absolute()
    with held(folder):
        return serve(chosen, cpi, folder)


def serve(chosen: argparse.Namespace, cpi: Cpi, folder: Path) -> int:
    """Office and front in a folder, until something ends."""
    place = place_of(chosen.address, chosen.port, folder)
    (folder / "plain.sock").unlink(missing_ok=True)
    # (the day of the country's own clock, by which its window opens)
    month = month_now(clock_of(ZONE), time.time())
    file = copy_of(Path(chosen.db), folder) if chosen.db else made_up_country(folder, cpi, month)
    keep_certificate(folder, place.host)
    place = place._replace(config=write_config(ROOT / "web/config.js", folder / "config.js", chosen.language))
    office = Office(cpi, file, place.office_port, chosen.zone, kept_desk_key(folder))
    print("The office reads its file, which takes some seconds.", flush=True)
    front = Front(ROOT / "ops/nginx.conf", folder, place)
    with started(office):
        # (the program has opened the file, so it is an office, and of the tables that are read here)
        windows = write_calendar(file, folder / CALENDAR, clock=clock_of(chosen.zone))
        print("Its website is written, which takes up to half a minute.", flush=True)
        of = TrialSite(f"{place.url}/{SITE}/", file.with_name(f"{file.stem}-revisions.csv"), chosen.language)
        config = write_website(cpi, file, folder, None if chosen.db else windows, of)
        with started(desk_of(chosen, cpi, file, place, config)) as desk, standing(front, partial(of_a_trial, folder)):
            print(told(place, office, not chosen.db, folder), flush=True)
            watch(office, desk, front)


def desk_of(chosen: argparse.Namespace, cpi: Cpi, file: Path, place: Place, config: Path) -> TriedDesk:
    """The desk's application of a trial; the configuration is that of its website."""
    room, spoken = file.with_name(f"{file.stem}-desk"), chosen.language if chosen.language != SOURCE else None
    socket = Path(place.desk.removeprefix("unix:"))
    own = (f"{place.url}/desk/", spoken, config.with_name(SITE), config, kept_supervisors(config.parent))
    return TriedDesk(cpi, Tried(place.office_port, file, chosen.zone, room, socket, *own))


def watch(office: Office, desk: Process, front: Front) -> NoReturn:
    """Starts the office again whenever it ended after its connections. Raises Fault if one of the three fails."""
    while True:
        time.sleep(LOOK_SECONDS)
        office.look()
        desk.look()
        if front.process and front.process.poll() is not None:
            raise Fault(f"nginx ended: {front.folder}/error.log says why")


def a_port(text: str) -> int:
    """A type of argparse: the number of a port."""
    if not re.fullmatch(r"[0-9]{1,5}", text) or not 1 <= int(text) <= 65_535:
        raise argparse.ArgumentTypeError(f"{text} is no port: 1 to 65535")
    return int(text)


def parser() -> ToolWords:
    """The words of the command."""
    words = ToolWords(prog="ops/try", description=__doc__)
    words.add_argument("--address", default=LOCALHOST, help="an address of this machine in its network (localhost)")
    words.add_argument("--port", type=a_port, default=8443, help="the port of the front (8443)")
    words.add_argument("--db", metavar="FILE", help="try a copy of this office instead of the made-up country")
    words.add_argument("--zone", metavar="RULE", default=ZONE, help=f"the clock of the office ({ZONE})")
    words.add_argument(
        "--language", type=a_language, default=SOURCE, metavar="LANG", help="the language of its pages, such as fr (en)"
    )
    words.add_argument("--folder", default=str(folder_of_trial("out/try")), help="where all of it is (%(default)s)")
    add_program(words)
    return words


def main() -> int:
    chosen = parser().parse_args()
    try:
        ctrl_c.raises()
        with ends_by_signals():
            return run(chosen)
    except KeyboardInterrupt:
        return 0
    except (Fault, OSError) as fault:
        print(f"ops/try: {because_of(fault) if isinstance(fault, OSError) else fault}", file=sys.stderr)
        return 1
    finally:
        ctrl_c.ends_silently()


if __name__ == "__main__":
    sys.exit(main())
