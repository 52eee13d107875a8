"""What `ops/try` and the examples start: nginx as the front, the pages, the website; and their folder."""

from __future__ import annotations

import configparser
import contextlib
import os
import re
import shutil
import signal
import socket
import subprocess
import sys
import time
from collections.abc import Callable, Iterator, Mapping
from pathlib import Path
from typing import NamedTuple, NoReturn, Optional

from ..office.program import Cpi
from ..text.languages import SOURCE
from ..text.report_language import VARIABLE
from ..text.terminal import Fault, because_of, needs
from .trial_calendar import ANNOUNCED


# ==== runs nginx as the front of an office: fills in `ops/nginx.conf`, draws a certificate, and starts and stops nginx
#
# `ops/try` and the tests of the pages start nginx this way. A real office uses the nginx of its machine.

PATIENCE = 10.0
"""The most seconds until nginx listens."""

CERTIFICATE_DAYS = 90

DAYS_LEFT = 7
"""A certificate that expires sooner is replaced."""

LOCALHOST = "localhost"


DESK = "127.0.0.1:8090"
"""The address of the desk's application if nobody names another one."""


class Place(NamedTuple):
    """A front's listener and content: its name, address and port; the listener for plain HTTP (a port with its address,
    or a socket), the port of the office, and the folder of its pages. `desk` is the address of the desk's application:
    an address with its port, or `unix:` and the path of a socket.

    `config` is the `config.js` of the pages, `published` the folder of the website, and `calendar` the file of `cpi-tools
    calendar`; without them they are those of the folder of the pages.
    """

    host: str
    address: str
    port: int
    plain: str
    office_port: int
    site: Path
    config: Optional[Path] = None
    published: Optional[Path] = None
    calendar: Optional[Path] = None
    desk: str = DESK

    @property
    def url(self) -> str:
        """The address of the front."""
        return f"https://{self.host}:{self.port}"


def system_program(name: str) -> str:
    """The path of a system program, also in `/usr/sbin`. Raises Fault if there is none."""
    program = shutil.which(name, path=f"{os.environ.get('PATH', '')}:/usr/sbin:/sbin")
    if not program:
        raise Fault(f"there is no program {name} (Debian has it in {PACKAGES.get(name, name)})")
    return program


PACKAGES: Mapping[str, str] = {"nginx": "nginx-light", "certutil": "libnss3-tools"}
"""The Debian packages whose names differ from the program's."""


# ---- a certificate


def draw_certificate(folder: Path, host: str, days: int = CERTIFICATE_DAYS) -> None:
    """Draws a certificate for one host, `site.pem` with `site.key`, with its own authority, `ca.crt`.

    A person who trusts the authority trusts nothing else through it: it may certify only this host, and its key is
    deleted as soon as the certificate is drawn.
    """
    folder.mkdir(mode=0o700, parents=True, exist_ok=True)
    named = names_of(host)
    permitted = ",".join(
        f"permitted;IP:{value}/255.255.255.255" if kind == "IP" else f"permitted;DNS:{value}" for kind, value in named
    )
    new = ["-newkey", "ec", "-pkeyopt", "ec_paramgen_curve:P-256", "-nodes"]
    authority = ["-subj", f"/CN=cpi try {host}", "-addext", "keyUsage=critical,keyCertSign"]
    authority += ["-addext", f"nameConstraints=critical,{permitted}", "-days", str(days)]
    alternatives = ",".join(f"{kind}:{value}" for kind, value in named)
    (folder / "site.ext").write_text(f"subjectAltName={alternatives}\nextendedKeyUsage=serverAuth\n", encoding="ascii")
    try:
        _openssl(folder, "req", "-x509", *new, "-keyout", "ca.key", "-out", "ca.crt", *authority)
        _openssl(folder, "req", "-new", *new, "-keyout", "site.key", "-out", "site.csr", "-subj", f"/CN={host}")
        signed = ["-in", "site.csr", "-CA", "ca.crt", "-CAkey", "ca.key", "-CAcreateserial", "-out", "site.pem"]
        _openssl(folder, "x509", "-req", *signed, "-days", str(days), "-extfile", "site.ext")
    finally:
        for name in ("ca.key", "ca.srl", "site.csr", "site.ext"):
            (folder / name).unlink(missing_ok=True)


def keep_certificate(folder: Path, host: str) -> None:
    """Draws a certificate if the folder has none for this host that is valid for some more days: a person who trusts
    the existing one needn't trust another."""
    parts = [folder / name for name in ("ca.crt", "site.pem", "site.key")]
    if all(part.exists() for part in parts):
        output = _openssl(folder, "x509", "-in", "site.pem", "-noout", "-subject", "-nameopt", "multiline")
        with contextlib.suppress(Fault):
            _openssl(folder, "x509", "-in", "site.pem", "-noout", "-checkend", str(DAYS_LEFT * 86_400))
            if output.rstrip().endswith(f"= {host}"):
                return
    draw_certificate(folder, host)


def names_of(host: str) -> list[tuple[str, str]]:
    """The names of a host in a certificate: `("IP", "192.168.1.5")`; this machine has two."""
    if host == LOCALHOST:
        return [("DNS", LOCALHOST), ("IP", "127.0.0.1")]
    return [("IP" if re.fullmatch(r"[0-9.]+", host) else "DNS", host)]


def fingerprint(certificate: Path) -> str:
    """The SHA-256 of a certificate, as phones and browsers show it."""
    output = _openssl(certificate.parent, "x509", "-in", certificate.name, "-noout", "-fingerprint", "-sha256")
    return output.rpartition("=")[2].strip()


def _openssl(folder: Path, *words: str) -> str:
    program = system_program("openssl")
    ran = subprocess.run([program, *words], cwd=folder, capture_output=True, text=True, check=False)
    if ran.returncode:
        raise Fault(f"openssl {words[0]}: {(ran.stderr.strip() or 'it failed').splitlines()[-1]}")
    return ran.stdout


# ---- the file of the front


def fill_words(text: str, words: Mapping[str, str]) -> str:
    """A file of `ops/` with its words between @ signs filled in. Raises Fault if a word is left."""
    for word, value in words.items():
        text = text.replace(f"@{word}@", value)
    left = re.search(r"@[A-Z]+@", text)
    if left:
        raise Fault(f"nobody says what {left[0]} is")
    return text


def configuration(source: Path, folder: Path, place: Place) -> str:
    """`ops/nginx.conf` for a place; nginx writes into a folder. It listens only at that address."""
    text = "".join(line for line in source.read_text(encoding="utf-8").splitlines(True) if "[::]:" not in line)
    return fill_words(
        text,
        {
            "HOST": place.host,
            "HTTP": place.plain,
            "HTTPS": f"{place.address}:{place.port}",
            "CERT": f"{folder}/site.pem",
            "CERTKEY": f"{folder}/site.key",
            "WEB": str(place.site),
            "CONFIG": str(place.config or place.site / "config.js"),
            "SITE": str(place.published or place.site / "published"),
            "CALENDAR": str(place.calendar or place.site / "calendar.json"),
            "SOCKET": f"{folder}/whole.sock",
            "CACHE": f"{folder}/cache",
            "LOG": f"{folder}/access.log",
            "PORT": str(place.office_port),
            "DESK": place.desk,
        },
    )


def whole_configuration(site: str, folder: Path) -> str:
    """The configuration of a separate nginx around the servers of a site.

    Root's nginx would give its work to another user, who may not read these folders. A log of all its messages (`info`)
    would contain lines of odd messages, and so keys.
    """
    user = "user root;\n" if os.geteuid() == 0 else ""
    kinds = ("client_body", "proxy", "fastcgi", "uwsgi", "scgi")
    temporary = "".join(f"{kind}_temp_path {folder}/{kind};\n" for kind in kinds)
    return (
        f"{user}pid {folder}/nginx.pid;\nerror_log {folder}/error.log warn;\nworker_processes 1;\n"
        f"events {{ worker_connections 1000; }}\nhttp {{\n{temporary}{site}\n}}\n"
    )


# ---- nginx itself


class Front:
    """A separate nginx, whose files are in a folder next to the certificate."""

    def __init__(self, source: Path, folder: Path, place: Place):
        self.source, self.folder, self.place = source, folder, place
        self.process: Optional[subprocess.Popen[bytes]] = None

    def start(self, change: Callable[[str], str] = str) -> None:
        """Starts nginx, and waits until it listens. `change` may change the text of the site."""
        program, file = system_program("nginx"), self.folder / "nginx.conf"
        site = change(configuration(self.source, self.folder, self.place))
        file.write_text(whole_configuration(site, self.folder), encoding="utf-8")
        (self.folder / "cache").mkdir(exist_ok=True)
        # (an nginx that was killed leaves its socket)
        (self.folder / "whole.sock").unlink(missing_ok=True)
        words = [program, "-c", str(file), "-e", str(self.folder / "error.log"), "-g", "daemon off;"]
        try:
            self.process = subprocess.Popen(words, stdin=subprocess.DEVNULL, stderr=subprocess.DEVNULL)
        except OSError as fault:
            raise Fault(f"nginx couldn't be started: {because_of(fault)}") from fault
        begun = time.monotonic()
        while not is_listening(self.place.address, self.place.port):
            if self.process.poll() is not None or time.monotonic() - begun > PATIENCE:
                self.stop()
                raise Fault(f"nginx didn't start: {self._last_error()}")
            time.sleep(0.02)

    def stop(self, how: int = signal.SIGTERM) -> None:
        """Ends nginx; with SIGKILL also its worker, which would outlive it."""
        if not self.process:
            return
        workers = children_of(self.process.pid) if how == signal.SIGKILL else []
        for each in (self.process.pid, *workers):
            with contextlib.suppress(ProcessLookupError):
                os.kill(each, how)
        self.process.wait()
        self.process = None

    def _last_error(self) -> str:
        with contextlib.suppress(OSError):
            lines = (self.folder / "error.log").read_text(encoding="utf-8", errors="replace").splitlines()
            output = [line for line in lines if "[emerg]" in line]
            return re.sub(r"^.*?\[emerg\] \S+ ", "", output[-1]) if output else "it doesn't listen"
        return "it left no log"


def children_of(process: int) -> list[int]:
    """The numbers of the processes that a process has started."""
    output = Path(f"/proc/{process}/task/{process}/children").read_text(encoding="ascii")
    return [int(number) for number in output.split()]


def is_listening(address: str, port: int) -> bool:
    """Whether something listens on a port."""
    with contextlib.suppress(OSError), socket.create_connection((address, port), timeout=1):
        return True
    return False


def free_port(address: str = "127.0.0.1") -> int:
    """A port on which nothing listens."""
    with socket.socket() as one:
        one.bind((address, 0))
        port: int = one.getsockname()[1]
        return port


@contextlib.contextmanager
def standing(front: Front, change: Callable[[str], str] = str) -> Iterator[Front]:
    """A front that runs within this context; `change` is an argument of `Front.start`."""
    front.start(change)
    try:
        yield front
    finally:
        front.stop()


# ==== what the collectors' page of a trial is set to (`ops/try`): its language, that it takes notes of the field, so
# that the desk can ask collectors too, and that the form leads to the phone's map

END, SET = re.compile(r"^\}\);$", re.M), re.compile(r"^ *(?:notes|map): .*\n", re.M)

WITH = '  notes: true,\n  map: "geo:0,0?q={shop}",\n});'
"""The end of `config.js` in a trial."""


def pages_config(text: str, code: str) -> str:
    """The `config.js` of the pages that take notes and lead to a map, with a language and its decimal mark in place of
    those that it sets; English is what it has. Raises Fault."""
    text, count = END.subn(WITH, SET.sub("", text))
    if count != 1:
        raise Fault(f"config.js ends {count} times")
    for name, value in values_of(code).items():
        text, count = re.subn(rf'(^ *{name}: )"[^"]*"', rf'\g<1>"{value}"', text, flags=re.M)
        if count != 1:
            raise Fault(f"config.js sets {name} {count} times")
    return text


def values_of(code: str) -> dict[str, str]:
    """The settings of a language in `config.js`; empty for English."""
    if code == SOURCE:
        return {}
    from babel import Locale

    mark = Locale.parse(code).number_symbols
    symbols = mark.get("latn", mark)
    return {"language": code.replace("_", "-"), "decimal": symbols["decimal"]}


def write_config(source: Path, to: Path, code: str) -> Path:
    """Writes the `config.js` of a trial; returns its path."""
    to.write_text(pages_config(source.read_text(encoding="utf-8"), code), encoding="utf-8")
    return to


# ==== the desk's application in a trial (`ops/try`): a process next to the office, behind the trial's front

DESK_PACKAGES = ("flask", "waitress", "jinja2", "PIL")
"""The packages that it needs besides Python; Debian's packages have the same names in small letters after python3-."""

NOTES_MONTHS = 13
"""The number of months for which notes from the field are kept, with questions to collectors and their answers."""


class Tried(NamedTuple):
    """The settings of a trial's application: the office's port, file and clock, its own folder and socket, its address
    behind the front, the language of its pages, or none if it is English, the website's folder and configuration, and
    the file of the supervisors.
    """

    office_port: int
    file: Path
    zone: str
    room: Path
    socket: Path
    front: str
    language: Optional[str]
    site: Path
    config: Path
    supervisors: Path


def desk_needs() -> None:
    """Raises Fault if a package of the application isn't installed."""
    for module in DESK_PACKAGES:
        needs(module, f"python3-{module.lower()}")


class TriedDesk:
    """`cpi-tools desk serve` as a process. Its log and notes are in its folder, and stay there."""

    def __init__(self, cpi: Cpi, tried: Tried):
        self.cpi, self.tried = cpi, tried
        self.process: Optional[subprocess.Popen[bytes]] = None

    def words(self) -> list[str]:
        """The command."""
        it = self.tried
        words = ["--office", f"http://127.0.0.1:{it.office_port}", "--file", str(it.file), "--zone", it.zone]
        words += ["--room", str(it.room), "--listen", str(it.socket), "--front", it.front]
        words += ["--site", str(it.site), "--site-config", str(it.config), "--field-notes", str(NOTES_MONTHS)]
        words += ["--supervisors", str(it.supervisors)]
        return [sys.executable, "-m", "cpi_tools", "desk", "serve", *words, "--program", str(self.cpi.path)]

    def start(self) -> None:
        """Starts it, and waits until it listens. Raises Fault."""
        spoken = {VARIABLE: self.tried.language} if self.tried.language else {}
        self.process = subprocess.Popen(
            self.words(),
            stdin=subprocess.DEVNULL,
            stdout=subprocess.PIPE,
            stderr=subprocess.PIPE,
            env={**os.environ, **spoken, "PYTHONDONTWRITEBYTECODE": "1"},
        )
        assert self.process.stdout
        if not self.process.stdout.readline():
            self._fail()

    def look(self) -> None:
        """Raises Fault if it ended."""
        if self.process and self.process.poll() is not None:
            self._fail()

    def _fail(self) -> NoReturn:
        assert self.process and self.process.stderr
        lines = self.process.stderr.read().decode(errors="replace").strip().splitlines()
        status = self.process.wait()
        raise Fault(f"the desk's application ended with status {status}: {lines[-1] if lines else 'it says nothing'}")

    def stop(self) -> None:
        """Ends it."""
        if self.process:
            with self.process:
                self.process.terminate()


# ==== the folder in which the examples and `ops/try` write, if nobody names another

ROOT = Path(__file__).resolve().parents[3]


def folder_of_trial(name: str) -> Path:
    """The folder of this name: below the repository or, since installed files belong to root, below the user's cache,
    which is ~/.cache unless XDG_CACHE_HOME names another one."""
    if (ROOT / "crates").is_dir() and os.access(ROOT, os.W_OK):
        return ROOT / name
    cache = os.environ.get("XDG_CACHE_HOME") or Path.home() / ".cache"
    return Path(cache) / "sabrethog" / name


# ==== The website of a trial (`ops/try`): its publisher and its languages. The desk's pages publish it with the same
# file.

CONFIG = "office.ini"
"""The file of the configuration, in the trial's folder."""

ANOTHER = {"agency": "TRIAL", "area": "XX", "office": "An office that is tried"}
"""The publisher of the website of an office other than the made-up country."""

FILES = ("aggregates",)
"""Words of a configuration that name a file from its folder."""

OF_ANOTHER_SITE = ("address", "revisions", "about", "calendar")
"""Words of the made-up country that aren't the trial's: its months were moved, its address is that of another site, and what
it says of its weights names their years."""

WORDS, TITLES = "languages.ini", "titles-{tag}.csv"
"""The made-up country's texts in other languages, and its titles of items in one, next to its configuration."""


def of_country(path: Path, first: str) -> dict[str, str]:
    """The words of the made-up country's configuration, whose reference period is the year of its first table, such as
    2024-01, wherever it was moved."""
    parser = configparser.ConfigParser(interpolation=None)
    parser.read_string(path.read_text(encoding="utf-8"))
    words = {name: value for name, value in parser["office"].items() if name not in OF_ANOTHER_SITE}
    files = {name: str(path.parent / words[name]) for name in FILES if name in words}
    return {**words, **files, "reference": first[:4]}


NO_REASONS = "month,revision,reason\n"
"""A file of reasons that contains none."""


class TrialSite(NamedTuple):
    """The address of a trial's website, such as `https://localhost:8443/published/`, the file with the reasons of its
    revisions, which is made if it isn't there, and the first language of its pages: those of the made-up country are in
    all languages that it has texts in, and those of another office in English too."""

    address: str
    reasons: Path
    language: str


def write_site_config(folder: Path, country: Optional[Path], first: str, site: TrialSite) -> Path:
    """Writes the configuration of a trial's website; its file. `country` is the configuration of the made-up country, and
    `first` the month of its first table; its announced releases are in `announced.csv` of the folder."""
    parser, language = configparser.ConfigParser(interpolation=None), site.language
    parser["office"] = of_country(country, first) if country else ANOTHER
    parser["office"]["address"], parser["office"]["revisions"] = site.address, str(site.reasons)
    if not site.reasons.exists():
        site.reasons.write_text(NO_REASONS, encoding="utf-8")
    own = texts_of_country(country) if country else {}
    for file in folder.glob(TITLES.format(tag="*")):
        file.unlink()
    if country:
        parser["office"]["calendar"] = ANNOUNCED
        for tag, words in own.items():
            parser[tag] = words
            shutil.copy(country.with_name(TITLES.format(tag=tag)), folder)
    tags = [*dict.fromkeys((language.replace("_", "-"), SOURCE, *own))]
    if tags != [SOURCE]:
        parser["office"]["languages"] = ", ".join(tags)
    file = folder / CONFIG
    with file.open("w", encoding="utf-8") as out:
        parser.write(out)
    return file


def texts_of_country(country: Path) -> dict[str, dict[str, str]]:
    """The made-up country's own texts by the tags of their languages."""
    parser = configparser.ConfigParser(interpolation=None)
    parser.read_string(country.with_name(WORDS).read_text(encoding="utf-8"))
    return {tag: dict(parser[tag]) for tag in parser.sections()}
