"""The words of `cpi-tools desk serve`, and how it is run."""

from __future__ import annotations

import argparse
import ipaddress
import re
import tempfile
import urllib.parse
from fractions import Fraction
from pathlib import Path
from typing import TYPE_CHECKING, Optional

from ...office.program import add_program
from ...text.exact import points
from ...text.report_language import add_language, chosen_teller
from ...text.terminal import Fault, ToolWords, at_least, needs
from ..keys.keys_cli import an_origin

if TYPE_CHECKING:
    from ..freeze.publication import Site

LISTEN, URL = "127.0.0.1:8090", "http://127.0.0.1:8080"

MOST_OF_SOCKET = 107
"""Bytes of the path of a socket."""

IDLE_MINUTES = 30

REASON_ABOVE = 50_000
"""Millionths of a point: half of the last digit that is published, so one such price may turn it."""


def run(chosen: argparse.Namespace) -> int:
    """Serves until a signal ends it."""
    for module in ("flask", "waitress", "jinja2"):
        needs(module, f"python3-{module}")
    if chosen.field_notes:
        needs("PIL", "python3-pil")
    from .desk import Given  # (its packages are this job's alone)
    from .server import serve

    is_socket = chosen.listen.startswith("/")
    if is_socket and not chosen.front:
        chosen.words.error("--listen with the path of a socket goes with --front")
    host = chosen.listen.rpartition(":")[0].strip("[]")
    if not is_socket and not ipaddress.ip_address(host).is_loopback and not chosen.other_machines:
        raise Fault(
            f"{chosen.listen} can be reached from other machines, without TLS: --other-machines says that it may be"
        )
    if not chosen.file.is_file():
        raise Fault(f"{chosen.file} is no file: name the office's, which cpi serve has open")
    teller = chosen_teller(chosen)
    copies = chosen.copies or Path(tempfile.gettempdir())
    given = Given(
        chosen.office,
        chosen.file,
        chosen.room,
        chosen.program,
        chosen.minutes * 60,
        teller.clock,
        copies,
        chosen.left_out,
        chosen.field_notes,
        chosen.phones or "",
        teller.speech,
        site_of(chosen),
        chosen.reason_above,
        chosen.second_key_file,
        chosen.supervisors,
    )
    serve(given, chosen.listen, chosen.front or "")
    return 0


def site_of(chosen: argparse.Namespace) -> Optional[Site]:
    """The folder of the website, if the arguments name one. Refuses words that don't go together."""
    from ..freeze.publication import Site  # (its packages are this job's alone)

    if (chosen.site is None) != (chosen.site_config is None) or (chosen.sign and chosen.site is None):
        chosen.words.error("--site and --site-config go together, and --sign goes with them")
    if chosen.site is None:
        return None
    if not chosen.site_config.is_file():
        raise Fault(f"{chosen.site_config} is no file: --site-config names what cpi-tools publish reads as --config")
    return Site(chosen.site, chosen.site_config, chosen.sign)


# ---- values


def a_listener(text: str) -> str:
    """A type of argparse: an address with a port, like 127.0.0.1:8090 or [::1]:8090, or the path of a socket."""
    if text.startswith("/"):
        return a_socket(text)
    host, _, port = text.rpartition(":")
    try:
        ipaddress.ip_address(host.strip("[]"))
        if not 0 < int(port) < 65536:
            raise ValueError
    except ValueError as fault:
        raise argparse.ArgumentTypeError(f"{text} isn't an address with a port, like {LISTEN}") from fault
    return text


def a_few_points(text: str) -> int:
    """A type of argparse: points such as 0.05, as millionths of a point."""
    if not re.fullmatch(r"[0-9]{1,3}(\.[0-9]{1,6})?", text, re.ASCII):
        raise argparse.ArgumentTypeError(f"{text} isn't a number of points, like {points(REASON_ABOVE, 2)}")
    return int(Fraction(text) * 1_000_000)


def a_socket(text: str) -> str:
    """A type of argparse: the whole path of a socket, which the system takes up to a length."""
    if len(text.encode()) > MOST_OF_SOCKET or text.endswith("/"):
        raise argparse.ArgumentTypeError(f"{text} isn't the path of a socket, of {MOST_OF_SOCKET} bytes at most")
    return text


def a_url(text: str) -> str:
    """A type of argparse: an address like http://127.0.0.1:8080, without a query."""
    at = urllib.parse.urlsplit(text)
    try:
        is_one = at.scheme in ("http", "https") and bool(at.hostname) and at.port != 0 and not at.query
    except ValueError:
        is_one = False
    if not is_one:
        raise argparse.ArgumentTypeError(f"{text} is no address like {URL}")
    return text


# ---- words

SERVE = """\
Serves the desk's pages to browsers on this machine: the month at a glance, prices to look at, the
provisional table and the source of each figure, the freeze as a checklist for two people, records
that cpi judges on a copy before they are sent, and the desk's log. Figures are read from copies of
the office's file, so the office isn't held up. Changes are sent to the office over its interface,
with the desk's key, which a person gives when signing in and which is never written to disk. The
--room folder contains the log, notes on prices, and the changes that were prepared; only its owner
can read it.
"""

SERVE_EPILOG = """\
example: cpi-tools desk serve --office http://127.0.0.1:8080 --file office.db --room desk

exit status: 0 if a signal ended it; 1 if it can't serve (one line says why); 2 if the arguments
are refused
"""


def add_second_person(words: argparse.ArgumentParser) -> None:
    """The words of the second person, who confirms a freeze."""
    says = "ask for a reason to freeze if nobody has seen a price that moves all items by more points than this"
    words.add_argument(
        "--reason-above",
        type=a_few_points,
        default=REASON_ABOVE,
        metavar="POINTS",
        help=f"{says} ({points(REASON_ABOVE, 2)})",
    )
    says = "ask the person who confirms a freeze for this key"
    words.add_argument("--second-key-file", type=Path, metavar="FILE", help=says)


def add_serve(jobs: argparse._SubParsersAction[ToolWords]) -> None:
    """The job `serve` of the tool `desk`."""
    words = jobs.add_parser("serve", help="Serve the desk's pages to a browser", description=SERVE, epilog=SERVE_EPILOG)
    add = words.add_argument
    add("--office", type=a_url, default=URL, metavar="URL", help="the office's address (%(default)s)")
    add("--file", type=Path, required=True, metavar="FILE", help="the office's file, which is only read")
    add("--room", type=Path, required=True, metavar="FOLDER", help="where to keep the log and notes")
    add(
        "--listen",
        type=a_listener,
        default=LISTEN,
        metavar="ADDRESS",
        help="where to listen (%(default)s): with --front, the path of a socket that only the front may open",
    )
    add("--other-machines", action="store_true", help="allow an address that other machines can reach")
    add("--front", type=a_url, metavar="URL", help="the pages' address at a front with TLS, which the pages trust")
    add(
        "--minutes",
        type=at_least(1),
        default=IDLE_MINUTES,
        metavar="N",
        help="end an idle session after this many minutes (%(default)s)",
    )
    add("--phones", type=an_origin, metavar="URL", help="the front that collectors use, for the sheets with their keys")
    add_language(words, "the pages")
    add("--site", type=Path, metavar="FOLDER", help="where to write the website, next to calendar.json for phones")
    add(
        "--site-config",
        type=Path,
        metavar="FILE",
        help="the website's configuration: who publishes, and under which names",
    )
    add("--sign", type=Path, metavar="KEY", help="sign the website's manifest with this SSH key")
    add(
        "--left-out",
        type=at_least(0),
        default=8,
        metavar="N",
        help="how many quotes a trial leaves out in turn (%(default)s)",
    )
    add_second_person(words)
    add(
        "--field-notes",
        type=at_least(0),
        default=0,
        metavar="MONTHS",
        help="accept collectors' notes, ask them questions, and keep both for this many months (0: do neither)",
    )
    says = "let each supervisor in this CSV file (name, key, collectors) see at /team/ how far these collectors are"
    add("--supervisors", type=Path, metavar="FILE", help=says)
    add(
        "--copies",
        type=Path,
        metavar="FOLDER",
        help="where copies of the office's file go (by default, the folder that TMPDIR names)",
    )
    add_program(words)
    words.set_defaults(run=run, tool="desk serve", words=words)
