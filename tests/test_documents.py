"""Runs every command of the guides and of the program's own help as it stands, and follows every link.

The blocks ```sh of a document run one after the other in one bash, in a folder that has all that the repository has but
an `out` of its own; a block ```text behind one is what it prints. Blocks whose fence says ```sh not-run, and indented
ones, aren't run: they ask for root, for the prover, or for hours. `./cpi` stands for the program that is tried, which
`cpi-tools` takes too, and port 8080 for a free one. What a guide leaves running is ended.

Each relative link of each document points to a file that is there, and its #anchor to a heading of it. Each path and
each name of code that it tells is there, and no paragraph, cell or document is too long (tests/lib/documents.py).

Each help says what its command reads and writes, an example and the exit statuses. The examples of `replay` and `table`
run in a folder with the records of examples/table.csv and a key of the desk: what they print is what the program
answers in memory; that of `serve` runs until it listens, or is told that its port is taken. The program has to be named
`cpi`, and `curl` has to be there.
"""

from __future__ import annotations

import contextlib
import json
import os
import re
import shutil
import signal
import subprocess
from collections.abc import Iterator, Sequence
from pathlib import Path
from typing import NamedTuple

import pytest

from lib.documents import all_words, document_faults, draw_arrows, drawing_faults, record_faults
from lib.fault import Fault
from lib.places import ROOT
from lib.program import Going, Program
from lib.served import free_port
from lib.statements import functions_outside, statements_named, statements_outside
from lib.tried import fault_in

pytestmark = pytest.mark.spread

BLOCK = re.compile(r"^```sh\n(.*?)^```\n(?:```text\n(.*?)^```\n)?", re.S | re.M)
SECONDS = 600

Block = tuple[str, str]
"""Commands, and what they print."""


def content(name: str) -> str:
    """The text of a document."""
    return (ROOT / name).read_text(encoding="utf-8")


def documents() -> Iterator[str]:
    """The names of all documents."""
    for folder, folders, names in os.walk(ROOT):
        folders[:] = [folder for folder in folders if folder not in ("out", ".git")]
        yield from (os.path.relpath(os.path.join(folder, name), ROOT) for name in names if name.endswith(".md"))


DOCUMENTS = sorted(documents())
GUIDES = [name for name in DOCUMENTS if BLOCK.search(content(name))]


# ---- the commands


def blocks_of(guide: str) -> list[Block]:
    return BLOCK.findall(re.sub(r"\b8080\b", str(free_port()), content(guide)))


def repository_in(folder: Path) -> Path:
    """A folder that has all that the repository has, and an empty `out`."""
    (folder / "out").mkdir(parents=True)
    for path in ROOT.iterdir():
        if path.name not in ("out", ".git"):
            (folder / path.name).symlink_to(path)
    return folder


def path_without_cpi() -> str:
    folders = os.environ["PATH"].split(os.pathsep)
    return os.pathsep.join(folder for folder in folders if not os.path.exists(os.path.join(folder, "cpi")))


def ran(commands: str, folder: Path, environment: dict[str, str]) -> Fault:
    """Runs one bash in a folder, and ends what it leaves running; what is wrong, if it doesn't end."""
    words = ["bash", "-c", commands]
    with subprocess.Popen(words, cwd=folder, env=environment, start_new_session=True) as bash:
        try:
            bash.wait(timeout=SECONDS)
            return None
        except subprocess.TimeoutExpired:
            return f"no block goes on after {SECONDS} seconds"
        finally:
            with contextlib.suppress(ProcessLookupError):
                os.killpg(bash.pid, signal.SIGKILL)


def outputs(blocks: Sequence[Block], program: Program, room: Path) -> Iterator[str]:
    """What each block printed, from one bash, in which `cpi` is found once PATH has the folder of the repository."""
    parts = [f"exec > {room}/{at} 2>&1\n{commands}" for at, (commands, _) in enumerate(blocks)]
    commands = re.sub(r"(?m)(^|[ (|])\./cpi(?= )", rf"\1{program.path}", "\n".join(parts))
    commands = commands.replace('PATH="$PATH:$PWD"', f'PATH="{os.path.dirname(program.path)}:$PATH:$PWD"')
    environment = {**os.environ, "PATH": path_without_cpi(), "CPI": program.path, "TMPDIR": str(room)}
    fault = ran(commands, repository_in(room / "repository"), environment)
    for at in range(len(blocks)):
        path, is_last = room / f"{at}", not (room / f"{at + 1}").exists()
        wrote = path.read_text(encoding="utf-8") if path.exists() else "the block wasn't reached"
        yield f"{wrote} ({fault})" if fault and is_last else wrote


def difference(wrote: str, wanted: str) -> Fault:
    """What a block prints otherwise."""
    return None if wrote == wanted else f"wrote {wrote[:300]!r}, wanted {wanted[:300]!r}"


@pytest.mark.parametrize("guide", GUIDES)
def test_the_commands_of_a_document(program: Program, tmp_path: Path, guide: str) -> None:
    blocks = blocks_of(guide)
    pairs = zip(blocks, outputs(blocks, program, tmp_path))
    assert fault_in((f"{it.splitlines()[0]} ..", difference(wrote, wanted)) for (it, wanted), wrote in pairs) is None


# ---- the links

FENCED = re.compile(r"^```.*?^```$", re.S | re.M)
HEADING = re.compile(r"^#+ (.*)$", re.M)
LINK = re.compile(r"\]\(([^)\s]+)\)")


def anchors_of(name: str) -> set[str]:
    """As GitHub makes them of headings."""
    headings = HEADING.findall(FENCED.sub("", content(name)))
    return {re.sub(r"[^\w -]", "", heading.lower()).replace(" ", "-") for heading in headings}


def dead_links(name: str) -> Iterator[str]:
    """Links of a document that lead nowhere."""
    for link in LINK.findall(FENCED.sub("", content(name))):
        path, _, anchor = link.partition("#")
        target = os.path.normpath(os.path.join(os.path.dirname(name), path)) if path else name
        if ":" in path:
            continue
        if not (ROOT / target).exists() or (anchor and anchor not in anchors_of(target)):
            yield link


def document_fault(name: str) -> Fault:
    """What is wrong with a document, beside its commands."""
    faults = [f"no file or no heading for {link}" for link in dead_links(name)]
    return " | ".join([*faults, *document_faults(name, content(name))]) or None


@pytest.mark.parametrize("name", DOCUMENTS)
def test_a_document(name: str) -> None:
    assert document_fault(name) is None


def test_the_words_of_all_documents() -> None:
    assert all_words() is None


DATED = "**7. A sheet has one code** (2026-12-01)"


@pytest.mark.parametrize(
    "reason",
    [
        ", instead of two. Collectors scan it.",
        ", not two. Collectors scan it.",
        ": with two, a collector would scan the wrong one. So it is large.",
        ": a second code wouldn't be scanned. So it is large.",
    ],
)
def test_a_record_says_what_it_was_chosen_against(reason: str) -> None:
    assert [*record_faults(f"{DATED}{reason}\n")] == []


@pytest.mark.parametrize(
    "reason",
    [
        ": collectors scan it.",
        ". It has one instead of two.",
        ", for collectors. It has one, not two.",
        ": collectors scan it. With two codes, they would scan the wrong one.",
        ". Two wouldn't do: a collector would scan the wrong one.",
    ],
)
def test_a_record_that_says_it_nowhere_or_later_is_refused(reason: str) -> None:
    (fault,) = record_faults(f"{DATED}{reason}\n")
    assert fault.startswith(f"a record that doesn't say what it was chosen against: {DATED}")


def test_a_record_has_a_date_and_a_number_of_its_own() -> None:
    dated, undated = f"{DATED}, not two.", "**7. A sheet has one code**, not two."
    assert [*record_faults(f"{dated}\n\n{undated}")] == [
        f"a record without a date: {undated}..",
        "two decisions have the number 7",
    ]


def test_the_functions_that_run_a_statement_outside_of_a_transaction_are_named() -> None:
    assert statements_named(content("docs/develop/ARCHITECTURE.md")) == statements_outside(ROOT / "crates")


SOURCE = """\
pub fn ask(conn: &mut Connection<S>, text: &str) -> Result<usize, Error>
{
    conn.execute(text, &[])
}

fn put_within(tx: &mut Transaction<'_, S>, text: &str) {
    tx.execute(text, &[]);
}

pub(crate) fn put_both(conn: &mut Connection<S>) {
    let mut tx = conn.transaction();
    tx.execute("DELETE", &[]);
    conn.query("SELECT", &[]);
}
"""


def test_a_statement_is_outside_of_a_transaction_by_what_is_called() -> None:
    assert [*functions_outside(SOURCE)] == ["ask", "put_both"]
    assert [*functions_outside(SOURCE.replace("    conn.query", "    tx.query"))] == ["ask"]


WAY = """\
       begin      cpi_files  the first
       put_both   cpi_files  to ask, as above
       Job::run   cpi_files  the last
"""
CALLS = """\
fn begin() {
    put_both();
}

fn put_both() {}

fn ask() {
    job.run();
}

impl Other for Job {
    fn run() {}
}
"""


def test_a_drawn_function_calls_the_next_one(tmp_path: Path) -> None:
    (tmp_path / "cpi_files/src").mkdir(parents=True)
    source = tmp_path / "cpi_files/src/job.rt"
    source.write_text(CALLS, encoding="utf-8")
    assert [*drawing_faults(WAY, tmp_path)] == []
    source.write_text(CALLS.replace("    put_both();", "    ask();"), encoding="utf-8")
    assert [*drawing_faults(WAY, tmp_path)] == ["begin of cpi_files doesn't call put_both"]
    source.write_text(CALLS.replace("fn ask", "fn asks"), encoding="utf-8")
    assert [*drawing_faults(WAY, tmp_path)] == ["there is no ask in cpi_files"]
    assert len([*draw_arrows(content("docs/develop/ARCHITECTURE.md"))]) == 26


# ---- the helps

RECORDS = ROOT / "examples/table.csv"
EXAMPLE = re.compile(r"^Example: +(cpi (?:.*\\\n)*.*)$", re.M)
BARE = re.compile(r"^ +(?:-\w, )?--[\w-]+(?: <[\w-]+>)? *$", re.M)
"""An option of which nothing is said."""
PARTS = ["Reads: ", "Writes: ", "Example: ", "Exit status:\n", "  0 ", "  1 ", "  2 "]


class Tried(NamedTuple):
    """The status of an example, what it printed or wrote to replies.txt, and what it told."""

    status: int
    wrote: str
    told: str


def in_memory(program: Program) -> tuple[str, str]:
    """The lines of the records, and the table of a month."""
    given = RECORDS.read_bytes() + b"1769590800,public,table,2026-01,text\n"
    *lines, last = program.replay(given).out.decode().splitlines(True)
    return "".join(lines), json.loads(last)["table"]


def try_example(program: Program, room: str, example: str, is_endless: bool = False) -> Tried:
    """Runs an example. The endless one is ended once it has written a line."""
    paths = {**os.environ, "PATH": f"{os.path.dirname(program.path)}:{os.environ['PATH']}"}
    with Going(["bash", "-c", f"exec {example}"], cwd=room, env=paths, stderr=subprocess.PIPE) as running:
        begun = running.line() if is_endless else b""
        if is_endless:
            running.process.terminate()
        ended = running.end()
    wrote, replies = begun + ended.out, Path(room, "replies.txt")
    wrote = replies.read_bytes() if replies.exists() else wrote
    return Tried(ended.status, wrote.decode(), ended.err.decode())


def example_of(program: Program, *command: str) -> str:
    """The example of a help, which says what its command reads and writes and the exit statuses, in narrow lines."""
    text = program.run(*command, "--help").out.decode()
    assert [part for part in PARTS if f"\n{part}" not in text] == []
    assert [line for line in text.splitlines() if len(line) > 100] == []
    assert BARE.findall(text) == []
    example = EXAMPLE.search(text)
    assert example
    return example[1]


def put_records(room: str) -> None:
    """Puts the files of the examples into a folder: records, and a key of the desk."""
    shutil.copy(RECORDS, f"{room}/records.csv")
    Path(room, "desk-key").write_text("0123456789abcdef" * 2 + "\n", encoding="utf-8")


@pytest.mark.parametrize("command", [[], ["replay"]], ids=["cpi", "replay"])
def test_the_help_of_a_replay(program: Program, room: str, command: list[str]) -> None:
    put_records(room)
    tried = try_example(program, room, example_of(program, *command))
    assert tried[:2] == (0, in_memory(program)[0])


def test_the_help_of_a_table(program: Program, room: str) -> None:
    put_records(room)
    program.replay(RECORDS.read_bytes(), f"{room}/office.db")
    assert try_example(program, room, example_of(program, "table"))[:2] == (0, in_memory(program)[1])


def test_the_help_of_serve(program: Program, room: str) -> None:
    put_records(room)
    tried = try_example(program, room, example_of(program, "serve"), is_endless=True)
    assert tried.wrote == "cpi: listening on 127.0.0.1:8080\n" or tried.told == "cpi: no port\n", tried
