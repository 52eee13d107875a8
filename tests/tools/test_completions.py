"""`tools/completions`: what bash, zsh and fish complete of the words of cpi and of cpi-tools."""

from __future__ import annotations

import argparse
import os
import pty
import re
import select
import shlex
import subprocess
import time
from collections.abc import Iterator
from pathlib import Path

import pytest

from completions import SHELLS, completions
from completions.words import help_of, of_help, of_parser, with_paths
from lib.places import ROOT
from cpi_tools.command_line import parser
from cpi_tools.office.program import Cpi
from manual import tools_of
from .needs import needed
from .test_ops import script

SECONDS = 90
"""How long a shell may take to complete a word."""


@pytest.fixture(scope="module")
def files(cpi: Cpi, tmp_path_factory: pytest.TempPathFactory) -> Path:
    """A folder that has the files as they lie below /."""
    root = tmp_path_factory.mktemp("root")
    for name, text in completions(cpi.path, parser()).items():
        (root / name).parent.mkdir(parents=True, exist_ok=True)
        (root / name).write_text(text, encoding="utf-8")
    return root


def file_of(files: Path, shell: str, name: str) -> Path:
    return files / SHELLS[shell][0].format(name)


# ---- their words


def helps_below(path: str, words: argparse.ArgumentParser) -> Iterator[tuple[str, str]]:
    """What the help of each tool says, by the words that lead to it."""
    yield path, words.format_help()
    for name, _, below in tools_of(words):
        yield from helps_below(f"{path} {name}", below)


def helps(cpi: Cpi) -> Iterator[tuple[str, str]]:
    """What each help of both programs says, by the words that lead to it."""
    for path in ("cpi", "cpi replay", "cpi serve", "cpi table"):
        yield path, help_of(cpi.path, *path.split()[1:])
    yield from helps_below("cpi-tools", parser())


def test_each_option_of_each_help_is_known(cpi: Cpi) -> None:
    both = [*with_paths(of_help("cpi", cpi.path)), *with_paths(of_parser("cpi-tools", "", parser()))]
    found = {path: set(one.spelled()) for path, one in both if not path.startswith("cpi help")}
    wanted = {}
    for path, told in helps(cpi):
        listed = " ".join(re.findall(r"^ {2,6}(-.*?)(?:  |$)", told, re.M))
        wanted[path] = set(re.findall(r"(?<![\w-])(?:--[a-z][a-z-]*|-[A-Za-z]\b)", listed))
    assert found == wanted
    assert "--reason" in found["cpi-tools desk what-if"] and "--db" in found["cpi serve"]


OTHER_HELP = """\
Usage: cpi [OPTIONS] <COMMAND>

Commands:
  serve  Serves

Options:
  -h, --help     Print help
  -V, --version  Print version
"""
SERVE_HELP = """\
Options:
      --db <db>                        The database file of the office
      --desk-key-file <desk-key-file>  Where the key is
      --desk-key <desk-key>            The key, in place of that file; see --desk-key-file for a
                                       longer text
      --a-rather-long-option <value>
          text or csv

Reads:     nothing
"""


def test_an_option_that_comes_is_known(tmp_path: Path) -> None:
    text = f"#!/bin/sh\ncase $1 in serve) cat <<'E'\n{SERVE_HELP}E\n;; *) cat <<'E'\n{OTHER_HELP}E\n;; esac\n"
    found = of_help("cpi", script(tmp_path / "cpi", text))
    assert found.spelled() == ["-h", "--help", "-V", "--version"]
    (serve,) = found.below
    kinds = {each.names[0]: (each.value.is_file, each.value.choices) for each in serve.options if each.value}
    assert kinds == {
        "--db": (True, ()),
        "--desk-key-file": (True, ()),
        "--desk-key": (False, ()),
        "--a-rather-long-option": (False, ("text", "csv")),
    }


# ---- bash

COMPLETED = [
    # a line, and the words that it may go on with
    ("cpi ", ["replay", "serve", "table", "help"]),
    ("cpi re", ["replay"]),
    ("cpi --h", ["--help"]),
    ("cpi help t", ["table"]),
    ("cpi replay --", ["--zone", "--db", "--help"]),
    ("cpi table --db office.db --f", ["--form"]),
    ("cpi table --form ", ["text", "csv"]),
    ("cpi table --form=c", ["csv"]),
    ("cpi table --month ", []),
    ("cpi replay --db replay --z", ["--zone"]),
    ("cpi-tools ta", ["take-in", "take-out"]),
    ("cpi-tools desk ", ["month", "close", "what-if", "serve"]),
    ("cpi-tools desk what-if --reason ", ["stock", "closed", "gone", "refused"]),
    ("cpi-tools desk close office.db 2026-01 --carry a", ["ask", "all"]),
    ("cpi-tools backup --rep", ["--replace"]),
    ("cpi-tools no-tool --", ["--help", "--version"]),
]
FILES = ["cpi replay --db ", "cpi replay --db of", "cpi serve --db=", "cpi-tools backup of", "cpi-tools probe --file o"]


def words_of(line: str) -> list[str]:
    """The words that bash makes of a line, the last of which may be empty."""
    words = [part for word in line.split(" ") for part in re.split("(=)", word) if part]
    return words + ([""] if line.endswith(" ") else [])


def by_function(files: Path, line: str) -> list[str]:
    """What the function of the program answers."""
    words = words_of(line)
    name = words[0]
    commands = [
        f"source {shlex.quote(str(file_of(files, 'bash', name)))}",
        f"COMP_WORDS=({shlex.join(words)}) COMP_CWORD={len(words) - 1}",
        f"_{name.replace('-', '_')}",
        'printf "%s\\n" "${COMPREPLY[@]}"',
    ]
    bash = [needed("bash"), "--norc", "--noprofile", "-uc", "\n".join(commands)]
    ran = subprocess.run(bash, capture_output=True, text=True, check=False)
    assert (ran.returncode, ran.stderr) == (0, "")
    return [word for word in ran.stdout.split("\n") if word]


@pytest.mark.parametrize(("line", "wanted"), COMPLETED)
def test_bash_completes_a_word(files: Path, line: str, wanted: list[str]) -> None:
    assert sorted(by_function(files, line)) == sorted(wanted)


@pytest.mark.parametrize("line", FILES)
def test_bash_leaves_files_to_itself(files: Path, line: str) -> None:
    assert by_function(files, line) == []


def typed(words: list[str], setup: str, line: str, wanted: str, folder: Path) -> str:
    """What a shell shows once a line and a tab are typed, as soon as it shows what is wanted, or after a while."""
    child, terminal = pty.fork()
    if not child:
        os.chdir(folder)
        os.execvpe(words[0], words, {"PATH": "/usr/bin:/bin", "HOME": str(folder), "TERM": "dumb", "PS1": "ready$ "})
    shown, end, sent = "", time.monotonic() + SECONDS, [f"{setup}; echo be''gun\r", f"{line}\t"]
    os.write(terminal, sent[0].encode())
    try:
        while time.monotonic() < end and wanted not in shown.partition("begun")[2]:
            if select.select([terminal], [], [], 0.2)[0]:
                shown += os.read(terminal, 4096).decode(errors="replace")
            if "begun\r\n" in shown and len(sent) == 2:
                os.write(terminal, sent.pop().encode())
    finally:
        os.close(terminal)
        os.waitpid(child, 0)
    return shown.partition("begun")[2]


@pytest.mark.parametrize(
    ("line", "wanted"),
    [
        ("cpi rep", "cpi replay "),
        ("./cpi replay --db my", "--db my\\ office.db"),
        ("cpi-tools bac", "cpi-tools backup "),
    ],
)
def test_a_real_bash_completes_what_is_typed(files: Path, tmp_path: Path, line: str, wanted: str) -> None:
    (tmp_path / "my office.db").touch()
    setup = f"source {file_of(files, 'bash', 'cpi')}; source {file_of(files, 'bash', 'cpi-tools')}"
    bash = [needed("bash"), "--norc", "--noprofile", "-i"]
    assert wanted in typed(bash, setup, line, wanted, tmp_path)


# ---- zsh and fish


@pytest.mark.parametrize(
    ("line", "wanted"),
    [("cpi rep", "cpi replay "), ("cpi table --fo", "--form "), ("cpi-tools desk wh", "desk what-if "),
     ("cpi-tools desk what-if off", "what-if office.db "), ("cpi replay --db of", "--db office.db ")],
)  # fmt: skip
def test_a_real_zsh_completes_what_is_typed(files: Path, tmp_path: Path, line: str, wanted: str) -> None:
    (tmp_path / "office.db").touch()
    folder = file_of(files, "zsh", "cpi").parent
    setup = f"fpath=({folder} $fpath); autoload -Uz compinit; compinit -D -u"
    assert wanted in typed([needed("zsh"), "-f", "-i"], setup, line, wanted, tmp_path)


@pytest.mark.parametrize(("line", "wanted"), [pair for pair in COMPLETED if "no-tool" not in pair[0]])
def test_fish_completes_a_word(files: Path, tmp_path: Path, line: str, wanted: list[str]) -> None:
    name = line.split()[0]
    commands = f"source {file_of(files, 'fish', name)}; complete -C {shlex.quote(line)}"
    kept = {"PATH": "/usr/bin:/bin", "HOME": str(tmp_path)}
    fish = [needed("fish"), "--no-config", "-c", commands]
    ran = subprocess.run(fish, capture_output=True, text=True, check=False, cwd=tmp_path, env=kept)
    words = [row.split("\t")[0].split("=")[-1] for row in ran.stdout.splitlines()]
    assert (ran.returncode, sorted(words)) == (0, sorted(wanted)), ran.stderr


# ---- for a clone


def test_zsh_completes_by_what_a_clone_prints(files: Path, tmp_path: Path) -> None:
    sourced = "; ".join(f"source {file_of(files, 'zsh', name)}" for name in ("cpi", "cpi-tools"))
    setup = f"autoload -Uz compinit; compinit -D -u; {sourced}"
    assert "./cpi replay " in typed([needed("zsh"), "-f", "-i"], setup, "./cpi rep", "./cpi replay ", tmp_path)


def test_a_clone_prints_the_same(cpi: Cpi, files: Path) -> None:
    for shell in SHELLS:
        words = [str(ROOT / "tools/complete"), shell, "--program", str(cpi.path)]
        ran = subprocess.run(words, capture_output=True, text=True, check=True)
        assert ran.stdout == "\n".join(file_of(files, shell, name).read_text() for name in ("cpi", "cpi-tools"))


def test_a_program_that_prints_no_help_is_one_line(tmp_path: Path) -> None:
    words = [str(ROOT / "tools/complete"), "bash", "--program", str(tmp_path / "none")]
    ran = subprocess.run(words, capture_output=True, text=True, check=False)
    assert (ran.returncode, ran.stdout) == (1, "")
    assert re.fullmatch(r"tools/complete: \S+/none doesn't print its words: .*\n", ran.stderr)
