"""A small repository of five crates, with the scripts that start, build and ship the program, and stand-ins.

The stand-in for `rt` builds a crate only if everything below it is built, reserves the folders in which it works as
`rt` does, and logs its actions.
"""

from __future__ import annotations

import hashlib
import os
import shutil
import subprocess
import sys
from pathlib import Path
from typing import Any, NamedTuple

TOP = Path(__file__).resolve().parents[2]
SCRIPTS = [
    "cpi",
    "cpi-build",
    "test",
    "tools/gate",
    "tools/sources",
    "tools/dist",
    "tools/minutes.py",
    "tools/notices.py",
    "tools/parts.py",
    "tools/proved.py",
]
SETUPS = ["tools/setup", "tests/linters/setup.sh", "tests/web/setup.sh"]
"""The scripts with which ./test installs packages first; here they install nothing."""

CRATES = "low:\nleft: low\nright: low\ncpi: low left right # the program\ncpi_tests: low left right\n"
KIT = "rattle-kit-0 logic 0123"
# What the scripts call beside Python; so they find no real `rt`.
TOOLS = """
awk basename bash cat chmod cmp cp cut date dirname echo env find flock grep head mkdir mktemp mv nproc readlink
realpath rm sed sh sha256sum sleep sort sync tail tee timeout touch tr true uname wc xargs
"""

# Words in the text of a crate tell the stand-in what to do: slow (never end, unless it was begun before), wrong (prove
# nothing), moving (change the sources meanwhile), stuck (a gate that ends before it begins), meeting (go on only when left
# and right have both begun, or after ten seconds).
RT = """#!/usr/bin/env bash
set -eu
below() { sed -n "s/#.*//; s/^$1: *//p" ../../crates.txt; }
stamp() { for it in $1 $(below $1); do cat ../$it/src/*; done | sha256sum; }
name=$(basename "$PWD")
tell() { echo "$1 $name" >> "$RT_LOG"; }
case $1 in
version) echo "KIT" ;;
ci)
  find . -type f | sed 's:^./::' | sort > "$GATE"
  if grep -q stuck crates/*/src/*; then echo "0 passed, 1 failed"; exit 2; fi
  mkdir -p crates/low/out/rlib/low.rlib && echo built > crates/low/out/rlib/low.rlib/format
  echo "rt: low proved"
  for _ in {1..100}; do [ ! -e "$CALLS/waits" ] || sleep 0.1; done
  mkdir -p crates/cpi/out && cp /usr/bin/env crates/cpi/out/cpi
  (exec -a rattle bash -c 'sleep 0.7; true' check --crate-name low)
  echo "2 passed, 0 failed" ;;
lib | run)
  for it in $name $(below $name); do
    exec {lock}< ../$it
    flock -n $lock || { tell locked; exit 2; }
  done
  tell begins
  for it in $(below $name); do
    [ "$(cat ../$it/out/rlib/stamp)" = "$(stamp $it)" ] || { echo "$it isn't built"; exit 1; }
  done
  mkdir -p out/rlib
  if grep -q moving src/*; then echo x >> ../low/src/lib.rt; fi
  if grep -q wrong src/*; then echo "fn $name::f: not proved"; exit 1; fi
  if [ "$(cat out/rlib/stamp 2> /dev/null)" = "$(stamp $name)" ]; then tell same; exit 0; fi
  if grep -q slow src/* && [ ! -f out/waited ]; then
    touch out/waited
    for _ in {1..200}; do sleep 0.1; done
    exit 3
  fi
  if grep -q meeting src/*; then
    for _ in {1..100}; do [ "$(grep -cE '^begins (left|right)' "$RT_LOG")" -lt 2 ] || break; sleep 0.1; done
  fi
  stamp $name > out/rlib/stamp
  [ $1 = lib ] || { echo '#!/bin/bash'; echo "text='$(cat ../low/src/*)'"; cat "$PROGRAM"; } > out/cpi
  [ $1 = lib ] || chmod +x out/cpi
  tell built ;;
esac
""".replace(
    "KIT", KIT
)

NOTICES = "# Notices\n\n## Works\n\n## Licenses\n\n### MIT\n\n```text\nDo as you like.\n```\n"
NOTICE = "### far\n\nA port of far.\n\n- Crates: `far`, `farther`\n- Copyright (c) 2020 Far\n- License: MIT\n\n"

# What it says of a program that needs two libraries, of one of them symbols of two versions.
OBJDUMP = """#!/usr/bin/env bash
printf '  %-20s %s\\n' NEEDED libm.so.6 NEEDED libc.so.6 INIT 0x1000
echo 'Version References:'
echo '  required from libc.so.6:'
printf '    0x0%d 0x00 0%d GLIBC_%s\\n' 1 2 2.4 3 4 2.34 5 6 2.14
"""

PROGRAM = """
[ "$1" != --help ] || exit 0
echo "$text: $# words"
printf '<%s>' "$@"
cat
exit 7
"""


class Ran(NamedTuple):
    status: int
    out: str
    err: str

    def lines(self) -> list[str]:
        return self.err.splitlines()

    def is_refused(self, *words: str) -> bool:
        """Whether it ended with one line, which contains these words, and ran nothing."""
        return (self.status, self.out, len(self.lines())) == (1, "", 1) and all(word in self.err for word in words)


SHIPPED = Ran(7, "as shipped: 3 words\n<a b><><*>input", "")
BUILT = Ran(7, "low as it is: 0 words\n<>", "")


def put(path: Path, text: str, mode: int = 0o644) -> None:
    path.parent.mkdir(parents=True, exist_ok=True)
    path.write_text(text, encoding="utf-8")
    path.chmod(mode)


def made_of(values: dict[str, str]) -> str:
    return "".join(f"{name}: {value}\n" for name, value in values.items())


class Repository:
    """A small repository in its own folder, with the stand-ins beside it."""

    def __init__(self, room: Path) -> None:
        self.room, self.top, self.last = room, room / "a folder/repository", Ran(0, "", "")
        self.out, self.made, self.crates = self.top / "out", self.top / "dist/MADE", self.top / "crates"
        self.shipped = self.top / "dist/cpi"
        for name in SCRIPTS:
            put(self.top / name, (TOP / name).read_text(encoding="utf-8"), 0o755)
        for name in SETUPS:
            put(self.top / name, "#!/bin/sh\n", 0o755)
        put(self.top / "crates.txt", CRATES)
        put(self.top / "HANDLES", "Handles allowed: none.\n")
        put(self.top / "THIRD-PARTY.md", NOTICES)
        for name in ("low", "left", "right", "cpi", "cpi_tests"):
            self.write(name, f"{name} as it was")
        put(room / "rt/rt", RT, 0o755)
        put(room / "rt/objdump", OBJDUMP, 0o755)
        put(room / "program", PROGRAM)
        put(room / "log", "")
        (room / "tools").mkdir()
        (room / "temporary").mkdir()
        for name, path in [("python3", sys.executable), *((word, shutil.which(word)) for word in TOOLS.split())]:
            if path:
                (room / "tools" / name).symlink_to(path)
        self.no_rt = {"PATH": f"{room}/tools", "HOME": f"{room}/home", "LC_ALL": "C"}
        self.environment = {**self.no_rt, "PATH": f"{room}/tools:{room}/rt"}
        self.environment.update(RT_LOG=f"{room}/log", PROGRAM=f"{room}/program", GATE=f"{room}/gate")
        self.environment.update(TMPDIR=f"{room}/temporary", CALLS=f"{room}/calls")

    def write(self, crate: str, text: str, name: str = "lib.rt") -> None:
        put(self.crates / crate / "src" / name, text)

    def stand_in(self, name: str, last: str, status: int = 0, sleeps: int = 0) -> None:
        """Puts something in place of a part of ./test that prints these last lines, and ends with this status."""
        calls = self.room / "calls" / name
        calls.parent.mkdir(parents=True, exist_ok=True)
        text = f"#!/bin/sh\necho \"$*\" >> '{calls}'\necho '{last}'\n"
        text += f"sleep {sleeps}.{os.getpid()}\n" if sleeps else ""
        put(self.top / name, f"{text}exit {status}\n", 0o755)

    def take_tests(self) -> None:
        """Copies the files that test_shipped_program.py needs, in place of the stand-in, with one case."""
        names = ["tests/run", "tests/pytest.ini", "tests/conftest.py", "tests/second_tries.txt"]
        names += [
            "tests/test_shipped_program.py",
            *(f"tests/lib/{path.name}" for path in (TOP / "tests/lib").glob("*.py")),
        ]
        for name in names:
            put(self.top / name, (TOP / name).read_text(encoding="utf-8"), 0o755)
        for name, text in {"args": "echo\nhi\n", "stdin": "", "stdout": "hi\n", "status": "0\n"}.items():
            put(self.top / "tests/cases/one" / name, text)

    def calls(self, name: str, keep: bool = False) -> list[str]:
        """The words of each call of a stand-in since the last call."""
        file = self.room / "calls" / name
        lines = file.read_text(encoding="utf-8").splitlines() if file.exists() else []
        if not keep:
            file.unlink(missing_ok=True)
        return lines

    def is_sleeping(self) -> bool:
        """Whether a stand-in still sleeps."""
        ran = subprocess.run(["pgrep", "-f", f"^sleep [0-9]+[.]{os.getpid()}$"], stdout=subprocess.PIPE, check=False)
        return ran.returncode == 0

    def start(self, *words: str, **how: Any) -> subprocess.Popen[bytes]:
        streams = {text: subprocess.PIPE for text in ("stdin", "stdout", "stderr")}
        how = {"cwd": self.room, "env": self.environment, **streams, **how}
        return subprocess.Popen([self.top / words[0], *words[1:]], **how)

    def run(self, *words: str, given: str = "", **how: Any) -> Ran:
        running = self.start(*words, **how)
        out, err = running.communicate(given.encode(), timeout=60)
        self.last = Ran(running.returncode, out.decode(), err.decode())
        return self.last

    def answers(self, **how: Any) -> Ran:
        return self.run("cpi", "a b", "", "*", given="input", **how)

    def sources(self, **how: Any) -> str:
        return self.run("tools/sources", **how).out.strip()

    def ship(self, other: bytes = b"", **values: str) -> None:
        """Makes dist/ from the current sources, with a program that says so, or with another one."""
        program = other or f"#!/bin/bash\ntext='as shipped'\n{PROGRAM}".encode()
        made = {"sources": self.sources(), "program": hashlib.sha256(program).hexdigest(), "kit": KIT}
        made.update(machine=os.uname().machine, needs="libc.so.6 GLIBC_2.34")
        put(self.made, made_of({**made, **values}))
        self.shipped.write_bytes(program)
        self.shipped.chmod(0o755)

    def told(self) -> list[str]:
        """The actions of rt's stand-in since the last call."""
        lines = (self.room / "log").read_text().splitlines()
        put(self.room / "log", "")
        return lines

    def kept(self) -> list[str]:
        """The files in out/ besides the files of a build."""
        return sorted({path.name for path in self.out.glob("*")} - {"logs", "lock", "proved"})

    def copies(self) -> int:
        return len([*self.top.parent.iterdir()]) - 1
