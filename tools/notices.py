#!/usr/bin/env python3
"""The notices of third parties, as THIRD-PARTY.md at the top has them: works, their holders and their licenses.

    tools/notices.py

says in one line what the page lacks, with status 1.

The page has a heading `### NAME` for each work below `## Works`, and for each license below `## Licenses`. Of a work it
says in a paragraph what it is, and then in the points of a list which crates of the toolchain have it (`Crates:`), each
line of copyright as it is, and the name of the license (`License:`). The text of a license is a fenced block. The
package for Debian has all of it once more, in the form that Debian's programs read.
"""

from __future__ import annotations

import re
import sys
import textwrap
from collections.abc import Iterable
from pathlib import Path
from typing import NamedTuple, Optional

PAGE = "THIRD-PARTY.md"

OF_DEBIAN = {"MIT": "Expat", "BSD-3-Clause": "BSD-3-clause"}
"""Debian's names of licenses that have other names there."""

COMMON = {"Apache-2.0"}
"""Licenses whose texts each system of Debian has, so that a package names the place."""

COPYRIGHT = """\
Format: https://www.debian.org/doc/packaging-manuals/copyright-format/1.0/
Upstream-Name: Sabrethog

Files: *
Copyright: {holder}
License: Expat

Files: usr/bin/cpi
Copyright:
 {holder}
{holders}
License: {licenses}
Comment:
 The program has code of these works; /usr/share/doc/cpi/THIRD-PARTY.md has their
 notices as they are.
{works}
"""


class Work(NamedTuple):
    """A work of others: its name, what is said of it, the crates that have it, lines of copyright, and its license."""

    name: str
    said: str
    crates: list[str]
    copyrights: list[str]
    license: str


class Notices(NamedTuple):
    """What the page has: the works in their order, and the text of each license by its name."""

    works: list[Work]
    licenses: dict[str, str]


def sections(text: str, head: str) -> dict[str, str]:
    """What stands below each heading `### NAME` of the part `## head`, by name."""
    part = re.search(rf"^## {head}\n(.*?)(?=^## |\Z)", text, re.S | re.M)
    pieces = re.split(r"^### (.+)\n", part[1] if part else "", flags=re.M)[1:]
    return {name: said.strip("\n") for name, said in zip(pieces[::2], pieces[1::2])}


def work_of(name: str, section: str) -> Work:
    """A work as its section says it; what is missing there is empty."""
    points = re.findall(r"^- (.+)$", section, re.M)
    said = " ".join(re.sub(r"^- .+$", "", section, flags=re.M).split())
    crates = [crate for point in points if point.startswith("Crates: ") for crate in re.findall(r"`(\w+)`", point)]
    copyrights = [point for point in points if point.startswith("Copyright")]
    license_of = [point.partition(": ")[2] for point in points if point.startswith("License: ")]
    return Work(name, said, crates, copyrights, license_of[0] if license_of else "")


def notices(text: str) -> Notices:
    """What a text of the page has."""
    works = [work_of(name, section) for name, section in sections(text, "Works").items()]
    licenses = {}
    for name, section in sections(text, "Licenses").items():
        if fenced := re.search(r"^```text\n(.*?)^```$", section, re.S | re.M):
            licenses[name] = fenced[1].strip("\n")
    return Notices(works, licenses)


def foreign_crates(listed: str) -> set[str]:
    """The crates that a text of crates.txt names and doesn't make: those of the toolchain."""
    lines = [line.partition("#")[0].partition(":") for line in listed.splitlines()]
    made = {name.split()[0] for name, _, _ in lines if name.split()}
    return {crate for _, _, below in lines for crate in below.split()} - made


def missing(top: Path) -> Optional[str]:
    """What the page at the top of a repository lacks, in one line; None if it lacks nothing."""
    try:
        of = notices((top / PAGE).read_text(encoding="utf-8"))
    except FileNotFoundError:
        return f"there is no {PAGE}, which has the notices of the libraries in the program"
    known = {crate for work in of.works for crate in work.crates}
    listed = (top / "crates.txt").read_text(encoding="utf-8")
    if without := sorted(foreign_crates(listed) - known):
        named = "which crates.txt names: say there what it is, of whom, and under which license"
        return f"{PAGE} has no entry for the crate {', '.join(without)}, {named}"
    for work in of.works:
        parts = {"paragraph": work.said, "line of copyright": work.copyrights, "license": work.license}
        if lacking := [part for part, there in parts.items() if not there]:
            return f"{PAGE}: {work.name} has no {', no '.join(lacking)}"
        # (a license of several words says itself where its text is)
        if work.license.split() == [work.license] and work.license not in of.licenses:
            return f"{PAGE} lacks the text of the license {work.license}, which {work.name} has"
    return None


# ---- the file `copyright` of Debian


def indented(lines: Iterable[str]) -> str:
    """Lines as they go on a field: each begins with a space, and one that is empty has a dot."""
    return "\n".join(f" {line}" if line else " ." for line in lines)


def told(work: Work) -> list[str]:
    """A work in a paragraph."""
    name = OF_DEBIAN.get(work.license, work.license)
    return ["", *textwrap.wrap(f"{work.name}: {work.said.replace('`', '')} License: {name}.", 79)]


def text_of(name: str, text: str) -> str:
    """The paragraph of a license, whose name is not Debian's."""
    there = f"On Debian systems its text is in /usr/share/common-licenses/{name}."
    return f"License: {OF_DEBIAN.get(name, name)}\n{indented([there] if name in COMMON else text.splitlines())}\n"


def debian_copyright(top: Path) -> str:
    """LICENSE and the page of a repository as Debian's copyright file. A ValueError says what LICENSE isn't."""
    own = (top / "LICENSE").read_text(encoding="utf-8")
    holder = re.search(r"^Copyright \(c\) (.*)$", own, re.M)
    if not (holder and own.startswith("MIT License\n")):
        raise ValueError("LICENSE isn't the MIT license with its holder")
    of = notices((top / PAGE).read_text(encoding="utf-8"))
    texts = {**of.licenses, "MIT": own.partition(holder[0])[2].strip()}
    named = ["MIT", *(work.license for work in of.works if work.license in texts)]
    holders = [f"{re.sub(r'^Copyright(:| [(]c[)]| ©) *', '', line)} ({work.name})"
               for work in of.works for line in work.copyrights]  # fmt: skip
    head = COPYRIGHT.format(
        holder=holder[1],
        holders=indented(holders),
        licenses=" and ".join(OF_DEBIAN.get(name, name) for name in dict.fromkeys(named)),
        works=indented(line for work in of.works for line in told(work)),
    )
    return "\n".join([head, *(text_of(name, texts[name]) for name in dict.fromkeys(named))])


if __name__ == "__main__":
    sys.exit(missing(Path(__file__).resolve().parent.parent))
