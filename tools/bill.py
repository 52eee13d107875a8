"""The bill of materials of a package: a document of CycloneDX 1.5 in JSON, by which others know what is in it.

It lists the program and its crates (crates.txt), the libraries of the toolchain in it with the works of others that they
follow (THIRD-PARTY.md), and Debian's packages that the package names. The same inputs give the same bytes.
"""

from __future__ import annotations

import hashlib
import json
import re
import uuid
from datetime import datetime, timezone
from pathlib import Path
from typing import Any, NamedTuple

from crates import below, listed
from notices import PAGE, Work, notices
from versions import Release

PROGRAM = "cpi"
"""The crate of the program: what isn't below it, such as the crate of tests, is in no package."""

OF_SPDX = {"Unicode-3": "Unicode-3.0"}
"""SPDX's names of licenses that have other names in THIRD-PARTY.md."""

SPDX_NAME = re.compile(r"[A-Za-z0-9.-]+")

FOLLOWED = re.compile(r"`([\w-]+)` ([0-9]+(?:\.[0-9]+)+)")
"""A work of others with its version, as THIRD-PARTY.md names what was followed."""

SCOPES = {"Depends": "required", "Recommends": "optional", "Suggests": "optional"}
"""How CycloneDX says what a field of the package's control file asks for."""

Part = dict[str, Any]


class Packed(NamedTuple):
    """What a bill is of: the release, Debian's name of the machine, the lines of dist/MADE, the program, and the text of
    the package's control file."""

    of: Release
    architecture: str
    known: dict[str, str]
    program: bytes
    control: str


def bill(top: Path, packed: Packed) -> str:
    """The bill of a package that is made of a repository."""
    crates = listed(top)
    own = [*below(crates, PROGRAM), PROGRAM]
    works = notices((top / PAGE).read_text(encoding="utf-8")).works
    debian = packages(packed.control)
    parts = [program(packed), *(own_crate(name, packed.of) for name in own), *map(work, works), *map(package, debian)]
    head = f"pkg:deb/sabrethog/cpi@{packed.of.version}?arch={packed.architecture}"
    at = datetime.fromtimestamp(packed.of.epoch, timezone.utc).strftime("%Y-%m-%dT%H:%M:%SZ")
    whole: Part = {
        "bomFormat": "CycloneDX",
        "specVersion": "1.5",
        "version": 1,
        "metadata": {
            "timestamp": at,
            "component": {
                **{"type": "application", "bom-ref": head, "name": "cpi", "version": packed.of.version, "purl": head},
                "licenses": licenses("MIT"),
                "properties": [
                    {"name": f"sabrethog:{name}", "value": packed.known[name]} for name in ("sources", "kit")
                ],
            },
        },
        "components": parts,
        "dependencies": dependencies(head, crates, own, works, debian),
    }
    name = uuid.uuid5(uuid.NAMESPACE_URL, hashlib.sha256(json.dumps(whole).encode()).hexdigest())
    return json.dumps({"serialNumber": f"urn:uuid:{name}", **whole}, indent=1, ensure_ascii=False) + "\n"


# ---- components


def program(packed: Packed) -> Part:
    """The program."""
    digest = hashlib.sha256(packed.program).hexdigest()
    named = {"type": "file", "bom-ref": "file:usr/bin/cpi", "name": "usr/bin/cpi", "version": packed.of.version}
    return {**named, "hashes": [{"alg": "SHA-256", "content": digest}], "licenses": licenses("MIT")}


def own_crate(name: str, of: Release) -> Part:
    """A crate of the repository."""
    return {
        "type": "library",
        "bom-ref": f"crate:{name}",
        "name": name,
        "version": of.version,
        "licenses": licenses("MIT"),
    }


def work(of: Work) -> Part:
    """The libraries of the toolchain that follow a work of others: its own words, holders and license."""
    made: Part = {"type": "library", "bom-ref": f"work:{of.name}", "name": of.name}
    matches = FOLLOWED.findall(of.said)
    if versions := [version for name, version in matches if name == of.name]:
        made["version"] = versions[0]
    made |= {"description": of.said.replace("`", ""), "licenses": licenses(of.license)}
    made["copyright"] = "\n".join(of.copyrights)
    if matches:
        # (what is in the program was written after these: a fault of theirs may be one of it)
        ancestors = [{"type": "library", "name": name, "version": version} for name, version in matches]
        if "Rust crate" in of.said:
            ancestors = [
                {**ancestor, "purl": f"pkg:cargo/{ancestor['name']}@{ancestor['version']}"} for ancestor in ancestors
            ]
        made["pedigree"] = {"ancestors": ancestors}
    if of.crates:
        made["properties"] = [{"name": "sabrethog:crate", "value": crate} for crate in of.crates]
    return made


def licenses(name: str) -> list[Part]:
    """A license as CycloneDX has it: by SPDX's name if it has one, as an expression, or in words."""
    name = OF_SPDX.get(name, name)
    if SPDX_NAME.fullmatch(name):
        return [{"license": {"id": name}}]
    if re.fullmatch(r"[\w.-]+ WITH [\w.-]+", name):
        return [{"expression": name}]
    return [{"license": {"name": name}}]


class Asked(NamedTuple):
    """A package of Debian that the package names: its name, which versions, and in which field."""

    name: str
    versions: str
    field: str


def packages(control: str) -> list[Asked]:
    """The packages of Debian that a control file names, in its order."""
    packages = []
    for field in SCOPES:
        line = re.search(rf"^{field}: (.+)$", control, re.M)
        for one in line[1].split(", ") if line else ():
            name, _, versions = one.partition(" ")
            packages.append(Asked(name, versions.strip("()"), field))
    return packages


def package(asked: Asked) -> Part:
    """A package of Debian."""
    named = {"type": "library", "bom-ref": f"deb:{asked.name}", "name": asked.name, "scope": SCOPES[asked.field]}
    properties = [{"name": "debian:relation", "value": asked.field}]
    if asked.versions:
        properties.append({"name": "debian:versions", "value": asked.versions})
    return {**named, "purl": f"pkg:deb/debian/{asked.name}", "properties": properties}


# ---- what each is made of


def dependencies(
    head: str, crates: dict[str, list[str]], own: list[str], works: list[Work], debian: list[Asked]
) -> Any:
    """What each component rests on: the package, the program, its crates, and the works that libraries follow."""
    of_work = {crate: of.name for of in works for crate in of.crates}
    on: dict[str, list[str]] = {head: ["file:usr/bin/cpi", *(f"deb:{query.name}" for query in debian)]}
    # (some works are in no library that a crate names: they come with the toolchain)
    on["file:usr/bin/cpi"] = [f"crate:{PROGRAM}", *(f"work:{of.name}" for of in works)]
    for name in own:
        rests = [f"crate:{crate}" if crate in crates else f"work:{of_work[crate]}" for crate in crates[name]]
        on[f"crate:{name}"] = list(dict.fromkeys(rests))
    return [{"ref": ref, "dependsOn": sorted(parts)} for ref, parts in on.items()]
