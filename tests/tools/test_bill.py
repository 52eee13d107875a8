"""The bill of materials and the sums that go with a package: the bill is by the rules of CycloneDX 1.5 and has what the
package has, and whoever holds the files finds out by sha256sum and gpg whether they are whole."""

from __future__ import annotations

import hashlib
import json
import os
import re
import subprocess
import tempfile
from collections.abc import Iterator
from pathlib import Path
from typing import Any

import pytest

from bill import licenses, packages
from cpi_tools.office.program import Cpi
from crates import listed
from lib.places import ROOT
from .needs import needed

pytestmark = pytest.mark.xdist_group("package")

FIELDS: dict[str, tuple[set[str], set[str]]] = {
    "bom": ({"bomFormat", "specVersion", "serialNumber", "version", "metadata", "components", "dependencies"}, set()),
    "metadata": ({"timestamp", "component"}, {"tools", "supplier"}),
    "component": (
        {"type", "name"},
        {
            "bom-ref",
            "version",
            "description",
            "scope",
            "hashes",
            "licenses",
            "copyright",
            "purl",
            "pedigree",
            "properties",
        },
    ),
    "property": ({"name", "value"}, set()),
    "hash": ({"alg", "content"}, set()),
    "pedigree": (set(), {"ancestors", "notes"}),
    "dependency": ({"ref"}, {"dependsOn"}),
}
"""The fields that an object of CycloneDX 1.5 has to have, and those of the others that are used here; its schema lets
none of another name in."""

TYPES = {"application", "framework", "library", "container", "operating-system", "device", "firmware", "file"}
SPDX_LIST = Path("/usr/share/nodejs/spdx-license-ids/index.json")
"""SPDX's names of licenses, of Debian's package node-spdx-license-ids."""

USED_LICENSES = {"MIT", "Apache-2.0", "BSD-3-Clause", "Unicode-3.0"}


def fielded(kind: str, value: Any) -> None:
    has, may = FIELDS[kind]
    assert isinstance(value, dict) and has <= set(value) <= has | may, (kind, value)


def of_license(value: Any) -> None:
    """A license by SPDX's name or in words, or an expression of SPDX's."""
    if set(value) == {"expression"}:
        assert re.fullmatch(r"[\w.-]+ WITH [\w.-]+", value["expression"])
        return
    assert set(value) == {"license"} and set(value["license"]) in ({"id"}, {"name"})
    if "id" in value["license"]:
        known = set(json.loads(SPDX_LIST.read_text())) if SPDX_LIST.exists() else USED_LICENSES
        assert value["license"]["id"] in known


def of_component(value: Any) -> None:
    """A component by the rules of the schema."""
    fielded("component", value)
    assert (
        value["type"] in TYPES
        and value["name"]
        and value.get("scope", "required") in ("required", "optional", "excluded")
    )
    for digest in value.get("hashes", []):
        fielded("hash", digest)
        assert digest["alg"] == "SHA-256" and re.fullmatch("[0-9a-f]{64}", digest["content"])
    for license_of in value.get("licenses", []):
        of_license(license_of)
    for each in value.get("properties", []):
        fielded("property", each)
    if "purl" in value:
        assert re.fullmatch(
            r"pkg:(deb/(debian|sabrethog)|cargo)/[a-z0-9._+-]+(@[0-9A-Za-z.~_+-]+)?(\?arch=\w+)?", value["purl"]
        )
    if "pedigree" in value:
        fielded("pedigree", value["pedigree"])
        for ancestor in value["pedigree"]["ancestors"]:
            of_component(ancestor)


@pytest.fixture(scope="module")
def found(package: Path) -> Any:
    """The bill of the package."""
    return json.loads(package.with_suffix(".cdx.json").read_text(encoding="utf-8"))


def test_the_bill_is_by_the_rules_of_cyclonedx(found: Any) -> None:
    fielded("bom", found)
    assert (found["bomFormat"], found["specVersion"], found["version"]) == ("CycloneDX", "1.5", 1)
    assert re.fullmatch("urn:uuid:[0-9a-f]{8}-([0-9a-f]{4}-){3}[0-9a-f]{12}", found["serialNumber"])
    fielded("metadata", found["metadata"])
    assert re.fullmatch(r"\d{4}-\d\d-\d\dT\d\d:\d\d:\d\dZ", found["metadata"]["timestamp"])
    parts = [found["metadata"]["component"], *found["components"]]
    for each in parts:
        of_component(each)
    refs = [part["bom-ref"] for part in parts]
    assert len(set(refs)) == len(refs) == len(set(map(str, parts)))
    for each in found["dependencies"]:
        fielded("dependency", each)
        assert {each["ref"], *each["dependsOn"]} <= set(refs) and len(set(each["dependsOn"])) == len(each["dependsOn"])
    assert len({dependency["ref"] for dependency in found["dependencies"]}) == len(found["dependencies"])


def named(found: Any, kind: str) -> set[str]:
    """The names of the components of a kind."""
    return {component["name"] for component in found["components"] if component["bom-ref"].startswith(f"{kind}:")}


def test_the_bill_has_what_the_package_has(found: Any, cpi: Cpi, package: Path, tmp_path: Path) -> None:
    crates = listed(ROOT)
    assert named(found, "crate") == {*crates} - {"cpi_tests"}
    works = (ROOT / "THIRD-PARTY.md").read_text().partition("\n## Works\n")[2].partition("\n## Licenses\n")[0]
    assert named(found, "work") == set(re.findall("^### (.+)$", works, re.M))
    (program,) = (component for component in found["components"] if component["type"] == "file")
    assert program["hashes"][0]["content"] == hashlib.sha256(cpi.path.read_bytes()).hexdigest()
    subprocess.run(["dpkg-deb", "--control", package, tmp_path / "told"], check=True)
    fields = re.findall("^(?:Depends|Recommends|Suggests): (.*)$", (tmp_path / "told/control").read_text(), re.M)
    assert named(found, "deb") == {one.split()[0] for field in fields for one in field.split(", ")}
    assert found["metadata"]["component"]["version"] == package.name.split("_")[1]
    by_ref = {dependency["ref"]: dependency["dependsOn"] for dependency in found["dependencies"]}
    assert {"crate:cpi_office", "crate:cpi_wire", "work:serde_json", "work:csv"} <= set(by_ref["crate:cpi_wire"]) | {
        "crate:cpi_wire"
    }
    clap = next(component for component in found["components"] if component["bom-ref"] == "work:clap")
    assert [ancestor["purl"] for ancestor in clap["pedigree"]["ancestors"]] == [
        "pkg:cargo/clap_builder@4.6.7",
        "pkg:cargo/clap_lex@1.1.1",
    ]
    libc = next(component for component in found["components"] if component["bom-ref"] == "deb:libc6")
    assert {"name": "debian:versions", "value": ">= 2.34"} in libc["properties"] and libc["scope"] == "required"


def test_licenses_and_packages_are_read_as_they_stand() -> None:
    assert licenses("MIT") == [{"license": {"id": "MIT"}}] and licenses("Unicode-3") == [
        {"license": {"id": "Unicode-3.0"}}
    ]
    assert licenses("A WITH B-exception-3.1") == [{"expression": "A WITH B-exception-3.1"}]
    assert licenses("none is stated") == [{"license": {"name": "none is stated"}}]
    control = "Package: x\nDepends: a (>= 1), b\nSuggests: c\n"
    assert packages(control) == [("a", ">= 1", "Depends"), ("b", "", "Depends"), ("c", "", "Suggests")]


# ---- the sums and their signature


def checked(folder: Path, root: Path) -> "subprocess.CompletedProcess[str]":
    """What sha256sum says of the files of a folder, by the sums beside a package."""
    words = ["sha256sum", "--check", "--ignore-missing", str(folder / "SHA256SUMS")]
    return subprocess.run(words, cwd=root, capture_output=True, text=True, check=False)


def test_the_sums_are_those_of_package_bill_and_program(package: Path, cpi: Cpi, tmp_path: Path) -> None:
    folder = package.parent
    names = [line.split("  ")[1] for line in (folder / "SHA256SUMS").read_text().splitlines()]
    assert names == [f"{package.stem}.cdx.json", package.name, "usr/bin/cpi"]
    assert checked(folder, folder).stdout == f"{names[0]}: OK\n{names[1]}: OK\n"
    subprocess.run(["dpkg-deb", "--extract", package, tmp_path], check=True)
    assert checked(folder, tmp_path).stdout == "usr/bin/cpi: OK\n"
    (tmp_path / "usr/bin/cpi").write_bytes(b"another program")
    assert checked(folder, tmp_path).returncode == 1
    assert not (folder / "SHA256SUMS.asc").exists()


@pytest.fixture
def keys(monkeypatch: pytest.MonkeyPatch) -> Iterator[str]:
    """A secret key in a folder of its own, and its name."""
    gpg = needed("gpg")
    # (the socket of gpg's agent has a short path)
    with tempfile.TemporaryDirectory(prefix="cpi-gpg-") as home:
        monkeypatch.setenv("GNUPGHOME", home)
        made = [
            gpg,
            "--batch",
            "--passphrase",
            "",
            "--quick-generate-key",
            "office@prices.example",
            "ed25519",
            "sign",
            "1d",
        ]
        subprocess.run(made, capture_output=True, check=True)
        yield "office@prices.example"
        subprocess.run(["gpgconf", "--kill", "all"], check=False)


def test_the_sums_are_signed_if_a_key_is_given(package: Path, cpi: Cpi, keys: str, tmp_path: Path) -> None:
    """The files are those that are made without a key; a key that isn't there leaves nothing new."""
    words = [str(ROOT / "tools/package"), "--to", str(tmp_path / "to"), "--program", str(cpi.path), "--sign"]
    refused = subprocess.run([*words, "nobody@prices.example"], capture_output=True, text=True, check=False)
    assert refused.returncode == 1 and refused.stderr.startswith("tools/package: --sign nobody@prices.example: gpg: ")
    assert refused.stderr.count("\n") == 1 and os.listdir(tmp_path / "to") == []
    subprocess.run([*words, keys], capture_output=True, check=True)
    verify = ["gpg", "--batch", "--verify", str(tmp_path / "to/SHA256SUMS.asc"), str(tmp_path / "to/SHA256SUMS")]
    assert subprocess.run(verify, capture_output=True, check=False).returncode == 0
    for name in (package.name, f"{package.stem}.cdx.json", "SHA256SUMS"):
        assert (tmp_path / "to" / name).read_bytes() == (package.parent / name).read_bytes()
    (tmp_path / "to/SHA256SUMS").write_text("others")
    assert subprocess.run(verify, capture_output=True, check=False).returncode != 0
    # (sums that nobody signed have no signature beside them)
    subprocess.run(words[:-1], capture_output=True, check=True)
    assert not (tmp_path / "to/SHA256SUMS.asc").exists()
