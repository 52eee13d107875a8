"""The manifest of a pack with the sums of its files, and the manifest's signature by `ssh-keygen -Y`."""

from __future__ import annotations

import base64
import filecmp
import hashlib
import json
import re
import subprocess
from collections.abc import Callable, Iterable, Iterator, Mapping
from pathlib import Path
from typing import Any, NamedTuple, Optional

from ...office.folders import files_of, new_room
from ...office.tables import CoreRow, Row, SeasonalSeries, Series, Table, iso
from ...text.terminal import Fault, because_of


# ==== the manifest of a pack: each published table with its SHA-256, the figures of each special aggregate and of each
# measure of core inflation with theirs, adjusted series too, and the SHA-256 of the manifest before
#
# So what was published can't change without a word: who holds one manifest holds all before it. It has nothing but
# these figures, so other texts or pages over the same ones leave it as it is. SHA256SUMS has the sums of all files, as
# `sha256sum --check` reads it.

MANIFEST, SUMS = "manifest.json", "SHA256SUMS"

CHANGES_FILE = re.compile("data/changes/[0-9A-Za-z][0-9A-Za-z.-]*")
"""The name of a file of changes in a pack."""

TableId = tuple[str, int]
"""Month and revision of a table."""


class NotAManifest(Fault):
    """A file that isn't a manifest; one line."""


class SetSum(NamedTuple):
    """The figures of a special aggregate: their first and last month, and the SHA-256 of a line for each month."""

    first: str
    last: str
    sha256: str


class Change(NamedTuple):
    """The changes of a pack from the one before: its name, the releases that were new, the SHA-256 of the manifest
    before, how many observations are replaced and deleted (None: they can't be compared), and the SHA-256 of each
    file that has them, by its name in the pack."""

    name: str
    releases: tuple[str, ...]
    since: str
    replaced: Optional[int]
    deleted: Optional[int]
    files: Mapping[str, str]


class Manifest(NamedTuple):
    """The contents of a manifest: time and SHA-256 of each table, the SHA-256 of the manifest before, its own, the
    figures of special aggregates by their ids, what each pack changed, and the figures of core measures and of
    adjusted series by their ids."""

    tables: dict[TableId, tuple[str, str]]
    previous: Optional[str]
    sha256: str
    sets: Mapping[str, SetSum] = {}
    changes: tuple[Change, ...] = ()
    core: Mapping[str, SetSum] = {}
    seasonal: Mapping[str, SetSum] = {}


def manifest_text(series: Series, previous: Optional[str], changes: Iterable[Change] = ()) -> str:
    """A manifest of all tables and sets, and of changes; `previous` is the SHA-256 of the one before."""
    tables = [
        {
            "month": vintage.month,
            "revision": vintage.revision,
            "published": iso(vintage.moment),
            "sha256": vintage.sha256,
        }
        for vintage in series.vintages
    ]
    set_sums = {name: set_sum(it.rows, series.latest) for name, it in series.specials.items()}
    sets = [{"id": name, **set_sum._asdict()} for name, set_sum in set_sums.items() if set_sum]
    sums = {name: core_sum(it.rows) for name, it in series.core.items()}
    core = [{"id": name, **set_sum._asdict()} for name, set_sum in sums.items() if set_sum]
    lists: list[tuple[str, list[dict[str, Any]]]] = [
        ("tables", tables),
        ("sets", sets),
        ("core", core),
        ("seasonal", [{"id": code, **_seasonal_sum(it)._asdict()} for code, it in series.seasonal.items()]),
        ("changes", [change._asdict() for change in changes]),
    ]
    parts = [f' "previous": {json.dumps(previous)}', *(_write_list(name, rows) for name, rows in lists if rows)]
    return "{\n" + ",\n".join(parts) + "\n}\n"


def _write_list(name: str, rows: list[dict[str, Any]]) -> str:
    """A list of a manifest, a row a line."""
    return f' "{name}": [\n' + ",\n".join(f"  {json.dumps(each)}" for each in rows) + "\n ]"


def set_line(row: Row, table: Table) -> str:
    """A month of a special aggregate as it is summed up: the cells of its file from `weight` to `imputed`."""
    return f"{table.month},{table.revision},{','.join(row.texts)}\n"


def set_sum(rows: Mapping[str, Row], tables: Mapping[str, Table]) -> Optional[SetSum]:
    """The sum of a set's rows by month; None if there are none."""
    text = "".join(set_line(rows[month], tables[month]) for month in sorted(rows))
    return SetSum(min(rows), max(rows), hashlib.sha256(text.encode()).hexdigest()) if rows else None


def core_sum(rows: Mapping[str, CoreRow]) -> Optional[SetSum]:
    """The sum of the figures of a measure of core inflation by month; None if there are none."""
    text = "".join(f"{month},{','.join(rows[month].texts)}\n" for month in sorted(rows))
    return SetSum(min(rows), max(rows), hashlib.sha256(text.encode()).hexdigest()) if rows else None


def _seasonal_sum(seasonal_series: SeasonalSeries) -> SetSum:
    """The sum of the figures of an adjusted series by month."""
    text = "".join(f"{month},{','.join(seasonal_series.rows[month].texts)}\n" for month in sorted(seasonal_series.rows))
    return SetSum(min(seasonal_series.rows), max(seasonal_series.rows), hashlib.sha256(text.encode()).hexdigest())


def read_manifest(path: Path) -> Manifest:
    """A manifest that was written before. Raises NotAManifest."""
    try:
        data = path.read_bytes()
    except OSError as fault:
        raise NotAManifest(because_of(fault)) from fault
    return manifest_of(data, str(path))


def manifest_of(data: bytes, name: str) -> Manifest:
    """The manifest of some bytes. Raises NotAManifest, which gives its name."""
    try:
        found: Any = json.loads(data)
        tables = {(row["month"], row["revision"]): (row["published"], row["sha256"]) for row in found["tables"]}
        previous = found["previous"]
        sets, core, seasonal = (
            {row["id"]: SetSum(row["first"], row["last"], row["sha256"]) for row in found.get(name, ())}
            for name in ("sets", "core", "seasonal")
        )
        changes = tuple(_change(row) for row in found.get("changes", ()))
    except (AttributeError, KeyError, TypeError, ValueError) as fault:
        raise NotAManifest(f"{name} is no manifest that cpi-tools publish wrote") from fault
    return Manifest(tables, previous, hashlib.sha256(data).hexdigest(), sets, changes, core, seasonal)


def _change(row: Any) -> Change:
    """A row of changes. Raises KeyError, TypeError or ValueError."""
    counts, files = (row["replaced"], row["deleted"]), {**row["files"]}
    # (their bytes are taken over, so a name leads nowhere else)
    if not all(CHANGES_FILE.fullmatch(name) for name in files):
        raise ValueError(files)
    return Change(row["name"], tuple(row["releases"]), row["since"], *counts, files)


def previous_of(before: Optional[Manifest], series: Series, changes: Iterable[Change] = ()) -> Optional[str]:
    """The SHA-256 that a new manifest gives for the previous one, if `before` is the last: with the same figures and
    changes it stays the same."""
    if before is None:
        return None
    now = manifest_of(manifest_text(series, None, changes).encode(), "")
    then, found = (
        (manifest.tables, manifest.sets, manifest.core, manifest.seasonal, manifest.changes)
        for manifest in (before, now)
    )
    is_same = then == found
    return before.previous if is_same else before.sha256


def changed_since(before: Manifest, series: Series) -> Iterator[str]:
    """A line for each table of an earlier manifest that is missing now, or that differs."""
    now = {(vintage.month, vintage.revision): (iso(vintage.moment), vintage.sha256) for vintage in series.vintages}
    for (month, revision), then in before.tables.items():
        found = now.get((month, revision))
        if found is None:
            yield f"the table of {month}, revision {revision}, was published and isn't there any more"
        elif found != then:
            yield f"the table of {month}, revision {revision}, isn't the one that was published"


# ---- files


def sum_of(path: Path) -> str:
    """SHA-256 of a file, in hexadecimal; the file may be too large for memory."""
    found = hashlib.sha256()
    with path.open("rb") as file:
        for block in iter(lambda: file.read(1 << 20), b""):
            found.update(block)
    return found.hexdigest()


def write_sums(folder: Path, known: Mapping[str, str]) -> None:
    """Writes the sums of all files of a folder, some of which are known."""
    lines = (f"{known.get(name) or sum_of(folder / name)}  {name}\n" for name in files_of(folder))
    (folder / SUMS).write_text("".join(lines), encoding="utf-8")


def differences(one: Path, other: Path) -> Iterator[str]:
    """A line for each file of the second folder that the first lacks, for each extra one, and for each that differs."""
    first, second = set(files_of(one)), set(files_of(other))
    yield from (f"{name} is missing" for name in sorted(second - first))
    yield from (f"{name} is too much" for name in sorted(first - second))
    for name in sorted(first & second):
        if not filecmp.cmp(one / name, other / name, shallow=False):
            yield f"{name} differs"


# ==== the signature of a pack: its manifest, signed by `ssh-keygen -Y sign` with a key of the office
#
# The manifest has the SHA-256 of each published table, so whoever trusts the key can tell that each of them is what the
# office published. Next to the signature lies a file that `ssh-keygen -Y verify` reads: the name of the office and its
# public key. The name of the key itself has to come from elsewhere, since whoever makes another pack can make a key
# too.

SIGNATURE, SIGNERS = f"{MANIFEST}.sig", "allowed_signers"
NAMESPACE = "cpi-manifest"
"""A signature for another purpose isn't one of a manifest."""


class CannotSign(Fault):
    """A key that can't sign, or a signature that doesn't hold; one line."""


class Signature(NamedTuple):
    """The signature of a manifest, and the line of `allowed_signers` for whoever checks it."""

    armoured: str
    signers: str

    @property
    def identity(self) -> str:
        """The name under which the office signs."""
        return self.signers.split()[0]

    @property
    def public_key(self) -> str:
        """The kind of the key, and the key."""
        return " ".join(self.signers.split()[2:4])

    @property
    def fingerprint(self) -> str:
        """The key's fingerprint as ssh-keygen shows it: `SHA256:` and 43 characters."""
        key = base64.b64decode(self.signers.split()[3])
        return "SHA256:" + base64.b64encode(hashlib.sha256(key).digest()).decode().rstrip("=")

    def write(self, folder: Path) -> None:
        """Writes both files into a pack."""
        (folder / SIGNATURE).write_text(self.armoured, encoding="utf-8")
        (folder / SIGNERS).write_text(self.signers, encoding="utf-8")


Sign = Callable[[bytes], Optional[Signature]]
"""Signs the bytes of a manifest, or doesn't."""


def sign_nothing(_: bytes) -> Optional[Signature]:
    """Signs nothing."""
    return None


def is_signed(folder: Path) -> bool:
    """Whether a pack has a signature, or a part of one: the other part may be lost, or not readable."""
    return any((folder / name).exists() for name in (SIGNATURE, SIGNERS))


def signature_in(folder: Path) -> Optional[Signature]:
    """The signature that a pack has, if it is signed. Raises CannotSign if its files aren't those of this tool."""
    try:
        texts = [(folder / name).read_text(encoding="utf-8") for name in (SIGNATURE, SIGNERS)]
    except FileNotFoundError:
        return None
    except (OSError, UnicodeDecodeError) as fault:
        raise CannotSign(because_of(fault) if isinstance(fault, OSError) else f"{folder}: {fault}") from fault
    signature = Signature(*texts)
    if len(signature.signers.split()) != 4:
        raise CannotSign(f"{folder / SIGNERS} isn't a line with a name, a namespace and a key")
    return signature


# ==== signing a manifest, and testing its signature, by `ssh-keygen -Y`


def sign_manifest(key: Path, identity: str, manifest: bytes) -> Signature:
    """Signs a manifest with a private key, or with a public one whose private key an agent or a token has.

    Raises CannotSign.
    """
    kind, public = _public_key(key).split()[:2]
    signature = _ran(["-Y", "sign", "-q", "-f", str(key), "-n", NAMESPACE], manifest)
    found = Signature(signature, f'{identity} namespaces="{NAMESPACE}" {kind} {public}\n')
    verify(found, manifest)
    return found


def signed_by(key: Optional[Path], identity: str) -> Sign:
    """Signs with a key under a name; without a key nothing."""
    if key is None:
        return sign_nothing
    own = key
    return lambda manifest: sign_manifest(own, identity, manifest)


def keep_signature(folder: Path) -> Sign:
    """The signature that a pack has, if it holds for the manifest."""

    def verify_kept(manifest: bytes) -> Optional[Signature]:
        signature = signature_in(folder)
        if signature:
            verify(signature, manifest)
        return signature

    return verify_kept


def verify(signature: Signature, manifest: bytes) -> None:
    """Raises CannotSign if a signature isn't that of a manifest by the key that is named next to it."""
    with new_room("cpi-signature-") as room:
        signature.write(room)
        named = ["-I", signature.identity, "-n", NAMESPACE]
        files = ["-f", f"{room}/{SIGNERS}", "-s", f"{room}/{SIGNATURE}"]
        _ran(["-Y", "verify", *files, *named], manifest)


def _public_key(key: Path) -> str:
    """The line of a public key: of a file next to the private one, or out of the key itself."""
    beside = key if key.suffix == ".pub" else key.with_name(f"{key.name}.pub")
    try:
        text = beside.read_text(encoding="utf-8")
    except (OSError, UnicodeDecodeError):
        text = _ran(["-y", "-f", str(key)], b"")
    if len(text.split()) < 2:
        raise CannotSign(f"{beside} is no public key of ssh-keygen")
    return text


def _ran(words: list[str], given: bytes) -> str:
    """The output of ssh-keygen. Raises CannotSign with the first line of its fault."""
    try:
        ran = subprocess.run(["ssh-keygen", *words], input=given, capture_output=True, check=False)
    except FileNotFoundError:
        raise CannotSign("there is no ssh-keygen: Debian's openssh-client has it") from None
    if ran.returncode:
        lines = [*filter(None, (ran.stderr or ran.stdout).decode(errors="replace").splitlines())] or [
            "it gave no reason"
        ]
        raise CannotSign(f"ssh-keygen {words[0]} {words[1]}: {lines[0]}")
    return ran.stdout.decode()


# ==== the files of a new pack that are made whole in memory, of which there are thousands: written once, and their sums
# kept


class NewFiles:
    """Writes files into the folder of a pack, which takes its place as a whole later."""

    def __init__(self, folder: Path):
        self.folder = folder
        self.sums: dict[str, str] = {}
        """The SHA-256 of each file that was written here, in hexadecimal, by its name in the pack."""
        self._top = f"{folder}/"

    def write(self, name: str, content: bytes) -> None:
        """Writes a file by its name in the pack, into an existing folder. Raises OSError."""
        with open(self._top + name, "xb", buffering=0) as file:
            left = memoryview(content)
            while left:
                left = left[file.write(left) :]
        self.sums[name] = hashlib.sha256(content).hexdigest()

    def sum_of(self, name: str) -> str:
        """The SHA-256 of a file of the pack that is whole; it is computed once."""
        if name not in self.sums:
            self.sums[name] = sum_of(self.folder / name)
        return self.sums[name]
