"""What was refused by an earlier run, kept by the sums of all that its check read."""

from __future__ import annotations

import contextlib
import hashlib
import json
import os
from collections.abc import Iterable
from pathlib import Path
from typing import Optional

from .edits import Edit
from .prover import Libraries
from .sources import Crate

RULES = 3
"""Raise this when the rules change by which an edit counts as refused: then nothing that is kept counts."""


def choose_folder() -> Path:
    """The folder of the user in which results are kept."""
    return Path(os.environ.get("XDG_CACHE_HOME") or Path.home() / ".cache") / "sabrethog/refused"


def sum_files(paths: Iterable[Path]) -> str:
    """A sum of what files hold. OSError: one can't be read."""
    made = hashlib.sha256()
    for path in paths:
        made.update(hashlib.sha256(path.read_bytes()).digest())
    return made.hexdigest()


def sum_kit(kit: Path) -> str:
    """The sum of what the toolchain is."""
    return sum_files([kit / "KIT-ID", kit / "bin/rattle"])


def sum_crate(crate: Crate, libraries: Libraries, kit: str) -> str:
    """A sum of all that a check of the crate reads: its texts, its line of crates.txt, the libraries below it (the
    format of each has the sums of its other files), the toolchain (`kit` is its sum), and the rules."""
    texts = sorted(crate.texts.items())
    below = sum_files(map(libraries.format, libraries.list_below(crate.name)))
    made = repr((RULES, crate.name, texts, list(libraries.uses[crate.name]), below, kit))
    return hashlib.sha256(made.encode()).hexdigest()


class Cache:
    """The kept results of a crate: a file for each edit that was refused. `sum` is that of the crate."""

    def __init__(self, folder: Path, sum: str) -> None:
        self.folder, self.sum = folder, sum

    def key(self, edit: Edit) -> str:
        """The name under which the verdict of an edit is kept: a sum of all that it depends on."""
        error = (edit.code, edit.says) if edit.code else ()
        laws = sorted(edit.names()) if edit.is_of_definitions() else []
        return hashlib.sha256(repr((self.sum, edit.name, edit.pairs, *error, *laws)).encode()).hexdigest()

    def find(self, edit: Edit) -> Optional[str]:
        """What was said of an edit that was refused; None if nothing whole is kept of it."""
        key = self.key(edit)
        with contextlib.suppress(OSError, ValueError, TypeError, KeyError):
            found = json.loads((self.folder / key).read_text(encoding="utf-8"))
            if found["key"] == key and found["end"] == "refused" and isinstance(found["text"], str):
                return str(found["text"])
        return None

    def keep(self, edit: Edit, text: str) -> None:
        """Keeps what was said of a refused edit, whole or not at all. If the folder can't be written, nothing is kept."""
        key = self.key(edit)
        new = self.folder / f"{key}.{os.getpid()}"
        with contextlib.suppress(OSError):
            self.folder.mkdir(parents=True, exist_ok=True)
            new.write_text(json.dumps({"key": key, "text": text, "end": "refused"}), encoding="utf-8")
            os.replace(new, self.folder / key)
