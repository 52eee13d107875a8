"""What is made of other files is theirs."""

from __future__ import annotations

import subprocess

from lib.places import ROOT


def test_what_is_made_of_other_files_is_theirs() -> None:
    ran = subprocess.run([ROOT / "tools/pages", "--check"], capture_output=True, text=True, check=False)
    assert (ran.returncode, ran.stderr) == (0, "")
