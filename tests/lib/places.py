"""The places of files in the repository."""

from pathlib import Path

ROOT = Path(__file__).resolve().parents[2]
"""The folder of the repository."""

TOP = str(ROOT)
"""The folder of the repository, as a text."""
