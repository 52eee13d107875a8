"""What the benches share. Its modules also take from tests/ and tools/, which this puts on the path."""

import sys
from pathlib import Path

TOP = Path(__file__).resolve().parents[2]
"""The folder of the repository."""

sys.path += [str(TOP / folder) for folder in ("tests", "tools")]
