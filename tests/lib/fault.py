"""The result of a check: the fault that it found, or None."""

from __future__ import annotations

from typing import Optional

Fault = Optional[str]
