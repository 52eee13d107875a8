"""R's `stl` (Debian's r-base-core) adjusts a series whose trend and factors are known."""

from __future__ import annotations

import subprocess
from math import exp, log
from pathlib import Path

from cpi_tools.publish.figures.seasonal_series import Method
from cpi_tools.publish.seasonal import adjusted_by_stl

FACTORS = [1.02, 1.01, 1.0, 0.99, 0.98, 1.0, 1.03, 0.97, 1.0, 1.0, 1.01, 0.99]
"""What each month of a year is multiplied by."""


def test_what_is_left_is_the_trend() -> None:
    """The trend grows by 0.2 percent a month; of factors whose mean isn't 1 the rest is in the level."""
    said = subprocess.run(["Rscript", "--version"], capture_output=True, text=True, check=True)
    version = (said.stdout + said.stderr).split("version ")[1].split()[0]
    mean = exp(sum(map(log, FACTORS)) / 12)
    trend = {f"{2022 + at // 12}-{at % 12 + 1:02}": 100 * 1.002**at for at in range(60)}
    levels = {month: f"{level * FACTORS[at % 12] / mean:.6f}" for at, (month, level) in enumerate(trend.items())}
    for settings, most in (("log window=13 robust", 0.001), ("log periodic", 0.25)):
        found = adjusted_by_stl(Method("00", "stl.csv", "stl", "R", version, settings, 12, 2), levels, Path("s"))
        assert [*found] == [*levels]
        assert all(abs(float(found[month]) - level) < most for month, level in trend.items()), settings
        moved = max(abs(float(levels[month]) - level) for month, level in trend.items())
        assert moved > 2
