"""Companions of cpi, the program of a consumer price index office.

It contains no rule of the office: `cpi` itself shows on a copy what would be done, and the module `recompute`, which is
the script that `examples/recompute` runs, computes figures again.

Units, everywhere: a moment is in seconds since 1970 UTC, a month is year * 100 + month, a price in minor units of
money, a carried price in ticks (1/10,000 of a minor unit), an index or a level in millionths of a point, a change in
tenths of a percent. All are whole numbers.
"""

VERSION = "1.1-dev"
"""The number of the release, or that of the next one with `-dev`, as CHANGELOG.md and `cpi --version` have it."""
