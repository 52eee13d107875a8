"""`cpi-tools seasonal`: published levels out, for programs of seasonal adjustment; or adjusted by R's `stl`."""

from __future__ import annotations

import argparse
import csv
import io
import re
import subprocess
import time
from collections.abc import Iterator, Mapping, Sequence
from pathlib import Path
from typing import NamedTuple

from ..office.tables import Series
from ..text.terminal import Fault, Progress, ToolWords, because_of, time_text, write_count
from ..text.text_files import write_whole
from .figures.aggregated import series_of
from .figures.config import Config, read_config
from .figures.seasonal_series import LEVELS, LIST, NUMBER, SEATS, STL, Method, Seasonal, months_of, series_of_office
from .figures.shown_figures import Shown
from .sources import add_source, read_source, test_source


# ==== levels of series in the forms that programs of seasonal adjustment read
#
# - **JDemetra+** reads `series.csv` as a text file (its provider Txt): a column of months such as `2026-01-01`, and one
#   for each series, with its code as the name; commas between cells, points before decimals.
# - **X-13ARIMA-SEATS** reads `00.dat` in the form `datevalue`, a line such as `2026 1 104.2` for each month, by the
#   specification `00.spc`, and all of them by `series.mta`. An existing specification stays, since it contains the
#   office's settings.
#
# The form of X-13 is that of its reference manual, which has no more than 79 characters in a title.

METAFILE = "series.mta"
MOST_TITLE = 79
"""The largest number of characters in a title of a specification."""

SPEC = """\
series{{
  title = "{title}"
  file = "{name}.dat"
  format = "datevalue"
  period = 12
}}
transform{{ function = auto }}
automdl{{ }}
outlier{{ types = (ao ls) }}
{method}{{ save = ({saves}) }}
"""


class Levels(NamedTuple):
    """The levels of a series by month as texts with six decimals, and the method that is to adjust it."""

    code: str
    title: str
    method: str
    texts: Mapping[str, str]


class Exchange(NamedTuple):
    """Files of a folder by their names: those that are written again each time, and files that stay once they exist."""

    anew: Mapping[str, bytes]
    once: Mapping[str, bytes]


def exchange_of(levels: Sequence[Levels]) -> Exchange:
    """The files of some series."""
    anew = {LEVELS: _table(levels), METAFILE: "".join(f"{level.code}\n" for level in levels).encode()}
    anew |= {f"{level.code}.dat": "".join(_date_lines(level)).encode() for level in levels}
    return Exchange(anew, {f"{level.code}.spc": _specification(level).encode() for level in levels})


def _table(levels: Sequence[Levels]) -> bytes:
    """A row for each month, a column for each series."""
    text = io.StringIO()
    rows = csv.writer(text, lineterminator="\n")
    rows.writerow(["month", *(level.code for level in levels)])
    for month in sorted({month for level in levels for month in level.texts}):
        rows.writerow([f"{month}-01", *(level.texts.get(month, "") for level in levels)])
    return text.getvalue().encode()


def _date_lines(levels: Levels) -> Iterator[str]:
    """The lines of a series with year, month and level."""
    for month, level in sorted(levels.texts.items()):
        yield f"{month[:4]} {int(month[5:])} {level}\n"


def _specification(levels: Levels) -> str:
    """A specification to begin with: the program chooses logarithms, a model and outliers."""
    title = "".join(" " if sign in "\"'\\{}" else sign for sign in f"{levels.code} {levels.title}")
    plain = title.encode("ascii", "replace").decode()[:MOST_TITLE].rstrip()
    method, saves = ("seats", "s11") if levels.method == SEATS else ("x11", "d11")
    return SPEC.format(title=plain, name=levels.code, method=method, saves=saves)


# ==== Adjusting by R's `stl` (Debian's r-base-core), for offices without X-13ARIMA-SEATS and JDemetra+. What comes out
# is analytical: the method knows neither trading days nor outliers of single months.
#
# The settings of such a series are words: `log` adjusts logarithms, so that seasonal factors grow with the level;
# `periodic` has the same factors in all years, and `window=13` (an odd number of years from 7 on) lets them change;
# `robust` gives months that are far from the others less weight. One of `periodic` and `window` is needed.

PROGRAM, SOFTWARE, FILE = "Rscript", "R", "stl.csv"
SECONDS = 60
"""A series takes less than one."""

FEWEST = 36
"""The number of months of the shortest series."""

SETTINGS = re.compile(r"(log )?(periodic|window=(7|9|[1-9][13579]))( robust)?")

SCRIPT = """\
given <- commandArgs(TRUE)
levels <- ts(scan(file("stdin"), quiet = TRUE), start = c(as.integer(given[1]), as.integer(given[2])), frequency = 12)
is_log <- given[3] == "log"
window <- if (given[4] == "periodic") "periodic" else as.integer(given[4])
found <- stl(if (is_log) log(levels) else levels, s.window = window, robust = given[5] == "robust")
adjusted <- (if (is_log) log(levels) else levels) - found$time.series[, "seasonal"]
cat(paste(R.version$major, R.version$minor, sep = "."), sprintf("%.6f", if (is_log) exp(adjusted) else adjusted), sep = "\\n")
"""


class NoStl(Fault):
    """A series that R doesn't adjust; one line."""


def adjusted_by_stl(of: Method, levels: Mapping[str, str], folder: Path) -> dict[str, str]:
    """The adjusted levels of a series by month, of its levels. Raises NoStl."""
    at = f"{folder / LIST}, row {of.line}: {of.code}"
    settings = SETTINGS.fullmatch(of.settings)
    if of.software != SOFTWARE or of.file != FILE or not settings:
        raise NoStl(
            f"{at} has the software {of.software}, the file {of.file} and the settings {of.settings}: with --stl these are"
            f" {SOFTWARE}, {FILE}, and settings such as: log periodic robust, or: log window=13"
        )
    months = sorted(levels)
    if len(months) < FEWEST:
        raise NoStl(f"{at} has {len(months)} months, and stl needs {FEWEST}")
    first = months[0][:4], str(int(months[0][5:]))
    words = ["log" if settings[1] else "plain", settings[3] or settings[2], "robust" if settings[4] else "plain"]
    version, *found = _run([*first, *words], "".join(f"{levels[month]}\n" for month in months)).split()
    if version != of.version:
        raise NoStl(f"{at} has the version {of.version}, and R here is {version}")
    if len(found) != len(months) or not all(map(NUMBER.fullmatch, found)):
        raise NoStl(f"{at}: R gave {len(found)} figures for {len(months)} months, or others than numbers above 0")
    return dict(zip(months, found))


def _run(words: list[str], given: str) -> str:
    """The output of R. Raises NoStl."""
    try:
        ran = subprocess.run(
            [PROGRAM, "--vanilla", "-e", SCRIPT, *words], input=given, capture_output=True, text=True, timeout=SECONDS
        )
    except FileNotFoundError as fault:
        raise NoStl(f"{PROGRAM} isn't installed: Debian's r-base-core has it") from fault
    except (OSError, subprocess.SubprocessError, UnicodeError) as fault:
        raise NoStl(because_of(fault) if isinstance(fault, OSError) else f"{PROGRAM}: {fault}") from fault
    if ran.returncode:
        raise NoStl(f"{PROGRAM}: {' '.join(ran.stderr.split())[-300:] or 'it ended without a word'}")
    return ran.stdout


# ==== `cpi-tools seasonal`: published levels out, for programs of seasonal adjustment; `publish` takes what these make
# of them

PUBLIC, PRIVATE = 0o644, 0o600


class NotExchanged(Fault):
    """Series that can't be written; one line."""


def levels_of(seasonal: Seasonal, series: Series, shown: Shown) -> list[Levels]:
    """The published levels of an office's list. Raises BadSeasonal."""
    levels = []
    for method in seasonal.methods:
        months = months_of(series, method, seasonal.folder)
        texts = {month: shown.text(month, method.code) for month in months}
        levels.append(Levels(method.code, series.title(method.code), method.method, texts))
    return levels


def write_exchange(seasonal: Seasonal, levels: Sequence[Levels], by_stl: bool, mode: int) -> list[str]:
    """Writes the files of series into the office's folder; returns the names of files that stay as they are. With
    `by_stl`, series of that method are adjusted too. Raises Fault, and then writes nothing."""
    exchange = exchange_of(levels)
    anew = dict(exchange.anew)
    if by_stl:
        anew[FILE] = _adjust(seasonal, {level.code: level.texts for level in levels})
    stay = [name for name in exchange.once if (seasonal.folder / name).exists()]
    once = {name: data for name, data in exchange.once.items() if name not in stay}
    try:
        for name, data in {**anew, **once}.items():
            write_whole(seasonal.folder / name, data, mode)
    except OSError as fault:
        raise NotExchanged(because_of(fault)) from fault
    return stay


def _adjust(seasonal: Seasonal, levels: Mapping[str, Mapping[str, str]]) -> bytes:
    """A table of the series that `stl` adjusts. Raises NoStl or NotExchanged."""
    found = {
        method.code: adjusted_by_stl(method, levels[method.code], seasonal.folder)
        for method in seasonal.methods
        if method.method == STL
    }
    if not found:
        raise NotExchanged("--stl: no series of the list has the method stl")
    text = io.StringIO()
    rows = csv.writer(text, lineterminator="\n")
    rows.writerow(["month", *found])
    for month in sorted({month for its in found.values() for month in its}):
        rows.writerow([month, *(its.get(month, "") for its in found.values())])
    return text.getvalue().encode()


# ---- words

DESCRIPTION = """\
Writes the published index of each series in the office's list as files for seasonal adjustment:
series.csv for JDemetra+; a .dat and a .spc file for each series, and series.mta, for
X-13ARIMA-SEATS. The configuration names the folder (seasonal = FOLDER), and methods.csv in this
folder is the list. An existing .spc file stays, since it contains the office's settings.

cpi-tools publish takes the adjusted series from this folder. --check reports the faults that it
would find.
"""

EPILOG = """\
example: cpi-tools seasonal --db office.db --at $(date +%s) --config office.ini

exit status: 0 if the files were written, or --check found no fault; 1 if not (one line says why); 2
if the arguments are refused
"""


def add_words(tools: argparse._SubParsersAction[ToolWords]) -> None:
    """The tool `seasonal`."""
    words = tools.add_parser(
        "seasonal", help="Write series for seasonal adjustment", description=DESCRIPTION, epilog=EPILOG
    )
    add = words.add_argument
    add_source(words)
    add("--draft", action="store_true", help="allow a time in the future: then only the owner can read the files")
    add("--config", type=Path, required=True, metavar="FILE", help="the configuration of cpi-tools publish")
    also = words.add_mutually_exclusive_group()
    also.add_argument(
        "--stl", action="store_true", help="also adjust the series of the method stl, with R (r-base-core)"
    )
    also.add_argument("--check", action="store_true", help="write nothing, but check the adjusted series")
    words.set_defaults(run=run, tool="seasonal", words=words)


def run(chosen: argparse.Namespace) -> int:
    """Runs the tool with its arguments; returns its exit status."""
    test_source(chosen)
    if chosen.at is not None and chosen.at > time.time() and not chosen.draft:
        raise NotExchanged(
            f"--at {chosen.at} is {time_text(chosen.at)}, which is still to come: its tables may be under embargo now"
            " (--draft writes them for their owner alone)"
        )
    config = read_config(chosen.config)
    if config.seasonal is None:
        raise NotExchanged(f"{chosen.config} has no folder of adjusted series (seasonal = FOLDER)")
    with Progress("cpi-tools seasonal") as progress:
        series = series_of(read_source(chosen, progress), config.specials)
    says = _check(config, series) if chosen.check else _write(config, series, chosen.stl, chosen.draft)
    print(f"{config.seasonal.folder}: {says}")
    return 0


def _check(config: Config, series: Series) -> str:
    """The report on adjusted series without a fault. Raises BadSeasonal."""
    assert config.seasonal
    seasonal_series = series_of_office(config.seasonal, series, Shown(series, config.reference))
    last = min(max(series.rows) for series in seasonal_series.values())
    return f"{len(seasonal_series)} adjusted series up to {last}"


def _write(config: Config, series: Series, by_stl: bool, is_draft: bool) -> str:
    """The report on series that were written."""
    assert config.seasonal
    levels = levels_of(config.seasonal, series, Shown(series, config.reference))
    stay = write_exchange(config.seasonal, levels, by_stl, PRIVATE if is_draft else PUBLIC)
    kept = f"; {write_count(len(stay), 'specification')} of X-13 stayed" if stay else ""
    return f"{len(levels)} series up to {series.every[-1]}{kept}"
