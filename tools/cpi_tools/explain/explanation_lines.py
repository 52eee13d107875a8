"""The lines of an explanation, `name = expression = value`, in parts with titles; and those of a node above."""

from __future__ import annotations

import re
from collections.abc import Iterable, Iterator
from fractions import Fraction
from functools import cached_property
from typing import NamedTuple, Optional, Union

from ..text.exact import HUNDRED, at_and_above, decimal, points, round_ratio, tenths
from ..text.message import Cell, Code, Message, Month, Price, Section, Ticks, columns, message, month_of
from ..text.others import of_others
from ..text.terminal import link_month, month_before
from .release_sources import Sources


# ==== expressions of whole numbers, `+ - * /`, brackets and `round( )`, as they appear in the lines of an explanation
#
# They are read in loops, since a sum over a whole plan has thousands of terms, and evaluated in fractions.

TOKEN = re.compile(r"\s*(\d+|round|[-+*/()])")


class NoExpression(ValueError):
    """A text isn't an expression."""


def value_of(text: str) -> Fraction:
    """The value of an expression; `round( )` rounds to the nearest whole number, halves up. Raises NoExpression."""
    tokens, at = [], 0
    while at < len(text):
        match = TOKEN.match(text, at)
        if not match:
            raise NoExpression(text[at : at + 20])
        tokens.append(match[1])
        at = match.end()
    value, end = _sum(tokens, 0)
    if end != len(tokens):
        raise NoExpression(" ".join(tokens[end : end + 5]))
    return value


def _sum(tokens: list[str], at: int) -> tuple[Fraction, int]:
    value, at = _product(tokens, at)
    while at < len(tokens) and tokens[at] in "+-":
        term, after = _product(tokens, at + 1)
        value, at = (value + term if tokens[at] == "+" else value - term), after
    return value, at


def _product(tokens: list[str], at: int) -> tuple[Fraction, int]:
    value, at = _factor(tokens, at)
    while at < len(tokens) and tokens[at] in "*/":
        factor, after = _factor(tokens, at + 1)
        value, at = (value * factor if tokens[at] == "*" else value / factor), after
    return value, at


def _factor(tokens: list[str], at: int) -> tuple[Fraction, int]:
    if at >= len(tokens):
        raise NoExpression("it ends too soon")
    if tokens[at] == "-":
        value, at = _factor(tokens, at + 1)
        return -value, at
    if tokens[at].isdigit():
        return Fraction(int(tokens[at])), at + 1
    is_rounded = tokens[at] == "round"
    begins = at + is_rounded
    if begins >= len(tokens) or tokens[begins] != "(":
        raise NoExpression(tokens[at])
    value, end = _sum(tokens, begins + 1)
    if end >= len(tokens) or tokens[end] != ")":
        raise NoExpression("a bracket isn't closed")
    return (Fraction(round_ratio(value.numerator, value.denominator)) if is_rounded else value), end + 1


# ==== the lines of an explanation: `name = expression = value`, in parts with titles
#
# Units: prices in minor units of money, carried prices and bases in ticks (10,000 to a minor unit), indices and levels
# in millionths of a point, changes in tenths of a percent.

Value = Union[int, Fraction, None]

WITHIN = message("within the year; the link month is 100")
"""The note next to an index."""


class Line:
    """A figure: its name, the expression that gives it (none if it is given), and its value (None if there is none);
    its description, the row of the file that contains the value, whether it is the published one, an aggregate that is
    missing on the row's carry list, and the value as an amount of money, if it is one."""

    def __init__(
        self,
        name: str,
        expression: str,
        value: Value,
        says: str = "",
        row: str = "",
        is_result: bool = False,
        uncarried: str = "",
        amount: Union[Price, Ticks, None] = None,
    ):
        self.name, self.expression, self.value, self.says = name, expression, value, says
        self.row, self.is_result, self.uncarried, self.amount = row, is_result, uncarried, amount

    @cached_property
    def is_true(self) -> bool:
        """Whether the value equals the value of the expression."""
        if self.uncarried or not self.expression:
            return not self.uncarried
        return self.value is None or value_of(self.expression) == self.value

    @property
    def value_text(self) -> str:
        """The value as a text; empty if there is none."""
        return "" if self.value is None else str(self.value)

    @property
    def fault(self) -> Message:
        """The reason why the line isn't true, and the row of the file that contradicts it."""
        row, name = of_others(self.row), self.name
        if self.uncarried:
            return message(
                "{name}: {code} isn't on the carry list of {row}", name=name, row=row, code=Code(self.uncarried)
            )
        places = {"name": name, "value": Code(str(self.value)), "given": Code(str(value_of(self.expression)))}
        if not self.row:
            return message("{name}: the file says {value}, but the rows that it comes from give {given}", **places)
        return message("{name}: {row} says {value}, but the rows that it comes from give {given}", row=row, **places)

    @property
    def text(self) -> str:
        """The line as it is printed."""
        sides = " = ".join(filter(None, (self.name, self.expression, self.value_text)))
        return f"{'  ' if self.is_true else '! '}{sides}{f'    # {self.says}' if self.says else ''}"


class Part(NamedTuple):
    """Some lines under a title, with a note that describes them."""

    title: str
    note: str
    lines: list[Line]

    @property
    def is_true(self) -> bool:
        """Whether every line is true."""
        return all(line.is_true for line in self.lines)


class Figure(NamedTuple):
    """A figure of a table's row: its name and its text."""

    name: str
    text: str


class Explanation(NamedTuple):
    """The explanation of a node in a release of a month: sentences first, then figures, facts and lines."""

    code: str
    title: str
    month: str
    revision: int
    sentences: list[Message]
    figures: list[Figure]
    facts: list[Message]
    glance: Section
    parts: list[Part]

    @property
    def lines(self) -> Iterator[Line]:
        """All lines."""
        for part in self.parts:
            yield from part.lines

    @property
    def untrue(self) -> list[Line]:
        """The lines that aren't true."""
        return [line for line in self.lines if not line.is_true]

    @property
    def text(self) -> str:
        """The explanation as it is printed: its sentences, then one line per step."""
        figures = ", ".join(f"{figure.name} {figure.text}" for figure in self.figures)
        head = f"{self.code} {self.title}: {self.month}, revision {self.revision}"
        blocks = ["\n".join([head, *self.sentences]), "\n".join([figures, *self.facts])]
        for part in self.parts:
            blocks.append("\n".join([f"{part.title}. {part.note}", *(line.text for line in part.lines)]))
        return "\n\n".join(blocks)


def write_sum(numbers: Iterable[int]) -> str:
    """The sum of some numbers as an expression, `1 + 2 + 3`."""
    return " + ".join(map(str, numbers))


def change_expression(before: int, now: int) -> str:
    """A change in tenths of a percent; a fall is rounded like a rise of the same size."""
    if now >= before:
        return f"round(1000 * ({now} - {before}) / {before})"
    return f"-round(1000 * ({before} - {now}) / {before})"


# ==== from a node's index within the year to its chained level and its changes

TENTHS = message("tenths of a percent")


def chained_level_of(month: Month, revision: int) -> Message:
    """The source of a level."""
    return message("chained level of {month}, revision {revision}", month=month, revision=revision)


def link_level(sources: Sources, code: str) -> int:
    """The chained level of a node in the link month, 100 if it had none, in millionths of a point."""
    links = sources.link.levels
    return links[code].chained if code in links else HUNDRED


def level_before(sources: Sources, code: str) -> int:
    """The level from which the monthly change is computed: in January the link level."""
    return link_level(sources, code) if sources.is_january else sources.before.levels[code].chained


def level_year_before(sources: Sources, code: str) -> Optional[int]:
    """The level from which the annual change is computed: in December the link level; None if the table has no row for
    it."""
    if sources.month % 100 == 12:
        return link_level(sources, code)
    return sources.year_before[code].chained if code in sources.year_before else None


def level_part(sources: Sources, code: str) -> Part:
    """The part with the link level, the chained level and both changes of a node."""
    own, row, links = sources.own.levels[code], sources.row("level_2", code), sources.link.levels
    december, before = month_of(link_month(sources.month)), month_of(month_before(sources.month))
    link, then = link_level(sources, code), level_before(sources, code)
    from_link = chained_level_of(december, sources.link.release.revision)
    says = from_link if code in links else message("100, since the table of {month} has no row for it", month=december)
    from_before = chained_level_of(before, sources.before.release.revision)
    lines = [
        Line(message("link level"), "", link, says),
        Line(message("chained level"), f"round({link} * {own.within} / {HUNDRED})", own.chained, "", row, True),
        Line(message("level before"), "", then, message("the link level") if sources.is_january else from_before),
        Line(message("monthly change"), change_expression(then, own.chained), own.month_change, TENTHS, row, True),
        *year_lines(sources, code),
        *revision_lines(sources, code),
    ]
    return Part(
        message("Chained level and changes"),
        message("Levels are in millionths of a point, changes in tenths of a percent."),
        lines,
    )


def year_lines(sources: Sources, code: str) -> list[Line]:
    """The lines of the annual change."""
    own, row = sources.own.levels[code], sources.row("level_2", code)
    then, year_before = level_year_before(sources, code), month_of(sources.month - 100)
    if then is None:
        if own.year_change is not None:
            says = message("the table of {month} has no row for it", month=year_before)
            return [Line(message("annual change"), "0", own.year_change, says, row, True)]
        says = message("none, since the table of {month} has no row for it", month=year_before)
        return [Line(message("annual change"), "", None, says)]
    is_december = sources.month % 100 == 12
    source = message("the link level") if is_december else message("chained level of {month}", month=year_before)
    expression = change_expression(then, own.chained)
    return [
        Line(message("level a year earlier"), "", then, source),
        Line(message("annual change"), expression, own.year_change, TENTHS, row, True),
    ]


def revision_lines(sources: Sources, code: str) -> list[Line]:
    """The lines with the chained level in the other revisions of the month."""
    own, lines = sources.own.release, list[Line]()
    for release in sources.releases:
        rows = sources.office.levels(release) if release.month == own.month and release != own else {}
        if code in rows:
            name = message("level in revision {revision}", revision=release.revision)
            lines.append(Line(name, "", rows[code].chained, message("as it was frozen")))
    return lines


# ==== a node above: the mean of the elementary indices, weighted by their weights in use, and the contribution of each
# of them

MOST_CONTRIBUTIONS = 5


def below(sources: Sources, node: str) -> list[str]:
    """The elementary aggregates below a node."""
    return [code for code in sources.aggregates if node in at_and_above(code)]


def weight_line(sources: Sources, code: str) -> Line:
    """The weight in use of an aggregate: as it is in the plan, or price-updated from the plan's reference month."""
    sent, now, row = sources.plan.weights[code], sources.own.levels[code].weight, sources.row("level_2", code)
    name, title = message("weight of {code}", code=Code(code)), of_others(sources.plan.titles[code])
    reference = sources.plan.reference
    if reference is None:
        return Line(name, f"{sent}", now, message("{title}; as in the plan", title=title), row)
    then = sources.latest(reference)
    levels = then.levels if then else {}
    places = {"title": title, "first": month_of(reference), "last": month_of(link_month(sources.month))}
    if code not in levels or code not in sources.link.levels:
        says = message("{title}; one of the tables from {first} to {last} has no row for it", **places)
        return Line(name, "0", now, says, row)
    expression = f"round({sent} * {sources.link.levels[code].chained} / {levels[code].chained})"
    return Line(name, expression, now, message("{title}; price-updated from {first} to {last}", **places), row)


def index_before(sources: Sources, code: str) -> int:
    """The index within the year in the month before; 100 in January."""
    return HUNDRED if sources.is_january else sources.before.levels[code].within


def adds_line(sources: Sources, node: str, code: str) -> Line:
    """The contribution of an aggregate to the monthly change of a node's index, in millionths of a percentage point."""
    own, whole = sources.own.levels[code], sources.own.levels[node]
    then, whole_then = index_before(sources, code), index_before(sources, node)
    change = f"({own.within} - {then})" if own.within >= then else f"({then} - {own.within})"
    expression = f"round({HUNDRED} * {own.weight} * {change} / ({whole.weight} * {whole_then}))"
    expression = expression if own.within >= then else f"-{expression}"
    name = message("contribution of {code}", code=Code(code))
    return Line(name, expression, value_of(expression), of_others(sources.plan.titles[code]))


def contributions(sources: Sources, node: str) -> list[tuple[Fraction, str, Line]]:
    """The contributions of the aggregates below a node, the greatest first."""
    lines = [(code, adds_line(sources, node, code)) for code in below(sources, node)]
    contributions = [(Fraction(line.value or 0), code, line) for code, line in lines]
    return sorted(contributions, key=lambda contribution: (-abs(contribution[0]), contribution[1]))


def node_parts(sources: Sources, node: str) -> list[Part]:
    """The parts of a node above aggregates."""
    codes = below(sources, node)
    rows = [sources.own.levels[code] for code in codes]
    weight, total = sum(level.weight for level in rows), sum(level.weight * level.within for level in rows)
    products = " + ".join(f"{level.weight} * {level.within}" for level in rows)
    own, row = sources.own.levels[node], sources.row("level_2", node)
    mean = [
        Line(
            message("sum of weights"),
            write_sum(level.weight for level in rows),
            own.weight,
            message("weights in use"),
            row,
        ),
        Line(
            message("sum of weight * index"), products, total, message("each aggregate's weight in use times its index")
        ),
        Line(message("index"), f"round({total} / {weight})", own.within, WITHIN, row, True),
    ]
    titles = sources.plan.titles
    indices = [
        Line(message("index of {code}", code=Code(code)), "", row.within, of_others(titles[code]))
        for code, row in zip(codes, rows)
    ]
    adds = [line for _, _, line in contributions(sources, node)[:MOST_CONTRIBUTIONS]]
    return [
        Part(
            message("Mean"),
            message(
                "The index is always the mean of the elementary indices, weighted by their weights in use, and rounded"
                " once."
            ),
            mean,
        ),
        Part(
            message("The greatest contributions"),
            message("Contributions to the index's monthly change, in millionths of a percentage point."),
            adds,
        ),
        Part(
            message("Elementary indices"),
            message("Ask for one by its code to see it down to its receipts."),
            indices,
        ),
        Part(
            message("Weights in use"),
            message("The weights of the aggregates below."),
            [weight_line(sources, code) for code in codes],
        ),
    ]


def node_glance(sources: Sources, node: str) -> Section:
    """The aggregates below a node in one table; those that contribute most to the month come first."""
    rows: list[list[Cell]] = []
    for added, code, _ in contributions(sources, node):
        level = sources.own.levels[code]
        figures: list[Cell] = [level.weight, points(level.within, 2), tenths(level.month_change)]
        rows.append([code, sources.plan.titles[code], *figures, decimal(added.numerator, 10**6, 4)])
    heads = columns("=aggregate", "title", "#weight in use", "#index", "#month %", "#adds")
    note = message(
        "The aggregates that add most to the index's monthly change come first. Contributions are in percentage"
        " points."
    )
    return Section("glance", message("The aggregates below at a glance"), note, heads, rows, shown=30)
