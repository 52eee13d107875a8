"""Compares the pages of releases, the first page, the list of releases, the feed and the calendar with the figures that
were computed here."""

from __future__ import annotations

import datetime
import hashlib
import re
from collections.abc import Iterator
from fractions import Fraction
from pathlib import Path
from xml.etree import ElementTree

from .nation import previous, published_at, revisions, seconds, year_before
from .pack_faults import latest_of, moment, table_name, text
from .pack_figures import ALL, Figures, above, december_before, depth
from .pack_then import Then, lead, named
from .pack_vintages import GREATEST
from .page_texts import Rows, Texts
from .site import percent, signed

ADDRESS, NAME = "https://prices.example/", "Consumer price index"
ATOM = "{http://www.w3.org/2005/Atom}"
LAST = 24
"""Releases of the feed, and months of the calendar."""


def day(month: str, revision: int) -> str:
    """The publication time of a revision, by the office's clock and in UTC: `28 January 2026, 09:30 CET (08:30
    UTC)`."""
    at = datetime.datetime.fromtimestamp(published_at(month, revision), datetime.timezone.utc)
    ahead = 1 if seconds(f"{at:%Y-%m-%dT%H:%M}") == at.timestamp() - 3600 else 2
    local = at + datetime.timedelta(hours=ahead)
    return f"{local.day} {local:%B %Y, %H:%M} {('CET', 'CEST')[ahead - 1]} ({at:%H:%M} UTC)"


Wanted = Iterator[tuple[str, object, object]]
"""A checked part, its text on the page, and the wanted text."""

# ---- what both the first page and a release say


def headline_faults(then: Then, page: Texts) -> Wanted:
    """Headline, lead and figures."""
    yield "h1", page.of("h1"), [then.headline]
    yield "description", page.said("description"), [f"{then.headline}."]
    yield "og:image:alt", page.said("og:image:alt"), [f"{then.headline}."]
    yield "og:image", page.said("og:image"), [f"{ADDRESS}release/{then.name}.png"]
    yield "lead", page.of('p class="lead"'), [lead(then)]
    monthly, annual = then.known.changes(ALL, then.month)
    index, hundred = then.indexed(ALL)
    cards = {"Annual change": percent(annual)} if then.is_annual else {}
    cards |= {"Monthly change": percent(monthly), f"Index, {hundred}\u00a0=\u00a0100": index}
    figures = re.sub(r"<sup.*?</sup>", "", page.markup, flags=re.S)
    texts = Texts("".join(re.findall('<dl class="cards">(.*?)</dl>', figures, flags=re.S)))
    yield "figures", dict(zip(texts.of("dt"), texts.of("dd"))), cards
    marks = re.findall(
        r'<sup class="marks"><a href="#notes" aria-label="Notes: ([a-z, ]*)">([a-z]*)</a></sup>', page.markup
    )
    names = ", ".join({"i": "imputed", "r": "revised"}[letter] for letter in then.letters)
    yield "marks", marks, [(names, then.letters)] * len(cards) if names else []


def contribution_table(then: Then, part: Texts, codes: list[str], has_total: bool) -> Wanted:
    """The contributions of some items to the change of all items, and the bars of the rows."""
    values = [(value, code) for code in codes if (value := then.given(code)) is not None]
    if has_total:
        values.sort(key=lambda value: (-value[0], value[1]))
    total = sum((value for value, _ in values), Fraction())
    rows = [then.row_of(code, value) for value, code in values]
    if has_total:
        rows.append([then.known.titles[ALL], "100.00 %", percent(then.change), signed(total, 2), ""])
    yield "contributions", part.rows, rows
    low, high = min([Fraction(0), *(value for value, _ in values)]), max([Fraction(0), *(value for value, _ in values)])
    span = high - low or Fraction(1)
    bars = [(100 * (min(value, Fraction(0)) - low) / span, 100 * abs(value) / span) for value, _ in values]
    apart = [one for one, other in zip(part.bars, bars) if any(abs(a - b) > 0.0051 for a, b in zip(one, other))]
    yield "bars", (len(part.bars), apart), (len(bars), [])


# ---- the page of a release


def page_of(site: Path, tables: Path, then: Then) -> Wanted:
    """All figures of the page of a release."""
    page = Texts.of_page(site / f"release/{then.name}.html")
    yield from headline_faults(then, page)
    yield from contribution_table(then, page.part("Contributions"), then.known.below(ALL), True)
    yield "divisions and groups", page.part("Divisions and groups").rows, divisions(then)
    yield "why", page.part("Why figures differ from the previous month’s").of("li"), [*why(then)]
    (notes,) = re.findall('<div id="notes" class="note">(.*?)</div>', page.markup, flags=re.S) or [""]
    yield "notes", [it.replace("\u2002", " ") for it in Texts(notes).of("p")], [*notes_of(then)]
    yield from revisions_of(then, page)
    table = (tables / table_name(then.month, then.revision)).read_bytes()
    yield "sum", page.of('span class="hash"'), [hashlib.sha256(table).hexdigest()]
    yield "table", f"the whole table of this release, {len(then.items)} items," in page.part("Files").of("li")[0], True
    yield "moment", re.findall('<time datetime="([^"]*)">', page.markup)[0], moment(then.month, then.revision)


def notes_of(then: Then) -> Iterator[str]:
    """The notes for the letters of the headline, from the figures that were known on the day of the release."""
    if "i" in then.letters:
        yield (
            "i At least one price of this item, or of an item below it, was imputed in that month: it was moved like"
            " the other prices in its elementary aggregate."
        )
    if "r" in then.letters:
        now, old = then.indexed(ALL)[0], then.shown_level(then.month, then.known.first[then.month, ALL].level)
        if now != old:
            yield f"r Revised: the index for {named(then.month)} was first published as {old}."
        else:
            first = f"the figure first published for {named(then.month)}"
            yield f"r Revised: {first} differed by too little to appear in the digits shown."


def revisions_of(then: Then, page: Texts) -> Wanted:
    """The texts of a release about revisions: its own with the reason, the revisions since the release before, and the
    later ones."""
    part = page.part("Revisions")
    yield "revisions", [*part.of("p"), *part.of("li")], [*says_of_revisions(then)]
    change = then.change_of_it
    yield "greatest differences", part.rows, [
        [f"{row.title} {row.code}", text(old.level, 3), text(row.level, 3)] for old, row in change.differing[:GREATEST]
    ] if change else []  # fmt: skip
    told = [it for it in page.of("p") if it.startswith("Why the office revised this month: ")]
    yield "reasons", told, [f"Why the office revised this month: {reason}" for reason in then.reasons]
    later = [it for it in page.of('p class="result"') if it.startswith("Revision ")]
    numbers = [revision for revision in revisions(then.month) if revision > then.revision]
    yield "later revisions", later, [
        f"Revision {number} of {named(then.month)} was published on {day(then.month, number)}." for number in numbers
    ]
    notes = [it for it in page.of('p class="note"') if " was revised on " in it]
    yield "revised bases", notes, [*based_on(then)]


def says_of_revisions(then: Then) -> Iterator[str]:
    """The part on revisions."""
    it, before = then.change_of_it, previous(then.month)
    if it:
        yield (
            f"This is a further revision of {named(then.month)}. Revision {it.revision - 1}, published"
            f" {day(it.month, it.revision - 1)}, stays online. {it.counted}"
        )
    elif len(then.known.months) == 1:
        yield "This is the first release."
    elif then.since:
        yield f"Between the release of {named(before)} and this one, the office revised:"
        for it in then.since:
            now, old = (then.shown_level(it.month, rows[ALL].level) for rows in (it.new, it.old))
            is_said = f"The index of all items is {now}, and was {old} before."
            is_less = "The revision of the index of all items is too small to appear in the digits shown."
            yield (
                f"{named(it.month)}, revision {it.revision}, published {day(it.month, it.revision)}: {it.counted}"
                f" {is_said if now != old else is_less}"
            )
    else:
        yield f"Nothing was revised between the release of {named(before)} and this one."


def based_on(then: Then) -> Iterator[str]:
    """The note below the figures: the revised months from which the figures of all items are computed."""
    line = then.known.lines[ALL][then.month]
    figures = {december_before(then.month): ["the index"]}
    figures.setdefault(previous(then.month), []).append("the monthly change")
    if line.annual is not None:
        figures.setdefault(year_before(then.month), []).append("the annual change")
    for it in then.revised:
        if it.month in figures and it.old[ALL].level != it.new[ALL].level:
            now, old = (then.shown_level(it.month, rows[ALL].level) for rows in (it.new, it.old))
            figure = figures[it.month]
            counts = ", ".join(figure[:-2] + [" and ".join(figure[-2:])])
            is_said = (
                f"its index is {now}, and was {old} before"
                if now != old
                else "the revision is too small to appear in the digits shown"
            )
            yield (
                f"{named(it.month)} was revised on {day(it.month, it.revision)}: {is_said}."
                f" The revised index is used in {counts} (revisions)."
            )


def divisions(then: Then) -> Rows:
    """The table of all items, divisions and groups."""
    rows, whole = [], then.hundred(ALL)
    for code in then.known.nodes:
        line = then.known.line(code, then.month)
        if line:
            index, hundred = then.indexed(code)
            note = f" ({hundred} = 100)" if hundred != whole else ""
            changes = map(percent, then.known.changes(code, then.month))
            head = f"{code} {then.known.titles[code]}{note}"
            rows.append([head, then.share(code), index, *changes, "i" if line.is_imputed else ""])
    return rows


def why(then: Then) -> Iterator[str]:
    """The reasons why figures differ from the previous month's."""
    yield "Prices moved: the contributions above show which."
    if then.month.endswith("-01"):
        year, link = then.month[:4], named(december_before(then.month))
        yield (
            f"From this month on, the weights of {year} apply. The index is linked in {link}, so new weights by"
            " themselves don’t move it."
        )
        for begin, items, others in (
            ("New this month", then.items, then.before),
            ("No longer in the index from this month on", then.before, then.items),
        ):
            apart = items.keys() - others.keys() if then.before else set[str]()
            texts = [f"{items[key]} {key}" for key in sorted(apart) if above(key) not in apart]
            if texts:
                yield f"{begin}: {', '.join(texts)}."
    if then.since or then.revision > 1:
        yield "Revised figures are used here, including for the previous month and the previous year."
    if then.known.lines[ALL][then.month].is_imputed:
        yield (
            "Some prices were missing or couldn’t be compared, and were imputed (i): each was moved like the other"
            " prices in its aggregate."
        )


# ---- all of them


def release_faults(site: Path, tables: Path, all_of_them: list[Then]) -> Iterator[str]:
    """The pages of all releases, the list of them, the feed and the calendar."""
    names = {f"{it.name}.html" for it in all_of_them}
    if {path.name for path in (site / "release").glob("*.html")} != names:
        yield "site: the folder of releases has other pages"
    for then in all_of_them:
        for what, says, wanted in page_of(site, tables, then):
            if says != wanted:
                yield f"release {then.name}: {what}: says {says}, wanted {wanted}"
    for what, says, wanted in [*lists(site, all_of_them)]:
        if says != wanted:
            yield f"{what}: says {says}, wanted {wanted}"


def lists(site: Path, all_of_them: list[Then]) -> Wanted:
    """The list of releases, the feed and the calendar."""
    last = sorted(all_of_them, key=lambda it: published_at(it.month, it.revision))[:-LAST - 1:-1]  # fmt: skip
    rows = Texts.of_page(site / "releases.html").rows
    wanted = []
    for then, earlier in zip(all_of_them[::-1], [*all_of_them[-2::-1], all_of_them[0]]):
        is_other = then.hundred(ALL) != earlier.hundred(ALL)
        note = " (revised)" if then.revision < latest_of(then.month) else ""
        note += f" (since this month, {then.hundred(ALL)} = 100)" if is_other else ""
        changes = map(percent, then.known.changes(ALL, then.month))
        wanted.append([f"{then.called}{note}", then.indexed(ALL)[0], *changes])
    yield "releases.html", [row[:4] for row in rows], wanted
    feed = ElementTree.parse(site / "feed.xml").getroot()
    told = [[entry.findtext(f"{ATOM}{name}") for name in ("id", "title", "summary", "published", "updated")]
            for entry in feed.findall(f"{ATOM}entry")]  # fmt: skip
    yield "feed.xml", told, [
        [f"{ADDRESS}release/{it.name}.html", it.headline if it.revision == 1 else f"{it.called}: {it.headline}",
         " ".join([f"{it.headline}.", *(f"Why the office revised this month: {why}" for why in it.reasons)]),
         *[moment(it.month, it.revision)] * 2]
        for it in last
    ]  # fmt: skip
    lines = (site / "calendar.ics").read_bytes().replace(b"\r\n ", b"").decode().split("\r\n")
    says = [line.removeprefix("DESCRIPTION:") for line in lines if line.startswith("DESCRIPTION:")]
    since = all_of_them[-1].month
    for _ in range(LAST - 1):
        since = previous(since)
    yield "calendar.ics", says, [f"{it.headline}.".replace(",", "\\,") for it in all_of_them if it.month >= since]


def imputed(known: Figures, month: str) -> list[tuple[str, Fraction]]:
    """The weight of aggregates in which a price was imputed, in whole percent of all weight, up to a month."""
    found = []
    for it in (it for it in known.months if it <= month):
        lines = [known.line(code, it) for code in known.nodes if depth(code) == 5]
        weight = sum(line.weight for line in lines if line and line.is_imputed)
        found.append((it, Fraction(text(Fraction(100 * weight, known.lines[ALL][it].weight), 0))))
    return found


def first_page_faults(site: Path, known: Figures) -> Iterator[str]:
    """The first page: the texts of the last release, and the contributions of special aggregates."""
    month = known.months[-1]
    then, page = Then(month, known), Texts.of_page(site / "index.html")
    looked_at = [
        *headline_faults(then, page),
        *contribution_table(then, page.part("Contributions"), known.below(ALL), True),
        *contribution_table(then, page.part("Special aggregates"), [*known.sets], False),
    ]
    shares = [[named(it), text(value, 0)] for it, value in imputed(known, month)][::-1]
    says = page.part("How much was imputed").of("p")[0]
    wanted = f"elementary aggregates that account for {shares[0][1]} percent of the total weight."
    looked_at.append(("imputed", says.endswith(wanted), True))
    looked_at.append(("figures of the picture", page.part("How much was imputed").rows, shares))
    for what, fault, right in looked_at:
        if fault != right:
            yield f"index.html: {what}: says {fault}, wanted {right}"
