"""The sentences of an explanation in English. Each is whole, with named places for figures, months and names.

A translation has the same keys and the same places. No sentence is put together from pieces of others. If a count
changes the words around it, there is a sentence for one and a sentence for many.
"""

from __future__ import annotations

from collections.abc import Mapping

ROSE, FELL, SMALL, SAME, NONE = "rose", "fell", "small", "same", "none"
"""The direction in which prices moved: SMALL if the change is 0.0 percent but the levels differ, SAME if they don't;
NONE if there is nothing to compare with."""

CHANGES: Mapping[tuple[str, str], str] = {
    (ROSE, ROSE): "{title}: prices rose by {change} percent from {before} to {month}, and by {year_change} percent"
    " over twelve months.",
    (ROSE, FELL): "{title}: prices rose by {change} percent from {before} to {month}; over twelve months they fell by"
    " {year_change} percent.",
    (ROSE, SMALL): "{title}: prices rose by {change} percent from {before} to {month}; over twelve months they changed"
    " by less than 0.05 percent.",
    (ROSE, SAME): "{title}: prices rose by {change} percent from {before} to {month}; over twelve months they didn't"
    " change.",
    (ROSE, NONE): "{title}: prices rose by {change} percent from {before} to {month}; {year_before} has no figure, so"
    " no annual change is given.",
    (FELL, ROSE): "{title}: prices fell by {change} percent from {before} to {month}; over twelve months they rose by"
    " {year_change} percent.",
    (FELL, FELL): "{title}: prices fell by {change} percent from {before} to {month}, and by {year_change} percent"
    " over twelve months.",
    (FELL, SMALL): "{title}: prices fell by {change} percent from {before} to {month}; over twelve months they changed"
    " by less than 0.05 percent.",
    (FELL, SAME): "{title}: prices fell by {change} percent from {before} to {month}; over twelve months they didn't"
    " change.",
    (FELL, NONE): "{title}: prices fell by {change} percent from {before} to {month}; {year_before} has no figure, so"
    " no annual change is given.",
    (SMALL, ROSE): "{title}: prices changed by less than 0.05 percent from {before} to {month}; over twelve months"
    " they rose by {year_change} percent.",
    (SMALL, FELL): "{title}: prices changed by less than 0.05 percent from {before} to {month}; over twelve months"
    " they fell by {year_change} percent.",
    (SMALL, SMALL): "{title}: prices changed by less than 0.05 percent, both from {before} to {month} and over twelve"
    " months.",
    (SMALL, SAME): "{title}: prices changed by less than 0.05 percent from {before} to {month}; over twelve months"
    " they didn't change.",
    (SMALL, NONE): "{title}: prices changed by less than 0.05 percent from {before} to {month}; {year_before} has no"
    " figure, so no annual change is given.",
    (SAME, ROSE): "{title}: prices didn't change from {before} to {month}; over twelve months they rose by"
    " {year_change} percent.",
    (SAME, FELL): "{title}: prices didn't change from {before} to {month}; over twelve months they fell by"
    " {year_change} percent.",
    (SAME, SMALL): "{title}: prices didn't change from {before} to {month}; over twelve months they changed by less"
    " than 0.05 percent.",
    (SAME, SAME): "{title}: prices didn't change, either from {before} to {month} or over twelve months.",
    (SAME, NONE): "{title}: prices didn't change from {before} to {month}; {year_before} has no figure, so no annual"
    " change is given.",
}
"""The monthly and the annual change of prices."""

# ---- an elementary aggregate

ONE_COMPARED = "One price could be compared: {item} at {outlet} went from {then} to {now}."

ONE_COMPARED_REPLACED = (
    "One price could be compared: {item} at {outlet} went from {then} to {now}, in terms of the item that it replaced."
)

COMPARED = (
    "{count} prices in {shops} shops ({outlets}) could be compared: {rose} rose and {fell} fell;"
    " {item} at {outlet} changed most, from {then} to {now}."
)

COMPARED_REPLACED = (
    "{count} prices in {shops} shops ({outlets}) could be compared: {rose} rose and {fell} fell; {item} at {outlet}"
    " changed most, from {then} to {now}, in terms of the item that it replaced."
)

COMPARED_IN_ONE_SHOP = (
    "{count} prices at {outlet} could be compared: {rose} rose and {fell} fell; {item} changed most,"
    " from {then} to {now}."
)

COMPARED_REPLACED_IN_ONE_SHOP = (
    "{count} prices at {outlet} could be compared: {rose} rose and {fell} fell; {item} changed most, from {then} to"
    " {now}, in terms of the item that it replaced."
)

COMPARED_UNCHANGED = "{count} prices in {shops} shops ({outlets}) could be compared, and none of them changed."

COMPARED_UNCHANGED_IN_ONE_SHOP = "{count} prices at {outlet} could be compared, and none of them changed."

NONE_COMPARED = "No price could be compared, since none was found in {before}; the prices of {month} count as they are."

ONE_IMPUTED: Mapping[str, str] = {
    "stock": "{item} was out of stock at {outlet}, so its price is imputed: it moves with the prices that could be"
    " compared ({earlier} to {later}), from {then} to {now}.",
    "closed": "{outlet} was closed, so its price of {item} is imputed: it moves with the prices that could be compared"
    " ({earlier} to {later}), from {then} to {now}.",
    "gone": "{outlet} no longer sells {item}, so the price is imputed: it moves with the prices that could be compared"
    " ({earlier} to {later}), from {then} to {now}.",
    "refused": "{outlet} refused to give the price of {item}, so it is imputed: it moves with the prices that could be"
    " compared ({earlier} to {later}), from {then} to {now}.",
    "": "Nothing was sent for {item} at {outlet}, so its price is imputed: it moves with the prices that could be"
    " compared ({earlier} to {later}), from {then} to {now}.",
    "ended": "{item} at {outlet} is no longer priced, so its price is imputed: it moves with the prices that could be"
    " compared ({earlier} to {later}), from {then} to {now}.",
    "other": "{item} at {outlet} was replaced by an item of another quality, so its price is imputed: it moves with"
    " the prices that could be compared ({earlier} to {later}), from {then} to {now}.",
}
"""The reason why the only imputed price is imputed, by the reason of the quote; the key is empty if a collector should
have priced it, but sent no quote."""

IMPUTED = (
    "{count} prices couldn't be compared ({reasons}), so they are imputed: they move with the prices that could be"
    " compared ({earlier} to {later})."
)

ONE_CARRIED = (
    "Nothing could be compared ({reasons}), so the desk decided to carry the price of {item} at {outlet}: it counts as"
    " {now}, as it did in {before}."
)

CARRIED = (
    "Nothing could be compared ({reasons}), so the desk decided to carry {count} prices: they count as they did in"
    " {before}."
)

REASONS: Mapping[str, str] = {
    "stock": "out of stock",
    "closed": "closed",
    "gone": "no longer sold",
    "refused": "refused",
    "": "nothing was sent",
    "ended": "no longer priced",
    "other": "another quality",
}
"""The reason why no price can be compared, as a label next to a name or a count."""

NAMED_REASON, COUNTED_REASON = "{outlet}: {reason}", "{reason}: {count}"

AND_MORE = "{names}; and others"

ITEM = "{text}, {unit}"

ONE_PRICE_MAKES = (
    "It is the only price; it was {base} in {december} and now counts as {now}, so the level, which was {link} then,"
    " is {level}."
)

PRICES_MAKE = (
    "Together the {count} prices were {base} in {december} and now count as {now}, so the level, which was {link}"
    " then, is {level}."
)

ONE_RETURNED_PRICE_MAKES = (
    "After at least one month without a price, in which it counted as {then}, the only price, of {item} at {outlet},"
    " was found again at {found}. It was {base} in {december} and now counts as {now}, so the level, which was {link}"
    " then, is {level}."
)

ONE_RETURNED_REPLACED_PRICE_MAKES = (
    "After at least one month without a price, in which it counted as {then}, the only price, of {item} at {outlet},"
    " was found again at {found}, in terms of the item that it replaced. It was {base} in {december} and now counts"
    " as {now}, so the level, which was {link} then, is {level}."
)

PRICES_WITH_ONE_RETURNED_MAKE = (
    "After at least one month without a price, in which it counted as {then}, {item} at {outlet} was found again at"
    " {found}. Together the {count} prices were {base} in {december} and now count as {now}, so the level, which was"
    " {link} then, is {level}."
)

PRICES_WITH_ONE_RETURNED_REPLACED_MAKE = (
    "After at least one month without a price, in which it counted as {then}, {item} at {outlet} was found again at"
    " {found}, in terms of the item that it replaced. Together the {count} prices were {base} in {december} and now"
    " count as {now}, so the level, which was {link} then, is {level}."
)

PRICES_WITH_RETURNED_MAKE = (
    "{returned} prices were found again after at least one month without a price; of these, {item} at {outlet}"
    " changed most, from {then} to {found}. Together the {count} prices were {base} in {december} and now count as"
    " {now}, so the level, which was {link} then, is {level}."
)

PRICES_WITH_RETURNED_REPLACED_MAKE = (
    "{returned} prices were found again after at least one month without a price; of these, {item} at {outlet}"
    " changed most, from {then} to {found}, in terms of the item that it replaced. Together the {count} prices were"
    " {base} in {december} and now count as {now}, so the level, which was {link} then, is {level}."
)

PRICES_WITH_RETURNED_UNCHANGED_MAKE = (
    "{returned} prices were found again after at least one month without a price, each at the price that it had"
    " counted as. Together the {count} prices were {base} in {december} and now count as {now}, so the level, which"
    " was {link} then, is {level}."
)

# ---- a node above

NO_CONTRIBUTION = "None of its aggregates changed the index in the month."

SMALL_CONTRIBUTIONS = "None of its aggregates moved the index by 0.005 percentage points or more in the month."

ONE_CONTRIBUTION = "All of the month's change comes from {title}: {points} percentage points."

MOST_CONTRIBUTION = "{title} moved the index most in the month: {points} percentage points."

CONTRIBUTIONS = "These moved the index most in the month, in percentage points: {contributions}."

CONTRIBUTION = "{title} ({points})"

ONE_PRICE_FOUND = "It rests on one price, which was found at {outlet}."

ONE_PRICE_IMPUTED = "It rests on one price, at {outlet}, which is imputed ({reasons})."

ALL_FOUND = "It rests on {prices} prices in {shops} shops, and all of them were found."

ALL_FOUND_IN_ONE_SHOP = "It rests on {prices} prices at {outlet}, and all of them were found."

ONE_OF_PRICES_IMPUTED = "It rests on {prices} prices in {shops} shops; 1 of these prices is imputed ({reasons})."

ONE_OF_PRICES_IMPUTED_IN_ONE_SHOP = "It rests on {prices} prices at {outlet}; 1 of these prices is imputed ({reasons})."

PRICES_IMPUTED = "It rests on {prices} prices in {shops} shops; {imputed} of these prices are imputed ({reasons})."

PRICES_IMPUTED_IN_ONE_SHOP = (
    "It rests on {prices} prices at {outlet}; {imputed} of these prices are imputed ({reasons})."
)

CARRIED_BELOW = "nothing to compare, so carried by the desk: {titles}"

ONE_AGGREGATE_MAKES = (
    "Its only aggregate has the index {index} ({december} is 100), so the level, which was {link} then, is {level}."
)

AGGREGATES_MAKE = (
    "The weighted mean of the indices of its {count} aggregates is {index} ({december} is 100), so the level, which"
    " was {link} then, is {level}."
)

# ---- what happened to the month

REVISED = "This is revision {revision}; in revision {other} the level was {level}."

REVISED_SINCE = "This is revision {revision}; revision {other}, with the level {level}, has replaced it."

HANDED_OVER = "From {month} on, collector {collector} prices {item} at {outlet} in place of collector {former}."

HANDED_OVER_MANY = (
    "From {month} on, other collectors look for {count} of these prices; {item} at {outlet} passed from collector"
    " {former} to collector {collector}."
)

REVISED_HANDED_OVER = (
    "This is revision {revision} (in revision {other} the level was {level}), and from {month} on, collector"
    " {collector} prices {item} at {outlet} in place of collector {former}."
)

REVISED_HANDED_OVER_MANY = (
    "This is revision {revision} (in revision {other} the level was {level}), and from {month} on, other collectors"
    " look for {count} of these prices; {item} at {outlet} passed from collector {former} to collector {collector}."
)

REVISED_SINCE_HANDED_OVER = (
    "This is revision {revision} (revision {other}, with the level {level}, has replaced it), and from {month} on,"
    " collector {collector} prices {item} at {outlet} in place of collector {former}."
)

REVISED_SINCE_HANDED_OVER_MANY = (
    "This is revision {revision} (revision {other}, with the level {level}, has replaced it), and from {month} on,"
    " other collectors look for {count} of these prices; {item} at {outlet} passed from collector {former} to"
    " collector {collector}."
)

UNTRUE = (
    "No sentence says how this figure came about: a line below isn't true (it begins with !), so something in the"
    " file has been changed since the freeze."
)
