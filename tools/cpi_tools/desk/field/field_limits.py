"""The limits of a field note, and of a question to a collector.

`web/collect/note-limits.js` contains the same names for the phone.
"""

from __future__ import annotations

MOST_LETTERS = 500
"""Letters of the text of a note, a question or an answer."""

MOST_BRAND_LETTERS = 80
"""Letters of a brand."""

MOST_QUANTITY_LETTERS = 40
"""Letters of a quantity, such as `750 g`."""

MOST_PHOTO_BYTES = 300_000
"""Bytes of a photograph, as it comes and as it is kept."""

MOST_PHOTO_SIDE = 1_280
"""Pixels of the longer side of a photograph, as it is kept."""

MOST_SENT_SIDE = 4_000
"""Pixels of the longer side of a photograph as it arrives: a longer one isn't opened."""

MOST_MESSAGE_BYTES = MOST_PHOTO_BYTES + 20_000
"""Bytes of a message with a note."""

MOST_NOTES = 500
"""Notes of a collector of one month."""

MOST_OPEN = 50
"""Questions to a collector that wait for an answer."""

MOST_OPEN_IN_ALL = 2_000
"""Questions to all collectors that wait for an answer."""

MOST_ANSWERS = 10
"""Answers to a question."""
