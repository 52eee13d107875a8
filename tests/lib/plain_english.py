#!/usr/bin/python3
"""Forms of sentences that an editor of plain English changes first, and the number of them that a document may contain.

`english_faults`  no more sentences of a document have such a form than its bound allows.

A form is a hint: "where" of a place and "beside" of a chart are right. So the bound is a share, and not none. The forms
of a document are listed by `tests/lib/plain_english.py FILE..`.
"""

from __future__ import annotations

import re
import sys
from collections.abc import Iterator

NOUNS = "it|there|a|an|the|one|no|nothing|each|every|that|this|they|two|nobody|what|who|its|all|these|both|not|only"
VERBS = "runs|reads|changes|decides|has|wants|trusts|needs|sends|opens|looks|installs|knows|comes|asks|is"

FORMS = {
    "where of a condition: write if or when": rf"(?<!\bknows )(?<!\bfrom )\b[Ww]here (?:{NOUNS})\b",
    "stands: write is, contains, remains": r"\bst(?:and|ands|ood)\b(?! (?:up|for|out|on|by|still|in for))",
    "is told, tells that: write says, shows": r"\b(?:is|are|was|were) told\b|\btells? (?!the |them|you|me|us )",
    "who without a noun: name the person": rf"(?:\b[Ff]or|\bto|\bof|^|\. )\s?[Ww]ho (?:{VERBS})\b",
    "hangs on: write depends on": r"\bhangs? on\b",
    "behind, beside: write after, next to, besides": r"\b(?:behind|beside)\b",
    "what is: write a noun": r"\b[Ww]hat (?:is|was|are|were|stands|stood|comes|came|becomes|became)\b",
    "look at, look for: write check, read, search": r"\blook(?:s|ed)? (?:for|at|up)\b",
    "want of: write lack of": r"\bwant of\b",
    "so is it: say it anew": r"; so (?:does|is|are|it)\b",
    "alone: write only": r"\balone\b",
}

LEAST_WORDS = 5
"""A shorter sentence is a heading or a label."""

MOST, MOST_FOR_READERS = 8, 5
"""The bounds in percent of a document's sentences: for all documents, and for documents whose readers aren't
programmers."""

FOR_READERS = {
    "README.md",
    *(f"docs/decide/{text}.md" for text in ("PROMISE", "COMPARED")),
    *(f"docs/desk/{text}.md" for text in ("DESK", "COLLECTING", "PHONE")),
}

CODE = re.compile(r"^```(?s:.*?)^```$|(?<=\n\n)(?: {4}.*\n)+", re.M)
LINK = re.compile(r"\]\([^)]*\)")
NAME = re.compile(r"`[^`]*`")
ITEM = re.compile(r"\n\s*\n|\n(?=\s*(?:[-*]|\d+\.)\s)|^\|.*$|^#.*$", re.M)
LABEL = re.compile(r"(?:[-*] )?\[[^]]*\][,.]?")
"""A line of a list of contents: its text is the text of a heading."""

END = re.compile(r"(?<=[.!?])\s+(?=[A-Z`*\[])")


def sentences(text: str) -> Iterator[str]:
    """The sentences of a document in Markdown, without commands, tables, headings, the addresses of links, and names in backquotes."""
    for part in ITEM.split(CODE.sub("", text)):
        for sentence in END.split(NAME.sub("`name`", LINK.sub("]", " ".join((part or "").split())))):
            if len(sentence.split()) >= LEAST_WORDS and not LABEL.fullmatch(sentence):
                yield sentence


def forms_of(sentence: str) -> list[str]:
    return [name for name, form in FORMS.items() if re.search(form, sentence)]


def english_faults(name: str, text: str) -> Iterator[str]:
    every = list(sentences(text))
    found = [sentence for sentence in every if forms_of(sentence)]
    bound = MOST_FOR_READERS if name in FOR_READERS else MOST
    if 100 * len(found) > bound * len(every):
        yield f"{len(found)} of {len(every)} sentences have a form to change (tests/lib/plain_english.py), over {bound} percent"


def main() -> None:
    """Prints each sentence of some files that has a form, and the share."""
    for path in sys.argv[1:]:
        with open(path, encoding="utf-8") as file:
            every = list(sentences(file.read()))
        told = [(sentence, forms) for sentence in every if (forms := forms_of(sentence))]
        for sentence, forms in told:
            print(f"{path}: {sentence} [{'; '.join(forms)}]")
        print(f"{path}: {len(told)} of {len(every)}, {-(-100 * len(told) // max(1, len(every)))} percent")


if __name__ == "__main__":
    main()
