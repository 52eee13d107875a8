"""The forms of a page, as a browser has them: where each is sent, and what it carries."""

from __future__ import annotations

from html.parser import HTMLParser
from typing import NamedTuple, Optional


class PageForm(NamedTuple):
    """A form: its method in small letters, its address, and its fields in their order, each with the value that it has as
    the page is shown. Files are left out."""

    method: str
    action: str
    fields: list[tuple[str, str]]

    def carried(self, **changed: str) -> list[tuple[str, str]]:
        """What it sends once some fields were changed; one that it doesn't have comes after them."""
        had = {name for name, _ in self.fields}
        named = {name.replace("_", "-") if name not in had else name: text for name, text in changed.items()}
        kept = [(name, named.get(name, text)) for name, text in self.fields]
        return [*kept, *((name, text) for name, text in named.items() if name not in had)]


def with_row(form: PageForm, code: str, **cells: str) -> PageForm:
    """A form of many rows in which a person wrote something else into cells of one, which its field `code` begins."""
    fields, at = list[tuple[str, str]](), ""
    for name, text in form.fields:
        at = text if name == "code" else at
        fields.append((name, cells[name] if at == code and name in cells else text))
    return form._replace(fields=fields)


class _Reader(HTMLParser):
    def __init__(self) -> None:
        super().__init__()
        self.forms: list[PageForm] = []
        self._form: Optional[PageForm] = None
        self._text: Optional[str] = None
        self._area = self._select = ""

    def handle_starttag(self, tag: str, attrs: list[tuple[str, Optional[str]]]) -> None:
        has = {name: value or "" for name, value in attrs}
        if tag == "form":
            self._form = PageForm(has.get("method", "get").lower(), has.get("action", ""), [])
            self.forms.append(self._form)
        if self._form is None:
            return
        if tag == "textarea":
            self._area, self._text = has["name"], ""
        if tag == "select":
            self._select = has["name"]
            self._form.fields.append((self._select, ""))
        if tag == "option" and (self._form.fields[-1] == (self._select, "") or "selected" in has):
            self._text = None if "value" in has else ""
            self._form.fields[-1] = (self._select, has.get("value", ""))
        is_left_out = has.get("type") in ("file", "submit") or has.get("type") == "checkbox" and "checked" not in has
        if tag == "input" and has.get("name") and not is_left_out:
            self._form.fields.append((has["name"], has.get("value", "")))

    def handle_data(self, data: str) -> None:
        if self._text is not None:
            self._text += data

    def handle_endtag(self, tag: str) -> None:
        if self._form is None:
            return
        if tag == "textarea":
            self._form.fields.append((self._area, (self._text or "").removeprefix("\n")))
            self._text = None
        if tag == "option" and self._text is not None:
            self._form.fields[-1] = (self._select, self._text)
            self._text = None
        if tag == "form":
            self._form = None


def forms_of(page: str) -> list[PageForm]:
    """All forms of a page."""
    reader = _Reader()
    reader.feed(page)
    return reader.forms
