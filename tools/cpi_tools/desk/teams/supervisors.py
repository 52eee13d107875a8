"""Supervisors, who may see how far the collectors of a team are: their sessions, and whose a key is. Their file is read
each time, so a row counts as long as it is there."""

from __future__ import annotations

import hmac
from collections.abc import Callable
from pathlib import Path
from typing import Optional

from ...text.message import message as _
from ..serve.sessions import NotSignedIn, Sessions
from .supervisor_rows import Supervisor, read_supervisors

NO_KEY = _("This isn't a supervisor's key, which has 32 characters, 0-9 and a-f.")
KEY_OF_OFFICE = _("This key opens more than this page, so it isn't accepted here. Ask the desk for another one.")


class Supervisors:
    """The supervisors of a file that only its owner can read, and their sessions. Their wrong keys are counted by
    themselves, so a right key here forgets none that was tried at the desk."""

    def __init__(self, path: Path, is_of_office: Callable[[str], bool], idle: int):
        """`is_of_office` asks the office whether it knows a key; a session ends after `idle` seconds without a request.
        Raises Fault if the file can't be taken: one line with the row and what is wanted."""
        self._path, self._is_of_office = path, is_of_office
        self.sessions = Sessions(self._is_right, idle, refusal=NO_KEY)
        self.list_all()

    def list_all(self) -> list[Supervisor]:
        """The supervisors, as the file has them now. Raises Fault."""
        return read_supervisors(self._path)

    def find_bearer(self, key: str) -> Optional[Supervisor]:
        """The supervisor of a key, if there is one. How long that takes depends on no key. Raises Fault."""
        bearer = None
        for supervisor in self.list_all():
            if hmac.compare_digest(supervisor.key.encode(), key.encode()):
                bearer = supervisor
        return bearer

    def _is_right(self, key: str) -> bool:
        """Whether a key is a supervisor's. Raises NotSignedIn if it opens more than these pages, or Fault."""
        bearer = self.find_bearer(key)
        if bearer and self._is_of_office(key):
            raise NotSignedIn(KEY_OF_OFFICE)
        return bearer is not None
