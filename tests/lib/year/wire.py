"""The exchanges between a client and the office, one after another, and the faults that can hit them."""

from __future__ import annotations

import collections
import contextlib
import http.client
from collections.abc import Callable
from typing import Any, Optional, Protocol

from lib.served import heard_until_reset, peer_of

from .asked import Asked, reply_of
from .machine import Machine

TABLES = Asked(None, ("tables",))
STANDING = 0.03
"""Seconds for which the office waits for a slow disk."""


class Hears(Protocol):
    """An observer of each exchange."""

    def answered(self, asked: Asked, reply: Any) -> None:
        """Notes that the office has answered."""

    def unanswered(self, asked: Asked) -> None:
        """Notes that the office may have carried out a message, but nobody got an answer."""


class Wire:
    """The way to the office; `coming` contains the faults of somebody's next exchange."""

    def __init__(self, machine: Machine, judge: Hears) -> None:
        self.machine, self.judge = machine, judge
        self.coming: dict[str, collections.deque[str]] = collections.defaultdict(collections.deque)
        self.kept: Optional[dict[tuple[str, ...], Any]] = None  # what a wrong front keeps of keyed answers
        self.again: Optional[Callable[[Asked], None]] = None  # a wrong front that sends a message once more
        self.met: collections.Counter[str] = collections.Counter()
        self.count = self.through = 0
        """The number of messages, and the number of those that passed the front."""

    def ask(self, who: str, asked: Asked) -> Any:
        """The reply, or None if no answer from the office came."""
        happens = self.coming[who].popleft() if self.coming[who] else ""
        if not self.machine.is_up or not (self.machine.front.is_up or who == "judge"):
            if happens:
                self.coming[who].appendleft(happens)
            return None
        if happens:
            self.met[happens.split()[0]] += 1
        self.count += 1
        if self.kept is not None and asked.key and not asked.is_command:
            if asked.words in self.kept:
                self.judge.answered(asked, self.kept[asked.words])
                return self.kept[asked.words]
        reply = self._exchanged(asked, happens)
        if self.kept is not None and asked.key and not asked.is_command and reply:
            self.kept[asked.words] = reply
        if self.again and asked.is_command and reply:
            self.again(asked)
        return reply

    def _exchanged(self, asked: Asked, happens: str) -> Any:
        text = asked.message()
        if happens == "killed before":
            self.machine.kill()
            return None
        if happens in ("cut", "killed within"):
            with contextlib.suppress(OSError), peer_of(self.machine.port) as one:
                one.sendall(text[: max(1, len(text) * 2 // 3)])
                if happens == "killed within":
                    self.machine.kill()
            return None
        if happens == "front":
            self._without_front(asked)
            return None
        if happens == "slow":
            self.machine.pause(STANDING)
        front = self.machine.front
        is_direct = happens.startswith("killed") or not front.is_up
        self.through += not is_direct
        response = self._heard(text, happens) if is_direct else front.answer(asked)
        reply = self._judged(asked, response)
        if happens == "killed after":
            self.machine.kill()
        return None if happens in ("lost", "garbled", "desk", "killed meanwhile") else reply

    def _heard(self, text: bytes, happens: str) -> bytes:
        """The response of the office to a message that doesn't pass the front."""
        with contextlib.suppress(OSError), peer_of(self.machine.port) as one:
            one.sendall(text)
            if happens == "killed meanwhile":
                self.machine.kill()
            return heard_until_reset(one)
        return b""

    def _without_front(self, asked: Asked) -> None:
        """Kills the front once it has received a message, which the office may have carried out."""
        with contextlib.suppress(OSError, http.client.HTTPException):
            self.machine.front.send(asked)
        self.machine.front.kill()
        self._judged(asked, b"")
        # (the office is asked one thing after another: what it had got is done by now)
        self._judged(TABLES, self._heard(TABLES.message(), ""))

    def _judged(self, asked: Asked, response: bytes) -> Any:
        """The reply in a response, which the judge hears; None if there is none."""
        self.machine.stamp()
        reply = reply_of(response)
        told = reply.get("rows", [reply]) if isinstance(reply, dict) else []
        self.machine.write_log(is_awaited=any(row.get("refused") == 90 for row in told))
        if reply is None:
            self.judge.unanswered(asked)
        else:
            self.judge.answered(asked, reply)
        return reply

    def find_out(self, asked: Asked) -> None:
        """Asks the office directly, without the front, so that the judge knows the result of a message."""
        if self.machine.is_up:
            self._judged(asked, self._heard(asked.message(), ""))
