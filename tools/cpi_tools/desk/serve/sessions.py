"""The people at the desk: sessions in memory, seals on what is given out, the second key, and wrong keys."""

from __future__ import annotations

import hashlib
import hmac
import ipaddress
import re
import secrets
import threading
import time
import unicodedata
from collections.abc import Callable
from pathlib import Path
from typing import Optional

from ...text.exact import key_of
from ...text.message import Message, message as _, message_of, whole
from ...text.others import Worded, of_others
from ...text.terminal import Fault, because_of
from ...text.text_files import write_whole
from .faults import not_as_written


# ==== a seal on texts that the application gives out: it recognizes its own seal, also after a new start, and nobody
# else can make one

BYTES = 32
"""Of the key."""


class Seal:
    """A key in a file that only its owner reads, which is made if there is none; without a path it is in memory only."""

    def __init__(self, path: Optional[Path] = None):
        """Raises Fault if the file can't be read or made."""
        self._key = _read_or_made(path) if path else secrets.token_bytes(BYTES)

    def seal(self, text: str) -> str:
        """A text with its seal."""
        return f"{text}.{self._of(text)}"

    def is_own(self, sealed: str) -> bool:
        """Whether a text has a seal made with this key."""
        text, _, seal = sealed.rpartition(".")
        return hmac.compare_digest(self._of(text).encode(), seal.encode())

    def _of(self, text: str) -> str:
        return hmac.new(self._key, text.encode(), hashlib.sha256).hexdigest()


def _read_or_made(path: Path) -> bytes:
    try:
        if not path.exists():
            write_whole(path, secrets.token_bytes(BYTES), 0o600)
        key = path.read_bytes()
    except OSError as fault:
        raise Fault(because_of(fault)) from fault
    if len(key) != BYTES:
        raise Fault(not_as_written(path, ValueError(f"{len(key)} bytes")))
    return key


# ==== Wrong keys, counted by the address that they come from: after some, nobody there can sign in for a while, longer
# with each further one. So nobody elsewhere can lock the desk out.

FREE_TRIES = 5
"""Wrong keys from an address before its first lock."""

FIRST_LOCK, LONGEST_LOCK = 60, 1_800
"""Seconds."""

MOST_ADDRESSES = 10_000
"""Addresses that are remembered, the latest ones: whoever has more of them still has no key."""

NETWORK_BITS = 64
"""Bits of an IPv6 address that say whose it is: one machine may take any that begins with them."""


def place_of(address: str) -> str:
    """The part of an address by which wrong keys are counted."""
    try:
        place = ipaddress.ip_address(address)
    except ValueError:
        return address
    return str(ipaddress.ip_network((place, NETWORK_BITS), strict=False)) if place.version == 6 else str(place)


class Tries:
    """The wrong keys of each address. `clock` is in seconds."""

    def __init__(self, clock: Callable[[], float]):
        self._clock = clock
        self._by_place: dict[str, tuple[int, float]] = {}
        """By place: the number of wrong keys, and the time until which nobody from there can sign in."""

    def wait(self, address: str) -> float:
        """Seconds for which nobody from an address can sign in yet, or less than 0."""
        return self._by_place.get(place_of(address), (0, 0.0))[1] - self._clock()

    def wrong(self, address: str) -> None:
        """Counts a wrong key."""
        place = place_of(address)
        count = self._by_place.pop(place, (0, 0.0))[0] + 1
        over = count - FREE_TRIES
        locked = min(LONGEST_LOCK, FIRST_LOCK * 2 ** min(over, 10)) if over >= 0 else 0
        self._by_place[place] = (count, self._clock() + locked if locked else 0.0)
        while len(self._by_place) > MOST_ADDRESSES:
            del self._by_place[next(iter(self._by_place))]

    def right(self, address: str) -> None:
        """Forgets the wrong keys of an address."""
        self._by_place.pop(place_of(address), None)


# ==== the people at the desk: sessions in memory, each with the name of a person and the desk's key, which is written
# nowhere
#
# The key is the office's, so each one is checked by asking the office. After some wrong keys from an address, nobody
# there can sign in for a while (wrong_keys.py).

KEY = re.compile("[0-9a-f]{32}")

MOST_LETTERS = 60
"""Letters of a name."""

LONGEST_SESSION = 12 * 3_600
"""Seconds after which a person signs in again, however busy."""
NO_KEY = _("This isn't the desk's key. The key has 32 characters, 0-9 and a-f, as in the office's desk-key file.")


class NotSignedIn(Fault):
    """A name or a key that isn't accepted; the message is one line."""


class WrongKey(NotSignedIn):
    """A key that isn't taken."""


class Session:
    """A person at the desk."""

    def __init__(self, person: str, key: str, now: float):
        self.person, self.key = person, key
        self.token = secrets.token_urlsafe(24)
        self.begun = self.used = now

    def has_token(self, given: str) -> bool:
        """Whether a form is this session's own."""
        return hmac.compare_digest(self.token.encode(), given.encode())


def name_of(text: str) -> str:
    """A person's name as it is kept. Raises NotSignedIn."""
    name = " ".join(unicodedata.normalize("NFC", text).split())
    if not name:
        raise NotSignedIn(_("Give your name: the desk's log shows it next to what you do."))
    if len(name) > MOST_LETTERS or any(unicodedata.category(it)[0] == "C" for it in name):
        raise NotSignedIn(
            _("A name can have at most {most} characters, none of them invisible.", most=whole(MOST_LETTERS))
        )
    return name


def is_same(one: str, other: str) -> bool:
    """Whether two names are of one person, however they are written."""
    return unicodedata.normalize("NFKC", one).casefold() == unicodedata.normalize("NFKC", other).casefold()


class Sessions:
    """All of them. `is_right` says whether a key is taken, such as the desk's, and `refusal` is the message if it isn't;
    `idle` is in seconds."""

    def __init__(
        self,
        is_right: Callable[[str], bool],
        idle: int,
        clock: Callable[[], float] = time.monotonic,
        seal: Optional[Seal] = None,
        refusal: Message = NO_KEY,
    ):
        self._is_right, self._idle, self._clock = is_right, idle, clock
        self._refusal = refusal
        self._seal = seal or Seal()
        # (one person signs in at a time; while the office is asked, others go on)
        self._door, self._lock = threading.Lock(), threading.Lock()
        self._by_name: dict[str, Session] = {}
        self._tries = Tries(clock)

    def sign_in(self, name: str, key: str, address: str = "") -> str:
        """Begins a session of a person at an address; its name, which is a secret. Raises NotSignedIn, or Fault if the key
        can't be checked."""
        person = name_of(name)
        with self._door:
            wait = self._tries.wait(address)
            if wait > 0:
                raise NotSignedIn(
                    message_of(
                        "Too many wrong keys. Wait a second, then try again.",
                        "Too many wrong keys. Wait {count} seconds, then try again.",
                        int(wait) + 1,
                    )
                )
            if not KEY.fullmatch(key) or not self._is_right(key):
                self._tries.wrong(address)
                raise WrongKey(self._refusal)
            self._tries.right(address)
        secret = self._seal.seal(secrets.token_urlsafe(32))
        with self._lock:
            self._by_name[secret] = Session(person, key, self._clock())
        return secret

    def was_one(self, secret: Optional[str]) -> bool:
        """Whether a secret belongs to a session, even one that ended long ago."""
        return bool(secret) and self._seal.is_own(secret or "")

    def of(self, secret: Optional[str], is_by_hand: bool = True) -> Optional[Session]:
        """The session of a secret, if it hasn't ended. Only a request that a person makes by hand keeps it alive."""
        with self._lock:
            now = self._clock()
            for name, it in [*self._by_name.items()]:
                if now - it.used > self._idle or now - it.begun > LONGEST_SESSION:
                    del self._by_name[name]
            found = self._by_name.get(secret or "")
            if found and is_by_hand:
                found.used = now
            return found

    def end(self, secret: Optional[str]) -> None:
        """Ends a session."""
        with self._lock:
            self._by_name.pop(secret or "", None)


# ==== the second key: with it a freeze needs two people, since neither the desk's key nor a name is enough to confirm
# one


class SecondKey:
    """The key in a file that only its owner reads. It is read each time, so a new one counts at once."""

    def __init__(self, path: Path):
        """Raises Fault if the file doesn't contain a key, or others can read it."""
        self._path, self._tries = path, Tries(time.monotonic)
        self._read()

    def find_refusal(self, typed: str, desk_key: str, address: str) -> Worded:
        """The reason why a key that was typed at an address isn't accepted, or nothing. Raises Fault if the file can't
        be read."""
        wait = self._tries.wait(address)
        if wait > 0:
            return message_of(
                "Too many wrong keys. Wait a second, then try again.",
                "Too many wrong keys. Wait {count} seconds, then try again.",
                int(wait) + 1,
            )
        key = self._read()
        if hmac.compare_digest(key, desk_key):
            return _("The second key is the same as the desk's key, so it protects nothing: have its file changed.")
        if not hmac.compare_digest(key.encode(), key_of(typed).encode()):
            self._tries.wrong(address)
            return _("This isn't the second key: the person who has it must confirm.")
        self._tries.right(address)
        return Worded("")

    def _read(self) -> str:
        path = of_others(str(self._path))
        try:
            if self._path.stat().st_mode & 0o077:
                raise Fault(
                    _("Others can read {path}, which contains the second key: give it the mode 600.", path=path)
                )
            text = self._path.read_text(encoding="ascii", errors="replace").strip()
        except OSError as fault:
            raise Fault(because_of(fault)) from fault
        if not KEY.fullmatch(text):
            says = _(
                "{path} doesn't contain a key of 32 characters 0-9 and a-f: write one into it, and nothing else.",
                path=path,
            )
            raise Fault(says)
        return text
