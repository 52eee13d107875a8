"""Wrong systems, which the judge must find: each is one deliberate mistake in one part of a country."""

from __future__ import annotations

from collections.abc import Callable
from typing import NamedTuple

from .asked import Asked
from .country import Country
from .moments import HOUR


class Slip(NamedTuple):
    """A wrong system: its mistake, the kinds of faults under which it shows, the number of months, and the change that
    makes it."""

    told: str
    kinds: tuple[str, ...]
    months: int
    make: Callable[[Country], None]
    looks: tuple[str, ...] = ()
    """The things that must be checked besides the answers (outside.LOOKS)."""


def phone_forgets(country: Country) -> None:
    for collector in country.collectors:
        collector.phone.forgets = True


def phone_mixes(country: Country) -> None:
    for collector in country.collectors:
        collector.phone.mixes = True


def phone_trusts(country: Country) -> None:
    for collector in country.collectors:
        collector.phone.trusts = True


def plain_copy(country: Country) -> None:
    country.keeping.is_plain = True


def front_keeps(country: Country) -> None:
    country.wire.kept = {}


def front_sends_again(country: Country) -> None:
    """Each command goes to the office once more, hours later."""

    def again(asked: Asked) -> None:
        country.at(country.now + HOUR * 11 // 2, country.machine.tell, asked.message())

    country.wire.again = again


def log_in_memory(country: Country) -> None:
    country.machine.has_memory_log = True


def publisher_reads_file(country: Country) -> None:
    country.outside.is_eager = True


def publisher_begins_anew(country: Country) -> None:
    country.outside.is_anew = True


def desk_freezes_blindly(country: Country) -> None:
    country.desk.is_blind = True


def sender_throws_away(country: Country) -> None:
    for sender in country.senders:
        sender.keeps = False


def probe_says_well(country: Country) -> None:
    country.outside.says_well = True


def probe_reads_another_log(country: Country) -> None:
    country.outside.output = country.machine.log + ".new"
    with open(country.outside.output, "wb"):
        pass


def front_is_not_told(country: Country) -> None:
    country.machine.front.hears = False


def front_writes_keys(country: Country) -> None:
    country.machine.front.change = lambda text: text.replace("$body_bytes_sent", "$http_authorization")


def first_machine_comes_back(country: Country) -> None:
    country.keeping.has_two = True


SLIPS = {
    "phone forgets": Slip("a phone takes what it sent for stored, though no reply came", ("cut",), 2, phone_forgets),
    "phone mixes": Slip(
        "a phone takes a whole batch for stored, if a part of it was", ("full", "refusing", "offline"), 2, phone_mixes
    ),
    "phone trusts its list": Slip(
        "a phone doesn't see that the office was restored", ("burned",), 2, phone_trusts, ("copies",)
    ),
    "plain copy": Slip("a backup copies the office's file without its log", ("burned",), 2, plain_copy, ("copies",)),
    "front keeps": Slip("a front keeps an answer that was given to a key", (), 1, front_keeps),
    "front sends again": Slip("a front sends a command once more, after later ones", (), 2, front_sends_again),
    "log in memory": Slip("an office keeps its log in memory", ("killed",), 1, log_in_memory),
    "publisher reads file": Slip(
        "a publisher reads the file, not the public interface", (), 2, publisher_reads_file, ("site",)
    ),
    "publisher begins anew": Slip(
        "a publisher's manifest doesn't follow the one before", (), 2, publisher_begins_anew, ("site",)
    ),
    "desk freezes blindly": Slip(
        "a desk that had no answer opens the month and freezes it again", ("lost",), 3, desk_freezes_blindly
    ),
    "sender throws away": Slip(
        "a sender throws a file away once it is answered", ("burned",), 2, sender_throws_away, ("copies",)
    ),
    "probe says well": Slip("a probe says that all is well", ("burned",), 2, probe_says_well, ("copies", "probe")),
    "probe reads another log": Slip(
        "a probe reads a log that was begun anew, not the one that the office writes",
        ("refusing",),
        2,
        probe_reads_another_log,
        ("probe",),
    ),
    "certificate isn't taken up": Slip(
        "a front isn't told that its certificate was renewed", ("certificates",), 1, front_is_not_told
    ),
    "log isn't begun anew": Slip("a front isn't told that its log was moved away", ("rotated",), 1, front_is_not_told),
    "log has keys": Slip("a front writes the keys of its askers into its log", (), 1, front_writes_keys),
    "first machine back": Slip(
        "the first machine serves again after a promotion", ("promoted",), 3, first_machine_comes_back
    ),
}
