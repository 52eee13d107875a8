"""The people and programs that see the office from outside: readers, the publisher, the probe, and the maker of its
backups."""

from __future__ import annotations

import os
import shutil
import time
from typing import TYPE_CHECKING

from .asked import Asked
from .judge import Broken
from .moments import DAY, HOUR, Month
from .probing import WELL

if TYPE_CHECKING:
    from .country import Country

CONFIG = "[office]\nagency = NSO\narea = XX\noffice = Office of prices\ncurrency = crowns\n"
AGAIN = 600

PATIENTLY = ["--slow", "500000,600000", "--timeout", "250"]
"""Arguments of the probe: this machine may be busy with other work."""

LOOKS = frozenset(["copies", "site", "probe", "closing"])
"""The things that are checked besides the answers: backups with their drills, the site, the probe's reports, and the
desk's program for a freeze."""

PROBED = 3
"""The number of times per month that somebody asks the probe, at drawn moments."""


class Outside:
    """The actions from outside."""

    def __init__(self, country: "Country", site: str) -> None:
        self.country, self.folder = country, site
        self.probes = self.packs = 0
        self.looks = LOOKS
        self.is_eager = False  # a wrong publisher: it reads the file, and writes what isn't out
        self.is_anew = False  # a wrong publisher: each pack begins anew
        self.says_well = False  # a wrong probe: all is well
        self.output = country.machine.log
        """The log of the office that the probe reads."""
        self.kills = 0
        """The number of times that the publisher is killed while it writes."""
        self.config = site + ".ini"
        with open(self.config, "w", encoding="utf-8") as out:
            out.write(CONFIG)

    # ---- readers and the publisher

    def plan_month(self, month: Month) -> None:
        """Schedules the actions of readers, the publisher and the probe in a month."""
        country = self.country
        for after in (-10 * DAY, -HOUR, -1, 0, 1, HOUR):
            country.at(month.publishes + after, self.read, month.name)
        if "copies" in self.looks:
            country.at(month.opens + 4 * DAY, self.backup)
            country.at(month.freezes + 2 * HOUR, self.backup)
        country.at(month.publishes - 2 * HOUR, self.publish)
        country.at(month.publishes + HOUR // 2, self.publish)
        drawn = country.world.drawn("probes", month.name)
        for moment in (month.opens + HOUR, *(drawn.randrange(month.opens, month.publishes) for _ in range(PROBED))):
            country.at(moment, self.probe)

    def read(self, month: str) -> None:
        """A reader asks for the list of tables and a table."""
        for words in (("tables",), ("table", month, "csv"), ("table", month, "text"), ("table", month, "csv", "1")):
            self.country.ask("public", Asked(None, words))

    def publish(self) -> None:
        """Writes the site from the published tables, and lets the judge check it."""
        country, machine = self.country, self.country.machine
        country.judge.revisions(country.desk.frozen)
        if "site" not in self.looks:
            return
        if not machine.is_up:
            country.at(country.now + AGAIN, self.publish)
            return
        if self.is_anew and os.path.exists(self.folder):
            shutil.rmtree(self.folder)
        source = ["--url", machine.url]
        if self.is_eager:
            source = ["--db", machine.file, "--at", str(country.now + 24 * 30 * HOUR), "--draft"]
        words = ["publish", *source, "--config", self.config, "--out", self.folder]
        while self.kills:
            self._killed(words)
        ended = machine.tools.run(*words)
        if ended.status and machine.is_up and "no table" not in ended.told:
            raise Broken(f"publish ends with {ended.status}: {ended.told}")
        if not ended.status:
            self.packs += 1
            country.judge.site(self.folder)

    def _killed(self, words: list[str]) -> None:
        """Kills the publisher at some moment; the pack must be whole then."""
        self.kills -= 1
        going = self.country.machine.tools.begin(*words)
        time.sleep(self.country.world.drawn("publisher", self.country.now, self.kills).random() * 0.3)
        going.kill()
        going.end()
        self.country.met("publisher")
        if os.path.exists(self.folder):
            self.country.judge.site(self.folder, may_be_before=True)

    # ---- the probe

    def probe(self) -> None:
        """Asks the probe, and checks that it reports the truth."""
        country, machine = self.country, self.country.machine
        if "probe" not in self.looks:
            return
        is_reached = machine.is_up and machine.front.is_up
        if is_reached:
            # (the office has said why it refused the last request once it answers the next one)
            country.ask("judge", Asked(None, ("tables",)))
        url = ["--url", machine.front.place.url + "/api", "--authority", machine.front.authority]
        files = ["--file", machine.file, "--output", self.output, "--free", "1,0"]
        ended = machine.tools.run("probe", *url, *files, *PATIENTLY)
        self.probes += 1
        status = WELL if self.says_well else ended.status
        least, most = country.judge.probed(is_reached, country.clock.jumped)
        if not least <= status <= most:
            raise Broken(f"the probe ends with {status}, and not with {least} to {most}: {ended.told}")

    # ---- copies

    def backup(self) -> None:
        """A backup, as the timer makes it; on a lost machine there is nothing to copy."""
        if "copies" in self.looks and not self.country.machine.is_lost:
            self.country.keeping.backup()
