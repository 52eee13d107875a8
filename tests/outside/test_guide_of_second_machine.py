"""SECOND-MACHINE, followed word for word between two booted systems in two networks: the commands are
those of the document, in its order. The first machine is killed, the second one promoted, and then comes the way back."""

from __future__ import annotations

import re
import sys
from pathlib import Path

from tools import clients
from cpi_tools.guard.gaps import MISSING
from lib.places import ROOT
from .systems import System, indented, section

GUIDE = (ROOT / "docs/run/SECOND-MACHINE.md").read_text()
RUNNING = (ROOT / "docs/run/RUNNING.md").read_text()
(RESTORE,) = indented(section(RUNNING, "## To restore"))
USER, KEY, ALLOWED, FOLLOW, PROBE = indented(section(GUIDE, "## To set it up"))
(ANEW,) = indented(section(GUIDE, "## When the office isn't carried any more"))
KEEP, GENERATION = indented(section(GUIDE, "## Generations"))
(PROMOTE,) = indented(section(GUIDE, "## When the first machine is lost"))
STOP, REPLACE, ASIDE, AGAIN = indented(section(GUIDE, "## Back again"))

OFFICE, COPY, DESK = "/var/lib/cpi/office.db", "/var/lib/cpi-copy/office", "/var/lib/cpi-desk"
LOCK = "/var/lib/cpi-keep/repository/lock.exclusive"
CLIENTS = f"{sys.executable} {Path(clients.__file__)} 8080"
PRICES = 20
INACTIVE = 3
"""What `systemctl is-active` ends with of a unit that isn't active."""


def followed(serves: System, takes: System, name: str) -> None:
    """The guide's way by which a machine gets another one that follows it, `name`."""
    takes.run(USER)
    public = serves.run(KEY.replace("second.example", name)).splitlines()[-1]
    line = ALLOWED.replace("ssh-ed25519 AAAA..", public)
    assert line != ALLOWED
    takes.run(f"cat > /etc/ssh/keys/cpi-copy << 'END'\n{line}END")
    (setting,) = re.findall(r"add a line `(CPI_COPY=[^`]+)`", GUIDE)
    serves.run(f"echo '{setting.replace('second.example', name)}' >> /etc/cpi/office.conf")
    serves.run(FOLLOW)


def sent(on: System, price: int) -> str:
    """A list of the receipts that an office gave for a price of each of the first slots of a collector."""
    rows = "".join(f"1,{slot},{price}\n" for slot in range(1, PRICES + 1))
    told = on.run(f"{CLIENTS} again << 'END'\n{rows}END").splitlines()
    assert len(told) == PRICES
    cells = [row.split(",") for row in told]
    rows = "".join(f"{who},{slot},{clients.MONTH},price,{value},{receipt}\n" for who, slot, value, receipt, _ in cells)
    return f"collector,slot,month,mark,value,receipt\n{rows}"


def wait_for_rounds(on: System, count: int) -> None:
    """Waits until so many further copies of an office are carried, each begun after the one before it was there."""
    for _ in range(count):
        copied = "cpi-tools probe --copy /var/lib/cpi-follow | grep -o 'second_copied_seconds=[0-9]*' | cut -d= -f2"
        begun = on.run("date +%s").strip()
        on.wait_for(f"test $({copied}) -gt {begun}")


def missing(on: System, receipts: str, status: int) -> int:
    """How many prices of a list of receipts an office doesn't have, as the guide's tool says."""
    told = on.run(f"cpi-tools gaps {OFFICE} --receipts - << 'END'\n{receipts}END", status)
    return max(0, len(told.splitlines()) - 1)


def test_the_guide_is_followed_word_for_word(systems: tuple[System, System]) -> None:
    first, second = systems
    records = "\n".join(clients.survey())
    first.run(f"runuser -u cpi -- cpi replay --db {OFFICE} > /dev/null << 'END'\n{records}\nEND")
    first.run("systemctl enable --quiet --now cpi.service cpi-backup.timer")
    before = sent(first, 210)
    followed(first, second, "second.example")
    first.wait_for(PROBE)
    lost_and_promoted(first, second, before)
    back_again(first, second)
    carried_anew(first, before)
    # the same once more: nothing of the way back is in the way of a promotion
    first.kill()
    second.run(PROMOTE)
    assert missing(second, before, 0) == 0


def carried_anew(first: System, before: str) -> None:
    """A backup of before the last prices is restored on the first machine, and is carried once that is said."""
    first.run("systemctl start cpi-backup.service")
    last = sent(first, 555)
    wait_for_rounds(first, 1)
    command = RESTORE.replace("office-2026-01-31.db", "office-$(date -u +%F).db --yes")
    assert command != RESTORE
    first.run(command)
    assert missing(first, last, MISSING) == PRICES and missing(first, before, 0) == 0
    first.run("systemctl start cpi-follow.service")
    first.wait_for("cpi-tools probe --copy /var/lib/cpi-follow | grep -q 'would take back what the copy has'")
    first.run(ANEW)
    first.wait_for(PROBE)


def test_a_generation_outlives_both_copies(systems: tuple[System, System]) -> None:
    """An office made anew is carried by --anew, as nobody should; the user of the copies empties what is there."""
    first, second = systems
    records = "\n".join(clients.survey())
    first.run(f"runuser -u cpi -- cpi replay --db {OFFICE} > /dev/null << 'END'\n{records}\nEND")
    first.run("systemctl enable --quiet --now cpi.service cpi-backup.timer")
    before = sent(first, 210)
    first.run(f"install -d -m 700 -o cpi -g cpi {DESK}; runuser -u cpi -- sh -c 'echo before > {DESK}/desk.log'")
    followed(first, second, "second.example")
    first.wait_for(PROBE)
    second.wait_for(f"grep -qx before {COPY}/desk/1/desk.log")
    second.run(KEEP)
    first.wait_for(f"{PROBE.strip()} --prometheus | grep -q cpi_drilled_age_seconds")
    second.run('systemctl is-active cpi-keep.timer; test "$(stat -c %U /var/lib/cpi-keep/repository)" = cpi-keep')
    listed, take = GENERATION.splitlines()
    first.run(f"systemctl stop cpi-follow cpi; rm -f {OFFICE} {OFFICE}-wal; echo later >> {DESK}/desk.log")
    first.run(
        ANEW.replace("systemctl start cpi-follow.service", "").replace("runuser", "systemctl start cpi\nrunuser", 1)
    )
    second.run("systemctl start cpi-keep.service")
    second.run(f"runuser -u cpi-copy -- sh -c 'rm -f {COPY}/copy-1/* {COPY}/copy-2/*; ! rm -rf /var/lib/cpi-keep'")
    second.run("systemctl start cpi-keep.service", 1)
    # a machine whose power goes while borg runs leaves a lock, which holds nobody up
    lock = f"{LOCK}/cpi-keep@$(cat /etc/machine-id)_before_1.1-0"
    second.run(f"runuser -u cpi-keep -- mkdir {LOCK}; runuser -u cpi-keep -- touch {lock}")
    first.kill()
    name = second.run(f"{listed} || true").splitlines()[0]
    told = second.run(take.replace("2026-01-31-090007", name))
    assert missing(second, before, 0) == 0
    assert f"{DESK}: the desk's folder is that of 20" in told and second.run(f"cat {DESK}/desk.log") == "before\n"


def lost_and_promoted(first: System, second: System, before: str) -> None:
    """The first machine goes while its last answers aren't carried yet, and comes back once the second one serves."""
    first.run("systemctl stop cpi-follow")
    after = sent(first, 333)
    first.kill()
    told = second.run(PROMOTE)
    assert "what first answered since 20" in told and "CPI OK" in told, told
    assert missing(second, before, 0) == 0
    assert missing(second, after, MISSING) == PRICES
    sent(second, 333)
    assert missing(second, after, 0) == 0
    first.boot()
    first.wait_for(f"test -e {OFFICE}.promoted")
    first.wait_for("systemctl is-failed cpi-promoted")
    first.run("systemctl is-active cpi.service", INACTIVE)
    first.run("systemctl start cpi.service", 1)


def back_again(first: System, second: System) -> None:
    """The first machine becomes the second one, and then the first one again: nothing is missing."""
    followed(second, first, "first.example")
    second.wait_for(PROBE)
    last = sent(second, 444)
    second.run(STOP)
    first.run(REPLACE)
    assert missing(first, last, 0) == 0
    second.run("systemctl start cpi-promoted.service", 1)
    second.run(ASIDE)
    first.run(AGAIN)
    first.wait_for(PROBE)


ATTACK = f"""
cd /var/lib/cpi
mkdir -p x/copy-1 y empty
ln -s /var/lib/cpi-copy/.ssh/authorized_keys2 x/copy-1/office.db
echo '{{"machine": "second", "promoted": 1800000000, "copied": 1800000000}}' > promoted.json
rsync -rl x/ cpi-copy@second.example:.
rsync -l x/copy-1/office.db cpi-copy@second.example:./copy-1/
rsync promoted.json cpi-copy@second.example:.
rsync -r --delete empty/ cpi-copy@second.example:. && exit 99
rsync -r --delete empty/ cpi-copy@second.example:./copy-2/ && exit 99
ssh -n -o BatchMode=yes cpi-copy@second.example id && exit 99
scp -q {OFFICE} cpi-copy@second.example:stolen < /dev/null && exit 99
exit 0
"""
"""What the user `cpi` of the first machine tries by the follower's key."""


def test_the_key_carries_pages_and_nothing_else(systems: tuple[System, System]) -> None:
    """Whoever has taken the first machine gets no shell on the second one, empties no copy and makes no mark there."""
    first, second = systems
    records = "\n".join(clients.survey())
    first.run(f"runuser -u cpi -- cpi replay --db {OFFICE} > /dev/null << 'END'\n{records}\nEND")
    first.run("systemctl enable --quiet --now cpi.service cpi-backup.timer")
    followed(first, second, "second.example")
    wait_for_rounds(first, 2)
    first.run("systemctl stop cpi-follow")
    first.run(f"runuser -u cpi -- bash -u << 'END'{ATTACK}END")
    assert second.run(f"ls {COPY}").split() == ["copy-1", "copy-2", "desk", "received", "received.lock"]
    second.run(f"test -s {COPY}/copy-2/office.db; test ! -e /var/lib/cpi-copy/.ssh; test ! -e /var/lib/cpi-copy/stolen")
    # a key that the user of the copies could write wouldn't count either
    first.run("runuser -u cpi -- ssh-keygen -q -t ed25519 -N '' -f /var/lib/cpi/mine")
    mine = first.run("cat /var/lib/cpi/mine.pub")
    for name in ("authorized_keys", "authorized_keys2"):
        second.run(
            f"install -d -o cpi-copy /var/lib/cpi-copy/.ssh; echo '{mine.strip()}' > /var/lib/cpi-copy/.ssh/{name}"
        )
    words = "-o BatchMode=yes -o IdentitiesOnly=yes -i /var/lib/cpi/mine"
    first.run(f"runuser -u cpi -- ssh {words} cpi-copy@second.example true", 255)
    # the follower goes on, puts the copies right, and finds no promotion
    first.run("systemctl start cpi-follow")
    first.wait_for(PROBE)
    first.run(f"test ! -e {OFFICE}.promoted; systemctl is-active cpi.service")
