"""What tests of generations share: a place with two copies, its generations, and users for it."""

from __future__ import annotations

import contextlib
import json
import os
import pwd
import subprocess
from collections.abc import Iterator
from pathlib import Path
from typing import NamedTuple

from cpi_tools.office.access import User, user_of
from cpi_tools.guard.follow import Follower
from cpi_tools.guard.copies.generations import repository_of
from cpi_tools.guard.copies.mirrors import sum_of
from cpi_tools.office.copying import log_beside
from cpi_tools.guard.copies.places import Folder
from cpi_tools.guard.copies.second_copies import LOG, NAMES, NOTE, OFFICE


NOW = 1_800_000_000
"""2027-01-15 08:00 UTC."""

HOUR = 3600


class Place(NamedTuple):
    """A second machine: the folder of the copies, and that of their generations."""

    dest: Path
    folder: Path

    def archives(self) -> list[str]:
        """The names of all that is in the repository."""
        return repository_of(self.folder).names()


def made_place(office: Path, home: Path) -> Place:
    """A place with two copies of an office, and no generation yet."""
    place = Place(home / "dest", home / "keep")
    for folder in place:
        folder.mkdir()
    carried(office, place, 2)
    return place


def carried(office: Path, place: Place, rounds: int = 1, is_anew: bool = False) -> None:
    """Some rounds of a follower."""
    for _ in range(rounds):
        assert Follower(office, Folder(place.dest), is_anew=is_anew).round() == ""


def forged(copy: Path) -> None:
    """Gives the note of a copy the sums of what lies next to it, as somebody could who has taken the first machine, or an
    earlier version that looked at no page."""
    note = json.loads((copy / NOTE).read_text())
    log_beside(copy / OFFICE).touch()
    for part, name in (("file", OFFICE), ("log", LOG)):
        note[part] = dict(zip(("size", "sum"), sum_of(copy / name)))
    (copy / NOTE).write_text(json.dumps(note))


# ---- users


class Users(NamedTuple):
    """Two users of this machine, made for a test: that of the copies, and that of the generations."""

    copies: User
    keeper: User


@contextlib.contextmanager
def two_users() -> Iterator[Users]:
    """Two users, who go at the end. This asks for root."""
    names, made = [f"cpi-test-{part}-{os.getpid()}" for part in ("copy", "keep")], list[User]()
    try:
        for name in names:
            words = ["useradd", "--system", "--user-group", "--no-create-home", "--home-dir", "/nonexistent"]
            subprocess.run([*words, "--shell", "/usr/sbin/nologin", name], check=True)
            made.append(user_of(pwd.getpwnam(name).pw_uid))
        yield Users(made[0], made[1])
    finally:
        for user in made:
            subprocess.run(["userdel", user.name], check=True)


def given(place: Place, users: Users) -> None:
    """Gives a place the owners and modes of the guide."""
    os.chown(place.dest, 0, users.copies.group)
    place.dest.chmod(0o750)
    for name in NAMES:
        for path in (place.dest / name, *(place.dest / name).iterdir()):
            os.chown(path, users.copies.number, users.copies.group)
        (place.dest / name).chmod(0o700)
    for path in (place.folder, *place.folder.rglob("*")):
        os.chown(path, users.keeper.number, users.keeper.group)
    place.folder.chmod(0o700)


def as_user(user: User, command: str) -> "subprocess.CompletedProcess[str]":
    """What a user's shell does with a command."""
    words = ["setpriv", f"--reuid={user.number}", f"--regid={user.group}", "--clear-groups", "sh", "-c", command]
    return subprocess.run(words, cwd="/", capture_output=True, text=True, check=False)


def owners_below(folder: Path) -> set[int]:
    """Whose all is that lies in a folder."""
    return {path.lstat().st_uid for path in folder.rglob("*")}
