"""Two machines for a test: systems that boot with the files of this one, each in a network of its own; and the commands
of a guide. What they change lies in memory, and is still there after a kill."""

from __future__ import annotations

import contextlib
import os
import re
import signal
import subprocess
import time
from collections.abc import Iterator
from pathlib import Path

FIRST, SECOND = "10.77.0.1", "10.77.0.2"
"""The addresses of the two machines."""

NETWORK_NAMES = tuple(f"cpi-{name}-{os.getpid()}" for name in ("first", "second"))
"""The names of their networks on this machine, which another run doesn't have."""

LINKS = ("cpi-1", "cpi-2")
"""The ends of the line between them."""

NETWORKS = """
ip netns add "$1"
ip netns add "$2"
ip link add "$3" netns "$1" type veth peer name "$4" netns "$2"
ip -n "$1" addr add "$5/24" dev "$3"
ip -n "$2" addr add "$6/24" dev "$4"
for at in "$1 lo" "$1 $3" "$2 lo" "$2 $4"; do
  set -- $at
  ip -n "$1" link set "$2" up
done
"""

ROOM = """
mount -t tmpfs tmpfs "$1"
for name in first second; do
  mkdir -p "$1/$name/changes" "$1/$name/work" "$1/$name/root"
  mount -t overlay overlay -o "lowerdir=/,upperdir=$1/$name/changes,workdir=$1/$name/work" "$1/$name/root"
  cp "$2" "$1/$name/root/root/cpi.deb"
  echo "$name" > "$1/$name/root/etc/hostname"
done
echo ready
cat
"""

PATIENCE = 300
"""Seconds after which something is taken for hanging."""


@contextlib.contextmanager
def two_networks() -> Iterator[None]:
    """Two networks with a line between them. This asks for root."""
    words = ["sh", "-euc", NETWORKS, "networks", *NETWORK_NAMES, *LINKS, FIRST, SECOND]
    try:
        subprocess.run(words, check=True)
        yield
    finally:
        for name in NETWORK_NAMES:
            subprocess.run(["ip", "netns", "delete", name], check=True)


class System:
    """A machine: its name, its network, and the process that has its files mounted."""

    def __init__(self, name: str, network: str, room: Path, holder: int):
        self.name, self._network, self._holder = name, network, holder
        self._root, self._told = room / name / "root", room.parent / f"{name}.console"
        self._booted: "subprocess.Popen[bytes] | None" = None

    def boot(self) -> None:
        """Boots it, as a machine does that was turned on, and waits until that is done."""
        keeps = [] if Path("/run/systemd/system").is_dir() else ["--keep-unit"]
        words = ["systemd-nspawn", "--quiet", "--register=no", *keeps, f"--directory={self._root}"]
        words += [f"--network-namespace-path=/run/netns/{self._network}", "--boot"]
        enter = ["nsenter", "--target", str(self._holder), "--mount"]
        with self._told.open("ab") as told:
            self._booted = subprocess.Popen([*enter, *words], stdin=subprocess.DEVNULL, stdout=told, stderr=told)
        until = time.monotonic() + PATIENCE
        while self._tried("systemctl is-system-running").stdout.strip() not in ("running", "degraded"):
            assert time.monotonic() < until and self._booted.poll() is None, self._told.read_text(errors="replace")
            time.sleep(0.2)

    def kill(self) -> None:
        """Ends all that runs on it at once, as a machine whose power is gone."""
        if self._booted and self._booted.poll() is None:
            with contextlib.suppress(ProcessLookupError, AssertionError):
                os.kill(self._first_process(), signal.SIGKILL)
            self._booted.wait(PATIENCE)

    def run(self, commands: str, status: int = 0) -> str:
        """What commands print that root runs there; they have to end so."""
        ran = self._tried(commands)
        assert ran.returncode == status, (self.name, commands, ran.returncode, ran.stdout, ran.stderr)
        return ran.stdout

    def wait_for(self, command: str) -> None:
        """Waits until a command succeeds there."""
        until = time.monotonic() + PATIENCE
        while (ran := self._tried(command)).returncode:
            assert time.monotonic() < until, (self.name, command, ran.stdout, ran.stderr)
            time.sleep(0.2)

    def _tried(self, commands: str) -> "subprocess.CompletedProcess[str]":
        enter = ["nsenter", "--target", str(self._first_process()), "--all", "env", "-i", "HOME=/root"]
        words = [*enter, "PATH=/usr/sbin:/usr/bin:/sbin:/bin", "bash", "-euc", f"cd\n{commands}"]
        return subprocess.run(
            words, stdin=subprocess.DEVNULL, capture_output=True, text=True, timeout=PATIENCE, check=False
        )

    def _first_process(self) -> int:
        """The number of its first process on this machine, once it is systemd."""
        assert self._booted
        children = Path(f"/proc/{self._booted.pid}/task/{self._booted.pid}/children")
        until = time.monotonic() + PATIENCE
        while time.monotonic() < until and self._booted.poll() is None:
            for child in children.read_text().split():
                with contextlib.suppress(FileNotFoundError, ProcessLookupError):
                    if Path(f"/proc/{child}/comm").read_text() == "systemd\n":
                        return int(child)
            time.sleep(0.05)
        raise AssertionError(self._told.read_text(errors="replace"))


@contextlib.contextmanager
def two_systems(folder: Path, package: Path) -> Iterator[tuple[System, System]]:
    """Two machines that aren't booted, with the package as `/root/cpi.deb`. This asks for root."""
    room = folder / "room"
    room.mkdir()
    words = ["unshare", "--mount", "bash", "-euc", ROOM, "room", str(room), str(package)]
    with two_networks(), subprocess.Popen(words, stdin=subprocess.PIPE, stdout=subprocess.PIPE, text=True) as holder:
        assert holder.stdout and holder.stdout.readline() == "ready\n"
        first, second = (System(name, of, room, holder.pid) for name, of in zip(("first", "second"), NETWORK_NAMES))
        try:
            yield first, second
        finally:
            first.kill()
            second.kill()
            assert holder.stdin
            holder.stdin.close()


def section(guide: str, heading: str) -> str:
    """What a guide has below a heading, to the next one."""
    _, _, below = guide.partition(f"\n{heading}\n")
    assert below, f"the guide has no heading {heading}"
    return re.split(r"^#+ ", below, maxsplit=1, flags=re.M)[0]


def indented(text: str) -> list[str]:
    """The commands of a text, in blocks as they are."""
    blocks = re.findall(r"(?<=\n\n)(?: {4}.*\n)+", text)
    return ["".join(line[4:] for line in block.splitlines(keepends=True)) for block in blocks]
