"""The machine of the office: `cpi serve` over a file, and the faults that it can have."""

from __future__ import annotations

import contextlib
import glob
import os
import resource
import select
import signal
import subprocess
import threading
import time
from typing import Optional

from lib.program import Program
from lib.served import free_port, heard_until_reset, peer_of, words_of

from . import clock as clocks
from .front import Front
from .tools import PATIENCE, Tools, environment_of

FREE = resource.RLIM_INFINITY


def takes_no_signal() -> None:
    """In the process of the office: a write past the limit fails, but doesn't kill the process."""
    signal.signal(signal.SIGXFSZ, signal.SIG_IGN)


class Machine:
    """An office that is served, and restarted once it has ended."""

    def __init__(self, program: Program, room: str, clock: clocks.Clock) -> None:
        self.program, self.room, self.clock = program, room, clock
        self.port = free_port()
        self.file = os.path.join(room, "office.db")
        self.log = os.path.join(room, "serve.log")
        self.site = os.path.join(room, "site")
        self.front = Front(room, self.port, clock, self.site)
        self.tools = Tools(room, environment_of(program.path, clock.environment()))
        self.seen: dict[str, int] = {}
        self.process: Optional[subprocess.Popen[bytes]] = None
        self.most = FREE
        self.has_memory_log = False
        self.burned = 0
        self.is_lost = False

    @property
    def url(self) -> str:
        """The address at which the machine itself asks the office."""
        return f"http://127.0.0.1:{self.port}"

    @property
    def is_up(self) -> bool:
        """Whether it is served."""
        return self.process is not None and self.process.poll() is None

    @property
    def has_disk(self) -> bool:
        """Whether the disk accepts all writes."""
        return self.most == FREE

    def start(self) -> bool:
        """Starts the office, unless it runs; returns whether it runs now."""
        if self.is_up:
            return True
        words = [self.program.path, *words_of(self.file, self.port, 1_000_000)]
        process = subprocess.Popen(
            words,
            stdout=subprocess.PIPE,
            stderr=subprocess.PIPE,
            env=self.clock.environment(),
            preexec_fn=takes_no_signal,
        )
        self.process = process
        assert process.stdout and process.stderr
        os.set_blocking(process.stderr.fileno(), False)
        if not process.stdout.readline().startswith(b"cpi: listening"):
            self.kill()
            return False
        self.stamp()
        self.limit(self.most)
        return True

    def stop(self) -> None:
        """Ends the office as systemd does, and puts its log into its file as ops/cpi-stopped does."""
        if self.process and self.is_up:
            self.process.terminate()
            self.process.wait()
            self.kill()
            if self.has_disk:
                self.program.replay(b"", self.file)
                self.stamp()

    def close(self) -> None:
        """Ends everything that runs on the machine."""
        self.kill()
        self.front.kill()
        self.tools.close()

    def stamp(self) -> None:
        """Gives the times of the simulated clock to the files of the office that have changed."""
        changed = []
        for path in (self.file, self.file + "-wal"):
            with contextlib.suppress(FileNotFoundError):
                if os.stat(path).st_mtime_ns != self.seen.get(path):
                    changed.append(path)
        self.clock.stamp(*changed)
        for path in changed:
            with contextlib.suppress(FileNotFoundError):
                self.seen[path] = os.stat(path).st_mtime_ns

    def kill(self) -> None:
        """Ends the process with the signal that nobody can block."""
        if self.process:
            self.process.kill()
            self.process.wait()
            self.write_log()
            for pipe in (self.process.stdout, self.process.stderr):
                if pipe:
                    pipe.close()
            clocks.forget(self.process.pid)
            self.process = None
        if self.has_memory_log:
            for path in glob.glob(self.file + "-*"):
                os.remove(path)

    def limit(self, most: int) -> None:
        """Limits the disk to files of so many bytes."""
        self.most = most
        if self.process and self.is_up:
            resource.prlimit(self.process.pid, resource.RLIMIT_FSIZE, (most, FREE))

    def write_log(self, is_awaited: bool = False) -> None:
        """Appends the office's new lines to its log, which is on another disk, like a journal. After a refusal with 90
        the office writes two lines, for which this waits."""
        if self.process and self.process.stderr:
            told, until = self.process.stderr.read() or b"", time.monotonic() + PATIENCE
            while is_awaited and b"open again" not in told and self.is_up and time.monotonic() < until:
                select.select([self.process.stderr], [], [], 0.05)
                told += self.process.stderr.read() or b""
            with open(self.log, "ab") as out:
                out.write(told)
            if told:
                self.clock.stamp(self.log)

    def log_size(self) -> int:
        """The length of the log of the office's file."""
        path = self.file + "-wal"
        return os.path.getsize(path) if os.path.exists(path) else 0

    def tell(self, text: bytes) -> None:
        """Sends a message about which nobody else knows."""
        with contextlib.suppress(OSError), peer_of(self.port) as one:
            one.sendall(text)
            heard_until_reset(one)

    def pause(self, seconds: float) -> None:
        """Pauses the process for so long, as a slow disk would."""
        process = self.process
        if process:
            process.send_signal(signal.SIGSTOP)
            timer = threading.Timer(seconds, process.send_signal, [signal.SIGCONT])
            timer.daemon = True
            timer.start()

    def burn(self) -> None:
        """The machine is lost with its disk; its files are kept for someone who brings it back by mistake."""
        self.kill()
        self.burned += 1
        self.is_lost = True
        aside = os.path.join(self.room, f"burned-{self.burned}")
        os.mkdir(aside)
        for path in [*glob.glob(self.file + "*"), self.log]:
            os.rename(path, os.path.join(aside, os.path.basename(path)))
