"""The process of the desk's pages: one refresh after the other, as `cpi-tools desk serve` takes them.

    python3 -m common.desk_refreshes FILE ROOM TIMES

A line a refresh: seconds by the clock and of the processor. The last line is the greatest memory of this process in MB.
"""

from __future__ import annotations

import resource
import sys
import time
from pathlib import Path

from cpi_tools.desk.serve.watched_office import Copies, Observed
from cpi_tools.desk.serve.desk import Watch
from cpi_tools.text.terminal import Fault

MONTH = 202602
"""The month that somebody looks at."""


def renew_copies(file: Path, room: Path, times: int) -> None:
    """Refreshes so many times: a right copy of the office's file, and the month at a glance from it."""
    copies = Copies(file, room)
    watch = Watch(copies, Observed(room))
    for _ in range(times):
        wall, used = time.monotonic(), time.process_time()
        watch.renew()
        print(f"{time.monotonic() - wall:.2f} {time.process_time() - used:.2f}", flush=True)
        if not watch.glance(MONTH).share.priced:
            raise Fault("the month has no prices")
    copies.close()


if __name__ == "__main__":
    renew_copies(Path(sys.argv[1]), Path(sys.argv[2]), int(sys.argv[3]))
    print(resource.getrusage(resource.RUSAGE_SELF).ru_maxrss / 1024)
