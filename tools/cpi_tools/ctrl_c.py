"""What Ctrl-C does: it ends a program without a word while the program is read, and raises while it works.

Python reports a Ctrl-C in many lines until a program catches it. `start` holds one back meanwhile.
"""

from __future__ import annotations

import signal


def ends_silently() -> None:
    """From here on Ctrl-C ends the program at once and without a word, and so does one that was held back until now.

    If it is ignored, as by `nohup`, it still is.
    """
    if signal.getsignal(signal.SIGINT) is signal.default_int_handler:
        signal.signal(signal.SIGINT, signal.SIG_DFL)
    signal.pthread_sigmask(signal.SIG_UNBLOCK, {signal.SIGINT})


def raises() -> None:
    """From here on Ctrl-C raises KeyboardInterrupt, so that nothing half made is left."""
    if signal.getsignal(signal.SIGINT) is signal.SIG_DFL:
        signal.signal(signal.SIGINT, signal.default_int_handler)
