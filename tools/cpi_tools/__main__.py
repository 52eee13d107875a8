"""`cpi-tools TOOL ..`, and `python3 -m cpi_tools TOOL ..`."""

from __future__ import annotations

import sys

from . import ctrl_c


def main() -> int:
    """Runs a tool by the words of the command line; its exit status."""
    ctrl_c.ends_silently()
    # (modules are read from here on, which takes a while)
    from .command_line import main as run

    try:
        ctrl_c.raises()
        return run()
    except KeyboardInterrupt:
        return 130
    finally:
        ctrl_c.ends_silently()


if __name__ == "__main__":
    sys.exit(main())
