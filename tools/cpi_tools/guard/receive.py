"""`cpi-tools receive FOLDER`: puts the changed pages that a follower carried to a place into their copy there, and the
changes of the desk's folder too.

`cpi-receive` runs it, the command of the key with which another machine's follower carries.
"""

from __future__ import annotations

import argparse
import os
import sys
from pathlib import Path

from ..text.terminal import ToolWords
from .copies.desk_changes import CARRIED_DESK, desk_received_text, put_in_desk
from .copies.carriers import CAME, CARRIED, put_in, received_text

DESCRIPTION = """\
Puts the changed pages that a follower on another machine carried to FOLDER into FOLDER's copy of
the office. Puts the changes of the desk's folder into the copy of that folder; its logs are only
appended to. cpi-receive runs this tool after each transfer, so nobody else has to. The tool
refuses anything that doesn't belong to that copy, and then changes nothing. If the tool is
stopped, that copy doesn't count until the follower carries a whole one, but the other copy does.
"""

EPILOG = """\
example: cpi-tools receive /var/lib/cpi-copy/office

exit status: 0 if the copy contains the changes; 1 if it doesn't (one line says why); 2 if the
arguments are refused
"""


def add_words(tools: argparse._SubParsersAction[ToolWords]) -> None:
    """The tool `receive`."""
    words = tools.add_parser(
        "receive", help="Put the pages that a follower carried into a copy", description=DESCRIPTION, epilog=EPILOG
    )
    words.add_argument("folder", type=Path, metavar="FOLDER", help="the folder with the two copies")
    words.set_defaults(run=run, tool="receive", words=words)


def run(chosen: argparse.Namespace) -> int:
    """Runs the tool by its words; its exit status. The line goes to standard error, since rsync has the other one."""
    came = chosen.folder / CAME
    if os.path.lexists(came / CARRIED) or not os.path.lexists(came / CARRIED_DESK):
        changes = put_in(chosen.folder)
        print(received_text(changes.name, changes.note), file=sys.stderr)
    if os.path.lexists(came / CARRIED_DESK):
        print(desk_received_text(put_in_desk(chosen.folder)), file=sys.stderr)
    return 0
