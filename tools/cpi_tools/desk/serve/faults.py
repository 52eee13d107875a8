"""A page's text about a fault: a sentence in its language, with what to do, and the program's line as it is."""

from __future__ import annotations

import errno

from ...office.copying import CopyFailed
from ...office.program import CpiFailed
from ...office.stored import NotAnOffice
from ...office.trial import Refused
from ...publish.figures.config import BadConfig
from ...publish.figures.own_words import BadLanguages
from ...publish.figures.announcements import BadReasons
from ...publish.forms.manifest import NotAManifest
from ...text.message import Message, message as _
from ...text.others import Worded, of_others, own_line
from ...text.terminal import because_of
from ..month.facts import refused_words

FULL = (errno.ENOSPC, errno.EDQUOT)
DENIED = (errno.EACCES, errno.EPERM, errno.EROFS)
MISSING = (errno.ENOENT, errno.ENOTDIR)


def says(fault: Exception) -> Worded:
    """For our own texts, the text in the page's language; for another fault its meaning, with its own line."""
    if isinstance(fault, Refused):
        return refused_words(fault)
    text = fault.args[0] if fault.args else ""
    if isinstance(text, Message):
        return text
    if isinstance(fault.__cause__, OSError):
        return of_system(fault.__cause__, str(fault))
    return _of_tools(fault, own_line(fault))


def of_system(fault: OSError, text: str = "") -> Message:
    """A fault of the system; `text` is its line, if it isn't the usual one."""
    line = own_line(text or because_of(fault))
    if fault.errno in FULL:
        return _("The disk is full: free some space, then try again. The system says: {line}", line=line)
    if fault.errno in DENIED:
        return _(
            "The application has no permission for a file: give its user that permission, then try again. The "
            "system says: {line}",
            line=line,
        )
    if fault.errno in MISSING:
        return _("A file or a folder is missing: put it back, then try again. The system says: {line}", line=line)
    return _(
        "A file can't be read or written: have the machine's disk checked, then try again. The system says: {line}",
        line=line,
    )


def _of_tools(fault: Exception, line: Worded) -> Message:
    """A fault that a tool reports in its own line."""
    if isinstance(fault, CpiFailed):
        return _(
            "cpi ended before it gave an answer. It worked on a copy, so the office is unchanged. Show its line to"
            " the person who maintains this machine: {line}",
            line=line,
        )
    if isinstance(fault, (CopyFailed, NotAnOffice)):
        return _(
            "The office's file can't be copied, or the copy can't be read. The office itself keeps running. Show "
            "this line to the person who maintains this machine: {line}",
            line=line,
        )
    if isinstance(fault, (BadConfig, BadLanguages, BadReasons, NotAManifest)):
        return _(
            "A file of the website can't be read. Correct what this line names, then reload the page: {line}", line=line
        )
    return _("It couldn't be done. Show this line to the person who maintains this machine: {line}", line=line)


def not_as_written(path: object, fault: Exception) -> Message:
    """A file of the application that something else has changed."""
    return _(
        "{file} isn't as the application wrote it: move it away, then try again. The fault: {line}",
        file=of_others(str(path)),
        line=own_line(fault),
    )


def explain_fault(fault: Exception) -> Worded:
    """A fault of the application itself."""
    return _(
        "The application had an internal error. Show this line to the person who maintains this machine: {line}",
        line=own_line(f"{type(fault).__name__}: {fault}"),
    )
