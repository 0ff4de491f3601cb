"""A client of `rls`: a replica by commands, a replica by a session, and messages through a shared folder.

    replica = Commands.new("~/notes", group=7, me=0, members=4)     # once, and from then on Commands("~/notes")
    replica.set_text("what the buffer holds")                       # the least edits that make it so
    Mailbox("~/Dropbox/notes", replica.head()).sync(replica)        # take what came, send what is new
    replica.text()

The replica's own folder must not be in the shared one: docs/USE.md says why.
Only the standard library is needed.  The program is RLS of the environment, or `rls` on the path; `limits` has it and other numbers.
"""
from . import limits
from .commands import Commands
from .crossing import crossed, place_after
from .edits import Change, applied, changes, script
from .errors import Refused, RlsError, Stale, UsedTwice
from .mailbox import Mailbox
from .reports import Groups, Head, Report
from .session import Session

__all__ = ["Change", "Commands", "Groups", "Head", "Mailbox", "Refused", "Report", "RlsError", "Session", "Stale", "UsedTwice", "applied", "changes",
           "crossed", "limits", "place_after", "script"]
