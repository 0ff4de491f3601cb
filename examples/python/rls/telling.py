"""What a user is told before a limit is met: once, in plain words, with the command that helps (docs/USE.md, "Where a limit is met")."""
import os
import time
from typing import Optional

from . import limits
from .stored import size_of_stored


def told_of_file(folder: str) -> Optional[str]:
    """If the stored file is nearly full."""
    size = size_of_stored(folder)
    if size < limits.NEARLY_FULL:
        return None
    return (f"the stored file in {folder} has {size:,} bytes of the 268,435,456 that it may have. When it is full, nothing can be stored any more. It gets "
            "shorter once messages show that the others have what is in it. If that doesn't help, `rls restart` begins anew with the text")


def told_of_member(to: int, size: int, path: str) -> Optional[str]:
    """If a message to this member has become long, and nothing has come from it for long: its last message is in this file."""
    if size < limits.MOST_KEPT:
        return None
    try:
        came = os.stat(path).st_mtime
    except FileNotFoundError:
        since, help_ = "of whom nothing ever came", f"`rls retire {to}` ends that, if nobody will use the number"
    except OSError:
        return None
    else:
        if time.time() - came < limits.MOST_SILENT:
            return None
        since = f"of whom nothing has come since {time.strftime('%Y-%m-%d', time.localtime(came))}"
        help_ = "if that member won't come back, `rls restart` goes on in a new group with the text"
    return f"each file keeps {size:,} bytes for member {to}, {since}; each message to it has them again: {help_}"
