"""Whether a program is this `rls`: others have the name, too, such as a server of the language Rust."""
import re
import subprocess
from functools import lru_cache

WRONG_WORDS = 1
OWN_LINE = re.compile(rb"rls [0-9.]+, ")                # of `rls --version`
OWN_USAGE = b"usage: new GROUP ME MEMBERS"              # the program without its launcher knows no other words


@lru_cache(maxsize=None)
def is_rls(program: str) -> bool:
    """Asks `--version`, once."""
    try:
        p = subprocess.run([program, "--version"], capture_output=True, stdin=subprocess.DEVNULL, timeout=20)
    except (OSError, subprocess.TimeoutExpired):
        return False
    return bool(OWN_LINE.match(p.stdout)) or OWN_USAGE in p.stderr


def told(program: str, status: int, line: str) -> str:
    """The line of a program that has failed; or that it is another program, if what it says is nothing that this one says."""
    if status not in (WRONG_WORDS, 101, 127) or is_rls(program):
        return line
    return f"{program} is another program of this name: the environment's RLS, or `limits.PROGRAM`, names the right one"
