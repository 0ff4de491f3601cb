"""Makes the text of the replica in a folder that of a file, by the client in Python: set-text.py FOLDER FILE."""
import os
import sys

sys.path.insert(0, os.path.join(os.path.dirname(os.path.abspath(__file__)), "..", "python"))
from rls import Session  # noqa: E402

with Session(sys.argv[1]) as session, open(sys.argv[2], encoding="utf-8", newline="") as file:
    if session.set_text(file.read()):
        print("parts were compared by cheaper means", file=sys.stderr)
