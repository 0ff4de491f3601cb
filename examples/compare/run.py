"""Prints for each case of cases.json, as one line of JSON, the replacements of the client in Python."""
import json
import os
import sys

here = os.path.dirname(os.path.abspath(__file__))
sys.path.insert(0, os.path.join(here, "..", "python"))
from rls.compare import replacements  # noqa: E402

with open(os.path.join(here, "cases.json"), encoding="utf-8") as file:
    for case in json.load(file):
        print(json.dumps(replacements(case["old"], case["new"])))
