#!/usr/bin/env python3
"""Tests `rls share`, `join` and `sync`, over carriers as bad as they come. RLS names the program. `test_share.py NAME ..` runs these alone,
`test_share.py --short` those that the gate runs, which take less than a minute."""
import os
import shutil
import sys
import time
import traceback

from share_tests import copies, folders, numbers, people, plain_files, subfolders, successions

LONG = {"giver_dies", "share_is_stopped", "newcomer_dies", "part_goes_on", "killed", "dies_at_each_step", "dies_with_a_save_in_between", "stopped_while_a_text_is_added", "mark_comes_first", "thousand_notes", "hostile_carrier", "beginner_dies", "late_edits_once",
        "going_over_dies", "two_begin_again", "waits_for_what_it_has", "waits_for_the_messages", "waits_in_the_other", "parts"}


def main(names: "list[str]") -> int:
    failed = 0
    for part in numbers, copies, plain_files, folders, subfolders, successions:
        for name, call in list(vars(part).items()):
            if not name.startswith("test_") or names and name[5:] not in names and (names != ["--short"] or name[5:] in LONG):
                continue
            begun = time.time()
            try:
                call()
                print(f"ok      {name[5:]} ({time.time() - begun:.1f} s)", flush=True)
            except BaseException:
                traceback.print_exc()
                print(f"FAILED  {name[5:]}", flush=True)
                failed += 1
    os.chdir("/")
    shutil.rmtree(people.base(), ignore_errors=True)
    return int(failed > 0)


if __name__ == "__main__":
    sys.exit(main(sys.argv[1:]))
