#!/usr/bin/env python3
"""For each rule of sharing, the code without it: a test has to fail then. must_fail.py [RULE ..] says which one does.

The status is 1 if a rule could be taken out and no test failed, or if its line isn't in the code any more."""
import os
import shutil
import subprocess
import sys
import tempfile

TOP = os.path.dirname(os.path.dirname(os.path.abspath(__file__)))
# A rule, its file, what stands there, what stands there without it, and the tests one of which has to fail.
RULES = [
    ("the giver is silent for a number that it has given", "giver", 'if str(k) not in self.given and', "if k not in self.handed and", "handed_over"),
    ("a number that is given is written down first", "giver", '        self.home.keep("given", self.given)\n', "", "two_at_once giver_dies"),
    ("the giver looks for numbers that it doesn't know of", "giver", "            self.look_at_numbers()\n", "", "giver_put_back"),
    ("a spare number makes no operation", "giver", '        """Whoever writes renames."""', "        super(Session, self).edit(['r'])", "no_operation_of_a_spare_number"),
    ("a pack is made once", "giver", "            if int(k) not in self.handed:", "            if True:", "pack_is_made_once"),
    ("a spare replica that is away is nobody's", "giver", "        if lost:\n", "        if False:\n", "replica_is_away"),
    ("a giver looks whether the part went on", "giver", "        if any(int(x[1]) > self.turn", "        if False and any(int(x[1]) > self.turn", "old_giver_put_back"),
    ("that the part is gone is written down first", "handing", "    circle.home.keep(\"part\", {\"turn\": giver.turn + 1, \"to\": to, \"token\": here.get(\"token\", \"\")})\n    hand_part(circle)", "    data = part_pack(circle)\n    replace(circle.path(f\"{circle.id}-1.spares\"), data)\n    write_notice(circle.path(f\"{circle.id}-1.part\"), to=to, token=here.get(\"token\"), sum=hashlib.sha256(data).hexdigest())\n    circle.home.keep(\"part\", {\"turn\": giver.turn + 1, \"to\": to, \"token\": here.get(\"token\", \"\")})", "part_goes_on"),
    ("a pack has its sum", "newcomer", ' or hashlib.sha256(data).hexdigest() != seat.get("sum")', "", "half_pack"),
    ("a number that was begun with isn't taken again", "newcomer", "            look_at_number(circle, k)\n", "", "put_back_before_the_number"),
    ("the place is told before a number is there", "newcomer", "    circle.home.look_at_place(circle.shared)\n", "", "copied_before_the_number"),
    ("the place is looked at", "circle", "        self.home.look_at_place(self.shared)\n", "", "copied_home"),
    ("the mark is looked at", "circle", "if there and (there.get", "if False and (there.get", "copied_disk"),
    ("the mark comes before the first message", "circle", "        self.circle.mark()\n        return False", "        return False", "mark_comes_first"),
    ("a mark has random digits", "home", "{secrets.token_hex(4)}", "00000000", "copied_disk overwritten_message"),
    ("one who asks is asked for once", "circle", "        with self.home.hold(wait):\n            self.read_again()\n", "        with self.home.hold(wait):\n", "two_joins_of_one_machine"),
    ("a replica that is away isn't begun anew", "circle", "if text.group in begun or text.group in self.seat.packed:", "if False:", "replica_is_away"),
    ("what was said of a text is remembered", "circle", "        if files != kept[\"files\"] and self.has_number:", "        if False:", "dropped_for_ever"),
    ("a dropped text stays dropped", "told", "self.gone or other.gone", "last.gone", "dropped_and_renamed"),
    ("the file of a circle is written anew", "circle", "        if self.seat and self.seat.number == 0:", "        if self.seat and self.seat.number == 0 and not self.home.kept('given'):", "no_circle_file"),
    ("a name is no path", "notices", "os.path.basename(name) if x.isprintable() and x not in \"/\\\\\"", "name", "hostile_names"),
    ("a replica is that of the number", "note", "        self._look_at(session.head())\n", "", "other_number"),
    ("what goes in is noted first", "note", "        if pending and session", "        if False and session", "dies_at_each_step"),
    ("the note has how many edits go in", "note", ">= pending[1]", ">= pending[1] - 1", "stopped_before_a_client"),
    ("where an editor opens, what was stopped is settled", "__main__", "                note.settle()\n", "                pass\n", "stopped_before_an_editor"),
    ("an older state is looked for", "note", "    if len(versions) < 2 or not any", "    if True or not any", "stale_save"),
    ("the same save has to be saved again", "note", "if any(x == mark and was != at for", "if any(x == mark for", "same_file_again"),
    ("an emptied file isn't taken", "note", "if len(new) * 2 < len(last)", "if False and len(new) * 2 < len(last)", "stale_save same_file_again"),
    ("messages are looked at before they are read", "note", "        return messages if self.is_all_over else \"\", looks, file_look", "        self.circle.list_again()\n        return signature(self.circle, self.text, self.sources), looks, file_look", "message_in_between"),
    ("the look of a file is that of what was read or written", "note", "        return messages if self.is_all_over else \"\", looks, file_look", "        from .files import look\n        return messages, looks, look(self.path) if self.path else []", "save_at_the_end"),
    ("for a new number what others are known to have counts", "note", '                self.state["known"] = sent', '                pass\n        self.state["known"] = text', "overwritten_message"),
    ("what has lost its place is looked at", "files", "    if saved and saved.data != expected:", "    if False:", "save_in_between"),
    ("a writer is waited for", "files", "        return False if e.errno in (errno.EAGAIN, errno.EBUSY) else None", "        return True", "save_in_between"),
    ("what was written over a save is kept after a stop", "note", "[[new, *over], ", "[[new], ", "dies_with_a_save_in_between"),
    ("what has lost its place is in the replica before it goes", "note", "                session.rename_if_due()\n                self.state[\"pending\"] = None\n            self._store(None)\n            os.unlink(left)", "                os.unlink(left)\n                session.rename_if_due()\n                self.state[\"pending\"] = None\n            self._store(None)\n            os.path.lexists(left) and os.unlink(left)", "dies_with_a_save_in_between"),
    ("half of a new file is nobody's save", "files", '(beside(path, "old"), beside(path, "next"))', '(beside(path, "old"), beside(path, "next"), beside(path, "new"))', "dies_at_each_step"),
    ("a file that was deleted meanwhile is no empty one", "files", "        return Put([])                                  #", "        open(path, 'wb').close()\n        open(following, 'wb').close()\n        return Put(told, True)  #", "deleted_in_between"),
    ("what both did alike is done once", "merge", "        if not is_apart and (i0, i1, mine[j0:j1]) in done:\n            continue\n", "", "carried"),
    ("texts are compared by words", "merge", "in replacements(old, new):", "in ([(0, len(old), new)] if old != new else []):", "words"),
    ("a file is bound before its text is told", "desk", "        self.bind(group, path)\n        self._begin_text(group, path)", "        self._begin_text(group, path)\n        self.bind(group, path)", "stopped_while_a_text_is_added"),
    ("a dropped file isn't added by itself", "desk", "bound = {*self.files.values(), *self.left}", "bound = {*self.files.values()}", "folder_of_notes dropped_and_renamed"),
    ("a file of one's own isn't given away", "places", "    while not fits(name):", "    while False:", "hostile_names"),
    ("a file that was shared empty takes part", "note", 'if any(self.versions) and not self.state["sent"] and not any', "if self.versions and not any", "empty_file"),
    ("folders are plain names", "told", '    return "/".join(file_name(x) for x in parts[:MOST_FOLDERS])', "    return told", "hostile_folders"),
    ("a folder and a file of one name get different ones", "told", "        if \"/\".join(parts[:k]) in files:", "        if False:", "hostile_folders"),
    ("no link is followed when a file is written", "places", "        if not may_hold(at, left_out):", "        if False:", "file_against_folder"),
    ("no file is put through a link", "places", "not os.path.islink(folder) and os.path.isdir(folder)", "os.path.isdir(folder)", "file_against_folder"),
    ("no file is put into the shared folder", "places", " and os.path.realpath(folder) not in left_out", "", "folders_in_folders"),
    ("links aren't notes", "places", "x.is_dir(follow_symlinks=False)", "x.is_dir()", "folders_in_folders"),
    ("what is in the shared folder is nobody's note", "desk", "        self.passed_by = found\n", "        found = set()\n", "folders_in_folders"),
    ("a folder that was flat stays so", "places", "if is_deep and os.path", "if os.path", "flat_folder"),
    ("a name without folders leaves them", "told", 'if "folder" in notice else None', 'if "folder" in notice else Place(stamp, by, "")', "flat_folder"),
    ("a number is looked for in the texts of its circle", "newcomer", "if match and match[1] in told else None", "if match else None", "again"),
    ("what comes over is noted first", "note", '            self.state["pending"] = [self.versions, count, over]\n', "", "late_edits_once"),
    ("what was brought over is known after a stop", "note", 'self.state["over"] = pending[2] if len(pending) > 2 else self.state["over"]', "pass", "late_edits_once"),
    ("what two wrote apart is each one's own", "note", ", is_apart=True", "", "both_meant_it"),
    ("a machine stays until all that it has is there", "succession", "over.covers(counts(old.replica(group)))", "True", "waits_for_what_it_has"),
    ("a machine stays until the messages have come", "succession", "told[x.group].has_come(new)", "True", "waits_for_the_messages"),
    ("a machine stays while an editor is open", "succession", "not is_free(old.replica(x.group))", "False", "open_in_an_editor"),
    ("a file is compared with what it was written from", "succession", '"versions": was["versions"], ', "", "going_over_dies again"),
    ("that the files went over is kept last", "succession", '    bound = old.home.kept("bound")\n', '    old.home.keep("over", new.id)\n    bound = old.home.kept("bound")\n', "going_over_dies"),
    ("of two circles one counts", "family", "    return x < y and (x, y) != ways[0]", "    return x != y and (x, y) != ways[0]", "two_begin_again"),
    ("what came from before isn't brought again", "carrying", 'base = "" if is_before else (kept_of(old, text) or {"text": ""})["text"]', 'base = ""', "two_begin_again"),
    ("from then on nothing more comes from before", "carrying", 'and new.me == 0 and not new.home.kept("into")', "and new.me == 0", "two_begin_again"),
    ("the circle that counts has what came from before", "carrying", "        if kept and not (over and over.covers", "        if False and not (over and over.covers", "waits_in_the_other"),
    ("an older replica brings nothing over", "carrying", '    if kept and any(x < y for x, y in zip(counts, kept["counts"])):', "    if False:", "beginner_put_back"),
    ("what was dropped is dropped in the new circle", "carrying", "        if told.gone and str(group) in there", "        if False and str(group) in there", "names_come_over"),
    ("a new name comes over", "carrying", "        elif names.get(key, text.name) != text.name:", "        elif False:", "names_come_over"),
    ("all that is kept for the folder was moved", "__main__", "    for ident in {circle.id, *circle.family()}:", "    for ident in {circle.id}:", "moved_after_again"),
    ("what comes over doesn't wait for a file", "desk", "                if found and path and late:", "                if False:", "bad_file_of_the_beginner"),
    ("who leaves says so", "parting", "        Commands(folder).leave()", "        pass", "parts"),
    ("a folder that is away is told", "desk", "        if not os.path.isdir(self.folder):\n            raise", "        if False:\n            raise", "folder_away"),
]


def fails(package: str, tests: str) -> str:
    """Which of these tests fail; the empty string if none does."""
    env = {**os.environ, "EACH": "1", "PYTHONDONTWRITEBYTECODE": "1"}
    p = subprocess.run([sys.executable, os.path.join(package, "test_share.py"), *tests.split()], env=env, capture_output=True, text=True)
    return " ".join(x.split()[1] for x in p.stdout.splitlines() if x.startswith("FAILED")) or ("" if p.returncode == 0 else "all")


def main(names: "list[str]") -> int:
    os.environ["RLS"] = os.path.abspath(os.environ.get("RLS", os.path.join(TOP, "..", "..", "bin", "rls")))
    status = 0
    for rule, module, old, new, tests in RULES:
        if names and rule not in names and not set(tests.split()) & set(names):
            continue
        with tempfile.TemporaryDirectory() as room:
            package = os.path.join(room, "python")
            shutil.copytree(TOP, package)
            path = os.path.join(package, "rls", f"{module}.py")
            with open(path, encoding="utf-8") as f:
                text = f.read()
            with open(path, "w", encoding="utf-8") as f:
                f.write(text.replace(old, new))
            found = fails(package, tests) if old in text else "NO SUCH LINE"
        print(f"{'ok     ' if found and old in text else 'FAILED '} {rule}: {found or 'no test fails'}", flush=True)
        status |= not found or old not in text
    return status


if __name__ == "__main__":
    sys.exit(main(sys.argv[1:]))
