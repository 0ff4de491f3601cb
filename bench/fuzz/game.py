"""Plays the steps of a game with the program, and looks at what comes of each."""
import os
import shutil

import members
from members import Member
from replies import Wrong
from sessions import Session

__all__ = ["Game", "Wrong"]


class Game:
    def __init__(self, program, room):
        self.program, self.room = program, room
        self.members = []
        self.messages = {}
        self.places = []
        # What members show, by how many operations of each member they accepted.
        self.shown = {}
        # Which character was seen right after which, in a game in which each was inserted once.
        self.after = {}
        self.counts = {}

    def count(self, what):
        self.counts[what] = self.counts.get(what, 0) + 1

    def play(self, steps):
        for number, step in enumerate(steps):
            try:
                getattr(self, "do_" + step["do"])(step)
            except Wrong as wrong:
                raise Wrong(f"step {number} ({step['do']}): {wrong}") from None
        self.look_at_order()

    # ---- steps

    def do_group(self, step):
        for me in range(step["members"]):
            folder = f"{self.room}/{me}"
            os.mkdir(folder)
            member = Member(self.program, folder, me)
            member.begin(step["group"], step["members"])
            self.members.append(member)
            self.look_at(member)

    def do_edit(self, step):
        member = self.member(step)
        if member:
            beside = member.copy(f"{self.room}/copy") if step.get("both") else None
            lines = member.lines(step["edits"])
            member.edit(lines)
            self.count("edits by command")
            if beside:
                beside.session_of_lines(lines)
                members.same(beside, member, "a session and a command with the same edits")
                beside.remove()
            self.look_at(member)

    def do_session(self, step):
        member = self.member(step)
        if member:
            session = Session(member, self.messages)
            for request in step["requests"]:
                session.ask(request)
            made = session.hold(step["end"], step["piece"])
            # A message may be handed on only if its session stored.
            self.messages.update(made)
            self.count(f"sessions ({step['end']})")
            self.look_at(member)

    def do_undo(self, step):
        member = self.member(step)
        if member:
            member.undo_right_after(step["edit"])
            self.count("undos right after an edit")
            self.look_at(member)

    def do_place(self, step):
        """A place as a word, for other members. It means itself where it was named, and in the end the same to all."""
        member = self.member(step)
        if member and "a" in member.known:
            text = member.text()
            at = len(text) if step["at"] < 0 else step["at"] % (len(text) + 1)
            told = member.answer(f"a {at}")
            if not told.startswith("anchor ") or member.answer("l " + told[7:]) != f"cursor {at}":
                raise Wrong(f"place {at} of {text!r} is {told!r}, and that is {member.answer('l ' + told[7:])!r}")
            self.places.append(told[7:])
            self.count("places")

    def do_send(self, step):
        member = self.member(step)
        if member and step["to"] < len(self.members):
            self.messages[step["message"]] = member.send(step["to"])
            self.count("messages")

    def do_take(self, step):
        member, message = self.member(step), self.messages.get(step["message"])
        if member and message is not None:
            member.take(message)
            self.count("messages taken")
            self.look_at(member)

    def do_damage(self, step):
        member, message = self.member(step), self.messages.get(step["message"])
        if member and message:
            at = step["at"] % len(message)
            changed = message[:at] if step["cut"] else message[:at] + bytes([message[at] ^ step["byte"]]) + message[at + 1 :]
            beside = member.copy(f"{self.room}/copy")
            beside.take_damaged(changed)
            beside.remove()
            self.count("messages damaged")

    def do_leave(self, step):
        member = self.member(step)
        if member:
            member.leave()
            self.count("leaves")
            self.look_at(member)

    def do_meet(self, step):
        """All messages go to all, until nobody learns anything. Members that have left are sent no more than others need, so they aren't compared."""
        for _ in range(2 * len(self.members) + 2):
            before = [member.accepted() for member in self.members]
            for member in self.members:
                for other in self.members:
                    if other is not member:
                        other.take(member.send(other.me))
                        self.look_at(other)
            if [member.accepted() for member in self.members] == before:
                break
        else:
            raise Wrong("members that exchange everything still learn something")
        here = [member for member in self.members if not member.has_left]
        for member in here:
            if member.stat()["held"] != "0":
                raise Wrong(f"operations wait at member {member.me} though everybody has everything")
            members.same(here[0], member, "members that have exchanged everything")
        for place in self.places:
            means = {member.answer("l " + place) for member in here} - {"no epoch"}
            if len(means) > 1:
                raise Wrong(f"the place {place} is {means} at members that have exchanged everything")
        self.count("meetings")

    def member(self, step):
        return self.members[step["me"]] if step["me"] < len(self.members) else None

    # ---- what is looked at after a step

    def look_at(self, member):
        counts, text, ids = tuple(member.accepted()), member.text(), member.ids()
        first = self.shown.setdefault(counts, (text, ids, member.me))
        if first[:2] != (text, ids):
            raise Wrong(f"members {first[2]} and {member.me} accepted {counts} and show {first[0]!r} and {text!r}, {first[1]} and {ids}")
        if len(set(text)) == len(text):
            for one, other in zip(text, text[1:]):
                self.after.setdefault(one, set()).add(other)

    def look_at_order(self):
        """Looks for a circle among the characters that were seen one after another; there is none if all have one order. It says nothing
        of a game in which a character was inserted more than once."""
        if not all(len(set(text)) == len(text) and all("\u4e00" <= c for c in text) for text, _, _ in self.shown.values()):
            return
        state = {}
        for start in list(self.after):
            way = [(start, iter(self.after.get(start, ())))]
            if state.get(start):
                continue
            state[start] = 1
            while way:
                character, others = way[-1]
                for other in others:
                    if state.get(other) == 1:
                        raise Wrong(f"{character!r} was seen before {other!r}, and after it")
                    if not state.get(other):
                        state[other] = 1
                        way.append((other, iter(self.after.get(other, ()))))
                        break
                else:
                    state[character] = 2
                    way.pop()
        self.count("orders")
        shutil.rmtree(f"{self.room}/copy", ignore_errors=True)
