"""Tests of what two and three do to the white space of one text at once: `python3 -m unittest` in this folder.  No words are joined by it, nor lost."""
import random
import textwrap
import unittest

from room import Room
from rls import Session

LENGTHS = (2, 3, 5, 8, 13)
BETWEEN = (" ", "\n", "  ", "\n\n", " \n", "\n ", "\n    ", "\t", "\r\n")


class ByTwoAndThree(Room):
    def sessions(self, count, chance):
        """Sessions of so many members who have a text of words, no two of which are the same; and the words."""
        all_of = [Session(x.folder) for x in self.two(count)]
        for s in all_of:
            self.addCleanup(s.kill)
        words = ["".join(chance.choice("abcdefghij") for _ in range(chance.choice(LENGTHS))) + str(k) for k in range(40)]
        all_of[0].set_text(textwrap.fill(" ".join(words), 60) + "\n")
        for k, s in enumerate(all_of[1:]):
            s.take(all_of[0].message(k + 1))
        return all_of, words

    def are_taken_by_all(self, all_of):
        for _ in range(2):
            for k, s in enumerate(all_of):
                for j, t in enumerate(all_of):
                    if j != k:
                        t.take(s.message(j))
        self.assertEqual(len({s.text() for s in all_of}), 1)

    def test_two_fill_a_paragraph_at_once(self):
        chance = random.Random(1)
        both, words = self.sessions(2, chance)
        for _ in range(200):
            for s in both:
                s.set_text(textwrap.fill(s.text(), chance.choice((40, 47, 55, 63, 70))) + "\n")
            self.are_taken_by_all(both)
            self.assertEqual(both[0].text().split(), words)

    def test_three_change_white_space_and_take_messages_in_any_order(self):
        chance = random.Random(2)
        three, words = self.sessions(3, chance)
        for _ in range(15):
            for _ in range(10):
                k, j = chance.sample(range(3), 2)
                if chance.randrange(2):
                    three[j].take(three[k].message(j))
                elif chance.randrange(2):
                    three[k].set_text(textwrap.fill(three[k].text(), chance.choice((40, 55, 70))))
                else:
                    parts = three[k].text().split()
                    three[k].set_text("".join(x + (chance.choice(BETWEEN) if chance.randrange(4) == 0 else " ") for x in parts))
            self.are_taken_by_all(three)
            self.assertEqual(three[0].text().split(), words)


if __name__ == "__main__":
    unittest.main()
