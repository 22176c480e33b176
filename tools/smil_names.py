"""Ids of a SMIL file as an outline can have them, and references to them."""

import re

from smil_tests import id_of

ID = re.compile(r"[A-Za-z_][A-Za-z0-9_.-]{0,63}$")
LONGEST_FRONT = 56
REFERRING = ("begin", "end", "endsync", "targetElement")


class Names:
    """The ids of one file by how they are written, and those that the outline has so far.

    `changed` has an element, its id, and the id that stands in its place, for each that can't stay.
    """

    def __init__(self, root):
        self.ids = {}
        self.given = set()
        self.used = set()
        self.numbers = {}
        self.changed = []
        for element in root.all():
            written = id_of(element)
            if written is not None and written not in self.ids:
                self.ids[written] = self.fitting(element, written)
                self.given.add(self.ids[written])
        self.reserved = self.words(root)

    def fitting(self, element, written):
        """An id that an outline can have and that no element has yet: the written one where it can stay."""
        if ID.match(written) and written not in self.given:
            return written
        front = re.sub(r"[^A-Za-z0-9_.-]", "_", written)[:LONGEST_FRONT]
        front = front if re.match(r"[A-Za-z_]", front) else "_" + front
        chosen, number = front, 1
        while chosen in self.given:
            number += 1
            chosen = f"{front}_{number}"
        self.changed.append((element, written, chosen))
        return chosen

    def words(self, root):
        """What a new id may not be: the ids of the file, and every word that could refer to one."""
        words = {*self.ids, *self.given}
        for element in root.all():
            for name in REFERRING:
                words.update(re.findall(r"[A-Za-z_][A-Za-z0-9_]*", element.attributes.get(name, "")))
        return words

    def new(self, kind):
        """An id for an element that has none, as img3; nothing in the file has it or refers to it."""
        while True:
            self.numbers[kind] = self.numbers.get(kind, 0) + 1
            chosen = f"{kind}{self.numbers[kind]}"
            if chosen not in self.reserved and chosen not in self.used:
                return chosen

    def has(self, written):
        """Whether the file has an id; backslashes in it are passed over."""
        return written.replace("\\", "") in self.ids

    def plain(self, written):
        """The id of the outline that is meant by an id of the file."""
        return self.ids.get(written, written)

    def reference(self, written):
        """An id as begin and end lists have it: backslashes before `.` and `-`, whether they were there or not."""
        return re.sub(r"([.-])", r"\\\1", self.plain(written.replace("\\", "")))
