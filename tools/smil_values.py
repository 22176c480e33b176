"""Reads the values of attributes in a SMIL file as an outline can have them. Lengths are milliseconds."""

import re

from smil_clock import CLOCK, HORIZON, is_count, mended_clock, milliseconds
from smil_names import ID
from smil_wall import ITEM as WALL_ITEM
from smil_wall import is_moment, moment_of

TEXTS = ("src", "region", "alt", "title")
ENUMERATIONS = {
    "restart": ("always", "whenNotActive", "never", "default"),
    "restartDefault": ("always", "whenNotActive", "never", "inherit"),
    "fill": ("remove", "freeze", "hold", "auto", "default"),
    "fillDefault": ("remove", "freeze", "hold", "auto", "inherit"),
    "peers": ("stop", "pause", "defer", "never"), "higher": ("stop", "pause"), "lower": ("defer", "never"),
}
WORDS_OF_TIME = (("dur", "media"), ("dur", "indefinite"), ("max", "indefinite"), ("repeatDur", "indefinite"))
LONGEST_LIST = 32

SIGN = r"[ \t]*[+-][ \t]*"
WORD = r"[A-Za-z_](?:[A-Za-z0-9_]|\\[.-])*"
EVENT = r"(?!(?:begin|end|repeat|indefinite)\b)[A-Za-z_][A-Za-z0-9_]{0,63}"
OFFSET = re.compile(rf"(?:[+-]?[ \t]*){CLOCK}$")
ITEMS = [OFFSET, re.compile(r"indefinite$"),
         re.compile(rf"{WORD}\.(?:begin|end)(?:{SIGN}{CLOCK})?$"),
         re.compile(rf"(?:{WORD}\.)?repeat\([1-9][0-9]{{0,8}}\)(?:{SIGN}{CLOCK})?$"),
         re.compile(rf"access[kK]ey\([!#-:<-\[\]-~]\)(?:{SIGN}{CLOCK})?$"),
         re.compile(rf"(?:{WORD}\.)?{EVENT}(?:{SIGN}{CLOCK})?$")]
BEHIND = re.compile(rf"(?:^|[+-])[ \t]*({CLOCK})$")
OLD_ITEM = re.compile(rf"id\(([^)]*)\)\((begin|end|{CLOCK})\)$")
BASE = re.compile(rf"({WORD})\.(?:begin|end|repeat\(|[A-Za-z_])")


def is_timing(name, value):
    """Whether dur, min, max, repeatCount or repeatDur can have the value."""
    if name == "repeatCount":
        return value == "indefinite" or is_count(value)
    if re.match(CLOCK + "$", value):
        return (0 if name == "repeatDur" else -1) < milliseconds(value) <= HORIZON
    return (name, value) in WORDS_OF_TIME


def within(item, media):
    """An item of a set in a media element, which counts from there, as it is beside the element `media`."""
    if OFFSET.match(item):
        clock = item.replace(" ", "")
        if milliseconds(clock.lstrip("+-")) == 0:
            return f"{media}.begin"
        return f"{media}.begin{clock if clock[0] in '+-' else '+' + clock}"
    if item == "indefinite" or BASE.match(item) or item.startswith(("access", "repeat", "wallclock(")):
        return item
    return f"{media}.{item}"


class Values:
    """The values of one file. `warn` is called with an element and a sentence for each that can't stay as it is.

    `start` is the instant that moment 0 is, as smil_wall.Start, or None: then wall clock items are left out.
    `referred` keeps what refers to an id: the element, the sentence's beginning, the id.
    """

    def __init__(self, names, start, warn):
        self.names = names
        self.start = start
        self.warn = warn
        self.referred = []

    def read(self, element, name, value, parent):
        """The value of an attribute in the outline, or None where it is left out. `parent` is a kind, or None."""
        if name in TEXTS or name == "to":
            return self.text(element, name, value)
        value = " ".join(value.split())
        if name in ("begin", "end"):
            return self.time_list(element, name, value, parent)
        if name == "endsync":
            return self.endsync(element, value)
        if name == "targetElement":
            return self.referring(element, name, self.named(element, name, self.names.plain(value)))
        if name in ENUMERATIONS:
            fits = value in ENUMERATIONS[name]
        elif name == "attributeName":
            fits = re.match(r"[A-Za-z_][A-Za-z0-9_-]{0,63}$", value)
        else:
            value = self.mended(element, name, value)
            fits = is_timing(name, value)
        if not fits:
            self.warn(element, f'{name}="{value}": left out')
        return value if fits else None

    def text(self, element, name, value):
        """A text without double quotes and control characters."""
        clean = re.sub(r"[\x00-\x1f\x7f]", " ", value).replace('"', "'")
        if clean != value:
            self.warn(element, f"{name}: double quotes and control characters are replaced")
        return clean

    def endsync(self, element, value):
        """The value of endsync, None for `media` and for what can't be an id."""
        old = re.match(r"id\((.*)\)$", value)
        if value == "media":
            self.warn(element, 'endsync="media": left out')
            return None
        found = self.named(element, "endsync", self.names.plain(old[1] if old else value))
        return found if found in ("first", "last", "all") else self.referring(element, "endsync", found)

    def referring(self, element, what, name):
        """Keeps an id, to be looked for when the whole outline is written."""
        if name is not None:
            self.referred.append((element, what, name))
        return name

    def mended(self, element, name, value):
        """A clock value in the spelling that SMIL has for it: 1:10 is 01:10, and .5s is 0.5s."""
        mended = mended_clock(value)
        if mended != value:
            self.warn(element, f'{name}="{value}" is written {mended}')
        return mended

    def named(self, element, name, value):
        """The value where it can be an id, else None."""
        if ID.match(value):
            return value
        self.warn(element, f'{name}="{value}": left out')
        return None

    def time_list(self, element, name, value, parent):
        """A begin or end list; None where it is left out, `indefinite` for a begin of which nothing is left."""
        count = len(self.referred)
        read = [self.item(element, name, piece.strip()) for piece in value.split(";")]
        items = [one for item in read if item for one in item.split(";")]
        if name == "begin" and parent == "seq":
            if value and (len(items) != 1 or not OFFSET.match(items[0]) or items[0].startswith("-")):
                self.warn(element, f'begin="{value}": left out; a child of a seq begins by one offset from 0 on')
                del self.referred[count:]
                return None
        elif not items and name == "begin":
            self.warn(element, "begin: nothing of it is left, so it becomes indefinite, and doesn't begin by itself")
            return "indefinite"
        elif not items:
            self.warn(element, "end: nothing of it is left, so it doesn't end by it")
        if len(items) > LONGEST_LIST:
            self.warn(element, f"{name}: the items behind the first {LONGEST_LIST} are left out")
        return ";".join(items[:LONGEST_LIST]) or None

    def item(self, element, name, item):
        """An item of a list as the outline has it, or several with `;` between them; None where it is left out."""
        if item.startswith("wallclock("):
            return self.wall_item(element, name, item)
        old = OLD_ITEM.match(item)
        if old:
            return self.old_item(element, name, old)
        item = self.with_reference(item)
        if not OFFSET.match(item) and re.match(r"[+-]?[0-9. ]", item):
            item = self.mended(element, name, item)
        clock = BEHIND.search(item)
        if any(form.match(item) for form in ITEMS) and not (clock and milliseconds(clock[1]) > HORIZON):
            base = BASE.match(item)
            if base:
                self.referring(element, f"{name}: {item}", base[1].replace("\\", ""))
            return item
        self.warn(element, f"{name}: {item or 'an empty item'} is left out")
        return None

    def with_reference(self, item):
        """An item whose id, up to a `.`, is one of the file, with that of the outline in its place."""
        for dot in [match.start() for match in re.finditer(r"\.", item)][::-1]:
            if self.names.has(item[:dot]):
                return self.names.reference(item[:dot]) + item[dot:]
        return item

    def old_item(self, element, name, old):
        """An item of SMIL 1, `id(x)(begin)` or `id(x)(3s)`, as SMIL 2 spells it."""
        reference = self.names.reference(old[1])
        written = f"{reference}.{old[2]}" if old[2] in ("begin", "end") else f"{reference}.begin+{old[2]}"
        self.warn(element, f"{name}: {old[0]} is written {written}")
        self.referring(element, f"{name}: {old[0]}", self.names.plain(old[1]))
        return written

    def wall_item(self, element, name, item):
        """A wall clock item, which counts from the start; None where there is none, or it can't be read."""
        match = WALL_ITEM.match(item)
        if self.start is None or match is None:
            hint = "; --at keeps it" if match and is_moment(match[1]) else ""
            self.warn(element, f"{name}: {item} is left out{hint}")
            return None
        times = self.start.next_times(match[1], LONGEST_LIST) if match[2] is None else None
        if times is not None:
            self.warn(element, f"{name}: {item} is written as {len(times)} times, up to {times[-1]}")
            return ";".join(f"wallclock({time})" for time in times)
        text = self.start.completed(match[1])
        moment, offset = moment_of(text), self.offset(match[2], match[3])
        if moment is None or offset is None or abs(moment - self.start.moment + offset) > HORIZON:
            self.warn(element, f"{name}: {item} is left out")
            return None
        written = f"wallclock({text})" + (match[2] + match[3] if match[2] else "")
        if written != item:
            self.warn(element, f"{name}: {item} is written {written}")
        return written

    def offset(self, sign, clock):
        """The milliseconds of a signed clock value, 0 of none, None where it can't be read."""
        if sign is None:
            return 0
        if not re.match(CLOCK + "$", clock):
            return None
        return -milliseconds(clock) if sign == "-" else milliseconds(clock)
