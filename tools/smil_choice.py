"""Chooses the lines of an outline as smilplay does: by preferences, in switches and where tests stand."""

import re

ATTRIBUTE = re.compile(r' ([^\s"]+?)="([^"]*)"')
FORMS = {
    "bitrate": re.compile(r"[0-9]{1,9}$"),
    "captions": re.compile(r"(?:on|off)$"),
    "audiodesc": re.compile(r"(?:on|off)$"),
    "language": re.compile(r"[A-Za-z0-9-]{1,32}(?:,[A-Za-z0-9-]{1,32})*$"),
    "screen": re.compile(r"[0-9]{1,6}x[0-9]{1,6}$"),
    "depth": re.compile(r"[0-9]{1,3}$"),
}
WORDS = {"systemBitrate": "bitrate", "systemCaptions": "captions", "systemAudioDesc": "audiodesc",
         "systemLanguage": "language", "systemScreenSize": "screen", "systemScreenDepth": "depth"}


def numbers(text):
    """The numbers in a text, in its order."""
    return [int(digits) for digits in re.findall(r"[0-9]+", text)]


class Preferences:
    """What a viewer prefers, by the words of `prefer` lines; as the program has it before the first of them."""

    def __init__(self):
        self.values = {"bitrate": "999999999", "captions": "off", "audiodesc": "off", "language": "en",
                       "screen": "1080x1920", "depth": "24"}

    def prefer(self, word, value):
        """Takes in a preference, where it has a reading; else nothing changes."""
        if word in FORMS and FORMS[word].match(value):
            self.values[word] = value

    def holds(self, name, value):
        """Whether a test attribute holds; any other attribute does."""
        word = WORDS.get(name)
        if word is None:
            return True
        if word == "language":
            tags = [tag.strip(" \t").lower() for tag in value.split(",")]
            wanted = self.values["language"].lower().split(",")
            return any(tag == one or tag.startswith(one + "-") for tag in tags for one in wanted)
        if word in ("captions", "audiodesc"):
            return value.strip(" \t") == self.values[word]
        return all(asked <= given for asked, given in zip(numbers(value), numbers(self.values[word])))


class Level:
    """A line above others: whether it is a switch, whether what is below it is dropped, how far that is raised."""

    def __init__(self, is_switch, dropped, raised):
        self.is_switch = is_switch
        self.dropped = dropped
        self.raised = raised
        self.has_chosen = False


def chosen_lines(lines, preferences):
    """The lines of an outline that are read: each with its place in `lines`, from 0, and its text one level higher
    for each switch above it. Blank lines and comments are left out. Only an outline that the program reads is asked."""
    above = []
    for place, line in enumerate(lines):
        if not line.strip(" \t") or line.startswith("#"):
            continue
        depth = (len(line) - len(line.lstrip(" "))) // 2
        del above[depth:]
        level = level_of(line, above[-1] if above else None, preferences)
        above.append(level)
        if not level.dropped and not level.is_switch:
            yield place, line[2 * level.raised:]


def level_of(line, parent, preferences):
    """The level that a line makes below another one, None for the root; a switch above it notes what it chose."""
    is_switch = line.split()[0] == "switch"
    raised = 0 if parent is None else parent.raised + (above_is_switch(parent))
    dropped = parent is not None and (parent.dropped or parent.has_chosen)
    if not dropped and not all(preferences.holds(*test) for test in ATTRIBUTE.findall(line)):
        dropped = True
    elif not dropped and above_is_switch(parent):
        parent.has_chosen = True
    return Level(is_switch, dropped, raised)


def above_is_switch(parent):
    """Whether there is a line above, and it is a switch."""
    return parent is not None and parent.is_switch
