#!/usr/bin/env python3
"""Reads a SMIL file or a talking book and writes its outline for smilplay, with a warning for each thing left out.

usage: smil2outline.py [--load NAME] [--at INSTANT] [--clips FILE] [--lang LANGUAGES] [--bitrate NUMBER]
                       [--test NAME=VALUE] [--keep-switch] [--parts FOLDER] FILE

The outline goes to the standard output, warnings as `FILE:LINE: ELEMENT: what` to the standard
error; what is said of more than three places is said once, with their number. The body becomes a
seq, as SMIL says. What doesn't bear on timing (layout, metadata, styles, parameters of media) is
left out without a word; what does is warned of: elements and attributes that the profile doesn't
have, values and items that it can't read, references that lead nowhere.

Media get an id where they have none. A clip between clipBegin and clipEnd gets its length as `dur`.
A begin none of whose items can be read becomes `indefinite`. A `set` within a media element comes
beside it. Of a switch the first child is taken whose tests hold; a test that nothing decides holds.

  --load NAME        the outline between `load NAME` and `%%`, as a session has it
  --at INSTANT       which instant moment 0 is, as 2026-11-30T08:00:00+01:00. Wall clock items are then
                     kept, for `load NAME at INSTANT`; a time without a date is of that day, one without
                     a zone of that zone, and one that comes again and again, as R/2026-01-01T09:00/P1D,
                     becomes its next 32 times
  --clips FILE       a line of JSON for each clip: element, source, and begin and end in its media in
                     milliseconds, null for an end that the file doesn't say
  --lang LANGUAGES   as en,fr: what is tested by systemLanguage is taken or left out accordingly
  --bitrate NUMBER   bits in a second: the same for systemBitrate, and for videoBitrate in lists of
                     one video in several sizes
  --test NAME=VALUE  the same for another test attribute, custom test or required thing, as
                     systemCaptions=on or pagenum=off; it may be given several times
  --keep-switch      switches stay, and tests that nothing here decides: `prefer` lines of a session
                     decide them when it is loaded. Those that smilplay doesn't read still hold
  --parts FOLDER     of a book, the outline of each part is written there as 001.outline and so on,
                     and a line for each to the standard output: file, part of the book, title

FILE may be an EPUB with media overlays or the folder of a DAISY book. Without --parts each of its
parts is a load, NAME or `part` with the part's number. It may be a page with HTML+TIME, of XML or
not: its body is then a par, an element with a timeContainer that container, any other with times,
or whose events are waited for, a text or an img whose title is its words.

The exit number is 0 where an outline was written; 1 where the file can't be read, has no body, or
doesn't fit the limits in docs/LIMITS.md; 2 where the words can't be read.
"""

import json
import re
import sys
from pathlib import Path

from smil_book import Book, is_book
from smil_html import as_smil, page
from smil_tests import Tests
from smil_translation import Translation
from smil_wall import Start
from smil_xml import Fault, read_xml
from transcript import end_with_pipe

USAGE = __doc__.split("\n\n")[1]
PRESENTATIONS, OFTEN = 64, 3
NAME = re.compile(r"(?!(?:load|close)$)[A-Za-z][A-Za-z0-9_-]{0,31}$")


class Options:
    """What the words of a call say, `bitrate` in bits a second. Raises ValueError with a sentence for faulty words."""

    def __init__(self, words):
        self.load = self.start = self.clips = self.parts = self.bitrate = None
        self.languages, self.values, self.keep_switch = (), {}, False
        while words and words[0].startswith("-"):
            if words[0] == "--keep-switch":
                self.keep_switch, words = True, words[1:]
            elif len(words) < 2:
                raise ValueError(f"{words[0]}: a word is missing behind it, or it is no option")
            else:
                self.take(words[0], words[1])
                words = words[2:]
        if len(words) != 1:
            raise ValueError("one file is needed")
        self.file = words[0]

    def take(self, option, word):
        """Takes in an option and the word behind it. Raises ValueError where they can't be read."""
        if option == "--load":
            if not NAME.match(word):
                raise ValueError(f'--load: "{word}" is no name of a presentation')
            self.load = word
        elif option == "--at":
            self.start = Start(word)
        elif option == "--bitrate":
            if not word.isdigit():
                raise ValueError(f'--bitrate: "{word}" is no number')
            self.bitrate = int(word)
        elif option == "--lang":
            self.languages = tuple(language for language in word.split(",") if language)
        elif option == "--test":
            name, equals, value = word.partition("=")
            if not equals:
                raise ValueError(f'--test: "{word}" is no NAME=VALUE')
            self.values[name] = value
        elif option in ("--clips", "--parts"):
            setattr(self, option[2:], word)
        else:
            raise ValueError(f"{option} is no option")

    def tests(self):
        """What decides the tests of a file."""
        return Tests(self.languages, self.bitrate, self.values, self.keep_switch)


def warned(name, warnings):
    """The lines that show the warnings of a file: what is said of more than OFTEN places once."""
    places = {}
    for line, element, what in sorted(warnings, key=lambda warning: warning[0]):
        places.setdefault((element, what), []).append(line)
    shown = []
    for (element, what), lines in places.items():
        if len(lines) > OFTEN:
            others = f"(here and in {len(lines) - 1} other places)"
            shown.append((lines[0], f"{name}:{lines[0]}: {element}: {what} {others}"))
        else:
            shown += [(line, f"{name}:{line}: {element}: {what}") for line in lines]
    return [text for _, text in sorted(shown, key=lambda pair: pair[0])]


def translated(root, name, options, spoken=False, base=""):
    """The translation of a file, its warnings shown. Raises Fault where there is no outline, or it doesn't fit."""
    translation = Translation(options.tests(), options.start, spoken or is_spoken(root), base)
    written = translation.document(root)
    for line in warned(name, translation.warnings):
        print(line, file=sys.stderr)
    if not written:
        raise Fault(f"{name}:{root.line}: {root.name}: no smil with a body, and no par, seq or excl")
    misfit = translation.misfit()
    if misfit:
        raise Fault(f"{name}: {misfit}")
    return translation


def is_spoken(root):
    """Whether a file is a media overlay, whose text without sound is read aloud."""
    return any(name.startswith("epub:") for element in root.all() for name in element.attributes)


def as_load(name, start, lines):
    """The lines of a load whose moment 0 is `start`, a smil_wall.Start or None."""
    return [f"load {name} at {start.text}" if start else f"load {name}", *lines, "%%"]


def tree(data, name):
    """The tree of a SMIL file in bytes, or that of a page with times. Raises Fault where it can't be read."""
    try:
        root = read_xml(data, name)
    except Fault:
        root = page(data, name)
        if root is None:
            raise
    return (as_smil(root) or root) if root.name == "html" else root


def one_file(options):
    """Writes the outline of a file, and gives its clips. Raises Fault and OSError where it can't be read or written."""
    with open(options.file, "rb") as file:
        root = tree(file.read(), options.file)
    translation = translated(root, options.file, options)
    print("\n".join(as_load(options.load, options.start, translation.lines) if options.load else translation.lines))
    return translation.clips


def book(options):
    """Writes the outline of each part of a book, and gives its clips. Raises Fault and OSError, as `one_file`."""
    source, clips = Book(options.file), []
    parts = source.parts()
    if options.parts is None and len(parts) > PRESENTATIONS:
        raise Fault(f"{options.file}: {len(parts)} parts, more than the {PRESENTATIONS} that can be held; use --parts")
    for number, part in enumerate(parts, 1):
        root = source.xml(part.path)
        translation = translated(root, f"{options.file}: {part.path}", options, True, part.path)
        clips += [dict(clip, part=number) for clip in translation.clips]
        name = f"{options.load or 'part'}{number}"
        if options.parts is None:
            print("\n".join([f"# {part.path} {part.title}".rstrip(), *as_load(name, options.start, translation.lines)]))
        else:
            lines = as_load(name, options.start, translation.lines) if options.load else translation.lines
            place = Path(options.parts) / f"{number:03}.outline"
            place.write_text("\n".join([*lines, ""]), encoding="utf-8")
            print(f"{place.name} {part.path} {part.title}".rstrip(), flush=True)
    return clips


def main(words):
    """Does what the words of a call say, and gives the exit number."""
    if words in (["--help"], ["-h"]):
        print(__doc__.strip())
        return 0
    try:
        options = Options(words)
    except ValueError as fault:
        print(f"smil2outline.py: {fault}\n{USAGE}", file=sys.stderr)
        return 2
    try:
        clips = book(options) if is_book(options.file) else one_file(options)
        if options.clips is not None:
            text = "".join(json.dumps(clip, ensure_ascii=False) + "\n" for clip in clips)
            Path(options.clips).write_text(text, encoding="utf-8")
    except Fault as fault:
        print(fault, file=sys.stderr)
        return 1
    except OSError as fault:
        print(f"{fault.filename or options.file}: {fault.strerror}", file=sys.stderr)
        return 1
    return 0


if __name__ == "__main__":
    end_with_pipe()
    sys.exit(main(sys.argv[1:]))
