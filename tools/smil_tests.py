"""Decides test attributes of SMIL: by what a call says, by what the file declares, or not at all.

A test that nothing decides is kept where smilplay reads it, so that `prefer` lines decide it, or
counts as passed.
"""

import re

READ = {
    "systemBitrate": re.compile(r"[0-9]{1,9}$"),
    "systemCaptions": re.compile(r"(?:on|off)$"),
    "systemAudioDesc": re.compile(r"(?:on|off)$"),
    "systemLanguage": re.compile(r"[ \t]*[A-Za-z0-9-]{1,32}[ \t]*(?:,[ \t]*[A-Za-z0-9-]{1,32}[ \t]*)*$"),
    "systemScreenSize": re.compile(r"[0-9]{1,6}[xX][0-9]{1,6}$"),
    "systemScreenDepth": re.compile(r"[0-9]{1,3}$"),
}


def is_test(name):
    """Whether an attribute of this name tests something, by any of its spellings."""
    return name.startswith("system") or name == "customTest"


def modern(name):
    """The name of a test as SMIL 2 spells it: systemBitrate for system-bitrate, and for a parameter videoBitrate."""
    if name == "videoBitrate":
        return "systemBitrate"
    return re.sub(r"-(.)", lambda match: match[1].upper(), name)


def id_of(element):
    """The id of an element, None where it has none."""
    return element.attributes.get("xml:id") or element.attributes.get("id")


def tests_of(element):
    """The test attributes of an element, and the bit rate that its parameters say, as names and values."""
    for name, value in element.attributes.items():
        if is_test(name):
            yield name, value
    for child in element.children:
        if child.name == "param" and child.attributes.get("name") == "videoBitrate":
            yield "videoBitrate", child.attributes.get("value", "")


class Tests:
    """What decides the tests of one file.

    `languages` are tags, `bitrate` is in bits a second or None, `values` are outcomes or values by
    the names of tests. With `keep` what these don't decide is kept where smilplay reads it.
    """

    def __init__(self, languages=(), bitrate=None, values=None, keep=False):
        self.languages = [language.lower() for language in languages]
        self.bitrate = bitrate
        self.values = values or {}
        self.keep = keep
        self.declared = {}

    def declare(self, root):
        """Reads the custom tests that a file declares, with their states by default."""
        for element in root.all():
            if element.name == "customTest" and id_of(element):
                self.declared[id_of(element)] = element.attributes.get("defaultState", "false")

    def decides(self, name, value):
        """Whether the call or the file says how a test comes out."""
        return self.result(name, value) is not None

    def keeps(self, name, value):
        """Whether a test is to stand in the outline, for smilplay to decide."""
        form = READ.get(modern(name))
        return self.keep and not self.decides(name, value) and form is not None and bool(form.match(value))

    def kept(self, element):
        """The tests of an element that are to stand in the outline, by their names there."""
        return {modern(name): value for name, value in tests_of(element) if self.keeps(name, value)}

    def failed(self, element):
        """Why an element is to be left out, None where it stays."""
        for name, value in tests_of(element):
            if self.result(name, value) is False:
                return f'{name}="{value}" fails'
        return None

    def result(self, name, value):
        """True, False, or None where nothing says it."""
        name = modern(name)
        if name == "systemLanguage" and self.languages:
            return any(self.speaks(tag.strip().lower()) for tag in value.split(","))
        if name == "systemBitrate" and self.bitrate is not None and value.strip().isdigit():
            return int(value) <= self.bitrate
        if name in self.values:
            return self.values[name] == value
        state = self.values.get(value.strip(), self.declared.get(value.strip()) if name == "customTest" else None)
        return None if state is None else state in ("on", "true")

    def speaks(self, tag):
        """Whether a tag in small letters is one of the languages, or a variety of one."""
        return any(tag == language or tag.startswith(language + "-") for language in self.languages)
