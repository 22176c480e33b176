"""Reads lines by a TextMate grammar as VS Code does: with its regular expressions' engine, Oniguruma.

The rules are those that the grammar of smilplay has: includes by name, `match`, `begin` and `end`,
and captures. A rule that is still open where the line ends is an error here: each line stands for
itself, and VS Code would read the next one by the open rule.
"""

import ctypes
import ctypes.util

LIBRARY = ctypes.util.find_library("onig")
CAPTURE_GROUPS = 0x100


class Region(ctypes.Structure):
    """Where a pattern and its groups were found, in bytes; the front of Oniguruma's OnigRegion."""

    _fields_ = [("allocated", ctypes.c_int), ("num_regs", ctypes.c_int),
                ("beg", ctypes.POINTER(ctypes.c_int)), ("end", ctypes.POINTER(ctypes.c_int))]


class Engine:
    """Oniguruma with its default syntax, over UTF-8."""

    def __init__(self):
        self.library = ctypes.CDLL(LIBRARY)
        self.encoding = ctypes.addressof(ctypes.c_char.in_dll(self.library, "OnigEncodingUTF8"))
        self.syntax = ctypes.c_void_p.in_dll(self.library, "OnigDefaultSyntax")
        self.library.onig_region_new.restype = ctypes.POINTER(Region)
        self.library.onig_initialize((ctypes.c_void_p * 1)(self.encoding), 1)
        self.patterns = {}

    def pattern(self, text):
        """A pattern, compiled once. Raises ValueError with Oniguruma's words where it can't be read."""
        if text not in self.patterns:
            made, fault = ctypes.c_void_p(), (ctypes.c_char * 64)()
            data = text.encode()
            start = ctypes.create_string_buffer(data, len(data))
            front = ctypes.addressof(start)
            status = self.library.onig_new(
                ctypes.byref(made), ctypes.c_void_p(front), ctypes.c_void_p(front + len(data)), CAPTURE_GROUPS,
                ctypes.c_void_p(self.encoding), self.syntax, fault)
            if status != 0:
                words = ctypes.create_string_buffer(256)
                self.library.onig_error_code_to_str(words, status, fault)
                raise ValueError(f"{text}: {words.value.decode()}")
            self.patterns[text] = made
        return self.patterns[text]

    def spans(self, text, line, place):
        """The spans of a pattern and its groups at or behind a place of a line in bytes, or None; (-1, -1) for none."""
        buffer = ctypes.create_string_buffer(line, len(line))
        front = ctypes.addressof(buffer)
        region = self.library.onig_region_new()
        found = self.library.onig_search(
            self.pattern(text), *map(ctypes.c_void_p, (front, front + len(line), front + place, front + len(line))),
            region, 0)
        taken = region.contents
        spans = [(taken.beg[n], taken.end[n]) for n in range(taken.num_regs)] if found >= 0 else None
        self.library.onig_region_free(region, 1)
        return spans


class Grammar:
    """A grammar that a JSON file holds."""

    def __init__(self, grammar, engine):
        self.rules = grammar["repository"]
        self.top = grammar["patterns"]
        self.engine = engine

    def first(self, patterns, end, line, place):
        """The rule that fits first, with its spans: the end of the open one where several do, else the one named first."""
        fits = [] if end is None else [(None, self.engine.spans(end, line, place))]
        for included in patterns:
            rule = self.rules[included["include"][1:]]
            fits.append((rule, self.engine.spans(rule.get("match", rule.get("begin")), line, place)))
        fits = [fit for fit in fits if fit[1] is not None]
        return min(fits, key=lambda fit: fit[1][0][0], default=(None, None))

    def scopes(self, text):
        """The scopes of each byte of a line, the outer ones first. Raises ValueError where a rule is open at its end."""
        line = text.encode() + b"\n"
        scopes, opened, place = [()] * len(line), [{"patterns": self.top}], 0
        while True:
            names = tuple(rule["name"] for rule in opened if "name" in rule)
            rule, spans = self.first(opened[-1].get("patterns", ()), opened[-1].get("end"), line, place)
            start = spans[0][0] if spans else len(line)
            scopes[place:start] = [names] * (start - place)
            if not spans:
                break
            mark(scopes, names, rule or {}, spans)
            place = spans[0][1]
            if rule is None:
                opened.pop()
            elif "begin" in rule:
                opened.append(rule)
            elif place == start:
                raise ValueError(f"{text}: {rule['match']} takes nothing at {place}")
        if len(opened) > 1:
            raise ValueError(f"{text}: {opened[-1]['begin']} is open at its end")
        return scopes[:-1]

    def shown(self, text):
        """A line with the innermost scope in brackets where another one begins; none is said of spaces between two."""
        data, shown, before = text.encode(), b"", ()
        for place, names in enumerate(self.scopes(text)):
            if names != before and (names or data[place:place + 1] != b" "):
                shown += b"[%s]" % (names[-1].removesuffix(".smilplay") if names else "").encode()
                before = names
            shown += data[place:place + 1]
        return shown.decode()


def mark(scopes, names, rule, spans):
    """Writes the scopes of what a rule has taken inside rules of these names; the end of a rule is {}."""
    names += (rule["name"],) if "name" in rule else ()
    captures = {"0": {}, **rule.get("captures", rule.get("beginCaptures", {}))}
    for number, capture in captures.items():
        start, end = spans[int(number)]
        if start >= 0:
            scopes[start:end] = [names + ((capture["name"],) if capture else ())] * (end - start)
