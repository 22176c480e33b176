#!/usr/bin/env python3
"""engine_cases.py --oracle DIR --out FOLDER --kind elements|cells [--seed S] [--cases N] [--files N]

Makes cases for the engine, and what the reference model in DIR says of them. FOLDER
gets for each file of cases NAME, the input, and NAME.stdout, the text that is wanted;
there are as many more files as keep each answer below the limit of a run.

elements  random documents with logs and diaries: the resolution's, or in each fourth
          case lawful entries of any kind among groups of the resolution. The current
          intervals are given at each moment that is looked at; wanted are the interval
          of each element, what comes of it, the group of each coming, what comes first,
          and the view of each element.
cells     random scripts of settling, hearing, marks, copies and rebuilding; wanted are
          the diary, the intervals, the views, the next due moment and the log's length
          after each call, and which views must be among those that it touched.

A line is told only where it isn't as it was told before of the same document."""
import os
import random

import reference


def arguments():
    parser = reference.parser(cases=100)
    parser.add_argument('--out', required=True)
    parser.add_argument('--kind', choices=['elements', 'cells'], required=True)
    parser.add_argument('--files', type=int, default=1)
    return reference.arguments(parser)


if __name__ == '__main__':
    ARGS = arguments()
import grammar  # noqa: E402
import laws  # noqa: E402
from model import HORIZON, Play, TooFull, World  # noqa: E402
from cases import (  # noqa: E402
    BOUND, KEYS, Settled, arbitrary, doc_of, entry_text, interval_text, log_text, maybe, resolved,
    with_keys, write_numbered)

ANSWER = 700000
SIZES = [[0, 0, 1, 1, 2, 2, 3, 4, 5, 6], [0, 1, 2], [0, 0, 1, 2, 3, 5, 8, 12], [1, 2, 3, 4],
         [0, 0, 1, 1, 2, 2, 3, 4, 5, 6, 8, 10, 12, 15, 20]]
FAR = [[0, 1, 5, HORIZON, HORIZON - 1, HORIZON - 3, HORIZON // 2, HORIZON - 10],
       [0, 1, 2, 3, HORIZON - 2, HORIZON - 1, HORIZON // 3], [HORIZON, HORIZON - 1, 1, 0]]


# ------------------------------------------------------------------ documents

class Garden:
    """A document that grows, with ids that its lists may name."""

    def __init__(self, r):
        self.r, self.free, self.used, self.case = r, list('abcdefghijklmnop'), [], laws.Case()

    def chance(self, p):
        return self.r.random() < p

    def clock(self, top=9, low=0):
        return '%dms' % self.r.randint(low, top)

    def node(self, kind, parent=None, named=0.8, **attrs):
        line = laws.Line(kind)
        if self.free and self.chance(named):
            line.attrs['id'] = self.free.pop(0)
            self.used.append(line.attrs['id'])
        line.attrs.update((name, value) for name, value in attrs.items() if value is not None)
        if parent is not None:
            parent.kids.insert(self.r.randint(0, len(parent.kids)), line)
        return line

    def maybe(self, p, *values):
        return self.r.choice(values) if self.chance(p) else None

    def reference(self):
        r = self.r
        edge = r.choice(['begin', 'end', 'end', 'end', 'click', 'endEvent', 'beginEvent', 'repeatEvent',
                         'repeat(1)', 'repeat(2)'])
        return '%s.%s%s' % (r.choice(self.used or ['a']), edge, r.choice(['', '', '+1ms', '-1ms', '+3ms', '-4ms']))

    def item(self, own):
        k = self.r.random()
        if k < own:
            return self.clock()
        if k < own + (1 - own) * 0.7:
            return self.reference()
        return self.r.choice(['click', 'click+1ms', 'indefinite', 'nobody.end', 'nobody.click', 'repeat(1)',
                              'accesskey(x)', 'accesskey(y)+1ms'])

    def items(self, most=3, own=0.5):
        return ';'.join(self.item(own) for _ in range(self.r.randint(1, most)))

    def begin(self, parent, p=1.0, most=3, own=0.5):
        """The begin list of a child, which in a seq is one offset."""
        if not self.chance(p):
            return None
        return self.clock(4) if parent.kind == 'seq' else self.items(most, own)

    def classes(self, excl, deep=0):
        """Children of an excl, with or without classes."""
        r = self.r
        for _ in range(r.choice([1, 1, 2, 3])):
            box = excl
            if not excl.kids and self.chance(0.8) or excl.kids and excl.kids[0].kind == 'priorityClass':
                box = self.node('priorityClass', excl, 0.2,
                                peers=self.maybe(0.85, 'stop', 'pause', 'pause', 'defer', 'defer', 'never', 'never'),
                                higher=self.maybe(0.5, 'stop', 'pause'), lower=self.maybe(0.5, 'defer', 'never'))
            for _ in range(r.randint(0 if self.chance(0.1) else 1, 2)):
                self.child(box, deep)

    def child(self, box, deep):
        kind = self.r.choice(['img', 'img', 'audio', 'par', 'seq', 'excl', 'set'] if deep < 2 else ['img', 'audio'])
        begin = ';'.join(self.clock(15) for _ in range(self.r.randint(1, 4))) if self.chance(0.6) else self.items()
        line = self.node(kind, box, begin=begin, dur=self.maybe(0.8, self.clock(6, 1), self.clock(), 'media'),
                         end=self.maybe(0.2, self.items(2)), fill=self.maybe(0.4, 'freeze', 'hold', 'remove'),
                         restart=self.maybe(0.3, 'never', 'whenNotActive'),
                         repeatCount=self.maybe(0.15, '2', '1.5', 'indefinite'))
        if kind == 'excl':
            self.classes(line, deep + 1)
        elif kind in ('par', 'seq'):
            for _ in range(self.r.randint(0, 2)):
                self.node('img', line, begin=self.begin(line, 0.6), dur=self.maybe(0.8, self.clock()),
                          fill=self.maybe(0.4, 'freeze', 'hold'), end=self.maybe(0.2, self.items(2)))

    # ---- gadgets, each for rules that random documents seldom meet

    def queues(self, parent):
        """An excl whose begins overlap."""
        self.classes(self.node('excl', parent, begin=self.begin(parent, 0.3), dur=self.maybe(0.5, self.clock(40, 10)),
                               repeatCount=self.maybe(0.2, '2'), endsync=self.maybe(0.4, 'first', 'all', 'last'),
                               fill=self.maybe(0.3, 'freeze')))

    def bounds(self, parent):
        """Least and greatest lengths, repeats and end lists."""
        for _ in range(self.r.randint(1, 3)):
            self.node(self.r.choice(['img', 'audio', 'par', 'set']), parent, begin=self.begin(parent, 0.9, 3, 0.7),
                      dur=self.maybe(0.8, self.clock(), 'media', 'indefinite'), min=self.maybe(0.6, self.clock()),
                      max=self.maybe(0.6, self.clock(), 'indefinite'), end=self.maybe(0.6, self.items(3, 0.6)),
                      repeatCount=self.maybe(0.3, '0.5', '2.5', '3', 'indefinite'),
                      repeatDur=self.maybe(0.3, self.clock(12, 1), 'indefinite'),
                      restart=self.maybe(0.5, 'never', 'whenNotActive', 'always', 'default'))

    def ends(self, parent):
        """A container that ends with its children."""
        box = self.node(self.r.choice(['par', 'par', 'excl']), parent, begin=self.begin(parent, 0.4, 2),
                        dur=self.maybe(0.2, 'media'), repeatCount=self.maybe(0.3, '2', '3'),
                        repeatDur=self.maybe(0.15, self.clock(15, 3)), end=self.maybe(0.2, self.items(2)))
        for _ in range(self.r.randint(0, 4)):
            self.node(self.r.choice(['img', 'audio', 'seq', 'set']), box, begin=self.begin(box, 0.9, 3, 0.8),
                      dur=self.maybe(0.8, self.clock(4), self.clock(6, 1), 'media'), fill=self.maybe(0.3, 'freeze'))
        box.attrs['endsync'] = self.r.choice(['first', 'first', 'all', 'all', 'last'] + self.used[-4:])

    def loops(self, parent):
        """References that wait for one another."""
        box = self.node('par', parent, dur=self.maybe(0.4, self.clock(20, 3)), begin=self.begin(parent, 0.5, 2))
        for _ in range(self.r.randint(1, 4)):
            self.node(self.r.choice(['img', 'img', 'par']), box, end=self.maybe(0.4, self.items(2, 0.2)),
                      begin=self.maybe(0.9, self.clock() + ';' + self.reference(), self.items(2, 0.2)),
                      dur=self.maybe(0.7, self.clock(5)), repeatCount=self.maybe(0.2, '2'))

    def seqs(self, parent):
        """A seq whose children freeze."""
        box = self.node('seq', parent, dur=self.maybe(0.5, self.clock(25, 6)), fill=self.maybe(0.5, 'freeze', 'hold'),
                        repeatCount=self.maybe(0.3, '2', '1.5'), begin=self.begin(parent, 0.3, 2, 0.8))
        for _ in range(self.r.randint(2, 4)):
            line = self.node(self.r.choice(['img', 'img', 'par', 'audio']), box, begin=self.maybe(0.4, self.clock(4)),
                             dur=self.maybe(0.8, self.clock(5), 'media'), end=self.maybe(0.4, self.items(2, 0.3)),
                             fill=self.maybe(0.8, 'freeze', 'hold', 'remove'), restart=self.maybe(0.2, 'never'))
            if line.kind == 'par':
                self.node('img', line, dur=self.maybe(0.7, self.clock()), fill=self.maybe(0.6, 'freeze', 'hold'),
                          begin=self.begin(line, 0.3, 2))

    def births(self, parent):
        """A container that repeats, with lists that look back."""
        box = self.node('par', parent, dur=self.clock(9, 4), repeatCount=self.r.choice(['2', '3', '2.5', 'indefinite']),
                        begin=self.begin(parent, 0.6, 3, 0.8), restart=self.maybe(0.5, 'whenNotActive'),
                        end=self.maybe(0.3, self.items(1, 0.2)))
        for _ in range(self.r.randint(1, 3)):
            self.node(self.r.choice(['img', 'audio', 'set']), box, begin=self.items(3, 0.4), dur=self.clock(4),
                      repeatCount=self.maybe(0.4, '2'), end=self.maybe(0.3, self.items(2, 0.3)),
                      restart=self.maybe(0.4, 'never', 'whenNotActive'), fill=self.maybe(0.3, 'hold'))

    def zeros(self, parent):
        """Intervals of length 0."""
        for _ in range(self.r.randint(2, 4)):
            self.node(self.r.choice(['img', 'par', 'audio']), parent, begin=self.begin(parent), restart=self.maybe(0.3, 'never'),
                      dur=self.maybe(0.8, '0ms', '0ms', self.clock(3, 1)), end=self.maybe(0.3, self.items(2)),
                      repeatCount=self.maybe(0.2, '2'), min=self.maybe(0.1, self.clock(4, 1)))

    def grown(self):
        """A document of one or two gadgets."""
        r = self.r
        root = self.node(r.choice(['par', 'par', 'par', 'seq', 'excl']), None, 0.5, repeatCount=self.maybe(0.15, '2'),
                         dur=self.maybe(0.8, '40ms', '25ms', '12ms', 'indefinite'), fill=self.maybe(0.4, 'freeze', 'hold'))
        for _ in range(r.choice([1, 1, 2])):
            box = root
            if self.chance(0.3):
                box = self.node(r.choice(['par', 'seq', 'excl']), root, dur=self.maybe(0.5, self.clock(30, 9)),
                                begin=self.clock(5), repeatCount=self.maybe(0.2, '2'))
            r.choice([self.queues, self.queues, self.queues, self.bounds, self.ends, self.loops, self.seqs,
                      self.births, self.zeros])(box)
        for _, line in root.walk():
            for kid in line.kids:
                if line.kind in ('excl', 'priorityClass') and kid.kind != 'priorityClass':
                    kid.attrs.setdefault('begin', self.clock(6))
        self.case.root, self.case.now = root, r.choice([10, 16, 22, 30, 45])
        with_log(r, self.case)
        return self.case


def with_log(r, case):
    """A log of clicks, lengths and keys."""
    nodes = [line for _, line in case.root.walk()]
    case.log = []
    for _ in range(r.choice([0, 2, 3, 5, 8])):
        line, moment = r.choice(nodes), r.randint(0, case.now)
        if line.kind in grammar.CONTINUOUS and r.random() < 0.5:
            case.log.append((moment, 'media', line, r.choice(laws.SMALL)))
        elif line.kind != 'priorityClass':
            case.log.append((moment, 'event', line, b'click'))
    case.log.sort(key=lambda entry: entry[0])


def sprinkled(r, case):
    """Puts defaults, access keys and sets into a document, and presses of keys into its log."""
    for _, line in list(case.root.walk()):
        if line.kind == 'priorityClass':
            continue
        for name, p in (('restartDefault', 0.2), ('fillDefault', 0.2)):
            if r.random() < p:
                line.attrs[name] = laws.value(r, name, [], line.kind, None)
        for name in ('restart', 'fill'):
            if r.random() < 0.1:
                line.attrs[name] = 'default'
        if line.kind in ('par', 'seq', 'excl') and r.random() < 0.2 and (
                not line.kids or line.kids[0].kind != 'priorityClass'):
            kid = laws.Line('set')
            kid.attrs = {'begin': '%dms' % r.randint(0, 5), 'attributeName': 'title', 'to': 'x'}
            if r.random() < 0.5:
                kid.attrs['dur'] = '%dms' % r.randint(0, 5)
            line.kids.insert(r.randint(0, len(line.kids)), kid)
    with_keys(case, r, 0.15, key_item, [0, 1, 2, 4])


def key_item(r):
    return 'accesskey(%s)%s' % (r.choice(KEYS), r.choice(['', '', '+1ms', '-1ms']))


def some_case(r):
    """A document with a log and a moment, valid, and the name of its profile."""
    while True:
        profile = r.choice(['any', 'any', 'loops', 'pauses', 'grown', 'grown', 'grown', 'far'] if r.random() < 0.97 else ['large'])
        laws.SMALL[:] = r.choice(FAR if profile == 'far' else SIZES)
        if profile == 'grown':
            case = Garden(r).grown()
        else:
            laws.CHOSEN[0] = {'far': r.choice(['any', 'any', 'loops', 'pauses']), 'large': 'any'}.get(profile, profile)
            case = laws.random_case(r, 40 if profile == 'large' else r.choice([4, 6, 8, 10]))
        if r.random() < 0.5:
            sprinkled(r, case)
        try:
            case.doc()
            return case, profile
        except grammar.Refusal:
            continue


# ---------------------------------------------------------------- the model

class Told(Settled):
    """A scene that also gives what the definitions give of diaries that are lawful and no resolution's: a queue that an
    element leaves before it is put in again; and a queue that goes on after an end of the first playing child alone, where
    several children of an excl play."""

    def group(self, key):
        entries, e = super().group(key), key[4]
        p = self.world.time_parent[e]
        if key[5] == 'end' and p is not None and self.world.kind[p] == 'excl' and self.playing(p) != e:
            return entries[:entries.index((self.moment, 'Ended', e, key[6])) + 1]
        return entries

    def queue(self, x):
        w, entries = self.world, self.diary.entries
        start = max(self.last(x, 'Began'), self.last(x, 'Repeated')) + 1
        kids, q = set(w.time_children[x]), []
        for _, step, c, _ in entries[start:]:
            if c not in kids or step in ('Passed', 'Repeated'):
                continue
            if c in q:
                q.remove(c)
            if step == 'Paused':
                q.insert(sum(w.rank[o] < w.rank[c] for o in q), c)
            elif step == 'Deferred':
                q.insert(sum(w.rank[o] <= w.rank[c] for o in q), c)
        return q


def played(world, log, entries, moment):
    """The play of a world that has come to this, with nothing left to hear."""
    play = Play(world, BOUND)
    play.log.extend(log)
    play.scene = Told(world, play.log)
    play.taken = len(log)
    for entry in entries:
        play.scene.append(entry)
    play.scene.go(moment)
    return play


# ----------------------------------------------------------------- texts

def coming_text(scene, key):
    value, number, _, repeats, e, what, by = key
    return '%d %d %d %d %d %s %d' % (value, number, scene.world.elements.index(e), e, repeats, what, by)


def group_text(scene, key):
    return ' / '.join(entry_text(entry) for entry in scene.group(key))


def view_text(view):
    return '%s %s %s %d %d' % view


class Lines:
    """What was told, so that a line is told again only where it is another."""

    def __init__(self):
        self.told, self.out = {}, []

    def tell(self, kind, e, text):
        if self.told.get((kind, e)) != text:
            self.told[kind, e] = text
            self.out.append('%s %d: %s' % (kind, e, text))


# --------------------------------------------------------------- the elements

def with_script(r, case):
    """Steps for an arbitrary diary, where a case has none."""
    nodes = [line for _, line in case.root.walk()]
    steps = ['Began'] * 4 + ['Repeated', 'Repeated', 'Ended', 'Ended', 'Cut', 'Paused', 'Paused', 'Resumed', 'Deferred',
                             'Passed', 'Logged']
    case.script = [(r.choice([0, 0, 0, 1, 1, 2, 4]), r.choice(steps), r.choice(nodes), r.randint(-6, 8))
                   for _ in range(r.choice([10, 20, 30]))]


def told_at(scene, lines):
    """Tells all that is looked at of a scene."""
    current, views = scene.foreseen(), scene.views()
    keys = scene.keys()
    for e in scene.world.elements:
        lines.tell('interval', e, interval_text(current[e]))
        for k, what in enumerate(('moved', 'repeat')):
            own = [key for key in keys if key[4] == e and (key[5] == 'repeat') == (k == 1)]
            lines.tell(what, e, coming_text(scene, own[0]) if own else '-')
            lines.tell('group-' + what, e, group_text(scene, own[0]) if own else '-')
        lines.tell('view', e, view_text(views[e]))
    lines.tell('first', 0, coming_text(scene, min(keys)) if keys else '-')


def elements_case(outline, log, entries, moments):
    """The input of a case, and what is wanted; `moments` are looked at besides those of the entries."""
    given_lines = ['doc'] + outline + ['%%'] + [log_text(what) for what in log] + ['go']
    scene, lines, current = Told(World(doc_of(outline)), log), Lines(), {}

    def look(moment):
        scene.go(moment)
        for e, iv in scene.foreseen().items():
            if current.get(e) != iv:
                current[e] = iv
                given_lines.append('i %d %s' % (e, interval_text(iv)))
        given_lines.append('at %d' % moment)
        told_at(scene, lines)

    look(0)
    for place, entry in enumerate(entries):
        given_lines.append('d ' + entry_text(entry))
        scene.append(entry)
        look(entry[0])
        until = entries[place + 1][0] if place + 1 < len(entries) else HORIZON
        for moment in moments:
            if entry[0] < moment <= until:
                look(moment)
    given_lines.append('end')
    return given_lines, lines.out + ['end %d' % len(entries)]


def elements(r, made):
    case, profile = some_case(r)
    world = World(case.doc())
    if made % 4 == 3:
        if not case.script or r.random() < 0.5:
            with_script(r, case)
        log, entries = arbitrary(Told(world, []), case.script[:40], r)
        profile = 'arbitrary'
    else:
        log, entries = resolved(case, world)
    last = entries[-1][0] if entries else 0
    moments = sorted({r.randint(0, max(last, 1)), last + r.choice([1, 2, 5]), case.now})
    if r.random() < 0.1:
        moments.append(HORIZON)
    return elements_case(case.lines(), list(log), list(entries), moments), profile, len(entries)


# ------------------------------------------------------------------ the cells

class Slot:
    """Cells as the model plays them, with what a mark goes back to."""

    def __init__(self, outline):
        self.outline = outline
        self.play = played(World(doc_of(outline)), [], [], 0)
        self.bounds, self.mark, self.settled = [0], None, False

    def scene(self):
        return self.play.scene

    def state(self):
        scene = self.scene()
        return (list(self.play.log), list(scene.diary.entries), scene.moment, list(self.bounds), self.settled)

    def come_to(self, state, outline=None):
        log, entries, moment, bounds, settled = state
        world = self.scene().world if outline is None else World(doc_of(outline))
        self.outline = self.outline if outline is None else outline
        self.play = played(world, log, entries, moment)
        self.bounds, self.settled = list(bounds), settled

    def copy(self):
        other = Slot(self.outline)
        other.come_to(self.state())
        return other

    def go_on(self, log, until):
        """Plays on; false where the diary would be too long, and then all is as before."""
        before = self.state()
        self.play.groups = []
        try:
            self.play.to(log, until)
        except TooFull:
            self.come_to(before)
            return False
        self.bounds += [first + count for first, count in self.play.groups]
        self.settled = True
        return True

    def settle(self, until):
        return self.go_on(list(self.play.log), until)

    def hear(self, what, who, value):
        log = list(self.play.log)
        return self.go_on(log + [(self.scene().moment, what, who, value)], self.scene().moment)

    def reaches(self, outline, length):
        """What the first entries leave of a resolution by another outline, where that comes to them."""
        log, entries, _, bounds, _ = self.state()
        cut = entries[:length]
        heard = log[:sum(step == 'Logged' for _, step, _, _ in cut)]
        moment = cut[-1][0] if cut else 0
        if outline == self.outline:
            return (heard, cut, moment, [b for b in bounds if b <= length], False)
        play = played(World(doc_of(outline)), [], [], 0)
        try:
            play.to(heard, moment)
        except TooFull:
            return None
        bounds = [0] + [first + count for first, count in play.groups]
        if length not in bounds or play.scene.diary.entries[:length] != cut:
            return None
        return (heard, cut, moment, [b for b in bounds if b <= length], False)


class Stage:
    """Runs a script, line by line, over two slots, and tells what is wanted."""

    def __init__(self):
        self.here = self.there = None
        self.lines, self.told, self.entries = Lines(), 0, 0

    def anew(self):
        """Everything is told again."""
        self.lines.told, self.told = {}, 0

    def open(self, outline):
        self.here, self.there = Slot(outline), None
        self.anew()
        self.tell()

    def tell(self):
        scene, lines = self.here.scene(), self.lines
        for place in range(self.told, len(scene.diary.entries)):
            lines.out.append('entry ' + entry_text(scene.diary.entries[place]))
            self.entries += 1
        self.told = len(scene.diary.entries)
        current, views, keys = scene.foreseen(), scene.views(), scene.keys()
        for e in scene.world.elements:
            lines.tell('interval', e, interval_text(current[e]))
            lines.tell('view', e, view_text(views[e]))
        due = maybe(min(keys)[0] if keys else None)
        lines.out.append('now %d due %s log %d diary %d' % (scene.moment, due, len(self.here.play.log), self.told))

    def run(self, line):
        """Answers an order; None where it can't be given here."""
        words, here = line.split(' '), self.here
        order, rest = words[0], words[1:]
        if order == 'settle' or order in ('v', 'm', 'k'):
            return self.play_on(line, order, rest)
        if order == 'mark' and here.mark is None:
            here.mark = here.state()
        elif order == 'back' and here.mark is not None:
            here.come_to(here.mark)
            here.mark = None
            self.anew()
        elif order == 'forget' and here.mark is not None:
            here.mark = None
        elif order == 'copy' and here.mark is None:
            self.there = here.copy()
        elif order == 'swap' and self.there is not None:
            self.here, self.there = self.there, here
            self.anew()
        else:
            return None
        self.tell()
        return [line]

    def play_on(self, line, order, rest):
        here = self.here
        before = here.scene().views()
        if order == 'settle':
            until = int(rest[0])
            if until < here.scene().moment or not here.settle(until):
                return None
        elif not here.settled:
            return None
        elif order == 'v' and not here.hear('event', int(rest[0]), rest[1].encode()):
            return None
        elif order == 'm' and not here.hear('media', int(rest[0]), int(rest[1])):
            return None
        elif order == 'k' and not here.hear('key', None, int(rest[0])):
            return None
        after = here.scene().views()
        seen = ' '.join(str(e) for e in after if after[e] != before[e])
        self.lines.out.append('seen')
        self.tell()
        return ['seen ' + seen if seen else 'seen', line]

    def rebuild(self, outline, length):
        here = self.here
        if here.mark is not None:
            return None
        state = here.reaches(outline, length)
        if state is None:
            return None
        same = outline == here.outline
        here.come_to(state, outline)
        self.anew()
        self.tell()
        return ['rebuild %d' % length] if same else ['other'] + outline + ['%%', 'rebuild %d' % length]


def some_moment(r, slot):
    """A moment to settle to."""
    now, keys = slot.scene().moment, slot.scene().keys()
    k = r.random()
    if k < 0.35 and keys:
        return max(now, min(keys)[0] + r.choice([-1, 0, 0, 1]))
    if k < 0.43:
        return r.choice([now + 50, now + 10 ** 6, HORIZON, HORIZON - 1])
    return now + r.choice([0, 0, 1, 1, 2, 3, 5, 9])


def some_order(r, stage):
    here = stage.here
    elements = here.scene().world.elements
    order = r.choice(['settle'] * 6 + ['hear'] * 6 + ['mark', 'mark', 'back', 'back', 'forget', 'copy', 'swap'])
    if order == 'settle' or not here.settled and order == 'hear':
        return 'settle %d' % min(HORIZON, some_moment(r, here))
    if order != 'hear':
        return order
    k = r.random()
    if k < 0.6:
        return 'v %d %s' % (r.choice(elements), r.choice(['click'] * 9 + ['go']))
    if k < 0.63:
        return 'v %d click' % r.randint(1, 40)
    if k < 0.8:
        return 'k %d' % ord(r.choice(KEYS))
    sounds = [e for e in elements if here.scene().world.kind[e] in grammar.CONTINUOUS]
    return 'm %d %d' % (r.choice(sounds or elements), r.choice(laws.SMALL))


def edited(r, outline):
    """An outline with one attribute given or taken, or None."""
    place = r.randrange(len(outline))
    line = outline[place]
    kind = line.strip().split(' ')[0]
    name = r.choice([name for name in grammar.attrs_of(kind, 20) if name in laws.CHANCE])
    ids = [part.split('"')[1] for text in outline for part in text.split(' ') if part.startswith('id="')]
    head, *tail = line.split(' %s="' % name)
    rest = tail[0].split('"', 1)[1] if tail else ''
    if r.random() < 0.8:
        line = '%s %s="%s"%s' % (head, name, laws.value(r, name, ids, kind, None), rest)
    elif tail:
        line = head + rest
    else:
        return None
    new = outline[:place] + [line] + outline[place + 1:]
    try:
        doc_of(new)
        return new
    except grammar.Refusal:
        return None


def cells(r, made):
    case, profile = some_case(r)
    outline = case.lines()
    stage = Stage()
    stage.open(outline)
    given_lines = ['doc'] + outline + ['%%']
    for _ in range(r.choice([4, 8, 12, 20])):
        if stage.entries > 400:
            break
        here = stage.here
        if r.random() < 0.06 and here.mark is None:
            new = edited(r, here.outline) if r.random() < 0.6 else here.outline
            length = 0 if r.random() < 0.1 else r.choice(here.bounds)
            told = stage.rebuild(new, length) if new else None
            if told is None and new:
                told = stage.rebuild(new, 0)
        else:
            told = stage.run(some_order(r, stage))
        given_lines += told or []
    given_lines.append('end')
    return (given_lines, stage.lines.out + ['end']), profile, stage.entries


# ----------------------------------------------------------------------- files

def main():
    r = random.Random(ARGS.seed)
    os.makedirs(ARGS.out, exist_ok=True)
    make = {'elements': elements, 'cells': cells}[ARGS.kind]
    texts, made, entries, profiles = [], 0, 0, {}
    each = (ARGS.cases + ARGS.files - 1) // ARGS.files
    while made < ARGS.cases:
        (given_lines, wanted), profile, count = make(r, made)
        if not texts or texts[-1][2] >= ANSWER or texts[-1][3] >= each:
            texts.append([[], [], 0, 0])
        texts[-1][0].extend(given_lines)
        texts[-1][1].extend(wanted)
        texts[-1][2] += sum(len(line) + 1 for line in wanted)
        texts[-1][3] += 1
        made += 1
        entries += count
        profiles[profile] = profiles.get(profile, 0) + 1
    for k, (given_lines, wanted, _, _) in enumerate(texts):
        write_numbered(ARGS.out, k, given_lines, wanted)
    print('%d cases, %d entries, %s' % (made, entries, ', '.join('%d %s' % (profiles[name], name) for name in sorted(profiles))))


if __name__ == '__main__':
    main()
