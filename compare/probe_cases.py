#!/usr/bin/env python3
"""probe_cases.py --oracle DIR [--out FOLDER] [--seed S] [--cases N] [--files N] [--kind KIND..]

Makes cases for smil_test_texts and smil_test_plays and what the reference model in DIR answers
to them: FOLDER gets for each file of cases NAME, the input, and NAME.stdout, the text
that is wanted. Without FOLDER the stored runs are made: the files stdin and stdout of
crates/smil_test_texts and crates/smil_test_plays, with the cases of `fixed` and some random ones
of each kind. No value comes from a program. It prints how many cases there are of each
kind, or for each program."""
import os
import random

import reference

PARSER = reference.parser(cases=1000)
PARSER.add_argument('--out')
PARSER.add_argument('--files', type=int, default=1)
PARSER.add_argument('--kind', nargs='*')
ARGS = reference.arguments(PARSER)
import engine_cases  # noqa: E402
import grammar  # noqa: E402
import laws  # noqa: E402
import model  # noqa: E402
import session  # noqa: E402
from model import HORIZON, INDEFINITE, UNRESOLVED, Scene, TooFull, World, is_number  # noqa: E402
from cases import (  # noqa: E402
    LETTER, LIMITS, arbitrary, doc_of, entry_text, interval_text, maybe, resolved, settled_times, time_text, write)

REQUEST = 20
STEPS = ('Began', 'Repeated', 'Ended', 'Cut', 'Paused', 'Resumed', 'Deferred', 'Passed')
# the refusals of an order, by their numbers from 1
REFUSALS = ('long-line not-a-command unfinished-load bad-outline depth-jump too-deep bad-place '
            'unknown-attribute unsupported bad-value too-many-items duplicate-id too-many-elements '
            'too-many-references no-presentation name-taken too-many-presentations no-element root '
            'not-continuous log-full beyond-horizon diary-full memory not-yet bad-serial '
            'no-anchor').split()


# ------------------------------------------------------------------- printing

def flag(b):
    return '1' if b else '0'


# --------------------------------------------------------------------- values

NUMBERS = [0, 0, 1, 2, 3, 5, 1000, 2000, 4000, 10000, -1, -5, -1000, HORIZON, HORIZON - 1, -HORIZON, 1 - HORIZON]


def number(r):
    k = r.random()
    return r.choice(NUMBERS) if k < 0.5 else r.randint(-20, 20) if k < 0.8 else r.randint(-HORIZON, HORIZON)


def length(r):
    return abs(number(r))


def time(r):
    k = r.random()
    return INDEFINITE if k < 0.12 else UNRESOLVED if k < 0.24 else number(r)


class Bare:
    """An object with the fields that are given."""

    def __init__(self, **fields):
        self.__dict__.update(fields)


# ---------------------------------------------------------------------- times

def later_case(t, by):
    return 'later %s %d' % (time_text(t), by), time_text(model.later(t, by))


def order_case(a, b):
    return ('order %s %s' % (time_text(a), time_text(b)),
            '%s %s' % (time_text(model.least(a, b)), time_text(model.greatest(a, b))))


def times(r):
    return later_case(time(r), number(r)) if r.random() < 0.5 else order_case(time(r), time(r))


# ---------------------------------------------------------------------- texts

def clock_case(text):
    try:
        value = grammar.read_clock(text.encode())
        wanted = '%d %s' % (value, grammar.write_clock(value).decode())
    except grammar.TooLong:
        wanted = 'too-long'
    except grammar.Bad:
        wanted = 'bad'
    return 'clock ' + text, wanted


def list_case(side, seq, text):
    try:
        wanted = grammar.write_list(grammar.read_list(text.encode(), side, seq, REQUEST)).decode()
    except grammar.ListFault as fault:
        wanted = fault.word + ('' if fault.word == 'too-many-items' else ' %d' % fault.place)
    return 'list %s %s %s' % (side, flag(seq), text), wanted


def node_wanted(parent, line):
    try:
        shape = grammar.read_shape(line)
    except grammar.Bad:
        raise grammar.Refusal('bad-outline')
    kind = grammar.node_kind(shape, REQUEST)
    if grammar.bad_place(parent, [], kind):
        raise grammar.Refusal('bad-place')
    return kind, grammar.node_attrs(shape, kind, parent, REQUEST)


def refusal_text(refusal):
    return refusal.word + ('' if refusal.column is None else ' %d' % refusal.column)


def node_case(parent, text):
    try:
        kind, attrs = node_wanted(parent, text.encode())
        wanted = grammar.write_node(0, kind, attrs).decode()
    except grammar.Refusal as refusal:
        wanted = refusal_text(refusal)
    return 'node %s %s' % (parent or '-', text), wanted


def who_text(who):
    return '# %d' % who[1] if who[0] == 'serial' else who[1].decode()


def order_text(order):
    word = order[0]
    if word in ('show', 'text', 'save', 'diary', 'values'):
        return word
    if word in ('advance', 'seek', 'key'):
        return '%s %d' % order
    if word == 'insert':
        _, who, place, node, column = order
        return 'insert %s %d %d %s' % (who_text(who), place, column, node.decode())
    if word == 'set':
        _, who, attr, value, attr_column, column = order
        return 'set %s %s %d %d %s' % (who_text(who), attr.decode(), attr_column, column, value.decode())
    rest = ''.join(' ' + (x.decode() if isinstance(x, bytes) else '%d' % x) for x in order[2:])
    return '%s %s%s' % (word, who_text(order[1]), rest)


def script_case(text):
    line = text.encode()
    words = []
    if grammar.is_blank(line):
        words.append('blank')
    if grammar.opens_load(line):
        words.append('opens')
    if grammar.ends_load(line):
        words.append('ends')
    if not grammar.is_blank(line):
        try:
            read = grammar.read_line(line, REQUEST)
            words.append(read[0] + ' ' + read[1].decode())
            if read[0] == 'to':
                words.append(order_text(read[2]))
        except grammar.Refusal as refusal:
            words.append(refusal_text(refusal))
    return 'script ' + text, ' '.join(words)


def clock_text(r):
    digits = r.choice(['0', '1', '5', '05', '59', '60', '7', '12', '100', '999', '1000000000', '277777778',
                       '1000000000000', '1000000000001', '0000000000000000000012'])
    fraction = r.choice(['', '', '', '.5', '.0001', '.123456789', '.9999999999', '.'])
    k = r.random()
    if k < 0.6:
        return digits + fraction + r.choice(['', 'h', 'min', 's', 'ms', 'ms', 's', 'm'])
    two = r.choice(['00', '05', '59', '60', '5'])
    return (digits + ':' if k < 0.8 else '') + two + ':' + r.choice(['00', '30', '59', '60']) + fraction


def ident(r):
    return r.choice(['a', 'slide1', 'x_y', '_', 'a.b', 'a-b', 'repeat', 'begin', '1a', 'a' * 64, 'a' * 65])


def reference(r):
    return ident(r).replace('.', r.choice(['\\.', '\\.', '.'])).replace('-', r.choice(['\\-', '\\-', '-']))


def tail_text(r):
    gap = r.choice(['', '', ' ', '\t '])
    return r.choice(['', '', gap + r.choice('+-') + gap + clock_text(r)])


def item_text(r):
    k = r.random()
    if k < 0.25:
        return r.choice(['', '+', '-', '- ']) + clock_text(r)
    if k < 0.5:
        return reference(r) + r.choice(['.begin', '.end', '.begin', '.end', '.Begin']) + tail_text(r)
    if k < 0.7:
        who = reference(r) + '.' if r.random() < 0.6 else ''
        return who + r.choice(['click', 'beginEvent', 'endEvent', 'my_event2', 'begin', 'repeat', 'e' * 65]) + tail_text(r)
    if k < 0.8:
        who = reference(r) + '.' if r.random() < 0.6 else ''
        return who + 'repeat(%s)' % r.choice(['1', '2', '0', '01', '999999999', '1234567890', '']) + tail_text(r)
    if k < 0.88:
        return r.choice(['accesskey(', 'accessKey(', 'accesskey']) + r.choice(['x', '1', ';', '"', ' ', 'é', '']) + ')' + tail_text(r)
    return r.choice(['indefinite', 'wallclock(2026)', 'id(a)', 'a.marker(b)', '', ' ', 'Indefinite', 'prev.begin'])


def list_text(r):
    count = r.choice([1, 1, 1, 2, 2, 3, 4, 31, 32, 33]) if r.random() < 0.3 else r.choice([1, 1, 2, 3])
    gap = r.choice(['', '', ' ', '\t'])
    return (gap + ';' + gap).join(item_text(r) for _ in range(count)) + gap


def changed(r, text):
    """Up to two bytes of a text changed."""
    for _ in range(r.choice([0, 0, 1, 2])):
        if not text:
            return text
        at = r.randrange(len(text))
        text = text[:at] + r.choice(['', ' ', ';', '.', '+', '0', 'a', '"', ':', '(', ')', '\\', '#', '=', 'é']) + text[at + r.choice([0, 1]):]
    return text


VALUES = {'restart': ['always', 'whenNotActive', 'never', 'default', 'Never'],
          'fill': ['remove', 'freeze', 'hold', 'auto', 'default', 'transition'],
          'restartDefault': ['always', 'whenNotActive', 'never', 'inherit', 'default'],
          'fillDefault': ['remove', 'freeze', 'hold', 'auto', 'inherit', 'transition'],
          'endsync': ['last', 'first', 'all', 'media', 'a', 'a b'], 'peers': ['stop', 'pause', 'defer', 'never', 'x'],
          'higher': ['stop', 'pause', 'defer'], 'lower': ['defer', 'never', 'pause'],
          'repeatCount': ['indefinite', '1', '2.5', '0', '0.0009', '0.001', '123456789', '1234567890', '.5', '1.'],
          'src': ['a.png', '', 'é ü', 'a&b'], 'to': ['', 'x']}


def value_text(r, name):
    if name in ('begin', 'end'):
        return list_text(r)
    if name in ('dur', 'min', 'max', 'repeatDur'):
        return r.choice([clock_text(r), clock_text(r), 'media', 'indefinite', ' 5s ', '0'])
    if name in ('id', 'targetElement', 'attributeName'):
        return ident(r)
    return r.choice(VALUES.get(name, VALUES['src'] + ['x']))


def node_text(r, kind):
    names = list(grammar.attrs_of(kind, REQUEST)) if kind in grammar.kinds(REQUEST) else ['id', 'begin']
    chosen = r.sample(names, min(len(names), r.choice([0, 1, 1, 2, 3, 5])))
    if r.random() < 0.1:
        chosen.insert(0, r.choice(['speed', 'foo', 'endsync', 'peers', 'id', 'syncMaster', 'to']))
    gap = r.choice([' ', ' ', ' ', '  '])
    return kind + ''.join('%s%s="%s"' % (gap, n, value_text(r, n).replace('"', '')) for n in chosen)


def texts(r):
    k = r.random()
    if k < 0.25:
        return clock_case(changed(r, clock_text(r)))
    if k < 0.5:
        return list_case(r.choice(['begin', 'end']), r.random() < 0.3, changed(r, list_text(r)))
    if k < 0.75:
        kinds = list(grammar.kinds(REQUEST)) + ['switch', 'prefetch', 'body', 'smilText', 'foo']
        parent = r.choice([None, 'par', 'par', 'seq', 'excl', 'priorityClass', 'img', 'set'])
        text = changed(r, node_text(r, r.choice(kinds))).lstrip(' ')
        return node_case(parent, text)
    return script_case(changed(r, script_text(r)))


def script_text(r):
    name = r.choice(['d', 'd', 'deck-1', 'a_b', '1a', 'x' * 32, 'x' * 33, 'close', 'load'])
    who = r.choice(['#1', '#999999999', '#0', '#1234567890', 'a', 'a.b', '#', 'a b', '1'])
    clock = clock_text(r)
    verb = r.choice(['advance %s' % clock, 'seek %s' % clock, 'event %s %s' % (who, r.choice(['click', 'beginEvent', 'end', '1'])),
                     'media %s %s' % (who, clock), 'key %s' % r.choice(['x', '"', 'xy', '', 'é']),
                     'set %s %s "%s"' % (who, r.choice(['begin', 'dur', 'é']), r.choice(['5s', '', 'a b'])),
                     'set %s begin 5s' % who, 'unset %s %s' % (who, r.choice(['begin', 'a"b'])),
                     'insert %s %s %s' % (who, r.choice(['1', '0', '123456789', '1234567890', 'x']), r.choice(['img', 'img dur="5s"', ''])),
                     'remove %s' % who, 'history %s' % who, 'show', 'text', 'save', 'diary', 'values',
                     'stack %s %s' % (who, r.choice(['region', 'a"'])), 'shows', ''])
    line = r.choice(['%s %s' % (name, verb)] * 8 + ['load %s' % name, 'close %s' % name, '%%', ' %% ', '# x', '', ' \t', 'load', 'loads d'])
    return line if r.random() < 0.8 else ' ' + line.replace(' ', '  ') + ' '


# ------------------------------------------------------------------- outlines

def outline_case(lines):
    builder, k = grammar.Builder(LIMITS), 0
    try:
        for k, line in enumerate(lines):
            builder.push(line.encode())
        k = len(lines)
        wanted = ''.join(line.decode() + '|' for line in grammar.write_doc(builder.finish()))
    except grammar.Refusal as refusal:
        wanted = '%d %s' % (k, refusal_text(refusal))
    return 'outline ' + '|'.join(lines), wanted


def outlines(r):
    """A random document, in which up to two lines are changed, moved or made deeper."""
    laws.CHOSEN[0] = r.choice(sorted(laws.PROFILE))
    lines = laws.random_case(r, r.choice([4, 8, 12])).lines()
    for _ in range(r.choice([0, 0, 1, 1, 2])):
        k = r.randrange(len(lines))
        what = r.random()
        if what < 0.3:
            lines[k] = changed(r, lines[k])
        elif what < 0.5:
            lines[k] = r.choice(['  ', ' ', '    ', '  ' * 32]) + lines[k]
        elif what < 0.7:
            lines.insert(k, lines[r.randrange(len(lines))])
        elif what < 0.85:
            lines[k] = '  ' * r.randint(0, 3) + node_text(r, r.choice(list(grammar.kinds(REQUEST)) + ['switch', 'foo']))
        else:
            lines[k] = lines[k].lstrip(' ')
    return outline_case([line.replace('|', '/') for line in lines])


# ------------------------------------------------------------------ durations

class Alone(Scene):
    """One element with attributes, an implicit duration and a play."""

    def __init__(self, attrs, implicit=UNRESOLVED, play=None):
        self.world = World(grammar.Doc([grammar.Node(1, 'par', 0, attrs)], 2))
        self.given, self.play = implicit, play

    def implicit(self, e, J):
        return self.given

    def facts(self, e):
        return self.play


def line_attrs(text):
    return node_wanted(None, text.encode())[1]


def simple_case(implicit, line):
    return 'simple %s %s' % (time_text(implicit), line), time_text(Alone(line_attrs(line), implicit).simple(1, None))


def intermediate_case(simple, line):
    return 'intermediate %s %s' % (time_text(simple), line), time_text(Alone(line_attrs(line)).intermediate(1, simple))


def active_end_case(simple, first, start, iteration, line):
    play = Bare(first=first, start=start, iteration=iteration)
    return ('active-end %s %d %d %d %s' % (time_text(simple), first, start, iteration, line),
            time_text(Alone(line_attrs(line), play=play).active_end(1, simple)))


def simple_time(r):
    t = time(r)
    return abs(t) if is_number(t) else t


def limits_text(r):
    out = 'par'
    if r.random() < 0.4:
        out += ' repeatCount="%s"' % r.choice(['1', '2', '2.5', '0.001', '0.333', '999999999', 'indefinite', '3'])
    if r.random() < 0.3:
        out += ' repeatDur="%s"' % r.choice(['%dms' % max(1, length(r)), 'indefinite'])
    if r.random() < 0.35:
        out += ' min="%dms"' % length(r)
    if r.random() < 0.35:
        out += ' max="%s"' % r.choice(['%dms' % length(r), 'indefinite'])
    if r.random() < 0.3:
        out += ' dur="%s"' % r.choice(['%dms' % length(r), 'media', 'indefinite'])
    if r.random() < 0.3:
        out += ' end="%s"' % r.choice(['5s', 'indefinite', 'click'])
    return out


def durations(r):
    k, line = r.random(), limits_text(r)
    if k < 0.2:
        return simple_case(time(r), line)
    if k < 0.45:
        return intermediate_case(simple_time(r), line)
    return active_end_case(simple_time(r), number(r), number(r), r.choice([0, 0, 1, 2, 5, 1000000]), line)


# ------------------------------------------------------------------ intervals

class Waiting(Scene):
    """One element with facts and instance times."""

    def __init__(self, facts, begins, ends):
        f = facts
        attrs = {}
        if f.end_list != 'absent':
            attrs['end'] = ()
        if f.count is not None:
            attrs['repeatCount'] = 'indefinite' if f.count == INDEFINITE else f.count
        if f.repeat is not None:
            attrs['repeatDur'] = 'indefinite' if f.repeat == INDEFINITE else f.repeat
        self.world = Bare(attrs={1: attrs}, min={1: f.min}, max={1: f.max}, restart=lambda e: f.restart)
        self.moment = 0
        self.f, self.times = f, {'begin': begins, 'end': ends}

    def facts(self, e):
        return self.f

    def instances(self, e, side, J):
        return self.times[side]

    def simple(self, e, J):
        return self.f.simple

    def outer(self, e, m):
        return self.f.shift or 0

    def run(self, e, m):
        return 0


class Facts:
    def __init__(self, alive=True, deferred=False, play=None, parent_start=0, last=None, passed=None, end_list='absent',
                 restart='always', min=0, max=INDEFINITE, simple=2000, count=None, repeat=None):
        self.alive, self.deferred, self.parent_start = alive, deferred, parent_start
        self.last, self.passed, self.end_list, self.restart = last, passed, end_list, restart
        self.min, self.max, self.simple, self.count, self.repeat = min, max, simple, count, repeat
        self.play = play
        self.active = play is not None
        self.begun, self.first, self.start, self.iteration, self.shift = play or (None, None, None, 0, 0)
        self.paused = self.active and self.shift is None
        self.end_hears, self.restart_always = end_list == 'hearing', restart == 'always'

    def text(self):
        play = maybe(self.play, lambda p: ','.join('%d' % x for x in p[:4]) + ',' + maybe(p[4]))
        last = maybe(self.last, lambda l: '%d,%s' % (l[0], time_text(l[1])))
        return ' '.join([flag(self.alive), flag(self.deferred), play, '%d' % self.parent_start, last, maybe(self.passed),
                         self.end_list, self.restart, '%d' % self.min, time_text(self.max), time_text(self.simple),
                         maybe(self.count, time_text), maybe(self.repeat, time_text)])


def interval_case(f, begins, ends):
    s = Waiting(f, begins, ends)
    wanted = interval_text(s.interval(1, None))
    if f.last is None:
        wanted += ' -'
    if not f.active:
        wanted += ' ' + interval_text(s.first_or_next(1, None))
    begin_text = ','.join('%d' % b for b in begins) or '-'
    return 'interval %s %s %s' % (f.text(), begin_text, ','.join(map(time_text, ends)) or '-'), wanted


def near(r):
    return r.randint(-12, 12)


def intervals(r):
    small = r.random() < 0.8
    pick = near if small else number
    play = None
    if r.random() < 0.25:
        play = (pick(r), pick(r), pick(r), r.choice([0, 0, 1, 2]), r.choice([None, 0, pick(r), pick(r)]))
    last = None
    if r.random() < 0.45:
        begin = pick(r)
        last = (begin, begin + r.choice([0, 0, 1, 2, 5]))
    low = r.choice([0, 0, 0, 3, 10]) if small else length(r)
    high = r.choice([INDEFINITE, INDEFINITE, INDEFINITE, low, low + 2, low + 9])
    f = Facts(r.random() < 0.9, r.random() < 0.1, play, r.choice([0, 0, pick(r)]), last,
              pick(r) if r.random() < 0.15 else None, r.choice(['absent', 'absent', 'hearing', 'plain', 'plain']),
              r.choice(['always', 'always', 'whenNotActive', 'never']), low, high,
              r.choice([0, 1, 2, 3, 5, INDEFINITE, UNRESOLVED]) if small else simple_time(r),
              r.choice([None, None, 2500, 2000, 500, INDEFINITE]), r.choice([None, None, None, 4, 7, INDEFINITE]))
    begins = sorted(pick(r) for _ in range(r.choice([0, 1, 1, 2, 3, 5])))
    ends = sorted([pick(r) for _ in range(r.choice([0, 0, 1, 2, 3]))] + [INDEFINITE] * r.choice([0, 0, 1]))
    if f.end_list == 'absent':
        ends = []
    return interval_case(f, begins, ends)


# -------------------------------------------------------------------- endsync

class Ending(Scene):
    """A container with the ends of its children."""

    def __init__(self, kind, rule, kids):
        named = [k for k, kid in enumerate(kids) if kid[0]]
        self.world = Bare(kind={0: kind}, attrs={0: {'endsync': ('id', b'x') if rule == 'child' else rule}},
                          ids={b'x': named[0]} if named else {})
        self.kids = kids

    def latest_end(self, c, J):
        return self.kids[c][2]

    def first_end(self, c, J):
        return self.kids[c][1]


def endsync_case(kind, rule, start, kids):
    text = 'endsync %s %s %d' % (kind, rule, start)
    text += ''.join(' %s,%s,%s' % (flag(n), maybe(f, time_text), maybe(l, time_text)) for n, f, l in kids)
    if not kids:
        return text, '0'
    value = Ending(kind, rule, kids).endsync(0, list(range(len(kids))), start, None)
    return text, time_text(model.greatest(model.later(value, -start), 0))


def endsyncs(r):
    kids = []
    for _ in range(r.choice([0, 1, 1, 2, 3, 4])):
        kids.append((r.random() < 0.3, None if r.random() < 0.25 else time(r), None if r.random() < 0.25 else time(r)))
    return endsync_case(r.choice(['par', 'par', 'seq', 'excl']), r.choice(['last', 'first', 'all', 'child']), number(r), kids)


# ----------------------------------------------------------------------- excl

def decide_case(rank, peers, higher, lower, newcomer):
    s = Scene.__new__(Scene)
    s.world = Bare(attrs={5: {'peers': peers, 'higher': higher, 'lower': lower}}, class_of={1: 5}, rank={1: rank, 2: newcomer})
    return 'decide %d %s %s %s %d' % (rank, peers, higher, lower, newcomer), s.decide(1, 2)


def queue_case(steps):
    """Steps of a queue by a diary of its children: a child that is in the queue enters no second time."""
    s = Scene.__new__(Scene)
    s.diary = model.Diary([])
    s.world = Bare(time_children={0: []}, rank={})
    words, wanted = [], []
    s.diary.append((0, 'Began', 0, 0))

    def entry(step, who):
        s.diary.append((0, step, who, None))

    for what, who, rank in steps:
        now = s.queue(0)
        if what == 't':
            words.append('t')
            wanted.append(maybe(now[0] if now else None))
            if now:
                entry('Resumed', now[0])
        elif what == 'l':
            words.append('l%d' % who)
            wanted.append(flag(who in now))
            entry('Ended', who)
        elif who not in now:
            if who not in s.world.rank:
                s.world.time_children[0].append(who)
                s.world.rank[who] = rank
            words.append('%s%d,%d' % (what, who, s.world.rank[who]))
            entry('Paused' if what == 'p' else 'Deferred', who)
    if not words:
        return queue_case([('t', 0, 0)])
    return 'queue ' + ' '.join(words), ' '.join(wanted + ['/'] + ['%d' % who for who in s.queue(0)])


def excls(r):
    acts = ['stop', 'pause', 'defer', 'never']
    if r.random() < 0.3:
        return decide_case(r.randint(0, 3), r.choice(acts), r.choice(acts), r.choice(acts), r.randint(0, 3))
    return queue_case([(r.choice('ppdddtl'), r.randint(1, 8), r.randint(0, 3)) for _ in range(r.choice([1, 3, 6, 12, 20]))])


# ----------------------------------------------------------------------- keys

def key_text(k):
    return '%d,%d,%d,%d,%s' % (k[0], k[1], k[2], k[3], flag(k[4]))


def turned(k):
    """The key as the model compares it."""
    value, kind, position, serial, repeat = k
    return (value, kind, position if kind == 2 else -position, 1 if repeat else 0, serial)


def told_key(k):
    return '-' if k is None else '%d %d %s' % (k[0], k[3], flag(k[4]))


def before_case(a, b):
    return 'before %s %s' % (key_text(a), key_text(b)), flag(turned(a)[:4] < turned(b)[:4])


def least_case(keys):
    least = min(keys, key=lambda k: turned(k)[:4]) if keys else None
    return ('least-key ' + ' '.join(map(key_text, keys))).rstrip(), told_key(least)


def due_case(steps):
    here, words, wanted = set(), [], []
    for what, k in steps:
        words.append(what + key_text(k) if what in '+-' else what)
        if what == '+':
            here.add(k)
        elif what == '-':
            wanted.append(flag(k in here))
            here.discard(k)
        elif what == '?':
            wanted.append(told_key(min(here, key=turned) if here else None))
    return 'due ' + ' '.join(words), ' '.join(wanted)


def a_key(r):
    position = r.randint(0, 4)
    kind = r.choice([1, 1, 2, 2, 3])
    value = r.choice([0, 0, 0, 1, 1, -3, 1000]) if r.random() < 0.9 else number(r)
    return (value, kind, position, position + 1, kind == 1 and r.random() < 0.4)


def keys(r):
    k = r.random()
    if k < 0.3:
        return before_case(a_key(r), a_key(r))
    if k < 0.5:
        return least_case([a_key(r) for _ in range(r.choice([0, 1, 2, 3, 5, 8]))])
    return due_case([(r.choice('++++---???='), a_key(r)) for _ in range(r.choice([2, 5, 10, 25]))] + [('?', a_key(r))])


# -------------------------------------------------------------------- diaries

def readings(scene, e):
    parent = scene.world.time_parent[e]
    out = ['%d' % scene.birth(e), flag(scene.active(e)), flag(scene.paused(e)), flag(scene.deferred(e)),
           '%d' % scene.iteration(e), '%d' % len(scene.finishes(e))]
    for step in STEPS:
        place = scene.last(e, step)
        out.append('-' if place < 0 else '%d' % place)
    return '?%d,%s' % (e, maybe(parent)), ' '.join(out)


def scene_of(world, log, entries):
    scene = Scene(world, log)
    for entry in entries:
        scene.append(entry)
    return scene


def lawful_diary(r, size):
    """A world, a log and the entries of the resolution, or arbitrary lawful ones."""
    while True:
        laws.CHOSEN[0] = r.choice(sorted(laws.PROFILE))
        case = laws.random_case(r, size)
        try:
            world = World(case.doc())
        except grammar.Refusal:
            continue
        if r.random() < 0.5:
            return (world,) + resolved(case, world, 60)
        return (world,) + arbitrary(Scene(world, []), case.script, r, has_keys=False)


def step_text(entry):
    _, step, who, value = entry
    return LETTER[step] + '%d' % (value if step == 'Logged' else who)


def book_case(r, world, log, entries, queries=6):
    """The entries, cut back and pushed again here and there, with readings of elements on the way."""
    words, wanted, scene, k = [], [], Scene(world, log), 0
    asked = sorted(r.sample(range(len(entries) + 1), min(queries, len(entries) + 1)))
    while True:
        if asked and asked[0] <= k:
            asked.pop(0)
            for e in r.sample(world.elements, min(3, len(world.elements))):
                word, answer = readings(scene, e)
                words.append(word)
                wanted.append(answer)
            if r.random() < 0.1:
                words.append('=')
            if k and r.random() < 0.3:
                k = r.randrange(k)
                words.append('<%d' % k)
                scene = scene_of(world, log, entries[:k])
                asked.insert(0, k)
            continue
        if k == len(entries):
            break
        words.append(step_text(entries[k]))
        scene.append(entries[k])
        k += 1
    return 'book ' + ' '.join(words), ' '.join(wanted + ['%d' % k])


def diaries(r):
    world, log, entries = lawful_diary(r, r.choice([4, 8, 12]))
    return book_case(r, world, log, list(entries))


# ------------------------------------------------------------------ documents

def graph_lines(world):
    """For each element its readers, its reach, and which of its items are looped."""
    for e in world.elements:
        readers = [x for x in world.elements if x in world.edges[e] or x in world.event_readers[e]]
        reach = sorted(world.down(e), key=lambda x: world.position[x])
        marks = ''.join(flag(world.looped_marks.get((e, side, k), False))
                        for side in ('begin', 'end') for k in range(len(world.attrs[e].get(side, ()))))
        yield '%d:%s /%s / %s' % (e, ''.join(' %d' % x for x in readers), ''.join(' %d' % x for x in reach), marks)


def graph_case(lines):
    """What `graph_lines` says of an outline, on one line, or a refusal; a node that is no
    element has its serial alone."""
    text = 'graph ' + '|'.join(lines)
    try:
        world = World(doc_of(lines))
    except grammar.Refusal:
        return text, 'refused'
    told = dict(line.split(':', 1) for line in graph_lines(world))
    wanted = []
    for node in world.doc.nodes:
        wanted.append('%d' % node.serial)
        if '%d' % node.serial in told:
            readers, reach, marks = told['%d' % node.serial].split('/')
            wanted += ['<'] + readers.split() + ['>'] + reach.split() + [':' + marks.strip()]
        wanted.append('/')
    return text, ' '.join(wanted)


def graphs(r):
    """A random document, now and then with a changed line."""
    laws.CHOSEN[0] = r.choice(sorted(laws.PROFILE))
    lines = laws.random_case(r, r.choice([4, 8, 12])).lines()
    if r.random() < 0.1:
        k = r.randrange(len(lines))
        lines[k] = changed(r, lines[k])
    return graph_case([line.replace('|', '/') for line in lines])


def clock_lines(scene):
    """For each element its clock and its time parent's, and whether these stand."""
    for e in scene.world.elements:
        yield '%d: %d %d %s %s' % (e, scene.run(e, scene.moment), scene.outer(e, scene.moment), flag(scene.stands(e)),
                                   flag(scene.outer_stands(e)))


def documents(r):
    """A document with its graph, and its clocks after each entry of a lawful diary and some time later."""
    world, log, entries = lawful_diary(r, r.choice([4, 8, 12]))
    lines = ['doc'] + [line.decode() for line in grammar.write_doc(world.doc)] + ['%%']
    wanted, scene = list(graph_lines(world)), Scene(world, log)
    for entry in entries:
        moment = entry[0]
        lines.append('d ' + entry_text(entry))
        scene.go(moment)
        scene.append(entry)
        later = moment + r.choice([0, 0, 1, 7, HORIZON - moment])
        lines.append('at %d' % later)
        scene.go(later)
        wanted.extend(clock_lines(scene))
    lines.append('end')
    wanted.append('end %d' % len(entries))
    return '\n'.join(lines), '\n'.join(wanted)


# ---------------------------------------------------------------------- views

class Seen(Scene):
    """An element, 1, under a time parent, 0, with the facts of its view."""

    def __init__(self, v):
        self.v = v
        self.moment = 0
        places = [] if v.last is None else [0]
        self.f = Bare(active=v.active, paused=v.paused, deferred=v.deferred is not None, last=v.last, finish_places=places)
        self.world = Bare(time_parent={1: 0}, kind={0: 'seq'}, effective_fill=lambda e: v.fill)
        self.diary = Bare(entries=[(0, 'Cut' if v.cut else 'Ended', 1, 0)])

    def facts(self, e):
        return self.f

    def iteration(self, e, upto=None):
        return self.v.iteration

    def active(self, e, upto=None):
        return self.v.active if e else self.v.shows and not self.v.frozen

    def displaced(self, e, p, place):
        return self.v.displaced

    def last(self, e, step, upto=None):
        return {'Began': 'begun' if upto is None else 'last', 'Deferred': 'deferred'}[step]

    def shown_begun(self, place):
        return {'begun': self.v.begun, 'deferred': self.v.deferred, 'last': self.v.last and self.v.last[0]}[place]

    def shown_finish(self, place):
        return self.v.last[1]

    def outer_stands(self, e, upto=None):
        return self.v.standing

    def to_document(self, e, value, m):
        return value + self.v.shift


def view_case(v):
    words = ['%d' % v.serial, flag(v.active), flag(v.paused), maybe(v.deferred),
             maybe(v.interval, lambda iv: '%d,%s' % (iv[0], time_text(iv[1]))), maybe(v.begun),
             maybe(v.last, lambda iv: '%d,%d' % iv), flag(v.cut), v.fill, flag(v.displaced), flag(v.shows), flag(v.frozen),
             flag(v.standing), '%d' % v.shift, '%d' % v.iteration, '%d' % v.finished]
    state, begin, end, iteration, _ = Seen(v).view(1, {1: v.interval}, {0: v.frozen})
    return 'view ' + ' '.join(words), '0 #%d %s %s %s %d %d' % (v.serial, state, begin, end, iteration, v.finished)


def views(r):
    active = r.random() < 0.35
    frozen = r.random() < 0.3
    interval = (number(r), time(r)) if active or r.random() < 0.5 else None
    begin = number(r)
    return view_case(Bare(
        serial=r.choice([1, 2, 7, 999999999]), active=active, paused=active and r.random() < 0.4,
        deferred=number(r) if not active and r.random() < 0.2 else None, interval=interval,
        begun=number(r) if active else None, last=(begin, begin + r.choice([0, 1, 20])) if r.random() < 0.6 else None,
        cut=r.random() < 0.4, fill=r.choice(['remove', 'freeze', 'hold']), displaced=r.random() < 0.4,
        shows=frozen or r.random() < 0.6, frozen=frozen, standing=r.random() < 0.2, shift=number(r),
        iteration=r.choice([0, 1, 3]), finished=r.choice([0, 1, 2, 4294967295])))


# ---------------------------------------------------------------------- lines

def line_case(*words):
    """The line of a change or of a removed element: it is what it says."""
    rest = ' '.join('%s' % w for w in words[1:])
    return words[0] + ' ' + rest, rest


def gone_case(moment, name):
    return 'gone %d %s' % (moment, name), '%d %s gone' % (moment, name)


def history_case(name, begin, end, how):
    return 'history %s %s %s %s' % (name, begin, end, how), '%s from %s to %s %s' % (name, begin, end, how)


def refusal_case(line, number, column):
    word = REFUSALS[number - 1]
    tail = ' %d' % column if 8 <= number <= 11 else ''
    return 'refusal %d %d %d' % (line, number, column), '! %d %s%s' % (line, word, tail)


def a_line(r):
    name = r.choice(['a', '#0', '#999999999', 'x' * 64, '#12'])
    shown = ['-', '?', 'indefinite', 'unresolved', '0', '-250', '3000', '%d' % -2 ** 63, '%d' % (2 ** 63 - 1)]
    k = r.random()
    moment = r.choice([0, 5000, 10 ** 12, 2 ** 63 - 1, -2 ** 63])
    if k < 0.4:
        state = r.choice(['idle', 'waiting', 'active', 'paused', 'deferred', 'frozen', 'done'])
        return line_case('change', moment, name, state, r.choice(shown), r.choice(shown), r.choice([0, 4294967295]), r.choice([0, 12]))
    if k < 0.5:
        return gone_case(moment, name)
    if k < 0.7:
        return history_case(name, r.choice(shown), r.choice(shown), r.choice(['ended', 'cut', 'playing']))
    if k < 0.8:
        line = r.choice([1, 7, 4294967295])
        return 'ok %d p %d' % (line, moment), 'ok %d p %d' % (line, moment)
    if k < 0.85:
        return 'closed 8 p', 'ok 8 p closed'
    return refusal_case(r.choice([0, 1, 4294967295]), r.randint(1, 27), r.choice([1, 17, 4294967295]))

# ---------------------------------------------------------------------- trees

class Edited:
    """A document as the model edits it."""

    def __init__(self, doc):
        self.doc = doc

    def answer(self, order):
        """What an edit answers."""
        p = session.Presentation.__new__(session.Presentation)
        p.limits, p.doc, p.log, p.now, p.views, made = LIMITS, self.doc, [], 0, {}, []
        p.edit = lambda doc: made.append(doc) or []
        # columns by which a refusal of a value tells its place from 0, and one of a line its column
        columns = {'set': (-1, 0), 'unset': (-1,), 'insert': (1,), 'remove': ()}[order[0]]
        try:
            p.answer(order[:len(order) - len(columns)] + columns)
        except grammar.Refusal as refusal:
            told = refusal.column is not None and (order[0] == 'insert' or refusal.word in ('bad-value', 'unsupported'))
            return refusal.word + (' %d' % refusal.column if told and refusal.column >= 0 else '')
        serial = self.doc.next
        self.doc = made[0]
        return '%d' % serial if order[0] == 'insert' else 'ok'


def serials(nodes):
    return ['%d' % serial for serial in nodes]


def node_row(world, node):
    """What a tree tells of a node."""
    e, doc = node.serial, world.doc
    above = doc.node(node.parent)
    in_class = above is not None and above.kind == 'priorityClass'
    time_parent = world.time_parent.get(e) if node.kind != 'priorityClass' else node.parent
    kids = world.time_children.get(e, []) if node.kind != 'priorityClass' else []
    place, ident = world.position[e], node.attrs.get('id')
    elements = [n.serial for n in doc.nodes if n.kind != 'priorityClass']
    index = ['%d %d' % (elements.index(e), e)] if e in elements else ['-']
    row = ['%d %d' % (e, place)] + index
    row += [maybe(node.parent or None), maybe(node.parent if in_class else None), maybe(time_parent),
            '%d %d' % (place, place + len(doc.subtree(e))), '<'] + serials(n.serial for n in doc.children(e))
    row += ['>'] + serials(kids) + [maybe(kids[-1] if kids else None), '-', ':',
                                    maybe(None if ident is None else doc.by_id(ident).serial)]
    if node.kind != 'priorityClass':
        row += [world._restart[e][0], world._fill[e][0]]
    return ' '.join(row + ['/'])


def tree_case(lines, orders):
    """The answers of edits, and the document that they make."""
    text = 'tree %s|%%%%|%s' % ('|'.join(lines), '|'.join(orders))
    try:
        edited, wanted = Edited(doc_of(lines)), []
        for line in orders:
            if grammar.is_blank(line.encode()):
                continue
            read = grammar.read_line(line.encode(), REQUEST)
            if read[0] != 'to' or read[2][0] not in ('set', 'unset', 'insert', 'remove'):
                return text, 'refused'
            wanted.append(edited.answer(read[2]))
    except grammar.Refusal:
        return text, 'refused'
    world = World(edited.doc)
    wanted.append(''.join(line.decode() + '|' for line in grammar.write_doc(edited.doc, 2)))
    return text, ' '.join(wanted + [node_row(world, node) for node in edited.doc.nodes])


def name_text(r, doc):
    """A node by its serial or its id, now and then one that isn't there."""
    node = r.choice(doc.nodes)
    if r.random() < 0.03:
        return r.choice(['#77', 'nobody', 'a', 'b', 'c'])
    return node.attrs['id'].decode() if 'id' in node.attrs and r.random() < 0.4 else '#%d' % node.serial


def edit_value(r, doc, name, node, kind, parent):
    """A value of an attribute, mostly one that can be read."""
    ids = [n.attrs['id'].decode() for n in doc.nodes if 'id' in n.attrs]
    if name == 'id':
        return r.choice(laws.IDS + 'xyz') if r.random() < 0.9 else ident(r)
    if name in laws.CHANCE and r.random() < 0.8:
        return laws.value(r, name, ids, kind, parent)
    return value_text(r, name).replace('"', '')


def edit_text(r, doc):
    """A script line that edits a document."""
    who = name_text(r, doc)
    node = doc.node(int(who[1:])) if who[0] == '#' else doc.by_id(who.encode())
    node = node or doc.nodes[0]
    above = doc.node(node.parent)
    names = list(grammar.attrs_of(node.kind, REQUEST))
    k = r.random()
    if k < 0.35:
        name = 'id' if r.random() < 0.25 else r.choice(names + ['begin', 'peers', 'speed', 'foo'] if r.random() < 0.2 else names)
        return 'd set %s %s "%s"' % (who, name, edit_value(r, doc, name, node, node.kind, above and above.kind))
    if k < 0.5:
        have = sorted(node.attrs) if r.random() < 0.7 else names
        return 'd unset %s %s' % (who, r.choice(have or names) if r.random() < 0.95 else r.choice(['foo', 'speed', 'peers', 'dur']))
    if k < 0.85:
        if node.kind not in ('par', 'seq', 'excl', 'priorityClass') and r.random() < 0.8:
            inner = [n for n in doc.nodes if n.kind in ('par', 'seq', 'excl', 'priorityClass')]
            node = r.choice(inner)
            who = '#%d' % node.serial
        kids = doc.children(node.serial)
        kind = r.choice(['img', 'img', 'par', 'seq', 'excl', 'priorityClass', 'audio', 'set'])
        if node.kind == 'excl' and r.random() < 0.7:
            kind = 'priorityClass' if kids and kids[0].kind == 'priorityClass' else 'img'
        attrs = [(name, edit_value(r, doc, name, node, kind, node.kind))
                 for name in grammar.attrs_of(kind, REQUEST) if r.random() < (0.5 if name == 'id' else 0.12)]
        line = kind + ''.join(' %s="%s"' % pair for pair in attrs)
        place = r.randint(1, len(kids) + 1) if r.random() < 0.93 else r.choice([0, len(kids) + 2, 999999999])
        return 'd insert %s %d %s' % (who, place, changed(r, line) if r.random() < 0.05 else line)
    return 'd remove %s' % who


def trees(r):
    """A random document that is edited some times."""
    lines = [line.replace('|', '/') for line in some_document(r).lines()]
    if r.random() < 0.3:
        lines = [line.decode() for line in grammar.write_doc(doc_of(lines), 2)]
        lines[0] = 'outline 2 next %d' % (int(lines[0].split()[-1]) + r.choice([0, 0, 5, 1000]))
    edited, orders = Edited(doc_of(lines)), []
    for _ in range(r.choice([0, 1, 2, 4, 8, 15])):
        line = edit_text(r, edited.doc).replace('|', '/')
        orders.append(line)
        try:
            edited.answer(grammar.read_line(line.encode(), REQUEST)[2])
        except grammar.Refusal:
            if r.random() < 0.9:
                orders.pop()
    if r.random() < 0.02:
        orders.append(r.choice(['', '# note', 'd show', 'load d', 'd set', 'd remove']))
    return tree_case(lines, orders)


def some_document(r):
    """A random case of any profile."""
    small = laws.SMALL[:]
    try:
        return engine_cases.some_case(r)[0]
    finally:
        laws.SMALL[:] = small


# ---------------------------------------------------------------------- plays

def first_time(values, least):
    return time_text(next((t for t in values if t >= least), UNRESOLVED))


def clocks_row(scene, e, before):
    m = scene.moment
    between = scene.outer(e, m) + (7 - scene.outer(before, m))
    return '%d %d %d %s %s %d %d /' % (e, scene.run(e, m), scene.outer(e, m), flag(scene.stands(e)), flag(scene.outer_stands(e)),
                                      scene.to_document(e, 7, m), between)


def instances_row(scene, e):
    begins, ends = settled_times(scene, e)
    row = ['%d <' % e] + [time_text(t) for t in begins] + ['>'] + [time_text(t) for t in ends] + [':', flag(bool(ends))]
    for value in (scene.outer(e, scene.moment), begins[0] if begins else 0):
        row += [first_time(begins, value), first_time(ends, value), first_time(begins, value + 1), first_time(ends, value + 1)]
    return ' '.join(row + ['/'])


def told_play(scene):
    """The moment, the clocks and the instance times, each the same where they are made anew, and after going back."""
    elements = scene.world.elements
    rows = ['%d' % scene.moment]
    rows += [clocks_row(scene, e, before) for e, before in zip(elements, elements[:1] + elements)] + ['1']
    return ' '.join(rows + [instances_row(scene, e) for e in elements] + ['1', '1'])


class Refused(Exception):
    pass


def ordered(play, order):
    """The log and the moment of a play after an order."""
    verb, now, log = order[0], play.scene.moment, list(play.log)
    if verb in ('advance', 'seek'):
        until = now + order[1] if verb == 'advance' else order[1]
        if not now <= until <= HORIZON:
            raise Refused()
        return log, until
    if verb == 'key':
        return log + [(now, 'key', None, order[1])], now
    if verb not in ('event', 'media'):
        raise Refused()
    kind, who = order[1]
    serial = who if kind == 'serial' else play.world.ids.get(who, 0)
    if not serial:
        raise Refused()
    return log + [(now, verb, serial, order[2])], now


def play_case(lines, orders, bound=None):
    """What is told of a document after orders; TooFull where its diary has more entries than the bound."""
    text = 'play %s|%%%%|%s' % ('|'.join(lines), '|'.join(orders))
    try:
        play = engine_cases.played(World(doc_of(lines)), [], [], 0)
        play.bound = bound
        play.to([], 0)
        for line in orders:
            if grammar.is_blank(line.encode()):
                continue
            read = grammar.read_line(line.encode(), REQUEST)
            if read[0] != 'to':
                return text, 'refused'
            play.to(*ordered(play, read[2]))
    except (grammar.Refusal, Refused):
        return text, 'refused'
    return text, told_play(play.scene)


def named_text(r, case, serial):
    ident = next((line.attrs.get('id') for _, line in case.root.walk() if line.serial == serial), None)
    return ident if ident is not None and r.random() < 0.4 else '#%d' % serial


def order_texts(r, case):
    """The log of a case as script lines, and moments between and behind."""
    moments = [entry[0] for entry in case.real_log()]
    lines, now, last = [], 0, max([case.now] + moments)
    steps = [(entry[0], entry) for entry in case.real_log()]
    steps += [(r.randint(0, max(last, 1)), None) for _ in range(r.choice([0, 1, 2]))]
    for moment, entry in sorted(steps, key=lambda step: step[0]) + [(r.choice([last, last, r.randint(0, max(last, 1))]), None)]:
        if moment > now:
            lines.append('d seek %dms' % moment if r.random() < 0.5 else 'd advance %dms' % (moment - now))
            now = moment
        if entry is None:
            continue
        _, what, who, value = entry
        if what == 'key':
            lines.append('d key %s' % chr(value))
        elif what == 'event':
            lines.append('d event %s %s' % (named_text(r, case, who), value.decode()))
        else:
            lines.append('d media %s %dms' % (named_text(r, case, who), value))
    return lines, now


def plays(r):
    """A random document that is played for a while."""
    while True:
        case = some_document(r)
        outline = [line.replace('|', '/') for line in case.lines()]
        orders, now = order_texts(r, case)
        k = r.random()
        if k < 0.02:
            orders.insert(r.randint(0, len(orders)), r.choice(['', '# note', 'd show', 'load d', 'd seek', 'd remove #1']))
        elif k < 0.04:
            orders.append(r.choice(['d seek 1000000000000ms', 'd advance 1000000000000ms', 'd event #999 click',
                                    'd event nobody click', 'd event #1 beginEvent', 'd media #1 5ms', 'd event #0 click']))
        elif k < 0.05 and now:
            orders.append('d seek %dms' % r.randrange(now))
        try:
            return play_case(outline, orders, 200)
        except TooFull:
            continue


KINDS = {'times': times, 'texts': texts, 'outlines': outlines, 'durations': durations, 'intervals': intervals, 'endsync': endsyncs,
         'excl': excls, 'keys': keys, 'diaries': diaries, 'graphs': graphs, 'views': views, 'lines': a_line, 'trees': trees, 'plays': plays}
# cases of many lines, which another program reads (documents_compare.sh)
LONG = {'documents': documents}
# the words of cases that smil_test_plays answers; smil_test_texts answers all others
PLAYED = ('graph', 'tree', 'play')


# ------------------------------------------------------------ the stored cases

def fixed():
    """Cases by hand."""
    top = 2 ** 63 - 1
    for t, by in [(HORIZON - 1, 1), (HORIZON, 1), (1 - HORIZON, -1), (-HORIZON, -1), (top, top), (-top - 1, -top - 1),
                  (top, -top - 1), (INDEFINITE, -top - 1), (UNRESOLVED, -1)]:
        yield later_case(t, by)
    rising = [-top - 1, -1, HORIZON, INDEFINITE, UNRESOLVED]
    for a in rising:
        for b in rising:
            yield order_case(a, b)
    for text in ['00:00:00', '59:59', '1:00:00', '277777777:46:40', '277777777:46:40.001', '5', '5s', '1.5min', '0.0000000019h',
                 '1000000000000ms', '1000000000001ms', '05:60', '5 s', '', '0:00:00.0009999999', '2h', '.5s', '5.s', '1e3']:
        yield clock_case(text)
    for side, seq, text in [('begin', False, '5s;a.begin+1s;click'), ('end', False, 'indefinite'), ('begin', True, '5s'),
                            ('begin', True, '-5s'), ('begin', True, 'click'), ('begin', False, 'wallclock(2026)'),
                            ('begin', False, '1s;;2s'), ('begin', False, ';'.join(['0s'] * 32)),
                            ('begin', False, ';'.join(['0s'] * 33)), ('end', False, 'a\\.b.end-5s'), ('end', True, 'a.click')]:
        yield list_case(side, seq, text)
    for parent, text in [(None, 'par'), (None, 'img'), ('par', 'img  dur="5s" id="a"'), ('par', 'img dur="5s" dur="6s"'),
                         ('seq', 'img begin="a.end"'), ('par', 'switch'), ('par', 'foo'), ('img', 'img'), ('excl', 'priorityClass peers="pause"'),
                         ('par', 'priorityClass'), ('par', 'img foo="1"'), ('par', 'img speed="1"'), ('par', 'set targetElement="a" to=""')]:
        yield node_case(parent, text)
    for lines in [[], ['par'], ['par', '  img'], ['par', 'par'], ['par', '    img'], [' par'], ['img'], ['par id="a"', '  img id="a"'],
                  ['seq', '  img begin="5s"  dur="1s"', '  img begin="-1s"'], ['excl', '  priorityClass', '  img'],
                  ['outline 2 next 9', 'par #3', '  img #1'], ['outline 2 next 9', 'par #3', '  img #3'],
                  ['outline 2 next 9', 'par #3', '  img #9'], ['outline 2 next 9', 'par #3', '  img'], ['outline 2 next', 'par #3'],
                  ['par #3'], ['outline 2 next 9'],
                  ['  ' * k + 'par' for k in range(32)], ['  ' * k + 'par' for k in range(33)]]:
        yield outline_case(lines or [''])
    for text in ['d advance 5s', 'd advance x', 'd seek 0', 'load d', 'load', 'close d', '%%', '# note', ' ', 'd event a click',
                 'd event #2 beginEvent', 'd set a begin "5s;click"', 'd insert #1 1 img dur="5s"', 'd show', 'd key x', 'd values', 'd diary']:
        yield script_case(text)
    yield intermediate_case(10000, 'par repeatCount="3"')
    yield active_end_case(10000, -25000, -5000, 2, 'par repeatCount="3"')
    yield intermediate_case(4000, 'par repeatCount="2.5"')
    yield active_end_case(4000, 0, 8000, 2, 'par repeatCount="2.5"')
    yield active_end_case(6000, 0, 0, 0, 'par min="8s" max="5s"')
    for simple in (3000, UNRESOLVED):
        yield active_end_case(simple, 0, 0, 0, 'par min="5s" max="8s"')
    yield simple_case(7, 'par min="5s" max="8s"')
    for begins, f in [([-5000, 1000], Facts()), ([0, 5], Facts(simple=0)), ([-5, 3], Facts(simple=0)),
                      ([-2000, -1000], Facts(restart='never')), ([-2000, -1000], Facts()), ([4000, 9000], Facts(passed=4000)),
                      ([0, 1500], Facts()), ([0, 2000], Facts(last=(0, 2000))), ([0, 7], Facts(last=(0, 0))),
                      ([0, 5000], Facts(last=(0, 2000), restart='never'))]:
        yield interval_case(f, begins, [])
    for begin, end, f in [(2000, [2000], Facts(last=(0, 2000), end_list='hearing')), (2000, [2000], Facts(end_list='plain')),
                          (0, [3000], Facts(end_list='plain', min=5000, simple=10000)), (5, [3], Facts(end_list='hearing')),
                          (5, [3], Facts(end_list='plain')), (5, [], Facts(end_list='plain')),
                          (0, [3], Facts(end_list='plain', simple=4000, count=2500, play=(5, 0, 4000, 1, 5))),
                          (0, [], Facts(play=(5, 0, 0, 0, None))), (0, [], Facts(deferred=True))]:
        yield interval_case(f, [begin], end)
    early, late, none = (False, 3000, 4000), (True, 5000, 8000), (False, None, None)
    for kind, rule, start, kids in [('par', 'last', 1000, [early, late, none]), ('excl', 'first', 1000, [early, late, none]),
                                    ('par', 'all', 1000, [early, late, none]), ('par', 'child', 1000, [early, late, none]),
                                    ('seq', 'last', 1000, [early, late, none]), ('par', 'all', 1000, [early, late]),
                                    ('seq', 'last', 1000, [early, late]), ('par', 'child', 1000, [early, none]),
                                    ('par', 'last', 9000, [early, late, none]), ('par', 'first', 9000, [])]:
        yield endsync_case(kind, rule, start, kids)
    acts = ['stop', 'pause', 'defer', 'never']
    for one in acts:
        for other in acts:
            for newcomer in range(3):
                yield decide_case(1, one, other, one, newcomer)
                yield decide_case(1, other, one, one, newcomer)
    yield queue_case([('d', 4, 1), ('p', 5, 1), ('d', 6, 1), ('p', 7, 0), ('d', 8, 0), ('t', 0, 0), ('t', 0, 0), ('t', 0, 0),
                      ('l', 6, 0), ('l', 6, 0), ('t', 0, 0), ('t', 0, 0)])
    yield queue_case([('p', 6, 1), ('d', 7, 1), ('d', 9, 2)])
    yield queue_case([('p', 4, 0), ('p', 5, 0), ('d', 6, 0), ('t', 0, 0)])
    pairs = [((2, 3, 0), (2, 5, 0)), ((1, 5, 0), (1, 3, 0)), ((3, 5, 0), (3, 3, 0)), ((1, 5, 0), (1, 5, 1)), ((1, 5, 1), (1, 3, 0)),
             ((1, 3, 0), (2, 1, 0)), ((2, 9, 0), (3, 9, 0))]
    for a, b in pairs:
        one, other = [(1000, k[0], k[1], k[1] + 1, bool(k[2])) for k in (a, b)]
        yield before_case(one, other)
        yield before_case(other, one)
        yield least_case([other, one])
        yield due_case([('+', other), ('+', one), ('+', other), ('?', one), ('-', one), ('-', one), ('?', one)])
    yield least_case([(1001, 1, 3, 4, False), (1000, 2, 3, 4, False)])
    yield least_case([])
    yield full_case()
    idle = dict(serial=7, active=False, paused=False, deferred=None, interval=None, begun=None, last=None, cut=False, fill='remove',
                displaced=False, shows=True, frozen=False, standing=False, shift=500, iteration=3, finished=2)
    far = 10 ** 13
    for changes in [{}, dict(last=(-10, 20)), dict(interval=(-1000, UNRESOLVED)), dict(interval=(1000, 3000), last=(-10, 20)),
                    dict(deferred=-40, last=(10, 20)), dict(active=True, begun=700, interval=(1000, 3000)),
                    dict(active=True, paused=True, begun=700, interval=(-1000, INDEFINITE)), dict(fill='freeze', last=(10, 20)),
                    dict(fill='freeze', last=(10, 20), displaced=True), dict(fill='hold', last=(10, 20), displaced=True),
                    dict(fill='hold', last=(10, 20), interval=(1000, 3000)),
                    dict(fill='hold', last=(10, 20), interval=(1000, 3000), shows=False), dict(fill='hold', last=(10, 20), shows=False),
                    dict(frozen=True, last=(10, 20)), dict(frozen=True, cut=True, last=(10, 20)),
                    dict(frozen=True, cut=True, displaced=True, last=(10, 20)), dict(cut=True, last=(10, 20)), dict(frozen=True, cut=True),
                    dict(standing=True, interval=(1000, 3000)), dict(standing=True, active=True, begun=700, interval=(1000, 3000)),
                    dict(standing=True, active=True, begun=700, interval=(1000, INDEFINITE)), dict(interval=(-far, far), shift=far),
                    dict(interval=(-far, far), shift=-far)]:
        yield view_case(Bare(**dict(idle, **changes)))
    yield 'view 7 0 0 - 10000000000001,5 - - 0 remove 0 1 0 0 500 3 2', 'refused'
    for state in ['idle', 'waiting', 'active', 'paused', 'deferred', 'frozen', 'done']:
        for shown in ['3000', '-250', '-', 'indefinite', 'unresolved', '?']:
            yield line_case('change', 5000, 'a', state, shown, '?', 4, 12)
            yield line_case('change', 5000, '#2', state, '0', shown, 4, 12)
    for k in range(1, 28):
        yield refusal_case(k, k, 17)
        yield refusal_case(4294967295, k, 4294967295)
    for text in ['', 'nothing', 'later 5', 'later 5 x', 'book b1 <2', 'interval 1 0 - 0 - - absent always 0 indefinite 0 - - 5,3 -',
                 'clock', 'queue x', 'refusal 1 28 1', 'decide 1 stop']:
        yield text, 'bad' if text == 'clock' else 'refused'
    yield from fixed_trees()
    yield from fixed_plays()


def fixed_trees():
    """Edits by hand: each refusal, and what each edit changes."""
    par, excl = ['par id="a"', '  img id="b"'], ['excl', '  priorityClass id="p"', '    img id="b"', '  priorityClass']
    deep = ['  ' * k + 'par' for k in range(32)]
    for lines, orders in [
            (par, []), (par, ['set b id "a"', 'set b id "b"', 'set b id "c"', 'set b dur "5s"', 'set #2 id "b"', 'unset c id']),
            (par, ['unset a id', 'set #2 id "a"', 'remove a', 'insert #1 1 img id="a"', 'remove a', 'remove a', 'remove #1']),
            (par, ['set b speed "1"', 'set b foo "1"', 'set b begin "wallclock(2026)"', 'set b begin "5s;"', 'set b dur "x"',
                   'set b end "%s"' % ';'.join(['0s'] * 33), 'set b peers "stop"', 'unset b foo', 'unset b speed', 'unset b dur']),
            (par, ['insert b 1 img', 'insert a 0 img', 'insert a 3 img', 'insert a 2 priorityClass', 'insert a 1 foo',
                   'insert a 1 switch', 'insert a 1 img id="b"', 'insert a 1 img dur="x"', 'insert a 1 img dur="1s" dur="2s"',
                   'insert a 1 img foo="1"', 'insert a 1 seq', 'insert a 3 par id="d"', 'insert d 1 audio']),
            (excl, ['insert #1 1 img', 'insert #1 2 priorityClass', 'insert p 1 excl id="e"', 'insert e 1 img', 'insert e 1 priorityClass',
                    'set p higher "stop"', 'set p dur "5s"', 'remove p', 'insert #1 1 priorityClass peers="pause"']),
            (deep, ['insert #31 1 img', 'insert #32 1 img', 'remove #2', 'insert #1 1 seq', 'set #33 title "x"']),
            (['outline 2 next 999999998', 'par #7'], ['insert #7 1 img', 'insert #7 1 img', 'remove #999999998', 'insert #7 1 img']),
            (['outline 2 next 9', 'seq #3', '  img #1 begin="5s"'], ['insert #3 2 img begin="#1.end"', 'set #1 begin "click"', 'set #1 begin "1s"',
                                                                     'insert #3 2 img begin="a.end"', 'insert #3 1 img', 'remove #1']),
            (['par restartDefault="never" fillDefault="hold"', '  seq fillDefault="inherit"', '    img fill="freeze"', '    img restart="default"'],
             ['unset #1 restartDefault', 'set #2 restartDefault "whenNotActive"', 'set #3 fill "default"', 'insert #2 1 par']),
            (['par', '  seq', '    img', '    img', '  excl', '    img', '    par', '      img'],
             ['remove #2', 'insert #5 2 img', 'remove #7', 'insert #1 1 img', 'insert #1 3 set to="x"', 'remove #5'])]:
        yield tree_case(lines, ['d ' + order for order in orders])
    for lines, orders in [(['img'], []), (par, ['d show']), (par, ['load d']), (par, ['d remove']), (par, ['', '# note', 'd remove b'])]:
        yield tree_case(lines, orders)
    yield 'tree par', 'refused'
    yield 'tree par|%%', 'refused'


def fixed_plays():
    """Presentations by hand: pauses, repeats, events, keys and lengths, and orders that are refused."""
    pauses = ['par dur="indefinite"', '  excl id="x" dur="indefinite"', '    priorityClass peers="pause"',
              '      par id="a" begin="1s" dur="10s"', '        img id="c" begin="b.begin+2s" dur="3s" end="o.end;click"',
              '      img id="b" begin="3s;c.begin" dur="2s"', '  img id="o" begin="a.begin+4s;c.end" dur="2s" end="key.end;accesskey(y)"']
    repeats = ['seq id="s" repeatCount="2"', '  par id="p" dur="4s" repeatCount="2.5"', '    img id="i" begin="1s;p.repeat(1)" dur="1s"',
               '  audio id="m" begin="1s" end="accesskey(x);s.click+1s"']
    often = ['par', '  img id="a" dur="500ms" repeatCount="90"', '  img id="b" begin="a.repeat(3)" dur="1s" repeatCount="60" end="click"']
    for lines, orders in [
            (['par'], []), (pauses, []), (pauses, ['seek 1s']), (pauses, ['seek 3s']), (pauses, ['seek 4s']), (pauses, ['seek 5s', 'advance 1s']),
            (pauses, ['seek 7s', 'event c click', 'advance 500ms']), (pauses, ['seek 4s', 'event #4 click', 'key y', 'seek 30s']),
            (pauses, ['seek 1000000000000ms']), (repeats, ['seek 5s']), (repeats, ['seek 11s', 'media m 7s', 'advance 3s']),
            (repeats, ['seek 11s', 'media #4 7s', 'key x', 'event s click', 'advance 1s', 'advance 999999987000ms']),
            (repeats, ['seek 5s', 'seek 4s']), (repeats, ['advance 1000000000000ms', 'advance 0', 'advance 1ms']),
            (repeats, ['event nobody click']), (repeats, ['event #999999999 click']), (repeats, ['event #0 click']),
            (repeats, ['event s beginEvent']), (repeats, ['show']), (['img'], []), (often, ['seek 50s', 'event b click', 'advance 1s'])]:
        yield play_case(lines, ['d ' + order for order in orders])
    yield 'play par|%%|load d', 'refused'


def full_case():
    """A diary at its limit: one more entry is refused, and after one is taken back there is room for one."""
    entries = LIMITS.diary
    last = entries // 1000 * 1000 - 1000 + 7
    return ('book *%d c7 ?7,- <%d c7 c8 ?7,-' % (entries, entries - 1),
            'full 0 1 0 0 0 0 %d - - - - - - - full 0 0 0 0 0 1 %d - - %d - - - - %d' % (last, last, entries - 1, entries))


# ----------------------------------------------------------------------- files

def made(kind, r):
    return (LONG.get(kind) or KINDS[kind])(r)


def write_pairs(folder, given_name, wanted_name, cases):
    write(folder, given_name, wanted_name, [given for given, _ in cases], [wanted for _, wanted in cases])


# the headings of stored cases, each with the words of the cases behind it
HEADINGS = [
    ('Times: the later of a time and a number', 'later'), ('Times: which of two comes first', 'order'),
    ('Clock values, read and written', 'clock'), ('Lists of times, read and written', 'list'),
    ('Node lines, read and written', 'node'), ('Outlines, read and written', 'outline'), ('Script lines, read', 'script'),
    ('Instants of the wall clock, read', 'instant'), ('Lines with wall clock items, rewritten', 'anchor rewrite'),
    ('Lines, chosen by what is preferred', 'prefer choose'), ('Lines of a diary, read', 'entry'),
    ('Durations', 'simple intermediate active-end'), ('Intervals, searched', 'interval'), ('Ends of containers', 'endsync'),
    ('Decisions on a begin in an excl', 'decide'), ('The queue of an excl', 'queue'), ('What is due, and in which order', 'before least-key due'),
    ('Diaries, and what they tell', 'book'), ('Views of elements', 'view'), ('Lines of transcripts, written', 'change gone history ok closed refusal'),
    ('Documents, edited as trees', 'tree'), ('Graphs of documents', 'graph'), ('Presentations, played', 'play')]


def with_headings(cases):
    """The cases in the order of HEADINGS, each group behind its heading, which answers itself; those that name no call come last."""
    words = {word for _, group in HEADINGS for word in group.split()}
    groups = HEADINGS + [('Cases that name no call', ' '.join({given.split(' ')[0] for given, _ in cases} - words) + ' ')]
    for heading, group in groups:
        mine = [case for case in cases if case[0].split(' ')[0] in group.split(' ')]
        if mine:
            yield '# ' + heading, '# ' + heading
            yield from mine


def write_stored(program, cases):
    """Writes what a program for tests is run on and what it must print."""
    folder = os.path.join(os.path.dirname(os.path.abspath(__file__)), '..', 'crates', program)
    write_pairs(folder, 'stdin', 'stdout', list(with_headings(cases)))
    print('%s %d' % (program, len(cases)))


def main():
    r = random.Random(ARGS.seed)
    if ARGS.out is None:
        cases = list(fixed())
        for kind in KINDS:
            cases += [KINDS[kind](r) for _ in range(40)]
        write_stored('smil_test_texts', [case for case in cases if case[0].split(' ')[0] not in PLAYED])
        write_stored('smil_test_plays', [case for case in cases if case[0].split(' ')[0] in PLAYED])
        return
    os.makedirs(ARGS.out, exist_ok=True)
    for kind in ARGS.kind or KINDS:
        for k in range(ARGS.files):
            cases = [made(kind, r) for _ in range(ARGS.cases // ARGS.files)]
            name = '%s%03d' % (kind, k)
            write_pairs(ARGS.out, name, name + '.stdout', cases)
        print('%s %d' % (kind, ARGS.cases))


if __name__ == '__main__':
    main()
