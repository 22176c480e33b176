#!/usr/bin/env python3
"""differential.py --oracle DIR [--seed S] [--cases N] [--one] [--seconds T] [--keep DIR] [--folder DIR] -- PROGRAM

Random scripts, answered by PROGRAM (with the word `run`) and by the reference
model in DIR; text and status are compared. A difference is printed and, with
--keep, written to a folder. Half of the scripts are sessions that are played, as
the model's own generator makes them: documents with all that is played, and
orders of all kinds to them. The others read: loads of a par with one image in
many spellings, lines with small faults, loads with a value near the grammar,
outlines with serials, script lines of each order near the grammar, and loads
that are near a limit. With --one each script plays one presentation. Many scripts
go at a time, separated by lines that end a load and close what is held; with
--seconds those over which the model takes longer are left out, and told.

With --folder nothing is run: each input is written there with the model's text
beside it, as NAME and NAME.stdout, for `rt try --cases` (readers_compare.sh)."""
import os
import random
import signal
import subprocess
import sys

import reference


def arguments():
    parser = reference.parser(cases=1000)
    parser.add_argument('--one', action='store_true')
    parser.add_argument('--seconds', type=int, default=0)
    parser.add_argument('--keep')
    parser.add_argument('--folder')
    parser.add_argument('program', nargs='*')
    return reference.arguments(parser)


ARGS = arguments()
import diff  # noqa: E402
import grammar  # noqa: E402
import laws_session  # noqa: E402
import session  # noqa: E402
from reference import REQUEST  # noqa: E402

BELOW = 10 ** 9
TOGETHER = 50
APART = b'\n%%\n' + b'\n'.join(b'close ' + name for name in (b'a', b'b', b'c', b'd', b'show-1', b'D_9')) + b'\n'


def clock(r, low, high):
    """A clock value in some spelling."""
    ms = r.choice([low, high, r.randint(low, high), r.randint(low, min(high, 20000))])
    return r.choice([
        lambda: '%dms' % ms, lambda: '%d.%03ds' % divmod(ms, 1000), lambda: '%d.%03d' % divmod(ms, 1000),
        lambda: '%02d:%02d:%02d.%03d' % (ms // 3600000, ms // 60000 % 60, ms // 1000 % 60, ms % 1000),
        lambda: '%d.%03d7ms' % (ms, r.randint(0, 999)), lambda: '%ds' % (ms // 1000),
        lambda: '%dmin' % (ms // 60000), lambda: '%dh' % (ms // 3600000)])()


def odd(r, usual, others):
    """The usual text, and now and then another."""
    return usual if r.random() < 0.97 else r.choice(others)


def load(r, name):
    ident = odd(r, r.choice(['a', 'b', '_x', 'a.b', 'a-b', 'A' * 64, 'load']), ['A' * 65, '1a', ''])
    begin = odd(r, r.choice(['', '', '+', ' ', ' + ']) + clock(r, 0, r.choice([1000, BELOW - 1])),
                ['-1s', ';', '1s;2s', 'indefinite', 'b.end', 'x', '1000000000ms', '999999999ms', '1000000001s'])
    dur = odd(r, clock(r, 1, r.choice([10000, BELOW - 1])),
              ['0', '0.0009s', 'media', 'indefinite', '1000000000ms', '999999999ms', '2 s', '1000000001s'])
    attributes = ['id="%s"' % ident, 'begin="%s%s"' % (begin, r.choice(['', ' '])), 'dur="%s"' % dur]
    r.shuffle(attributes)
    if r.random() < 0.05:
        attributes.pop()
    if r.random() < 0.05:
        attributes.append(r.choice(['fill="freeze"', 'end="3s"', 'id="c"', 'speed="2"', 'x', 'alt="\t"']))
    lines = [odd(r, 'load', [' load', 'loaded', 'LOAD']) + ' ' + name + odd(r, '', [' ', ' x'])]
    lines.append(odd(r, 'par', ['par ', 'seq', 'par id="r"', ' par', '  par', 'excl', 'img', 'parx', '']))
    lines.append(odd(r, '  ', [' ', '', '    ', '\t']) + odd(r, 'img', ['text', 'switch', 'par'])
                 + r.choice([' '] * 5 + ['   ']) + ' '.join(attributes) + r.choice(['', '', '  ']))
    if r.random() < 0.1:
        lines.insert(r.randint(1, 3), r.choice(['', '# x', ' # x', '   ', '  img', '\t', 'x' * 16385, '#' * 16385]))
    if r.random() < 0.15:
        serials = odd(r, ' #1 #2 3', [' #2 #1 3', ' #1 #2 4', ' #1 #1 3', ' #1 #3 3', ' #0 #1 3']).split()
        lines[1:1] = ['outline 2 next ' + serials[2]]
        lines[2:4] = [line.replace(kind, '%s %s' % (kind, serial), 1)
                      for line, kind, serial in zip(lines[2:4], ('par', 'img'), serials)]
    if r.random() < 0.97:
        lines.append(r.choice(['%%'] * 9 + [' %%  ']))
    return lines


def order(r, name):
    usual = '%s%s advance %s%s' % (r.choice(['', '', ' ']), name, clock(r, 0, r.choice([5000, 5000, 10 ** 9])), r.choice(['', '', ' ']))
    if r.random() < 0.7:
        return usual if r.random() < 0.8 else '%s text' % name
    return r.choice(['other advance 1s', '%s advance', '%s advance 1x', '%s show', 'close %s', '%%%%', '# %s advance 1s', '',
                     '%s  advance   1s ', 'x' * 16385, '%s text x', '%s event a click', '%s seek 5s', '%s text', 'close 9',
                     '%s advance 1000000000s', '%s advance 999999999.999s', '%s advance 1000000000001ms', 'load %s x',
                     '%s set a dur "1s"', '%s history a', '\t', '%s\tadvance 1s', '%s insert #1 2 img', '%s advance 1s 2s',
                     '%s media a 1s', '%s unset a dur', '%s remove a']).replace('%s', name).replace('%%%%', '%%')


def built(r):
    name = odd(r, r.choice(['d', 'show-1', 'D_9', 'x' * 32]), ['x' * 33, '9', 'close', 'load', 'd.e'])
    lines = load(r, name)
    for _ in range(r.randint(0, 8)):
        lines.append(order(r, name))
        if r.random() < 0.03:
            lines += load(r, r.choice([name, 'other']))
    end = r.choice(['\n', '\n', '\n', '\r\n'])
    return (end.join(lines) + r.choice([end, end, end, '', '\r'])).encode()


def at_the_limits(r):
    """A load that is near a limit of outlines, or has an id twice."""
    kind = r.randrange(5)
    if kind == 0:
        lines = ['  ' * depth + 'seq' for depth in range(r.choice([31, 32, 33, 34]))]
    elif kind == 1:
        lines = ['par'] + ['  img'] * r.choice([7998, 7999, 8000])
    elif kind == 2:
        lists = ['  img begin="%s"' % ';'.join(['click'] * 32)] * 999 + ['  img begin="%s"' % ';'.join(['click'] * 31)]
        lines = ['par'] + lists + ['  img end="%s"' % ';'.join(['a.end', '1s', 'indefinite', 'repeat(2)'][:r.randint(1, 4)])]
    elif kind == 3:
        lines = ['excl'] + r.choices(['  priorityClass', '  img', '    img', '    priorityClass', '  par', '      text'], k=4)
    else:
        lines = ['par id="a"'] + ['  img id="%s"' % r.choice('abcdef') for _ in range(3)]
    return ('load d\n' + '\n'.join(lines) + '\n%%\nd advance 1s\n').encode()


ITEMS = ['0', '5s', '-1.5s', '+ 2min', '1h', '00:10', '02:30:03.25', '3ms', '0.0009999', '1000000000s', '1000000001s', 'a.begin',
         'a\\.b.end', 'a\\-1.end + 1s', '_x.begin-2ms', 'click', 'a.click', 'a.DOMActivate - 00:01', 'repeat(2)', 'a.repeat(12)+1s',
         'repeat(0)', 'indefinite', 'wallclock(2008)', 'accesskey(a)', 'accessKey(a)+1s', 'accesskey())', 'accesskey(;)',
         'accesskey(ab)', 'accessKey( )', 'accesskey(a) - 00:01', 'accesskey(~)', 'accesskey(\\)', 'id(a)', 'a.marker(m)', 'begin', 'a.begin.end', '']
NEAR = '0123456789.:+-;;\\()  \thminsabegindrpt_\x01\x7f\xe9'


def near(r, text):
    """The text with up to two bytes changed, put in or taken out."""
    for _ in range(r.choice([0, 0, 1, 1, 2])):
        place = r.randint(0, len(text))
        text = text[:place] + r.choice(['', r.choice(NEAR)]) + text[place + r.choice([0, 1]):]
    return text


def values(r):
    """Loads with one value near the grammar each."""
    lines = []
    for _ in range(10):
        name = r.choice(['begin', 'begin', 'end'] + list(grammar.ORDER))
        if name in ('begin', 'end'):
            value = r.choice([';', ' ; ', ';\t']).join(r.choice(ITEMS) for _ in range(r.choice([1, 1, 2, 3, 32, 33])))
        elif name in ('dur', 'min', 'max', 'repeatDur'):
            value = r.choice(ITEMS[:11] + ['media', 'indefinite', '0', '999999999999', '99999999999999999999999ms'])
        else:
            value = r.choice(['2.5', '0.001', '0.0009', '1234567890', 'indefinite', 'first', 'all', 'a-1', 'x' * 64, 'x' * 65, 'hold',
                              'default', 'inherit', 'never', 'whenNotActive', 'freeze', 'transition', 'x.y', '_z', '-z'])
        kind = r.choice(['img', 'par', 'excl', 'set', 'set', 'priorityClass', 'audio'])
        lines += ['load d', r.choice(['par', 'par', 'seq', 'excl']), '  %s %s="%s"' % (kind, name, near(r, value)), '%%']
    return '\n'.join(lines).encode('latin-1') + b'\n'


def changed(r, lines, times):
    for _ in range(r.choice(times)):
        place = r.randrange(len(lines))
        lines[place] = diff.change(r, lines[place])
    return lines


def saved(r):
    """Loads of outlines with serials, some of them faulty."""
    lines = []
    for _ in range(4):
        doc = diff.good_case(r, r.choice([2, 4, 9]), REQUEST).doc()
        serials = [n.serial for n in doc.nodes]
        fresh = r.sample(range(1, r.choice([len(serials) + 1, len(serials) + 3, 1000])), len(serials)) \
            if r.random() < 0.7 else list(serials)
        if r.random() < 0.2:
            fresh[r.randrange(len(fresh))] = r.choice([1, 2, 3, 999999999, 1000000000])
        new = dict(zip(serials, fresh))
        new[0] = 0
        nodes = [grammar.Node(new[n.serial], n.kind, n.parent, n.attrs) for n in doc.nodes]
        depth, outline = {0: -1}, []
        for n, old in zip(nodes, doc.nodes):
            depth[old.serial] = depth[old.parent] + 1
            outline.append(grammar.write_node(depth[old.serial], n.kind, n.attrs, n.serial))
        next_serial = max(fresh) + r.choice([0, 1, 1, 1, 1, 5])
        header = b'outline 2 next %d' % next_serial
        if r.random() < 0.1:
            header = r.choice([b' ' + header, header + b' ', b'outline', b'outline 1 next 9', b'outline 2 next 0', b'outlined',
                               b'outline 2 next 01', b'outline  2 next 9', header + b'\t', b'outline 2', b'OUTLINE 2 next 9'])
        lines += [b'load d'] + changed(r, [header] + outline, [0, 0, 1, 1, 2]) + [b'%%', b'd text', b'd advance 1s']
    return b'\n'.join(lines) + b'\n'


ORDERS = [b'd advance 1s', b'd seek 00:10', b'd event a click', b'd event #3 x_1', b'd media a 5ms', b'd set a dur "1s"', b'd unset a dur',
          b'd insert a 1 img id="x"', b'd remove #12', b'd show', b'd history a.b-1', b'd text', b'd key x', b'd key #', b'd key ;', b'd save',
          b'd values', b'd stack a region', b'd stack #9 x-1', b'd diary', b'close d', b'load d', b'load d at 2008-12-01T12:00:00Z',
          b'prefer captions on', b'show key ~']


def orders(r):
    """Script lines near the grammar."""
    return b'\n'.join(changed(r, [r.choice(ORDERS)], [0, 1, 1, 2])[0] for _ in range(10)) + b'\n'


def played_alone(r):
    """A script that plays one presentation, with edits and seeks."""
    case = diff.good_case(r, r.choice([4, 7, 10]), REQUEST)
    return '\n'.join(line for order in laws_session.random_orders(r, case, 'a') for line in order).encode()


def script(r, case):
    """One script: every other one is played."""
    if ARGS.one:
        return played_alone(r)
    if case % 2 == 0:
        return b'\n'.join(diff.KINDS['play'][0](r, REQUEST)[1])
    if case % 500 == 499:
        return at_the_limits(r)
    return r.choice([built, values, saved, orders, lambda r: b'\n'.join(diff.fuzz(r, REQUEST)[1])])(r)


def scripts():
    """The inputs in turn, each with the number of scripts in it."""
    for case in range(0, ARGS.cases, TOGETHER):
        count = min(TOGETHER, ARGS.cases - case)
        yield case, count, APART.join(
            script(random.Random('%d %d' % (ARGS.seed, case + k)), case + k) for k in range(count))


def answer_of_model(data, limits):
    lines = session.cut_lines(data)
    told = session.Session(limits)
    told.run(lines)
    return told.text(), 1 if told.refused else 0


def stop(number, frame):
    raise TimeoutError


def answer_in_time(data, limits):
    """The model's answer, or None where it takes longer than it may."""
    signal.signal(signal.SIGALRM, stop)
    signal.alarm(ARGS.seconds)
    try:
        return answer_of_model(data, limits)
    except TimeoutError:
        return None
    finally:
        signal.alarm(0)


def fewer(lines, differs):
    """The lines without those that the difference doesn't need."""
    size = len(lines) // 2
    while size:
        place = 0
        while place < len(lines):
            rest = lines[:place] + lines[place + size:]
            if rest and differs(rest):
                lines = rest
            else:
                place += size
        size //= 2
    return lines


def write(name, data):
    with open(name, 'wb') as out:
        out.write(data)


def main():
    limits = grammar.Limits(REQUEST)
    seen, answers, left_out = {}, 0, 0

    def told(data):
        run = subprocess.run(ARGS.program + ['run'], input=data, capture_output=True)
        return run.stdout, run.returncode

    def differs(lines):
        data = b'\n'.join(lines)
        return told(data) != answer_of_model(data, limits)
    for case, count, data in scripts():
        want = answer_in_time(data, limits)
        if want is None:
            left_out += count
            print('left out: seed %d case %d, %d scripts' % (ARGS.seed, case, count), flush=True)
            continue
        for line in want[0].split(b'\n'):
            word = line.split()[2].decode() if line.startswith(b'! ') else 'ok' if line.startswith(b'ok ') else None
            if word:
                seen[word] = seen.get(word, 0) + 1
                answers += 1
        if ARGS.folder:
            name = os.path.join(ARGS.folder, 'case%06d' % case)
            write(name, data)
            write(name + '.stdout', want[0])
        elif told(data) != want:
            data = b'\n'.join(fewer(data.split(b'\n'), differs))
            print('DIFFERENT: seed %d case %d, %d scripts\n%r\nmodel %r\nprogram %r' % (
                ARGS.seed, case, count, data, answer_of_model(data, limits), told(data)))
            if ARGS.keep:
                write(os.path.join(ARGS.keep, '%d-%d.in' % (ARGS.seed, case)), data)
            sys.exit(1)
    print('%d scripts, %d answers%s; %s' % (
        ARGS.cases - left_out, answers, '' if ARGS.folder else ', 0 differences', ', '.join('%s %d' % (word, seen[word]) for word in sorted(seen))))


main()
