#!/usr/bin/env python3
"""counts_compare.py --oracle DIR --make FOLDER [--seed S] [--cases N]
counts_compare.py --oracle DIR --compare FOLDER --told FILE

Makes random sessions that are played, each with the least number and the bound of evaluations of each accepted
order beside it (FOLDER/NAME, ../NAME.bounds), by the reference model in DIR; and compares what a program told of its
counts, in the output of `rt try --cases`, with them."""
import os
import random
import sys

import reference


def arguments():
    parser = reference.parser(cases=200)
    parser.add_argument('--make')
    parser.add_argument('--compare')
    parser.add_argument('--told')
    return reference.arguments(parser)


ARGS = arguments()
import bounds  # noqa: E402
import diff  # noqa: E402
import grammar  # noqa: E402
import session  # noqa: E402
from reference import REQUEST  # noqa: E402

TOGETHER = 20
APART = [b'%%'] + [b'close ' + name for name in (b'a', b'b', b'c')]


def beside(folder, name):
    return os.path.join(folder + '-bounds', name)


def make(folder):
    os.makedirs(folder + '-bounds', exist_ok=True)
    for first in range(0, ARGS.cases, TOGETHER):
        lines = []
        for case in range(first, min(first + TOGETHER, ARGS.cases)):
            r = random.Random('counts %d %d' % (ARGS.seed, case))
            lines += list(diff.KINDS['play'][0](r, REQUEST)[1]) + APART
        data = b'\n'.join(lines) + b'\n'
        name = 'case%06d' % first
        with open(os.path.join(folder, name), 'wb') as out:
            out.write(data)
        counted = bounds.Counted(grammar.Limits(REQUEST))
        counted.run(session.cut_lines(data))
        with open(beside(folder, name), 'w') as out:
            for row in counted.rows:
                number, _, least, bound = row.split(' ')
                out.write('%s %s %s\n' % (number, '0' if least == '-' else least, bound))


def told_by_name(path):
    told, name = {}, None
    with open(path, errors='replace') as lines:
        for line in lines:
            if line.startswith('== '):
                name = line.split()[1]
                told[name] = []
            elif name is not None:
                told[name].append(line.split())
    return told


def compare(folder, path):
    told, orders, out_of, sums = told_by_name(path), 0, 0, [0, 0, 0]
    for name in sorted(os.listdir(folder)):
        rows = [tuple(map(int, line.split())) for line in open(beside(folder, name))]
        counts = {}
        for row in told.get(name, []):
            if len(row) == 2 and row[0].isdigit():
                counts[int(row[0])] = int(row[1])
            elif len(row) > 2 and row[1] == 'refused':
                print('%s line %s: evaluated in a refused order' % (name, row[0]))
                out_of += 1
        for number, least, bound in rows:
            orders += 1
            rise = counts.pop(number, None)
            if rise is None or not least <= rise <= bound:
                print('%s line %d: least %d, counted %s, bound %d' % (name, number, least, rise, bound))
                out_of += 1
            else:
                sums = [sums[0] + least, sums[1] + rise, sums[2] + bound]
        for number in counts:
            print('%s line %d: accepted here, and not by the model' % (name, number))
            out_of += 1
    print('%d orders, %d out of their numbers; least %d, counted %d, bound %d' % ((orders, out_of) + tuple(sums)))
    return 1 if out_of else 0


if ARGS.make:
    make(ARGS.make)
else:
    sys.exit(compare(ARGS.compare, ARGS.told))
