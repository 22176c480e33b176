#!/usr/bin/env python3
"""instances_cases.py --oracle DIR --out FOLDER [--seed S] [--cases N] [--files N]

Makes cases for kept instance times: random documents with logs and diaries, and
what the reference model in DIR says of each element's settled begins and ends
after each entry, without repetitions. A diary is that of the resolution, or one
of arbitrary lawful entries among those of the resolution. Access keys stand among
the items of most documents, and presses of them in the logs. FOLDER gets for each
file of cases NAME, the input, and NAME.stdout, the text that is wanted."""
import os
import random

import reference

PARSER = reference.parser(cases=100)
PARSER.add_argument('--out', required=True)
PARSER.add_argument('--files', type=int, default=10)
ARGS = reference.arguments(PARSER)
import grammar  # noqa: E402
import laws  # noqa: E402
from model import Scene, World, is_number  # noqa: E402
from cases import (  # noqa: E402
    KEYS, Settled, arbitrary, entry_text, log_text, resolved, settled_times, with_keys, write_numbered)


def key_item(r):
    tail = r.choice(['', '', '+%s' % laws.clock(r), '-%s' % laws.clock(r)])
    return 'accesskey(%s)%s' % (r.choice(KEYS), tail)


def told(scene):
    """The lines of the elements after the entries so far."""
    for e in scene.world.elements:
        begins, ends = settled_times(scene, e)
        numbers = ''.join(' %d' % t for t in ends if is_number(t))
        unbounded = ' indefinite' if any(not is_number(t) for t in ends) else ''
        yield '%d:%s /%s%s' % (e, ''.join(' %d' % t for t in begins), numbers, unbounded)


def case_text(case, doc, log, entries):
    """The input of a case, and what is wanted."""
    given_lines, wanted = ['doc'] + case.lines() + ['%%'] + [log_text(what) for what in log], []
    scene = Settled(World(doc), log)
    for entry in entries:
        given_lines.append('d ' + entry_text(entry))
        scene.go(entry[0])
        scene.append(entry)
        wanted.extend(told(scene))
    given_lines.append('end')
    wanted.append('rebuilt %d' % len(entries))
    return given_lines, wanted


def main():
    r = random.Random(ARGS.seed)
    os.makedirs(ARGS.out, exist_ok=True)
    texts = [([], []) for _ in range(ARGS.files)]
    made = entries_made = presses = 0
    while made < ARGS.cases:
        laws.CHOSEN[0] = r.choice(sorted(laws.PROFILE))
        case = laws.random_case(r, r.choice([4, 8, 12]))
        if made % 4 < 3:
            with_keys(case, r, 0.3, key_item, [1, 2, 4, 8])
        try:
            doc = case.doc()
        except grammar.Refusal:
            continue
        world = World(doc)
        if made % 2:
            log, entries = resolved(case, world)
        else:
            log, entries = arbitrary(Scene(world, []), case.script, r)
        given_lines, wanted = case_text(case, doc, list(log), list(entries))
        texts[made % ARGS.files][0].extend(given_lines)
        texts[made % ARGS.files][1].extend(wanted)
        made += 1
        entries_made += len(entries)
        presses += sum(step == 'Logged' and log[place][1] == 'key' for _, step, _, place in entries)
    for k, (given_lines, wanted) in enumerate(texts):
        write_numbered(ARGS.out, k, given_lines, wanted)
    print('%d cases, %d entries, %d presses of keys' % (made, entries_made, presses))


if __name__ == '__main__':
    main()
