#!/usr/bin/env python3
"""audit.py PROGRAM [--scale K] [--seconds S]

Has PROGRAM play documents and write their diaries, and times its audits of these, as
audit.sh says."""
import argparse
import os
import subprocess

from sessions import clicks, image, load, run


def turns(elements, entries):
    """A seq of images of a second each that repeats for ever, played for about so many entries."""
    images = ['    img id="s%d" dur="1s"' % k for k in range(1, elements - 1)]
    lines = ['load d', 'par id="r"', '  seq id="q" repeatCount="indefinite"'] + images + ['%%']
    return lines + ['d advance %ds' % (entries * len(images) // (2 * len(images) + 1) - 1)]


def clicked(elements, entries):
    """Images that clicks begin for five seconds, played for about so many entries: a click, a begin and an end in turn."""
    lines = load(elements, line=image)
    for click in clicks(elements, entries // 3 - 1):
        lines += [click, 'd advance 6s']
    return lines


def diary_of(program, session):
    """What an audit is given: what `save` writes, the entries and the last moment, at the end of a session."""
    text = '\n'.join(session + ['d diary']) + '\n'
    told = subprocess.run([program, 'run'], input=text, stdout=subprocess.PIPE, text=True, check=False).stdout.splitlines()
    first = max(k for k, line in enumerate(told) if line.startswith('outline '))
    last = max(k for k, line in enumerate(told) if line.startswith('now '))
    return told[first:last + 1]


# Which play, of so many elements, and about how many entries its diary has. A log has at most 50,000 clicks.
AUDITS = [
    (turns, 30, 100_000),
    (turns, 30, 1_000_000),
    (turns, 500, 10_000),
    (turns, 2_000, 2_000),
    (clicked, 30, 150_000),
    (clicked, 500, 10_000),
    (clicked, 2_000, 2_000),
]


def main():
    parser = argparse.ArgumentParser()
    parser.add_argument('program')
    parser.add_argument('--scale', type=int, default=1)
    parser.add_argument('--seconds', type=int, default=3600)
    args = parser.parse_args()
    args.program = os.path.abspath(args.program)
    for play, elements, entries in AUDITS:
        given = diary_of(args.program, play(elements, entries // args.scale))
        took = run(args, ['audit'], given)
        verdict = took.tail[-1] if took.tail else 'nothing'
        print('%d elements, %s: %s in %s' % (elements, play.__name__, verdict, took), flush=True)


if __name__ == '__main__':
    main()
