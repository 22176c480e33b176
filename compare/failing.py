#!/usr/bin/env python3
"""failing.py --oracle DIR --program PROGRAM [--jobs N] [--every N] [--random SEED] SESSION..

Runs PROGRAM (with the word `run`) over the sessions, one behind another as one input, and with --random behind them over
200 lines and more of orders of all kinds to up to three presentations at a time. It is run once for each call that takes
memory, each read and each write, in which that call fails (failing.c, which cc compiles). Compared with the reference
model in DIR:

  memory  one order at most is answered `memory`, and all other answers are those of a session in which the lines of that
          order are comments; or nothing is read or written
  read    with reads of 16 bytes: the answers of the orders that are whole in the whole lines before
  write   a proper prefix of the text

and the exit number. --every N tries each Nth call that takes memory."""
import functools
import os
import random
import subprocess
import sys
import tempfile
from concurrent.futures import ThreadPoolExecutor

import reference

CLEAN, REFUSED, READ, WRITE, MEMORY = 0, 1, 3, 4, 5
PIECE = 16


def arguments():
    parser = reference.parser()
    parser.add_argument('--program', required=True)
    parser.add_argument('--jobs', type=int, default=2)
    parser.add_argument('--every', type=int, default=1)
    parser.add_argument('--random')
    parser.add_argument('sessions', nargs='*')
    return reference.arguments(parser)


ARGS = arguments()
import diff  # noqa: E402
import grammar  # noqa: E402
import session  # noqa: E402
from reference import REQUEST  # noqa: E402

LIMITS = grammar.Limits(REQUEST)


def random_session(seed):
    """Random orders, as the model's own generator makes them, with what was loaded closed behind each part."""
    r, lines = random.Random(seed), []
    while len(lines) < 200:
        lines += diff.play(r, REQUEST)[1] + [b'%%'] + [b'close ' + name for name in (b'a', b'b', b'c')]
    return b'\n'.join(lines) + b'\n'


@functools.lru_cache(maxsize=None)
def answers(data):
    """The text of the model, and whether an order is refused. Many calls fail in one order, so it is kept."""
    told = session.Session(LIMITS)
    told.run(session.cut_lines(data))
    return told.text(), told.refused


def order_lines(lines, number):
    """How many lines the order has that begins at this line."""
    if lines[number - 1].split(b' ')[0] != b'load':
        return 1
    count = 1
    while number - 1 + count < len(lines) and lines[number - 2 + count].strip() != b'%%':
        count += 1
    return count


class Machine:
    """The program, with the calls that fail."""

    def __init__(self, folder):
        self.shim = os.path.join(folder, 'failing.so')
        source = os.path.join(os.path.dirname(os.path.abspath(__file__)), 'failing.c')
        subprocess.run(['cc', '-O1', '-shared', '-fPIC', '-o', self.shim, source, '-ldl'], check=True)
        self.counts = os.path.join(folder, 'counts')

    def run(self, data, **failing):
        environment = {'LD_PRELOAD': self.shim}
        environment.update({name: str(value) for name, value in failing.items()})
        ran = subprocess.run([ARGS.program, 'run'], input=data, capture_output=True, env=environment)
        return ran.stdout, ran.returncode

    def count(self, data, **failing):
        told = self.run(data, COUNT_FILE=self.counts, **failing)
        with open(self.counts) as counts:
            return told, [int(word) for word in counts.read().split()]


def memory_fault(data, told):
    """What is wrong in a run in which memory ran out once, or nothing."""
    text, status = told
    if text == b'' and status == MEMORY:
        return None
    lines, at = text.splitlines(keepends=True), None
    for place, line in enumerate(lines):
        if line.startswith(b'! ') and line.endswith(b' memory\n'):
            if at is not None:
                return 'two answers `memory`'
            at = place
    if at is None:
        want, refused = answers(data)
        return None if (text, status) == (want, REFUSED if refused else CLEAN) else 'another text'
    number = int(lines[at].split()[1])
    source = data.split(b'\n')
    count = order_lines(source, number)
    shorter = source[:number - 1] + [b'#'] * count + source[number - 1 + count:]
    want, _ = answers(b'\n'.join(shorter))
    if b''.join(lines[:at] + lines[at + 1:]) != want:
        return 'other answers beside `memory`'
    return None if status == MEMORY else 'exit number %d' % status


def whole_orders(data):
    """The lines of data that are whole, up to the last one that ends an order."""
    lines = data.split(b'\n')[:-1]
    kept, at = 0, 0
    while at < len(lines):
        count = order_lines(lines, at + 1)
        if lines[at].split(b' ')[0] == b'load' and lines[at + count - 1].strip() != b'%%':
            break
        at += count
        kept = at
    return b''.join(line + b'\n' for line in lines[:kept])


def main():
    data = b''.join(open(name, 'rb').read() for name in ARGS.sessions)
    if ARGS.random:
        data += random_session(ARGS.random)
    faults = 0
    with tempfile.TemporaryDirectory() as folder, ThreadPoolExecutor(ARGS.jobs) as pool:
        machine = Machine(folder)
        whole, (allocs, _, writes) = machine.count(data)
        want, refused = answers(data)
        if whole != (want, REFUSED if refused else CLEAN):
            sys.exit('the program differs with no failing call')
        _, (_, reads, _) = machine.count(data, READ_SIZE=PIECE)
        numbers = range(1, allocs + 1, ARGS.every)
        memories = 0
        for number, told in zip(numbers, pool.map(lambda n: machine.run(data, FAIL_ALLOC=n), numbers)):
            fault = memory_fault(data, told)
            memories += b' memory\n' in told[0]
            if fault:
                faults += 1
                print('call %d that takes memory: %s' % (number, fault))
        for number in range(1, reads + 1):
            text, status = machine.run(data, READ_SIZE=PIECE, FAIL_READ=number)
            want_text, _ = answers(whole_orders(data[:PIECE * (number - 1)]))
            if (text, status) != (want_text, READ):
                faults += 1
                print('read %d: status %d' % (number, status))
        for number in range(1, writes + 1):
            text, status = machine.run(data, FAIL_WRITE=number)
            if status != WRITE or not want.startswith(text) or text == want:
                faults += 1
                print('write %d: status %d' % (number, status))
    print('%d calls that take memory (%d tried, %d answers `memory`), %d reads, %d writes: %d faults' % (
        allocs, len(numbers), memories, reads, writes, faults))
    sys.exit(1 if faults else 0)


main()
