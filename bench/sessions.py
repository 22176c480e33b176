#!/usr/bin/env python3
"""sessions.py PROGRAM [--scale K] [--elements K] [--seconds S] [--only NAME].. [--list]

Makes the sessions that sessions.sh times, runs PROGRAM over each, and tells the
wall time and the peak of memory of the run, and how its orders were answered."""
import argparse
import os
import select
import subprocess
import sys
import tempfile
import time

TRANSCRIPT_END = 4096
WORKLOADS = {}


def arguments():
    parser = argparse.ArgumentParser()
    parser.add_argument('program')
    parser.add_argument('--scale', type=int, default=1)
    parser.add_argument('--elements', type=int, default=1)
    parser.add_argument('--seconds', type=int, default=3600)
    parser.add_argument('--only', action='append', default=[])
    parser.add_argument('--list', action='store_true')
    args = parser.parse_args()
    args.program = os.path.abspath(args.program)
    return args


# ---- what is made


def image(k):
    """An image that a click on itself begins anew: what it does concerns itself alone."""
    return '  img id="s%d" begin="s%d.click" dur="5s"' % (k, k)


def load(elements, line=image, name='d', root='par id="r" dur="indefinite"'):
    """A load of so many elements: the root, and a line for each of the others."""
    return ['load ' + name, root] + [line(k) for k in range(1, elements)] + ['%%']


def clicks(elements, count, name='d'):
    """Clicks on one image after another."""
    return ['%s event s%d click' % (name, 1 + k % (elements - 1)) for k in range(count)]


def played(elements, entries, name='d'):
    """Clicks and advances that give so many entries of a diary: a click, a begin, and an end five seconds later."""
    lines = []
    for k in range(entries // 3):
        lines += ['%s event s%d click' % (name, 1 + k % (elements - 1)), '%s advance 6s' % name]
    return lines


def hour(k):
    """A minute of an hour's loop."""
    return '    img id="s%d" dur="60s"' % k


def loop():
    """A seq of sixty minutes that repeats for ever."""
    return ['load d', 'par id="r"', '  seq id="q" repeatCount="indefinite"'] + [hour(k) for k in range(1, 61)] + ['%%']


# ---- what is run


class Run:
    """How a run ended."""

    def __init__(self, seconds, used, peak, status, tail):
        self.seconds, self.peak, self.status, self.tail = seconds, peak, status, tail
        self.busy = used.ru_utime + used.ru_stime

    def __str__(self):
        ended = {None: ', stopped', 0: '', 1: ', with refusals'}.get(self.status, ', status %s' % self.status)
        return '%.2f s (processor %.2f), %.1f MiB%s' % (self.seconds, self.busy, self.peak, ended)


def run(args, words, lines):
    """Runs the program with these words over a session."""
    with tempfile.TemporaryFile() as given, tempfile.TemporaryFile() as taken:
        for line in lines:
            given.write(line.encode() + b'\n')
        given.flush()
        given.seek(0)
        start = time.monotonic()
        child = subprocess.Popen([args.program] + words, stdin=given, stdout=taken)
        status, used, peak = ended(child, start + args.seconds)
        seconds = time.monotonic() - start
        size = taken.seek(0, 2)
        taken.seek(max(0, size - TRANSCRIPT_END))
        return Run(seconds, used, peak, status, taken.read().decode('ascii', 'replace').splitlines())


def peak_of(pid):
    """The peak of memory of a process so far, in MiB. What wait4 tells counts this process too, of which the child is a copy
    until it runs the program."""
    try:
        with open('/proc/%d/status' % pid) as status:
            for line in status:
                if line.startswith('VmHWM:'):
                    return int(line.split()[1]) / 1024
    except OSError:
        pass
    return 0


def ended(child, limit):
    """The status of a child, None where it was stopped at the limit, what it used, and its peak of memory."""
    stopped, peak = False, 0
    while True:
        peak = max(peak, peak_of(child.pid))
        pid, status, used = os.wait4(child.pid, os.WNOHANG)
        if pid:
            child.returncode = os.waitstatus_to_exitcode(status)
            return (None if stopped else child.returncode), used, peak
        if not stopped and time.monotonic() > limit:
            child.kill()
            stopped = True
        time.sleep(0.002)


def per_order(args, what, before, orders):
    """What orders cost behind a session, each."""
    without = run(args, ['run'], before)
    whole = run(args, ['run'], before + orders)
    each, busy = [part / len(orders) * 1000 for part in (whole.seconds - without.seconds, whole.busy - without.busy)]
    print('%s: %s; without them %s; each %.3f ms (processor %.3f)' % (what, whole, without, each, busy), flush=True)


def whole(args, what, words, lines):
    """What a session costs."""
    took = run(args, words, lines)
    print('%s: %s' % (what, took), flush=True)
    return took


# ---- what is timed


def workload(make):
    WORKLOADS[make.__name__] = make
    return make


def few(args, count):
    return max(1, count // args.scale)


def size(args, elements):
    return max(4, elements // args.elements)


@workload
def event_30(args):
    """an event of reach 1 in a document of 30 elements"""
    event_among(args, size(args, 30), few(args, 10000))


@workload
def event_1800(args):
    """an event of reach 1 in a document of 1,800 elements"""
    event_among(args, size(args, 1800), few(args, 10000))


def event_among(args, elements, count):
    per_order(args, '%d events of reach 1, %d elements' % (count, elements), load(elements), clicks(elements, count))


@workload
def quiet_year(args):
    """an advance over a year in which nothing happens, 30 elements"""
    years = min(30, few(args, 30))
    elements = size(args, 30)
    per_order(args, '%d quiet years, %d elements' % (years, elements), load(elements), ['d advance 8760h'] * years)


@workload
def set_dur(args):
    """`set` of one `dur` in 500 elements after 10,000 entries"""
    elements, entries = size(args, 500), few(args, 10000)
    orders = ['d set s7 dur "%ds"' % (3 + k % 2) for k in range(10)]
    per_order(args, '%d edits of one dur, %d elements, %d entries' % (len(orders), elements, entries),
              load(elements) + played(elements, entries), orders)


@workload
def seek_back(args):
    """a backward seek in 500 elements after 10,000 entries"""
    elements, entries = size(args, 500), few(args, 10000)
    end = entries // 3 * 6
    orders = ['d seek %ds' % (end - 1 - k) for k in range(min(10, end))]
    per_order(args, '%d backward seeks, %d elements, %d entries' % (len(orders), elements, entries),
              load(elements) + played(elements, entries), orders)


@workload
def show_2000(args):
    """`show` of 2,000 elements"""
    elements, count = size(args, 2000), few(args, 100)
    per_order(args, '%d times show, %d elements' % (count, elements), load(elements), ['d show'] * count)


@workload
def gen_900(args):
    """`gen 900`"""
    generated(args, few(args, 900))


@workload
def gen_300(args):
    """`gen 300`"""
    generated(args, few(args, 300))


def generated(args, number):
    took = whole(args, 'gen %d' % number, ['gen', str(number)], [])
    print('  ' + ', '.join(took.tail), flush=True)


@workload
def names_64(args):
    """64 presentations of 30 elements with 40,000 orders in all"""
    elements, count = size(args, 30), few(args, 40000)
    lines = []
    for k in range(64):
        lines += load(elements, name='p%d' % k)
    orders = []
    for k in range(count):
        name = 'p%d' % (k % 64)
        turn = k // 64
        orders.append('%s advance 1s' % name if turn % 2 else clicks(elements, turn + 1, name)[-1])
    per_order(args, '%d orders to 64 presentations, %d elements each' % (count, elements), lines, orders)


@workload
def wide_1990(args):
    """1,990 elements and 10,000 orders"""
    elements, count = size(args, 1990), few(args, 10000)
    orders = [both for k in range(count // 2 + 1)
              for both in ('d event s%d click' % (1 + k % (elements - 1)), 'd advance 1s')][:count]
    per_order(args, '%d orders, %d elements' % (count, elements), load(elements), orders)


@workload
def edits_50000(args):
    """50,000 edits of a document of 500 elements"""
    elements, count = size(args, 500), few(args, 50000)
    orders = ['d set s%d dur "%ds"' % (1 + k % (elements - 1), 3 + k % 7) for k in range(count)]
    per_order(args, '%d edits, %d elements' % (count, elements), load(elements), orders)


@workload
def seeks_5000(args):
    """5,000 backward seeks in a document of 500 elements"""
    elements, count = size(args, 500), few(args, 5000)
    before = load(elements) + clicks(elements, 20) + ['d advance 10s']
    orders = [order for _ in range(count) for order in ('d seek 2s', 'd seek 9s')]
    per_order(args, '%d backward seeks, each with one forward, %d elements' % (count, elements), before, orders)


@workload
def check_60(args):
    """`check` of 60 MiB of loads of 500 nodes"""
    wanted = few(args, 60 << 20)
    lines, size_of = [], 0
    while size_of < wanted:
        lines += load(500)
        size_of += sum(len(line) + 1 for line in lines[-502:])
    took = whole(args, 'check of %.1f MiB' % (size_of / (1 << 20)), ['check'], lines)
    print('  %.2f MiB a second' % (size_of / (1 << 20) / took.seconds), flush=True)


@workload
def week(args):
    """a week of play of an hour's loop, and a day: the peak of memory beside the diary"""
    day, seven = [few(args, hours) for hours in (24, 168)]
    one = whole(args, '%d hours of an hour\'s loop' % day, ['run'], loop() + ['d advance 1h'] * day)
    other = whole(args, '%d hours' % seven, ['run'], loop() + ['d advance 1h'] * seven)
    if seven > day:
        entries = 122 * (seven - day)
        print('  %.0f bytes more, for about %d more entries of the diary: %.0f bytes each' % (
            (other.peak - one.peak) * (1 << 20), entries, (other.peak - one.peak) * (1 << 20) / entries), flush=True)


@workload
def held(args):
    """each answer before the next line is sent, the program held by pipes"""
    elements, count = size(args, 30), few(args, 5000)
    child = subprocess.Popen([args.program, 'run'], stdin=subprocess.PIPE, stdout=subprocess.PIPE, bufsize=0)
    limit = time.monotonic() + args.seconds
    pipe = Pipe(child, limit)
    for line in load(elements):
        pipe.send(line)
    pipe.answer()
    waits = []
    for order in played(elements, 3 * (count // 2 + 1))[:count]:
        start = time.monotonic()
        pipe.send(order)
        if not pipe.answer():
            break
        waits.append(time.monotonic() - start)
    child.stdin.close()
    _, _, peak = ended(child, limit)
    child.stdout.close()
    waits.sort()
    if len(waits) < count:
        print('held by pipes: no answer to order %d of %d before the next line' % (len(waits) + 1, count), flush=True)
        return
    print('held by pipes, %d elements: %d orders, each answered before the next was sent; %.3f ms at the middle, '
          '%.3f ms at most, %.1f MiB' % (elements, count, waits[len(waits) // 2] * 1000, waits[-1] * 1000, peak),
          flush=True)


class Pipe:
    """A program whose lines are sent one by one."""

    def __init__(self, child, limit):
        self.child, self.limit, self.rest = child, limit, b''

    def send(self, line):
        self.child.stdin.write(line.encode() + b'\n')

    def answer(self):
        """Reads up to the last line of an answer: true where it comes in time, with nothing behind it."""
        while True:
            lines = self.rest.split(b'\n')
            for k, line in enumerate(lines[:-1]):
                if line.startswith((b'ok ', b'! ')):
                    self.rest = b'\n'.join(lines[k + 1:])
                    return not self.rest
            wait = self.limit - time.monotonic()
            if wait <= 0 or not select.select([self.child.stdout], [], [], wait)[0]:
                return False
            piece = os.read(self.child.stdout.fileno(), 65536)
            if not piece:
                return False
            self.rest += piece


def main():
    if '--list' in sys.argv:
        for name, make in WORKLOADS.items():
            print('%-12s %s' % (name, make.__doc__))
        return
    args = arguments()
    for name in args.only or WORKLOADS:
        if name not in WORKLOADS:
            sys.exit('no workload %s: see --list' % name)
        print('== %s: %s' % (name, WORKLOADS[name].__doc__), flush=True)
        WORKLOADS[name](args)


if __name__ == '__main__':
    main()
