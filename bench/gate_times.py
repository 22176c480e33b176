#!/usr/bin/env python3
"""gate_times.py PID CRATES: watches the processes below PID until it ends, and prints a table of the processor time that
the prover took for each crate's proof, its tests, the check that its edits begin with, and its edits, with how many these
were and the longest; the longest edits by name; and the longest chain of the crates in the file CRATES.

Where a kit has no check of its own before a crate's edits, the first edit's check is counted as it, and the last one, of the
crate without an edit, among the edits. A process is looked at once a second, so what ran shorter is counted in part.
Linux alone: it reads /proc."""
import os
import sys
import time

TICK = os.sysconf('SC_CLK_TCK')
PARTS = ('proof', 'tests', 'first check', 'edits')


def stat(pid):
    """(parent, processor seconds, start) of a process, or None where it is gone."""
    try:
        with open('/proc/%s/stat' % pid) as file:
            fields = file.read().rsplit(')', 1)[1].split()
        return int(fields[1]), (int(fields[11]) + int(fields[12])) / TICK, fields[19]
    except (OSError, IndexError, ValueError):
        return None


def part_of(pid):
    """(crate, part, what it is) of a prover's process, or None."""
    try:
        with open('/proc/%s/cmdline' % pid) as file:
            words = file.read().split('\0')
        folder = os.readlink('/proc/%s/cwd' % pid)
    except OSError:
        return None
    if '--crate-name' not in words:
        return None
    crate = words[words.index('--crate-name') + 1]
    if 'rt-edit-' in folder:
        over = words[words.index('--incremental') + 1] if '--incremental' in words else ''
        return crate, 'first check' if over.endswith('/seed') else 'edits', edit_in(folder, crate)
    return crate, 'tests' if '--test' in words else 'proof', ''


def read(path):
    """The text of a file, empty where there is none."""
    try:
        with open(path, encoding='utf-8') as file:
            return file.read()
    except OSError:
        return ''


def edited(crate, edit):
    """The texts of the files that an edit of a crate changes."""
    texts, path, old = {}, '', ''
    for line in read(os.path.join('crates', crate, 'must-fail', edit)).split('\n'):
        if line.startswith('file: '):
            path = line[6:].strip()
            texts.setdefault(path, read(os.path.join('crates', crate, path)))
        elif line.startswith('old: '):
            old = line[5:]
        elif line.startswith('new:'):
            texts[path] = texts[path].replace(old, line[4:].removeprefix(' '))
    return texts


def edit_in(folder, crate):
    """The name of the edit that a copy of a crate has; empty where it has none."""
    edits = os.path.join('crates', crate, 'must-fail')
    for edit in sorted(os.listdir(edits)) if os.path.isdir(edits) else []:
        texts = edited(crate, edit)
        if texts and all(read(os.path.join(folder, path)) == text for path, text in texts.items()):
            return edit.removesuffix('.edit')
    return ''


def below(root, parents):
    """The processes below one."""
    inside, found = {root}, True
    while found:
        found = {pid for pid, parent in parents.items() if parent in inside} - inside
        inside |= found
    return inside


def watch(root):
    """Processor seconds of each process of each (crate, part), each with the edit that it tried; and how long there were
    any of that part by the clock."""
    spent, seen, tried = {}, {}, set()
    while stat(root):
        stats = {int(p): stat(p) for p in os.listdir('/proc') if p.isdigit()}
        parents = {p: s[0] for p, s in stats.items() if s}
        for pid in below(root, parents):
            if not stats.get(pid):
                continue
            key = pid, stats[pid][2]
            part = spent[key][0] if key in spent else part_of(pid)
            if not part:
                continue
            if key not in spent and part[1] != 'proof' and part[1] != 'tests':
                is_first = part[0] not in tried
                tried.add(part[0])
                part = (part[0], 'first check', part[2]) if is_first else part
            spent[key] = part, stats[pid][1]
            seen.setdefault(part[:2], [time.time(), 0])[1] = time.time()
        if is_over(root):
            break
        time.sleep(1)
    each = {}
    for part, seconds in spent.values():
        each.setdefault(part[:2], []).append((seconds, part[2]))
    return each, {part: last - first for part, (first, last) in seen.items()}


def is_over(pid):
    """Whether a process has ended and waits to be collected."""
    try:
        with open('/proc/%s/stat' % pid) as file:
            return file.read().rsplit(')', 1)[1].split()[0] == 'Z'
    except OSError:
        return True


def longest(crates, clock):
    """The chain of crates whose proofs take longest by the clock one after another."""
    best = {}

    def chain(name):
        if name not in best:
            low = max((chain(dep) for dep in crates[name] if dep in crates), key=lambda c: c[0], default=(0, []))
            best[name] = low[0] + clock.get((name, 'proof'), 0), low[1] + [name]
        return best[name]

    return max((chain(name) for name in crates), key=lambda c: c[0])


def all_of(each, part):
    """Processor seconds of a part of all crates."""
    return sum(seconds for (_, its_part), runs in each.items() if its_part == part for seconds, _ in runs)


def main():
    root, path = int(sys.argv[1]), sys.argv[2]
    start = time.time()
    each, clock = watch(root)
    crates = {}
    for line in open(path):
        line = line.split('#')[0]
        if ':' in line:
            name, deps = line.split(':', 1)
            crates[name.split()[0]] = deps.split()
    print('| Crate | Proof | Tests | First check | Edits | Tried | Longest |\n|---|---|---|---|---|---|---|')
    for name in crates:
        edits = [seconds for seconds, _ in each.get((name, 'edits'), [])]
        sums = ['%.0f' % sum(seconds for seconds, _ in each.get((name, part), [])) for part in PARTS]
        print('| %s | %s | %d | %.0f |' % (name, ' | '.join(sums), len(edits), max(edits, default=0)))
    print('| all | %s | | |' % ' | '.join('%.0f' % all_of(each, part) for part in PARTS))
    runs = [(seconds, name, edit) for (name, part), runs in each.items() if part == 'edits' for seconds, edit in runs]
    print('\nlongest edits: ' + ', '.join('%s/%s %.0f' % (name, edit or 'none', seconds)
                                         for seconds, name, edit in sorted(runs, reverse=True)[:20]))
    seconds, chain = longest(crates, clock)
    print('\nprocessor seconds; %.0f minutes by the clock; longest chain %.0f s by the clock: %s'
          % ((time.time() - start) / 60, seconds, ', '.join(chain)))


if __name__ == '__main__':
    main()
