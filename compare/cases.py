"""What engine_cases.py, instances_cases.py and probe_cases.py share, over the reference model (reference.py)."""
import os

import grammar
import laws
from model import INDEFINITE, UNRESOLVED, Play, Scene, TooFull, is_number

LIMITS = laws.LIMITS = grammar.Limits(20)
LETTER = {'Began': 'b', 'Repeated': 'r', 'Ended': 'e', 'Cut': 'c', 'Paused': 'p',
          'Resumed': 'u', 'Deferred': 'f', 'Passed': 's', 'Logged': 'l'}
KEYS = 'xyz'
BOUND = 120


# ------------------------------------------------------------------ documents

def doc_of(lines):
    """The document of an outline."""
    builder = grammar.Builder(LIMITS)
    for line in lines:
        builder.push(line.encode())
    return builder.finish()


def with_keys(case, r, chance, item, presses):
    """Puts an item into lists of some elements, each by this chance, and one of these numbers
    of key presses into the log."""
    for _, parent in case.root.walk():
        for line in parent.kids:
            for side in ('begin', 'end'):
                may_hear = line.kind != 'priorityClass' and (side == 'end' or parent.kind != 'seq')
                if may_hear and r.random() < chance:
                    line.attrs[side] = ';'.join(filter(None, [line.attrs.get(side), item(r)]))
    for _ in range(r.choice(presses)):
        case.log.append((r.randint(0, case.now), 'key', None, ord(r.choice(KEYS))))
    case.log.sort(key=lambda entry: entry[0])


# -------------------------------------------------------------------- diaries

class Settled(Scene):
    """A scene that tells a start for children of an element that never began: 0."""

    def children_start(self, p):
        if p is not None and self.last(p, 'Began') < 0:
            return 0
        return super().children_start(p)


def resolved(case, world, bound=BOUND):
    """The log and the entries of the resolution."""
    play = Play(world, bound)
    try:
        play.to(case.real_log(), case.now)
    except TooFull:
        pass
    return play.log, play.scene.diary.entries


def arbitrary(scene, script, r, has_keys=True):
    """The log and the entries that a script gives a scene: groups of the resolution, and lawful
    entries between them."""
    moment = 0
    for step_moment, step, line, v in script:
        moment += step_moment
        scene.go(moment)
        if r.random() < 0.6:
            due = [k for k in scene.keys() if k[0] <= moment]
            entries = scene.group(min(due)) if due else []
        else:
            entries = [given(scene, step, line, v, r, has_keys)]
        for entry in entries:
            if entry is None or not laws.lawful(scene, entry):
                break
            scene.append(entry)
    return scene.diary.log, scene.diary.entries


def given(scene, step, line, v, r, has_keys):
    """An arbitrary entry on the element of a line, or a press of a key."""
    moment, log = scene.moment, scene.diary.log
    if has_keys and step == 'Logged' and r.random() < 0.6:
        log.append((moment, 'key', None, ord(r.choice(KEYS))))
        return (moment, 'Logged', None, len(log) - 1)
    e = getattr(line, 'serial', None)
    if e not in scene.world.is_element:
        return None
    if step == 'Logged':
        log.append((moment, 'event', e, b'click'))
        return (moment, 'Logged', None, len(log) - 1)
    if step in ('Began', 'Deferred', 'Passed', 'Ended'):
        return (moment, step, e, scene.outer(e, moment) + v)
    if step == 'Repeated':
        return (moment, step, e, scene.run(e, moment) + v)
    return (moment, step, e, None)


def settled_times(scene, e):
    """The settled begins and ends of an element, in order."""
    begins = sorted(t for t in scene.settled_instances(e, 'begin') if is_number(t))
    return begins, sorted(scene.settled_instances(e, 'end'))


# ---------------------------------------------------------------------- texts

def time_text(t):
    return 'indefinite' if t == INDEFINITE else 'unresolved' if t == UNRESOLVED else '%d' % t


def maybe(t, text=str):
    return '-' if t is None else text(t)


def interval_text(iv):
    return '-' if iv is None else '%d %s' % (iv[0], time_text(iv[1]))


def entry_text(entry):
    moment, step, who, value = entry
    return '%s %d %d %d' % (LETTER[step], moment, who or 0, value or 0)


def log_text(what):
    moment, kind, who, value = what
    if kind == 'event':
        return 'v %d %d %s' % (moment, who, value.decode())
    return 'k %d %d' % (moment, value) if kind == 'key' else 'm %d %d %d' % (moment, who, value)


def write(folder, given_name, wanted_name, given_lines, wanted):
    """Writes the lines that are given, and those that are wanted."""
    for name, lines in ((given_name, given_lines), (wanted_name, wanted)):
        with open(os.path.join(folder, name), 'w') as file:
            file.write(''.join(line + '\n' for line in lines))


def write_numbered(folder, number, given_lines, wanted):
    """Writes a file of cases, with what is wanted beside it."""
    write(folder, 'case%03d' % number, 'case%03d.stdout' % number, given_lines, wanted)
