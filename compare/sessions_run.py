#!/usr/bin/env python3
"""sessions_run.py [--out DIR] FOLDER

Makes the stored run of smil_test_sessions: the files stdin and stdout in DIR, which is
crates/smil_test_sessions where it isn't told. FOLDER holds worked sessions: NAME.args
(the words), NAME.in, NAME.out and NAME.status, which are served in pieces, and
line by line, where each line waits for the answers before it; every fifth of them is
held by a host too, which asks for its moments at its end. NAME.reads.table
tells for reads of NAME.in, 16 bytes each, how many lines are answered where one of
them fails, and the last line. Any other NAME.table has clock values, each with `|`
and its number of milliseconds, Bad or TooLong. Sessions with faults of the outside,
and lists with faults, stand below. Left out is what takes long or is no more: `LEFT_OUT`.
No value comes from the program."""
import argparse
import re
from pathlib import Path

TOP = Path(__file__).resolve().parent.parent

# Diaries of hundreds of thousands of entries, which take long; and the usage line as it was before audits.
LEFT_OUT = ('"-499998ms"', '"-999998ms"', '"-1000000s"', 'gen N\n')

# What a worked session shows, by a part of its input or its words.
TITLES = [
    ('  img id="a" begin="1s" dur="2s"\n%%\nd advance', 'An image that begins a second after its par'),
    ('  par id="e"\n  img id="i"', 'Nothing has a length: all is over at once'),
    ('begin="0s;b.end"', 'Two sounds that take turns, each at the end of the other'),
    ('begin="b.begin+1s"', 'Two begins that wait for each other: neither comes'),
    ('begin="0s;a.end"', 'A begin at the end of a play without length'),
    ('begin="b.end-2s"', 'A click ends a clip, and what begins before that end has begun already'),
    ('l unset p dur', 'The length of a par is taken away while it plays'),
    ('begin="-25s"', 'A sound that began before the presentation, with two repeats behind it'),
    ('repeatCount="2.5"', 'Repeats by a count, a broken one too'),
    ('min="8s" max="5s"', 'A max below min: neither counts; and a min that outlives an end'),
    ('restart="whenNotActive"', 'The same click begins and ends: restart at any time, or only when not active'),
    ('begin="4s" dur="3s"', 'In an excl the second video pauses the first'),
    ('begin="n.end+1s"', 'A par is paused with all in it, and what waits for its end waits on'),
    ('peers="never"', 'Three classes in an excl: never, pause and defer'),
    ('s seek 1s', 'Back before a click, another click, and an edit after the fact'),
    ('b media i 3s', 'Two presentations, of which each answers for itself, and refused orders'),
    ('frobnicate', 'Faults of reading'),
    ('id="slides"', 'Slides with music and a menu; the length of the music comes late'),
    ('gen 1', 'A session that is made, of four orders'),
    ('id="x-1"', 'An outline in many spellings, read and written'),
    ('dur="10s" repeatCount="2"', 'After a repeat of the par a click is forgotten'),
    ('fill="hold"\n  img', 'In a seq: freeze up to the next begin, hold up to the end'),
    ('u set a id "p"', 'Edits that are refused, and two that are not'),
    ('gen 2', 'A session that is made, of six orders'),
    ('play', 'A word that the program does not know'),
    ('fillDefault="freeze"', 'A default of fill is inherited'),
    ('accesskey(x)+1s', 'A key begins two texts, one of which never restarts'),
    ('d save', 'An outline with its serials, written'),
    ('outline 2 next 4', 'Outlines with serials, read'),
    ('targetElement="x"', 'Two sets of one attribute: the later one is on top while it is active'),
    ('t stack p title', 'Two sets of one attribute that began together'),
    ('par id="r" dur="60s"', 'An instant of the wall clock, where moment 0 is another'),
    ('begin="wallclock(2008-12-01T', 'An instant of the wall clock, and a root without an id'),
    ('prefer captions on', 'Sounds by language, and captions'),
    ('prefer bitrate', 'A bitrate that is no number'),
    ('now 5000', 'A diary is audited'),
    ('outline 2 next 9', 'A diary with pauses is audited'),
]
EMPTY = 'An empty input'
CHUNKS = ['', ' chunk=1', ' chunk=7', ' chunk=64']
ENDS = [('\r\n', 'crlf|'), ('\n', '|'), ('', 'open|')]

LOAD = 'load d\npar\n  img id="a" begin="1s" dur="2s"\n%%\n'
FIRST = LOAD + 'd advance 5s\n'
LOADED = '0 #1 active 0 3000 0 0\n0 a waiting 1000 3000 0 0\nok 1 d 0\n'
MOVES = '1000 a active 1000 3000 0 0\n3000 #1 frozen 0 3000 0 1\n3000 a done 1000 3000 0 1\n'
ANSWERED = LOADED + MOVES + 'ok 5 d 5000\n'
USAGE = 'usage: smilplay run | smilplay check | smilplay gen N | smilplay audit\n'

LINE_ENDS = ('load d\r\n# a comment\r\npar\r\n\r\n  img id="a" begin="1000ms" dur="00:02"\r\n  %%\r\n'
             'd advance 1s\r\nd text')
LINE_ENDS_TOLD = (LOADED + '1000 a active 1000 3000 0 0\nok 7 d 1000\n'
                  'par\n  img id="a" begin="1000ms" dur="2000ms"\nok 8 d 1000\n')

FAULTS = ('load a\npar\n  img begin="1s;;2s"\n%%\nload a\npar\n  img begin="wallclock(2008-12-01)"\n%%\n'
          'load a\npar\n    img\n%%\nload a\nseq\n  img begin="-1s"\n%%\na advance 1s\nfrobnicate\n%%\n'
          'load 9\npar\n%%\nload a\n%%\nload a\npar\n%%\na advance 1x\na show\nload a\npar\n')
FAULTS_TOLD = ('! 3 bad-value 17\n! 7 unsupported 14\n! 11 depth-jump\n! 15 bad-value 14\n! 17 no-presentation\n'
               '! 18 not-a-command\n! 19 not-a-command\n! 20 not-a-command\n! 24 bad-outline\n0 #1 frozen 0 0 0 1\n'
               'ok 25 a 0\n! 28 bad-value 11\n0 #1 frozen 0 0 0 1\nok 29 a 0\n! 30 unfinished-load\n')

# What a host asks of a session, and what it is told: when something comes next, a repeat too, and when nothing does.
ASKED = [
    ('next|d', 'next -\n'), *(('|' + line, '') for line in LOAD.splitlines()), ('', LOADED),
    ('next|d', 'next 1000\n'), ('moment|d', 'moment 0\n'),
    ('|d advance 999ms', 'ok 5 d 999\n'), ('next|d', 'next 1000\n'),
    ('|d advance 1ms', '1000 a active 1000 3000 0 0\nok 6 d 1000\n'), ('next|d', 'next 3000\n'),
    ('|d advance 5s', '3000 #1 frozen 0 3000 0 1\n3000 a done 1000 3000 0 1\nok 7 d 6000\n'), ('next|d', 'next -\n'),
    ('|d seek 2s', '2000 #1 active 0 3000 0 0\n2000 a active 1000 3000 0 0\nok 8 d 2000\n'), ('next|d', 'next 3000\n'),
    ('|load r', ''), ('|par dur="10s"', ''), ('|  img id="b" begin="click" dur="2s" repeatCount="2"', ''),
    ('|%%', '0 #1 active 0 10000 0 0\nok 9 r 0\n'), ('next|r', 'next 10000\n'),
    ('|r event b click', '0 b active 0 4000 0 0\nok 13 r 0\n'), ('next|r', 'next 2000\n'),
    ('|r advance 3s', '2000 b active 0 4000 1 0\nok 14 r 3000\n'), ('next|r', 'next 4000\n'),
    ('|close r', 'ok 15 r closed\n'), ('next|r', 'next -\n'), ('next|d', 'next 3000\n'),
]

# What a session shows, its words and options, its input, its transcript, and its exit number.
CASES = [
    ('A session in pieces of 3 bytes', 'run chunk=3', FIRST, ANSWERED, 0),
    (EMPTY, 'run', '', '', 0),
    ('Faulty words read nothing', 'play', FIRST, USAGE, 2),
    ('Faulty words, and a usage line that can not be written', 'play writes=1', FIRST, '', 4),
    ('No words', '', FIRST, USAGE, 2),
    ('The first read fails', 'run reads=1', FIRST, '', 3),
    ('The first write fails', 'run writes=1', FIRST, '', 4),
    ('Of four reads the second one ends the load, and the third one, which would end the advance, fails',
     'run chunk=24 reads=3', FIRST, LOADED, 3),
    ('An answer has one write, so the second one is of the second answer, and fails', 'run writes=2', FIRST, LOADED, 4),
    ("A third write, which would fail, doesn't come", 'run writes=3', FIRST, ANSWERED, 0),
    ('Room for the first answer alone', f'run room={len(LOADED)}', FIRST, LOADED, 4),
    ('Room for the whole transcript', f'run room={len(ANSWERED)}', FIRST, ANSWERED, 0),
    ('Lines that end with carriage returns, and a last one without an end', 'run', LINE_ENDS, LINE_ENDS_TOLD, 0),
    ('Faults of reading', 'run', FAULTS, FAULTS_TOLD, 1),
    ('A load without an end, whose last line has none', 'run', 'load e\npar', '! 1 unfinished-load\n', 1),
]


# How many worked sessions stand between two that a host holds.
HELD_APART = 5


class Run:
    """The list of sessions, and what is told of it."""

    def __init__(self):
        self.lines = []
        self.told = []
        self.headers = 0

    def refused(self, line):
        self.lines.append(line)
        self.told.append(f'refused {len(self.lines)}\n')

    def begin(self, title, header):
        if title:
            self.lines += ['', '# ' + title + '.']
        self.lines.append(header.rstrip())
        self.headers += 1

    def end(self, line, text, status):
        self.lines.append(line)
        self.told.append(f'session {self.headers}\n{text}exit {status}\n')

    def asked(self, title, requests):
        self.begin(title, 'held')
        self.lines += [line for line, _ in requests if line] + ['end']
        self.told.append(f'session {self.headers}\n' + ''.join(told for _, told in requests))

    def held(self, title, given, text):
        self.begin(title, 'held')
        self.lines += ['|' + line for line in given.splitlines()]
        text = re.sub(r'! \d+ unfinished-load\n$', '', text)
        moments = moments_of(text)
        self.lines += [f'moment|{name}' for name in moments]
        self.lines.append('end')
        asked = ''.join(f'moment {moment}\n' for moment in moments.values())
        self.told.append(f'session {self.headers}\n{text}{asked}')

    def pieces(self, title, words, given, text, status):
        self.begin(title, 'session ' + words)
        for line in cut(given):
            end, mark = next(pair for pair in ENDS if line.endswith(pair[0]))
            self.lines.append(mark + line[:len(line) - len(end)])
        self.end('end', text, status)

    def turns(self, title, words, given, text, status):
        self.begin(title, 'turns ' + words)
        lines = cut(given)
        for number, line in enumerate(lines, 1):
            self.lines.append('%d|%s' % (answered_before(number, lines, text), line.rstrip('\n')))
        self.end('end %d' % answered_before(len(lines) + 1, lines, text), text, status)


def cut(given):
    """The lines, each with its end."""
    return re.findall(r'[^\n]*\n|[^\n]+', given)


def ends_of_orders(lines):
    """The number of the line that ends an order, by the number of each of its lines."""
    ends, opened = {}, []
    for number, line in enumerate(lines, 1):
        opened.append(number)
        if opened[0] == number and line.split()[:1] == ['load'] or opened[0] < number and line.split() != ['%%']:
            continue
        ends.update({each: number for each in opened})
        opened = []
    return ends


def answered_before(number, lines, text):
    """How many bytes the answers to the orders have that end before a line."""
    ends = ends_of_orders(lines)
    taken = 0
    for answer in re.findall(r'(?:(?!ok |! ).*\n)*(?:ok|!) .*\n', text):
        line = int(answer.splitlines()[-1].split()[1])
        if ends.get(line, len(lines) + 1) < number:
            taken += len(answer)
    return taken


def moments_of(text):
    """The moment of each presentation at the end of a transcript, `-` where it is closed; and that of one without."""
    moments = {}
    for line in text.splitlines():
        words = line.split()
        if words[:1] == ['ok'] and len(words) == 4:
            moments[words[2]] = '-' if words[3] == 'closed' else words[3]
    return {**moments, 'nobody': '-'}


def title_of(words, given):
    if not given and words == 'run':
        return EMPTY
    return next(title for part, title in TITLES if part in given + words)


def worked(folder):
    """The worked sessions: title, words, input, transcript and exit number of each."""
    for path in sorted(folder.glob('*.in')):
        words = path.with_suffix('.args').read_text().strip()
        given, text = path.read_text(), path.with_suffix('.out').read_text()
        if not any(part in given + words + text for part in LEFT_OUT):
            status = int(path.with_suffix('.status').read_text())
            yield title_of(words, given), words, given, text, status


def clock_values(folder):
    """Each clock value of the tables as the `dur` of a par: an input, its transcript and exit number."""
    for path in sorted(set(folder.glob('*.table')) - set(folder.glob('*.reads.table'))):
        for line in path.read_text().splitlines():
            value, wanted = line.rsplit('|', 1)
            given = f'load a\npar dur="{value}"\n%%\n'
            if wanted in ('Bad', 'TooLong'):
                yield given, '! 2 bad-value 10\n', 1
            else:
                yield given, f'par dur="{wanted}ms"\nok 1 a\n', 0


def failing_reads(folder):
    """For each read of a table of reads: its number, the input, and the answered part of the transcript."""
    for path in sorted(folder.glob('*.reads.table')):
        name = path.name.split('.')[0]
        given, text = (folder / (name + '.in')).read_text(), (folder / (name + '.out')).read_text()
        for line in path.read_text().splitlines():
            read, count, last = line.split('|', 2)
            answered = cut(text)[:int(count)]
            assert ''.join(answered[-1:]).rstrip('\n') == last
            yield read, given, ''.join(answered)


def put_faults(run):
    """A list with lines that have no reading."""
    run.lines += ['', '# Lines that have no reading.']
    for line in ['frobnicate', '|a line without a session', 'end', 'endless']:
        run.refused(line)
    for header in ['session run chunk=0', 'session run chunk=-1', 'session run reads=1,', 'session run reads=',
                   'session run writes=a', 'session run speed=2', 'turns run chunk=3', 'held run']:
        run.headers += 1
        run.refused(header)
    run.begin('', 'session run')
    for line in ['a line without a mark', '3|a line with a number', 'lf|a line with a mark that is none']:
        run.refused(line)
    run.lines += ['|' + line for line in LOAD.splitlines()]
    run.end('end', LOADED, 0)
    run.begin('', 'turns run')
    for line in ['|a line without a number', 'end', 'end 0']:
        run.refused(line)
    run.begin('', 'held')
    for line in ['3|a line with a number', 'crlf|a line with an end', 'end 3', 'end']:
        run.refused(line)


def put_unfinished(run):
    """Sessions without an end: each is told at the next header, or where the list ends."""
    run.begin('Two sessions without an end, and one between them', 'session run')
    run.told.append(f'refused {len(run.lines)}\n')
    run.lines.append('|load d')
    run.pieces('', 'run', FIRST, ANSWERED, 0)
    run.begin('', 'turns run')
    run.told.append(f'refused {len(run.lines)}\n')


def put_early_line(run):
    """A session with a line that is not given, since it waits for a byte more than is answered."""
    run.begin('A line that waits for one byte more than is answered is never given', 'turns run')
    run.lines += ['0|' + line for line in LOAD.splitlines()]
    run.lines.append('%d|d advance 5s' % (len(LOADED) + 1))
    run.end('end 0', LOADED, 3)


def listed(folder):
    """The whole list."""
    run = Run()
    for case in CASES:
        run.pieces(*case)
    run.turns('Each answer is written before the next line is read', 'run', FIRST, ANSWERED, 0)
    put_early_line(run)
    run.turns('Faults of reading, line by line', 'run', FAULTS, FAULTS_TOLD, 1)
    run.held('The first session, which a host holds', FIRST, ANSWERED)
    run.held('Faults of reading, in a session that a host holds: it has no end', FAULTS, FAULTS_TOLD)
    run.asked('When something comes next', ASKED)
    for number, (title, words, given, text, status) in enumerate(worked(folder)):
        run.pieces(title, words + CHUNKS[number % len(CHUNKS)], given, text, status)
        if given:
            run.turns('The same, line by line', words, given, text, status)
        if words == 'run' and number % HELD_APART == 0:
            run.held('The same, which a host holds', given, text)
    for number, (read, given, text) in enumerate(failing_reads(folder)):
        title = '' if number else 'Reads of 16 bytes, of which each one fails in its turn'
        run.pieces(title, f'run chunk=16 reads={read}', given, text, 3)
    for number, (given, text, status) in enumerate(clock_values(folder)):
        run.pieces('' if number else 'Clock values', 'check', given, text, status)
    put_faults(run)
    put_unfinished(run)
    return run


def main():
    parser = argparse.ArgumentParser(description=__doc__, formatter_class=argparse.RawDescriptionHelpFormatter)
    parser.add_argument('--out', type=Path, default=TOP / 'crates' / 'smil_test_sessions')
    parser.add_argument('folder', type=Path)
    arguments = parser.parse_args()
    run = listed(arguments.folder)
    (arguments.out / 'stdin').write_text(''.join(line + '\n' for line in run.lines))
    (arguments.out / 'stdout').write_text(''.join(run.told))
    print(f'{run.headers} headers, {sum(each.startswith("session ") for each in run.told)} sessions served')


if __name__ == '__main__':
    main()
