#!/usr/bin/env python3
"""Makes each allocation of the built program fail in turn: the clues of each picture in examples/,
arguments that are refused or ask for help, checks of certificates, certificates with lemmas and
checks of them, assessments, and sessions on pictures and puzzles.

A run that answers once must end with status 1, the line `nonobench: memory` and nothing of an
answer; so must a session whose file is not open yet. A command of a session must be answered by
`refused: Memory` alone, after which clues, map and picture are as before, and after `certify` the
verdict; and the command is answered when it is sent again, as are all after it. An allocation may
also fail without a trace, if the program can go on with less memory than it asked for: then all is
as with enough memory.

Usage: tests/program/refuse_growths.py [WORD ..]: all runs, or those whose names hold a word.
PROGRAM names another program than the proved one.
"""
import os
import subprocess
import sys
import tempfile
import time
from pathlib import Path

from refusing import compiled

ROOT = Path(__file__).resolve().parent.parent.parent
PROGRAM = os.environ.get('PROGRAM', ROOT / 'crates/nonobench/out/nonobench')
EXAMPLES = ROOT / 'examples'
TESTS = ROOT / 'tests/sessions'
MARK = b'refused\n'  # what the library says on standard error
MEMORY = b'nonobench: memory\n'
WANTED = b'refused: Memory\n'
LONG = b'x' * 201  # a line whose answer ends each answer of a dialogue
END = b'refused: LongLine\n'
LOOKS = (b'clues', b'map', b'write ppm')  # what is asked behind a refusal: these change nothing
MOST = 100_000
UNSETTLED = (
    'certificate_without_allowance',
    'past_the_fixed_order',
)  # sessions' pictures that take branches

# Each kind of edit on the picture of examples/diagonal.ppm, and what is asked after it.
DAY = b'''colour add 0 0 255
paint 1 2 c
pin 1 1
recolour c a
unpin 1 1
fill 1 1 2 2 b
undo
insert column 1
swap column 1 2
delete row 2
undo
undo
redo
allow 1
verdict
certify
why 1 1 b
write ppm
write non
colour set c 0 0 254
report
'''.splitlines()

# Two parts, of which a stroke leaves one. What is kept of a part is seen where no split is allowed.
PARTS = b'''allow 1
verdict
verdict
allow 0
verdict
paint 4 3 b
verdict
undo
verdict
'''.splitlines()

# A report that asks for the first verdict, and what it has kept.
REPORTED = b'''allow 1
report
allow 0
verdict
'''.splitlines()


# A certificate: a verdict after one that was refused is the verdict before it.
CERTIFIED = b'''allow 0
verdict
certify
verdict
'''.splitlines()


class Wrong(Exception):
    """A run that is not as it must be."""


class Program:
    """The program with a library that refuses a growth."""

    def __init__(self, program, library):
        self.program = program
        self.library = library

    def open(self, number, words):
        """Begins a run in which one growth is refused, or none where the number is 0."""
        return subprocess.Popen(
            [self.program, *words],
            stdin=subprocess.PIPE,
            stdout=subprocess.PIPE,
            stderr=subprocess.PIPE,
            env={'LD_PRELOAD': self.library, 'REFUSED': str(number)},
        )

    def run(self, number, words, text=b''):
        """The status, what was written and what was said but for the library's mark; and whether a
        growth was refused."""
        with self.open(number, words) as process:
            wrote, said = process.communicate(text)
        said, was_refused = without_mark(said)
        return (process.returncode, wrote, said), was_refused


def without_mark(said):
    """What the program said itself, and whether a growth was refused."""
    return said.replace(MARK, b'', 1), MARK in said


class Run:
    """A run that answers once, and ends."""

    lacks = None  # what should have been seen of it, and was not

    def __init__(self, program, words, text=b''):
        self.program = program
        self.words = words
        self.text = text
        self.ample, _ = program.run(0, words, text)

    def refuse(self, number):
        """Refuses one growth: the run must end by memory and write nothing, or be as with ample
        memory. Whether a growth was refused, and whether that was answered."""
        ended, was_refused = self.program.run(number, self.words, self.text)
        if ended == (1, b'', MEMORY) and was_refused:
            return True, True
        if ended != self.ample:
            raise Wrong(
                f'it ends with status {ended[0]}, writes {ended[1][:80]!r} and says'
                f' {ended[2][:80]!r}'
            )
        return was_refused, False


class Dialogue:
    """A session that is answered line by line."""

    def __init__(self, process):
        self.process = process
        self.refusals = 0

    def ask(self, line):
        """What is answered to a line; None where the program has ended."""
        try:
            self.process.stdin.write(line + b'\n' + LONG + b'\n')
            self.process.stdin.flush()
        except BrokenPipeError:
            return None
        answer = b''
        for said in iter(self.process.stdout.readline, b''):
            if said == END:
                self.refusals += answer == WANTED
                return answer
            answer += said
        if answer:
            raise Wrong(f'it ends in the middle of an answer: {answer[:80]!r}')
        return None

    def look(self):
        """What is shown of the bench without a search. A look that is refused is repeated."""
        answers = [self.ask(line) for line in LOOKS]
        return [
            self.ask(line) if answer == WANTED else answer for line, answer in zip(LOOKS, answers)
        ]

    def end(self):
        """The status and what was said, and whether a growth was refused."""
        return ended(self.process)


class Session:
    """A session in which a growth is refused."""

    lacks = None

    def __init__(self, program, words, lines):
        self.program = program
        self.words = words
        self.lines = lines
        with program.open(0, words) as process:
            dialogue = Dialogue(process)
            self.shown = [dialogue.look()]
            self.answers = []
            for line in lines:
                self.answers.append(dialogue.ask(line))
                self.shown.append(dialogue.look())
            if (
                dialogue.end() != ((0, b'', b''), False)
                or dialogue.refusals
                or None in self.answers
            ):
                raise Wrong('with ample memory it does not end as it must')

    def refuse(self, number):
        """Refuses one growth: its line is answered by memory alone, all that is shown is as before,
        and the line is answered when it is said again, as are all behind it. Before the first line
        the program must end by memory. Whether a growth was refused, and whether that was answered.
        """
        with self.program.open(number, self.words) as process:
            dialogue = Dialogue(process)
            is_open = all(self.says(dialogue, at) for at in range(len(self.lines)))
            if is_open:
                self.shows(dialogue, len(self.lines))
            ended, was_refused = dialogue.end()
        if (
            ended != ((0, b'', b'') if is_open else (1, b'', MEMORY))
            or dialogue.refusals > was_refused
        ):
            raise Wrong(
                f'it ends with status {ended[0]} after {dialogue.refusals} refusals and says'
                f' {ended[2][:80]!r}'
            )
        return was_refused, dialogue.refusals > 0 or not is_open

    def says(self, dialogue, at):
        """Says a line, and again where it is refused; whether the program still answers, which it
        may not before the first."""
        line = self.lines[at]
        got = dialogue.ask(line)
        if got == WANTED:
            self.shows(dialogue, at)
            self.judges(dialogue, at)
            got = dialogue.ask(line)
        if got != self.answers[at] and (got is not None or at > 0):
            raise Wrong(f'{line!r} is answered by {got!r}')
        return got is not None

    def judges(self, dialogue, at):
        """Stops where the verdict after a certificate that was refused is not the one that was
        asked for before it."""
        if self.lines[at] == b'certify' and at > 0 and self.lines[at - 1] == b'verdict':
            got = dialogue.ask(b'verdict')
            if got != self.answers[at - 1]:
                raise Wrong(f'the refused line {at + 1} has changed the verdict to {got!r}')

    def shows(self, dialogue, at):
        """Stops where another thing is shown than in front of a line with ample memory."""
        if dialogue.look() != self.shown[at]:
            raise Wrong(f'in front of line {at + 1} another thing is shown')


def ended(process):
    """The status, what was written behind all that was read and what was said; and whether a growth
    was refused."""
    try:
        process.stdin.close()
    except BrokenPipeError:
        pass
    rest = process.stdout.read()
    said, was_refused = without_mark(process.stderr.read())
    return (process.wait(), rest, said), was_refused


def in_turn(name, run):
    """Refuses the first growth, the second and so on, until none is refused; how many were, and how
    many of these were not answered since all went on as with ample memory."""
    refused = idle = 0
    for number in range(1, MOST):
        try:
            was_refused, was_answered = run.refuse(number)
        except Wrong as wrong:
            raise Wrong(f'{name}, growth {number}: {wrong}') from None
        if not was_refused:
            if run.lacks:
                raise Wrong(f'{name}: {run.lacks}')
            return refused, idle
        refused += 1
        idle += not was_answered
    raise Wrong(f'{name}: more than {MOST} growths')


def background_of(path):
    """The words that name the background of an example's picture."""
    background = path.with_suffix('.ppm.background')
    return ['--background', background.read_text().strip()] if background.exists() else []


def opened(name):
    """The words that open the file of an example's session."""
    words = ['work', str(EXAMPLES / f'{name}.ppm')]
    if not (EXAMPLES / f'{name}.ppm').exists():
        words = ['work', str(EXAMPLES / f'{name}.non'), '--format', 'non']
    return words + background_of(EXAMPLES / name)


def sessions(folder):
    """Sessions: names, words and lines. The last one is on a puzzle without a goal."""
    for path in sorted(EXAMPLES.glob('*.session')):
        yield f'session {path.stem}', opened(path.stem), path.read_bytes().splitlines()
    yield 'session of a day', ['work', str(EXAMPLES / 'diagonal.ppm'), '--history', '20'], DAY
    for name, lines in (('parts', PARTS), ('a report', REPORTED), ('a certificate', CERTIFIED)):
        yield f'session of {name}', ['work', str(TESTS / 'parts.ppm')], lines
    puzzle = folder / 'puzzle'
    text = (EXAMPLES / 'key.non').read_bytes().splitlines(keepends=True)
    puzzle.write_bytes(b''.join(line for line in text if not line.startswith(b'goal')))
    yield 'session without a goal', ['work', str(puzzle), '--format', 'non'], [
        b'write non',
        b'verdict',
    ]


def checks(program, folder):
    """Checks of certificates that a session gives: names and words."""
    yield 'check given', ['check', str(EXAMPLES / 'given.ppm'), str(EXAMPLES / 'given.ppm.cert')]
    for path in sorted(EXAMPLES.glob('*.ppm')):
        words = background_of(path)
        (_, cert, _), _ = program.run(0, ['work', str(path), *words], b'certify\n')
        if cert.startswith(b'nonocert'):
            kept = folder / path.stem
            kept.write_bytes(cert)
            yield f'check {path.stem}', ['check', str(path), str(kept), *words]


def lemmas(program, folder):
    """Certificates with lemmas that are made, and checks of them: names and words. Lines alone
    settle the examples, but not the last two."""
    for path in (*sorted(EXAMPLES.glob('*.ppm')), *(TESTS / f'{name}.ppm' for name in UNSETTLED)):
        words = [str(path), *background_of(path)]
        yield f'prove {path.stem}', ['prove', *words]
        (_, cert, _), _ = program.run(0, ['prove', *words])
        if cert.startswith(b'nono'):
            kept = folder / f'{path.stem}.cert'
            kept.write_bytes(cert)
            yield f'check {path.stem} by lemmas', [
                'check',
                str(path),
                str(kept),
                *background_of(path),
            ]


def assessments(folder):
    """Assessments: names and words. Lines settle the first picture with its given alone, and not
    the last."""
    givens = folder / 'givens'
    givens.write_bytes(b'given 1 1\n')
    given = ['assess', str(EXAMPLES / 'given.ppm'), '--givens', str(givens)]
    yield 'assess given', given
    yield 'assess given by its certificate', [
        *given,
        '--certificate',
        str(EXAMPLES / 'given.ppm.cert'),
    ]
    yield 'assess with guesses', ['assess', str(TESTS / f'{UNSETTLED[0]}.ppm')]


def runs(program, folder):
    """All runs: names, and what refuses a growth of each."""
    for path in sorted(EXAMPLES.glob('*.ppm')):
        yield f'clues {path.stem}', Run(program, [], path.read_bytes())
    for words in (
        '--help',
        'work --help',
        '--version',
        'check',
        'work F --history 0',
        'work F --background 1',
        'jump',
    ):
        yield f'words {words}', Run(program, words.split())
    for name, words in (*checks(program, folder), *lemmas(program, folder), *assessments(folder)):
        yield name, Run(program, words)
    for name, words, lines in sessions(folder):
        yield name, Session(program, words, lines)


def main(*wanted):
    """Refuses each growth of all runs, or of those whose names hold a word that was asked for."""
    began = time.monotonic()
    all_refused = all_idle = 0
    with tempfile.TemporaryDirectory() as folder:
        try:
            for name, run in runs(
                Program(os.path.realpath(PROGRAM), compiled(folder)), Path(folder)
            ):
                if wanted and not any(word in name for word in wanted):
                    continue
                refused, idle = in_turn(name, run)
                print(
                    f'{name}: {refused} growths refused'
                    + f', {idle} of them without a trace' * (idle > 0),
                    flush=True,
                )
                all_refused += refused
                all_idle += idle
        except Wrong as wrong:
            print(wrong, file=sys.stderr)
            return 1
    print(
        f'{all_refused} growths refused, {all_idle} of them without a trace, in'
        f' {time.monotonic() - began:.0f} seconds'
    )
    return (
        0 if all_refused else 1
    )  # a program that is linked statically asks the library for nothing


if __name__ == '__main__':
    sys.exit(main(*sys.argv[1:]))
