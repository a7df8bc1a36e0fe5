#!/usr/bin/env python3
"""Fuzzes the program with P3 texts, certificates, and, if it has sessions, with commands and .non
texts, made and changed at random from a seed, and compares each run with the plain reference, by
meaning: clues, map, verdict, assessment, first error and its place, each reason and each
certificate. A case in which they disagree is kept as files in a folder, and the status is then 1.

Usage: tests/references/fuzz.py SECONDSs|CASES SEED [KIND ..] [NUMBER] (fuzz.py 60s 1; fuzz.py
100000 1), where KIND is clues, check, work, non or assess (all that the program takes), and NUMBER
is the case to begin with: a case is a function of the seed and its number. PROGRAM names another
program than the proved one, FUZZ_FOLDER the folder for disagreements."""
import os
import random
import signal
import subprocess
import sys
import tempfile
import time
from collections import Counter
from pathlib import Path

import plain_forms
from reference import chance as made
from reference import runs, selftest
from reference.search import TooMuch
from reference.sessions import Disagreement

HERE = Path(__file__).resolve().parent
PROVED = HERE.parent.parent / 'crates/nonobench/out/nonobench'
PATIENCE = 600  # seconds after which a run counts as one that does not end


class Case:
    """What one run of the program is given, and how it is judged."""

    def __init__(self, words, files, judge):
        self.words = words
        self.files = files
        self.judge = judge


def sizes(chance):
    """The most cells a side and how many colours: mostly small pictures."""
    most = (
        chance.choice((2, 3, 4, 4, 5, 6, 8)) if chance.random() < 0.97 else chance.choice((30, 120))
    )
    return most, chance.choice((1, 2, 2, 2, 3, 4, 16))


def clues_case(chance):
    """A P3 text on standard input."""
    text = made.some_ppm(chance, *sizes(chance))[2]
    text = made.mutated(chance, text, made.faults_wanted(chance))
    return Case([], {'input': text}, lambda run: runs.clues_run(run, text))


def check_case(chance):
    """A picture and a certificate."""
    most, colours = sizes(chance)
    text, cert, background = made.some_check(chance, min(most, 12), colours)
    if chance.random() < 0.1:
        text = made.mutated(chance, text, 1)
    if chance.random() < 0.3:
        cert = made.mutated(chance, cert, made.faults_wanted(chance))
    words = ['check', 'picture', 'cert']
    if background is not None:
        words += ['--background', '%d,%d,%d' % background]
    return Case(
        words,
        {'picture': text, 'cert': cert},
        lambda run: runs.check_run(run, text, cert, background),
    )


def work_case(chance):
    """A session on a picture."""
    rows, triples, text = made.some_ppm(
        chance,
        chance.choice((2, 3, 3, 4, 4, 5, 6)) if chance.random() < 0.98 else 12,
        chance.choice((2, 2, 2, 3, 4, 16)),
    )
    if chance.random() < 0.05:
        text = made.mutated(chance, text, 1)
    commands = made.some_session(chance, rows, triples, chance.randint(5, 40))
    depth = chance.choice((1, 2, 3, 100, 1000))
    background = triples[0] if chance.random() < 0.8 else None
    words = ['work', 'picture', '--history', str(depth)]
    if background is not None:
        words += ['--background', '%d,%d,%d' % background]
    return Case(
        words,
        {'picture': text, 'input': commands},
        lambda run: runs.work_run(run, text, commands, background=background, depth=depth),
    )


def non_case(chance):
    """A session on a puzzle in .non."""
    text = made.some_non(chance, chance.choice((2, 3, 4, 5, 6)))
    text = made.mutated(chance, text, made.faults_wanted(chance))
    commands = b'write non\nverdict\nreport\ncertify\n'
    return Case(
        ['work', 'picture', '--format', 'non'],
        {'picture': text, 'input': commands},
        lambda run: runs.work_run(run, text, commands, is_non=True),
    )


def assess_case(chance):
    """A picture to be assessed, with published givens, a certificate, or an allowance; or several
    puzzles."""
    if chance.random() < 0.3:
        return several_case(chance)
    (text, cert, published), background = chance.choice(plain_forms.seeded(chance, 8)), (0, 0, 0)
    if chance.random() < 0.5:
        rows, (background, *_), text = made.some_ppm(chance, *sizes(chance))
        text = made.mutated(chance, text, made.faults_wanted(chance))
        places = [(row + 1, col + 1) for row in range(len(rows)) for col in range(len(rows[0]))]
        cert, published = (
            None,
            plain_forms.published_text(chance, places[:40], []) if chance.random() < 0.5 else None,
        )
    return assessing(
        chance,
        [runs.Puzzle(text, chance.choice((None, background)), published=published, cert=cert)],
    )


def several_case(chance):
    """Puzzles of one format, of which some may be refused or lack a file."""
    is_non = chance.random() < 0.5
    background = None if is_non else chance.choice((None, (255, 255, 255)))
    texts = [
        made.some_non(chance, 5) if is_non else made.some_ppm(chance, 5, 3)[2]
        for _ in range(chance.randint(1, 4))
    ]
    texts = [
        made.mutated(chance, text, made.faults_wanted(chance)) if chance.random() < 0.9 else None
        for text in texts
    ]
    return assessing(chance, [runs.Puzzle(text, background, is_non) for text in texts])


def assessing(chance, puzzles):
    """The assessment of puzzles, all of one format and with one background. A file is there only
    where it has a text."""
    first, allowance = puzzles[0], chance.choice((None, None, None, 0, 1, 5))
    names = [
        'absent' if puzzle.text is None else f'puzzle{number}'
        for number, puzzle in enumerate(puzzles)
    ]
    files = {name: puzzle.text for name, puzzle in zip(names, puzzles) if puzzle.text is not None}
    options = {
        '--format': 'non' if first.is_non else None,
        '--background': first.background and '%d,%d,%d' % first.background,
        '--allow': None if allowance is None else str(allowance),
    }
    for option, name, text in (
        ('--givens', 'givens', first.published),
        ('--certificate', 'cert', first.cert),
    ):
        if text is not None:
            options[option], files[name] = name, text
    words = [word for name, value in options.items() if value is not None for word in (name, value)]
    return Case(
        ['assess', *names, *words], files, lambda run: runs.assess_run(run, puzzles, allowance)
    )


KINDS = {
    'clues': clues_case,
    'check': check_case,
    'work': work_case,
    'non': non_case,
    'assess': assess_case,
}
NEEDS = {
    'work': 'work',
    'non': 'work',
    'assess': 'assess',
}  # the command that the program must have


class Fuzzer:
    """Runs cases, counts how they end and keeps those in which program and reference disagree."""

    def __init__(self, program, folder, seed):
        self.program = program
        self.folder = folder
        self.seed = seed
        self.ends = Counter()
        self.kept = 0

    def run(self, case, work):
        """Runs the program on a case."""
        for name, text in case.files.items():
            with open(os.path.join(work, name), 'wb') as file:
                file.write(text)
        ended = subprocess.run(
            [self.program, *case.words],
            cwd=work,
            input=case.files.get('input', b''),
            capture_output=True,
            timeout=PATIENCE,
            check=False,
        )
        return runs.Run(ended.returncode, ended.stdout, ended.stderr)

    def one(self, kind, number, work):
        """Runs and judges one case."""
        case = KINDS[kind](random.Random(f'{self.seed} {kind} {number}'))
        run = None
        try:
            run = self.run(case, work)
            self.ends[kind, case.judge(run)] += 1
        except TooMuch:
            self.ends[kind, 'too long for the reference'] += 1
        except (Disagreement, subprocess.TimeoutExpired) as found:
            self.ends[kind, 'DISAGREED'] += 1
            self.keep(kind, number, case, run, str(found))

    def keep(self, kind, number, case, run, message):
        """Keeps a case as files."""
        self.kept += 1
        path = os.path.join(self.folder, f'{kind}-{self.seed}-{number}')
        os.makedirs(path, exist_ok=True)
        files = dict(case.files)
        if run is not None:
            files.update({'wrote': run.wrote, 'said': run.said})
        report = f'{message}\nstatus: {run and run.status}\nwords: {" ".join(case.words)}\n'
        files['disagreement'] = (
            report + f'again: tests/references/fuzz.py 1 {self.seed} {kind} {number}\n'
        ).encode()
        for name, text in files.items():
            with open(os.path.join(path, name), 'wb') as file:
                file.write(text)
        print(f'disagreement kept in {path}: {message[:500]}', flush=True)

    def report(self, done, took):
        """Tells how the cases ended."""
        for (kind, end), count in sorted(self.ends.items()):
            print(f'{kind}: {end}: {count}')
        print(
            f'{done} cases, seed {self.seed}, {done / took:.0f} cases a second; program and'
            f' reference disagree in {self.kept}'
            + (f', kept in {self.folder}' if self.kept else '')
        )


def taken(program):
    """The first words of the lines of the program's help, among them its commands."""
    shown = subprocess.run([program, '--help'], capture_output=True, check=False).stdout
    return {line.split()[0].decode() for line in shown.splitlines() if line.split()}


def main(amount, seed, *words):
    """Runs cases of each kind in turn until the time or the number is reached."""
    program, folder = os.environ.get('PROGRAM', PROVED), os.environ.get(
        'FUZZ_FOLDER', HERE / 'out' / 'disagreements'
    )
    selftest.test()
    kinds = [word for word in words if word in KINDS]
    first = int(next((word for word in words if word.isdigit()), 0))
    kinds = kinds or [kind for kind in KINDS if kind not in NEEDS or NEEDS[kind] in taken(program)]
    seconds = float(amount[:-1]) if amount.endswith('s') else None
    fuzzer = Fuzzer(os.path.abspath(program), folder, seed)
    began = time.monotonic()
    done = 0
    signal.signal(signal.SIGTERM, signal.default_int_handler)
    with tempfile.TemporaryDirectory(
        dir='/dev/shm' if os.access('/dev/shm', os.W_OK | os.X_OK) else None
    ) as work:
        try:
            while done < int(amount) if seconds is None else time.monotonic() - began < seconds:
                fuzzer.one(kinds[done % len(kinds)], first + done // len(kinds), work)
                done += 1
        except KeyboardInterrupt:
            print('broken off')
    fuzzer.report(done, time.monotonic() - began)
    return 1 if fuzzer.kept else 0


if __name__ == '__main__':
    sys.exit(main(*sys.argv[1:]) if len(sys.argv) > 2 else __doc__)
