#!/usr/bin/env python3
"""Measures who decides within a time whether a picture is the only one with its clues:
measure/others.py PROGRAM FOLDER .. [--seconds N] [--others CSV] [--class NAME=PATTERN,..] [--tuned
FOLDER] [--csv FILE]

Each P3 picture of the folders is given to nonobench (`verdict`) and to the solvers that are
installed: minisat and cadical (clauses), gringo with clasp (an answer set program), gecode
(`extensional` for each line, the cell of most failures for its colours first). In Debian: apt-get
install minisat cadical gringo clasp libgecode-dev g++. Each gets N seconds of one processor (by
default 10) for the whole answer, including gringo's; writing the text that a solver reads is not
counted. Answers are compared with each other, and each other picture that a solver finds is
checked. If nonobench answers `unique`, its certificate is made, checked by `nonobench check` and
measured, each step in a process of its own. The same is done with certificates with lemmas, also
for pictures that the verdict left open.

With `--others`, only nonobench is measured, and the rows of the other solvers are taken from the
CSV of an earlier run over the same pictures and classes.

It prints the tables of docs/COMPARISON.md, and writes its rows as CSV; others_tables.py makes the
tables again from that. A picture belongs to the first class with a pattern that its file's name
matches, or else to `other`. The pictures of the folders `--tuned` are those on which an earlier
nonobench was improved; the table of answers leaves them out.

A line is described by a deterministic automaton over its cells, the same for all: its state is how
many of the clue's cells, and of the gaps that must be between blocks of one colour, have been read.
A solver is asked for a picture that these automata accept and that differs from the known one in
some cell.

docs/COMPARISON.md was made so; the first folder has the pictures that nonobench was improved on:

nice -n 5 measure/others.py PROGRAM FOLDER FOLDER --tuned FOLDER --csv docs/comparison.csv
  --class 'icons=adwaita-*,flag-*,fvwm-*,gnome-*,njam-*,picmi-*,silk-*,tango-*,xbm-*'
  --class 'random and hard=blob-*,hard-*,noise-*' --class 'patterns=*'
"""
import argparse
import fnmatch
import math
import resource
import shutil
import subprocess
import sys
import tempfile
from pathlib import Path
from statistics import median

sys.dont_write_bytecode = True
ROOT = Path(__file__).resolve().parent.parent
sys.path.insert(0, str(ROOT / 'tests/references'))
from others_tables import (  # noqa: E402
    CERTIFY,
    CHECK,
    PROVE,
    VERIFY,
    by,
    of_solvers,
    print_tables,
    read_rows,
    write_rows,
)
from plain_forms import Fault  # noqa: E402
from reference.lines import clues_of, line_of, names  # noqa: E402
from reference.pictures import read_ppm  # noqa: E402
from reference.search import is_other  # noqa: E402

GECODE = '-lgecodedriver -lgecodesearch -lgecodeminimodel -lgecodeint -lgecodekernel -lgecodesupport'.split()  # noqa: E501
ASP = '''1 { x(R,C,K) : colour(K) } 1 :- cell(R,C).
state(A,L,0,0) :- length(A,L,_).
state(A,L,I+1,T) :- state(A,L,I,S), at(A,L,I,R,C), x(R,C,K), next(A,L,S,K,T).
:- state(A,L,I,S), at(A,L,I,R,C), x(R,C,K), not step(A,L,S,K).
step(A,L,S,K) :- next(A,L,S,K,_).
:- length(A,L,N), last(A,L,T), not state(A,L,N,T).
:- x(R,C,K) : known(R,C,K).
#show x/3.
'''


def automaton(clue):
    """The steps of a line's automaton, as a state and a colour to a state, and its last state. It
    begins in state 0."""
    steps, at = {(0, 0): 0}, 0
    for number, (length, colour) in enumerate(clue):
        if number and clue[number - 1][1] == colour:
            # A gap must come before a block of the same colour: the state after a block does not
            # stay.
            del steps[at, 0]
            steps[at, 0] = at + 1
            at += 1
            steps[at, 0] = at
        for _ in range(length):
            steps[at, colour] = at + 1
            at += 1
        steps[at, 0] = at
    return steps, at


class Task:
    """A picture with the automata of its lines."""

    def __init__(self, rows):
        self.rows = rows
        self.height, self.width = len(rows), len(rows[0])
        self.colours = sorted({0} | {colour for row in rows for colour in row})
        self.clues = clues_of(rows)
        self.lines = {line: automaton(self.clues[line]) for line in names(self.height, self.width)}

    def length(self, line):
        """How many cells a line has."""
        return len(line_of(self.rows, line))

    def cell(self, line, at):
        """The cell at a place of a line."""
        return (line[1], at) if line[0] == 'r' else (at, line[1])


def clauses_of(task):
    """The task as clauses: their number of variables and the clauses; a cell's colour is the
    variable of `number`."""
    number = {}

    def of(*key):
        return number.setdefault(key, len(number) + 1)

    clauses = []
    for row in range(task.height):
        for col in range(task.width):
            cell = [of(row, col, colour) for colour in task.colours]
            clauses.append(cell)
            clauses += [[-one, -two] for i, one in enumerate(cell) for two in cell[:i]]
    for line, (steps, last) in task.lines.items():
        clauses += line_clauses(task, of, line, steps, last)
    clauses.append(
        [
            -of(row, col, task.rows[row][col])
            for row in range(task.height)
            for col in range(task.width)
        ]
    )
    return number, clauses


def line_clauses(task, of, line, steps, last):
    """The clauses of a line: from the first state to the last, each step forward, and what supports
    a colour and a state."""
    length = task.length(line)
    front = [{0}]
    for _ in range(length):
        front.append({to for (state, _), to in steps.items() if state in front[-1]})
    live = [set() for _ in range(length)] + [{last}]
    for i in range(length - 1, -1, -1):
        live[i] = {
            state for (state, _), to in steps.items() if state in front[i] and to in live[i + 1]
        }
    yield [of(line, 0, 0)]
    for i in range(length):
        row, col = task.cell(line, i)
        before, behind = {}, {}
        for (state, colour), to in steps.items():
            if state in live[i] and to in live[i + 1]:
                yield [-of(line, i, state), -of(row, col, colour), of(line, i + 1, to)]
                before.setdefault(colour, []).append(of(line, i, state))
                behind.setdefault(to, []).append(of(line, i, state))
        for colour in task.colours:
            yield [-of(row, col, colour)] + before.get(colour, [])
            for state in live[i]:
                if steps.get((state, colour)) not in live[i + 1]:
                    yield [-of(line, i, state), -of(row, col, colour)]
        for to, states in behind.items():
            yield [-of(line, i + 1, to)] + states
        yield [of(line, i, state) for state in live[i]]
        ordered = sorted(live[i])
        yield from (
            [-of(line, i, one), -of(line, i, two)]
            for at, one in enumerate(ordered)
            for two in ordered[:at]
            if len(ordered) < 20
        )


def write_clauses(task, file):
    """Writes the clauses as DIMACS, and gives which variable is which colour of a cell."""
    number, clauses = clauses_of(task)
    clauses = [f'{" ".join(map(str, clause))} 0' for clause in clauses]
    file.write_text(f'p cnf {len(number)} {len(clauses)}\n' + '\n'.join(clauses) + '\n')
    return {variable: key for key, variable in number.items() if isinstance(key[0], int)}


def write_program(task, file):
    """Writes the task as facts for gringo."""
    facts = [f'colour({colour}).' for colour in task.colours]
    for row in range(task.height):
        for col in range(task.width):
            facts.append(f'cell({row},{col}). known({row},{col},{task.rows[row][col]}).')
    for line, (steps, last) in task.lines.items():
        axis, at = line
        facts.append(f'length({axis},{at},{task.length(line)}). last({axis},{at},{last}).')
        facts += [
            f'next({axis},{at},{state},{colour},{to}).' for (state, colour), to in steps.items()
        ]
        facts += [
            'at({},{},{},{},{}).'.format(axis, at, i, *task.cell(line, i))
            for i in range(task.length(line))
        ]
    file.write_text(ASP + '\n'.join(facts) + '\n')


def write_numbers(task, file):
    """Writes the task as numbers for others_gecode.cpp."""
    words = [task.height, task.width, max(task.colours) + 1] + [
        colour for row in task.rows for colour in row
    ]
    for line in names(task.height, task.width):
        steps, last = task.lines[line]
        words += [last, len(steps)] + [
            word for (state, colour), to in sorted(steps.items()) for word in (state, colour, to)
        ]
    file.write_text(' '.join(map(str, words)) + '\n')


def rows_of_cells(task, cells):
    """A picture from its cells, or None if one is missing."""
    rows = [[cells.get((row, col)) for col in range(task.width)] for row in range(task.height)]
    return None if any(cell is None for row in rows for cell in row) else rows


class Limit:
    """What a solver gets: a folder, and seconds of one processor."""

    def __init__(self, folder, seconds):
        self.folder = Path(folder)
        self.seconds = seconds

    def run(self, words, text=None):
        """What a command prints, or None if the time is over; and its time."""

        def limited():
            resource.setrlimit(
                resource.RLIMIT_CPU, (math.ceil(self.seconds), math.ceil(self.seconds) + 1)
            )

        before = resource.getrusage(resource.RUSAGE_CHILDREN)
        ended = subprocess.run(
            words,
            cwd=self.folder,
            input=text,
            capture_output=True,
            check=False,
            text=True,
            preexec_fn=limited,
        )
        after = resource.getrusage(resource.RUSAGE_CHILDREN)
        # As many digits as the CSV has, so that the plot made again from it is the same.
        took = round(after.ru_utime + after.ru_stime - before.ru_utime - before.ru_stime, 4)
        if took > self.seconds or ended.returncode < 0:
            return None, self.seconds
        return ended.stdout, took


def by_nonobench(program):
    """Asks for the verdict of a session."""

    def solve(task, limit, picture):
        printed, took = limit.run([program, 'work', str(picture)], 'verdict\n')
        if printed is None:
            return None, took
        said = printed.splitlines()
        other = [['.abcdefghijklmno'.index(letter) for letter in row] for row in said[1:]]
        return ('unique' if said[0] == 'unique' else other), took

    return solve


def by_clauses(words, unsatisfied):
    """Gives clauses to a solver that writes a model as `v` lines, or into a file."""

    def solve(task, limit, _):
        cells_of = write_clauses(task, limit.folder / 'clauses')
        (limit.folder / 'model').write_text('')
        printed, took = limit.run(words)
        if printed is None:
            return None, took
        if unsatisfied in printed:
            return 'unique', took
        text = (limit.folder / 'model').read_text() + printed
        true = [
            int(word)
            for line in text.splitlines()
            if line[:2] == 'v ' or line[:1].isdigit() or line[:1] == '-'
            for word in line.lstrip('v ').split()
            if word.lstrip('-').isdigit()
        ]
        return (
            rows_of_cells(task, {cells_of[v][:2]: cells_of[v][2] for v in true if v in cells_of}),
            took,
        )

    return solve


def by_answer_sets(task, limit, _):
    """Grounds by gringo and solves by clasp."""
    write_program(task, limit.folder / 'program')
    printed, took = limit.run(['sh', '-c', 'exec 2>/dev/null; gringo program | clasp'])
    if printed is None:
        return None, took
    if 'UNSATISFIABLE' in printed:
        return 'unique', took
    cells = {}
    for word in printed.split():
        if word.startswith('x('):
            row, col, colour = map(int, word[2:-1].split(','))
            cells[row, col] = colour
    return rows_of_cells(task, cells), took


def by_gecode(program):
    """Asks the program of others_gecode.cpp."""

    def solve(task, limit, _):
        write_numbers(task, limit.folder / 'numbers')
        printed, took = limit.run([program, 'numbers'])
        if printed is None:
            return None, took
        if printed.startswith('unique'):
            return 'unique', took
        words = list(map(int, printed.split()))
        return [
            words[row * task.width : (row + 1) * task.width] for row in range(task.height)
        ], took

    return solve


def solvers(program, folder):
    """The solvers that are here, by name."""
    found = {'nonobench': by_nonobench(program)}
    if shutil.which('minisat'):
        found['minisat'] = by_clauses(['minisat', '-verb=0', 'clauses', 'model'], 'UNSATISFIABLE')
    if shutil.which('cadical'):
        found['cadical'] = by_clauses(['cadical', '-q', 'clauses'], 'UNSATISFIABLE')
    if shutil.which('gringo') and shutil.which('clasp'):
        found['gringo, clasp'] = by_answer_sets
    built = str(Path(folder) / 'gecode')
    source = str(ROOT / 'measure' / 'others_gecode.cpp')
    if (
        shutil.which('g++')
        and subprocess.run(
            ['g++', '-O2', '-o', built, source, *GECODE], capture_output=True, check=False
        ).returncode
        == 0
    ):
        found['gecode'] = by_gecode(built)
    for name in ('minisat', 'cadical', 'gringo, clasp', 'gecode'):
        if name not in found:
            print(f'{name}: left out, since it is not installed', file=sys.stderr)
    return found


def judged(task, answer):
    """An answer in a word. Another picture that is none is an error."""
    if answer is None or answer == 'unique':
        return answer
    if not is_other(task.rows, (), answer):
        raise SystemExit(f'no other picture: {answer}')
    return 'ambiguous'


def certificate(program, limit, words, asked, names):
    """The rows of a certificate: its length and the time to make it, and the time to check it. One
    that is refused is an error."""
    (_, picture), (make, check) = words, names
    printed, took = limit.run([program, *words], asked)
    if printed in (None, 'undecided\n', 'ambiguous\n'):
        return [(make, 'ambiguous' if printed == 'ambiguous\n' else 'open', took, None)]
    (limit.folder / 'certificate').write_text(printed)
    said, checking = limit.run([program, 'check', picture, 'certificate'])
    if said != 'certificate accepted\n':
        raise SystemExit(f'{picture}: its certificate was not accepted')
    return [(make, 'unique', took, len(printed.encode())), (check, 'accepted', checking, None)]


def answers(found, program, limit, picture):
    """What each solver says of a picture, and its certificate: program, answer, seconds, bytes.
    Answers that disagree are an error."""
    task = Task(read_ppm(picture.read_bytes()).rows)
    rows = []
    for name, solve in found.items():
        answer, took = solve(task, limit, picture)
        rows.append((name, judged(task, answer) or 'open', took, None))
    line = '; '.join(f'{name} {answer} {took:.2f}' for name, answer, took, _ in rows)
    if len({answer for _, answer, _, _ in rows} - {'open'}) > 1:
        raise SystemExit(f'{picture}: they disagree: {line}')
    print(f'{picture.name}: {line}', file=sys.stderr, flush=True)
    if rows[0][1] == 'unique':
        rows += certificate(program, limit, ['work', str(picture)], 'certify\n', (CERTIFY, CHECK))
    if rows[0][1] != 'ambiguous':
        rows += certificate(program, limit, ['prove', str(picture)], None, (PROVE, VERIFY))
    return task, rows


class Naming:
    """The classes of pictures, and on which of them nonobench was improved."""

    def __init__(self, classes, tuned):
        self.classes = [
            (name, patterns.split(','))
            for name, _, patterns in (one.partition('=') for one in classes)
        ]
        self.tuned = {file.resolve() for one in tuned for file in Path(one).rglob('*.ppm')}

    def of(self, picture):
        """What the rows say of a picture: its name, its class, and whether nonobench was improved
        on it."""
        fits = (
            name
            for name, patterns in self.classes
            if any(fnmatch.fnmatch(picture.stem, one) for one in patterns)
        )
        return {
            'picture': picture.stem,
            'class': next(fits, 'other'),
            'tuned': 'yes' if picture.resolve() in self.tuned else '',
        }


def kept_rows(earlier, own):
    """The earlier rows of a picture, whose row by nonobench is given. It is an error if they are
    missing, or if they disagree."""
    rows = earlier.get(own['picture'], [])
    if not rows or any(
        str(row[key]) != str(own[key])
        for row in rows
        for key in ('class', 'tuned', 'width', 'height', 'colours')
    ):
        raise SystemExit(f'{own["picture"]}: not in the earlier run')
    if len({row['answer'] for row in [own, *rows]} - {'open'}) > 1:
        raise SystemExit(
            f'{own["picture"]}: they disagree: {own["answer"]}, earlier'
            f' {[row["answer"] for row in rows]}'
        )
    return rows


def arguments():
    """The arguments of the command line."""
    parser = argparse.ArgumentParser(description=__doc__.splitlines()[0])
    parser.add_argument('program')
    parser.add_argument('folder', nargs='+')
    parser.add_argument('--seconds', type=float, default=10)
    parser.add_argument(
        '--others', help='the CSV of an earlier run, for the rows of the other solvers'
    )
    parser.add_argument(
        '--class',
        dest='classes',
        action='append',
        default=[],
        help='NAME=PATTERN,..: pictures that are counted together',
    )
    parser.add_argument(
        '--tuned',
        action='append',
        default=[],
        help='a folder of pictures on which nonobench was improved',
    )
    parser.add_argument('--csv', help='a file for the rows')
    return parser.parse_args()


def main():
    """Each picture by each solver."""
    asked = arguments()
    program, naming, rows = (
        str(Path(asked.program).resolve()),
        Naming(asked.classes, asked.tuned),
        [],
    )
    with tempfile.TemporaryDirectory() as folder:
        limit = Limit(folder, asked.seconds)
        nothing = median(limit.run(['true'])[1] for _ in range(51))  # which all times include
        print(f'a process that does nothing: {1000 * nothing:.1f} ms', file=sys.stderr)
        others = (
            [row for row in of_solvers(read_rows(asked.others)) if row['program'] != 'nonobench']
            if asked.others
            else []
        )
        earlier = by('picture', others)
        found = {'nonobench': by_nonobench(program)} if asked.others else solvers(program, folder)
        for picture in sorted(file for one in asked.folder for file in Path(one).rglob('*.ppm')):
            try:
                task, done = answers(found, program, limit, picture.resolve())
            except Fault as fault:
                print(f'{picture.name}: left out, {fault.name}', file=sys.stderr)
                continue
            known = naming.of(picture) | {
                'width': task.width,
                'height': task.height,
                'colours': len(task.colours),
            }
            done = [
                known | dict(zip(('program', 'answer', 'seconds', 'bytes'), row)) for row in done
            ]
            rows += done[:1] + (kept_rows(earlier, done[0]) if earlier else []) + done[1:]
    if asked.csv:
        write_rows(asked.csv, rows)
    print_tables(rows)


if __name__ == '__main__':
    main()
