#!/usr/bin/env python3
"""Measures clausal proofs that a picture is the only one with its clues: measure/clausal.py CSV
FOLDER .. [--seconds N]

For each picture that the CSV of others.py calls unique, cadical gets the clauses of others.py, and
writes a DRAT proof that they have no solution. lrat.cpp adds hints to it (LRAT), and a checker that
is verified in ACL2 checks the result: Debian's books projects/sat/lrat/stobj-based, with their
certificates. Each step has N seconds of one processor, by default 10, and is a process of its own.
The rows, with the lengths of both proofs, are put into the CSV, in place of those of an earlier
run. In Debian: apt-get install cadical acl2-books g++.
"""
import argparse
import subprocess
import sys
import tempfile
from pathlib import Path

sys.dont_write_bytecode = True
HERE = Path(__file__).resolve().parent
sys.path.insert(0, str(HERE))
from others import Limit, Task, read_ppm, write_clauses  # noqa: E402
from others_tables import (  # noqa: E402
    CLAUSAL,
    HINTS,
    VERIFIED,
    print_tables,
    read_rows,
    write_rows,
)

BOOK = '(include-book "projects/sat/lrat/stobj-based/run" :dir :system)\n'


def proof(limit, lrat, picture):
    """The rows of a picture's proof: each step with its time, and the length of what it wrote. A
    proof that is refused is an error."""
    write_clauses(Task(read_ppm(picture.read_bytes()).rows), limit.folder / 'clauses')
    printed, took = limit.run(['cadical', '-q', 'clauses', 'proof'])
    if printed is None or 'UNSATISFIABLE' not in printed:
        return [(CLAUSAL, 'open', took, None)]
    rows = [(CLAUSAL, 'unique', took, (limit.folder / 'proof').stat().st_size)]
    printed, took = limit.run([lrat, 'clauses', 'proof'])
    if not printed:
        return [*rows, (HINTS, 'open', took, None)]
    (limit.folder / 'hints').write_text(printed)
    rows.append((HINTS, 'unique', took, len(printed)))
    printed, took = limit.run(['acl2'], BOOK + '(lrat::lrat-check "clauses" "hints")\n')
    if printed is None:
        return [*rows, (VERIFIED, 'open', took, None)]
    if 's VERIFIED' not in printed:
        raise SystemExit(f'{picture}: its proof was not accepted')
    return [*rows, (VERIFIED, 'accepted', took, None)]


def main():
    """Each picture that is unique."""
    parser = argparse.ArgumentParser(description=__doc__.splitlines()[0])
    parser.add_argument('csv')
    parser.add_argument('folder', nargs='+')
    parser.add_argument('--seconds', type=float, default=10)
    asked = parser.parse_args()
    pictures = {
        file.stem: file for one in asked.folder for file in sorted(Path(one).rglob('*.ppm'))
    }
    rows = [row for row in read_rows(asked.csv) if row['program'] not in (CLAUSAL, HINTS, VERIFIED)]
    made = []
    with tempfile.TemporaryDirectory() as folder:
        limit, lrat = Limit(folder, asked.seconds), str(Path(folder) / 'lrat')
        subprocess.run(['c++', '-O2', '-std=c++17', '-o', lrat, str(HERE / 'lrat.cpp')], check=True)
        print(
            f'acl2 with its book, and nothing to check: {limit.run(["acl2"], BOOK)[1]:.1f} s',
            file=sys.stderr,
        )
        for row in rows:
            if row['program'] == 'nonobench' and row['answer'] == 'unique':
                for words in proof(limit, lrat, pictures[row['picture']].resolve()):
                    print(row['picture'], *words, file=sys.stderr, flush=True)
                    made.append(
                        {**row, **dict(zip(('program', 'answer', 'seconds', 'bytes'), words))}
                    )
    write_rows(asked.csv, rows + made)
    print_tables(rows + made)


if __name__ == '__main__':
    main()
