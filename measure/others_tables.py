#!/usr/bin/env python3
"""Prints the two tables of docs/COMPARISON.md from the rows that others.py and clausal.py wrote:
measure/others_tables.py CSV

With --said DOCUMENT it prints nothing: each row of the tables must be in the document, whatever its
first cell says.
"""
import csv
import re
import sys
from pathlib import Path
from statistics import median

COLUMNS = [
    'picture',
    'class',
    'tuned',
    'width',
    'height',
    'colours',
    'program',
    'answer',
    'seconds',
    'bytes',
]
# The steps of a certificate and of a proof by lemmas, which are not answers of a solver.
CERTIFY, CHECK = 'nonobench certify', 'nonobench check'
PROVE, VERIFY = 'nonobench prove', 'nonobench verify'
# The steps of a clausal proof, which clausal.py measures.
CLAUSAL, HINTS, VERIFIED = 'cadical, DRAT', 'hints, LRAT', 'acl2, check'


def read_rows(path):
    """The rows of a CSV of others.py, seconds and bytes as numbers."""
    with open(path, encoding='utf-8', newline='') as file:
        rows = list(csv.DictReader(file))
    for row in rows:
        row['seconds'] = float(row['seconds'])
        row['bytes'] = int(row['bytes']) if row['bytes'] else None
    return rows


def write_rows(path, rows):
    """Writes the rows as CSV."""
    with open(path, 'w', encoding='utf-8', newline='') as file:
        writer = csv.DictWriter(file, COLUMNS, lineterminator='\n')
        writer.writeheader()
        for row in rows:
            writer.writerow(
                {
                    **row,
                    'seconds': f'{row["seconds"]:.4f}',
                    'bytes': '' if row['bytes'] is None else row['bytes'],
                }
            )


def by(key, rows):
    """The rows as lists by one of their columns, in the order in which its values first occur."""
    groups = {}
    for row in rows:
        groups.setdefault(row[key], []).append(row)
    return groups


def of_solvers(rows):
    """The rows that are answers, without the making and checking of certificates and proofs."""
    return [
        row
        for row in rows
        if row['program'] not in (CERTIFY, CHECK, PROVE, VERIFY, CLAUSAL, HINTS, VERIFIED)
    ]


def answer_table(rows):
    """What each program answered, in how much time."""
    yield (
        '| | unique | ambiguous | open | all together, s | median, ms |\n|---|---|---|---|---|---|'
    )
    # An open picture counts all the time that it had, also if a program gave up before.
    most = max(row['seconds'] for row in rows)
    for name, done in by('program', of_solvers(rows)).items():
        said = [row['answer'] for row in done]
        took = [most if row['answer'] == 'open' else row['seconds'] for row in done]
        yield (
            f'| {name} | {said.count("unique")} | {said.count("ambiguous")} |'
            f' {said.count("open")} | {sum(took):.1f} | {1000 * median(took):.0f} |'
        )


def proof_table(rows):
    """How long the proofs are that a picture is the only one, and the longest times to make and to
    check them: certificates with lemmas, and clausal proofs without and with hints."""
    yield (
        '| | proofs | median, bytes | largest, bytes | longest to make, ms | longest to check, ms |'
        '\n|---|---|---|---|---|---|'
    )
    for name, check in ((PROVE, VERIFY), (CLAUSAL, None), (HINTS, VERIFIED)):
        made = [row for row in rows if row['program'] == name and row['bytes'] is not None]
        checked = [row['seconds'] for row in rows if row['program'] == check]
        if made:
            sizes = [row['bytes'] for row in made]
            yield (
                f'| {name} | {len(made)} | {median(sizes):,.0f} | {max(sizes):,} |'
                f' {1000 * max(row["seconds"] for row in made):.0f} |'
                + (f' {1000 * max(checked):.0f} |' if checked else ' |')
            )


def tables(rows):
    """The lines of each table; the first leaves out the pictures on which nonobench was
    improved."""
    others = [row for row in rows if not row['tuned']]
    return [list(answer_table(others or rows)), list(proof_table(rows))]


def print_tables(rows):
    """Prints the tables."""
    for lines in tables(rows):
        print(*lines, sep='\n', end='\n\n')


def cells_of(line):
    """The cells of a table's line without the first, and without the commas in numbers."""
    return [
        re.sub(r'(?<=\d),(?=\d{3})', '', cell.strip())
        for cell in line.strip().strip('|').split('|')
    ][1:]


def unsaid(rows, document):
    """The rows of the tables that a document does not have."""
    said = [cells_of(line) for line in document.splitlines() if line.startswith('|')]
    return [line for lines in tables(rows) for line in lines[1:] if cells_of(line) not in said]


def main():
    """The tables; or whether a document has them."""
    words = sys.argv[1:]
    if len(words) == 1:
        print_tables(read_rows(words[0]))
        return 0
    if len(words) != 3 or words[1] != '--said':
        sys.exit(__doc__.splitlines()[0])
    faults = unsaid(read_rows(words[0]), Path(words[2]).read_text(encoding='utf-8'))
    print(*faults, f'the comparison: {len(faults)} faults', sep='\n')
    return 1 if faults else 0


if __name__ == '__main__':
    sys.exit(main())
