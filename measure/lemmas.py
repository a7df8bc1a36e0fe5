#!/usr/bin/env python3
"""Compares proofs by lemmas with certificates and with a native trial: measure/lemmas.py NATIVE
PROGRAM

NATIVE is a folder with P3 files in `pictures/` and `hard/`, and the sources `lemcert.cpp` and
`lemcheck_min.cpp` of the trial in `lemmas/`. PROGRAM is `nonobench`. It needs g++ and valgrind. Of
each picture it prints the bytes of its certificate and of its proof, and the instructions with
which each proof is checked: ours by `check`, the trial's by its checker. What a picture of one cell
takes is subtracted. A picture that takes more than 10 seconds is left out, and counted.
"""
import statistics
import subprocess
import sys
import tempfile
from pathlib import Path

import native
from others import Limit

SECONDS = 10


def said(words, asked=''):
    """What a command prints, or None if it takes too long."""
    return Limit('.', SECONDS).run([str(word) for word in words], asked)[0]


def answer(text):
    """The first word of an answer that is one of those that are known."""
    if text is None:
        return 'open'
    return next(
        (
            word
            for word in text.split()
            if word in ('unique', 'ambiguous', 'undecided', 'nonocert', 'nonolemma')
        ),
        'open',
    )


class Start:
    """What a checker takes for a picture of one cell, with the files that it needs for that."""

    def __init__(self, work, program, maker, checker):
        cell, proof, nested = work / 'cell.ppm', work / 'cell.proof', work / 'cell.nested'
        cell.write_text(native.CELL)
        proof.write_text(said([program, 'prove', cell]))
        said([maker, cell, '--nested', nested])
        self.ours = native.collected([program, 'check', cell, proof])[0]
        self.theirs = native.collected([checker, cell, nested])[0]


def proofs(pictures, work, program, maker, checker):
    """The sizes of certificates and proofs, and what a check costs."""
    start = Start(work, program, maker, checker)
    proof, nested = work / 'proof', work / 'nested'
    sizes, ratios = [], []
    print(
        f'{"picture":<26} {"verdict":<10} {"certificate":>12} {"proof":>10} {"verify":>14} {"trial":>14} {"times":>6}'  # noqa: E501
    )
    for picture in pictures:
        verdict = answer(said([program, 'work', picture], 'verdict\n'))
        text = said([program, 'prove', picture])
        if answer(text) != 'nonolemma':
            print(f'{picture.stem:<26} {verdict:<10} prove: {answer(text)}', flush=True)
            continue
        proof.write_text(text)
        certificate = said([program, 'work', picture], 'certify\n')
        length = len(certificate) if answer(certificate) == 'nonocert' else None
        ours = native.less(native.collected([program, 'check', picture, proof])[0], start.ours)
        nested.unlink(missing_ok=True)
        said([maker, picture, '--windows', '--limit', str(1000 * SECONDS), '--nested', nested])
        theirs = (
            native.less(native.collected([checker, picture, nested])[0], start.theirs)
            if nested.exists()
            else None
        )
        sizes.append((length, len(text)))
        ratios += [ours / theirs] if theirs else []
        times = f'{ours / theirs:.2f}' if theirs else '-'
        print(
            (
                f'{picture.stem:<26} {verdict:<10} {length or "-":>12} {len(text):>10} {ours:>14} {theirs or "-":>14} {times:>6}'  # noqa: E501
            ),
            flush=True,
        )
    made = [length for length, _ in sizes if length]
    print(
        f'median of {len(made)} certificates: {statistics.median(made):.0f} bytes, of'
        f' {len(sizes)} proofs: {statistics.median(size for _, size in sizes):.0f}; proofs above 1'
        f' MiB: {sum(size > 1 << 20 for _, size in sizes)}'
    )
    print(
        f'checks: median {statistics.median(ratios):.2f} times the trial, largest {max(ratios):.2f}'
    )


def main():
    words = [Path(word) for word in sys.argv[1:]]
    if len(words) != 2:
        sys.exit(__doc__)
    folder, program = words
    pictures = sorted((folder / 'pictures').glob('*.ppm')) + sorted((folder / 'hard').glob('*.ppm'))
    with tempfile.TemporaryDirectory() as name:
        work = Path(name)
        maker, checker = work / 'lemcert', work / 'lemcheck'
        subprocess.run(
            [
                'g++',
                '-std=c++17',
                '-O2',
                '-w',
                '-o',
                maker,
                folder / 'lemmas/lemcert.cpp',
                '-lpthread',
            ],
            check=True,
        )
        subprocess.run(
            ['g++', '-std=c++17', '-O2', '-w', '-o', checker, folder / 'lemmas/lemcheck_min.cpp'],
            check=True,
        )
        proofs(pictures, work, program, maker, checker)


if __name__ == '__main__':
    main()
