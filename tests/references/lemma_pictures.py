#!/usr/bin/env python3
"""Certificates with lemmas of all small pictures, by a built `lemma_tables`:
tests/references/lemma_pictures.py PROGRAM [SEED]

Brute force over all pictures of a size says which of them are unique. Each of these must get a
certificate that the checker of plain_forms.py accepts, and each other one is ambiguous. The
program's checker must accept the same certificates. Then it gets those of other pictures with lines
changed at random: it must accept those that the plain checker accepts.
"""
import random
import subprocess
import sys
import tempfile
from pathlib import Path

sys.dont_write_bytecode = True
ROOT = Path(__file__).resolve().parent.parent.parent
sys.path.insert(0, str(ROOT / 'tests/references'))
from plain_forms import answer as plain_answer  # noqa: E402
from small_pictures import PATIENCE, TRIPLES, Listing  # noqa: E402

SIZES = (
    (1, 1, 2),
    (1, 5, 3),
    (5, 1, 3),
    (2, 2, 3),
    (2, 3, 3),
    (3, 3, 2),
    (3, 4, 2),
)  # height, width, colours
HEAD = 'nonolemma 2'


def ppm_of(rows):
    """A picture as a P3 text."""
    cells = ' '.join(TRIPLES[cell] for row in rows for cell in row)
    return f'P3\n{len(rows[0])} {len(rows)}\n255\n{cells}\n'


def accepts(rows, text):
    """Whether the plain checker takes a certificate."""
    return plain_answer(ppm_of(rows).encode(), text.encode()).startswith('accepted')


def answers_in(printed):
    """What is printed of each picture: a proof, or a word."""
    answers = []
    for line in printed.splitlines():
        if line in (HEAD, 'ambiguous', 'undecided'):
            answers.append('')
        answers[-1] += line + '\n'
    return answers


class Trial:
    """The program under test in a folder, and what went wrong."""

    def __init__(self, program, folder):
        self.program = program
        self.folder = Path(folder)
        self.failed = 0

    def run(self, lines):
        """What the program prints of some lines."""
        ended = subprocess.run(
            [self.program],
            cwd=self.folder,
            input='\n'.join(lines) + '\n',
            text=True,
            capture_output=True,
            timeout=PATIENCE,
            check=True,
        )
        return ended.stdout

    def file(self, name, text):
        """A file with a text, by its name."""
        (self.folder / name).write_text(text, encoding='ascii')
        return name

    def must(self, holds, why):
        """Tells what does not hold."""
        if not holds:
            self.failed += 1
            print(f'FAILED: {why}')

    def checked(self, pairs, unique):
        """Compares what both checkers say of pictures with certificates, which only unique ones can
        have. How many are taken."""
        lines = [
            f'{name} {self.file(f"proof{at}", text)}' for at, (name, _, text) in enumerate(pairs)
        ]
        taken = 0
        for (name, rows, text), answer in zip(pairs, self.run(lines).splitlines(), strict=True):
            wanted = accepts(rows, text)
            taken += wanted
            self.must(
                (answer == 'accepted') == wanted and (name in unique or not wanted),
                f'{rows} {text!r}: {answer}',
            )
        return taken


def listed(trial):
    """All pictures of all sizes, each with a file and whether it is unique."""
    for size in SIZES:
        listing = Listing(*size)
        for at, rows in enumerate(listing.pictures):
            name = trial.file('picture' + '-'.join(map(str, (*size, at))), ppm_of(rows))
            yield name, rows, not listing.others(rows, ())


def changed(proof, others, chance):
    """A proof of which up to two lines are dropped or changed for lines of others."""
    lines = proof.splitlines()
    for _ in range(chance.randrange(3)):
        at = chance.randrange(1, len(lines) + 1)
        lines[at : at + chance.randrange(2)] = [
            chance.choice(chance.choice(others).splitlines()[1:])
        ][: chance.randrange(2)]
    return '\n'.join(lines) + '\n'


def main():
    chance = random.Random(int(sys.argv[2]) if len(sys.argv) > 2 else 1)
    with tempfile.TemporaryDirectory() as folder:
        trial = Trial(str(Path(sys.argv[1]).resolve()), folder)
        pictures = list(listed(trial))
        answers = answers_in(trial.run([name for name, _, _ in pictures]))
        proved = []
        for (name, rows, is_unique), answer in zip(pictures, answers, strict=True):
            if is_unique:
                trial.must(answer.startswith(HEAD), f'{rows} is unique: {answer}')
                proved.append((name, rows, answer))
            else:
                trial.must(answer == 'ambiguous\n', f'{rows} is ambiguous: {answer}')
        unique = {name for name, _, _ in proved}
        taken = trial.checked(proved, unique)
        trial.must(taken == len(proved), f'{len(proved) - taken} proofs are refused')
        proofs = [text for _, _, text in proved]
        others = [
            (name, rows, changed(chance.choice(proofs), proofs, chance))
            for name, rows, _ in pictures
        ]
        taken = trial.checked(others, unique)
    print(
        f'{len(pictures)} pictures, {len(proved)} proofs, {taken} of {len(others)} others taken,'
        f' {trial.failed} failed'
    )
    return 1 if trial.failed or taken == len(others) else 0


if __name__ == '__main__':
    sys.exit(main())
