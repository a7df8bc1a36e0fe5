"""The checker that one can read, examples/check.py, beside the library: both must say the same of
each certificate of the cases, and of certificates that were damaged at random."""

import importlib.util
import random

import pytest
from test_cases import lines_of, picture_of, printed, rows
from tried import EXAMPLES

import nonobench

spec = importlib.util.spec_from_file_location('check', EXAMPLES / 'check.py')
check = importlib.util.module_from_spec(spec)
spec.loader.exec_module(check)


def is_accepted(picture, certificate, givens=b''):
    try:
        check.check(picture.encode(), certificate, givens)
    except check.Refused:
        return False
    return True


def all_cells(height, width):
    return [(row, column) for row in range(1, height + 1) for column in range(1, width + 1)]


def as_file(cells):
    return ''.join(f'given {row} {column}\n' for row, column in cells).encode()


@pytest.mark.parametrize('kind', ('certificates', 'lemmas'))
def test_cases(kind):
    """Any cells may be given."""
    for row in rows(kind):
        text, answer = row.values
        cells, _, certificate = text.partition(' ')
        given = as_file(all_cells(cells.count('/') + 1, len(cells.split('/')[0])))
        said = is_accepted(picture_of(cells), printed(certificate), given)
        assert said == answer.startswith('certificate accepted'), row.id


def test_published():
    for row in rows('published'):
        text, answer = row.values
        cells, published, certificate = text.split(' ', 2)
        if published != 'any':
            places = [] if published == '-' else published.split(';')
            given = lines_of(places).encode()
            said = is_accepted(picture_of(cells), printed(certificate), given)
            assert said == ('certificate accepted' in answer), row.id


def certificates(chance):
    """Pictures with certificates of all forms, some with givens."""
    for size in (2, 3, 4, 5, 6):
        for colours in ('.a', '.aab', '.abc'):
            cells = '/'.join(''.join(chance.choices(colours, k=size)) for _ in range(size))
            picture = picture_of(cells.replace('c', 'a'))
            proved = nonobench.prove(picture.encode())
            if proved.certificate is not None:
                yield picture, proved.certificate, (size, size)
                yield picture, proved.certificate.replace(b'1', b'2', 1), (size, size)
    for name in ('flower', 'crab', 'heart'):
        picture = (EXAMPLES / f'{name}.ppm').read_text()
        certificate = nonobench.prove(picture.encode()).certificate
        if certificate is not None:
            yield picture, certificate, (20, 20)


def damaged(certificate, chance):
    """A certificate with a line left out, doubled, moved or cut, or with a number or letter of one
    changed."""
    lines = certificate.split(b'\n')
    at, other = chance.randrange(len(lines)), chance.randrange(len(lines))
    kind = chance.randrange(6)
    if kind == 0:
        del lines[at]
    elif kind == 1:
        lines.insert(other, lines[at])
    elif kind == 2:
        lines[at], lines[other] = lines[other], lines[at]
    elif kind == 3:
        del lines[at:]
    elif kind == 4:
        lines.insert(
            at, chance.choice((b'done', b'dead r 1', b'line r 1', b'split 1 1', b'drop 1'))
        )
    else:
        letter = chance.choice(b'0123456789 rclabc.')
        text = bytearray(lines[at] or b'x')
        text[chance.randrange(len(text))] = letter
        lines[at] = bytes(text)
    return b'\n'.join(lines)


@pytest.mark.since('0.8.0')
@pytest.mark.parametrize(
    'count', (500, pytest.param(10_000, marks=pytest.mark.all)), ids=('some', 'many')
)
def test_damaged(library, count):
    chance = random.Random(count)
    known = list(certificates(chance))
    answers = set()
    for _ in range(count):
        picture, certificate, size = chance.choice(known)
        text = damaged(certificate, chance)
        try:
            nonobench.check(picture.encode(), text)
            wanted = True
        except nonobench.NonobenchError:
            wanted = False
        assert is_accepted(picture, text) == wanted, (picture, text)
        answers.add(wanted)
    assert answers == {True, False}
