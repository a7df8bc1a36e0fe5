"""One table, many hosts: what is said of a puzzle that is to be published stands in
tests/cases/fit.txt, worked out by hand, and each host answers it. The hosts in JavaScript read the
same table in their own tests.
"""

import io
import json
import os
import re
import sys
from dataclasses import dataclass

import pytest
from tried import CASES, ROOT, ended, needs, needs_file, passes

ENV = {**os.environ, 'PYTHONPATH': str(ROOT / 'python' / 'src'), 'PYTHONDONTWRITEBYTECODE': '1'}
BOUNDS = ['--seconds', '300', '--jobs', '1' if os.environ.get('SHORT') else '2']
REFUSED = 'refused '


@dataclass(frozen=True)
class Case:
    """A puzzle, and what is said of it."""

    name: str
    picture: bytes
    background: str | None
    givens: tuple[tuple[int, int], ...]
    certificate: bytes | None
    lines: tuple[str, ...]

    @property
    def answer(self):
        return ''.join(f'{line}\n' for line in self.lines)

    @property
    def refusal(self):
        """Why the puzzle is refused; None where it is answered."""
        return self.lines[0].removeprefix(REFUSED) if self.lines[0].startswith(REFUSED) else None

    @property
    def is_fit(self):
        return self.lines[-1] == 'fit'

    @property
    def flaws(self):
        return [line.removeprefix('flaw ') for line in self.lines if line.startswith('flaw ')]

    @property
    def triple(self):
        return None if self.background is None else tuple(map(int, self.background.split(',')))

    @property
    def file(self):
        """The file of givens."""
        return b''.join(b'given %d %d\n' % place for place in self.givens)

    def lay(self, folder):
        """The files of the puzzle, as an audit finds them: their paths, by what they are."""
        from nonobench.collection.finding import ENDINGS

        parts = {
            'picture': self.picture,
            'background': (self.background or '').encode(),
            'givens': self.file,
            'certificate': self.certificate,
        }
        paths = {
            what: folder / f'{self.name}.ppm{ending}'
            for ending, what in {'': 'picture', **ENDINGS}.items()
            if parts[what]
        }
        for what, path in paths.items():
            path.write_bytes(parts[what])
        return paths


def case_of(block):
    fields = dict(line.split(' ', 1) for line in block.splitlines() if not line.startswith('#'))
    if not fields:
        return None
    triples = dict(zip('.abcdefghijklmno', fields['colours'].split(' ')))
    rows = fields['rows'].split('/')
    cells = ''.join(triples[letter].replace(',', ' ') + '\n' for row in rows for letter in row)
    certificate = fields.get('certificate')
    return Case(
        fields['case'],
        f'P3\n{len(rows[0])} {len(rows)}\n{fields.get("maxval", "255")}\n{cells}'.encode(),
        fields.get('background'),
        tuple(tuple(map(int, word.split(','))) for word in fields.get('givens', '').split()),
        certificate and ''.join(f'{line}\n' for line in certificate.split('; ')).encode(),
        tuple(fields['answer'].split('; ')),
    )


TABLE = [
    case
    for case in map(case_of, (CASES / 'fit.txt').read_text(encoding='utf-8').split('\n\n'))
    if case
]
BY_CERTIFICATE = [case for case in TABLE if case.certificate is not None]
FLAWS = {flaw.split(' ')[0] for case in TABLE for flaw in case.flaws}


def test_the_table():
    """It has each flaw, with and without certificates, and no name twice."""
    assert FLAWS == {'blank', 'background', 'given', 'alike'}
    assert FLAWS <= {flaw.split(' ')[0] for case in BY_CERTIFICATE for flaw in case.flaws}
    assert len({case.name for case in TABLE}) == len(TABLE) > 25


def said_by(ask, case):
    """What a call of the Python package answers, in lines."""
    import nonobench

    try:
        said = ask(case.picture, case.certificate, case.triple, case.givens)
    except nonobench.NonobenchError as error:
        return f'{REFUSED}{error}\n', None
    return said.text, said


def lines_of(said):
    """The fields of an assessment, as lines."""
    verdict, grade = said.verdict, said.grade
    yield verdict.ruling.value
    yield from verdict.other or ()
    yield f'size {said.rows} {said.columns}'
    for name in ('colours', 'givens', 'open'):
        yield f'{name} {getattr(said, name)}'
    if grade:
        yield f'grade {" ".join(str(figure) for figure in grade if figure is not None)}'
    yield from (f'flaw {flaw}' for flaw in said.flaws)
    yield 'fit' if said.is_fit else 'unfit'


@pytest.mark.since('0.8.0')
@pytest.mark.parametrize('host', ['library', 'Worker'])
def test_python(library, host):
    import nonobench

    with nonobench.Worker(seconds=300) as worker:
        for case in TABLE:
            text, said = said_by(nonobench.assess if host == 'library' else worker.assess, case)
            assert text == case.answer, case.name
            assert said is None or tuple(lines_of(said)) == case.lines, case.name


@pytest.mark.since('0.8.0')
def test_any_given(library):
    """A certificate's givens are those that are published, whichever they are; and an error of the
    certificate is reported as its own."""
    import nonobench

    for case in BY_CERTIFICATE:
        if case.lines[0] != f'{REFUSED}certificate NotDone at line 6':
            said = nonobench.assess(
                case.picture, case.certificate, case.triple, nonobench.ANY_GIVEN
            )
            assert said.givens == len(said.named) == case.certificate.count(b'given '), case.name
    with pytest.raises(nonobench.CertificateError, match='^certificate Place at line 2$'):
        nonobench.assess(
            TABLE[0].picture, b'nonocert 2\ngiven 9 9\ndone\n', published=nonobench.ANY_GIVEN
        )
    with pytest.raises(nonobench.GivensError, match='^givens Place at line 1$'):
        nonobench.assess(TABLE[0].picture, published=[(9, 9)])
    with pytest.raises(nonobench.UnpublishedGivenError) as caught:
        nonobench.assess(
            *next((case.picture, case.certificate) for case in TABLE if 'unpublished' in case.name)
        )
    assert caught.value.givens == ((1, 1),)


@pytest.mark.since('0.8.0')
def test_an_allowance(library):
    """Under one a puzzle may be undecided, and is not fit then; whether a given is needed is known
    under any."""
    import nonobench

    picture = nonobench.picture_of(2, 2, [(0, 0, 0), (255, 255, 255), (255, 255, 255), (0, 0, 0)])
    for allowance in (-1, 100_000, 'of'):
        with pytest.raises(ValueError):
            nonobench.assess(picture, allowance=allowance)
    with pytest.raises(ValueError, match='background goes with a P3 text'):
        nonobench.assess(b'', background=(0, 0, 0), non=True)
    said = nonobench.assess(picture, allowance=0)
    assert (said.verdict.ruling, said.is_fit, said.grade) == (
        nonobench.Ruling.UNDECIDED,
        False,
        None,
    )
    said = nonobench.assess(picture, published=[(2, 2)], allowance=0)
    assert (said.is_fit, said.flaws) == (True, ())
    for allowance in (None, 'off'):
        said = nonobench.assess(picture, allowance=allowance)
        assert said.verdict.ruling is nonobench.Ruling.AMBIGUOUS


def test_a_puzzle_of_two_colours(library):
    import nonobench

    text = b'width 2\nheight 1\nrows\n1\ncolumns\n1\n0\n'
    with pytest.raises(nonobench.NonobenchError, match='^non NoGoal$'):
        nonobench.assess(text, non=True)
    # The row settles nothing, and each column its cell.
    said = nonobench.assess(text + b'goal "10"\n', non=True)
    assert said.text == 'unique\nsize 1 2\ncolours 2\ngivens 0\nopen 0\ngrade easy 1 3 2 0 0\nfit\n'


GRADE = re.compile(r'(\S+)(?: given ([\d, ]+?))?(?: verdict (\w+))?(?: map (\S+))?(?: cert (.*))?')
# What only a solver can be asked that is told the verdict, or compares its map with another one.
OF_A_SOLVER = {'no grade: undecided', 'no grade: map', 'no grade: certificate'}


def graded(words):
    """The grade of a case as tests/cases/grade.case has it."""
    import nonobench

    rows, given, _, _, certificate = GRADE.fullmatch(words).groups()
    triples = {
        '.': (255, 255, 255),
        **{letter: (15 * at, 255 - 15 * at, 0) for at, letter in enumerate('abcdefghijklmno')},
    }
    cells = [triples[letter] for row in rows.split('/') for letter in row]
    picture = nonobench.picture_of(len(rows.split('/')[0]), len(rows.split('/')), cells)
    # Colours are numbered as they first appear, and the branches of a split are in that order.
    assert not certificate or [*dict.fromkeys(rows.replace('/', '').replace('.', ''))] == sorted(
        {*rows} - {'/', '.'}
    ), rows
    encoded = certificate and certificate.replace('\\n', '\n').encode()
    said = nonobench.assess(
        picture,
        encoded,
        published=[tuple(map(int, word.split(','))) for word in (given or '').split()],
    )
    if said.grade is None:
        return f'no grade: {said.verdict.ruling.value}'
    word, rounds, evaluations, wait, splits, depth = said.grade
    front = (
        f'{word.replace("-", " ")}: rounds {rounds}, evaluations {evaluations}, longest wait {wait}'
    )
    return f'{front}, open {said.open}, splits {splits}, depth {depth}' if said.open else front


def test_grades(library):
    lines = (CASES / 'grade.case').read_text(encoding='utf-8').splitlines()
    cases = [line.split(' => ') for line in lines if line and not line.startswith('#')]
    tried = [(words, wanted) for words, wanted in cases if wanted not in OF_A_SOLVER]
    assert len(tried) > 25
    for words, wanted in tried:
        said = graded(words)
        if ' cert ' in words:
            # The engine makes a tree of its own, whichever certificate comes with the puzzle.
            assert said == graded(words.split(' cert ')[0]), words
            said, wanted = figures_of(said), figures_of(wanted)
        assert said == wanted, words


def figures_of(grade):
    """What a grade has from line logic alone."""
    return grade.partition(': ')[2].partition(', splits')[0]


def test_colours_alike(library):
    """The pairs of tests/cases/near_colours.txt, either way round."""
    import nonobench

    lines = (CASES / 'near_colours.txt').read_text(encoding='utf-8').splitlines()
    for line in filter(lambda line: line and not line.startswith('#'), lines):
        one, other, wanted = line.split(' ')
        pair = [tuple(map(int, word.split(','))) for word in (one, other)]
        for first, second in (pair, pair[::-1]) if one != other else ():
            said = nonobench.assess(nonobench.picture_of(2, 1, [first, second]), background=first)
            assert said.flaws == (
                (nonobench.Flaw('alike', None, ('.', 'a')),) if wanted == 'near' else ()
            ), line


@pytest.mark.since('0.8.0')
@pytest.mark.compiler
@pytest.mark.parametrize('words', [(), ('-DBIG',)], ids=('as it is', 'with more fields'))
def test_c(library, words, tmp_path):
    """The fields of an assessment by C are those of the table, without the other picture; also if
    the caller's struct has more fields than the library knows."""
    needs('cc')
    archive = needs_file(library.with_suffix('.a'), 'c/build')
    program = tmp_path / 'assess'
    passes(
        [
            'cc',
            '-std=c11',
            '-Wall',
            '-Wextra',
            '-Werror',
            '-O1',
            *words,
            f'-I{ROOT}/c',
            ROOT / 'tests/packages/assess.c',
            archive,
            '-o',
            program,
        ]
    )
    for case in TABLE:
        paths = case.lay(tmp_path)
        run = ended(
            [
                program,
                paths['picture'],
                paths.get('certificate', '-'),
                case.background or '-',
                *(f'{row},{column}' for row, column in case.givens),
            ]
        )
        wanted = [
            line
            for line in case.lines
            if case.lines[0] != 'ambiguous' or not set(line) <= set('.a')
        ]
        assert run.wrote.decode().splitlines() == wanted, (case.name, run)


@pytest.mark.since('0.8.0')
def test_program(build, tmp_path):
    """The command `assess`, over the files of each puzzle."""
    for case in TABLE:
        paths = case.lay(tmp_path)
        options = {
            '--background': case.background,
            '--givens': paths.get('givens'),
            '--certificate': paths.get('certificate'),
        }
        words = [word for option, value in options.items() if value for word in (option, value)]
        run = ended([build.program('nonobench'), 'assess', paths['picture'], *words])
        assert (run.status, run.wrote.decode(), run.said) == (
            0 if case.is_fit else 1,
            case.answer,
            b'',
        ), case.name


def audited(folder, *words):
    """The rows of an audit by their names, and its status."""
    run = ended(
        [
            sys.executable,
            '-m',
            'nonobench.audit',
            'site',
            *BOUNDS,
            '--quiet',
            '--jsonl',
            'rows',
            *words,
        ],
        cwd=folder,
        env=ENV,
    )
    rows = map(json.loads, (folder / 'rows').read_text().splitlines())
    return {row['file'].removesuffix('.ppm'): row for row in rows}, run.status


def row_lines(row):
    """A row of an audit in lines."""
    yield row['verdict']
    yield from row['other'].split('/') if 'other' in row else ()
    yield f'size {row["rows"]} {row["columns"]}'
    yield f'givens {len(row.get("givens", ()))}'
    yield f'open {row["open"]}'
    if 'grade' in row:
        yield ' '.join(
            ['grade', row['grade'].replace(' ', '-'), *map(str, row['figures'].values())]
        )
    yield from (f'flaw {flaw}' for flaw in row.get('flaws', ()))
    yield 'fit' if row['fit'] else 'unfit'


@pytest.mark.since('0.8.0')
def test_audit(library, tmp_path):
    """A certificate that is refused is told beside the verdict of a search."""
    site = tmp_path / 'site'
    site.mkdir()
    for case in TABLE:
        case.lay(site)
    rows, status = audited(tmp_path)
    assert status == 1
    for case in TABLE:
        row = rows.pop(case.name)
        assert row.get('certificate', {}).get('why') == case.refusal, case.name
        if case.refusal is None:
            assert list(row_lines(row)) == [
                line for line in case.lines if not line.startswith('colours ')
            ], case.name
            assert (
                row['background']
                == row['palette'][0]
                == (
                    'ffffff'
                    if case.triple in (None, (65535,) * 3)
                    else '%02x%02x%02x' % case.triple
                )
            )
    assert rows == {}


@pytest.mark.since('0.8.0')
@pytest.mark.parametrize('kind', ['blank', 'background', 'given', 'alike', 'any'])
def test_audit_allows(library, kind, tmp_path):
    """With the flaws of one kind, or of any, those puzzles count as fit."""
    site = tmp_path / 'site'
    site.mkdir()
    allowed = FLAWS if kind == 'any' else {kind}
    chosen = [
        case
        for case in TABLE
        if case.lines[0] == 'unique' and {flaw.split(' ')[0] for flaw in case.flaws} <= allowed
    ]
    assert not all(case.is_fit for case in chosen)
    for case in chosen:
        case.lay(site)
    assert [audited(tmp_path, *words)[1] for words in ((), ('--allow-flaw', kind))] == [1, 0]


@pytest.mark.since('0.8.0')
def test_certified(library, tmp_path):
    """Where a certificate counts alone, one that is refused is an error."""
    site = tmp_path / 'site'
    site.mkdir()
    for case in BY_CERTIFICATE:
        case.lay(site)
    rows, status = audited(tmp_path, '--certified')
    assert status == 1
    for case in BY_CERTIFICATE:
        row = rows.pop(case.name)
        assert row['fit'] == case.is_fit, case.name
        if case.refusal is None:
            assert row.get('flaws', []) == case.flaws, case.name
        else:
            assert row['error'].startswith(f'its certificate is refused: {case.refusal}')
    assert rows == {}


@pytest.mark.since('0.8.0')
def test_service(library):
    """It searches where there is no certificate."""
    pytest.importorskip('flask', reason='there is no Flask')
    from nonobench.service import POOL, create_app

    app = create_app(PROCESSES=1, SECONDS=300)
    client = app.test_client()
    for case in TABLE:
        data = {
            'puzzle': (io.BytesIO(case.picture), 'a.ppm'),
            'certificate': (case.certificate or b'').decode(),
            'givens': case.file.decode(),
            'background': case.background or '',
        }
        answer = client.post('/assess' if case.certificate is None else '/check', data=data)
        row = answer.get_json()
        assert row['fit'] == case.is_fit, (case.name, row)
        if case.refusal is None:
            assert row.get('flaws', []) == case.flaws, (case.name, row)
        else:
            assert case.refusal in row['error'], (case.name, row)
    app.extensions[POOL].shutdown()  # and its process
