"""The reference on rows worked by hand, and its two readings of a line against each other. Run
before a fuzzing."""
import random
import re
from pathlib import Path

import plain_forms
from plain_forms import Fault

from .assessments import Assessment, Solving, are_too_similar, by_listing, guesses_of, word_of
from .checks import answer
from .lines import clue_of, fillings, map_rows, narrow_by_listing, narrow_by_places, settled
from .non import read_non, write_non
from .pictures import Document, read_ppm
from .runs import Run, work_run
from .search import Keeper, Scene, pictures_with
from .sessions import agree

GRADES = Path(__file__).resolve().parents[2] / 'cases/grade.case'


def rows_of(text):
    """The rows of a picture that is written as rows joined by `/`."""
    return [['.abcdefghijklmno'.index(byte) for byte in row] for row in text.split('/')]


def ppm_of(text):
    """A P3 text of a picture in white, black and red."""
    rows = text.split('/')
    triples = {'.': '255 255 255', 'a': '0 0 0', 'b': '255 0 0'}
    return (
        'P3\n%d %d\n255\n' % (len(rows[0]), len(rows))
        + ''.join(triples[byte] + '\n' for row in rows for byte in row)
    ).encode()


def fault_of(call, *values):
    """The name and place of the fault of a call, or None."""
    try:
        call(*values)
    except Fault as fault:
        return fault.name if fault.place is None else (fault.name, fault.place)
    return None


def must(got, wanted, what):
    """Says which row is wrong, and ends."""
    if got != wanted:
        raise SystemExit(f'the reference itself is wrong: {what}: wanted {wanted}, got {got}')


def test_lines(chance):
    """Worked lines, and both readings of random lines."""
    must(len(fillings(((2, 1), (1, 2)), 4)), 3, 'aab. aa.b .aab')
    must(narrow_by_places(((2, 1), (1, 2)), (0xFFFF,) * 4), (3, 2, 7, 5), '2a 1b in four cells')
    must(narrow_by_places(((1, 1), (1, 1)), (0xFFFF,) * 2), None, '1a 1a in two cells')
    must(set(narrow_by_places(((1, 1),) * 60, (0xFFFF,) * 120)), {3}, 'sixty blocks in 120 cells')
    for _ in range(400):
        length = chance.randint(1, 7)
        clue = clue_of([chance.choice((0, 1, 1, 2)) for _ in range(length)])
        masks = tuple(chance.choice((0xFFFF, 3, 5, 6, 7, 1)) for _ in range(length))
        must(narrow_by_places(clue, masks), narrow_by_listing(clue, masks), f'{clue} under {masks}')


def test_pictures():
    """Worked maps, verdicts and allowances."""
    for text, shown, count in (
        ('a./.a', '??/??', 2),
        ('a./.b', 'a./.b', 1),
        ('aa/a.', 'aa/a.', 1),
        ('a.../.a../..b./...b', '??../??../..??/..??', 4),
    ):
        scene = Scene(rows_of(text), ())
        must('/'.join(map_rows(scene.facts)), shown, f'the map of {text}')
        height, width = len(scene.rows), len(scene.rows[0])
        base = [[0xFFFF] * width for _ in range(height)]
        must(
            len(pictures_with(scene.clues, height, width, base)),
            count,
            f'the pictures with the clues of {text}',
        )
    for text, allowed, word in (
        ('a./.a', 0, 'undecided'),
        ('a./.a', 1, 'ambiguous'),
        ('a./.b', 0, 'unique'),
        ('a../.a./..a', 2, 'undecided'),
        ('a../.a./..a', 3, 'ambiguous'),
    ):
        must(
            Keeper(Scene(rows_of(text), ())).judge(allowed, 1000),
            word,
            f'{text} with {allowed} splits',
        )
    must(map_rows(settled(rows_of('a./.a'), [(0, 0)])), ['a.', '.a'], 'a given')


def test_texts():
    """Worked texts of P3, .non and certificates: what is wrong with each, and where."""
    for text, fault in (
        (b'', ('NotP3', 0)),
        (b'P3', ('Truncated', 2)),
        (b'P3\n121 1\n255\n', ('TooLarge', 3)),
        (b'P3 1#2', ('Truncated', 6)),
        (b'P3\n1 1\n255\n0 256 0\n', ('SampleOver', 13)),
        (b'P3\n1 1\n255\n0 0 0\n7\n', ('TrailingToken', 17)),
        (b'P3#\n1 1 255 0 0 0', None),
    ):
        must(fault_of(read_ppm, text), fault, text)
    grey = ''.join(f'{k} {k} {k}\n' for k in range(17))
    must(
        fault_of(read_ppm, f'P3\n17 1\n16\n{grey}'.encode()),
        ('TooManyColours', 116),
        'seventeen colours',
    )
    start = 'width 1|height 1|rows|1|columns|1|'
    for text, fault in (
        ('width 1|width 1|', 'Repeated'),
        ('width 121|height 1|', 'BadSize'),
        ('height 1|', 'MissingSize'),
        ('width 1|height 1|rows|1|', 'BadCount'),
        (start.replace('1|col', '2|col'), 'ClueTooLong'),
        (start.replace('1|col', '0,1|col'), 'BadClue'),
        (start + 'goal "1|', 'BadGoal'),
        (start + 'goal "0"|', 'GoalDisagrees'),
        (start + 'goal 1|', None),
    ):
        must(fault_of(read_non, text.replace('|', '\n').encode()), fault, text)
    must(
        write_non(rows_of('aa/a.')),
        b'width 2\nheight 2\nrows\n2\n1\ncolumns\n2\n1\ngoal "1110"\n',
        'write non',
    )
    puzzle = plain_forms.Puzzle(rows_of('a./.b'))
    proof = 'nonocert 1|line r 1|split 1 1|line c 1|dead r 2|line r 1|line c 1|line c 2|done'
    for text, fault in (
        (proof, None),
        (proof[:-5], ('Ended', 9)),
        (proof + '|done', ('Trailing', 10)),
        ('nonocert 1|line r 01', ('BadLine', 2)),
        ('nonocert 1|line r 3', ('Place', 2)),
        ('nonocert 3', ('NotCert', 1)),
        ('nonocert 2', ('Ended', 2)),
        ('nonocert 1|', ('BadLine', 2)),
    ):
        text = text.replace('|', '\n') + ('\n' if fault == ('BadLine', 2) else '')
        must(
            fault_of(lambda cert: plain_forms.check(puzzle, cert), text.encode()),
            fault,
            text,
        )


SESSIONS = (
    (
        'aa/a.',
        'verdict|paint 1 1 .|map|verdict|undo|report',
        (
            'unique|ok|??|??|ambiguous|a.|.a|ok|size 2 2|colours 2 maxval 255|. 255 255 255|a 0 0'
            ' 0|picture|aa|a.|clues|r 1: 2a|r 2: 1a|c 1: 2a|c 2: 1a|map|aa|a.|open 0|verdict'
            ' unique|history 0 1'
        ),
    ),
    (
        'a./.b',
        (
            'colour set . 1 1 1|colour set a 255 0 0|colour set a 256 0 0|colour set a 0 0 0|colour'
            ' set d 1 1 1|colour add 0 0 255|paint 1 2 c|undo|undo|paint 1 2 c|redo'
        ),
        (
            'refused: Background|refused: DuplicateColour|refused: SampleOver|refused:'
            ' NoChange|refused: Colour|ok|ok|ok|ok|refused: Colour|ok'
        ),
    ),
    (
        'a./.a',
        (
            'pin 1 1|map|verdict|why 1 1 .|why 1 1 a|why 1 2 a|pin 1 1|pin 3 1|unpin 2 2|unpin 1'
            ' 1|allow 0|verdict|allow 1|verdict|allow 0|verdict|certify|allow 00007|allow x'
        ),
        (
            'ok|a.|.a|unique|given|possible|by r 1 given 1=a|refused: NoChange|refused:'
            ' Place|refused: NoChange|ok|ok|undecided'
            ' 0|ok|ambiguous|.a|a.|ok|ambiguous|.a|a.|ambiguous|ok|refused: BadNumber'
        ),
    ),
    (
        '.a./aa./...',
        (
            'path|assess  of|assess off now|assess of now|path now|paint 2 1 .|paint 1 1'
            ' a|delete row 3|delete column 3|paint 1 2 .|path|allow 0|assess|pin 1'
            ' 1|path|assess|allow off|assess off'
        ),
        (
            'r 2 1 1 2=a|r 3 1 3 1=. 2=. 3=. stands|c 2 1 1 1=a given 3=.|c 3 1 2 1=. 2=. stands'
            '|r 1 2 1 1=. stands given 2=a|r 2 2 1 1=a given 3=.|open 0|refused: UnknownWord'
            '|refused: WordCount|refused: UnknownWord|refused:'
            ' WordCount|ok|ok|ok|ok|ok|open 4|ok|undecided|size 2 2|colours 2|givens 0|open'
            ' 4|unfit|ok|r 1 1 1 2=. stands given 1=a|c 1 1 1 2=. stands given 1=a|c 2 1 1 2=a'
            ' given 1=.|open 0|unique|size 2 2|colours'
            ' 2|givens 1|open 0|grade easy 1 4 2 0 0|fit|ok|unique|size 2'
            ' 2|colours 2|givens 1|open 0|grade easy 1 4 2 0 0|fit'
        ),
    ),
    (
        'a../..a',
        'pin 2 2|allow 0|assess',
        'ok|ok|undecided|size 2 3|colours 2|givens 1|open 4|unfit',
    ),
    ('a./.a', 'allow 0|verdict|certify|verdict', 'ok|undecided 0|ambiguous|ambiguous|.a|a.'),
    (
        'a.../.a../..b./...b',
        'allow 1|verdict|allow 0|paint 4 3 b|map|verdict',
        'ok|ambiguous|.a..|a...|..b.|...b|ok|ok|??..|??..|..b.|..bb|ambiguous|.a..|a...|..b.|..bb',
    ),
)


def test_sessions():
    """Worked sessions, replayed."""
    for picture, commands, answers in SESSIONS:
        run = Run(0, (answers.replace('|', '\n') + '\n').encode(), b'')
        work_run(run, ppm_of(picture), commands.replace('|', '\n').encode())


# Pictures, certificates with `|` for line feeds, and what is printed of them.
ANSWERS = (
    ('a', 'nonocert 1|line r 1|done', ('certificate accepted', 0)),
    (
        'a./.a',
        'nonocert 2|given 1 1|line r 1|line c 1|line r 2|done',
        ('certificate accepted, givens 1', 0),
    ),
    ('a./.a', 'nonocert 1|dead r 1', ('certificate NotDead at line 2', 1)),
    ('a', 'nonolemma 1|line c 1|done', ('certificate accepted', 0)),
    ('a./.a', 'nonolemma 2|given 1 1|line r1 c1 r2|done', ('certificate accepted, givens 1', 0)),
    ('a', 'nonolemma 1|done', ('certificate NotDone at line 2', 1)),
)


def test_answers():
    """Both readers, a picture that is none, and a certificate that is none."""
    for picture, text, wanted in ANSWERS:
        said = answer(ppm_of(picture), text.replace('|', '\n').encode(), None)
        agree(said == wanted, f'{picture} with {text}')
    agree(
        answer(b'P6\n', b'nonocert 1\n', None) == ('ppm NotP3 at byte 0', 1),
        'a picture that is none',
    )
    agree(
        answer(ppm_of('a'), b'nonolemma 3\n', None) == ('certificate NotCert at line 1', 1),
        'no certificate',
    )


# Pictures, capitals and commas for givens, and what their assessment says.
ASSESSED = (
    ('aaa/a.a/aaa', 'unique|size 3 3|colours 2|givens 0|open 0|grade easy 1 3 1 0 0|fit'),
    ('a./.a', 'ambiguous|.a|a.|size 2 2|colours 2|givens 0|open 4|unfit'),
    ('A./.a', 'unique|size 2 2|colours 2|givens 1|open 0|grade easy 1 4 2 0 0|fit'),
    (
        'A./.A',
        'unique|size 2 2|colours 2|givens 2|open 0|grade easy 1 2 1 0 0|flaw given 1 1|unfit',
    ),
    (
        'A,/,A',
        'unique|size 2 2|colours 2|givens 4|open 0|grade easy 0 0 0 0 0|flaw given 1 1|unfit',
    ),
    (
        '../..',
        'unique|size 2 2|colours 1|givens 0|open 0|grade easy 0 0 0 0 0|flaw blank|unfit',
    ),
    (
        'aa',
        'unique|size 1 2|colours 1|givens 0|open 0|grade easy 1 1 1 0 0|flaw background|unfit',
    ),
    # Without either given, two of the three can change places.
    ('A../.a./..A', 'unique|size 3 3|colours 2|givens 2|open 0|grade easy 1 6 2 0 0|fit'),
)
# The same with certificates, `|` for line feeds.
CERTIFIED = (
    (
        'A./.A',
        'nonocert 2|given 1 1|line r 1|line c 1|line r 2|done|',
        'unique|size 2 2|colours 2|givens 2|open 0|grade easy 1 2 1 0 0|flaw given 1 1|unfit',
    ),
    (
        'A./.A',
        'nonocert 2|given 1 1|given 2 2|line r 1|line r 2|done|',
        'unique|size 2 2|colours 2|givens 2|open 0|grade easy 1 2 1 0 0|flaw given 1 1|unfit',
    ),
    (
        'A./.A',
        'nonolemma 2|given 2 2|line r2 c2 r1|done|',
        'unique|size 2 2|colours 2|givens 2|open 0|grade easy 1 2 1 0 0|flaw given 1 1|unfit',
    ),
    (
        '.aa./a..a/a..a',
        (
            'nonocert 1|line r 1|line r 2|line r 3|line c 1|line c 4|line r 2|split 1 1|line r'
            ' 1|line c 1|line c 3|line r 3|line c 2|line c 4|done|line r 1|line c 1|line c 2|line c'
            ' 3|line c 4|dead r 3|'
        ),
        'unique|size 3 4|colours 2|givens 0|open 8|grade very-hard 2 10 4 1 1|fit',
    ),
)
# Two colours and their maxval, and whether they are too similar.
SIMILAR = (
    ((0, 0, 0), (0, 0, 36), 255, True),
    ((0, 0, 37), (0, 0, 0), 255, False),
    ((0, 31, 0), (0, 0, 0), 255, True),
    ((0, 32, 0), (0, 0, 0), 255, False),
    ((44, 0, 0), (0, 0, 0), 255, True),
    ((45, 0, 0), (0, 0, 0), 255, False),
    ((0, 0, 9380), (0, 0, 0), 65535, True),
    ((0, 0, 9381), (0, 0, 0), 65535, False),
    ((0, 0, 72), (0, 0, 0), 510, True),
    ((0, 0, 73), (0, 0, 0), 510, False),
)
CASE = re.compile(
    r'(\S+)(?: given ([\d, ]+?))?(?: map \S+)?(?: cert (.*))? => ([a-z -]+): '
    r'rounds (\d+), evaluations (\d+), longest wait (\d+)(?:, open (\d+), splits (\d+), depth'
    r' (\d+))?'
)


def document_of(text):
    """A document in white, black and red, with capitals and commas for givens."""
    rows = rows_of(text.replace(',', '.').lower())
    givens = {
        (r, c)
        for r, row in enumerate(text.split('/'))
        for c, cell in enumerate(row)
        if cell == ',' or cell.isupper()
    }
    return Document(255, [(255, 255, 255), (0, 0, 0), (255, 0, 0)], rows, givens)


def test_assessments():
    """Assessments with and without certificates, similar colours, and a certificate that names a
    cell which is not given."""
    for text, wanted in ASSESSED:
        document = document_of(text)
        got = Assessment(document, by_listing(document.rows)).lines(('.a', 'a.'))
        must(got, wanted.split('|'), f'the assessment of {text}')
    for text, cert, wanted in CERTIFIED:
        by = cert.replace('|', '\n').encode()
        got = Assessment(document_of(text), None, by).lines(guesses=(1, 1))
        must(got, wanted.split('|'), f'the assessment of {text} with a certificate')
    for one, other, maxval, wanted in SIMILAR:
        must(
            are_too_similar(one, other, maxval),
            wanted,
            f'whether {one} and {other} are too similar',
        )
    try:
        Assessment(
            document_of('A./.a'),
            None,
            b'nonocert 2\ngiven 2 2\nline r 2\nline c 2\nline r 1\ndone\n',
        )
        must(None, 'UnpublishedGiven', 'a given that is not published')
    except Fault as fault:
        must((fault.name, fault.place), ('UnpublishedGiven', 2), 'a given that is not published')


def test_grades(chance):
    """The grades of tests/cases/grade.case, and the last facts of random pictures, which are their
    map."""
    count = 0
    for line in GRADES.read_text(encoding='utf-8').splitlines():
        case = CASE.fullmatch(line)
        if case:
            picture, given, cert, word, rounds, looks, wait, *more = case.groups(default='0')
            document = document_of(picture)
            document.colours = [(number, 0, 0) for number in range(16)]
            document.givens = (
                {tuple(int(number) - 1 for number in cell.split(',')) for cell in given.split()}
                if given != '0'
                else set()
            )
            guesses = (
                guesses_of(document, cert.replace('\\n', '\n').encode())
                if more[0] != '0'
                else (0, 0)
            )
            solving = Solving(document.rows, document.givens)
            got = solving.rounds, solving.looks, solving.wait, solving.open(), *guesses
            must(
                got,
                (int(rounds), int(looks), int(wait), *map(int, more)),
                f'the figures of {picture}',
            )
            must(
                word_of(solving.rounds, solving.wait, solving.open(), *guesses),
                word.replace(' ', '-'),
                f'the grade of {picture}',
            )
            count += 1
    must(count > 20, True, 'grades that are read')
    for _ in range(200):
        height, width = chance.randint(1, 5), chance.randint(1, 5)
        rows = [[chance.choice((0, 0, 1, 1, 2)) for _ in range(width)] for _ in range(height)]
        givens = [(r, c) for r in range(height) for c in range(width) if chance.random() < 0.1]
        must(
            Solving(rows, givens).left,
            [mask for row in settled(rows, givens) for mask in row],
            f'the last facts of {rows}, {givens}',
        )


def test():
    """All of it."""
    test_assessments()
    test_grades(random.Random(2))
    test_answers()
    test_lines(random.Random(1))
    test_pictures()
    test_texts()
    test_sessions()


if __name__ == '__main__':
    test()
    print('the reference agrees with the rows worked by hand')
