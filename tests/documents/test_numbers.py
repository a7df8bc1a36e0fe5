"""Numbers that documents state: limits are those that the code has, and sentences of the comparison
those of its rows."""

import csv
import re
from statistics import median

import pytest
from tried import ROOT

WORDS = {'two': 2, 'six': 6, 'ten': 10}
MIB = 1 << 20
# Each number of a document, as the words around it with N in its place; what the code counts in, by
# the document's unit; and the places that have it, as a file and the words before the number.
PICTURE = ('crates/picture/src/picture.rt', 'MAX_SIDE: u8 =')
COLOURS = ('crates/picture/src/picture.rt', 'MAX_COLOURS: u8 =')
INPUT = ('crates/program/src/input.rt', 'MAX_INPUT: usize =')
MAXVAL = ('crates/ppm_text/src/fault.rt', 'the maxval is not from 1 to')
READS = ('crates/command_text/src/lines.rt', 'MOST_READS: u32 =')
LINE = ('crates/command_text/src/request.rt', 'MOST_BYTES: usize =')
DEPTH = ('crates/edits/src/studio.rt', 'MAX_DEPTH: u16 =')
HISTORY = ('crates/command_line/src/words.rt', 'DEPTH: u16 =')
ALLOWANCE = ('crates/live_audit/src/bench.rt', 'MAX_ALLOWANCE: u32 =')
BOUNDS = 'crates/second_search/src/bounds.rt'
OPTIONS = 'python/src/nonobench/collection/puzzles.py'
SERVICE = 'python/src/nonobench/service.py'
UPLOAD = 'examples/check_upload.mjs'
IMAGE = ('python/src/nonobench/_calls.py', 'MOST_CELLS =')
FILES = ('python/src/nonobench/_calls.py', 'MOST_BYTES =')
REDMEAN = 'crates/flaws/src/alike.rt'
GRADE = 'crates/grade/src/word.rt'
STATED = [
    ('README.md', 'up to N by 120 cells.', 1, [PICTURE]),
    ('README.md', 'or up to N colours', 1, [COLOURS]),
    ('docs/THEOREMS.md', 'a file is longer than N MiB', MIB, [INPUT]),
    ('docs/FILE-FORMATS.md', 'it is at most N, else TooLarge', 1, [PICTURE]),
    ('docs/SESSION.md', 'a row inserted where there are N rows', 1, [PICTURE]),
    ('docs/SESSION.md', 'a colour added where there are N', 1, [COLOURS]),
    ('docs/FILE-FORMATS.md', 'It is from 1 to N, else BadMaxval', 1, [MAXVAL]),
    ('docs/FILE-FORMATS.md', 'there are fewer than N colours so far', 1, [COLOURS]),
    ('docs/FILE-FORMATS.md', 'digits only and is from 1 to N, else BadSize', 1, [PICTURE]),
    ('docs/SESSION.md', 'A line of more than N bytes is LongLine', 1, [LINE]),
    ('docs/SESSION.md', 'A session makes at most N reads', 1, [READS]),
    (
        'docs/SESSION.md',
        'each with room for N bytes',
        1,
        [('crates/command_text/src/lines.rt', ' ROOM: usize =')],
    ),
    (
        'docs/SESSION.md',
        'a place is from 1 to N',
        1,
        [('crates/command_text/src/numbers.rt', 'A place: a number from 1 to')],
    ),
    (
        'docs/SESSION.md',
        'a sample from 0 to N',
        1,
        [('crates/command_text/src/numbers.rt', 'with a value up to')],
    ),
    (
        'docs/FILE-FORMATS.md',
        'the lemma that began has N literals',
        1,
        [('crates/cert_text/src/cert_line.rt', 'MAX_LEMMA_LITERALS: usize =')],
    ),
    (
        'docs/FILE-FORMATS.md',
        'has 1,024 literals already, or N together',
        1,
        [('crates/cert_text/src/cert_line.rt', 'MAX_LITERALS: usize =')],
    ),
    (
        'docs/FILE-FORMATS.md',
        '`line`, `use` and `drop` have 1 to N words',
        1,
        [('crates/cert_text/src/runs.rt', 'MAX_RUN: usize =')],
    ),
    ('docs/SESSION.md', 'splits (0 to N)', 1, [ALLOWANCE]),
    ('docs/SESSION.md', 'N, from 1 to N, is how many edits can be undone', 1, [DEPTH]),
    ('docs/SESSION.md', 'is how many edits can be undone; it is N by default', 1, [HISTORY]),
    ("docs/SESSION.md", "other than a session's commands has at most N bytes", 1, [INPUT]),
    (
        'docs/PAGE-FILES.md',
        'An image has at most N MiB',
        MIB,
        [('page/import/decoding.js', 'MOST_IMAGE =')],
    ),
    (
        'docs/PAGE-FILES.md',
        'An archive has at most N GiB',
        1024 * MIB,
        [('page/import/taking.js', 'MOST_ARCHIVE =')],
    ),
    (
        'docs/PAGE-FILES.md',
        'any other file N bytes',
        1,
        [('page/formats/ppm.js', 'MOST_BYTES_READ =')],
    ),
    ('docs/PAGE-FILES.md', 'A picture of at most N by 120 pixels', 1, [PICTURE]),
    (
        'docs/PAGE-FILES.md',
        'name cells, at most N a line',
        1,
        [('page/formats/ppm_notes.js', 'places.length; at \\+=')],
    ),
    (
        'docs/PAGE-FILES.md',
        'stored or deflated, of at most N MiB each',
        MIB,
        [('page/formats/zip.js', 'MOST_ENTRY =')],
    ),
    (
        'docs/PAGE-FILES.md',
        'a picture is searched for up to N seconds',
        1000,
        [('page/import/reading.js', 'MOST_SEARCH =')],
    ),
    ('docs/AUDIT.md', 'Files are regular, of at most N MiB', MIB, [FILES]),
    ('docs/AUDIT.md', 'An image of more than N by 120 pixels', 1, [IMAGE]),
    ('docs/SESSION.md', '(N + s) dr dr', 1, [(REDMEAN, r'    weighted\(')]),
    ('docs/SESSION.md', 'dr dr + N dg dg', 1, [(REDMEAN, r'\+ weighted\((?=2)')]),
    ('docs/SESSION.md', 'dg dg + (N - s) db db', 1, [(REDMEAN, r'\+ weighted\((?=1)')]),
    (
        'docs/PAGE-FILES.md',
        'a PPM picture N pixels a side',
        1,
        [('page/formats/ppm.js', 'MOST_PIXELS =')],
    ),
    (
        'docs/PAGE-FILES.md',
        'MiB, and N pixels by its header',
        1,
        [('page/import/decoding.js', 'MOST_DECODED =')],
    ),
    (
        'docs/PAGE-FILES.md',
        'Images above N pixels a side',
        1,
        [('page/import/decoding.js', 'MOST_SIDE =')],
    ),
    (
        'docs/PAGE-FILES.md',
        'and draws at most N elements',
        1,
        [('page/import/drawn.js', 'MOST_DRAWN =')],
    ),
    (
        'docs/PAGE-FILES.md',
        'elements nested more than N deep',
        1,
        [('page/formats/xml.js', 'MOST_XML_DEPTH =')],
    ),
    (
        'docs/PAGE-FILES.md',
        'deep, more than N elements',
        1,
        [('page/formats/xml.js', 'MOST_XML_ELEMENTS =')],
    ),
    (
        'docs/PAGE-FILES.md',
        'TooMany (more than N)',
        1,
        [('page/formats/palettes.js', 'MOST_COLOURS =')],
    ),
    (
        'docs/PAGE-FILES.md',
        'in at most N characters',
        1,
        [('page/library/records.js', 'MOST_SIGNS =')],
    ),
    (
        'docs/PAGE-FILES.md',
        'A puzzle of more than N rows or columns',
        1,
        [('page/export/sheets.js', 'MOST_LINES =')],
    ),
    (
        'docs/PAGE-FILES.md',
        'sizes but the last are multiples of N',
        1,
        [('page/export/sheets.js', r'/ MOST_LINES\) /')],
    ),
    ('docs/SESSION.md', '`nonobench: input too long`: more than N bytes', 1, [INPUT]),
    (
        'docs/PAGE-FILES.md',
        'is cut into parts of at most N',
        1,
        [('page/export/sheets.js', 'MOST_LINES =')],
    ),
    (
        'docs/PAGE-FILES.md',
        'with every tint is at least N to 1',
        1,
        [('tests/page/page_sheets.mjs', 'least >=')],
    ),
    (
        'docs/PAGE-FILES.md',
        'the page reads at most N files',
        1,
        [('page/import/beside.js', 'MOST_AT_ONCE =')],
    ),
    ('docs/SESSION.md', 'db db < N', 1, [(REDMEAN, r'rgb_shown\(maxval, other\)\) <')]),
    (
        'docs/SESSION.md',
        '| easy | none | at most N rounds',
        1,
        [(GRADE, r'rounds <= (?=.*\n *Word::Easy)')],
    ),
    (
        'docs/SESSION.md',
        'at most 2 rounds, and a longest wait of at most N',
        1,
        [(GRADE, r'wait <= (?=.*\n *Word::Easy)')],
    ),
    (
        'docs/SESSION.md',
        '| medium | none | at most N rounds',
        1,
        [(GRADE, r'rounds <= (?=.*\n *Word::Medium)')],
    ),
    (
        'docs/SESSION.md',
        'at most 4 rounds, and a longest wait of at most N',
        1,
        [(GRADE, r'wait <= (?=.*\n *Word::Medium)')],
    ),
    (
        'docs/SESSION.md',
        '| very hard | some | at most N splits',
        1,
        [(GRADE, r'splits <= (?=.*\n *Word::VeryHard)')],
    ),
    (
        'docs/SESSION.md',
        'at most 3 splits, and a depth of at most N',
        1,
        [(GRADE, r'depth <= (?=.*\n *Word::VeryHard)')],
    ),
    ('docs/ARCHITECTURE.md', 'or up to N splits if none is set', 1, [(BOUNDS, 'fixed_splits:')]),
    ('docs/ARCHITECTURE.md', 'once more, up to N splits', 1, [(BOUNDS, 'again_splits:')]),
    (
        'docs/ARCHITECTURE.md',
        'searches with lemmas, up to N conflicts',
        1,
        [(BOUNDS, r'window_splits: \d+,\n    conflicts:')],
    ),
    ('docs/AUDIT.md', 'the processor time for each puzzle (N)', 1, [(OPTIONS, 'seconds: int =')]),
    ('docs/AUDIT.md', 'bounds each process (N MiB)', 1, [(OPTIONS, 'memory: int =')]),
    ('packages/npm/README.md', 'an `ArrayBuffer` of at most N bytes', 1, [INPUT]),
    ('packages/npm/README.md', 'from 1 to N; the default is', 1, [DEPTH]),
    ('packages/npm/README.md', 'from 1 to 1,000; the default is N', 1, [HISTORY]),
    ('packages/npm/README.md', 'regular files of at most N MiB', MIB, [(UPLOAD, 'MOST_BYTES =')]),
    (
        'packages/npm/README.md',
        'allows N seconds of processor time',
        1,
        [(UPLOAD, 'MOST_PROCESSOR =')],
    ),
    (
        'packages/npm/README.md',
        'of processor time, or N of wall-clock time',
        1,
        [(UPLOAD, 'MOST_CLOCK =')],
    ),
    (
        'packages/npm/README.md',
        'The module has at most N GiB',
        1024 * MIB,
        [('web/build', '--max-memory=')],
    ),
    ('packages/npm/README.md', 'takes at most N by 120 cells', 1, [PICTURE]),
    ('packages/npm/README.md', 'by 120 cells in N colours', 1, [COLOURS]),
    (
        'packages/npm/README.md',
        'the call returns status N',
        1,
        [('web/within.h', 'OPTIONS ='), ('c/nonobench.h', 'NONOBENCH_OPTIONS =')],
    ),
    (
        'python/README.md',
        'a triple of numbers from 0 to N',
        1,
        [('python/src/nonobench/_calls.py', 'MOST_SAMPLE =')],
    ),
    (
        'docs/AUDIT.md',
        '`NONOBENCH_SECONDS` | N seconds of processor',
        1,
        [(SERVICE, '"SECONDS":')],
    ),
    ('docs/AUDIT.md', '`NONOBENCH_MEMORY` | N MiB for a process', 1, [(SERVICE, '"MEMORY":')]),
    ('docs/AUDIT.md', '`NONOBENCH_WAIT` | N seconds', 1, [(SERVICE, '"WAIT":')]),
    (
        'docs/AUDIT.md',
        '`NONOBENCH_MAX_CONTENT_LENGTH` | N MiB',
        MIB,
        [(SERVICE, '"MAX_CONTENT_LENGTH":')],
    ),
    ('docs/THEOREMS.md', 'm rows and n columns, 1 ≤ m, n ≤ N', 1, [PICTURE]),
    ('docs/THEOREMS.md', 'A blank line of at most N bytes', 1, [LINE]),
    ('docs/THEOREMS.md', 'refuses a file of more than N MiB', MIB, [INPUT]),
    ('docs/TRUST.md', 'it needed more than N reads', 1, [READS]),
    ('docs/TUTORIAL.md', 'Pictures have at most N rows', 1, [PICTURE]),
    ('docs/TUTORIAL.md', 'at most 120 rows, N columns', 1, [PICTURE]),
    ('docs/TUTORIAL.md', '120 columns and N colours', 1, [COLOURS]),
    (
        'page/README.md',
        'on a processor slowed N times',
        1,
        [('tests/page/page_limit.mjs', 'SLOWED =')],
    ),
    (
        'page/README.md',
        'The page may have at most N bytes',
        1,
        [('web/join.mjs', 'MOST ='), ('tests/page/page_limit.mjs', 'MOST_BYTES =')],
    ),
]


def counted(product):
    """The number of a text such as `2 << 20`, `512 * 64 * 64`, `100e6` or `1_000`."""
    left, shift, right = product.partition('<<')
    if shift:
        return counted(left) << counted(right)
    value = 1
    for factor in product.replace('_', '').replace(',', '').split('*'):
        value *= float(factor)
    return int(value)


def said(document, words):
    """The number at N, the last one in some words of a document."""
    before, _, after = words.rpartition('N')
    text = ' '.join((ROOT / document).read_text().split())
    [number] = set(re.findall(re.escape(before) + r'([\w,]*\w)' + re.escape(after), text))
    return WORDS.get(number.lower()) or counted(number)


@pytest.mark.parametrize(
    ('document', 'words', 'unit', 'places'), STATED, ids=[f'{row[0]}: {row[1]}' for row in STATED]
)
def test_number(document, words, unit, places):
    for file, before in places:
        found = re.findall(
            before + r' ?([\d_.e]+(?: (?:<<|\*) \d+)*)', (ROOT / file).read_text(), re.IGNORECASE
        )
        assert {said(document, words) * unit} == set(map(counted, found)), file


def test_oldest_versions():
    """The Python and the Node.js that documents ask for are those that the packages name."""
    [python] = re.findall(
        r'requires-python = ">=(.*)"', (ROOT / 'python' / 'pyproject.toml').read_text()
    )
    [node] = re.findall(
        r'"node": ">=(.*)"', (ROOT / 'packages' / 'npm' / 'package.json').read_text()
    )
    documents = (
        'docs/RECIPES.md',
        'packages/npm/README.md',
        'packages/linux/README.md',
        'packages/dist-README.txt',
    )
    text = ' '.join((ROOT / name).read_text() for name in documents)
    assert set(re.findall(r'Python (\d+\.\d+) ', text)) == {python}
    assert set(re.findall(r'(?i)node(?:\.js)? (\d+\.\d+) ', text)) == {node}


def test_sentences_of_the_comparison():
    """What docs/COMPARISON.md says outside of its tables, which others_tables.py compares."""
    with (ROOT / 'docs' / 'comparison.csv').open(newline='') as file:
        rows = list(csv.DictReader(file))
    tuned = {row['picture']: row['tuned'] == 'yes' for row in rows}
    seconds = {
        (row['program'], row['picture']): float(row['seconds'])
        for row in rows
        if row['answer'] != 'open'
    }
    sizes = {(row['program'], row['picture']): int(row['bytes']) for row in rows if row['bytes']}
    first, second = sorted(tuned, key=lambda name: seconds.get(('nonobench', name), 0))[:-3:-1]
    ratios = [
        size / sizes['nonobench prove', picture]
        for (program, picture), size in sizes.items()
        if program == 'cadical, DRAT'
    ]
    unique = sum(row['answer'] == 'unique' for row in rows if row['program'] == 'nonobench')
    decided = {
        program: {name for solver, name in seconds if solver == program and not tuned[name]}
        for program in ('nonobench', 'minisat', 'cadical', 'gringo, clasp', 'gecode')
    }
    plain = {name for name in tuned if not tuned[name]}
    [left] = plain - set().union(*decided.values())
    [board] = {
        (row['height'], row['width'], row['colours']) for row in rows if row['picture'] == left
    }
    total = sum(seconds.get(('nonobench', name), 10) for name in plain)
    minisat = {f'{seconds["minisat", name]:.2f}' for name in (first, second)}
    assert tuned[first] and tuned[second] and len(minisat) == 1
    assert decided['nonobench'] == decided['gecode'] == plain - {left}
    sentences = [
        f'One picture, a chequerboard of {board[0]} by {board[1]} cells in {board[2]} colours',
        f'10 of nonobench\'s {total:.1f} seconds are its time',
        f'for the {unique} of the {len(tuned)} pictures that are unique',
        f'We measured {len(tuned)} pictures. The other {len(tuned) - len(plain)} were chosen',
        f'for each of {len(plain)} pictures',
        (
            f'it takes {minisat.pop()} seconds each, and nonobench'
            f' {seconds["nonobench", first]:.2f} and {seconds["nonobench", second]:.2f}'
        ),
        f'more than {int(median(ratios) // 10) * 10} times as long',
        f'and {["none is", "one is", "two are"][sum(ratio < 1 for ratio in ratios)]} shorter',
    ]
    text = ' '.join((ROOT / 'docs' / 'COMPARISON.md').read_text().split())
    assert [sentence for sentence in sentences if sentence not in text] == []
