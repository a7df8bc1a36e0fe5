"""What the program asks of the system. No clause says which file the toolchain opens, or how often
it is asked."""

import re

from tried import ROOT, ended

# The calls in the code of the crate nonobench: a file is opened by the name that was given, once,
# and each read is made once.
CALLS = [
    'env::args(rt)',
    'fs::open(self.rt, path)',
    'io::writer(&rt)',
    'reader.read(buffer)',
    'rt.alloc()',
    'rt.alloc()',
    'rt.reader()',
    'rt.stderr()',
]
CALL = re.compile(r'\b(?:env|fs|io)::[a-z]\w*\([^()]*\)|\b(?:file|reader|rt)\.[a-z]\w*\([^()]*\)')


def test_calls():
    code = [
        re.sub(r'//.*', '', file.read_text(encoding='utf-8'))
        for file in (ROOT / 'crates' / 'nonobench' / 'src').glob('*.rt')
    ]
    assert sorted(CALL.findall('\n'.join(code))) == CALLS


def test_a_name_stays_as_it_is(build, tmp_path):
    """Blanks, points and line feeds belong to a name: only the file that is called so is opened."""

    def status(name):
        return ended([build.program('nonobench'), 'work', name], cwd=tmp_path).status

    for name in (' a.ppm', 'a.ppm ', '\ta.ppm', 'a.ppm\n', 'A.PPM', 'a.ppm.'):
        (tmp_path / name).write_text('P3 1 1 1 0 0 0\n', encoding='ascii')
        assert (status(name), status('a.ppm')) == (0, 3), name
        (tmp_path / name).rename(tmp_path / 'a.ppm')
        assert (status(name), status('a.ppm')) == (3, 0), name
        (tmp_path / 'a.ppm').unlink()
