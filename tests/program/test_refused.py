"""Each allocation, each read and each byte of output refused in turn, in the programs and in the
tests of the crate `refused`."""

import os
import subprocess
import sys
from pathlib import Path

import pytest
from refusing import compiled
from tried import BUILT, ROOT, ended, needs, needs_file, once, passes

HERE = Path(__file__).parent
CRATE = ROOT / 'crates' / 'refused'
SUBJECTS = sorted(
    file.stem.removeprefix('of_') for file in (CRATE / 'src' / 'tests').glob('of_*.rt')
)
# The runs in which a full CI refuses growths; tests/program/refuse_growths.py alone tries all.
RUNS = ('words', 'diagonal', 'given', 'day', 'parts', 'report', 'goal', 'allowance')
MOST = 10000


@pytest.fixture(scope='session')
def refusing(tmp_path_factory):
    needs('cc')
    return compiled(tmp_path_factory.mktemp('refusing'))


@pytest.fixture(scope='session')
def refused_tests(shared):
    """The tests of the crate as `rt test` builds them. Behind `rt ci` that takes seconds; elsewhere
    it might prove everything."""
    tests = CRATE / 'out' / 'refused_tests'
    if os.environ.get('LEFT') != '1':
        return needs_file(tests, 'rt test')

    def build(_):
        run = ended(['rt', 'test'], cwd=CRATE)
        return (run.wrote + run.said).decode()[-3000:] if run.status else ''

    if not tests.exists():
        once(shared / 'refused_tests', build)
    return tests


@pytest.mark.toolchain
@pytest.mark.compiler
@pytest.mark.parametrize('subject', SUBJECTS)
def test_growths_of_the_library(refusing, refused_tests, subject):
    """A test of the crate passes each time, until there is no further allocation: each refused call
    answers that memory ran out, leaves what it borrowed as it was, and answers when it is called
    again."""
    for number in range(1, MOST):
        env = {**os.environ, 'REFUSED': str(number), 'LD_PRELOAD': str(refusing)}
        run = subprocess.run(
            [refused_tests, f'tests::of_{subject}::a_refused_growth_changes_nothing'],
            env=env,
            stdout=subprocess.PIPE,
            stderr=subprocess.STDOUT,
            stdin=subprocess.DEVNULL,
            text=True,
        )
        assert (
            run.returncode == 0
        ), f'growth {number}: the test that calls again fails: {run.stdout[-500:]}'
        if 'refused' not in run.stdout.splitlines():
            assert number > 1, 'none is refused'
            return
    pytest.fail(f'more than {MOST} growths')


@pytest.mark.toolchain
@pytest.mark.compiler
@pytest.mark.parametrize('run', RUNS)
def test_growths_of_the_program(build, run):
    needs('cc')
    passes(
        [sys.executable, HERE / 'refuse_growths.py', run],
        env={'PROGRAM': str(build.program('nonobench'))},
    )


@pytest.mark.all
@pytest.mark.parametrize(
    'kind', [BUILT[0], pytest.param(BUILT[1], marks=pytest.mark.toolchain)], ids=('llvm', 'rattle')
)
def test_streams(build, kind):
    passes(
        [sys.executable, HERE / 'refuse_streams.py'],
        env={'PROGRAM': str(build.program(f'nonobench{kind}'))},
    )
