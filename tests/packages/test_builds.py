"""What web/library does with existing files, in a copy of its folder with a toolchain that only
notes how it is called: nothing is removed before something else is built; what CI left is used
without being asked for, unless a source is newer; and it says how long it takes."""

import os
import shutil
import subprocess
import time

import pytest
from tried import ROOT, ended

TOOLCHAIN = '''#!/bin/sh
[ "$1" = doc ] && {{ echo "{kit}/START-HERE.md"; exit; }}
echo "called {name} $*"
exit "$(cat "{status}")"
'''
WHOLE = 'proves all crates, since low has no library: most of an hour'
WEB = 'proves the crate web over what rt ci left: some minutes'


def touch(path, hours=0):
    """Makes a file so many hours old."""
    path.parent.mkdir(parents=True, exist_ok=True)
    path.touch()
    when = time.time() - 3600 * hours
    os.utime(path, (when, when))


class Checkout:
    """Two crates, and a toolchain: `rattle` and `rt lib` note their arguments and end as the file
    `status` says."""

    def __init__(self, folder):
        self.folder, self.status = folder, folder / 'status'
        self.top = folder / 'checkout'
        (self.top / 'web').mkdir(parents=True)
        shutil.copy(ROOT / 'web' / 'library', self.top / 'web')
        (self.top / 'crates.txt').write_text('low: \nweb staticlib: low\n')
        for crate in ('low', 'web'):
            touch(self.top / 'crates' / crate / 'src' / 'lib.rt', 2)
        (folder / 'kit' / 'rlibs').mkdir(parents=True)
        for name, path in (('rt', folder / 'bin'), ('rattle', folder / 'kit' / 'bin')):
            path.mkdir()
            (path / name).write_text(
                TOOLCHAIN.format(kit=folder / 'kit', name=name, status=self.status)
            )
            (path / name).chmod(0o755)

    def left(self):
        touch(self.top / 'crates' / 'low' / 'out' / 'rlib' / 'low.rlib' / 'format', 1)

    def run(self, status, **env):
        """What is said with a status of the toolchain, and what is then in the archive's place."""
        archive = self.top / 'crates' / 'web' / 'out' / 'libweb.a'
        archive.parent.mkdir(exist_ok=True)
        archive.write_text('kept')
        self.status.write_text(str(status))
        plain = {name: value for name, value in os.environ.items() if name not in ('LEFT', 'JOBS')}
        env = {**plain, 'PATH': f'{self.folder}/bin:{os.environ["PATH"]}', **env}
        run = ended([self.top / 'web' / 'library'], env=env, stderr=subprocess.STDOUT)
        return run.wrote.decode(), run.status, archive.read_text()


@pytest.fixture
def checkout(tmp_path):
    return Checkout(tmp_path)


def test_nothing_was_left(checkout):
    said, status, archive = checkout.run(1)
    assert WHOLE in said
    assert 'called rt lib' in said
    assert (status, archive) == (1, 'kept')


@pytest.mark.parametrize('env', [{}, {'LEFT': '1'}])
def test_what_was_left_is_used(checkout, env):
    checkout.left()
    said, status, archive = checkout.run(1, **env)
    assert WEB in said
    assert 'called rattle build --crate-name web' in said
    assert (status, archive) == (1, 'kept')


def test_nothing_is_to_be_taken(checkout):
    checkout.left()
    assert 'proves all crates, since LEFT=0' in checkout.run(0, LEFT='0')[0]


def test_as_many_jobs_as_are_named(checkout):
    checkout.left()
    said = checkout.run(0, JOBS='3')[0]
    assert any(
        '--jobs 3 ' in line for line in said.splitlines() if line.startswith('called rattle ')
    )


def test_a_newer_source(checkout):
    checkout.left()
    touch(checkout.top / 'crates' / 'low' / 'src' / 'lib.rt')
    said = checkout.run(0)[0]
    assert 'proves all crates, since low has a source that is newer' in said
    assert 'called rt lib' in said
    assert 'called rattle build --crate-name web' in checkout.run(0, LEFT='1')[0]


# ---- web/keep

# A compiler that writes its module in two steps and removes it; it ends with the status that it is
# given.
COMPILER = (
    'mkdir "$TMPDIR/a" && printf one >"$TMPDIR/a/module.bc" && sleep 1 && printf two'
    ' >>"$TMPDIR/a/module.bc" && rm -r "$TMPDIR/a"; exit "$0"'
)


@pytest.mark.parametrize(
    ('command', 'status', 'kept'),
    [((COMPILER, '0'), 0, 'onetwo'), ((COMPILER, '3'), 3, None), (('exit 0', '0'), 1, None)],
)
def test_a_module_is_kept(command, status, kept, tmp_path):
    """It is whole although its compiler removes it; without one, or of a compiler that fails,
    nothing is kept."""
    run = subprocess.run(
        [ROOT / 'web' / 'keep', 'kept.bc', 'sh', '-c', *command], cwd=tmp_path, check=False
    )
    assert run.returncode == status
    assert [file.read_text() for file in tmp_path.iterdir()] == ([kept] if kept else [])
