"""What the tests try: the programs, the library and the module, as `rt ci` and the builds left
them, or as the release in dist/ has them."""

import atexit
import contextlib
import fcntl
import functools
import hashlib
import http.server
import os
import re
import shutil
import subprocess
import tarfile
import tempfile
import threading
from pathlib import Path

import pytest

ROOT = Path(__file__).resolve().parent.parent
CASES = ROOT / 'tests' / 'cases'
EXAMPLES = ROOT / 'examples'
# The programs that `rt ci` leaves: as LLVM builds them, and as Rattle's own compiler does.
BUILT = ('', '.by-rattle')
# The only file of the engine that the version of the tree changes.
VERSION = 'crates/program_options/src/version.rt'


class Left:
    """What `rt ci` left in crates/, and web/build and c/build behind it."""

    name = 'what rt ci left'
    released = False
    library = ROOT / 'c' / 'out' / 'libnonobench.so'
    module = ROOT / 'web' / 'out' / 'nonobench.wasm'
    page = ROOT / 'web' / 'out' / 'nonobench.html'

    def program(self, name):
        if name == 'nonobench' and os.environ.get('PROGRAM'):
            return Path(os.environ['PROGRAM']).resolve()
        crate, dot, kind = name.partition('.')
        return ROOT / 'crates' / crate / 'out' / f'{crate}{dot}{kind}'


class Release:
    """What the archives in dist/ have, unpacked in a folder."""

    released = True

    def __init__(self, folder):
        self.folder = folder
        self.version = version_of(archive().name)
        self.name = f'the release {self.version}'
        self.library = folder / 'lib' / 'libnonobench.so'
        self.module = folder / 'package' / 'nonobench.wasm'
        self.page = ROOT / 'dist' / 'nonobench.html'

    def program(self, name):
        return self.folder / 'bin' / name

    def unpack(self):
        with tarfile.open(archive()) as packed:
            packed.extractall(self.folder)
        for path in (self.folder / archive().name[: -len('.tar.gz')]).iterdir():
            path.rename(self.folder / path.name)
        with tarfile.open(next(ROOT.glob('dist/nonobench-*.tgz'))) as packed:
            packed.extractall(self.folder)


def archive():
    """The archive for Linux in dist/."""
    return next(ROOT.glob('dist/nonobench-*-linux-x86_64.tar.gz'))


def version_of(text):
    """The first version that a text names."""
    return re.search(r'\d+\.\d+\.\d+', text)[0]


def as_numbers(version):
    return tuple(int(part) for part in version.split('.'))


def version_of_tree():
    return version_of((ROOT / VERSION).read_text())


def changed_crates():
    """The crates whose code is not that of the release; None where neither dist/SOURCES nor git
    knows that."""
    known = _sources_of_release()
    if known is None:
        return None
    now = engine_now()
    return sorted(
        {
            path.split('/')[1]
            for path in known.keys() | now.keys()
            if path != VERSION and known.get(path) != now.get(path)
        }
    )


def engine_now():
    """The files of the engine with what git calls their contents."""
    return {
        path.relative_to(ROOT).as_posix(): _git_id(path)
        for path in ROOT.glob('crates/*/src/**/*.rt')
    }


def _git_id(path):
    """What git calls the content of a file."""
    content = path.read_bytes()
    return hashlib.sha1(b'blob %d\0' % len(content) + content).hexdigest()


def _sources_of_release():
    """The files of the engine at the release with what git calls their contents: as dist/SOURCES
    has them, else as the tree that dist/README.md names."""
    listed = ROOT / 'dist' / 'SOURCES'
    if listed.exists():
        return {
            path: name for name, path in (line.split() for line in listed.read_text().splitlines())
        }
    tree = re.search(
        r'^- crates: ([0-9a-f]{40})$', (ROOT / 'dist' / 'README.md').read_text(), re.MULTILINE
    )
    words = ['git', '-C', str(ROOT), 'ls-tree', '-r', tree[1] if tree else 'none']
    try:
        said = subprocess.run(words, capture_output=True, text=True, check=True).stdout
    except (OSError, subprocess.CalledProcessError):
        return None
    lines = (line.split('\t') for line in said.splitlines())
    return {
        f'crates/{path}': about.split()[2]
        for about, path in lines
        if re.fullmatch(r'\w+/src/.*\.rt', path)
    }


def once(path, make):
    """A folder that `make` fills: the first process that asks for it makes it, and the others
    wait."""
    failed = Path(f'{path}.failed')
    with open(f'{path}.lock', 'w') as lock:
        fcntl.flock(lock, fcntl.LOCK_EX)
        if not path.exists() and not failed.exists():
            new = Path(f'{path}.new')
            new.mkdir()
            why = make(new)
            if why:
                failed.write_text(why)
            else:
                new.rename(path)
    if failed.exists() and 'skipped: ' in failed.read_text():
        pytest.skip(
            failed.read_text().strip().splitlines()[-1]
        )  # a tool is missing, and the build has said which
    if failed.exists():
        pytest.fail(f'{path.name} was not made: {failed.read_text()}')
    return path


def calls_of(library):
    """The functions that the header of a library for C declares."""
    pattern = rf'^(?:\w+ )+\*?({library}_\w+)\('
    header = (ROOT / 'c' / f'{library}.h').read_text()
    return set(re.findall(pattern, header, re.MULTILINE))


def needs(*tools):
    """Skips a test where a tool is missing."""
    for tool in tools:
        if not shutil.which(tool):
            pytest.skip(f'there is no {tool}')


def needs_file(path, made_by):
    """Skips a test where something was not made."""
    if not path.exists():
        pytest.skip(f'there is no {path.relative_to(ROOT)}, which {made_by} makes')
    return path


def named(made, pattern):
    """The package of that name, unless it was left out with a compiler."""
    found = list(made.glob(pattern))
    if not found:
        pytest.skip(f'there is no {pattern}, which a compiler for another system makes')
    return found[0]


class Program:
    """A program with how it is run: one in JavaScript has other texts for refused arguments, and
    opens the null device in place of a closed stream."""

    def __init__(self, path, in_node=False):
        self.path, self.in_node = path, in_node


class Ended:
    """A program that has ended: its status, what it wrote and what it said."""

    def __init__(self, status, wrote, said):
        self.status, self.wrote, self.said = status, wrote, said

    def __eq__(self, other):
        return (self.status, self.wrote, self.said) == (other.status, other.wrote, other.said)

    def __repr__(self):
        return f'status {self.status}, wrote {_short(self.wrote)}, said {_short(self.said)}'


def _short(text):
    return repr(text) if len(text) < 600 else f'{text[:600]!r}.. of {len(text)}'


def as_bytes(text):
    return text if isinstance(text, bytes) else text.encode()


def ended(words, text=b'', cwd=None, **streams):
    """Runs a program on a text, or on other streams, and gives how it ended."""
    given = {} if 'stdin' in streams else {'input': as_bytes(text)}
    run = subprocess.run(
        [os.fspath(word) for word in words],
        cwd=cwd,
        **{'stdout': subprocess.PIPE, 'stderr': subprocess.PIPE, **given, **streams},
    )
    return Ended(run.returncode, run.stdout or b'', run.stderr or b'')


def passes(words, cwd=ROOT, env=None, seconds=3000, **more):
    """Runs a check that is a program of its own; what it says is the failure. What it leaves out of
    itself is told."""
    run = subprocess.run(
        [os.fspath(word) for word in words],
        cwd=cwd,
        env={**os.environ, **(env or {})},
        stdin=subprocess.DEVNULL,
        stdout=subprocess.PIPE,
        stderr=subprocess.STDOUT,
        timeout=seconds,
        **more,
    )
    said = run.stdout.decode(errors='replace')
    if run.returncode == 77:
        pytest.skip(said.strip().splitlines()[-1])
    if run.returncode != 0:
        pytest.fail(
            f'{" ".join(map(str, words))} ended with {run.returncode}:\n{said[-6000:]}',
            pytrace=False,
        )
    return said


@functools.cache
def _clean_folder():
    """A folder of tools for commands that see nothing of this machine but the system's places, node
    and Python; and what keeps the network from them, where that is allowed."""
    folder = Path(tempfile.mkdtemp(prefix='nonobench-clean-'))
    atexit.register(shutil.rmtree, folder, ignore_errors=True)
    (folder / 'home').mkdir()
    for tool in ('node', 'npm', 'npx'):
        if shutil.which(tool):
            (folder / tool).symlink_to(os.path.realpath(shutil.which(tool)))
    alone = [
        words
        for words in (['unshare', '-n'], ['unshare', '-rn'])
        if shutil.which('unshare') and ended([*words, 'true']).status == 0
    ]
    return folder, alone[0] if alone else []


def clean_env(before=None, **more):
    """What somebody has who has nothing but the package; `before` is a folder of further tools."""
    folder, _ = _clean_folder()
    path = ':'.join(str(part) for part in (before, folder, '/usr/bin', '/bin') if part)
    plain = {
        'PATH': path,
        'HOME': folder / 'home',
        'LANG': 'C.UTF-8',
        'npm_config_update_notifier': 'false',
    }
    return {name: str(value) for name, value in {**plain, **more}.items()}


def clean(words, cwd=None, before=None, **env):
    """Runs a command as somebody would who has nothing but the package."""
    folder, alone = _clean_folder()
    return ended(
        [*alone, *words], cwd=cwd or folder, env=clean_env(before, **env), stdin=subprocess.DEVNULL
    )


def node_tests(request, file, env):
    """Runs a file of tests in node; what it leaves out is told in the end."""
    needs('node')
    said = passes(
        ['node', '--test-reporter=tap', file], env=env
    )  # without --test, which would run it in a process of its own
    assert re.search(r'(?m)^# pass [1-9]|^# skipped [1-9]', said), 'it has no tests'
    for why in re.findall(r'(?m)^ *ok .* # SKIP (.+)$', said):
        request.node.user_properties.append(('left out', why))


def chromium(home):
    """The command of a headless Chromium."""
    names = ('chromium', 'chromium-browser', 'google-chrome')
    found = next(filter(None, map(shutil.which, names)), None)
    if not found:
        pytest.skip('there is no Chromium')
    return [found, '--headless', '--no-sandbox', '--disable-gpu', f'--user-data-dir={home}']


def dumped(url, home, run_by):
    """What stands in a page of headless Chromium in the end; `clean` runs it without a network, and
    `ended` with one."""
    words = [*chromium(home), '--virtual-time-budget=10000', '--dump-dom']
    run = run_by(['timeout', '600', *words, url])
    assert run.status == 0, run
    return run.wrote.decode()


@contextlib.contextmanager
def served(folder):
    """The address of a server with the files of a folder."""
    handler = functools.partial(http.server.SimpleHTTPRequestHandler, directory=folder)
    with http.server.ThreadingHTTPServer(('127.0.0.1', 0), handler) as server:
        threading.Thread(target=server.serve_forever, daemon=True).start()
        yield f'http://127.0.0.1:{server.server_port}'
        server.shutdown()
