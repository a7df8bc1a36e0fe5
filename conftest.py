"""What all tests share: which programs they try, what waits or is left out, and what is said of
that in the end.

Where `rt ci` left a program, that is tried; with --released, or where there is none, the release in
dist/ is. Then tests that are marked `since` a later version wait, if the engine has changed since
that release.
"""

import collections
import compileall
import importlib.util
import json
import os
import shutil
import signal
import sys
import tempfile
from pathlib import Path

import pytest

sys.dont_write_bytecode = True
os.environ['PYTHONDONTWRITEBYTECODE'] = '1'
sys.path.insert(0, str(Path(__file__).resolve().parent / 'tests'))

import tried  # noqa: E402

# What takes long: `make check` leaves it to `make check-all`.
LONG = ('all', 'browser')
WHY_LONG = 'it takes long, and make check-all has it ({})'
# The libraries that some files of tests want: names of modules, and what they are called.
WANTED = {
    'test_audit': {'PIL': 'Pillow', 'defusedxml': 'defusedxml', 'jinja2': 'Jinja2'},
    'test_images': {'PIL': 'Pillow'},
    'test_puzzles': {'PIL': 'Pillow', 'defusedxml': 'defusedxml'},
    'test_service': {'flask': 'Flask', 'PIL': 'Pillow', 'defusedxml': 'defusedxml'},
}
BUILD = pytest.StashKey()
LEFT_OUT = pytest.StashKey()


def pytest_addoption(parser):
    parser.addoption(
        '--released',
        action='store_true',
        help='tries the release in dist/, also where rt ci left programs',
    )
    parser.addoption(
        '--with',
        action='append',
        default=[],
        choices=LONG,
        help='runs the tests with this mark, too',
    )
    parser.addoption(
        '--counts',
        metavar='FILE',
        help='writes there how many tests passed and failed, and what was left out',
    )


def pytest_configure(config):
    """Chooses what is tried. The first process unpacks the release, and the others find it by the
    variable SCRATCH."""
    heed_signals()
    left = tried.Left()
    is_first = 'PYTEST_XDIST_WORKER' not in os.environ
    if is_first:
        has_processes = config.getoption('dist', 'no') != 'no'
        kind = FilesOfProcesses if has_processes else Files
        config.pluginmanager.register(kind(config), 'files of tests')
    if is_first:  # so that not each of some hundred runs of the audit reads Python's sources anew
        compileall.compile_dir(tried.ROOT / 'python' / 'src', quiet=2)
    if not config.getoption('released') and left.program('nonobench').exists():
        config.stash[BUILD] = left
    else:
        if is_first:
            os.environ['SCRATCH'] = tempfile.mkdtemp(prefix='nonobench-tests-')
        config.stash[BUILD] = tried.Release(Path(os.environ['SCRATCH']))
        if is_first:
            config.stash[BUILD].unpack()
    build = config.stash[BUILD]
    os.environ.update(
        NONOBENCH=str(build.program('nonobench')),
        NONOBENCH_LIBRARY=str(build.library),
        PYTHONPATH=str(tried.ROOT / 'python' / 'src'),
    )
    os.environ.setdefault(
        'SLACK', '12'
    )  # a factor for the bounds of time, since many tests run at once
    # where there is no mark, and for sizes
    os.environ['SHORT'] = '' if 'all' in config.getoption('with') else WHY_LONG.format('all')
    if build.released and tried.changed_crates() != []:
        os.environ['TRIED'] = build.version  # tests/waits.mjs


def heed_signals():
    """Whoever starts this may ignore signals, as `nohup` and a shell's `&` do. What tests start
    begins as by hand: a signal that has a handler here is the system's again for a new program."""
    for name in (signal.SIGHUP, signal.SIGQUIT):
        if signal.getsignal(name) is signal.SIG_IGN:
            signal.signal(name, lambda *_: None)
    if signal.getsignal(signal.SIGINT) is signal.SIG_IGN:
        signal.signal(signal.SIGINT, signal.default_int_handler)


def pytest_unconfigure(config):
    if 'PYTEST_XDIST_WORKER' not in os.environ and 'SCRATCH' in os.environ:
        shutil.rmtree(os.environ.pop('SCRATCH'), ignore_errors=True)


def pytest_report_header(config):
    return f'tried: {config.stash[BUILD].name}'


def unread(file, build):
    """Why a file of tests cannot be read here, or None: the library was not built, or Python lacks
    one."""
    if not file.name.startswith('test_') or 'python' not in file.parts:
        return None
    wanted = {
        module: name
        for stem, modules in WANTED.items()
        if file.stem.startswith(stem)
        for module, name in modules.items()
    }
    missing = [name for module, name in wanted.items() if not importlib.util.find_spec(module)]
    if not build.library.exists():
        missing.append('c/out/libnonobench.so, which c/build makes')
    return f'there is no {missing[0]} for {file.name}' if missing else None


def pytest_ignore_collect(collection_path, config):
    return True if unread(collection_path, config.stash[BUILD]) else None


def pytest_collection_modifyitems(config, items):
    """Leaves out what is not asked for or cannot be tried here, and counts it by its reason."""
    build = config.stash[BUILD]
    changed = tried.changed_crates() if build.released else []
    chosen, left_out = [], collections.Counter()
    for item in items:
        why = why_not(item, config, changed)
        if why:
            left_out[why] += 1
        else:
            chosen.append(item)
        if (
            not build.released
            and 'made' in item.fixturenames
            and 'program' not in item.fixturenames
        ):
            # One process makes the packages and tries them, and the others go on.
            item.add_marker(pytest.mark.xdist_group('packages'))
    items[:] = chosen
    config.stash[LEFT_OUT] = left_out


def why_not(item, config, changed):
    """Why a test is left out, or None."""
    build = config.stash[BUILD]
    for name in LONG:
        if name not in config.getoption('with') and item.get_closest_marker(name):
            return WHY_LONG.format(name)
    if build.released and item.get_closest_marker('toolchain'):
        return 'it wants the toolchain, or what rt ci leaves'
    for mark in item.iter_markers('since'):
        version = mark.args[0]
        if tried.as_numbers(version) > tried.as_numbers(tried.version_of_tree()):
            raise pytest.UsageError(
                f'{item.nodeid}: since {version}, which is later than the version of the tree'
            )
        if build.released and changed != [] and is_later(version, build.version):
            return f'it waits for the release {version}, which has its words'
    return None


def is_later(version, other):
    return tried.as_numbers(version) > tried.as_numbers(other)


# ---- what is said of a run


class Files:
    """Says of each file of tests how it went, once all of it has run, and of a failure at once."""

    def __init__(self, config):
        self.plugins = config.pluginmanager
        self.waiting, self.counts = collections.Counter(), {}

    def say(self, line, **looks):
        self.plugins.get_plugin('terminalreporter').write_line(line, **looks)

    def expect(self, ids):
        """The tests that are to be run; each process of a run names them all."""
        if not self.waiting:
            self.waiting = collections.Counter(name.split('::')[0] for name in ids)

    def pytest_collection_finish(self, session):
        self.expect(item.nodeid for item in session.items)

    def pytest_runtest_logreport(self, report):
        file = report.nodeid.split('::')[0]
        counts = self.counts.setdefault(file, collections.Counter())
        if report.failed:
            self.say(f'FAILED {report.nodeid}', red=True)
        if report.failed or report.skipped or report.when == 'call':
            counts[report.outcome] += 1
        if report.when == 'teardown':
            self.waiting[file] -= 1
            if not self.waiting[file]:
                counted = ', '.join(
                    f'{count} {outcome}' for outcome, count in sorted(counts.items())
                )
                self.say(f'{file}: {counted}')


class FilesOfProcesses(Files):
    """The same where several processes run tests, which xdist starts."""

    def pytest_xdist_node_collection_finished(self, node, ids):
        self.expect(ids)

    def pytest_testnodedown(self, node, error):
        left_out = getattr(node, 'workeroutput', {}).get('left out')
        if left_out is not None:
            node.config.stash[LEFT_OUT] = collections.Counter(left_out)


def pytest_report_teststatus(report, config):
    """No letters: files and failures are named."""
    if report.when == 'call' or report.failed or report.skipped:
        return report.outcome, '', ''
    return '', '', ''


def pytest_sessionfinish(session):
    if hasattr(session.config, 'workeroutput'):
        session.config.workeroutput['left out'] = dict(session.config.stash[LEFT_OUT])


def pytest_terminal_summary(terminalreporter, config):
    """Says what was left out, in one line, and writes the counts."""
    if 'PYTEST_XDIST_WORKER' in os.environ:
        return
    build = config.stash[BUILD]
    reasons = reasons_of(terminalreporter.stats, config)
    parts = [f'{reason}: {count}' for reason, count in sorted(reasons.items())]
    terminalreporter.write_line(
        f'left out: {"; ".join(parts)}' if parts else 'nothing was left out in this run'
    )
    if build.released:
        terminalreporter.write_line(f'tried: {build.name}; {what_changed()}')
    if config.getoption('counts'):
        stats = terminalreporter.stats
        passed = len(stats.get('passed', ()))
        failed = len(stats.get('failed', ())) + len(stats.get('error', ()))
        lines = [f'{passed} {failed}', *parts]
        Path(config.getoption('counts')).write_text(''.join(f'{line}\n' for line in lines))


def reasons_of(stats, config):
    """Why tests were left out, with their number: before the run, in it, and parts of a test."""
    reasons = collections.Counter(config.stash.get(LEFT_OUT, {}))
    reasons.update(
        report.longrepr[2].removeprefix('Skipped: ') for report in stats.get('skipped', ())
    )
    reasons.update(
        why
        for report in stats.get('passed', ())
        for name, why in report.user_properties
        if name == 'left out'
    )
    files = tried.ROOT.glob('python/tests/*.py')
    reasons.update(why for why in (unread(file, config.stash[BUILD]) for file in files) if why)
    return reasons


def what_changed():
    changed = tried.changed_crates()
    if changed is None:
        return 'nobody knows whether the engine has changed since'
    return f'the engine has changed since in {len(changed)} crates'


# ---- what tests are given


def pytest_generate_tests(metafunc):
    """Tests of the program are run with each program that there is."""
    if 'program' in metafunc.fixturenames:
        toolchain, whole = pytest.mark.toolchain, pytest.mark.all
        programs = {
            'nonobench': (),
            'nonobench.by-rattle': (toolchain,),
            'npm': (whole,),
            'archive': (whole, toolchain),
        }
        metafunc.parametrize(
            'program',
            [pytest.param(name, marks=marks, id=name) for name, marks in programs.items()],
            indirect=True,
            scope='session',
        )


@pytest.fixture(scope='session')
def program(request, build, shared):
    """A program: of this machine, or of the packages."""
    name = request.param
    if name == 'npm':
        return tried.Program(request.getfixturevalue('javascript'), in_node=True)
    if name == 'archive':
        return tried.Program(request.getfixturevalue('installed') / 'bin' / 'nonobench')
    return tried.Program(build.program(name))


@pytest.fixture(scope='session')
def build(pytestconfig):
    """What is tried: where the programs, the library, the module and the page are."""
    return pytestconfig.stash[BUILD]


@pytest.fixture
def nonobench(build):
    """The program of this machine."""
    return build.program('nonobench')


@pytest.fixture(scope='session')
def shared(tmp_path_factory):
    """A folder that all processes of a run share."""
    base = tmp_path_factory.getbasetemp()
    return base.parent if 'PYTEST_XDIST_WORKER' in os.environ else base


@pytest.fixture(scope='session')
def module(build):
    """The module of WebAssembly."""
    return tried.needs_file(build.module, 'web/build')


@pytest.fixture(scope='session')
def library(build):
    """The library for C and Python."""
    return tried.needs_file(build.library, 'c/build')


@pytest.fixture(scope='session')
def page(build, shared):
    """The page as one file: built, or joined of the scripts of this tree around the module of the
    release."""
    if not build.released:
        return tried.needs_file(build.page, 'web/build')
    tried.needs('node', 'esbuild')

    def join(folder):
        shutil.copy(build.module, folder)
        run = tried.ended(['node', tried.ROOT / 'web' / 'join.mjs', tried.ROOT, folder])
        return run.said.decode() if run.status else ''

    return tried.once(shared / 'page', join) / 'nonobench.html'


def made_by(*words, **env):
    """Runs what makes something; why it failed, or an empty text."""
    run = tried.ended(words, cwd=tried.ROOT, env={**os.environ, **env})
    return (run.wrote + run.said).decode()[-4000:] if run.status else ''


@pytest.fixture(scope='session')
def compiled(shared):
    """A folder with the object file of the program, and with LLVM's module of which it was made."""
    return tried.once(
        shared / 'compiled',
        lambda folder: made_by(tried.ROOT / 'packages' / 'object', folder / 'nonobench.o'),
    )


@pytest.fixture(scope='session')
def others(shared, compiled):
    """Library and program for other systems, a folder for each that has a compiler here."""
    tried.needs('rt', 'node')
    modules = {
        'MODULE': tried.needs_file(tried.ROOT / 'web/out/module.bc', 'bash .ci/run'),
        'PROGRAM': compiled / 'nonobench.bc',
    }

    def build(folder):
        run = tried.ended(
            [tried.ROOT / 'platforms' / 'build', folder], env={**os.environ, **modules}
        )
        return '' if run.status in (0, 77) else (run.wrote + run.said).decode()[-4000:]

    return tried.once(shared / 'others', build)


@pytest.fixture(scope='session')
def made(build, shared, request):
    """The folder of the packages: a candidate, made of what rt ci left, or dist/."""
    if build.released:
        return tried.ROOT / 'dist'
    candidate = tried.ROOT / 'out' / 'dist'
    parts = {
        'OBJECT': str(request.getfixturevalue('compiled') / 'nonobench.o'),
        'OTHERS': str(request.getfixturevalue('others')),
    }
    tried.once(shared / 'made', lambda _: made_by(tried.ROOT / 'release', candidate, **parts))
    return candidate


def lay_scripts(package):
    """Puts the scripts of this tree into an installed package of the release."""
    for file in [
        *tried.ROOT.glob('packages/npm/*.mjs'),
        *tried.ROOT.glob('packages/npm/*.d.mts'),
        tried.ROOT / 'web/nonobench.mjs',
    ]:
        if file.name != 'test.mjs':
            shutil.copyfile(file, package / file.name)  # npm has made the program executable
    shutil.copy(tried.ROOT / 'web/nonobench.d.ts', package / 'nonobench.d.mts')
    about = json.loads((package / 'package.json').read_text())
    now = json.loads((tried.ROOT / 'packages/npm/package.json').read_text())
    (package / 'package.json').write_text(json.dumps({**about, 'exports': now['exports']}))


@pytest.fixture(scope='session')
def npm(made, build, shared):
    """A folder in which the package for npm is installed; that of a release has the scripts of this
    tree."""
    tried.needs('node')
    package = next(made.glob('nonobench-*.tgz'))

    def install(folder):
        modules = folder / 'node_modules'
        if shutil.which('npm'):
            run = tried.clean(
                ['npm', 'install', '--silent', '--no-audit', '--no-fund', package], cwd=folder
            )
            why = run.said.decode() if run.status else ''
        else:
            (modules / '.bin').mkdir(parents=True)
            (modules / '.bin' / 'nonobench').symlink_to('../nonobench/program.mjs')
            why = made_by('tar', 'xzf', package, '-C', modules) or made_by(
                'mv', modules / 'package', modules / 'nonobench'
            )
        if build.released and not why:
            lay_scripts(modules / 'nonobench')
        return why

    return tried.once(shared / 'npm', install)


@pytest.fixture(scope='session')
def javascript(npm):
    """The program in JavaScript."""
    return npm / 'node_modules' / 'nonobench' / 'program.mjs'


@pytest.fixture(scope='session')
def installed(made, shared):
    """Where the archive for Linux is unpacked: it runs there."""
    package = next(made.glob('nonobench-*-linux-x86_64.tar.gz'))
    tried.once(
        shared / 'archive',
        lambda folder: made_by('tar', 'xzf', package, '-C', folder, '--strip-components', '1'),
    )
    return shared / 'archive'
