"""The packages of a release: made twice to the same bytes, and each tried with its own command in a
clean folder, with no toolchain on the PATH and, if unshare is allowed, no network. Each is asked
for pairs that must be accepted, that must be refused, and whose givens are all cells.

If CHANGELOG.md says that the version is released, dist/ must have the bytes of what was made.
"""

import contextlib
import functools
import gzip
import hashlib
import http.server
import json
import os
import queue
import re
import shutil
import signal
import struct
import subprocess
import sys
import threading

import pytest
from tried import (
    EXAMPLES,
    ROOT,
    VERSION,
    chromium,
    clean,
    dumped,
    ended,
    engine_now,
    named,
    needs,
    node_tests,
    passes,
    served,
    version_of,
)

pytestmark = pytest.mark.all
TRIALS = ROOT / 'tests' / 'packages' / 'trials'
MOST_PACKED = 12 << 20
MOST_PROGRAM = 3 << 19

# What is said of the picture diagonal (tests/cases/grade.case).
DIAGONAL = 'unique\nsize 2 2\ncolours 3\ngivens 0\nopen 0\ngrade easy 1 4 3 0 0\nfit'


@pytest.fixture(scope='session')
def version(made):
    return version_of(next(made.glob('nonobench-*.tgz')).name)


@pytest.fixture(scope='session')
def pairs(build, tmp_path_factory):
    """Pictures with certificates: a good one, that of another picture, and one whose givens are all
    cells; and why the second is refused."""
    folder = tmp_path_factory.mktemp('pairs')
    for name, picture in (('good', 'diagonal'), ('bad', 'heart'), ('all', 'given')):
        shutil.copy(EXAMPLES / f'{picture}.ppm', folder / f'{name}.ppm')
    for name in ('good', 'bad'):
        shutil.copy(EXAMPLES / 'diagonal.ppm.cert', folder / f'{name}.cert')
    (folder / 'all.cert').write_text(
        'nonocert 2\ngiven 1 1\ngiven 1 2\ngiven 2 1\ngiven 2 2\ndone\n'
    )
    run = ended([build.program('nonobench'), 'check', folder / 'bad.ppm', folder / 'bad.cert'])
    assert run.status == 1
    return {
        name: [folder / f'{name}.ppm', folder / f'{name}.cert'] for name in ('good', 'bad', 'all')
    }, run.said.decode().strip()


def prints(status, wanted, words, **more):
    """Compares what a command prints or says in a clean folder, and its status."""
    run = clean(words, **more)
    assert (run.status, (run.wrote + run.said).decode().strip()) == (status, wanted), words


# The same of a picture whose cells are all given, by hand as in tests/cases/fit.txt: one of them
# need not be.
ALL_GIVEN = (
    'unique\nsize 2 2\ncolours 2\ngivens 4\nopen 0\ngrade easy 0 0 0 0 0\nflaw given 1 1\nunfit'
)


def try_program(words, pairs, version):
    """Tries a program on the pairs. Of the one that is refused the native program says which line
    is wrong."""
    files, why = pairs
    prints(0, f'nonobench {version}', [*words, '--version'])
    prints(0, 'certificate accepted', [*words, 'check', *files['good']])
    prints(1, why, [*words, 'check', *files['bad']])
    prints(0, 'certificate accepted, givens 4', [*words, 'check', *files['all']])


def try_call(
    words,
    pairs,
    good='certificate accepted',
    all_given=(0, 'certificate accepted, givens 4'),
    **more,
):
    """Tries a call on the pairs: one whose givens are all cells is refused unless they are
    published."""
    files, why = pairs
    prints(0, good, [*words, *files['good']], **more)
    prints(1, f'refused: {why.removeprefix("nonobench: ")}', [*words, *files['bad']], **more)
    prints(1, 'refused: certificate UnpublishedGiven at line 2', [*words, *files['all']], **more)
    prints(*all_given, [*words, *files['all'], '1,1', '1,2', '2,1', '2,2'], **more)


def try_prove(words, folder):
    """Makes a certificate, and checks it."""
    picture, certificate = EXAMPLES / 'heart.ppm', folder / 'heart.cert'
    run = clean([*words, 'prove', picture])
    assert (run.status, run.said) == (0, b'')
    certificate.write_bytes(run.wrote)
    prints(0, 'certificate accepted', [*words, 'check', picture, certificate])


def blocks_of(page):
    """The blocks of code of a page, which a package's copy has too; links may differ."""
    return re.findall(r'(?ms)^ *```.*?^ *```$', page.read_text())


def try_scripts(folder):
    """Tries the audit on an example that was installed, looks for its man page, and compares the
    recipes with those of this tree."""
    assert list((folder / 'share' / 'man' / 'man1').glob('nonobench-audit.1*'))
    shown = folder / 'share' / 'doc' / 'nonobench'
    run = clean([folder / 'bin' / 'nonobench-audit', shown / 'examples' / 'heart.ppm'])
    assert run.status == 0, run
    assert blocks_of(shown / 'docs' / 'RECIPES.md') == blocks_of(ROOT / 'docs' / 'RECIPES.md')


def test_no_toolchain_in_clean_folders():
    assert (
        clean(['sh', '-c', 'command -v rt']).status != 0
    ), 'the toolchain is on the PATH in clean folders too'


@pytest.mark.toolchain
def test_made_again_they_have_the_same_bytes(made, compiled, tmp_path):
    """What is for other systems is built anew, from the same modules."""
    passes([ROOT / 'release', tmp_path / 'again'], env={'OBJECT': str(compiled / 'nonobench.o')})
    passes(['diff', '-r', made, tmp_path / 'again'])


def test_sums(made):
    """Of all files but the list itself."""
    passes(['sha256sum', '--quiet', '--strict', '-c', 'SHA256SUMS'], cwd=made)
    listed = {line.split()[1] for line in (made / 'SHA256SUMS').read_text().splitlines()}
    assert listed == {file.name for file in made.iterdir()} - {'SHA256SUMS'}


def test_sources(made, build):
    """The engine's files with what git calls their contents; of an older release those that it was
    made of."""
    listed = dict(reversed(line.split()) for line in (made / 'SOURCES').read_text().splitlines())
    assert VERSION in listed
    if not build.released:
        assert listed == engine_now()


def put_sums(folder):
    names = sorted(file.name for file in folder.iterdir() if file.name != 'SHA256SUMS')
    (folder / 'SHA256SUMS').write_bytes(ended(['sha256sum', '--', *names], cwd=folder).wrote)


def test_a_changed_byte_is_told(made, tmp_path):
    """A release with a byte changed, or with another sum, is told from what was made."""
    marred = tmp_path / 'marred'
    shutil.copytree(made, marred)
    compare = [ROOT / 'packages' / 'compare', made, marred]
    passes(compare)
    with open(marred / 'nonobench.html', 'ab') as page:
        page.write(b'x')
    assert ended(compare).status != 0
    put_sums(marred)
    assert ended(compare).status != 0


def test_bytes_of_other_tools_are_not_compared(made, tmp_path):
    others = tmp_path / 'others'
    shutil.copytree(made, others)
    readme = (others / 'README.md').read_text()
    assert readme.count('esbuild ') == 1
    (others / 'README.md').write_text(readme.replace('esbuild ', 'esbuild 0.'))
    put_sums(others)
    assert 'left out, since other tools made them' in passes(
        [ROOT / 'packages' / 'compare', made, others]
    )


def test_dist_is_what_was_made(made, build):
    newest = re.search(r'(?m)^## (.*)$', (ROOT / 'CHANGELOG.md').read_text())[1]
    if 'not released yet' in newest:
        passes(['sha256sum', '--quiet', '--strict', '-c', 'SHA256SUMS'], cwd=ROOT / 'dist')
    elif build.released:
        pytest.skip('it wants the toolchain, or what rt ci leaves')
    else:
        said = passes([ROOT / 'packages' / 'compare', made, ROOT / 'dist'])
        if 'left out, since' in said:
            pytest.skip(said.strip().splitlines()[0])


UNPACK = {
    '.tgz': ['tar', 'xzf', '{}', '-C'],
    '.tar.gz': ['tar', 'xzf', '{}', '-C'],
    '.deb': ['dpkg-deb', '-x', '{}'],
    '.whl': [sys.executable, '-m', 'zipfile', '-e', '{}'],
    '.zip': [sys.executable, '-m', 'zipfile', '-e', '{}'],
}


def unpacked(made, ending, folder):
    """The packages whose names end so, each in a folder."""
    needs(UNPACK[ending][0])
    packages = sorted(made.glob(f'*{ending}'))
    assert packages or ending == '.zip'  # which a compiler for Windows makes
    for package in packages:
        top = folder / package.name
        top.mkdir()
        passes([word.format(package) for word in UNPACK[ending]] + [top])
        yield top.resolve()


@pytest.mark.parametrize('ending', UNPACK)
def test_links_lead_to_files_of_the_package(made, ending, tmp_path):
    """Those of its Markdown files, and of the page that a wheel's METADATA has."""
    for top in unpacked(made, ending, tmp_path):
        pages = [*top.rglob('*.md'), *top.rglob('METADATA')]
        links = [
            (page, link)
            for page in pages
            for link in re.findall(r'\]\((?![a-z]+:)([^)\s]+)\)', page.read_text())
        ]
        assert links or ending == '.zip'
        for page, link in links:
            file = (page.parent / link.split('#')[0]).resolve() if link[0] != '#' else page
            assert file.is_file() and top in file.parents, f'{page}: {link}'


@pytest.mark.since('0.8.0')
@pytest.mark.parametrize('ending', UNPACK)
def test_no_package_has_a_file_twice(made, ending, tmp_path):
    for top in unpacked(made, ending, tmp_path):
        known = {}
        for file in sorted(top.rglob('*')):
            if file.is_file() and not file.is_symlink() and file.stat().st_size:
                other = known.setdefault(hashlib.sha256(file.read_bytes()).digest(), file)
                assert other == file


# ---- npm


def test_npm(npm, pairs, version, tmp_path):
    words = [npm / 'node_modules' / '.bin' / 'nonobench']
    try_program(words, pairs, version)
    try_prove(words, tmp_path)
    files, _ = pairs
    if shutil.which('npx'):
        prints(
            0,
            'certificate accepted',
            ['npx', '--offline', 'nonobench', 'check', *files['good']],
            cwd=npm,
        )


def test_npm_upload(npm, pairs):
    needs('npx')
    files, _ = pairs
    prints(0, DIAGONAL, ['npx', '--offline', 'nonobench-check-upload', *files['good']], cwd=npm)


def test_npm_calls(npm, pairs):
    shutil.copy(TRIALS / 'ask.mjs', npm)
    try_call(['node', npm / 'ask.mjs'], pairs)


def test_npm_example(npm, pairs):
    """The example of an upload, copied beside the installed package."""
    shutil.copy(EXAMPLES / 'check_upload.mjs', npm)
    files, _ = pairs
    prints(0, DIAGONAL, ['node', npm / 'check_upload.mjs', *files['good']])
    prints(
        1,
        'refused: certificate UnpublishedGiven at line 2',
        ['node', npm / 'check_upload.mjs', *files['all']],
    )


@pytest.mark.parametrize('text', ['import', None])
def test_npm_example_of_a_package_that_is_damaged(npm, pairs, tmp_path, text):
    """That is no fault of the upload: a module of the package is cut off, or gone."""
    shutil.copytree(npm / 'node_modules', tmp_path / 'node_modules')
    shutil.copy(EXAMPLES / 'check_upload.mjs', tmp_path)
    module = tmp_path / 'node_modules' / 'nonobench' / 'node.mjs'
    module.unlink() if text is None else module.write_text(text)
    run = clean(['node', tmp_path / 'check_upload.mjs', *pairs[0]['good']])
    assert run.status == 3
    assert run.said.startswith(b'check_upload: the package nonobench cannot be read: ')


def test_npm_types(npm):
    needs('tsc')
    shutil.copy(TRIALS / 'types.mts', npm)
    words = [
        '--noEmit',
        '--strict',
        '--target',
        'es2022',
        '--module',
        'node16',
        '--moduleResolution',
        'node16',
        '--lib',
        'es2022,esnext,dom',
    ]
    passes(['tsc', *words, 'types.mts'], cwd=npm)


def test_npm_worker_in_a_browser(npm, tmp_path):
    """On a server, which the page tells what its worker answers."""
    said = queue.Queue()

    class Handler(http.server.SimpleHTTPRequestHandler):
        def do_POST(self):
            said.put(self.rfile.read(int(self.headers['Content-Length'])).decode())
            self.send_response(204)
            self.end_headers()

    command = chromium(tmp_path / 'home')
    shutil.copy(TRIALS / 'worker.html', tmp_path)
    shutil.copytree(npm / 'node_modules' / 'nonobench', tmp_path / 'nonobench')
    handler = functools.partial(Handler, directory=tmp_path)
    with http.server.ThreadingHTTPServer(('127.0.0.1', 0), handler) as server:
        threading.Thread(target=server.serve_forever, daemon=True).start()
        url = f'http://127.0.0.1:{server.server_port}/worker.html'
        with subprocess.Popen([*command, url], start_new_session=True) as browser:
            try:
                wanted = 'r 1: 1a, c 1: 1a; picture NotP3; timeout TimeoutError'
                assert said.get(timeout=300) == wanted
            finally:
                os.killpg(browser.pid, signal.SIGKILL)
        server.shutdown()


@pytest.mark.since('0.8.0')
def test_npm_as_it_would_be_published(made, tmp_path):
    """npm leaves nothing out, and finds nothing wrong."""
    needs('npm')
    [top] = unpacked(made, '.tgz', tmp_path)
    run = clean(['npm', 'pack', '--dry-run', '--json'], cwd=top / 'package')
    assert (run.status, run.said) == (0, b'')
    [package] = json.loads(run.wrote)
    files = {file.relative_to(top / 'package').as_posix() for file in top.rglob('*.*')}
    assert {file['path'] for file in package['files']} == files | {'NOTICES'}


def test_npm_in_node(request, build, npm):
    env = {
        'PACKAGE': str(npm / 'node_modules' / 'nonobench'),
        'NONOBENCH': str(build.program('nonobench')),
    }
    node_tests(request, ROOT / 'packages' / 'npm' / 'test.mjs', env)


# ---- the page


def test_page_has_the_module_of_the_package(made, npm, tmp_path):
    passes(['node', TRIALS / 'page.mjs', made / 'nonobench.html', tmp_path / 'module.wasm'])
    assert (tmp_path / 'module.wasm').read_bytes() == (
        npm / 'node_modules' / 'nonobench' / 'nonobench.wasm'
    ).read_bytes()


def test_page_begins_in_a_browser(made, tmp_path):
    """The text alone stands in the page's script too: the button is there once the script has
    run."""
    assert 'id="new-go">Start painting<' in dumped(f'file://{made}/nonobench.html', tmp_path, clean)


@pytest.mark.since('0.8.0')
def test_site_begins_in_a_browser(installed, tmp_path):
    """With a server, as the archive for Linux has it; each icon has the size that is said of it."""
    site = installed / 'site'
    with served(site) as url:
        assert 'id="new-go">Start painting<' in dumped(url, tmp_path, ended)
    icons = json.loads((site / 'manifest.webmanifest').read_text())['icons']
    assert {icon['src'] for icon in icons} == {'icon.svg', 'icon.png'}
    [size] = [icon['sizes'] for icon in icons if icon['src'] == 'icon.png']
    begin = (site / 'icon.png').read_bytes()[16:24]
    assert size == 'x'.join(map(str, struct.unpack('>II', begin)))


# ---- Linux


def test_archive(installed, pairs, version):
    try_program([installed / 'bin' / 'nonobench'], pairs, version)


@pytest.mark.compiler
def test_library_for_c(installed, pairs, version, tmp_path):
    """It is linked both ways."""
    needs('cc', 'pkg-config')
    [example] = installed.glob('share/doc/nonobench/*/example.c')
    run = clean(
        ['pkg-config', '--cflags', '--libs', f'nonobench = {version}'],
        PKG_CONFIG_PATH=installed / 'lib' / 'pkgconfig',
    )
    assert run.status == 0, run
    for name, flags in (
        ('shared', [*run.wrote.decode().split(), f'-Wl,-rpath,{installed}/lib']),
        ('static', [f'-I{installed}/include', installed / 'lib' / 'libnonobench.a']),
    ):
        built = clean(['cc', '-std=c11', example, *flags, '-o', tmp_path / name])
        assert built.status == 0, built
        try_call([tmp_path / name], pairs, DIAGONAL, (1, ALL_GIVEN))


@pytest.mark.since('0.8.0')
@pytest.mark.compiler
def test_checker_for_c(installed, version, tmp_path):
    """A program of one call is linked with it."""
    needs('cc', 'pkg-config')
    folder = {'PKG_CONFIG_PATH': installed / 'lib' / 'pkgconfig'}
    run = clean(['pkg-config', '--cflags', '--libs', f'nonocheck = {version}'], **folder)
    assert run.status == 0, run
    (tmp_path / 'ask.c').write_text(
        '#include <nonocheck.h>\n#include <stdio.h>\nint main(void) { uint8_t out[NONOCHECK_ROOM];'
        ' nonocheck_version(out, sizeof out); return puts((char *)out) < 0; }\n'
    )
    flags = [*run.wrote.decode().split(), f'-Wl,-rpath,{installed}/lib']
    built = clean(['cc', '-std=c11', 'ask.c', *flags, '-o', 'ask'], cwd=tmp_path)
    assert built.status == 0, built
    prints(0, version, [tmp_path / 'ask'])


def test_archive_installed(made, pairs, version, tmp_path):
    """By its own script, and removed."""
    passes(['tar', 'xzf', next(made.glob('*-linux-x86_64.tar.gz')), '-C', tmp_path])
    [unpacked] = tmp_path.iterdir()
    shutil.copy(ROOT / 'packages' / 'linux' / 'install', unpacked)
    words = [unpacked / 'install', '--prefix', tmp_path / 'to']
    assert clean(words).status == 0
    try_program([tmp_path / 'to' / 'bin' / 'nonobench'], pairs, version)
    try_prove([tmp_path / 'to' / 'bin' / 'nonobench'], tmp_path)
    run = clean([tmp_path / 'to' / 'bin' / 'nonobench-audit', '--version'])
    assert (run.status, run.wrote.decode()) == (0, f'nonobench-audit {version}\n')
    assert clean([*words, '--uninstall']).status == 0
    assert [file for file in (tmp_path / 'to').rglob('*') if not file.is_dir()] == []


@contextlib.contextmanager
def by_dpkg(package, root):
    """Installs one package of Debian in a root, without what it depends on, and removes it with all
    that it left there."""
    needs('dpkg')
    for name in ('info', 'updates'):
        (root / 'var' / 'lib' / 'dpkg' / name).mkdir(parents=True)
    (root / 'var' / 'lib' / 'dpkg' / 'status').touch()
    forced = 'not-root,script-chrootless,architecture,depends'
    dpkg = ['dpkg', f'--root={root}', '--log=/dev/null', f'--force-{forced}']
    env = {'PATH': f'{os.environ["PATH"]}:/usr/sbin:/sbin'}
    passes([*dpkg, '--install', package], env=env)
    yield root / 'usr'
    passes([*dpkg, '--remove', package.name.split('_')[0]], env=env)
    assert [file.name for file in root.iterdir()] == ['var']


@pytest.mark.since('0.8.0')
def test_deb(made, pairs, version, tmp_path):
    package = made / f'nonobench_{version}_amd64.deb'
    with by_dpkg(package, tmp_path / 'root') as usr:
        try_program([usr / 'bin' / 'nonobench'], pairs, version)
        try_prove([usr / 'bin' / 'nonobench'], tmp_path)
        try_scripts(usr)
        run = clean(['python3', '-c', 'import nonobench'], PYTHONPATH=usr / 'lib' / 'nonobench')
        assert run.status == 0, run
    if shutil.which('apt-get'):  # a simulation needs no lock, which another apt may hold
        passes(['apt-get', '-qq', '-s', '-o', 'Debug::NoLocking=1', 'install', package])


@pytest.mark.since('0.8.0')
def test_deb_of_arm64(made, tmp_path):
    package = named(made, 'nonobench_*_arm64.deb')
    needs('qemu-aarch64')
    with by_dpkg(package, tmp_path / 'root') as usr:
        try_prove(['qemu-aarch64', usr / 'bin' / 'nonobench'], tmp_path)


@pytest.mark.since('0.8.0')
@pytest.mark.compiler
def test_deb_for_c(made, pairs, version, tmp_path):
    """By the commands of its README, where the system looks into its folders."""
    needs('cc', 'pkg-config')
    with by_dpkg(made / f'libnonobench-dev_{version}_amd64.deb', tmp_path / 'root') as usr:
        lib, include = usr / 'lib' / 'x86_64-linux-gnu', usr / 'include'
        env = {
            'PKG_CONFIG_LIBDIR': lib / 'pkgconfig',
            'LIBRARY_PATH': lib,
            'LD_LIBRARY_PATH': lib,
            'C_INCLUDE_PATH': include,
        }
        [block] = blocks_of(usr / 'share' / 'doc' / 'libnonobench-dev' / 'README.md')
        commands = block.strip('`').replace('/usr/share', f'{usr}/share')
        prints(0, DIAGONAL, ['sh', '-e', '-c', commands], cwd=tmp_path, **env)
        try_call([tmp_path / 'example'], pairs, DIAGONAL, (1, ALL_GIVEN), **env)
        prints(
            0, '-lnonocheck', ['pkg-config', '--cflags', '--libs', f'nonocheck = {version}'], **env
        )


@pytest.mark.since('0.8.0')
@pytest.mark.parametrize('machine', ['amd64', 'arm64'])
def test_debs_by_lintian(made, machine):
    needs('lintian')
    named(made, f'*_{machine}.deb')
    said = passes(
        ['lintian', '--no-cfg', '--fail-on', 'none', *made.glob(f'*_{machine}.deb')]
    ).splitlines()
    assert [line for line in said if line[:2] in ('E:', 'W:')] == []


# ---- Python


@pytest.fixture(scope='session')
def environment(made, tmp_path_factory):
    """An environment of Python in which the wheel is installed, and from which it is removed."""
    folder = tmp_path_factory.mktemp('wheel') / 'env'
    if clean([sys.executable, '-m', 'venv', folder]).status:
        pytest.skip('this Python makes no environment')
    pip = [folder / 'bin' / 'pip', '--quiet', '--disable-pip-version-check']
    before = {file for file in folder.rglob('*') if not file.is_dir()}
    run = clean([*pip, 'install', '--no-index', next(made.glob('*_x86_64.whl'))])
    assert run.status == 0, run
    yield folder
    assert clean([*pip, 'uninstall', '--yes', 'nonobench']).status == 0
    after = {file for file in folder.rglob('*') if not file.is_dir()}
    assert {file for file in after - before if '__pycache__' not in file.parts} == set()


@pytest.mark.since('0.8.0')
def test_wheel(made, environment, pairs, tmp_path):
    passes([sys.executable, '-m', 'zipfile', '-t', next(made.glob('*_x86_64.whl'))])
    prints(0, 'No broken requirements found.', [environment / 'bin' / 'pip', 'check'])
    shutil.copy(TRIALS / 'ask.py', tmp_path)
    try_call([environment / 'bin' / 'python', 'ask.py'], pairs, cwd=tmp_path)


@pytest.mark.since('0.8.0')
def test_wheel_scripts(environment, pairs, version, tmp_path):
    try_scripts(environment)
    try_program([environment / 'bin' / 'nonobench'], pairs, version)
    try_prove([environment / 'bin' / 'nonobench'], tmp_path)


@pytest.mark.since('0.8.0')
@pytest.mark.compiler
def test_wheel_with_musl(made, installed, pairs, tmp_path):
    """Its library, which is that of the archive, in a program of musl."""
    needs('musl-gcc')
    wheel = next(made.glob('*.musllinux_1_1_x86_64.whl'))
    passes([sys.executable, '-m', 'zipfile', '-e', wheel, tmp_path])
    lib, program = installed / 'lib', tmp_path / 'program'
    library = tmp_path / 'nonobench' / 'libnonobench.so'
    assert library.read_bytes() == (lib / 'libnonobench.so').read_bytes()
    words = [f'-I{installed}/include', f'-L{lib}', '-lnonobench', f'-Wl,-rpath,{lib}']
    passes(['musl-gcc', '-std=c11', ROOT / 'c' / 'example.c', *words, '-o', program])
    try_call([program], pairs, DIAGONAL, (1, ALL_GIVEN))


@pytest.mark.since('0.8.0')
def test_wheel_types(made, tmp_path):
    needs('mypy')
    passes([sys.executable, '-m', 'zipfile', '-e', next(made.glob('*_x86_64.whl')), tmp_path])
    shutil.copy(TRIALS / 'ask.py', tmp_path)
    # As of a package that is installed, only the program's own mistakes are told.
    words = ['mypy', '--strict', '--follow-imports=silent', '--no-incremental']
    passes([*words, '--cache-dir', '/dev/null', 'ask.py'], cwd=tmp_path)


def test_sizes(made, installed):
    packed = subprocess.run(
        ['tar', 'c', '-C', made, '.'], stdout=subprocess.PIPE, check=True
    ).stdout
    assert len(gzip.compress(packed, 9)) < MOST_PACKED
    assert (installed / 'bin' / 'nonobench').stat().st_size < MOST_PROGRAM
