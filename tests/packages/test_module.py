"""The module for browsers: built twice to the same bytes, its functions beside what calls them, and
what it answers beside the program."""

import re
import shutil
import sys
from pathlib import Path

import pytest
from tried import EXAMPLES, ROOT, dumped, ended, needs, needs_file, node_tests, passes, served

sys.path.append(str(ROOT / 'measure'))


@pytest.fixture(scope='session')
def kit():
    """The folder of the toolchain."""
    needs('rt')
    return Path(ended(['rt', 'doc']).wrote.decode().split('\n')[0]).parent


@pytest.fixture(scope='session')
def bitcode():
    """LLVM's module of the crate web, as web/build was told to keep it."""
    return needs_file(ROOT / 'web' / 'out' / 'module.bc', 'KEEP=web/out/module.bc web/build')


@pytest.mark.toolchain
def test_built_again_it_has_the_same_bytes(bitcode, module, tmp_path):
    passes([ROOT / 'web' / 'build', tmp_path], env={'MODULE': str(bitcode)})
    passes(['diff', '-r', '-x', 'module.bc', '-x', 'module.check.bc', module.parent, tmp_path])


@pytest.mark.toolchain
def test_calls_and_statuses(bitcode, kit, tmp_path):
    text = tmp_path / 'module.ll'
    clang = [
        kit / 'toolchain' / 'bin' / 'clang',
        '--no-default-config',
        '-Xclang',
        '-disable-llvm-passes',
        '-S',
        '-emit-llvm',
    ]
    passes([*clang, '-x', 'ir', bitcode, '-o', text])
    passes([sys.executable, ROOT / '.ci' / 'abi.py', text])


def test_calls_and_statuses_of_the_sources():
    passes([sys.executable, ROOT / '.ci' / 'abi.py'])


@pytest.mark.toolchain
def test_what_makes_it_narrow(request, kit):
    node_tests(
        request,
        ROOT / 'web' / 'narrow_test.mjs',
        {'CLANG': str(kit / 'toolchain' / 'bin' / 'clang')},
    )


@pytest.mark.since('0.8.0')
def test_in_node(request, module):
    node_tests(request, ROOT / 'web' / 'test.mjs', {'WASM': str(module)})


@pytest.mark.since('0.8.0')
def test_checker_in_node(request, module):
    node_tests(
        request, ROOT / 'web' / 'check_test.mjs', {'WASM': str(module), 'CHECK': str(module.parent)}
    )


@pytest.mark.since('0.8.0')
@pytest.mark.all
def test_badge_in_a_browser(module, tmp_path):
    """examples/badge.html on a server: of its three puzzles the last names a given that is not
    published."""
    for file in (
        EXAMPLES / 'badge.html',
        *EXAMPLES.glob('*.ppm'),
        *EXAMPLES.glob('*.cert'),
        *EXAMPLES.glob('*.givens'),
    ):
        shutil.copy(file, tmp_path)
    for kind in ('wasm', 'mjs'):
        shutil.copy(module.with_name(f'nonobench-check.{kind}'), tmp_path)
    with served(tmp_path) as url:
        shown = dumped(f'{url}/badge.html', tmp_path / 'home', ended)
    right = 'one solution, checked in your browser'
    wanted = [right, right, 'not proved: certificate UnpublishedGiven at line 2']
    assert re.findall(r'<span class="badge \w+"[^>]*>([^<]*)<', shown) == wanted


@pytest.mark.compiler
def test_heap(tmp_path):
    needs('cc')
    passes(
        [
            'cc',
            '-std=c11',
            '-O1',
            '-Wall',
            '-Wextra',
            '-Werror',
            ROOT / 'web' / 'heap_test.c',
            '-o',
            tmp_path / 'heap_test',
        ]
    )
    passes([tmp_path / 'heap_test'])


def test_rates_beside_those_of_the_library(module, library, tmp_path, monkeypatch):
    """The module checks and judges at least 0.4 times as fast as the library does for Python: 0.8
    times on a quiet machine. That is the best of some turns, by the processor's time, since a busy
    machine slows both."""
    needs('node')
    import rates

    pairs, _ = rates.pairs_of(100)
    rates.write(pairs, tmp_path / 'pairs')
    monkeypatch.setenv('WASM', str(module))
    monkeypatch.setattr(rates, 'ROUNDS', 8)
    most = [0.0] * 3
    for _ in range(5):
        parts = [
            one / other for one, other in zip(rates.of_javascript(tmp_path), rates.of_python(pairs))
        ]
        most = [max(pair) for pair in zip(most, parts)]
        if min(most) > 0.4:
            return
    pytest.fail(f'checks, verdicts and certificates: {most}')


@pytest.mark.since('0.8.0')
@pytest.mark.all
def test_beside_the_program(build, module):
    needs('node')
    passes(
        ['node', ROOT / 'tests' / 'packages' / 'compare.mjs', '1000'],
        env={'NONOBENCH': str(build.program('nonobench')), 'WASM': str(module)},
    )
