"""What is said on a processor without SSE4.2, for which nothing is compiled: by the libraries for C
and Python, by the module and by the program. qemu has such processors, as virtual machines do."""

import sys

import pytest
from tried import EXAMPLES, ROOT, Ended, ended, named, needs, needs_file, passes

pytestmark = [pytest.mark.since('0.8.0'), pytest.mark.emulator]
WORDS = 'this processor has no SSE4.2, which nonobench needs'


def without(processor, *words, **env):
    """Runs a program on a processor."""
    needs('qemu-x86_64')
    given = [word for name, value in env.items() for word in ('-E', f'{name}={value}')]
    return ended(['qemu-x86_64', '-cpu', processor, *given, *words])


@pytest.mark.compiler
@pytest.mark.parametrize('processor', ['core2duo', 'kvm64'])
@pytest.mark.parametrize('kind', ['a', 'so'])
def test_libraries_for_c(library, kind, processor, tmp_path):
    needs('cc')
    libraries = [
        needs_file(library.with_name(f'libnono{end}.{kind}'), 'c/build')
        for end in ('bench', 'check')
    ]
    source = ROOT / 'tests' / 'packages' / 'processor.c'
    words = [
        f'-I{ROOT}/c',
        source,
        *libraries,
        f'-Wl,-rpath,{library.parent}',
        '-o',
        tmp_path / 'program',
    ]
    passes(['cc', '-std=c11', '-Wall', '-Wextra', '-Werror', *words])
    assert without(processor, tmp_path / 'program') == Ended(0, b'0 wrong\n', b'')
    assert ended([tmp_path / 'program']) == Ended(0, b'13 wrong\n', b'')


def test_python(library):
    env = {'NONOBENCH_LIBRARY': library, 'PYTHONPATH': ROOT / 'python' / 'src'}
    asked = 'import nonobench\ntry: nonobench.Worker()\nexcept ImportError as error: print(error)'
    assert without('kvm64', sys.executable, '-B', '-c', asked, **env) == Ended(
        0, f'{WORDS}\n'.encode(), b''
    )
    audit = without(
        'kvm64', sys.executable, '-B', '-m', 'nonobench.audit', EXAMPLES / 'heart.ppm', **env
    )
    assert audit == Ended(3, b'', f'nonobench-audit: {WORDS}\n'.encode())


def test_module(module, tmp_path):
    """In node, which has no SIMD there."""
    needs('node')
    asked = f"""
        import {{readFileSync}} from 'node:fs';
        import {{load}} from '{ROOT}/web/nonobench.mjs';
        await load(readFileSync('{module}')).catch((error) => console.log(error.message));
    """
    (tmp_path / 'ask.mjs').write_text(asked)
    said = b'this browser or Node.js has no WebAssembly SIMD, which nonobench needs\n'
    node = passes(['node', '-p', 'process.execPath']).strip()
    assert without('kvm64', node, tmp_path / 'ask.mjs') == Ended(0, said, b'')


@pytest.mark.all
def test_programs(made, installed, tmp_path):
    """That of the archive, and that of Debian's package."""
    needs('dpkg-deb')
    passes(['dpkg-deb', '-x', named(made, 'nonobench_*_amd64.deb'), tmp_path])
    for program in (installed / 'bin' / 'nonobench', tmp_path / 'usr' / 'bin' / 'nonobench'):
        run = without('kvm64', program, 'check', EXAMPLES / 'heart.ppm', 'none')
        assert run == Ended(3, b'', f'nonobench: {WORDS}\n'.encode())
