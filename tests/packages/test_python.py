"""The Python package beside its own tests in python/tests: installed by pip, and the report of an
audit that docs/ shows."""

import os
import re
import subprocess
import sys

import pytest
from tried import EXAMPLES, ROOT, ended, passes

ASK = '''import sys, nonobench
print(nonobench.check(*(open(name, "rb").read() for name in sys.argv[1:]), published=[(1, 1)]).givens)'''  # noqa: E501


@pytest.mark.all
def test_by_pip(library, tmp_path):
    """Installed as python/README.md says, without an index to fetch from, and asked from another
    folder."""
    if subprocess.run(
        [sys.executable, '-m', 'venv', tmp_path / 'env'], capture_output=True
    ).returncode:
        pytest.skip('this Python makes no environment')
    python = tmp_path / 'env' / 'bin' / 'python'
    passes(
        [python, '-m', 'pip', 'install', ROOT / 'python'],
        env={'PIP_NO_INDEX': '1', 'PIP_DISABLE_PIP_VERSION_CHECK': '1'},
    )
    env = {
        name: value
        for name, value in os.environ.items()
        if name not in ('NONOBENCH_LIBRARY', 'PYTHONPATH')
    }
    if not (ROOT / 'c' / 'out' / 'libnonobench.so').exists():
        env['NONOBENCH_LIBRARY'] = str(library)
    run = ended(
        [python, '-c', ASK, EXAMPLES / 'given.ppm', EXAMPLES / 'given.ppm.cert'],
        cwd=tmp_path,
        env=env,
    )
    assert (run.status, run.wrote) == (0, b'(Given(row=1, column=1),)\n'), run


def without_version(text):
    return re.sub(r'nonobench [0-9.]*[0-9]', 'nonobench', text)


def test_report_of_the_examples(library, tmp_path):
    """Some puzzles of examples/ are ambiguous, so the status is 1. With AUDIT_WRITE=1 the report in
    docs/ is written anew."""
    for name, title in (('PIL', 'Pillow'), ('defusedxml', 'defusedxml'), ('jinja2', 'Jinja2')):
        pytest.importorskip(name, reason=f'there is no {title}')
    report, shown = tmp_path / 'audit.html', ROOT / 'docs' / 'audit.html'
    words = [
        '--max-guesses',
        '10000',
        '--quiet',
        '--title',
        'The examples of nonobench',
        '--html',
        report,
    ]
    puzzles = [
        f'examples/{file.name}'
        for ending in ('ppm', 'non')
        for file in sorted(EXAMPLES.glob(f'*.{ending}'))
    ]
    run = ended(
        [sys.executable, '-m', 'nonobench.audit', *puzzles, *words],
        cwd=ROOT,
        env={**os.environ, 'PYTHONPATH': str(ROOT / 'python' / 'src')},
    )
    assert run.status == 1, run
    if os.environ.get('AUDIT_WRITE'):
        shown.write_bytes(report.read_bytes())
    assert without_version(report.read_text()) == without_version(shown.read_text())
