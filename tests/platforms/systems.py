"""The other systems for which library and program are made, and how their programs are run here:
those for Linux on arm64 by qemu-aarch64, those for Windows by wine."""

import os
import subprocess
from pathlib import Path

import pytest
from tried import ROOT, Ended, ended, needs, passes

HERE = Path(__file__).parent
SECONDS = 1800
TRIES = 3
LOST, NOT_ENDED = (
    -17_000,
    -1,
)  # launch.c: numbers between them are of what did not begin; a crash has one far below


class Linux:
    """Linux on arm64."""

    name, compiler, shared_library, program = (
        'linux-aarch64',
        'aarch64-linux-gnu-gcc',
        'libnonobench.so.0',
        'nonobench',
    )
    line_end = b'\n'

    def __init__(self, made, folder):
        needs(self.compiler, 'qemu-aarch64')
        self.made, self.folder = made / self.name, folder

    def run(self, program, *words, text=b'', cwd=None):
        emulator = [
            'qemu-aarch64',
            '-L',
            '/usr/aarch64-linux-gnu',
            '-E',
            f'LD_LIBRARY_PATH={program.parent}',
        ]
        return ended(
            [
                *emulator,
                program,
                *(word if isinstance(word, bytes) else str(word) for word in words),
            ],
            text,
            cwd=cwd,
        )

    def run_each(self, runs, cwd):
        """How the program ends for each list of words with its text, in a folder."""
        return [
            self.run(self.made / self.program, *words, text=text, cwd=cwd) for words, text in runs
        ]

    def end(self):
        pass


class Windows:
    """Windows on x86-64, with a home of its own. What wine starts beside a program keeps its
    streams open, so these are files; and since it takes long to begin, one program there runs many
    (launch.c)."""

    name, compiler, shared_library, program = (
        'windows-x86_64',
        'x86_64-w64-mingw32-gcc',
        'nonobench.dll',
        'nonobench.exe',
    )
    line_end = b'\r\n'

    def __init__(self, made, folder):
        needs(self.compiler, 'wine', 'wineserver')
        self.made, self.folder = made / self.name, folder
        plain = {
            name: value
            for name, value in os.environ.items()
            if name not in ('DISPLAY', 'WAYLAND_DISPLAY')
        }
        overrides = 'mscoree=;mshtml=;winemenubuilder.exe=d;winedbg.exe=d'
        self.env = {
            **plain,
            'WINEPREFIX': str(folder / 'home'),
            'WINEDEBUG': '-all',
            'WINEDLLOVERRIDES': overrides,
            'LC_ALL': 'C.UTF-8',
        }
        self.launcher = None

    def run(self, program, *words, text=b'', cwd=None, by=('wine',)):
        files = [self.folder / name for name in ('text', 'wrote', 'said')]
        files[0].write_bytes(text)
        with open(files[0], 'rb') as given, open(files[1], 'wb') as wrote, open(
            files[2], 'wb'
        ) as said:
            run = subprocess.run(
                [*by, *map(str, (program, *words))],
                cwd=cwd,
                env=self.env,
                stdin=given,
                stdout=wrote,
                stderr=said,
                timeout=SECONDS,
            )
        return Ended(run.returncode, files[1].read_bytes(), files[2].read_bytes())

    def launch(self, lines, cwd):
        """How programs end: each is a line of a command, and three names of streams as launch.c
        takes them. What wine did not begin, as it was seen to happen at load, is run again."""
        found = self.launch_once(dict(enumerate(lines)), cwd)
        for _ in range(TRIES):
            lost = {at: lines[at] for at, run in found.items() if LOST < run.status < NOT_ENDED}
            found.update(self.launch_once(lost, cwd) if lost else {})
        return [found[at] for at in range(len(lines))]

    def launch_once(self, lines, cwd):
        if not self.launcher:
            self.launcher = linked(
                self, self.folder, HERE / 'launch.c', '-static', name='launch.exe'
            )
        parts = []
        for at, (line, *streams) in lines.items():
            names = [
                stream or f'{at}.{end}' for stream, end in zip(streams, ('text', 'wrote', 'said'))
            ]
            parts += [
                line,
                self.inside(cwd),
                *(name if name in '-|' else self.inside(cwd, name) for name in names),
            ]
            parts.append(self.inside(cwd, f'{at}.status'))
        listed = cwd / 'list'
        listed.write_bytes('\0'.join([*parts, '']).encode('utf-16-le', 'surrogatepass'))
        run = self.run(self.launcher, self.inside(listed), cwd=cwd)
        assert run.status == 0, run
        return {
            at: Ended(
                int((cwd / f'{at}.status').read_text()),
                read(cwd / f'{at}.wrote'),
                read(cwd / f'{at}.said'),
            )
            for at in lines
        }

    def inside(self, folder, name=''):
        """A path as Windows has it; marks of launch.c stay in front of it."""
        mark = name[:1] if name[:1] in ('<', '!') else ''
        path = folder / name[len(mark) :] if name else folder
        return f'{mark}Z:{path}'.replace('/', '\\')

    def line(self, words):
        """The line of a command for the program."""
        return subprocess.list2cmdline([self.inside(self.made, self.program), *map(str, words)])

    def run_each(self, runs, cwd):
        for at, (_, text) in enumerate(runs):
            (cwd / f'{at}.text').write_bytes(text)
        return self.launch([(self.line(words), '', '', '') for words, _ in runs], cwd)

    def end(self):
        subprocess.run(['wineserver', '-k'], env=self.env, check=False)


def on(*systems):
    """A test is run on these systems, those of each by a process of its own."""
    marked = [
        pytest.param(one, marks=pytest.mark.xdist_group(one.name), id=one.name) for one in systems
    ]
    return pytest.mark.parametrize('system', marked, indirect=True)


ON_LINUX, ON_WINDOWS, ON_EACH = on(Linux), on(Windows), on(Linux, Windows)


def read(file):
    return file.read_bytes() if file.exists() else b''


def linked(system, folder, *words, name='program.exe'):
    """A program of sources and further words of the compiler."""
    program = folder / name
    passes(
        [system.compiler, '-std=gnu11', '-O1', f'-I{ROOT}/c', *words, '-lpthread', '-o', program]
    )
    return program
