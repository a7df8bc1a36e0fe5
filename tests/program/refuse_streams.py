#!/usr/bin/env python3
"""Makes each read and each byte of output of the built program fail in turn.

A session's input is a terminal that hangs up after some number of bytes: it must answer each line
whose line feed has come, and no other, and end with status 3 and `nonobench: read failed`. The
output is a file with room for some number of bytes: it must hold the first bytes of the right text,
as many as there is room for, and the program must end with status 3 and `nonobench: write failed`.
Then come sessions whose reads give a few bytes each, up to the limit of reads and beyond it, inputs
that never end, and a session whose next line is sent only when the last one has been answered.

Usage: tests/program/refuse_streams.py. PROGRAM names another program than the proved one.
"""
import contextlib
import fcntl
import os
import resource
import select
import subprocess
import sys
import tempfile
import time
import tty
from pathlib import Path

ROOT = Path(__file__).resolve().parent.parent.parent
PROGRAM = os.environ.get('PROGRAM', ROOT / 'crates/nonobench/out/nonobench')
EXAMPLES = ROOT / 'examples'
PATIENCE = 600  # seconds after which a run counts as one that does not end
MOST_READS = 1_048_576  # of a session
MOST_MEMORY = 256 << 20  # of a run on an input without end: it keeps 16 MiB of it at the most
READ = (3, b'nonobench: read failed\n')
WRITE = (3, b'nonobench: write failed\n')
THREE = b'P3\n2 2\n255\n0 0 0\n0 0 0\n0 0 0\n255 255 255\n'
REPORT = (
    b'size 2 2\ncolours 2 maxval 255\n. 255 255 255\na 0 0 0\npicture\naa\na.\nclues\nr 1: 2a\nr 2:'
    b' 1a\nc 1: 2a\nc 2: 1a\nmap\naa\na.\nopen 0\nverdict unique\nhistory 0 1\n'
)
# The lines of a session over three black cells of four, and what is said to each.
LINES = (
    (b'verdict\n', b'unique\n'),
    (b'paint 1 1 .\n', b'ok\n'),
    (b'map\r\n', b'??\n??\n'),
    (b' \n', b''),
    (b'verdict\n', b'ambiguous\na.\n.a\n'),
    (b'undo\n', b'ok\n'),
    (b'undo\n', b'refused: UndoEmpty\n'),
    (b'report\n', REPORT),
)
CLUES = b'r 1: 2a\nr 2: 1a\nc 1: 2a\nc 2: 1a\n'


class Wrong(Exception):
    """A run that is not as it must be."""


def must(is_so, what):
    """Stops where something is not as it must be."""
    if not is_so:
        raise Wrong(what)


class Streams:
    """Runs the program in a folder with streams that fail."""

    def __init__(self, program, folder):
        self.program = program
        self.folder = folder
        self.file('three.ppm', THREE)

    def file(self, name, text):
        """A file with a text; its path."""
        path = os.path.join(self.folder, name)
        with open(path, 'wb') as file:
            file.write(text)
        return path

    def run(self, words, limit=None, **streams):
        """The status, what was said on standard error, and what was written where that is a
        pipe."""

        def limited():
            if limit:
                resource.setrlimit(*limit)

        # Without `restore_signals` a write past the limit fails, and does not end the program.
        ended = subprocess.run(
            [self.program, *words],
            cwd=self.folder,
            timeout=PATIENCE,
            check=False,
            restore_signals=False,
            preexec_fn=limited,
            **{'stderr': subprocess.PIPE, **streams},
        )
        return (ended.returncode, ended.stderr), ended.stdout

    def on_line(self, words, given):
        """Runs on a terminal that hangs up behind the bytes that are given."""
        far, near = os.openpty()
        tty.setraw(near)
        os.write(near, given)
        os.close(near)
        try:
            return self.run(words, stdin=far, stdout=subprocess.PIPE)
        finally:
            os.close(far)

    def with_room(self, words, room, source):
        """Runs with room for so many bytes of output; how it ended, and the bytes."""
        path = os.path.join(self.folder, 'out')
        with open(source, 'rb') as given, open(path, 'wb') as file:
            ended, _ = self.run(
                words, (resource.RLIMIT_FSIZE, (room, room)), stdin=given, stdout=file
            )
        return ended, Path(path).read_bytes()

    def in_pieces(self, words, pieces):
        """Runs where each read gives one of the pieces: a pipe of packets keeps them apart. How it
        ended, and what it wrote."""
        given, source = os.pipe2(os.O_DIRECT)
        with contextlib.suppress(
            OSError
        ):  # only for speed, and a user may have so much room in pipes, and no more
            fcntl.fcntl(source, fcntl.F_SETPIPE_SZ, 1 << 20)
        with subprocess.Popen(
            [self.program, *words],
            cwd=self.folder,
            stdin=given,
            stdout=subprocess.PIPE,
            stderr=subprocess.PIPE,
        ) as process:
            os.close(given)
            try:
                for piece in pieces:
                    os.write(source, piece)
            except BrokenPipeError:
                pass
            os.close(source)
            wrote, said = process.communicate(timeout=PATIENCE)
        return (process.returncode, said), wrote


def has_terminals():
    """Whether this machine gives terminals out."""
    try:
        for end in os.openpty():
            os.close(end)
    except OSError:
        return False
    return True


def reads(streams):
    """Fails the read behind each byte of the session's input, and of the picture on standard input;
    how many."""
    if not has_terminals():
        print('reads: left out, since this machine gives no terminal out')
        return 0
    given = b''.join(line for line, _ in LINES)
    for count in range(len(given) + 1):
        answered = LINES[: given[:count].count(b'\n')]
        ended = streams.on_line(['work', 'three.ppm'], given[:count])
        must(
            ended == (READ, b''.join(answer for _, answer in answered)),
            f'a read that fails behind {count} bytes: {ended}',
        )
    for count in range(len(THREE) + 1):
        ended = streams.on_line([], THREE[:count])
        must(ended == (READ, b''), f'a read of a picture that fails behind {count} bytes: {ended}')
    return len(given) + len(THREE) + 2


def writes(streams):
    """Fails the write of each byte that a session, the clues, a check and help write; how many."""
    failed = 0
    lines = streams.file('lines', b''.join(line for line, _ in LINES))
    answers = b''.join(answer for _, answer in LINES)
    diagonal = str(EXAMPLES / 'diagonal')
    (_, said), version = streams.run(
        ['--version'], stdin=subprocess.DEVNULL, stdout=subprocess.PIPE
    )
    must(said == b'', f'the version says {said}')
    runs = (
        (['work', 'three.ppm'], lines, answers),
        ([], streams.file('three.ppm', THREE), CLUES),
        (
            ['check', diagonal + '.ppm', diagonal + '.ppm.cert'],
            os.devnull,
            b'certificate accepted\n',
        ),
        (['--version'], os.devnull, version),
    )
    for words, source, wanted in runs:
        for room in range(len(wanted)):
            ended = streams.with_room(words, room, source)
            must(ended == (WRITE, wanted[:room]), f'{words} with room for {room} bytes: {ended}')
        ended = streams.with_room(words, len(wanted), source)
        must(ended == ((0, b''), wanted), f'{words} with room for all: {ended}')
        failed += len(wanted)
    return failed


def endless(streams):
    """Inputs without an end, each within bounded memory: three of them are too long, and a session
    ends at a failed write."""
    memory = (resource.RLIMIT_AS, (MOST_MEMORY, MOST_MEMORY))
    long = (1, b'nonobench: input too long\n')
    with open('/dev/zero', 'rb') as zeros:
        for words in ([], ['work', '/dev/zero'], ['check', 'three.ppm', '/dev/zero']):
            ended = streams.run(words, memory, stdin=zeros, stdout=subprocess.PIPE)
            must(ended == (long, b''), f'{words} on zeros without end: {ended}')
    with (
        subprocess.Popen(['yes', 'undo'], stdout=subprocess.PIPE) as source,
        open('/dev/full', 'wb') as full,
    ):
        ended = streams.run(['work', 'three.ppm'], memory, stdin=source.stdout, stdout=full)
        source.stdout.close()
        source.kill()
    must(ended[0] == WRITE, f'lines without end and no room: {ended}')
    return 4


def pieces(streams):
    """Gives the lines of the session in pieces of several sizes, and without the last line feed;
    and single bytes, up to the number of reads that a session may make and beyond it. How many
    runs."""
    given = b''.join(line for line, _ in LINES)
    wanted = b''.join(answer for _, answer in LINES)
    for size in (1, 2, 3, 7, 64):
        for text in (given, given[:-1]):
            ended = streams.in_pieces(
                ['work', 'three.ppm'], (text[at : at + size] for at in range(0, len(text), size))
            )
            must(ended == ((0, b''), wanted), f'a session in pieces of {size} bytes: {ended}')
    for byte in (b'\n', b'a'):
        ended = streams.in_pieces(['work', 'three.ppm'], (byte for _ in range(MOST_READS + 1)))
        must(ended == (READ, b''), f'{byte} in more reads than a session may make: {ended}')
    # One byte less leaves a read that tells that the input ends, and so does the line, which is too
    # long.
    ended = streams.in_pieces(['work', 'three.ppm'], (b' ' for _ in range(MOST_READS - 1)))
    must(
        ended == ((0, b''), b'refused: LongLine\n'), f'as many reads as a session may make: {ended}'
    )
    return 13


def dialogue(streams):
    """Says each line when the one before was answered."""
    with subprocess.Popen(
        [streams.program, 'work', 'three.ppm'],
        cwd=streams.folder,
        stdin=subprocess.PIPE,
        stdout=subprocess.PIPE,
    ) as process:
        for line, answer in LINES:
            os.write(process.stdin.fileno(), line)
            got = b''
            until = time.monotonic() + PATIENCE
            while (
                len(got) < len(answer)
                and select.select([process.stdout], [], [], max(0, until - time.monotonic()))[0]
            ):
                got += os.read(process.stdout.fileno(), 4096) or b'.' * len(answer)
            if got != answer:
                process.kill()
            must(got == answer, f'{line} is answered by {got}')
        process.stdin.close()
        must(process.wait(PATIENCE) == 0, 'a session of which each line was answered')
    return len(LINES)


def main():
    """All of it, and how many of each."""
    began = time.monotonic()
    with tempfile.TemporaryDirectory() as folder:
        streams = Streams(os.path.realpath(PROGRAM), folder)
        try:
            failed = reads(streams), writes(streams)
            others = pieces(streams), endless(streams), dialogue(streams)
        except (Wrong, subprocess.TimeoutExpired) as wrong:
            print(wrong, file=sys.stderr)
            return 1
    print(
        '%d reads and %d writes failed in turn; %d inputs in pieces; %d inputs without an end; %d'
        ' lines of a dialogue; %.0f seconds' % (*failed, *others, time.monotonic() - began)
    )
    return 0


if __name__ == '__main__':
    sys.exit(main())
