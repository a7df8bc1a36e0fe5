#!/usr/bin/env python3
"""Measures where the processor time of a run of CI goes, by looking at its processes every second.

Usage: .ci/minutes.py PID FILE CRATES: looks at the processes below PID until it is terminated, and
then writes the processor minutes that it saw. FILE gets one line for each kind: proofs (of crates),
edits (must-fail edits, with one more proof of the crate at first), tests (proofs of test functions)
and builds (of programs). CRATES gets a line for each crate, the slowest first, with its minutes by
kind. What a process does after the last look is not seen, so the sum is a little less than what the
shell's `times` prints; the rest is spent on tests, programs and scripts.
"""

import os
import pathlib
import signal
import sys
import time

KINDS = ('proofs', 'edits', 'tests', 'builds')
TICKS = os.sysconf('SC_CLK_TCK')


def processes():
    """The number, parent, start and processor seconds so far of each process, with its words."""
    for folder in pathlib.Path('/proc').glob('[0-9]*'):
        try:
            fields = (folder / 'stat').read_text(errors='replace').rpartition(')')[2].split()
            words = (folder / 'cmdline').read_bytes().split(b'\0')
            seconds = (int(fields[11]) + int(fields[12])) / TICKS
        except (OSError, IndexError):  # it has ended
            continue
        yield int(folder.name), int(fields[1]), fields[19], seconds, [
            word.decode(errors='replace') for word in words
        ]


def kind_of(number, words):
    """What a process of the prover or of a compiler is at work on, or nothing."""
    program = pathlib.Path(words[0]).name
    if program in ('clang', 'rattle-link', 'ld.lld', 'lld') or '--crate-checked' in words:
        return 'builds'
    if program != 'rattle':
        return None
    if '--test' in words:
        return 'tests'
    try:
        folder = os.readlink(f'/proc/{number}/cwd')
    except OSError:
        return None
    return 'edits' if 'rt-edit' in folder else 'proofs'


def below(top, parents):
    """The processes that come of one, itself among them."""
    found, more = set(), {top}
    while more:
        found |= more
        more = {number for number, parent in parents.items() if parent in found} - found
    return found


def shares(minutes):
    """The kinds that took some time, with their minutes."""
    return [f'{kind} {minutes[kind]:.1f}' for kind in KINDS if minutes.get(kind)]


def main():
    top, file, crates = int(sys.argv[1]), pathlib.Path(sys.argv[2]), pathlib.Path(sys.argv[3])
    seen = {}
    ended = []
    signal.signal(signal.SIGTERM, lambda *_: ended.append(True))
    while not ended:
        running = list(processes())
        ours = below(top, {number: parent for number, parent, *_ in running})
        for number, _, start, seconds, words in running:
            kind = kind_of(number, words) if number in ours and words[0] else None
            if kind:
                crate = (
                    words[words.index('--crate-name') + 1]
                    if '--crate-name' in words[:-1]
                    else 'others'
                )
                seen[number, start] = kind, crate, seconds
        time.sleep(1)
    minutes = {}
    for kind, crate, seconds in seen.values():
        for row in ('', crate):
            minutes.setdefault(row, dict.fromkeys(KINDS, 0))[kind] += seconds / 60
    file.write_text(''.join(f'{share}\n' for share in shares(minutes.pop('', {}))))
    dearest = sorted(minutes, key=lambda crate: -sum(minutes[crate].values()))
    crates.write_text(
        ''.join(f'{crate}: {", ".join(shares(minutes[crate]))}\n' for crate in dearest)
    )


if __name__ == '__main__':
    main()
