#!/usr/bin/env python3
"""Looks for lines that answer `out of memory` although no growth was refused.

Usage: .ci/memory.py [-v]: with -v it also prints how many places of each kind there are.

No clause can say of the system's allocator when it refuses. So this is a matter of the text, line
by line. Each `AllocError`, each variant `Memory` and each status `MEMORY` in `crates/*/src` that is
made must come from a call that grows memory: by `?` through an `impl From` of a refused growth; by
`map_err` after a call of GROWING, in one line; or by an arm of which every alternative is such an
error. Each other line has an entry in OTHERS, with its reason. An entry that is not found any more
is an error too. The crate of tests `refused` is not read.
"""
import pathlib
import re
import sys
from collections import Counter

ROOT = pathlib.Path(__file__).resolve().parent.parent
TESTS = {'refused'}
# Calls whose only error is that memory ran out, or, for `add`, `set` and `start` of a palette and
# for what writes into a `Vec`, whose other errors their callers rule out.
GROWING = 'add|non_text_of|push|send_givens|set|start|write_cert|write_ppm'
# A file of crates/*/src, a line of it, and why that line makes the error although no pattern of it
# names one.
OTHERS = [
    ('check_host/src/said.rt', 'return MEMORY;', 'the line before asks for the error'),
    ('check_host/src/said.rt', 'return MEMORY;', 'a text could not be made'),
    (
        'command_line/src/words.rt',
        'return Err(ProgramFault::Memory);',
        'the error of the parser says that memory ran out',
    ),
    (
        'live_audit/src/bench.rt',
        'return Err(AllocError);',
        'the only error of `audit_anew` is that memory ran out',
    ),
    (
        'live_audit/src/bench.rt',
        'return Err(EditFault::Memory);',
        'the only error of `audit_again` is that memory ran out',
    ),
    (
        'picture/src/palette.rt',
        'Err(AllocError)',
        'the line before it is proved: the error says that memory ran out',
    ),
    (
        'session/src/answer.rt',
        'Err(NonWriteFault::Memory | NonWriteFault::Write) => Answer::Refused(Refusal::Memory),',
        'a write to a text fails only where memory for it is refused',
    ),
    (
        'web/src/calls.rt',
        'Err(_) => MEMORY,',
        'the only error of `Desk::make` is that memory ran out',
    ),
    (
        'web/src/desk.rt',
        'Err(_) => MEMORY,',
        'a write to a text failed, or a session needed more reads than it makes: the host must end',
    ),
    (
        'web/src/desk.rt',
        'return MEMORY;',
        'a write to a text fails only where memory for it is refused',
    ),
    ('web/src/desk.rt', 'return MEMORY;', 'a text could not be made'),
    (
        'web/src/desk.rt',
        'Err(_) => self.refuse(&ProgramFault::Memory),',
        'the only error of appending to a text is that memory ran out',
    ),
    (
        'web/src/desk.rt',
        'let handle = self.given.checked_add(1).ok_or(ProgramFault::Memory)?;',
        'all 4,294,967,295 handles were given: docs/DECISIONS.md tells it',
    ),
    (
        'web/src/desk.rt',
        'Err(_) => return Err(ProgramFault::Memory),',
        'the only error of a push is that memory ran out',
    ),
]
# The error of a growth itself.
REFUSED = r'(?:AllocError|TryReserveError|OutOfMemory|AllocFailed<\w+>)'
MADE = re.compile(r'\bAllocError\b|\b[A-Z]\w*::Memory\b|\bMEMORY\b(?!:)')
# What names the error as a type, or compares with it.
NAMED = re.compile(
    r'matches!\([^()]*\)|<[^{};=]*\bAllocError\b[^{};=]*>|\w+: AllocError\b|== [A-Z]\w*::Memory\b'
)
MAPPED = re.compile(
    rf'\b(?:{GROWING})\([^()]*\)\.map_err\(\|_\w*\| (?:AllocError|[A-Z]\w*::Memory)\)'
)
PASSED = re.compile(r'\bAllocError\b|\bMemory\b|\bOutOfMemory\b|\bMEMORY\b')


def bare(text):
    """A source text without comments, texts, ghost items and clauses, line for line."""
    text = re.sub(r'//[^\n]*', '', text)
    text = re.sub(r'b?"(?:[^"\\]|\\.)*"', '""', text)
    text = re.sub(r'\bghost\b[^;{]*(?:;|\{[^{}]*(?:\{[^{}]*\}[^{}]*)*\})', blank, text)
    return re.sub(r'\b(?:requires|ensures)\b\*?[^{;]*\{[^{}]*(?:\{[^{}]*\}[^{}]*)*\}', blank, text)


def blank(found):
    """As many empty lines as what was found has."""
    return '\n' * found[0].count('\n')


def conversions(text):
    """The lines of a text that stand in an `impl From` of a refused growth, which `?` calls."""
    inside = set()
    for found in re.finditer(rf'^impl(?:<[^{{}}]*>)? From<{REFUSED}> .*?^\}}', text, re.M | re.S):
        first = text.count('\n', 0, found.start())
        inside.update(range(first, first + found[0].count('\n') + 1))
    return inside


def kind_of(line):
    """How a line makes the error: by `map_err`, by an arm that passes it on, in another way, or not
    at all."""
    pattern, _, value = line.rpartition('=>')
    mapped = MAPPED.sub('', value)
    if not MADE.search(NAMED.sub('', mapped)) or re.match(r'\s*(?:pub(?:\(crate\))? )?use\b', line):
        return 'map_err' if mapped != value else None
    is_passed = pattern and all(map(PASSED.search, pattern.split('|')))
    return 'arm' if is_passed else 'other'


def errors():
    """Each place where the error is made: its file, its line and its kind."""
    for crate in sorted((ROOT / 'crates').iterdir()):
        for file in sorted((crate / 'src').rglob('*.rt')) if crate.name not in TESTS else []:
            source = file.read_text(encoding='utf-8')
            text = bare(source)
            inside = conversions(text)
            for number, line in enumerate(text.split('\n')):
                kind = kind_of(line)
                if kind:
                    at = file.relative_to(ROOT / 'crates').as_posix()
                    shown = source.split('\n')[number].strip()
                    yield at, number + 1, shown, 'from' if number in inside else kind


def main():
    """Prints each place that is not allowed, and each line of OTHERS that is not there."""
    counts, faults = Counter(), []
    left = Counter((file, line) for file, line, _ in OTHERS)
    for file, number, line, kind in errors():
        counts[kind] += 1
        if kind == 'other' and not left[file, line]:
            faults.append(
                f'crates/{file}:{number}: out of memory, though no growth was refused: {line}'
            )
        elif kind == 'other':
            left[file, line] -= 1
    faults += [f'OTHERS: {file} has no line {line}' for file, line in sorted(left.elements())]
    print(
        '\n'.join(faults)
        or f'out of memory is answered where a growth was refused, and in {len(OTHERS)} other places'  # noqa: E501
    )
    if '-v' in sys.argv[1:]:
        print(', '.join(f'{kind}: {count}' for kind, count in sorted(counts.items())))
    return 1 if faults else 0


if __name__ == '__main__':
    sys.exit(main())
