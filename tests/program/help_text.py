"""Reads the help of the program: its commands, and the words, arguments and options of each; and
that of nonobench-audit."""

import os
import re
import sys

from tried import ended


def help_of(program, *words):
    run = ended([program, *words, '--help'])
    assert (run.status, run.said) == (0, b'')
    return run.wrote.decode()


def parts_of(text):
    """The lines of a help text that stand below a heading, with the heading."""
    part = ''
    for line in text.splitlines():
        heading = re.match(r'([A-Z][a-z]*):', line)
        if heading:
            part = heading[1]
        elif line.strip():
            yield part, line


def commands_of(program):
    return {line.split()[0] for part, line in parts_of(help_of(program)) if part == 'Commands'}


def words_of(program, *words):
    """The words, arguments and options behind some words: `work FILE`, `work --history N`, and `
    --help`, which has a line of its own in the synopsis as the version has. The program's own
    commands are `word NAME`."""
    word = words[0] if words else ''
    found = set()
    for part, line in parts_of(help_of(program, *words)):
        parts = line.split()
        if part == 'Commands' and parts[0] != 'help':
            found.add(f'word {parts[0]}')
        elif part == 'Arguments':
            found.add(f'{word} {parts[0].rstrip(".").strip("<>")}')
        elif part == 'Options' and re.match(r' +-', line):
            option, *rest = parts if parts[0].startswith('--') else parts[1:]
            value = f' {rest[0].strip("<>")}' if rest and re.fullmatch(r'<.*>', rest[0]) else ''
            found.add(
                f' {option}' if option in ('--help', '--version') else f'{word} {option}{value}'
            )
    return found


def options_of(program, *words):
    return {
        part for line in words_of(program, *words) for part in line.split() if part.startswith('--')
    }


def formats_of(program, command):
    """The formats of puzzles that `work` and `assess` take, or those of certificates that `prove`
    makes."""
    return set(
        re.search(r'--format.*possible values: ([^]]*)\]', help_of(program, command))[1].split(', ')
    )


def audit_help():
    """The help of nonobench-audit, in long lines."""
    words = [sys.executable, '-m', 'nonobench.audit', '--help']
    run = ended(words, env={**os.environ, 'COLUMNS': '200'})
    assert (run.status, run.said) == (0, b'')
    return run.wrote.decode()


def audit_options():
    """The options of nonobench-audit with their values' names, or None."""
    lines = audit_help().splitlines()
    found = (re.match(r'  (?:-\w, )?(--[a-z-]+)(?: ([A-Z]+))?  ', line) for line in lines)
    return {option[1]: option[2] for option in found if option}


def audit_flaws():
    """The kinds of flaws that `--allow-flaw` takes."""
    return set(re.search(r'--allow-flaw .*: (.*);', audit_help())[1].split(', '))
