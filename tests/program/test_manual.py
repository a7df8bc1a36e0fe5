"""The man pages beside the help of their commands, docs/SESSION.md and the code.

- nonobench-audit: each option of `--help` is in the synopsis, in which nothing else is, and is
  described with the same value. The kinds of flaws and the statuses are those of `--help`.
- nonobench: each command, argument and option of `--help`, and of `--help` after each command, is
  in the synopsis in the same place, and nothing else is; each of these options is described.
- The commands of a session, each with its arguments, are those of the list in docs/SESSION.md.
- The names of refusals are those that sessions print.
- Each line that can come on standard error is in both pages, as the code has it.
"""

import re

import pytest
from help_text import audit_flaws, audit_help, audit_options, words_of
from tried import ROOT, ended, needs

PAGE = ROOT / 'docs' / 'nonobench.1'
AUDIT = ROOT / 'docs' / 'nonobench-audit.1'
# What mandoc says of a page that is not installed.
NOT_INSTALLED = 'referenced manual not found: Xr nonobench'


def section(name, ending=r'^\.Sh', page=PAGE):
    """The lines of a section of a man page."""
    within = []
    for part in re.split(rf'(?m)(?={ending})', page.read_text()):
        if re.match(rf'{ending} {name}', part):
            within += part.splitlines()[1:]
    assert within, name
    return within


def part_of_formats(words):
    """The lines of a part of docs/SESSION.md whose heading has some words."""
    parts = re.split(r'(?m)(?=^## )', (ROOT / 'docs' / 'SESSION.md').read_text())
    return [line for part in parts if words in part.split('\n')[0] for line in part.splitlines()]


def synopsis():
    """The words, arguments and options of the synopsis; each .Nm begins a line of it."""
    word = ''
    for line in section('SYNOPSIS'):
        parts = line.split()
        if parts[0] == '.Nm':
            word = ''
        elif parts[0] == '.Cm':
            word = parts[1]
            yield f'word {word}'
        elif parts[0] == '.Ar':
            yield f'{word} {parts[1]}'
        elif parts[0] in ('.Op', '.Fl'):
            name, *rest = parts[2:] if parts[0] == '.Op' else parts[1:]
            yield f'{word} -{name}' + (f' {rest[1]}' if rest[:1] == ['Ar'] else '')


@pytest.mark.since('0.8.0')
def test_synopsis(build):
    program = build.program('nonobench')
    known = words_of(program)
    for word in [line.split()[1] for line in known if line.startswith('word ')]:
        known |= words_of(program, word)
    assert len(known) > 10
    assert set(synopsis()) == known


def test_each_option_is_described():
    """`.It Fl -name`, also behind its short form."""

    def options(lines):
        return {found[1] for found in (re.search(r'Fl (-[a-z]+)', line) for line in lines) if found}

    named = options(section('SYNOPSIS'))
    assert named
    assert options(line for line in section('DESCRIPTION') if line.startswith('.It Fl')) == named


def test_commands_of_a_session():
    listed = {
        line.removeprefix('.It Ic ').replace(' Ar ', ' ')
        for line in section('COMMANDS OF A SESSION', r'^\.Sh')
        if line.startswith('.It Ic')
    }
    heads = (
        re.match(r'- (?:`[^`]*`(?:, )?)+: ', line)
        for line in part_of_formats('Commands of a session')
    )
    known = {command for head in heads if head for command in re.findall(r'`([^`]*)`', head[0])}
    assert len(known) > 10
    assert listed == known


def test_names_of_refusals():
    lines = (line.split() for line in section('Refusals', r'^\.S[hs]'))
    listed = {
        parts[1]
        for parts in lines
        if parts[0] == '.Ql' and len(parts) < 4 and parts[1][0].isupper()
    }
    known = set(
        re.findall(
            r'refused: ([A-Za-z]+)',
            (ROOT / 'crates' / 'session' / 'src' / 'refusal.rt').read_text(),
        )
    )
    assert known
    assert listed == known


def test_lines_on_standard_error():
    """A paint cannot be asked for on the command line, so its refusal is not in the page. Of the
    texts in the code, some are of answers without a line, or are one of `non NAME`."""
    listed = {
        line.removeprefix('.It ')
        for line in section('DIAGNOSTICS')
        if line.startswith('.It nonobench: ')
    }
    heads = (re.match(r'- `(nonobench: [^`]*)`: ', line) for line in part_of_formats('The program'))
    known = {head[1] for head in heads if head and ': edit ' not in head[1]}
    assert listed == known
    code = (ROOT / 'crates' / 'program_options' / 'src' / 'fault.rt').read_text()
    written = set(re.findall(r'f\.write_str\(\s*"([^"]+)"', code))
    silent = {'no certificate', 'unfit', 'non NoGoal'}
    assert silent < written
    assert {f'nonobench: {text}' for text in written - silent} < known


def test_audit(library):
    known = audit_options()
    assert len(known) > 10
    lines = section('SYNOPSIS', page=AUDIT)
    named = re.findall(
        r'^\.(?:Op )?Fl (-[a-z-]+)(?: Ar ([A-Z]+))?$', '\n'.join(lines), re.MULTILINE
    )
    assert {f'-{option}': value or None for option, value in named} == known
    described = re.findall(
        r'^\.It (?:Fl . , )?Fl (-[a-z-]+)(?: Ar ([A-Z]+))?$', AUDIT.read_text(), re.MULTILINE
    )
    assert {f'-{option}': value or None for option, value in described} == known
    assert len(named) == len(described) == len(known)


def test_values_of_the_audit(library):
    [flaws] = re.findall(r'(?ms)^\.It Fl -allow-flaw .*?(?=^\.El)', AUDIT.read_text())
    assert set(re.findall(r'^\.Cm (\w+)', flaws, re.MULTILINE)) == audit_flaws()
    statuses = re.findall(r'^\.It (.*)$', '\n'.join(section('EXIT', page=AUDIT)), re.MULTILINE)
    known = audit_help().split('status:\n')[1]
    assert ' '.join(statuses).replace(' , ', ', ') == ' '.join(
        re.findall(r'^  ([\d, ]*\d)  ', known, re.MULTILINE)
    )


@pytest.mark.parametrize('page', [PAGE, AUDIT], ids=lambda page: page.stem)
def test_lint(page):
    needs('mandoc')
    said = ended(['mandoc', '-T', 'lint', page]).wrote.decode().splitlines()
    assert [line for line in said if NOT_INSTALLED not in line] == []
