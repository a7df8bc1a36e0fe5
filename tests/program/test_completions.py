"""What completions/ offers in bash, zsh and fish, beside the --help of nonobench and of
nonobench-audit: the commands, the options with those that take a value, the values that are known,
and the files of each argument. In zsh a substitute for _arguments prints what it is passed, so no
terminal is needed."""

import re

import pytest
from help_text import audit_flaws, audit_options, commands_of, formats_of, options_of, words_of
from tried import ROOT, ended, needs

COMPLETIONS = ROOT / 'completions'
BASH = '''source "$1"; shift
COMP_WORDS=("$@")
COMP_CWORD=$(($# - 1))
"_${1//-/_}"
printf '%s\\n' "${COMPREPLY[@]}"'''
ZSH = '''_arguments() { print -rl -- "$@"; }
compadd() { print -r -- "compadd $1"; }
file=$1; shift
words=("$@")
CURRENT=$#
source $file'''
FISH = 'source $argv[1]; complete -C "$argv[2..]"'
FILES = {'duck.ppm', 'duck.cert'}
FOLDER = 'site'


@pytest.fixture
def folder(tmp_path):
    """A folder with two files and a folder."""
    for name in FILES:
        (tmp_path / name).touch()
    (tmp_path / FOLDER).mkdir()
    return tmp_path


def lines_of(words, folder=None):
    run = ended(words, cwd=folder)
    assert (run.status, run.said) == (0, b''), run
    return run.wrote.decode().splitlines()


@pytest.fixture
def bash(folder):
    """What bash offers for the last of some words."""

    def offered(*words):
        file = COMPLETIONS / f'{words[0]}.bash'
        return set(lines_of(['bash', '-c', BASH, 'bash', file, *words], folder)) - {''}

    return offered


@pytest.fixture
def zsh():
    """What zsh hands to _arguments behind some words, a line each."""
    needs('zsh')

    def handed(*words):
        file = COMPLETIONS / f'_{words[0]}'
        return lines_of(['zsh', '-f', '-c', ZSH, 'zsh', file, *words])

    return handed


@pytest.fixture
def fish(folder, monkeypatch):
    """What fish offers for the last of some words, without its descriptions and short options."""
    needs('fish')
    monkeypatch.setenv('HOME', str(folder / FOLDER))

    def offered(*words):
        file = COMPLETIONS / f'{words[0]}.fish'
        lines = lines_of(['fish', '--no-config', '-c', FISH, file, *words], folder)
        found = {line.split('\t')[0].rstrip('/') for line in lines}
        return {word for word in found if not re.fullmatch('-[^-]', word)}

    return offered


@pytest.fixture(params=['bash', 'fish'])
def offered(request):
    """What a shell offers for the last of some words."""
    return request.getfixturevalue(request.param)


def matches(pattern, lines):
    return {found for line in lines for found in re.findall(pattern, line)}


# ---- nonobench


@pytest.mark.since('0.8.0')
def test_words(nonobench, offered):
    commands = commands_of(nonobench)
    assert len(commands) > 3
    assert offered('nonobench', '') | offered('nonobench', '-') == commands | options_of(nonobench)
    assert offered('nonobench', 'help', '') == commands
    for command in commands - {'help'}:
        assert offered('nonobench', command, '--') == options_of(nonobench, command), command
        assert offered('nonobench', command, '') == FILES | {FOLDER}, command


def test_values(nonobench, offered):
    for command in ('work', 'prove', 'assess'):
        formats = offered('nonobench', command, 'duck.ppm', '--format', '')
        assert formats == formats_of(nonobench, command)
    assert offered('nonobench', 'check', 'duck.ppm', 'duck.c') == {'duck.cert'}
    for command, option in (('check', '--givens'), ('assess', '--certificate')):
        assert offered('nonobench', command, option, '') == FILES | {FOLDER}
    for command, option in (
        ('work', '--background'),
        ('work', '--history'),
        ('assess', '--allow'),
    ):
        assert offered('nonobench', command, option, '') == set()


@pytest.mark.since('0.8.0')
def test_words_in_zsh(nonobench, zsh):
    commands = commands_of(nonobench)
    lines = zsh('nonobench', '')
    assert {
        word for words in matches(r'^1:command:\((.*)\)$', lines) for word in words.split(' ')
    } == commands
    assert matches(r'^(--[a-z]*)\[', lines) == options_of(nonobench)


@pytest.mark.since('0.8.0')
def test_options_and_files_in_zsh(nonobench, zsh):
    """An option with a value has a colon behind its text, and there are as many files as
    arguments."""
    for command in commands_of(nonobench) - {'help'}:
        lines = zsh('nonobench', command, '')
        known = [line.split() for line in words_of(nonobench, command)]
        plain = {words[-1] for words in known if words[-1].startswith('--')}
        valued = {words[1] for words in known if len(words) > 2}
        assert matches(r'^(--[a-z]*)\[[^]]*\]$', lines) == plain, command
        assert matches(r'^(--[a-z]*)\[[^]]*\]:', lines) == valued, command
        files = [
            words
            for words in known
            if len(words) == 2 and not words[1].startswith('--') and words[0] != 'word'
        ]
        assert matches(r'^([0-9]*):.*:_files$', lines) == {
            str(at + 2) for at in range(len(files))
        }, command


def test_formats_in_zsh(nonobench, zsh):
    for command in ('work', 'prove', 'assess'):
        offered = {
            word
            for words in matches(r'^--format.*:\((.*)\)$', zsh('nonobench', command, ''))
            for word in words.split(' ')
        }
        assert offered == formats_of(nonobench, command)


# ---- nonobench-audit


def test_words_of_the_audit(library, offered):
    known = audit_options()
    assert len(known) > 10
    assert offered('nonobench-audit', '--') == set(known)
    assert offered('nonobench-audit', '') == FILES | {FOLDER, 'unpack'}
    assert offered('nonobench-audit', '--quiet', '') == FILES | {FOLDER}


def test_values_of_the_audit(library, offered):
    kinds = {'DIR': {FOLDER}, 'FILE': FILES | {FOLDER}}
    special = {'--background': {'auto', 'white'}, '--allow-flaw': audit_flaws()}
    for option, value in audit_options().items():
        if value:
            wanted = special.get(option, kinds.get(value, set()))
            assert offered('nonobench-audit', option, '') == wanted, option


def test_audit_in_zsh(library, zsh):
    lines = zsh('nonobench-audit', '')
    known = audit_options()
    plain = matches(r'^\*?(--[a-z-]*)\[[^]]*\]$', lines)
    assert plain == {option for option, value in known.items() if not value}
    files = {'DIR': ':_files -/', 'FILE': ':_files'}
    for option, value in known.items():
        if value:
            [line] = [line for line in lines if re.match(rf'\*?{option}\[[^]]*\]:', line)]
            assert line.endswith(files[value]) if value in files else '_files' not in line, option
    [flaws] = matches(r'^\*--allow-flaw.*:\((.*)\)$', lines)
    assert set(flaws.split()) == audit_flaws()
    assert 'compadd unpack' in lines and '*:folder or puzzles:_files' in lines
    assert zsh('nonobench-audit', 'unpack', '') == ['2:set:_files', '3:folder:_files -/']
