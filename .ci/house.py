#!/usr/bin/env python3
"""Names the places that are hard to read: one line for each, and nothing about sums.

- a function of more than 60 lines, of which clauses do not count, or of more than six parameters;
- a line above 100 columns in a clause, or in HTML or TypeScript, which no formatter breaks;
- a source file whose first line does not say what it is;
- a definition or lemma that nothing names.

The functions and names of KNOWN are left out. Tests may have long functions: what they try, they
list.

README.md must name the size of the proof.

Usage: .ci/house.py [--sizes]: with --sizes it prints the lines of each kind of file instead.
"""

import ast
import collections
import functools
import itertools
import re
import subprocess
import sys
from pathlib import Path

ROOT = Path(__file__).resolve().parent.parent
# The crates of tests.
TEST_CRATES = {
    'cert_tables',
    'lemma_tables',
    'refused',
    'search_tables',
    'table_words',
    'tables',
}
MOST_LINES = 60
MOST_PARAMETERS = 6
WIDEST = 100
# What these files define the prover looks up by name.
PROVERS_NAMES = {'Answers.antt', 'Invariants.antt', 'Proof.antt'}
# Pictures, and what tests read, of which no lines are counted.
DATA = {'.png', '.gif', '.ppm', '.non', '.session', '.out', '.svg', '.csv', '.cert'}
TESTS = re.compile(r'(^|/)tests?/|(^|/)(test_|conftest)[^/]*$|_test\.mjs$|(^|/)test\.mjs$')


@functools.cache
def tracked():
    """The files that git tracks, but for those of a release."""
    words = ['git', '-C', str(ROOT), 'ls-files', '-z', '--', '.', ':!dist']
    listed = subprocess.run(words, capture_output=True, text=True, check=True).stdout
    return [name for name in listed.rstrip('\0').split('\0') if (ROOT / name).is_file()]


@functools.cache
def text_of(name):
    return (ROOT / name).read_text(encoding='utf-8')


def of_crates(part, ending):
    """The files of the product's crates below a part of each."""
    pattern = re.compile(rf'crates/(\w+)/{part}/.*\{ending}$')
    for name in tracked():
        found = pattern.match(name)
        if found and found[1] not in TEST_CRATES:
            yield name


def proof_sources():
    """Definitions, lemmas and answers."""
    return itertools.chain(of_crates('specs', '.antt'), of_crates('proofs', '.antt'))


# ---- Rattle


def wide_clauses():
    """Lines of clauses that are too wide, their continuations too."""
    for name in of_crates('src', '.rt'):
        inside = False
        for number, line in enumerate(text_of(name).split('\n'), 1):
            if re.match(r'\s*(requires|ensures)\b', line):
                inside = True
            elif re.match(r'\s*({|}|//|(pub )?fn |pub\b|$)', line):
                inside = False
            if inside and len(line) > WIDEST:
                yield f'{name}:{number}: a clause of {len(line)} columns'


def wide_lines():
    """Lines that are too wide of files that no formatter breaks. One is an audit's output."""
    for name in tracked():
        if name.endswith(('.html', '.ts', '.mts')) and name != 'docs/audit.html':
            for number, line in enumerate(text_of(name).split('\n'), 1):
                if len(line) > WIDEST:
                    yield f'{name}:{number}: a line of {len(line)} columns'


def heads(text):
    """The name, the parameters and the first line of each function of Rattle."""
    for found in re.finditer(r'\bfn (\w+)', text):
        depth, begin, at = 0, None, found.end()
        while at < len(text):
            if text[at] == '(':
                depth += 1
                begin = at + 1 if begin is None else begin
            elif text[at] == ')':
                depth -= 1
                if depth == 0 and begin is not None:
                    yield found[1], text[begin:at], text.count('\n', 0, found.start()) + 1
                    break
            elif text[at] in '{;' and depth == 0:
                break
            at += 1


def count_parameters(inside):
    """How many parameters are between the brackets of a function's head."""
    depth, parts = 0, ['']
    for letter in inside:
        depth += letter in '(<[{'
        depth -= letter in ')>]}'
        if letter == ',' and depth == 0:
            parts.append('')
        else:
            parts[-1] += letter
    return sum(bool(part.strip()) for part in parts)


def rattle_functions():
    """Each function: its file, line, name, number of lines without clauses, and of parameters."""
    for name in of_crates('src', '.rt'):
        lines = text_of(name).split('\n')
        for function, inside, number in heads(text_of(name)):
            margin = re.match(r' *', lines[number - 1])[0]
            body = itertools.takewhile(lambda line: line != margin + '}', lines[number:])
            has_body = not lines[number - 1].endswith(';')
            code = list(code_of(body)) if has_body else []
            yield name, number, function, len(code), count_parameters(inside)


def code_of(lines):
    """Lines without clauses and blank lines. A clause ends with its last brace."""
    depth = 0
    for line in lines:
        if depth > 0 or re.match(r'\s*(requires|ensures)\b', line):
            depth += line.count('{') - line.count('}')
        elif line.strip():
            yield line


def lone_definitions():
    """Definitions and lemmas whose name is nowhere else."""
    sources = [*proof_sources(), *of_crates('src', '.rt')]
    separators = re.compile(r'[^\s(){},.;:λ]+')
    words = collections.Counter(
        word for name in sources for word in separators.findall(text_of(name))
    )
    defined = re.compile(r'(?m)^(?:(?:abbrev|unfoldable|opaque|pub)\s+)*([A-Za-z_][\w-]*)\s*:\s')
    for name in proof_sources():
        text = text_of(name)
        if Path(name).name in PROVERS_NAMES:
            continue
        for found in defined.finditer(text):
            if is_lone(found[1], text, words):
                line = text.count('\n', 0, found.start()) + 1
                yield name, line, found[1]


def is_lone(word, text, words):
    """Whether all places of a word are those of its own definition."""
    if words[word] > text.count(f'\n{word}') + 2:
        return False
    clauses = len(re.findall(rf'(?m)^{re.escape(word)}\b', text))
    is_marked = re.search(rf'(?m)^(?:\w+\s+)+{re.escape(word)}\s*:', text)
    return words[word] <= max(clauses, 1) + bool(is_marked)


# ---- Python and JavaScript


def python_functions():
    for name in tracked():
        if name.endswith('.py') and not TESTS.search(name):
            for node in ast.walk(ast.parse(text_of(name))):
                if isinstance(node, (ast.FunctionDef, ast.AsyncFunctionDef)):
                    given = [*node.args.posonlyargs, *node.args.args]
                    count = sum(1 for one in given if one.arg != 'self')
                    yield name, node.lineno, node.name, node.end_lineno - node.lineno + 1, count


# As clang-format has them: the head of a function, and a method's.
FUNCTION = re.compile(r'^( *)(?:export )?(?:default )?(?:async )?function\*? ?(\w*)\(')
METHOD = re.compile(r'^( +)(?:static |async |get |set |\*)*(#?\w+)\((?:[^;]*)\) \{$')
ARROW = re.compile(r'^( *)(?:export )?const (\w+) = (?:async )?[^;]*=> \{$')
NO_METHOD = {'if', 'for', 'while', 'switch', 'catch', 'function', 'return'}


def javascript_functions():
    for name in tracked():
        if not name.endswith(('.js', '.mjs')) or TESTS.search(name):
            continue
        lines = text_of(name).split('\n')
        for number, line in enumerate(lines, 1):
            found = FUNCTION.match(line) or METHOD.match(line) or ARROW.match(line)
            if found and found[2] not in NO_METHOD:
                end = re.compile(found[1] + r'\}')
                length = next((n for n, it in enumerate(lines[number:], 2) if end.match(it)), 1)
                yield name, number, found[2], length, 0


# ---- all


def long_functions():
    for found in (rattle_functions(), python_functions(), javascript_functions()):
        for name, line, function, lines, parameters in found:
            if f'{name} {function}' in KNOWN:
                continue
            if lines > MOST_LINES:
                yield f'{name}:{line}: {function} has {lines} lines'
            if parameters > MOST_PARAMETERS:
                yield f'{name}:{line}: {function} has {parameters} parameters'


def headless_files():
    """Source files whose first line, after that for the shell, is no comment."""
    heads = {'.rt': '//!', '.py': ('"""', 'r"""'), '.css': '/*'}
    heads.update(dict.fromkeys(('.js', '.mjs', '.c', '.h'), ('/*', '//')))
    for name in tracked():
        head = heads.get(Path(name).suffix)
        lines = text_of(name).split('\n') if head else []
        if head and not lines[lines[0].startswith('#!')].startswith(head):
            yield f'{name}:1: it does not say what it is'


def unused_names():
    for name, line, word in lone_definitions():
        if f'{name} {word}' not in KNOWN:
            yield f'{name}:{line}: nothing names {word}'


def proof_sizes():
    """README's figures: lines of code of the proved crates, and of definitions and lemmas."""
    code = proofs = 0
    for name in of_crates('src', '.rt'):
        lines = [line for line in text_of(name).split('\n') if not re.match(r'\s*(//|#!?\[)', line)]
        code += sum(1 for line in code_of(lines) if not line.startswith('ghost '))
    for name in proof_sources():
        proofs += sum(1 for line in text_of(name).split('\n') if line.strip())
    lemmas = f'{round(proofs, -3):,} lines of definitions and lemmas'
    said = f'{round(code, -3):,} lines are proved by {lemmas}'
    if said not in text_of('README.md'):
        yield f'README.md does not say: {said}'


def print_sizes():
    """Lines by kind of file and purpose."""
    sizes = collections.Counter()
    for name in tracked():
        kind = Path(name).suffix or 'scripts'
        if kind in DATA:
            continue
        purpose = 'tests' if TESTS.search(name) else name.split('/')[0] if '/' in name else 'top'
        if name.startswith('crates/') and name.split('/')[1] not in TEST_CRATES:
            purpose = '/'.join(['crates', *name.split('/')[2:3]])
        sizes[purpose, kind] += text_of(name).count('\n')
    for (purpose, kind), lines in sorted(sizes.items()):
        print(f'{lines:8} {purpose} {kind}')


# Places that are left out, as `FILE NAME`.
TO_BE_WRITTEN_AGAIN = {'crates/second_search/src/keeper.rt judge'}
# All that a host passes to a function of C is a parameter: a pointer and a length for each text.
CALLS_OF_HOSTS = {'crates/web/src/calls.rt nonobench_assess'}
# The prover finds these lemmas by what they say.
FOUND_BY_THE_PROVER = {
    'crates/assess/proofs/OrderLemmas.antt named_on',
    'crates/assess/proofs/SpareLemmas.antt spare_if',
    'crates/cert_check/proofs/SettledLemmas.antt settled_forces',
    'crates/cert_check/proofs/SettledLemmas.antt settled_by',
    'crates/cert_check/proofs/SettledLemmas.antt settled_more',
    'crates/cert_check/proofs/SettledLemmas.antt unsettled_others',
    'crates/cert_check/proofs/StrayLemmas.antt tally_more',
    'crates/cert_text/proofs/OrderLemmas.antt order_start',
    'crates/cert_text/proofs/OrderLemmas.antt order_end',
    'crates/cert_text/proofs/OrderLemmas.antt run_shares',
    'crates/live_audit/proofs/CertifyLemmas.antt certified_now',
    'crates/second_search/proofs/DrawLemmas.antt few_none',
    'crates/second_search/proofs/WeightLemmas.antt no_load',
}
# Rows that show what a definition means, which the prover checks.
WORKED_ROWS = {
    'crates/command_line/specs/Words.antt plus_five',
    'crates/edits/specs/Edit.antt recolours',
    'crates/edits/specs/Note.antt given_back',
    'crates/second_search/specs/Evaluations.antt worked_pair',
    'crates/second_search/specs/Evaluations.antt worked_split',
    'crates/second_search/specs/Parts.antt worked_corners',
}
KNOWN = TO_BE_WRITTEN_AGAIN | CALLS_OF_HOSTS | FOUND_BY_THE_PROVER | WORKED_ROWS


def main(words):
    if words == ['--sizes']:
        print_sizes()
        return 0
    checks = (
        wide_clauses,
        wide_lines,
        long_functions,
        headless_files,
        unused_names,
        proof_sizes,
    )
    found = [fault for check in checks for fault in check()]
    print(*found, f'house: {len(found)} places', sep='\n')
    return 1 if found else 0


if __name__ == '__main__':
    sys.exit(main(sys.argv[1:]))
