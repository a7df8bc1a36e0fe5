#!/usr/bin/env python3
"""Follows the clauses of the claims of docs/THEOREMS.md to every definition that they depend on.

For each claim it takes the clauses and laws by name. From the names in them, through the imports of
each file, it collects all definitions in specs/ that they need, in reading order. Then it adds
those by which a clause sees its values: the views of their types (.ci/views.py). They are listed
with file, line and the comment's first sentence.

docs/BASE.md has the claims of QUOTED, and quotes their definitions. It must be what this script
makes. CLAIMS says whether a name may mean two things in a claim's base. docs/THEOREMS.md must name
the lines of FIGURES.

Usage: .ci/base.py [--write | --all | --counts]: --write writes docs/BASE.md, --all prints the page
of all claims, and --counts only their counts.
"""
import collections
import re
import sys
from pathlib import Path
from typing import NamedTuple

sys.dont_write_bytecode = True
from views import RustTypes, named_in, values_of, views_of  # noqa: E402

ROOT = Path(__file__).resolve().parent.parent
CRATES = ROOT / 'crates'
PAGE = ROOT / 'docs' / 'BASE.md'


class Claim(NamedTuple):
    """A claim of docs/THEOREMS.md: the clauses that carry it, each as a file, a function and a
    clause ('' is the one without a name). In the base of some claims a name may mean two things:
    they span formats, each with words and lines of its own.
    """

    clauses: list
    is_shared: bool = True


CLAIMS = {
    'The verdict is true': Claim([('live_audit/src/bench.rt', 'verdict', 'headline')], False),
    'A certificate proves uniqueness': Claim(
        [('claims/src/check.rt', 'published_is_accepted', '')], False
    ),
    'So it does in its own givens': Claim([('answers/src/check.rt', 'run_check', 'unique')]),
    'A check answers exactly': Claim(
        [
            ('cert_check/src/checking.rt', 'check_cert', name)
            for name in ('first', 'proof', 'only', 'unique')
        ]
    ),
    'The checker by itself does so, too': Claim(
        [
            ('check_host/src/calls.rt', call, 'checks')
            for call in ('nonocheck_check', 'nonocheck_check_any_given')
        ]
    ),
    'A refused edit changes nothing': Claim(
        [('live_audit/src/bench.rt', call, 'refused') for call in ('apply', 'undo', 'redo')],
        False,
    ),
    'It stays true': Claim([('live_audit/src/laws.rt', 'lists_stay_audited', '')]),
    "A session's answers are right": Claim([('session/src/session.rt', 'run_session', 'truth')]),
    'Published pairs are accepted': Claim(
        [
            *(
                ('claims/src/laws.rt', 'published_pairs_are_accepted', name)
                for name in ('accepted', 'made')
            ),
            *(
                ('claims/src/laws.rt', law, '')
                for law in ('unique_pictures_are_published', 'plain_lines_are_one_solution')
            ),
        ]
    ),
    'What prove prints is accepted': Claim([('claims/src/laws.rt', 'proofs_are_verified', '')]),
    'A complete search decides': Claim([('claims/src/laws.rt', 'complete_searches_decide', '')]),
    'A puzzle that is fit has one solution': Claim(
        [('claims/src/laws.rt', 'fit_puzzles_are_fit', '')]
    ),
    'The program does what its arguments ask for': Claim([('program/src/running.rt', 'run', '')]),
}
# From this many words on, a comment's first sentence is shortened in docs/BASE.md.
LONG = 35
# What docs/THEOREMS.md says of the lines that a claim needs.
FIGURES = {
    'The verdict is true': '{} lines for the verdict ({} with the state that it reads)',
    'A certificate proves uniqueness': '{} for a certificate with published givens',
    'The program does what its arguments ask for': 'up to {:,} for the program',
}
# The claims of docs/BASE.md, whose definitions it quotes.
QUOTED = 'The verdict is true', 'A certificate proves uniqueness'
HEAD = '''# What the claims depend on

For those who want to read all that a claim of [THEOREMS](THEOREMS.md) means: the definitions on
which the clauses of a claim depend, in reading order, abbreviations without their types. A clause
names values of the code, such as `self.old.history.document`, and sees them by their types'
*views*: definitions that make, say, a document and its history out of what a bench keeps. What only
views need is named last. (Most laws name no such values.) Types that only a definition names are
not followed; proofs, code and the definitions of the toolchain are left out. What is listed in an
earlier section is counted again, but not listed.
'''
# What docs/BASE.md, which has only the claims that are quoted, says in the end.
FOOT = '''
`make promises` lists the same for all claims; `.ci/base.py --write` makes this page.
'''
WORD = re.compile(r'[^\s(){},;λ→×⊎≡≢≤≥+*/∷∘\[\]↔=<>]+')


class Definition:
    """A definition of a file in specs/: its name, first line, comment and lines."""

    def __init__(self, module, name, line, comment, kind):
        self.module, self.name, self.line, self.comment, self.kind = (
            module,
            name,
            line,
            comment,
            kind,
        )
        self.lines = []

    @property
    def file(self):
        crate, _, *path = self.module.split('.')[1:]
        return f'crates/{crate}/specs/{"/".join(path)}.antt'

    def code(self):
        return [line for line in self.lines if line.strip()]

    def said(self):
        """The lines of code that are quoted: an abbreviation's without its type."""
        lines = self.code()
        if lines[0].startswith(('abbrev', 'unfoldable')):
            return lines[
                next((n for n, line in enumerate(lines) if line.startswith(self.name)), 0) :
            ]
        return lines

    def sentence(self):
        """The first sentence of the comment, a long one up to its first semicolon, or what the
        definition is of."""
        text = ' '.join(
            line.lstrip('- ').strip() for line in self.comment if not line.startswith('-- ----')
        )
        if not text:
            return f'`{self.lines[0].strip()}`'
        first = re.split(r'(?<=[.:]) (?=[A-Z])', text)[0].rstrip('.:')
        if len(first.split()) > LONG and ';' in first:
            return f'{first[0].upper()}{first[1:].split(";")[0]}, and more.'
        return first[0].upper() + first[1:] + '.'


def imports_of(line):
    """What an import line brings: pairs of a name here, and the module with the name there; a
    module has no name there."""
    found = re.match(
        r'(?:pub |ghost )?use (Rattle[\w.\-]*)(?:\.\{(.*)\})?(?: as (\w+))?;?\s*$', line
    )
    if not found:
        return
    module, names, alias = found.groups()
    if names is None:
        yield alias or module.split('.')[-1], (module, None)
        return
    for name in names.split(','):
        there, _, here = name.strip().partition(' as ')
        yield here or there, (module, there)


def flat(text):
    """The numbered lines of a file, those of a `mutual` block without their indent."""
    inside = False
    for number, line in enumerate(text.split('\n'), 1):
        if re.match(r'(abbrev )?mutual$', line):
            inside = True
            continue
        if line.strip() and line[0] not in ' \t':
            inside = False
        yield number, line[2:] if inside else line


class Module:
    """A file of specs/: what it imports and defines."""

    def __init__(self, path):
        crate, _, *rest = path.relative_to(CRATES).with_suffix('').parts
        self.name = '.'.join(['Rattle', crate, 'specs', *rest])
        self.imports, self.definitions, self.constructors = {}, {}, {}
        comment, current = [], None
        for number, line in flat(path.read_text(encoding='utf-8')):
            if not line.strip():
                comment = []
            elif line.startswith('--'):
                comment.append(line)
            elif re.match(r'(pub )?use ', line):
                self.imports.update(imports_of(line))
            elif re.match(r'(pub )?mod ', line):
                comment = []
            elif not re.match(r'[^\s:({]', line) or re.match(r'(unfolding|ruleset) ', line):
                if current is not None:
                    self.more(current, line)
            else:
                current = self.head(line, number, comment)
                comment = []

    def more(self, definition, line):
        """A further line of a definition."""
        definition.lines.append(line)
        made = re.match(r'\s+(?:pub )?(\w+) :', line)
        if definition.kind == 'data' and made:
            self.constructors[made[1]] = definition

    def head(self, line, number, comment):
        """The definition that begins in a line, or goes on with another equation."""
        found = re.match(r'(?:abbrev |unfoldable )*(?:pub )?(record |data )?([^\s:({]+)', line)
        name = found[2]
        if name not in self.definitions:
            self.definitions[name] = Definition(
                self.name, name, number, comment, (found[1] or '').strip()
            )
        self.definitions[name].lines.append(line)
        return self.definitions[name]


class House:
    """All files of specs/, and where names lead."""

    def __init__(self):
        self.modules, self.other_names = {}, {}
        for path in sorted(CRATES.glob('*/specs/*.antt')):
            module = Module(path)
            self.modules[module.name] = module
            if path.name == 'Lib.antt':
                crate = module.name.rpartition('.')[0]
                self.other_names.update(
                    {
                        f'{crate}.{here}': there
                        for here, (there, name) in module.imports.items()
                        if name is None
                    }
                )

    def find(self, module, name):
        """The definition of a name in a module, through what is exported again; None where it is
        none of this repository's."""
        module = self.other_names.get(module, module)
        if module not in self.modules:
            return None
        source = self.modules[module]
        if name in source.definitions or name in source.constructors:
            return source.definitions.get(name) or source.constructors[name]
        if name in source.imports:
            return self.find(*source.imports[name])
        return None

    def needs(self, definition):
        """What a definition speaks of, in the order of its words."""
        source = self.modules[definition.module]
        for line in definition.lines:
            for word in WORD.findall(line.split(' -- ')[0]):
                found = self.meant(source, word)
                if found is not None and found is not definition:
                    yield found

    def meant(self, source, word):
        """The definition that a word of a module means, or that a word's part before a dot does."""
        for name in (word, word.partition('.')[0]):
            if name in source.definitions or name in source.constructors:
                return self.find(source.name, name)
            if name in source.imports:
                module, there = source.imports[name]
                return self.find(module, there or word.partition('.')[2].partition('.')[0])
        return None

    def base(self, roots):
        """All that definitions need, each where it is first needed."""
        order, waiting = {}, list(reversed(roots))
        while waiting:
            definition = waiting.pop()
            if definition not in order:
                order[definition] = None
                waiting.extend(reversed(list(self.needs(definition))))
        return list(order)

    def named(self, text, words):
        """The definitions that words of a Rust file name, by the file's imports."""
        imports = {}
        for brought in re.findall(r'^ *(ghost use [^;]*;)', text, re.M):
            imports.update(imports_of(re.sub(r'\s+', ' ', brought).replace(', }', '}')))
        found = [
            self.find(*imports[word])
            for word in WORD.findall(words)
            if word in imports and imports[word][1]
        ]
        return [definition for definition in found if definition is not None]

    def roots(self, file, function, clause):
        """The definitions that a clause of a function names."""
        named = self.named(
            (CRATES / file).read_text(encoding='utf-8'), clause_of(file, function, clause)
        )
        if not named:
            sys.exit(
                f'crates/{file}: the clause {clause or "without a name"} of {function} names no'
                ' definition'
            )
        return named

    def view_roots(self, rust, file, function, clause):
        """The definitions by which a clause of a function sees its values: those that the views of
        their types name."""

        def equation(kind, head):
            found = self.named(kind.text, head)
            return found[0].said()[0] if found else None

        path = CRATES / file
        values = values_of(rust, path, path.read_text(encoding='utf-8'), function)
        kinds = named_in(clause_of(file, function, clause), values)
        return [
            definition
            for kind, words in views_of(rust, kinds, equation)
            for definition in self.named(kind.text, words)
        ]


def clause_of(file, function, clause):
    """The text of a clause of a function, without its brackets."""
    text = (CRATES / file).read_text(encoding='utf-8')
    body = re.search(rf'\bfn {function}\b.*?^\s*{{', text, re.M | re.S)
    found = body and re.search(
        rf'ensures\*? {clause + " " if clause else ""}{{(.*?)}}\n', body[0], re.S
    )
    if not found:
        sys.exit(f'crates/{file}: {function} has no clause {clause or "without a name"}')
    return found[1]


class Base:
    """What a claim depends on: the definitions that its clauses need, and those that the views of
    their types add."""

    def __init__(self, house, rust, clauses):
        roots = [root for clause in clauses for root in house.roots(*clause)]
        views = [root for clause in clauses for root in house.view_roots(rust, *clause)]
        self.definitions = house.base(roots)
        self.views = [
            definition
            for definition in house.base(roots + views)
            if definition not in set(self.definitions)
        ]

    def all(self):
        return self.definitions + self.views


def bases():
    """The base of each claim."""
    house, rust = House(), RustTypes(CRATES)
    return {title: Base(house, rust, claim.clauses) for title, claim in CLAIMS.items()}


def size(definitions):
    """How many lines of code some definitions have."""
    return sum(len(definition.code()) for definition in definitions)


def counts(base):
    """The counts of a base, in words."""

    def of(definitions):
        files = len({definition.module for definition in definitions})
        return f'{len(definitions)} definitions, {size(definitions)} lines, {files} files'

    return of(base.definitions) + (f'; with the views, {of(base.all())}' if base.views else '')


def link(definition):
    return f'[`{definition.name}`](../{definition.file}#L{definition.line})'


def items(definitions, quoted):
    """The list of some definitions, with the text of those that are quoted."""
    for definition in definitions:
        is_quoted = definition in quoted
        said = f': {definition.sentence()}' if definition.comment or not is_quoted else ''
        yield f'- {link(definition)}{said}'
        if is_quoted:
            yield from ['', '  ```', *(f'  {line}' for line in definition.said()), '  ```', '']


def by_file(definitions):
    """The names of some definitions, an item for each file."""
    named = collections.defaultdict(list)
    for definition in definitions:
        named[definition.file].append(f'`{definition.name}`')
    for file, names in named.items():
        yield f'- [{file.partition("/")[2]}](../{file}): {", ".join(names)}'


def page(found, titles):
    """The text of a page with the bases of some claims."""
    parts, known, viewed = [HEAD], set(), set()
    quoted = {definition for title in QUOTED for definition in found[title].definitions}
    for title, base in ((title, found[title]) for title in titles):
        names = ', '.join(
            f'`{function}`{f" ({clause})" if clause else ""}'
            for _, function, clause in CLAIMS[title].clauses
        )
        parts.append(f'## {title}\n\n{names}: {counts(base)}.\n')
        fresh = [definition for definition in base.definitions if definition not in known]
        parts.extend(items(fresh, quoted))
        parts.append('' if fresh else 'Nothing that is not above.\n')
        known.update(base.definitions)
        views = [definition for definition in base.views if definition not in known | viewed]
        if views:
            parts.extend(['The views of its values need these, too:\n', *by_file(views), ''])
        viewed.update(views)
    return re.sub(r'\n{3,}', '\n\n', '\n'.join(parts)).rstrip('\n') + '\n'


def short_page(found):
    """The text of docs/BASE.md."""
    return page(found, QUOTED) + FOOT


def doubles(base):
    """The names that several definitions of a base have, each with the files of these."""
    named = collections.defaultdict(list)
    for definition in base:
        named[definition.name].append(definition.file)
    return {name: files for name, files in named.items() if len(files) > 1}


def faults(found):
    """What is not in order."""
    if not PAGE.exists() or PAGE.read_text(encoding='utf-8') != short_page(found):
        yield 'docs/BASE.md is not what .ci/base.py --write makes'
    for title, base in found.items():
        for name, files in doubles(base.definitions).items() if not CLAIMS[title].is_shared else ():
            yield f'{title}: {name} means two things: {", ".join(files)}'


def figures(found):
    """What docs/THEOREMS.md should say of the lines that claims need, and does not."""
    theorems = (ROOT / 'docs' / 'THEOREMS.md').read_text(encoding='utf-8')
    for title, text in FIGURES.items():
        said = text.format(size(found[title].definitions), size(found[title].all()))
        if said not in theorems:
            yield f'docs/THEOREMS.md does not say: {said}'


def main():
    found = bases()
    if '--counts' in sys.argv[1:]:
        for title, base in found.items():
            print(
                f'{title}: {counts(base)}; {len(doubles(base.definitions))} names mean two things'
            )
        return 0
    if '--all' in sys.argv[1:]:
        print(page(found, found), end='')
        return 0
    if '--write' in sys.argv[1:]:
        PAGE.write_text(short_page(found), encoding='utf-8')
    wrong = [*faults(found), *figures(found)]
    print(*wrong, f'{len(found)} claims, {len(wrong)} faults', sep='\n')
    return 1 if wrong else 0


if __name__ == '__main__':
    sys.exit(main())
