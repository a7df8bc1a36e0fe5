"""What clauses see of Rust types: the definitions that the views of the types of a clause's values
name.

A type with an `impl Model` is seen through its view; a type without one is seen as its fields. A
view names definitions, and fields whose types have views of their own; these are followed too.
Where a clause names one field of a value, as `history` in `self.old.history`, and the view fills
the fields of a record one by one, only that field's argument is followed. Types of the toolchain,
and ghost fields, are left out.
"""
import re

TYPE = re.compile(r'^(?:pub(?:\(\w+\))? )?(struct|enum) (\w+)[^\n;{(]*\{\n(.*?)^\}', re.M | re.S)
MODEL = re.compile(r'^impl.* Model for (\w+).*?^\}', re.M | re.S)
FIELD = re.compile(r'^ +(?:pub(?:\(\w+\))? )?(\w+): ([^{}\n]*),$', re.M)


class RustType:
    """A struct or an enum: its file, the types of its fields by name, and of its Model the value's
    type and the view."""

    def __init__(self, path, text, kind, body):
        self.path, self.text = path, text
        self.fields = dict(FIELD.findall(body)) if kind == 'struct' else {'': body}
        self.value = self.view = None

    def follow(self, model):
        """Takes the value's type and the view from an `impl Model`."""
        found = {
            name: re.search(rf'ghost {name} = {{(.*?)}};\n', model, re.S)
            for name in ('Value', 'view')
        }
        if found['Value'] and found['view']:
            self.value, self.view = (
                re.sub(r'\s+', ' ', found[name][1]).strip() for name in ('Value', 'view')
            )


class RustTypes:
    """All types of the crates, by crate and name."""

    def __init__(self, crates):
        self.crates, self.types = crates, {}
        for path in sorted(crates.glob('*/src/**/*.rt')):
            crate, text = path.relative_to(crates).parts[0], path.read_text(encoding='utf-8')
            for kind, name, body in TYPE.findall(text):
                self.types.setdefault((crate, name), RustType(path, text, kind, body))
            for found in MODEL.finditer(text):
                if (crate, found[1]) in self.types:
                    self.types[crate, found[1]].follow(found[0])

    def find(self, name, path, text):
        """The type of this name in a file: one of its crate, or one of the crate from which the
        file imports it."""
        crate = path.relative_to(self.crates).parts[0]
        brought = re.search(rf'^use (\w+)(?:::\w+)*::(?:\{{[^;]*\b)?{name}\b', text, re.M)
        return self.types.get((crate, name)) or self.types.get(
            (brought[1] if brought else crate, name)
        )

    def named(self, words, path, text):
        """The types that a text of types names, as `Vec<Entry>` does."""
        found = (self.find(name, path, text) for name in re.findall(r'\b[A-Z]\w*', words))
        return [kind for kind in found if kind is not None]


def arguments(text):
    """The arguments of an application: its words, those in brackets being one."""
    return re.findall(r'\([^()]*(?:\([^()]*\)[^()]*)*\)|[^\s()]+', text)


def seen_part(view, projection, equation):
    """The part of a view that a projection reads: one argument where the view fills a record's
    fields by name, else all of it."""
    head, *given = arguments(view)
    parameters = (equation(head) or '').split('=')[0].split()[1:]
    if projection in parameters and len(parameters) == len(given):
        return given[parameters.index(projection)]
    return view


def views_of(rust, kinds, equation):
    """The views, with their values' types, of some types and of the fields that they read: pairs of
    a RustType and a text.

    `kinds` are pairs of a type and a projection or None; `equation` gives the first line of a
    definition by its name in a view.
    """
    waiting, seen = list(kinds), set()
    while waiting:
        kind, projection = waiting.pop(0)
        if (kind, projection) in seen or (kind, None) in seen:
            continue
        seen.add((kind, projection))
        if kind.view is None:
            read = kind.fields if projection not in kind.fields else [projection]
            waiting += [
                (one, None)
                for field in read
                for one in rust.named(kind.fields[field], kind.path, kind.text)
            ]
            continue
        yield kind, f'{kind.value} {kind.view}'
        name, view = re.match(r'λ (\w+)\. (.*)', kind.view).groups()
        for path in re.findall(
            rf'\b{name}((?:\.\w+)+)', seen_part(view, projection, lambda head: equation(kind, head))
        ):
            field, _, rest = path[1:].partition('.')
            for one in rust.named(kind.fields.get(field, ''), kind.path, kind.text):
                waiting.append((one, rest.partition('.')[0] or None))


def values_of(rust, path, text, function):
    """The types of a function's values: of self, of each parameter and of the result, by name."""
    found = re.search(
        (
            rf'^( *)(?:pub(?:\(\w+\))? )?(?:extern "C" )?fn {function}(?:<[^()]*>)?\((.*?)^'
            r' *(?:requires|ensures)'
        ),
        text,
        re.M | re.S,
    )
    values = dict(re.findall(r'(\w+): ([^\n]*?),?(?=\n|\)|, \w+:)', found[2]))
    values['result'] = found[2].rpartition('->')[2] if '->' in found[2] else ''
    heads = (
        re.findall(r'^impl[^\n]*?(\w+)(?:<[^\n]*>)? \{$', text[: found.start()], re.M)
        if found[1]
        else []
    )
    values['self'] = heads[-1] if heads else ''
    return {name: rust.named(words, path, text) for name, words in values.items()}


def named_in(clause, values):
    """The types of the values that a clause names, each with the field of it that is named, if one
    is."""
    for name, rest in re.findall(r'(?<![\w.])(\w+)((?:\.\w+)*)', clause):
        fields = [
            field
            for field in rest.split('.')
            if field and field not in ('old', 'new', 'now', 'entry', 'exit')
        ]
        for kind in values.get(name, ()):
            yield kind, fields[0] if fields else None
