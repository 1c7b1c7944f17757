# That any two results of a function are the same, as a law of its contract: for each source file with functions, a file of such laws in proofs/, written
# from the contracts as they stand. The prover checks them, so that a contract that only looks like one of the shapes is refused.
import re
from itertools import groupby
from names import has, names_in
from sources import parts, told_by_a_closure

HEAD = """-- Written by .ci/contracts --write: for each function of {source}, that any two results that its contract allows are the same.
"""
# the types of the code that are numbers to the definitions; where the words of the library are; and equality by a name of its own, whatever a contract
# means by `≡`
NUMBERS = ('u8', 'u16', 'u32', 'u64', 'usize')
WORDS = 'Rattle.std.specs.Prelude'
EQUALS = (WORDS, '◌≡◌ as ◌is◌')
# what a bound gives of a type that a function is generic in, as the contract names it
MEMBERS = {'eq': '{0} → {0} → Bool'}


class Unknown(Exception):
    pass


def module_of(file):
    """The module of a file of definitions or proofs."""
    other, part, *rest = file.removesuffix('.antt').split('/')
    return f'Rattle.{other}.{part}.{".".join(rest)}'


def nested(kind):
    return f'({kind})' if ' ' in kind else kind


class File:
    """The laws of one source file, and what they take from other modules."""

    def __init__(self, room, source, uses, ghosts, types):
        self.room, self.source, self.uses, self.ghosts, self.types = room, source, uses, ghosts, types
        self.taken, self.laws, self.generics = [], [], ()

    def take(self, module, name):
        if (module, name) not in self.taken:
            self.taken.append((module, name))

    def type_of(self, rust, own, within=False):
        """A type of the code as its definitions have it. What a reference lends has its value where the contract names it, and is lent within another."""
        lent = re.match(r"\s*&\s*(?:'\w+\s+)?(mut\b\s*)?", rust)
        plain = rust[lent.end():].strip() if lent else rust.strip()
        if lent and within:
            if lent[1]:
                raise Unknown(f'the type {rust.strip()}')
            self.take('denote.Bor', 'Bor')
            return f'Bor {nested(self.type_of(plain, own, True))}'
        if plain == '()':
            return 'Unit'
        if plain in self.generics:
            return plain
        if plain.startswith('('):
            return ' × '.join(nested(self.type_of(part, own, True)) for part in parts(plain[1:-1], ',', angled=True))
        outer = re.fullmatch(r'(Option|Result)<(.*)>', plain)
        if outer:
            self.take(WORDS, outer[1])
            return ' '.join([outer[1], *(nested(self.type_of(part, own, True)) for part in parts(outer[2], ',', angled=True))])
        if plain.startswith('['):
            self.take(WORDS, 'List')
            return f'List {nested(self.type_of(parts(plain[1:-1], ";")[0], own, True))}'
        if plain in NUMBERS:
            self.take(WORDS, 'ℕ')
            return 'ℕ'
        if plain == 'bool':
            self.take(WORDS, 'Bool')
            return 'Bool'
        name = own if plain == 'Self' else plain
        where = self.uses.get(name, [self.room, name])
        room = self.room if where[0] == 'crate' else where[0]
        if name not in self.types.get(room, ()):
            raise Unknown(f'the type {plain}')
        self.take(module_of(f'{room}/specs/declared/{name}.antt'), name)
        return name

    def text(self):
        body = '\n'.join(self.laws)
        names = names_in(body)
        groups = {}
        for module, name in [*self.taken, *self.ghosts]:
            if has(names, name.partition(' as ')[2] or name) and name not in groups.setdefault(module, []):
                groups[module].append(name)
        lines = [f'use {module}.{{{", ".join(names)}}}' for module, names in groups.items() if names]
        return HEAD.format(source=self.source) + '\n'.join(lines) + '\n\n' + body


def member_type(file, owner, bound, member, own):
    """The type of what a bound gives of a type, as the contract names it: of a closure what it may answer, by what it is given."""
    closure = re.fullmatch(r'Fn\((.*)\)\s*->\s*(.*)', bound)
    if closure and member == 'post':
        given, after = [], []
        for part in parts(closure[1], ',', angled=True) if closure[1] else ():
            # what is lent to be written stands there as it is lent, and after the answer as it is left
            lent = re.match(r"\s*&\s*(?:'\w+\s+)?mut\b", part)
            kind = file.type_of(part, own)
            if lent:
                file.take('Rattle.std.specs.Borrow', 'MutBor')
                kind = f'MutBor {nested(kind)}'
                after.append(kind)
            given.append(kind)
        given.append(file.type_of(closure[2], own))
        return ' → '.join([owner, *(nested(kind) for kind in [*given, *after]), 'Type 0'])
    if closure or member not in MEMBERS:
        raise Unknown(f'{owner}.{member}, which a bound gives')
    if 'Bool' in MEMBERS[member]:
        file.take(WORDS, 'Bool')
    return MEMBERS[member].format(owner)


def other(text):
    """A contract with its results renamed."""
    return re.sub(r"(?<![\w.])r(?![\w'])", 'r₂', re.sub(r"(?<=\w)'", "''", text))


def law(file, f, found, laws):
    """The law of a function: its name, and the lines of its statement and proof. `laws` has for each shape the file and name of its law, the term that
    applies it, and for a record how many arguments it has."""
    steps = f.path.split('::')
    own = steps[-2] if re.match('[A-Z]', steps[-2]) else None
    name = '_'.join(([own.lower()] if own else []) + [steps[-1]]) + '_once'
    file.generics = f.generics
    binders, memories = [(word, 'Type 0') for word in f.generics], []
    for owner, member in sorted(set(re.findall(rf"(?<![\w.])({'|'.join(f.generics) or '$^'})\.(\w+)", ' '.join(text for _, _, text in found)))):
        binders.append((f'{owner}_{member}', member_type(file, owner, f.generics[owner], member, own)))

    def named(text):
        return re.sub(rf"(?<![\w.])({'|'.join(f.generics) or '$^'})\.(?=\w)", r'\1_', text)

    for parameter in f.parameters:
        word, _, rust = parameter.partition(':')
        word = word.replace('mut ', '').strip()
        if word == 'r':
            raise Unknown('a parameter r, which stands for the result')
        binders.append((word, file.type_of(rust or 'Self', own)))
        if word in f.lent:
            memories.append(word)
    if f.result:
        binders.append(('r r₂', file.type_of(f.type, own)))
    if memories:
        binders.append((' '.join(f"{m}' {m}''" for m in memories), 'List ℕ'))
    # what is so for a closure is so for any definition that it answers by, which both results are held to
    asked, met = [], {}
    for i, (shape, _, text) in enumerate(found):
        if shape == 'for a closure':
            told, said, _ = told_by_a_closure(text)
            for word, _ in told:
                if word in (taken for names, _ in binders for taken in names.split()):
                    raise Unknown(f'a definition {word} for a closure, beside a parameter of that name')
            binders += told
            asked.append(named(said))
            meets = f'meets_{"_".join(word for word, _ in told)}'
            met[i] = f'{" ".join(word for word, _ in told)} {meets}'
    found = [(shape, results, named(text)) for shape, results, text in found]
    sized = any("state_in cells' holds'" in result for _, results, _ in found for result in results)
    if sized:
        file.take(WORDS, 'length')
        file.take(module_of('state/specs/Cells.antt'), 'cells_size')
        asked += ["length cells' is cells_size", "length cells'' is cells_size"]
    file.take(*EQUALS)
    names = ' '.join(word for word, _ in binders)
    grouped = [(' '.join(word for word, _ in group), kind) for kind, group in groupby(binders, lambda binder: binder[1])]
    sizes = ''.join(f' {one.split()[-1]}' for one in met.values()) + (' sized sized_other' if sized else '')
    types, terms = [], []
    for i, (shape, results, text) in enumerate(found):
        one, two = ('by_one', 'by_other') if len(found) == 1 else (f'by_one.{i}', f'by_other.{i}')
        if i in met:
            one, two = f'({one} {met[i]})', f'({two} {met[i]})'
        kind, term = applied(file, shape, results, one, two, laws)
        types.append(kind)
        terms.append(term)
    contract = ' × '.join(f'({text})' if len(found) > 1 else text for _, _, text in found)
    steps = asked + [f'({contract})', f'({other(contract)})']
    file.laws += [f'pub {name} : {" ".join(f"({words} : {kind})" for words, kind in grouped)}', *(f'    → {step}' for step in [*steps, joined(types)]),
                  f'{name} {names}{sizes} by_one by_other = {terms[0] if len(terms) == 1 else "(" + ", ".join(terms) + ")"}', '']
    return name


def joined(types):
    return types[0] if len(types) == 1 else ' × '.join(f'({t})' for t in types)


def same(result):
    """That a result is the other one: of the state in the two lent arrays, both arrays."""
    if 'state_in' in result:
        return "(cells' is cells'') × (holds' is holds'')"
    return f'{result} is {other(result)}'


def applied(file, shape, results, one, two, laws):
    """What one part of the contract fixes, as a type and a term for it."""
    arrays = 'lent_once _ _ _ _ _ sized sized_other {} {}'
    if shape == 'state' or any('state_in' in result for result in results):
        file.take(module_of('state/proofs/Lent.antt'), 'lent_once')
    if shape == 'state':
        return same(results[0]), arrays.format(one, two)
    where, head, term, arity = laws[shape]
    file.take(module_of(where), head)
    if shape == 'for any':
        file.take(WORDS, '[]')
        return same(results[0]), f'{term} [] _ _ _ {one} {two}'
    if arity is None:
        return same(results[0]), f'{term} _ _ _ {one} {two}'
    told = f'{term} {"_ " * (arity + len(results))}{one} {two}'
    if not any('state_in' in result for result in results):
        return joined([same(result) for result in results]), told
    file.take('Rattle.std.proofs.Common', 'refl')
    terms = [arrays.format(f'told.{i}', 'refl') if 'state_in' in result else f'told.{i}' for i, result in enumerate(results)]
    return joined([same(result) for result in results]), f'(let told = {told} in ({", ".join(terms)}))'


def written(root, ordered, shaped, laws, read_file, rooms):
    """The files of laws, by their path; the name of each function's law with its file; and what could not be written."""
    types = {room: set(re.findall(r'\b(?:struct|enum) (\w+)', '\n'.join(f.read_text() for f in (root / 'crates' / room / 'src').rglob('*.rt')))) for room in rooms}
    files, cited, faults = {}, {}, []
    for f in ordered:
        found, loose = shaped[f.path]
        if loose or not f.ensures:
            continue
        if f.file not in files:
            room = f.path.split('::')[0]
            text = f.file.read_text()
            ghosts = [(m[1], name.strip()) for m in re.finditer(r'ghost\s+use\s+([^;{]+)\.\{([^}]*)\};', text) for name in m[2].split(',')]
            files[f.file] = File(room, f.file.relative_to(root / 'crates' / room).as_posix(), read_file(root, f.file)[1], ghosts, types)
        try:
            cited[f.path] = law(files[f.file], f, found, laws)
        except Unknown as what:
            faults.append(f'`{f.path}` has {what}, which is not read here')
    texts = {}
    for source, file in files.items():
        inner = source.relative_to(root / 'crates' / file.room / 'src').with_suffix('').parts
        name = 'Results' + ''.join(step.capitalize() for step in inner if step not in ('lib', 'main', 'mod'))
        path = f'crates/{file.room}/proofs/{name}.antt'
        texts[path] = file.text()
        for f in ordered:
            if f.file == source and f.path in cited:
                cited[f.path] = f'{name}: {cited[f.path]}'
    return texts, cited, faults
