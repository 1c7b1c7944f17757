# What the gate's scripts read: every function of the crates with its clauses and calls, the declarations of a file, the sizes that the sources
# hold, and the tables of a document.
import re
import sys
from pathlib import Path


# pages that tell how the sources came to be what they are: each name stands there beside its older one, and sizes of another time
BEFORE = ('docs/PORT.md', 'docs/DESIGN-PASS.md')


def report(script, faults):
    """A line for each fault, and the status that goes with it."""
    for fault in faults:
        print(f'{script}: {fault}', file=sys.stderr)
    sys.exit(1 if faults else 0)


def blanked(text):
    """The text with comments, strings and characters as spaces, so that every place stays where it was."""
    literal = r'//[^\n]*|/\*.*?\*/|b?"(?:\\.|[^"\\])*"|b?\'(?:\\[^\n]|[^\\\'\n])\''
    return re.sub(literal, lambda m: re.sub(r'[^\n]', ' ', m.group()), text, flags=re.S)


def closing(text, at):
    """The place after the bracket that closes the one at a place."""
    depth = 0
    for i in range(at, len(text)):
        depth += (text[i] in '([{') - (text[i] in ')]}')
        if depth == 0:
            return i + 1
    raise ValueError(f'no bracket closes the one at {at}')


def words(text):
    return ' '.join(text.split())


def unwrapped(text):
    """Without a pair of parentheses around the whole."""
    text = text.strip()
    while text.startswith('(') and closing(text, 0) == len(text):
        text = text[1:-1].strip()
    return text


def parts(text, sign, angled=False):
    """The text cut at a sign that stands in no bracket; those of a type are angled too, but for an arrow's."""
    found, depth, start = [], 0, 0
    for i, c in enumerate(text):
        depth += (c in '([{') - (c in ')]}')
        if angled:
            depth += (c == '<') - (c == '>' and text[i - 1:i] not in ('-', '='))
        if c == sign and depth == 0:
            found.append(text[start:i])
            start = i + 1
    return [part.strip() for part in found + [text[start:]]]


def short(clause):
    """A clause as docs/CONTRACTS.md writes it: `x` for lent memory at entry and `x'` at exit, `r` for what is handed back."""
    clause = words(clause).replace('«', '').replace('»', '')
    clause = re.sub(r"(?<![\w.])result(?:\.now)?(?![\w'])", 'r', clause)
    # a value that a method is given has at its entry what it holds
    clause = re.sub(r"(?<![\w.'])(\w+)\.entry(?![\w'])", r'\1', clause)
    return unwrapped(re.sub(r"(?<![\w.'])(\w+)\.(now|old|new)(?![\w'])", lambda m: m[1] + ("'" if m[2] == 'new' else ''), clause))


class Function:
    def __init__(self, path, file, generics, parameters, result, clauses, body, exported):
        self.path, self.file, self.body, self.exported, self.line = path, file, body, exported, None
        # the types that it is generic in, each with what is asked of it
        self.generics = {name.strip(): words(bound) for name, _, bound in (part.partition(':') for part in generics if part and part[0] != "'")}
        # the type of what is handed back, and whether anything is
        self.type, self.result = result, result not in ('', '()')
        self.parameters = [part for part in parts(parameters, ',', angled=True) if part]
        self.lent = re.findall(r"(\w+)\s*:\s*&\s*(?:'\w+\s+)?mut\b", parameters)
        self.requires = ' × '.join(short(text) for kind, text in clauses if kind == 'requires')
        self.ensures = ' × '.join(short(text) for kind, text in clauses if kind == 'ensures')
        self.calls = set()

    def shapes(self, heads):
        """The parts of the contract, each as its shape, the results that it speaks of in their order and its text; and why it leaves open what is
        handed back or what is lent to be written, or None. `heads` has, for each name that a part may begin with, the record that it stands for."""
        if self.body is None:
            return [], 'is declared without a body'
        if not self.ensures:
            return [], 'has no ensures'
        # what a field of a value lends has its value in the value
        if re.search(r'(?<![\w.])\w+\.(?:now|old|new)\b|\.(?:old|new)\b', self.ensures):
            return [], 'has a contract that reads lent memory in a way that is not known here'
        found, fixed = [], set()
        for part in parts(self.ensures, '×'):
            shape, results, inputs = shape_of(unwrapped(part), heads) if not told_by_a_closure(unwrapped(part)) else self.closure_shape(unwrapped(part))
            if not shape:
                return [], 'has a contract of no shape that is known here'
            if any(re.search(r"(?<![\w.])r\b|\w'", text) for text in inputs):
                return [], 'has a contract that fixes a result by another'
            found.append((shape, results, unwrapped(part)))
            fixed.update(name for result in results for name in re.findall(r"\w+'|\br\b", result))
        missing = [x + "'" for x in self.lent if x + "'" not in fixed] + (['r'] if self.result and 'r' not in fixed else [])
        return found, f'has a contract that leaves {", ".join(missing)} open' if missing else None

    def closure_shape(self, part):
        """The shape of a part that says what comes of it for any definition that a closure answers by: as of an equality, where what is asked is of
        a closure that the function takes, names the definition, and speaks of no result."""
        told, asked, equal = told_by_a_closure(part)
        sides = parts(equal, '≡')
        posts = set(re.findall(r'(?<![\w.])(\w+)\.post(?!\w)', asked))
        if len(sides) != 2 or re.search('[→⊎∨↔]', equal) or not RESULT.fullmatch(sides[0]) or 'state_in' in sides[0]:
            return None, [], []
        if len(posts) != 1 or any(not re.match(r'Fn\b', self.generics.get(owner, '')) for owner in posts):
            return None, [], []
        if any(not re.search(rf"(?<![\w.]){name}(?![\w'])", asked) for name, _ in told):
            return None, [], []
        # what is asked is asked of the closure alone, whatever else the function is given: else it would say nothing for some of that
        given = [(word.replace('mut ', '').strip(), kind.strip()) for word, _, kind in (parameter.partition(':') for parameter in self.parameters)]
        if any(re.search(rf"(?<![\w.]){word}(?!\w)", ' '.join([asked, *(kind for _, kind in told)])) for word, kind in given if kind not in posts):
            return None, [], []
        return 'for a closure', sides[:1], [asked, *sides[1:]]


RESULT = re.compile(r"r|\w+'|\(?state_in cells' holds'\)?")


def told_by_a_closure(part):
    """Of a part of a contract that is so for any definition, or several, of which something is asked: each definition's name with its type, what is asked,
    and what is so; or None."""
    bound = re.fullmatch(r'((?:\(\w+ : [^()]*\) )+)→ (.*)', part)
    steps = parts(bound[2], '→') if bound else []
    return (re.findall(r'\((\w+) : ([^()]*)\)', bound[1]), *steps) if len(steps) == 2 and '.post' in steps[0] else None


def shape_of(part, heads):
    """The shape of one part of a contract, with the results that it fixes and what it fixes them by: an equality of a result, of the state in the
    two lent arrays, of a field, or for any value of something; or a record, of which each result is an argument. No shape: None."""
    bound = re.fullmatch(r'\(\w+ : [^()]*\) → (.*)', part)
    sides = parts(bound[1] if bound else part, '≡')
    if len(sides) == 2 and not re.search('[→⊎∨↔]', sides[0] + sides[1]):
        field = re.fullmatch(r'r(\.\w+)', sides[0])
        if field and not bound:
            return f'`{field[1]}`', ['r'], sides[1:]
        if RESULT.fullmatch(sides[0]):
            state = 'state_in' in sides[0]
            return (None if state else 'for any') if bound else 'state' if state else 'equality', sides[:1], sides[1:]
        return None, [], []
    head, *rest = arguments(part)
    if len(sides) > 1 or bound or head not in heads:
        return None, [], []
    return f'`{heads[head]}`', [a for a in rest if RESULT.fullmatch(a)], [a for a in rest if not RESULT.fullmatch(a)]


def arguments(text):
    """A term's head and its arguments."""
    return [word for word in parts(text, ' ') if word]


def heads_of(root, records):
    """What a part of a contract may begin with: a record that has a law, or a definition that stands for it, with that record."""
    found = {record: record for record in records}
    for file in sorted(Path(root).glob('crates/*/specs/**/*.antt')):
        for name, body in re.findall(r'^abbrev pub (\w+) : [^\n]*\n\1 [^=\n]*=((?:.|\n)*?)(?=\n\n|\Z)', file.read_text(), re.M):
            last = re.sub(r'^\s*(?:let [^\n]* in\s*)*', '', body)
            word = re.match(r'\w+', last)
            if word and word[0] in records:
                found[name] = word[0]
    return found


def read_file(root, file):
    """The functions of a source file, with the calls in each as they are written, and the file's `use` names."""
    text = file.read_text()
    plain = blanked(text)
    steps = file.relative_to(root / 'crates').with_suffix('').parts
    module = [steps[0]] + [s for s in steps[2:] if s not in ('lib', 'main', 'mod')]
    uses = {}
    for item in re.findall(r'(?<!ghost )\buse\s+([^;]+);', plain):
        head, _, group = item.partition('{')
        for name in (group.rstrip('} \n').split(',') if group else ['']):
            whole, _, other = (head + name).strip().partition(' as ')
            whole = [s.strip() for s in whole.split('::') if s.strip()]
            if whole:
                uses[other.strip() or whole[-1]] = whole
    functions, scopes, begins, at, lines = [], [], [], 0, text.split('\n')
    token = re.compile(r'\bfn\s+(\w+)|\b(?:mod|trait|impl(?:\s*<[^{;]*?>)?(?:\s+[^{}]+?\s+for)?)\s+(\w+)[^{;]*\{|[{}]')
    while True:
        m = token.search(plain, at)
        if not m:
            return functions, uses
        at = m.end()
        if m.group() == '}':
            scopes.pop()
            begins.pop()
        elif m[1] is None:
            scopes.append(m[2])
            # of several impls of a trait for one type which one it is says what the value is made from
            made_from = re.match(r'impl\b[^{]*?\bFrom<([A-Z]\w*)>\s+for\b', m.group())
            begins.append((at, made_from and made_from[1].lower()))
        else:
            begin, made_from = begins[-1] if begins else (at, None)
            path = module + [s for s in scopes if s] + [f'from_{made_from}' if made_from and m[1] == 'from' else m[1]]
            exported = bool(re.search(r'\bextern\s+$', plain[:m.start()]))
            # where it begins, with what stands above it about it
            line = plain.count('\n', 0, m.start()) + 1
            while line > 1 and lines[line - 2].lstrip().startswith('#['):
                line -= 1
            function, at = read_function(plain, text, at, '::'.join(path), file, exported, given_by(plain, text, begin, m))
            function.line = line
            functions.append(function)


def given_by(plain, text, begin, function):
    """What a trait of the library's says by a ghost member of the same impl that its function gives: what that names the argument and the result, and
    what it says of them; or None."""
    member = re.compile(rf'\bghost\s+{function[1]}_gives\s*=\s*(?=\{{)').search(plain, begin, function.start())
    if not member:
        return None
    inner = text[member.end() + 1:closing(plain, member.end()) - 1]
    said = re.fullmatch(r'\s*λ (\w+) (\w+)\.\s(.*?)\s*', inner, re.S)
    if not said:
        raise ValueError(f'what {member.group().split()[1]} says is not read here: {words(inner)}')
    return said.groups()


def angle_end(plain, at):
    """Where the angle that opened before a place closes."""
    depth = 1
    while depth:
        depth += (plain[at] == '<') - (plain[at] == '>' and plain[at - 1] not in '-=')
        at += 1
    return at


def read_function(plain, text, at, path, file, exported, given=None):
    # what is generic stands before the parameters
    generic = re.compile(r'\s*<').match(plain, at)
    start = plain.index('(', angle_end(plain, generic.end()) if generic else at)
    at = closing(plain, start)
    parameters = plain[start + 1:at - 1]
    # the result's type goes up to the first clause, the body or a semicolon that is in no bracket
    begin = at
    while not re.match(r'[{;]|\b(?:requires|ensures)\b', plain[at:]):
        at = closing(plain, at) if plain[at] in '([' else at + 1
    result = plain[begin:at].partition('->')[2].strip()
    clauses = []
    while True:
        m = re.compile(r'\s*(requires|ensures)\b[^{;]*(?=\{)').match(plain, at)
        if not m:
            break
        end = closing(plain, m.end())
        clauses.append((m[1], text[m.end() + 1:end - 1]))
        at = end
    if given:
        names = {given[0]: parameters.partition(':')[0].strip(), given[1]: 'result'}
        clauses.append(('ensures', re.sub(r"(?<![\w.])\w+(?![\w'])", lambda word: names.get(word[0], word[0]), given[2])))
    m = re.compile(r'\s*([{;])').match(plain, at)
    if not m:
        raise ValueError(f'{file}: what follows the clauses of {path} is not read')
    end = closing(plain, m.start(1)) if m[1] == '{' else m.end()
    body = plain[m.start(1):end] if m[1] == '{' else None
    generics = parts(plain[generic.end():angle_end(plain, generic.end()) - 1] if generic else '', ',', angled=True)
    return Function(path, file, generics, parameters, result, clauses, body, exported), end


def unread(text):
    """What a source file has that these scripts would read past: a raw string, or memory lent to be written behind a name, in a struct or by a closure."""
    plain = blanked(text)
    for what, pattern in (
        ('a raw string', r'\bb?r#*"'),
        ('a name for a reference that writes', r'\btype\b[^;]*&[^;]*\bmut\b'),
        ('a struct that holds a reference that writes', r'\bstruct\b[^;{(]*(?:\{[^}]*|\([^)]*)&\s*(?:\'\w+\s+)?mut\b'),
        ('an invariant of a model', r'\bghost\s+invariant\b'),
        ('a closure that may write', r'\bFn(?:Mut|Once)\b'),
        ('a method on a reference', r'\(\s*&\s*(?:\'\w+\s+)?(?:mut\s+)?self\b'),
    ):
        if re.search(pattern, text if '"' in pattern else plain):
            yield what


def carried(root):
    """What the values of a struct carry by a ghost field: the struct's path, and the facts."""
    found = {}
    for file in sorted(Path(root).glob('crates/*/src/**/*.rt')):
        text = file.read_text()
        plain = blanked(text)
        steps = file.relative_to(Path(root) / 'crates').with_suffix('').parts
        for m in re.finditer(r'\bstruct\s+(\w+)[^{;(]*(?=\{)', plain):
            end = closing(plain, m.end())
            fields = [f for f in re.finditer(r'\bghost\s+\w+\s*:\s*(?=\{)', plain[:end]) if f.start() > m.start()]
            if fields:
                path = '::'.join([steps[0], *(s for s in steps[2:] if s not in ('lib', 'main', 'mod')), m[1]])
                found[path] = ' × '.join(short(text[f.end() + 1:closing(plain, f.end()) - 1]) for f in fields)
    return found


def rooms_below(root):
    """The crates in the order of crates.txt, each with those that it names. What stands after a name says how it is built."""
    lines = (line.partition(':') for line in (Path(root) / 'crates.txt').read_text().split('\n') if line.strip() and not line.startswith('#'))
    return {room.split()[0]: below.split() for room, _, below in lines}


def rooms(root):
    return list(rooms_below(root))


def functions_of(root):
    """All functions under crates/*/src by their path, each with the functions that it calls."""
    root = Path(root)
    found, files = {}, []
    for file in sorted(root.glob('crates/*/src/**/*.rt')):
        functions, uses = read_file(root, file)
        files.append((functions, uses))
        for f in functions:
            if f.path in found:
                raise ValueError(f'{f.path} stands twice')
            found[f.path] = f
    for functions, uses in files:
        for f in functions:
            f.calls = {path for call in calls_in(f.body or '') for path in named(call, f.path.split('::'), uses, found)} | turned(f, found)
    return found


def turned(f, found):
    """The functions that a `?` calls unseen: those that make the error which is handed back from another that the body names."""
    made = re.fullmatch(r'Result<.*\b(\w+)>', words(f.type), re.S)
    spoken = {word.lower() for word in re.findall(r'\w+', f.body or '')}
    if not made or '?' not in (f.body or ''):
        return set()
    return {path for path in found for source in re.findall(rf'::{made[1]}::from_(\w+)$', path) if source in spoken}


def calls_in(body):
    # after the two dots of a range stands a function, and no method
    return [(m[1], (m[2] + m[3]).split('::')) for m in re.finditer(r'((?<!\.)\.\s*)?((?:\w+\s*::\s*)*)(\w+)\s*\(', body)]


def named(call, path, uses, found):
    """The functions that a call may mean: a method by its name, else what the path says from where it stands."""
    dot, steps = call
    steps = [s.strip() for s in steps]
    if dot:
        return [p for p in found if re.search(rf'::[A-Z]\w*::{steps[-1]}$', p)]
    places = [[path[0]] + steps[1:]] if steps[0] == 'crate' else [path[:i] + steps for i in range(len(path) - 1, 0, -1)] + [steps]
    if steps[0] in uses:
        whole = uses[steps[0]] + steps[1:]
        places = [[path[0]] + whole[1:]] if whole[0] == 'crate' else [path[:i] + whole for i in range(len(path) - 1, 0, -1)] + [whole]
    for place in places:
        if '::'.join(place) in found:
            return ['::'.join(place)]
    # what a type's `impl` has may stand in another file than the type
    own = [step for step in path if re.match('[A-Z]', step)]
    of = own[-1:] if steps[-2:-1] == ['Self'] else steps[-2:-1]
    several = r'(?:_\w+)?' if steps[-1] == 'from' else ''
    return [p for p in found if of and re.match('[A-Z]', of[0]) and re.search(rf'::{of[0]}::{steps[-1]}{several}$', p)]


# The files of the crates whose constants are sizes: the limits and what is computed from them, the cells of a state; the cells of an unfinished
# event, the room for a line, and the program's buffers.
LIMITS = ('plan/src/limits.rt', 'state/src/cells.rt')
SIZES = (*LIMITS, 'events/src/unfinished.rt', 'lines/src/lib.rt', 'bench/src/main.rt')


def constants(root, files):
    """The constants of type usize in files of the crates, each by its name as the expression that stands there and its value."""
    expressions, values = {}, {}
    for file in files:
        plain = blanked((Path(root) / 'crates' / file).read_text())
        for name, expression in re.findall(r'\bconst\s+(\w+)\s*:\s*usize\s*=\s*([^;]+);', plain):
            if name in expressions:
                raise ValueError(f'{file}: the constant {name} stands in another file too')
            expressions[name] = words(expression)

    def value(name):
        if name not in expressions:
            raise ValueError(f'{name} is no constant of {", ".join(files)}')
        if name not in values:
            sum_of = ''
            for m in re.finditer(r'(\d[\d_]*)(?:usize)?\b|(?:\w+::)*([A-Z]\w*)|[-+*/()]|\s|(.)', expressions[name]):
                if m[3]:
                    raise ValueError(f'{name} = {expressions[name]} is not read here')
                sum_of += m[1] or (str(value(m[2])) if m[2] else m[0].replace('/', '//'))
            values[name] = eval(sum_of)
        return values[name]

    return {name: (expression, value(name)) for name, expression in expressions.items()}


def defined(root, file):
    """The numbers that a file of definitions holds by name, each an `abbrev`, in their order."""
    values = {}
    for name, expression in re.findall(r'^abbrev pub (\w+) : ℕ\n\1 = ([\w +*()]+)$', (Path(root) / 'crates' / file).read_text(), re.M):
        values[name] = eval(expression, {'__builtins__': {}}, values | HELD.get(file, lambda root: {})(root))
    return values


# what a file of definitions takes from another
HELD = {'state/specs/Cells.antt': lambda root: defined(root, 'plan/specs/Limits.antt')}


def sizes(root):
    """Every size that the sources hold, by the name of its constant."""
    return {name: value for name, (_, value) in constants(root, SIZES).items()}


def counts(root):
    """The limits themselves, by value with their names: the constants that are plain numbers. Numbers up to 8 are written innocently."""
    found = {}
    for name, (expression, value) in constants(root, LIMITS).items():
        if expression.isdigit() and value > 8:
            found[value] = f'{found[value]}, {name}' if value in found else name
    return found


def computed(root):
    """What is computed from the limits, by value with its name; and one byte more than the longest file. Left out is what is written innocently:
    numbers up to 32, the limits themselves, and how many values one byte has, or two."""
    found = {}
    for name, (expression, value) in constants(root, LIMITS).items():
        if not expression.isdigit():
            found.setdefault(value, name)
            if name == 'IMAGE':
                found.setdefault(value + 1, 'IMAGE + 1')
    innocent = {*range(33), *counts(root), 256, 65536}
    return {value: name for value, name in found.items() if value not in innocent}


def declares(text, name):
    """Whether the text of definitions declares the name, or the field or case after a dot in the block of the name before it."""
    whole, _, inner = name.partition('.')
    lead = r'(?:(?:abbrev|unfoldable|pub)\s+)*'
    lines = text.split('\n')
    head = re.compile(rf'\s*{lead}(?:(?:record|data)\s+{re.escape(whole)}[\s:]|{re.escape(whole)}(?:\s+\{{[^}}]*\}})*\s*:(?:\s|$))')
    for i, line in enumerate(lines):
        if whole not in line or not head.match(line):
            continue
        if not inner:
            return True
        indent = len(line) - len(line.lstrip())
        for deeper in lines[i + 1:]:
            if deeper.strip() and len(deeper) - len(deeper.lstrip()) <= indent:
                break
            if re.match(rf'\s*{lead}{re.escape(inner)}\s*:(?:\s|$)', deeper):
                return True
    return False


def rows(text):
    """The rows of the tables of a document, each as its cells, without the tables' heads."""
    found, table = [], False
    for line in text.split('\n'):
        if not line.startswith('|'):
            table = False
        elif re.fullmatch(r'[|\s:-]+', line):
            table = True
        elif table:
            found.append([c.strip().replace('\\|', '|') for c in re.split(r'(?<!\\)\|', line)[1:-1]])
    return found


def spans(cell):
    return re.findall(r'`([^`]+)`', cell)


# What a host in C sees of the box, for its header: every constant, the printed line of each number, every function and struct, each with the place
# in the sources that gives it.
ANSWERS, LINES, WRITING = 'events/specs/Answers.antt', 'lines/specs/Lines.antt', 'writing/specs/Writing.antt'
# the definitions of numbers by the cases of an enum: how the header's names begin, and where their values and the words of their lines are defined
NUMBERED = (
    ('FORM_', 'reading/specs/Reading.antt', 'form_number', None, None),
    ('REFUSED_', ANSWERS, 'refusal_number', 'refusal_values', 'refusal_words'),
    ('ACCIDENT_', ANSWERS, 'harm_number', 'harm_values', 'harm_words'),
    ('', ANSWERS, 'deed_number', 'deed_values', 'deed_words'),
)
# sizes by another name in the header, or by two; memory of such a size that is a struct there; and the program's own
RENAMED = {'IMAGE': ('LARGEST_PLAN', 'IMAGE'), 'TRACKS': ('TRACKS', 'HOLDS')}
OPAQUE = {'IMAGE': 'signalbox_image'}
FACED = tuple(file for file in SIZES if not file.startswith('bench/'))
SHOWN = {'no_train': 'NO_TRAIN', 'normal_lie': 'NORMAL', 'reverse_lie': 'REVERSE', 'red': 'RED'}
TYPES = {'u8': 'uint8_t', 'u64': 'uint64_t', 'usize': 'size_t', '': 'void'}


def capitals(name):
    """`EndsEarly` and `ends_early` as ENDS_EARLY."""
    return re.sub(r'(?<=[a-z])(?=[A-Z])', '_', name).upper()


def place_of(root, file, pattern):
    """Where a pattern is found in a file of the crates, as the match and `file:line`. It must be found."""
    text = (Path(root) / 'crates' / file).read_text()
    m = re.search(pattern, text, re.M)
    if not m:
        raise ValueError(f'crates/{file} has nothing like {pattern}')
    return m, f'crates/{file}:{text.count(chr(10), 0, m.start()) + 1}'


def equations(root, file, name):
    """What a definition by cases gives: for each case the other side, and its place."""
    lines = (Path(root) / 'crates' / file).read_text().split('\n')
    found = {}
    for at, line in enumerate(lines, 1):
        m = re.fullmatch(rf'{name} (?:(\w+)|\((\w+)(?: \w+)+\)) = (.*)', line)
        if m:
            found[m[1] or m[2]] = (m[3], f'crates/{file}:{at}')
    if not found:
        raise ValueError(f'crates/{file} has no equations of {name}')
    return found


def given_for(root, file, name, case):
    """What a definition by cases gives for one of them."""
    found = equations(root, file, name)
    if case not in found:
        raise ValueError(f'crates/{file} has no equation of {name} for {case}')
    return found[case][0]


def strings(text):
    return re.findall(r'"([^"]*)"', text)


def wording(words_, numbers):
    """A printed line: words and numbers in turn."""
    if len(words_) != len(numbers):
        raise ValueError(f'{words_} and {numbers} are no line')
    return ''.join(word + str(number) for word, number in zip(words_, numbers))


def face_codes(root):
    """Every number that a code may have, by the name of its constant in the header: number, printed line, place."""
    found = {}
    for lead, file, number, values, said in NUMBERED:
        for case, (value, place) in equations(root, file, number).items():
            if values:
                heads = {'REFUSED_': 'Refused', 'ACCIDENT_': 'Accident', '': 'Done'}
                said_ = strings(given_for(root, LINES, 'answer_words', heads[lead])) + strings(given_for(root, LINES, said, case))
                named_ = [f'<{name}>' for name in re.findall(r'\w+', given_for(root, file, values, case))]
                line = wording(said_, [int(value)] * bool(lead) + named_)
            else:
                line = wording(strings(place_of(root, LINES, r'^form_line form = .*')[0][0]), [int(value), '<offset>'])
            found[lead + capitals(case)] = (int(value), line, place)
    for case, (value, place) in equations(root, WRITING, 'unwritten_number').items():
        found[capitals(case)] = (int(value), None, place)
    written, place = place_of(root, WRITING, r'^written_number \(Ok size\) = (\d+)$')
    found['WRITTEN'] = (int(written[1]), None, place)
    accepted, place = place_of(root, 'codes/specs/Codes.antt', r'^verdict_code v = packed \(\((\d+) \+ rule_number v\)')
    found['ACCEPTED'] = (int(accepted[1]), *strings(given_for(root, LINES, 'verdict_line', 'Ok')), place)
    return found


def face_rule(root):
    """The line of a broken rule."""
    return wording(strings(given_for(root, LINES, 'verdict_line', 'Err')), ['<rule>', '<row>'])


def face_events(root):
    """The bytes of the four events by name, each with what its other bytes are."""
    file = 'events/specs/Events.antt'
    definition, place = place_of(root, file, r'^event_of kind first second =\n((?:    .*\n)+)')
    bytes_ = {case: int(byte) for byte, case in re.findall(r'eqb kind (\d+)\) \((\w+)', definition[1])}
    told = {name.capitalize(): (int(byte), f'{first}, {second}')
            for byte, name, first, second in re.findall(r'(\d+) (\w+) \((\w+), (\w+)\)', place_of(root, file, r'^-- 1 request .*')[0][0])}
    enum = place_of(root, 'events/src/lib.rt', r'^pub enum Event \{((?:.|\n)*?)^\}')[0][1]
    cases = [case for case in re.findall(r'^    ([A-Z]\w*)', enum, re.M) if case != 'Unknown']
    if sorted(cases) != sorted(bytes_) or {case: told[case][0] for case in told} != bytes_:
        raise ValueError(f'crates/{file}: the bytes of events are {bytes_}, in words {told}, and the events are {cases}')
    return {capitals(case): (bytes_[case], told[case][1], place) for case in bytes_}


def face_numbers(root):
    """Every constant of the header by its name: its number, what its comment must begin with or None, and its place in the sources."""
    found = {}
    for name, (_, value) in constants(root, FACED).items():
        place = next(place_of(root, file, rf'\bconst {name}\b')[1] for file in FACED if re.search(rf'\bconst {name}\b', (Path(root) / 'crates' / file).read_text()))
        for other in RENAMED.get(name, (name,)):
            found[other] = (value, None, place)
    for name, value in defined(root, 'state/specs/State.antt').items():
        found[SHOWN.get(name, capitals(name))] = (value, None, place_of(root, 'state/specs/State.antt', rf'^{name} = ')[1])
    size, place = place_of(root, 'events/src/lib.rt', r'\bimpl From<\[u8; (\d+)\]> for Event\b')
    found['EVENT'] = (int(size[1]), None, place)
    rules, place = place_of(root, 'rules/specs/Verdict.antt', r'^rules p =\n((?:    .*\n)+)')
    found['RULES'] = (len(re.findall(r'\bover\b', rules[1])), None, place)
    for name, entry in [*face_events(root).items(), *face_codes(root).items()]:
        if name in found:
            raise ValueError(f'{name} is two numbers: {found[name]} and {entry}')
        found[name] = entry
    return found


def c_type(type_):
    if type_ not in TYPES:
        raise ValueError(f"the type '{type_}' at the public face is not read here")
    return TYPES[type_]


def c_parameters(parameter):
    """A parameter as those of C that it passes as: a slice as a pointer and a length, a room where it is to be written; an array as a pointer, to a struct
    where its size has one."""
    m = re.fullmatch(r'(\w+)\s*:\s*&\s*(mut\s+)?\[\s*(\w+)\s*(?:;\s*(\w+)\s*)?\]', parameter)
    if not m:
        raise ValueError(f"the parameter '{words(parameter)}' is not read here")
    name, written, type_, length = m.groups()
    lead = '' if written else 'const '
    if length in OPAQUE:
        return [f'{lead}{OPAQUE[length]} *{name}']
    if length:
        return [f'{lead}{c_type(type_)} {name}[SIGNALBOX_{RENAMED.get(length, (length,))[-1]}]']
    return [f'{lead}{c_type(type_)} *{name}', 'size_t room' if written else f'size_t {name}_length']


def struct_of(root, name):
    """The fields of a struct that is laid out as C does it, wherever the crates declare it, and its place."""
    pattern = rf'^(?:#\[.*\]\n)*#\[repr\(C\)\]\n(?:#\[.*\]\n)*pub struct {name} \{{([^}}]*)\}}'
    for file in sorted(root.glob('crates/*/src/**/*.rt')):
        if re.search(pattern, file.read_text(), re.M):
            fields, where = place_of(root, file.relative_to(root / 'crates').as_posix(), pattern)
            return fields[1], where
    raise ValueError(f'no struct {name} is declared by the crates as C has it')


def face_functions(root):
    """The exported functions as they are declared in C, by name, each with its place; and the structs: what a call hands back, the image, and the
    state, which is all that the fresh state is lent."""
    root, functions, structs = Path(root), {}, {}
    for file in sorted(root.glob('crates/*/src/**/*.rt')):
        text = file.read_text()
        if not re.search(r'\bextern\b', blanked(text)):
            continue
        inner = file.relative_to(root / 'crates').as_posix()
        for f in read_file(root, file)[0]:
            name = f.path.split('::')[-1]
            if not re.search(rf'#\[unsafe\(no_mangle\)\]\s*pub extern "C" fn {name}\b', text):
                continue
            place = place_of(root, inner, rf'\bfn {name}\b')[1]
            if name in functions:
                raise ValueError(f'{name} is exported at {functions[name][-1]} and at {place}')
            result = TYPES.get(f.type)
            if result is None:
                result = 'signalbox_' + f.type.lower()
                fields, where = struct_of(root, f.type)
                structs[result] = ([f'{c_type(type_)} {field}' for field, type_ in re.findall(r'pub (\w+): (\w+),', fields)], where)
            parameters = [text_ for parameter in f.parameters for text_ in c_parameters(words(parameter))]
            functions[name] = (result, parameters, place)
            for type_, length in re.findall(r'\[\s*(\w+)\s*;\s*(\w+)\s*\]', ' '.join(f.parameters)):
                if length in OPAQUE:
                    where = place_of(root, 'plan/src/limits.rt', rf'\bconst {length}\b')[1]
                    structs[OPAQUE[length]] = ([f'{c_type(type_)} bytes[SIGNALBOX_{RENAMED.get(length, (length,))[-1]}]'], where)
            if name == 'signalbox_fresh':
                structs['signalbox_state'] = (parameters, place)
    return functions, structs


# What docs/PLAN.md is held to: the numbers of the definitions, by the names that they have there; the bytes of a plan; the examples of a page.

def found_in(root, file, pattern):
    """What a pattern finds in a file of the crates, where it must find something."""
    m = re.search(pattern, (Path(root) / 'crates' / file).read_text(), re.M)
    if not m:
        raise ValueError(f'crates/{file} has nothing like {pattern}')
    return m[1]


def forms(root):
    """The forms by name, each with its number."""
    text = (Path(root) / 'crates/forms/specs/Forms.antt').read_text()
    return {name: int(number) for name, number in re.findall(r'^    (\w+) : \(at : ℕ\)(?:(?!^    \w+ :)[^-])*?→ Formed (\d+) at$', text, re.M)}


def counts_due(root):
    """The counts of the plan file by the name of what is counted, each with its least and its most, as the table of forms has them: those of the
    sections, and those of a route's lists."""
    blocks_of = (found_in(root, 'forms/specs/Forms.antt', rf'^{name}\b[^:\n]*=\n((?:.+\n)+)') for name in ('plan_file', 'route_row'))
    return [{name: (int(least), int(most)) for least, most, name in re.findall(r'\bcount(?:ed)? (\d+) (\d+).* λ (\w+)\.$', block, re.M)} for block in blocks_of]


def unused_numbers(root):
    """The kinds of track by name, each with how many of a track's numbers it leaves unused."""
    chain = found_in(root, 'plan/specs/Kinds.antt', r'^uses kind = (.*)$')
    used = {name: int(n) for name, n in re.findall(r'eqb kind (\w+)\) (\d+)', chain)}
    numbers, last = constants(root, LIMITS)['TRACK_SIZE'][1] - 1, int(re.search(r'(\d+)\)*$', chain)[1])
    return {name: numbers - used.get(name, last) for name in defined(root, 'plan/specs/Kinds.antt') if name != 'kinds'}


def plan_rules(root):
    """The plan rules by name in their order, each with its number and what its rows are."""
    text = (Path(root) / 'crates/rules/specs/Verdict.antt').read_text()
    listed = re.findall(r'over \(length p\.(\w+)\) \(\w+ p\) \((\w+) p\)', text)
    return {name: (number, re.sub(r's$', '', row.replace('ies', 'y'))) for number, (row, name) in enumerate(listed, 1)}


def events(root):
    """The events by name, each with its first byte; how many bytes an event has; what an unused one is."""
    file = 'events/specs/Events.antt'
    first = {name: int(byte) for byte, name in re.findall(r'\(eqb kind (\d+)\) \((\w+)', (Path(root) / 'crates' / file).read_text())}
    return first, found_in(root, file, r'^unfoldable pub event_of : (.*) → Event$').count('ℕ'), int(found_in(root, file, r'eqb second (\d+)'))


def answers(root):
    """The refusals and accidents by name, each with its number; and for each kind of event the numbers of its tests in their order."""
    text = (Path(root) / 'crates/events/specs/Answers.antt').read_text()
    numbers = {name: int(number) for name, number in re.findall(r'^(?:refusal|harm)_number \(?(\w+)[^=\n]*= (\d+)$', text, re.M)}
    meaning = (Path(root) / 'crates/events/specs/Meaning.antt').read_text()
    tables = re.findall(r'^  (\w+)_table [^:\n]*=\n((?:.+\n)+)', meaning, re.M)
    return numbers, {event: [numbers[name] for name in re.findall(r'(?:Refused|Accident) \(?(\w+)', table)] for event, table in tables if event != 'event'}


def line_shapes(root):
    """The lines that can be printed, each as a pattern."""
    text = (Path(root) / 'crates/lines/specs/Lines.antt').read_text()
    numbers, _ = answers(root)
    said = {name: re.findall(r'"([^"]*)"', rest) for name, rest in re.findall(r'^\w+_(?:words|line) \(?(\w+)[^=\n]*=(.*)$', text, re.M)}
    shapes = [''.join(said['Ok'])]
    for name, words_of in said.items():
        if name in numbers:
            harm = re.search(rf'^harm_words \(?{name}\b', text, re.M)
            shapes.append(f'{said["Accident" if harm else "Refused"][0]}{numbers[name]}' + ''.join(word + r'\d+' for word in words_of))
        elif words_of and name not in ('Ok', 'Accident', 'Refused'):
            shapes.append(''.join(word + r'\d+' for word in words_of))
    return shapes


def document_numbers(root):
    """The numbers that the definitions give to what they name; and beside these what is made of them, and the words that go with them."""
    rules, (first, size, unused), (numbers, tests), (sections, lists) = plan_rules(root), events(root), answers(root), counts_due(root)
    limits = {name: value for name, (plain, value) in constants(root, ('plan/src/limits.rt',)).items() if plain.isdigit() and not name.endswith('_AT')}
    named = {**limits, **defined(root, 'plan/specs/Kinds.antt'), **forms(root), **{name: number for name, (number, _) in rules.items()}, **first, **numbers}
    return named, {
        'IMAGE': sizes(root)['IMAGE'], 'BYTE': 255, 'RULES': len(rules), 'EVENT': size, 'UNUSED': unused, 'SECTIONS': len(sections), 'LISTS': len(lists),
        'no_train': defined(root, 'state/specs/State.antt')['no_train'],
        'least': {name: least for name, (least, _) in {**lists, **sections}.items()},
        'row': {name: row for name, (_, row) in rules.items()},
        'order': {name: ', '.join(map(str, order)) for name, order in tests.items()},
        'unused': {kind: ', '.join(n * [str(unused)]) for kind, n in unused_numbers(root).items()},
        'deeds': re.findall(r'^deed_words \(\w+[^=\n]*= "(\w+) "', (Path(root) / 'crates/lines/specs/Lines.antt').read_text(), re.M),
    }


def plan_rows(root, file):
    """The bytes of a plan row after row, each with its offset and what it says, numbers in the order of the bytes; and where the row of a track,
    signal, route or entry starts, by its name."""
    kinds = defined(root, 'plan/specs/Kinds.antt')
    says = {kinds['plain_kind']: 'plain, leads to track {1}', kinds['facing_kind']: 'a facing point; its normal way out is track {1}, its reverse way out track {2}',
            kinds['trailing_kind']: 'a trailing point, leads to track {1}; its normal leg is track {2}, its reverse leg track {3}', kinds['exit_kind']: 'an exit'}
    found, starts, at = [], {}, 0

    def take(n, text):
        nonlocal at
        row = file[at:at + n]
        if len(row) < n:
            raise ValueError(f'the plan ends at {len(file)}, and more is due')
        found.append((at, list(row), text(row)))
        at += n
        return row

    def several(n, one):
        return f'{n} {one}' if n == 1 else f'{n} {one[:-1]}ies' if one.endswith('y') else f'{n} {one}s'

    def section(one, each):
        count = take(1, lambda row: several(row[0], one))[0]
        for i in range(count):
            starts[f'{one} {i}'] = at
            each(f'{one} {i}')

    def listed(name, of, size=1):
        say = lambda row: f'{name}: none' if not row[0] else f'{name}, {several(row[0], of)}: ' + ', '.join(
            f'{row[i]}' if size == 1 else f'on arrival at track {row[i]} point {row[i + 1]} is given back' for i in range(1, len(row), size))
        take(1 + size * (file[at] if at < len(file) else 0), say)

    def route(name):
        take(1, lambda row: f'{name}: starts at signal {row[0]}')
        for words_of in (('path', 'track'), ('clear', 'track'), ('normal', 'point'), ('reverse', 'point'), ('releases', 'pair', 2)):
            listed(*words_of)

    def entry(name):
        take(1, lambda row: f'{name}: at track {row[0]}')
        listed('clear', 'track')

    section('track', lambda name: take(4, lambda row: f'{name}: {says.get(row[0], "of no kind").format(*row)}'))
    section('signal', lambda name: take(1, lambda row: f'{name}: its home is track {row[0]}'))
    section('route', route)
    section('entry', entry)
    if at != len(file):
        raise ValueError(f'bytes are left over from {at} on')
    return found, starts


def merging(root, file):
    """What a drawing of two lines that merge has, line by line: what comes in at the normal leg; the point and where it leads; the reverse leg."""
    _, at = plan_rows(root, file)
    trailing = defined(root, 'plan/specs/Kinds.antt')['trailing_kind']
    point = next(name for name, i in at.items() if name.startswith('track') and file[i] == trailing)
    _, behind, *legs = file[at[point]:at[point] + 4]

    def here(one, track):
        return next((name for name, i in at.items() if name.startswith(one) and file[i] == track), f'no {one}')

    lines = [[here('entry', u), f'track {u}', here('signal', u), leg] for u, leg in zip(legs, ('normal leg', 'reverse leg'))]
    return [lines[0], [point, 'trailing point', f'track {behind}', 'exit'], lines[1]]


def blocks(text, sort):
    """The fenced blocks of a sort in a page, each with the number of its first line and its lines."""
    return [(text.count('\n', 0, m.start(1)) + 1, m[1].split('\n')[:-1]) for m in re.finditer(rf'^```{sort}\n(.*?)^```$', text, re.M | re.S)]


def examples(text):
    """The commands that a page shows, each with its line number and the lines that are to come."""
    found = []
    for first, lines in blocks(text, 'console'):
        for at, line in enumerate(lines, first):
            if line.startswith('$ '):
                found.append((at, line[2:], []))
            elif at == first:
                raise ValueError(f'{at}: the block does not begin with a command')
            else:
                found[-1][2].append(line)
    return found
