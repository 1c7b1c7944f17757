# Names in definitions and proofs: what a file declares, what it takes from others by `use`, and which names its text has.
import re
from sources import blanked, closing


def stripped(text):
    """Definitions or proofs without comments and strings, every place where it was."""
    return re.sub(r'"[^"\n]*"|(?<!\S)--[^\n]*', lambda m: ' ' * len(m[0]), text)


def names_in(text):
    """The names of a text: what stands between spaces, brackets, commas and dots."""
    return re.findall(r'[^\s(){},;.«»]+', text)


def has(names, name):
    """Whether a text with these names uses a name: itself, or each sign of one that is written between its arguments, as ◌≡◌."""
    signs = [sign for sign in name.split('◌') if sign]
    return name in names or '◌' in name and all(sign in names for sign in signs)


class Use:
    """A name that a file takes from a module, by the name that it has in the file; or a whole module by another name."""

    def __init__(self, module, name, local, line, code=False):
        self.module, self.name, self.local, self.line, self.code = module, name, local, line, code


def taken(pattern, text):
    """The uses of definitions that a text has, and the text without them, every place where it was."""
    uses = []
    for m in re.finditer(pattern, text):
        line = text.count('\n', 0, m.start()) + 1
        if m[2] is None:
            uses.append(Use(m[1], None, m[3] or m[1].split('.')[-1], line))
        for item in (m[2] or '').split(','):
            name, _, other = item.strip().partition(' as ')
            if name:
                uses.append(Use(m[1], name.strip(), other.strip() or name.strip(), line))
    return uses, re.sub(pattern, lambda m: re.sub(r'[^\n]', ' ', m[0]), text)


def taken_by_code(text):
    """The uses of functions, constants and types that a source file has."""
    uses = []
    for m in re.finditer(r'(?m)^use\s+([^;]+);', text):
        line = text.count('\n', 0, m.start()) + 1
        head, _, group = m[1].partition('{')
        for item in group.rstrip('} \n').split(',') if group else ['']:
            whole, _, other = (head + item.strip()).strip().partition(' as ')
            last = whole.split('::')[-1]
            if last:
                uses.append(Use(whole, last, other.strip() or last, line, True))
    return uses


def parted(text):
    """The clauses and ghost members of a source file, and its code without them, every place where it was."""
    clauses, code, at = '', '', 0
    for m in re.finditer(r'\b(?:requires|ensures|ghost(?!\s+use\b))\b[^{;]*(?=\{)|(?<=\})\s*\bby\s*(?=\{)', text):
        end = closing(text, m.end())
        clauses += re.sub(r'[^\n]', ' ', text[at:m.end()]) + text[m.end():end]
        code += text[at:m.start()] + re.sub(r'[^\n]', ' ', text[m.start():end])
        at = end
    return clauses, code + text[at:]


class Source:
    """A file: what it takes, and its text beside that. Of a source file the text is its contracts; what runs stands apart, and so do its names."""

    def __init__(self, root, file):
        self.place = file.relative_to(root).as_posix()
        self.code = file.suffix == '.rt'
        text = file.read_text()
        self.text = blanked(text) if self.code else stripped(text)
        tactics = re.findall(r'#!?\[tactic\(((?:[^()]|\([^()]*\))*)\)\]', self.text) if self.code else ()
        self.told = [path.strip() for tactic in tactics for names in re.findall(r'\b(?:using|unfolding)\(([^()]*)\)', tactic) for path in names.split(',')]
        if self.code:
            self.uses, rest = taken(r'(?m)^[ ]*ghost use\s+([^;{]*?)(?:\.\{([^}]*)\}|\s+as\s+(\S+))?\s*;', self.text)
            self.uses += taken_by_code(rest)
            self.body, self.run = parted(rest)
            self.code_names = set(re.findall(r'\w+', re.sub(r'(?m)^use\s+[^;]+;', '', self.run)))
        else:
            self.uses, self.body = taken(r'(?m)^use\s+([^\s{]*?)(?:\.\{([^}]*)\}|\s+as\s+(\S+))?\s*$', self.text)
        self.names = set(names_in(self.body))

    def unused(self):
        """The uses that nothing in the file needs."""
        return [use for use in self.uses if not (use.local in self.code_names if use.code else has(self.names, use.local))]


class Declared:
    def __init__(self, name, indent, line, field, start, end):
        self.name, self.indent, self.line, self.field, self.start, self.end = name, indent, line, field, start, end


def declarations(text):
    """What a stripped text declares: the names marked `pub` and those at the left edge, each with the place of its own block, which goes up to the
    next declaration or module that is not deeper; a field of a record is marked as one."""
    pattern = re.compile(r'(?m)^([ ]*)(?:(module)\b|((?:(?:abbrev|unfoldable|pub)\s+)*)(?:(record|data)\s+([^\s:]+)|(?!mod\b|use\b|unfolding\b|infix)'
                         r'([^\s:(){}\[\]|]+)(?:[ ]+\{[^}]*\})*\s*:(?=\s)))')
    found, open_, record = [], [], None
    for m in pattern.finditer(text):
        indent = len(m[1])
        while open_ and open_[-1].indent >= indent:
            open_.pop().end = m.start()
        if record is not None and indent <= record:
            record = None
        if m[2]:
            continue
        field = record is not None
        if m[4] == 'record':
            record = indent
        if 'pub' in m[3].split() or indent == 0:
            found.append(Declared(m[5] or m[6], indent, text.count('\n', 0, m.start()) + 1, field, m.start(), len(text)))
            open_.append(found[-1])
    return found
