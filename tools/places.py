#!/usr/bin/env python3
# places.py [COMMIT]: the places of docs/DESIGN-PASS.md in crates/*/src of a commit, or of the checkout, point by point. signalbox_c, which is exports for
# C alone, is left out.
import collections
import re
import subprocess
import sys


def sources(commit):
    listed = ['git', 'ls-tree', '-r', '--name-only', commit] if commit else ['git', 'ls-files']
    for file in subprocess.run(listed, capture_output=True, text=True, check=True).stdout.split():
        if re.match(r'crates/(?!signalbox_c/)[^/]+/src/.*\.rt$', file):
            text = subprocess.run(['git', 'show', f'{commit}:{file}'], capture_output=True, text=True, check=True).stdout if commit else open(file).read()
            yield file.removeprefix('crates/'), re.sub(r'//[^\n]*', '', text)


def block(text, at):
    """What stands in the brackets that open at a place."""
    depth = 0
    for i in range(at, len(text)):
        depth += (text[i] in '({[') - (text[i] in ')}]')
        if not depth:
            return text[at + 1:i]
    return text[at + 1:]


def functions(text):
    """The functions of a file: name, parameters, what is required, body."""
    for m in re.finditer(r'\bfn (\w+)', text):
        # the parameters stand after what is generic; the clauses have a line each, and the body opens at the end of a line of its own or of the head
        depth, at = 0, m.end()
        while not (text[at] == '(' and depth == 0):
            depth += (text[at] == '<') - (text[at] == '>' and text[at - 1] not in '-=')
            at += 1
        parameters = block(text, at)
        after = at + len(parameters) + 2
        opens = re.compile(r'(?:[^\n{]*\n)?(?:\s+(?:requires|ensures)\b[^\n]*\n)*[^\n{]*\{\n').match(text, after)
        clauses = text[after:opens.end()] if opens else ''
        yield m[1], parameters, re.findall(r'requires[^{]*\{(.*)\}', clauses), block(text, opens.end() - 2) if opens else ''


def main(commit):
    found = collections.defaultdict(list)
    facts, together, shapes = collections.Counter(), collections.Counter(), collections.defaultdict(list)
    for file, text in sources(commit):
        for m in re.finditer(r'\benum (\w+) \{(.*?)\n\}', text, re.S):
            cases = re.findall(r'^    \w+ ?([({]?)', m[2], re.M)
            if len(cases) == 2 and any(cases):
                found['1 enums of two cases, of which one holds something'].append(f'{file} {m[1]}')
        for m in re.finditer(r'\bstruct (\w+)[^{;]* \{(.*?)\n\}', text, re.S):
            if re.search(r': bool,', m[2]):
                found['1 structs with a flag'].append(f'{file} {m[1]}')
        found['1 constants that are codes'] += [f'{file} {name}' for name in re.findall(r'const (\w+): (?:u8|u64) = \d', text)]
        found['1 functions that hand back a code'] += [f'{file} {name}' for name in re.findall(r'\bfn (\w+)\((?:[^{;\[]|\[[^\]]*\])*?\) -> u64\n', text)]
        found['3 loops by `while`'] += [f'{file} {test}' for test in re.findall(r'\n +while (.*) \{', text)]
        found['3 `for` over numbers'] += [f'{file} {head}' for head in re.findall(r"\n +(?:'\w+: )?for (\w+ in [^\n]*\.\.[^\n]*) \{", text)]
        found['4 a byte made a number by `wide`'] += [file] * len(re.findall(r'\bwide\(', text))
        found['4 casts by `as`'] += [f'{file} {cast}' for cast in re.findall(r'[^\n]*\bas (?:u8|u64|usize)\b[^\n]*', text)]
        found['7 a `match` on a number that says which step to run'] += [f'{file} {name}' for name, _, _, body in functions(text) if re.search(r'match rule \{', body)]
        for name, parameters, requires, body in functions(text):
            for fact in {part.strip(' ()') for clause in requires for part in clause.split(' × ')}:
                facts[fact] += 1
            names = [re.sub(r'\bmut ', '', p).partition(':')[0].strip() for p in parameters.split(',') if p.strip()]
            for i, one in enumerate(sorted(set(names))):
                for other in sorted(set(names))[i + 1:]:
                    together[f'{one}, {other}'] += 1
            if {'out', 'at'} <= set(names):
                found['6 memory to write into, with an offset beside'].append(f'{file} {name}')
            shape = re.sub(r'\d+', 'n', re.sub(r'\b(?!(?:if|else|return|while|for|in|let|mut|match|as|usize)\b)[A-Za-z_]\w*(?:::\w+)*', 'x', ' '.join(body.split())))
            if len(shape) > 60:
                shapes[shape].append(f'{file} {name}')
    found['2 functions of one shape, but for names and numbers'] = [', '.join(group) for group in shapes.values() if len(group) > 1]
    found['5 facts that three or more contracts require'] = [f'{times} times {fact}' for fact, times in facts.most_common() if times > 2]
    found['5 parameters that stand together ten times or more'] = [f'{times} times {pair}' for pair, times in together.most_common() if times > 9]
    for point in sorted(found):
        print(f'{point}: {len(found[point])}')
        for place in found[point]:
            print(f'    {place}')


main(sys.argv[1] if len(sys.argv) > 1 else None)
