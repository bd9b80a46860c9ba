"""Lists places where the source could be written in a later form of the language, a section for each point of docs/DESIGN-PASS.md.

    python3 tools/design_places.py [POINT]        from the top of the repository

Each line is a candidate, found by its text alone; the page says which of them are places. The last line of a section counts them.
"""
import difflib
import glob
import re
import sys

FILES = sorted(glob.glob('crates/*/src/**/*.rt', recursive=True))


def lines(pattern):
    found = []
    for name in FILES:
        for number, text in enumerate(open(name), 1):
            if not text.lstrip().startswith('//') and re.search(pattern, text):
                found.append(f'{name}:{number}: {text.strip()}')
    return found


def functions():
    """Each function: file, name, parameters, clauses, body."""
    for name in FILES:
        text = re.sub(r'^\s*//.*\n', '', open(name).read(), flags=re.M)
        for match in re.finditer(r'\bfn (\w+)(<[^(]*>)?\(', text):
            at, depth = match.end(), 1
            while depth:
                depth += {'(': 1, ')': -1}.get(text[at], 0)
                at += 1
            parameters = text[match.end():at - 1]
            end = re.compile(r'\n\s*\{\n|;|\s\{\n').search(text, at)
            if not end:
                continue
            clauses = re.findall(r'(?:requires|ensures)\*? *\w* *\{.*\}', text[at:end.end()])
            if end.group() == ';':
                yield name, match.group(1), parameters, clauses, ''
                continue
            at, depth = end.end(), 1
            begin = at
            while depth and at < len(text):
                depth += {'{': 1, '}': -1}.get(text[at], 0)
                at += 1
            yield name, match.group(1), parameters, clauses, text[begin:at - 1]


def shape(body):
    """The body without its own names, literals and types."""
    words = re.findall(r'\w+|[^\w\s]', body)
    kept = {'if', 'else', 'for', 'in', 'while', 'match', 'let', 'return', 'mut', 'Some', 'None', 'Ok', 'Err', 'self', 'len'}
    return [w if w in kept or not re.match(r'\w', w) else '_' for w in words]


def point_1():
    return (lines(r'\benum [A-Z]') + lines(r'^\s*(pub )?\w+: bool,') + lines(r'\bnumber: u8|fn number\(')
            + lines(r'=> None,?$|else \{ return None|return None;'))


def point_2():
    bodies = [(f'{n}: {f}', shape(b)) for n, f, _, _, b in functions() if len(shape(b)) >= 12]
    found = []
    for i, (a, x) in enumerate(bodies):
        for b, y in bodies[i + 1:]:
            if 2 * min(len(x), len(y)) >= 1.7 * max(len(x), len(y)) and difflib.SequenceMatcher(None, x, y, False).ratio() > 0.9:
                found.append(f'{a}  ~  {b}')
    return found


def point_3():
    return lines(r'^\s*(for\b.*\bin\b.*\.\.|while\b|loop\b)|\benumerate\(\)|^\s*\w+(\.\w+)? [+-]= 1;')


def point_4():
    return (lines(r'\bimpl\b.*\b(PartialEq|Eq|PartialOrd|Ord|Clone|Copy|Debug)\b.*\bfor\b') + lines(r'\.index\(\) [=<>!]+ ')
            + lines(r'\bas (u8|u16|u32|u64|usize)\b') + lines(r'fn (\w+_text|equals|same|\w*named|read|byte|half)\b'))


def point_5():
    found = []
    seen = {}
    for name, f, parameters, clauses, _ in functions():
        parts = [p for p in re.sub(r'<[^<>]*>|\([^()]*\)', '', parameters).split(',') if p.strip()]
        if len(parts) >= 5:
            found.append(f'{name}: {f}: {len(parts)} parameters')
        if re.search(r'\blow: \w+,\s*high: ', parameters):
            found.append(f'{name}: {f}: low, high')
        for clause in clauses:
            fact = re.sub(r'\s+', ' ', re.sub(r'^(requires|ensures)\*? *\w* *', '', clause))
            fact = re.sub(r'\.(old|new|now|entry)\b', '', fact)
            seen.setdefault(fact, []).append(f'{name}: {f}')
    for fact, where in seen.items():
        if len(where) >= 3 and len(fact) > 20:
            found.append(f'{len(where)} functions: {fact[:90]}')
    return found


def point_6():
    return lines(r'\[\w+(\(\w*\)|::\w+\(\))?; *[0-9A-Z]') + lines(r'^\s*(pub )?\w+: (Vec<|\[)')


def point_7():
    return lines(r'KindName::\w+ =>') + lines(r'\bdyn\b|\bfn\(') + lines(r'if let Some\(n\) = ')


def point_8():
    found = []
    for name in sorted(glob.glob('crates/*/proofs/**/*.antt', recursive=True)):
        found.append(f'{name}: {sum(1 for _ in open(name))} lines')
    return found


if __name__ == '__main__':
    for point in sys.argv[1:] or [str(n) for n in range(1, 9)]:
        found = globals()[f'point_{point}']()
        print('\n'.join(found))
        print(f'point {point}: {len(found)}')
