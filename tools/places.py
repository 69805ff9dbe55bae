#!/usr/bin/env python3
"""Counts the places of docs/DESIGN-PASS.md in the sources: tools/places.py [COMMIT] [-v].

With a commit it counts there, else in the work tree; -v prints each place. A place is a line, or a function where
the point is about functions. What it prints is a list to read: it knows the words of the language and not what they mean.
"""
import collections
import difflib
import re
import subprocess
import sys

VERBOSE = '-v' in sys.argv
COMMIT = next((a for a in sys.argv[1:] if not a.startswith('-')), None)


def git(*words):
    return subprocess.run(['git', *words], check=True, capture_output=True, text=True).stdout


def files(pattern):
    listing = git('ls-tree', '-r', '--name-only', COMMIT) if COMMIT else git('ls-files')
    for name in listing.split('\n'):
        if re.fullmatch(pattern, name):
            yield name, (git('show', f'{COMMIT}:{name}') if COMMIT else open(name, encoding='utf-8').read())


SOURCES = dict(files(r'crates/[a-z_]+/src/.*\.rt'))


def lines(pattern, but=None):
    for name, text in SOURCES.items():
        for number, line in enumerate(text.split('\n'), 1):
            if re.search(pattern, line) and not (but and re.search(but, line)):
                yield f'{name}:{number}: {line.strip()}'


def functions():
    """Each function as (file, name, parameters, body)."""
    for name, text in SOURCES.items():
        for m in re.finditer(r'^( *)(?:pub(?:\(\w+\))? )?(?:const )?fn (\w+)', text, re.M):
            end = re.search(rf'^{m[1]}\}}|;$', text[m.end():], re.M)
            whole = text[m.start():m.end() + (end.end() if end else 0)]
            inner = whole[whole.find('(') + 1:]
            depth, stop = 1, 0
            for stop, c in enumerate(inner):
                depth += (c == '(') - (c == ')')
                if depth == 0:
                    break
            body = re.search(r'^ *\{\n(.*)', whole, re.S | re.M) or re.search(r'\{\n(.*)', whole, re.S)
            yield name, m[2], inner[:stop], body[1] if body else ''


def parameters(text):
    found = re.findall(r'(?:^|[,\n(] *)(?:mut )?(\w+): ([^,]+?)(?=,|\n|$)', text)
    return [f'{a}: {re.sub(r"[& ]|mut ", "", b)}' for a, b in found if a != 'self']


def plain(body):
    body = re.sub(r'//.*', '', body)
    body = re.sub(r'"[^"]*"|\b(0x)?[0-9][0-9a-f_]*\b|\b[A-Z]\w*\b', 'X', body)
    return re.findall(r'\w+|[^\s\w]', body)


def twins():
    """Pairs of functions whose bodies differ in types, constants and a word or two, and are not tiny."""
    some = [(f, n, plain(b)) for f, n, _, b in functions() if 'tests.rt' not in f]
    some = [(f, n, p) for f, n, p in some if len(p) >= 18]
    for i, (f, n, p) in enumerate(some):
        for g, m, q in some[i + 1:]:
            if abs(len(p) - len(q)) <= 6 and difflib.SequenceMatcher(None, p, q, False).ratio() >= 0.86:
                yield f'{f}: {n} ~ {g}: {m}'


def together():
    """Pairs of parameters that stand together in three functions of a crate or more."""
    seen = collections.defaultdict(set)
    for name, function, params, _ in functions():
        crate = name.split('/')[1]
        has = sorted(set(parameters(params)))
        for i, a in enumerate(has):
            for b in has[i + 1:]:
                seen[crate, a, b].add(f'{name}:{function}')
    for (crate, a, b), where in sorted(seen.items()):
        if len(where) >= 3:
            yield f'crates/{crate}/: ({a}) with ({b}) in {len(where)} functions'


def facts():
    """Orders and premises that stand in the clauses of three functions of a crate or more."""
    seen = collections.defaultdict(set)
    for name, text in SOURCES.items():
        for m in re.finditer(r'\bfn (\w+)[^{;]*?\n((?: +(?:requires|ensures)[^\n]*\n)+)', text):
            for fact in re.findall(r'[\w.]+(?: [a-z][\w.]*)? [≤<] [\w.]+(?: \^ \w+)?', m[2]):
                seen[name.split('/')[1], fact].add(f'{name}:{m[1]}')
            for fact in re.findall(r'requires(?: \w+)? \{ (\w[\w. ]*) \}|(\w+ [^{}→]*) →', m[2]):
                seen[name.split('/')[1], max(fact)].add(f'{name}:{m[1]}')
    for (crate, fact), where in sorted(seen.items()):
        if len(where) >= 3 and 'result' not in fact:
            yield f'crates/{crate}/: {fact} in {len(where)} functions'


def proofs():
    for name, text in files(r'crates/[a-z_]+/(proofs|specs)/.*\.antt'):
        if name.endswith('/Answers.antt'):
            for m in re.finditer(r'^(\w[\w-]*)(?: [^=\n]*)? =', text, re.M):
                yield f'{name}: {m[1]}'


KINDS = r'(None|Some\([\w() ]*\)|Ok\([\w()]*\)|Err\([\w]*\))'
POINTS = [
    ('1 enums of our own, to read', lambda: lines(r'^ *(pub(\(\w+\))? )?enum ')),
    ('1 arms that hand on an Option or a Result', lambda: lines(rf'^ +{KINDS} => (return )?(None|Some|Ok|Err|\{{\}})')),
    ('1 arms and constants that are numbers for kinds', lambda: lines(
        r'^ +(0x[0-9a-f]+|[0-9]+) =>|(beacon_head|put_command)\(.*[0-9]|^const [A-Z]+: u8 = 0x')),
    ('1 flags', lambda: lines(r'^ +(pub(\(\w+\))? )?\w+: bool,$')),
    ('2 functions whose bodies are alike', twins),
    ('3 loops over a range of numbers', lambda: lines(r'^ *for .* in .*\.\.', r'\[.*\.\.')),
    ('3 loops that count or search by hand', lambda: lines(r'^ *(while|loop)\b|\.enumerate\(\)')),
    ('4 arms that answer a truth or a text', lambda: lines(r'=> (true|false|"[^"]*"),?$')),
    ('4 arms that read a word', lambda: lines(r'^ +(\| )?"[\w-]+" =>')),
    ('4 casts', lambda: lines(r' as (u8|u16|u32|u64|usize|i32)\b')),
    ('4 functions that turn a value into a number, a name or a text', lambda: lines(
        r'\bfn (code|number|name|timeslots|\w+_name|show\w*|tell\w*|write_(reading|panel|octet))\b')),
    ('5 parameters that stand together in three functions or more', together),
    ('5 facts in the clauses of three functions or more', facts),
    ('6 arrays of a fixed length', lambda: lines(r'\[[\w:()., ]+; *\w+\]', r'^ *(//|assert)')),
    ('6 counts beside them', lambda: lines(r'^ +(pub )?count: \w+,$|\bfirst\(&')),
    ('7 matches that choose between kinds', lambda: lines(r'match self \{$')),
    ('8 answers', proofs),
]

for title, places in POINTS:
    found = list(places())
    crates = collections.Counter(re.search(r'crates/(\w+)/', p)[1] for p in found)
    print(f'{title}: {len(found)}  ' + ' '.join(f'{c} {n}' for c, n in sorted(crates.items())))
    if VERBOSE:
        for place in found:
            print('   ', place)
