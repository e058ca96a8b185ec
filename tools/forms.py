#!/usr/bin/env python3
"""Counts the places where older forms of Rattle may stand, a list for each kind.

    python3 tools/forms.py [-v] [TREE]

TREE is a checkout, by default this one. With -v each place is printed. A place that is counted is a place to look at, not a fault:
docs/DESIGN-PASS.md says of each what it is. `twins` copies the sources under the ending .rs, and asks the command `duplicates`,
if the machine has it.
"""
import collections, glob, itertools, os, re, shutil, subprocess, sys, tempfile

verbose = '-v' in sys.argv
args = [a for a in sys.argv[1:] if a != '-v']
root = args[0] if args else os.path.join(os.path.dirname(os.path.abspath(__file__)), '..')
os.chdir(root)


def sources():
    return sorted(f for f in glob.glob('crates/*/src/**/*.rt', recursive=True) if '/out/' not in f)


def code(f):
    """The lines of a file without comments."""
    return [(n, l.rstrip('\n')) for n, l in enumerate(open(f, encoding='utf-8'), 1) if not l.strip().startswith('//')]


def places(pattern):
    r = re.compile(pattern)
    return [f'{f}:{n}: {l.strip()}' for f in sources() for n, l in code(f) if r.search(l)]


def show(name, found):
    print(f'{len(found):4}  {name}')
    if verbose:
        for p in found:
            print('        ' + p)


def functions():
    """Each function: crate, name, parameters as `name: type`."""
    for f in sources():
        text = '\n'.join(l for _, l in code(f))
        for m in re.finditer(r'\bfn (\w+)(?:<[^>]*>)?\(([^)]*)\)', text):
            ps = [p.strip() for p in m.group(2).replace('\n', ' ').split(',') if ':' in p]
            yield f.split('/')[1], m.group(1), [re.sub(r'^mut ', '', p) for p in ps]


def clauses():
    """Each clause of a contract: crate, requires or ensures, its fact without the moments of its values."""
    for f in sources():
        for _, l in code(f):
            m = re.match(r'\s*(requires|ensures)\s*(?:\w+ )?\{ (.*) \}\s*;?$', l)
            if m:
                yield f.split('/')[1], m.group(1), re.sub(r'\.(now|old|new|entry|exit)\b', '', m.group(2))


def repeated(kind, least):
    c = collections.Counter((k, x) for k, t, x in clauses() if t == kind)
    return [f'{k}: {n} times: {x}' for (k, x), n in sorted(c.items()) if n >= least]


def together():
    """Parameters that stand together in three or more signatures of one crate, the largest sets only."""
    out = []
    by = collections.defaultdict(list)
    for k, _, ps in functions():
        by[k].append(frozenset(ps))
    for k, sets in sorted(by.items()):
        c = collections.Counter(x for s in sets for n in (2, 3, 4, 5, 6) for x in itertools.combinations(sorted(s), n))
        c = {x: n for x, n in c.items() if n >= 3}
        for x, n in sorted(c.items()):
            if not any(set(x) < set(y) for y in c):
                out.append(f'{k}: {n} times: ' + ', '.join(x))
    return out


def enums():
    return sorted({m.group(1) for f in sources() for _, l in code(f) for m in [re.match(r'\s*(?:pub(?:\([a-z]+\))? )?enum (\w+)', l)] if m})


def conversions():
    """Functions with one parameter that is an enum of ours, and another enum of ours as their result."""
    es = '|'.join(enums())
    return places(r'fn \w+\((?:self|\w+: (?:Ending<\w+>|(?:' + es + r')\b)[^,)]*)\) -> (?:' + es + r')\b')


def zeros(f):
    out, last = [], ''
    for n, l in enumerate(open(f, encoding='utf-8'), 1):
        if l.strip().startswith('//'):
            last = l.strip()
        elif re.match(r'\s*(pub )?fn ', l) and re.search(r'\b0\b.*where no', last):
            out.append(f'{f}:{n}: {l.strip()}')
    return out


def twins():
    if not shutil.which('duplicates'):
        return ['(the command duplicates is not here)']
    with tempfile.TemporaryDirectory() as t:
        for f in sources():
            g = os.path.join(t, f[:-3] + '.rs')
            os.makedirs(os.path.dirname(g), exist_ok=True)
            shutil.copy(f, g)
        o = subprocess.run(['duplicates', '--repo', t, '--most', '200', '--min-lines', '5'], capture_output=True, text=True).stdout
    return [l for l in o.split('\n') if re.match(r'D\d', l) and 'boilerplate' not in l]


def proof_files():
    return [f for f in glob.glob('crates/*/proofs/**/*.antt', recursive=True) if '/out/' not in f]


print('1  own enums, flags with a value, numbers')
show('enums (each is read: which have the shape of Option or Result?)', places(r'^\s*(pub(\([a-z]+\))? )?enum '))
show('functions that tell a number for a kind or a refusal', places(r'fn number\(|-> u32$'))
show('fields that are a bool', places(r'^\s*(pub(\([a-z]+\))? )?\w+: bool,'))
show('functions with a parameter that is a bool', [f'{k}: {n}({", ".join(ps)})' for k, n, ps in functions() if any(p.endswith(': bool') for p in ps)])
show('functions whose comment says that 0 stands for none', [p for f in sources() for p in zeros(f)])
print('2  twins')
show('pairs of places that share five or more lines', twins())
print('3  loops')
show('for over a range of indices', places(r'for \w+ in [^/]*\.\.'))
show('while and loop', places(r'^\s*(while |loop \{)'))
show('an index or a count moved by hand', places(r'\b[\w.]+ (\+|-)= |\b([\w.]+) = (\2|at|offset)( [+-] |\.saturating_add)'))
print('4  equality, order, copying, conversion, printing')
show('types that derive Clone and Copy and no more', places(r'derive\(Clone, Copy\)'))
show('impls of Display, Error, From and TryFrom', places(r'^impl.* (fmt::Display|Error|From<.*>|TryFrom<.*>) for'))
show('functions that take an enum of ours and give another', conversions())
show('functions that give an enum of ours for a byte', [x for x in places(r'fn \w+\(\w+: u8\) -> ') if re.search(r'-> (Option<)?(' + '|'.join(enums()) + r')\b', x)])
print('5  facts and parameters')
show('facts required twice or more', repeated('requires', 2))
show('facts ensured three times or more', repeated('ensures', 3))
show('parameters that stand together in three or more signatures', together())
print('6  buffers, parallel arrays, indices')
show('a length or an index beside a buffer', places(r'^\s*(pub(\([a-z]+\))? )?(len|count|told): usize,'))
show('arrays in fields', places(r'^\s*(pub(\([a-z]+\))? )?\w+: \[.*; ?\d+\],'))
print('7  switches on a step')
show('a flag, a mode or a kind as a text that picks a step', places(r'\b(default: bool|mode: &str|kind: u\d+|which: u\d+)'))
show('tables of functions, boxed closures, dyn', places(r'\bdyn |Box<|\[fn\(|: fn\('))
print('8  proofs')
n = sum(len(open(f, encoding='utf-8').read().split('\n')) - 1 for f in proof_files())
a = sum(len(re.findall(r'^(?:abbrev )?pub [\w-]+ : goal\.', open(f, encoding='utf-8').read(), re.M)) for f in proof_files())
print(f'{n:5} lines in proofs/, {a} answers')
