#!/usr/bin/env python3
"""Lists what two checkouts promise differently: functions, ghost members and invariants, definitions.

    python3 tools/changes.py OLD NEW

Functions are those that are public, and those of traits and of impls of traits, each with its clauses; a name in specs/ is a definition. `-` is what
OLD has, `+` what NEW has; what both have word for word is left out. Of the lemmas and helper definitions in proofs/ those are shown that stand in both
and say something else, without the parameters of their modules. With --gone the names in proofs/ that a crate of NEW has no more are listed, and nothing else.
"""
import glob, os, re, sys


def sources(root, pattern):
    found = [f for f in glob.glob(f'{root}/crates/*/{pattern}', recursive=True) if '/out/' not in f]
    return {f: open(f, encoding='utf-8').read().split('\n') for f in sorted(found)}


def crate(root, f):
    return os.path.relpath(f, f'{root}/crates').split('/')[0]


def brackets(text):
    """How many brackets stay open, those of `->`, `=>` and `<` left out."""
    return sum(text.count(c) for c in '([{') - sum(text.count(c) for c in ')]}')


def signature(lines, i):
    """A signature that may run over lines, with its clauses behind it, and the line behind both."""
    head = lines[i].strip()
    while brackets(head.rstrip('{').rstrip()) > 0 or head.endswith(','):
        i += 1
        head += ' ' + lines[i].strip()
    head = re.sub(r'\s*(where .*)?[{;]?$', '', re.sub(r'\(\s+', '(', re.sub(r',\s*\)', ')', head)))
    clauses = []
    i += 1
    while i < len(lines) and re.match(r'\s*(requires|ensures|where)\b', lines[i]):
        clauses.append(re.sub(r'\s*;$', '', lines[i].strip()))
        i += 1
    return head, clauses, i


def block(line):
    """The name that a line gives to the block which it opens."""
    m = re.match(r'(?:pub(?:\([a-z]+\))? )?(?:unsafe )?(impl|trait|struct|enum)\b(?:<(?:[^<>]|<[^<>]*>)*>)? ?(.*?)(?: where.*)?(?: \{.*)?$', line)
    return (m.group(1), re.sub(r"<'\w+>", '', m.group(2).rstrip(' {'))) if m else None


def promises(root):
    """Functions and ghost items by crate, block and name."""
    functions, ghosts = {}, {}
    for f, lines in sources(root, 'src/**/*.rt').items():
        where, trait = '', False
        i = 0
        while i < len(lines):
            line = lines[i]
            b = block(line) if line[:1].strip() else None
            if b:
                where, trait = b[1], b[0] == 'trait' or ' for ' in b[1]
            elif line == '}':
                where, trait = '', False
            m = re.match(r'\s*ghost (\w+)( ?[:=].*)$', line)
            if m:
                ghosts[f'{crate(root, f)}: {where}: {m.group(1)}'] = [re.sub(r'[,;]$', '', m.group(2).strip())]
            m = re.match(r'\s*(pub )?(?:const )?fn (\w+)', line)
            if m:
                head, clauses, i = signature(lines, i)
                if m.group(1) or trait:
                    name = f'{where}::{m.group(2)}' if where else m.group(2)
                    functions[f'{crate(root, f)}: {name}'] = [head] + ['    ' + c for c in clauses]
                continue
            i += 1
    return functions, ghosts


def definitions(root):
    out = {}
    for f, lines in sources(root, 'specs/**/*.antt').items():
        at = os.path.relpath(f, f'{root}/crates')[:-5]
        name = None
        for line in lines:
            m = re.match(r'(?:abbrev |unfoldable )?pub (?:record )?([^\s({]+)|(?:abbrev |unfoldable )([^\s({]+)|([a-z_]\w*) :', line)
            if m and ' : ' in line and not line.startswith(('pub mod', 'use ')):
                name = f'{at}: {m.group(1) or m.group(2) or m.group(3)}'
                out[name] = [line]
            elif name and line.strip() and not line.startswith(('--', 'use ', 'pub mod', 'mod ')):
                out[name].append(line)
            else:
                name = None
    return out


def lemmas(root):
    """What stands in proofs/ beside the answers and what a `where` holds: by crate and name the file and the statement, which may run over lines."""
    out = {}
    for f, lines in sources(root, 'proofs/**/*.antt').items():
        local = None
        for i, line in enumerate(lines):
            depth = len(line) - len(line.lstrip())
            if line.strip() == 'where':
                local = depth
            elif line.strip() and local is not None and depth <= local:
                local = None
            if local is not None:
                continue
            m = re.match(r'( *)(?:abbrev |unfoldable |record |pub )*([^\s(){}:=]+)((?: (?:\{[^}]*\}|\([^)]*\)))*) : (?!goal\.)', line)
            if not m or line.lstrip().startswith(('--', 'let ', 'use ', 'λ', '(', 'elim', 'of_')) or line.rstrip().endswith(';') or '↦' in m.group(0):
                continue
            indent, name = m.group(1), m.group(2)
            body = [line.strip()]
            for more in lines[i + 1:]:
                if not more.startswith(indent + '    ') or re.match(indent + r'(unfolding|' + re.escape(name) + r')\b', more):
                    break
                body.append(more.strip())
            after = lines[i + len(body)] if i + len(body) < len(lines) else ''
            if re.match(indent + r'(unfolding |' + re.escape(name) + r'( |$))', after) or ' where' in line:
                said = re.sub(r'^((pub|abbrev|unfoldable) )+', '', ' '.join(body))
                out.setdefault((crate(root, f), name), []).append((os.path.relpath(f, f'{root}/crates'), said))
    return out


def show_lemmas(old, new):
    print('### Lemmas that keep their names\n\n```')
    for k in sorted(set(old) & set(new)):
        a, b = ({x[1] for x in side[k]} for side in (old, new))
        if a - b:
            print(f'{old[k][0][0][:-5]}: {k[1]}')
            for sign, side in (('-', a - b), ('+', b - a)):
                for said in sorted(side):
                    print(f'  {sign} {said}')
    print('```')


def show(title, old, new):
    print(f'### {title}\n\n```')
    for k in sorted(set(old) | set(new)):
        if old.get(k) != new.get(k):
            print(k)
            for sign, side in (('-', old), ('+', new)):
                for line in side.get(k, []):
                    print(f'  {sign} {line}')
    print('```\n')


gone = '--gone' in sys.argv
old, new = [a for a in sys.argv[1:] if a != '--gone']
if gone:
    left = lemmas(new)
    for k, found in sorted(lemmas(old).items()):
        if k not in left:
            print(f'{found[0][0]}: {k[1]}')
    sys.exit()
(f, g), (h, k) = promises(old), promises(new)
show('Functions', f, h)
show('Ghost fields, ghost members and invariants', g, k)
show('Definitions', definitions(old), definitions(new))
show_lemmas(lemmas(old), lemmas(new))
