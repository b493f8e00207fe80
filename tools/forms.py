#!/usr/bin/env python3
"""Lists the places in src/ whose form has a better one in today's Rattle, by point of docs/DESIGN-PASS.md.

    tools/forms.py            how many places each point has
    tools/forms.py 3          the places of point 3, a line each
    tools/forms.py --at DIR   in another checkout
"""
import collections
import pathlib
import re
import sys

POINTS = {
    '1a': 'own enums of the shape of Option or Result: two or three variants, one or more of them bare',
    '1b': 'structs with a refusal\'s number beside their values',
    '1c': 'functions that hand back a small number as a code',
    '1d': 'numbers for kinds: parameters, fields and results called kind or number of a kind',
    '2': 'functions of four lines or more that differ only in names, types and constants (each but the first)',
    '3': 'loops that step an index by one by hand',
    '4': 'equality, order, copying, least and greatest written by hand',
    '5': 'requires that stand in three functions or more; rows of three parameters that do',
    '6': 'a buffer with the length filled beside it as parameters',
    '7': 'a bare enum or a number that says which step to run',
}

FN = re.compile(r'^( *)(?:pub(?:\(crate\))? )?(?:const )?(?:extern "C" )?fn ([a-z0-9_]+)', re.M)


def functions(text):
    """(name, line, indent, signature, clauses, body) of each function."""
    for m in FN.finditer(text):
        indent = m.group(1)
        end = text.find(f'\n{indent}}}\n', m.start())
        if end < 0:
            continue
        whole = text[m.start():end]
        cut = re.search(rf'(?:\n{indent}|\) |[>\w\]] )\{{\n', whole)
        if not cut:
            continue
        head, body = whole[:cut.start() + 1], whole[cut.end():]
        sig = re.split(r'\n\s+(?:requires|ensures)', head)[0]
        yield m.group(2), text.count('\n', 0, m.start()) + 1, indent, ' '.join(sig.split()), head[len(sig):], body


def params(sig):
    m = re.search(r'\((.*)\)', sig)
    return [p.strip() for p in re.split(r',(?![^<\[(]*[>\])])', m.group(1))] if m and m.group(1).strip() else []


def shape(sig, body):
    """The code with each name numbered by its first place, and each number as 0."""
    names = {}
    keep = {'let', 'mut', 'if', 'else', 'while', 'loop', 'for', 'in', 'return', 'match', 'as', 'true', 'false', 'fn', 'self', 'Some', 'None', 'Ok', 'Err', 'continue', 'break'}
    kinds = {'u8', 'u16', 'u32', 'u64', 'usize', 'bool'}
    out = []
    code = re.sub(r'//.*', '', sig[sig.find('('):] + body)
    for t in re.findall(r"b?'[^']*'|[A-Za-z_][A-Za-z0-9_]*|0x[0-9A-Fa-f_]+|\d[\d_]*\w*|[^\s]", code):
        if t in keep:
            out.append(t)
        elif t in kinds:
            out.append('T')
        elif re.match(r"\d|b?'", t):
            out.append('0')
        elif re.match(r'[A-Za-z_]', t):
            out.append(f'n{names.setdefault(t, len(names))}')
        else:
            out.append(t)
    return ' '.join(out)


def enums(text):
    for m in re.finditer(r'^(?:pub(?:\(crate\))? )?enum (\w+)[^{]*\{\n(.*?)\n\}', text, re.M | re.S):
        body = re.sub(r'//.*', '', m.group(2))
        vs = re.findall(r'^    ([A-Z]\w*)(.?)', body, re.M)
        yield m.group(1), text.count('\n', 0, m.start()) + 1, [(v, p in '({ ' and p not in ',' and p != '') for v, p in vs]


def collect(root):
    found = collections.defaultdict(list)
    shapes = collections.defaultdict(list)
    needs = collections.defaultdict(list)
    rows = collections.defaultdict(list)
    bare = {}
    files = sorted(root.glob('crates/*/src/**/*.rt'))
    for f in files:
        for name, line, vs in enums(f.read_text()):
            if vs and not any(d for _, d in vs):
                bare[name] = True
    for f in files:
        text = f.read_text()
        where = str(f.relative_to(root / 'crates')).replace('/src', '', 1)
        for name, line, vs in enums(text):
            bares = sum(1 for _, d in vs if not d)
            if 1 <= bares < len(vs) <= 3 and name != 'Refusal':
                found['1a'].append(f'{where}:{line} enum {name}')
        for m in re.finditer(r'((?:#\[[^\n]*\n)*)(?:pub )?struct (\w+)[^;{]*\{\n(.*?)\n\}', text, re.S):
            if re.search(r'\b(pub )?number: u8', m.group(3)) and 'repr(C)' not in m.group(1):
                found['1b'].append(f'{where}:{text.count(chr(10), 0, m.start(2)) + 1} struct {m.group(2)}')
            if re.search(r'\bkind: (u8|u32|usize)', m.group(3)):
                found['1d'].append(f'{where}:{text.count(chr(10), 0, m.start(2)) + 1} field kind of {m.group(2)}')
        for name, line, indent, sig, clauses, body in functions(text):
            at = f'{where}:{line} {name}'
            result = sig.split('->')[-1].strip() if '->' in sig else ''
            codes = re.findall(r'(?:return |^\s+)(\d{1,2});?$', body, re.M)
            if re.match(r'(u8|u32|usize)$', result) and len(set(codes)) >= 2 and len(codes) >= 3:
                found['1c'].append(at)
            elif re.match(r'u8$', result) and re.search(r'number|refusal|measure|scan|check', name):
                found['1c'].append(at)
            ps = params(sig)
            if any(re.match(r'kind: (u8|u32|usize)$', p) for p in ps) or re.match(r'kind(_of)?$', name) and re.match(r'u', result):
                found['1d'].append(at)
            if body.count('\n') >= 3:
                shapes[shape(sig, body)].append(at)
            for m in re.finditer(r'^( *)(while [^\n]*|loop) \{\n(.*?)\n\1\}', body, re.M | re.S):
                inner = m.group(3)
                for s in re.finditer(r'^\s*(\w+) [+-]= 1;', inner, re.M):
                    v = s.group(1)
                    if re.search(rf'\b{v}\b', m.group(2)) or re.search(rf'\[{v}\]|\[\w+ \+ {v}\]|\b{v} (==|<|<=) |(<|<=|==) {v}\b', inner):
                        found['3'].append(f'{at}: {m.group(2)}')
                        break
            if re.match(r'(equals?|compare\w*|least\w*|greatest|largest|wide\w*|min|max|same|copy\w*|put_(bytes|tags|run)|is_equal|clone)$', name):
                found['4'].append(at)
            if re.search(r'&mut \[\w+\], (n|len|count|filled): usize', sig):
                found['6'].append(at)
            for p in ps:
                k = re.match(r'\w+: &?(\w+)$', p)
                if k and k.group(1) in bare and re.search(rf'match {p.split(":")[0]}\b', body):
                    found['7'].append(f'{at} by {p}')
            if len(re.findall(r'if (\w+) == \d+ \{\n\s+return \w+\(', body)) >= 3:
                found['7'].append(f'{at} by a number')
            for c in re.findall(r'requires (?:\w+ )?\{(.*?)\}\n', clauses + '\n', re.S):
                needs[' '.join(c.split())].append(at)
            for i in range(len(ps) - 2):
                rows[', '.join(ps[i:i + 3])].append(at)
    for k, v in shapes.items():
        for w in v[1:]:
            found['2'].append(f'{w}  as  {v[0]}')
    for k, v in needs.items():
        if len(v) >= 3:
            found['5'].append(f'requires {k}: {len(v)} functions ({", ".join(sorted({w.split("/")[0] for w in v}))})')
    for k, v in rows.items():
        if len(v) >= 3 and 'self' not in k:
            found['5'].append(f'parameters {k}: {len(v)} functions ({", ".join(sorted({w.split("/")[0] for w in v}))})')
    return found


def main():
    args = sys.argv[1:]
    root = pathlib.Path(__file__).resolve().parent.parent
    if '--at' in args:
        i = args.index('--at')
        root = pathlib.Path(args[i + 1])
        del args[i:i + 2]
    found = collect(root)
    for p, what in POINTS.items():
        if args and not any(p.startswith(a) for a in args):
            continue
        print(f'{p}: {len(found[p])} {what}')
        if args:
            for w in found[p]:
                print(f'    {w}')


main()
