#!/usr/bin/env python3
"""Brings the repository's own definitions and lemmas to today's spelling, once, after the kit's port.py.

    tools/port_names.py            respells the crates (sources, specs/, proofs/, must-fail/) and prints each name with its new one
    tools/port_names.py --list     prints the names alone

A name that is declared in specs/ or in a lemma file of proofs/ and has a dash is respelled: a fact or a type in upper camel case, all else in
snake case. A lemma keeps a dash where it joins names of definitions, as `size-cut`. Names that Rattle makes of a function's proof, and names of
std, stay. It stops where two names would fall together.
"""
import collections
import pathlib
import re
import sys

ROOT = pathlib.Path(__file__).resolve().parent.parent
NAME = r"[^\s(){}\[\],;.:@⌜⌝\"`]+"
DECLARED = re.compile(r'^ *(?P<marks>(?:(?:abbrev|unfoldable|pub|data|record|open|instance) )*)(?P<names>' + NAME + r'(?: ' + NAME + r')*?) : ', re.M)
HEADED = re.compile(r'^ *(?:pub )?(?:record|data) (?P<name>' + NAME + r') [({]', re.M)
INNER = re.compile(r'^  (?P<marks>(?:pub )?)(?P<names>' + NAME + r'(?: ' + NAME + r')*?) : ', re.M)
BLOCK = re.compile(r'^(?:pub )?(?:data|record) [^\n]*\n((?:  [^\n]*\n|\n(?=  ))*)', re.M)
STD = set('append length take drop set map replicate reverse get get_or zero suc add mul sub min max cond true false nat_eq nat_lt nat_le eqb ltb leb '
          'not and or mod div pow filter fold all any head tail cons nil some none'.split())


def lemma_files(crate):
    """specs/ whole, and of proofs/ what is no function's folder."""
    yield from sorted((crate / 'specs').rglob('*.antt')) if (crate / 'specs').is_dir() else []
    proofs = crate / 'proofs'
    if proofs.is_dir():
        for f in sorted(proofs.rglob('*.antt')):
            if f.name not in ('Proof.antt', 'Answers.antt', 'Invariants.antt'):
                yield f


def declared():
    """Each name, whether it is a definition, and the files that declare it."""
    found = collections.defaultdict(lambda: [False, set()])
    for crate in sorted((ROOT / 'crates').iterdir()):
        for f in lemma_files(crate):
            text = f.read_text()
            in_specs = 'specs' in f.relative_to(crate).parts
            for m in DECLARED.finditer(text):
                for n in m['names'].split():
                    if n not in ('use', 'pub', 'unfolding'):
                        entry = found[n]
                        entry[0] |= in_specs or bool(set(m['marks'].split()) & {'abbrev', 'unfoldable', 'data', 'record'})
                        entry[1].add(f)
            for m in HEADED.finditer(text):
                found[m['name']][0] = True
                found[m['name']][1].add(f)
            for b in BLOCK.finditer(text):
                for m in INNER.finditer(b.group(1)):
                    for n in m['names'].split():
                        found[n][0] = True
                        found[n][1].add(f)
    return found


def of_std():
    """Names that some file takes from outside the repository."""
    names = set()
    crates = {c.name for c in (ROOT / 'crates').iterdir()}
    for f in (ROOT / 'crates').rglob('*.[ar][nt]*'):
        for m in re.finditer(r'^(?:ghost |pub |unfoldable )*use ([^\s{;]+)\.\{([^}]*)\}', f.read_text(), re.M):
            parts = m.group(1).split('.')
            if not (parts[0] == 'Rattle' and len(parts) > 1 and parts[1] in crates):
                names |= {w.split(' as ')[-1].strip() for w in m.group(2).split(',')}
    return names


def camel(segments):
    return ''.join(s[:1].upper() + s[1:] for s in segments)


def joined(segments, known):
    """The segments as two or more names of definitions, or None."""
    def split(at):
        if at == len(segments):
            return []
        for end in range(len(segments), at, -1):
            if at == 0 and end == len(segments):
                continue
            word = '_'.join(segments[at:end])
            if word in known:
                rest = split(end)
                if rest is not None:
                    return [word] + rest
        return None
    return split(0)


def spelled(name, is_definition, known):
    segments = name.split('-')
    if '' in segments or any(not re.match(r"[A-Za-z0-9_'₀-₉]+$", s) for s in segments):
        return name
    if not is_definition:
        parts = joined(segments, known)
        if parts:
            return '-'.join(parts)
    if name[0].isupper():
        return camel(segments)
    return '_'.join(segments)


def renaming():
    found = declared()
    outside = of_std()
    known = set(STD)
    for n, (is_definition, _) in found.items():
        if is_definition:
            known.add(n.replace('-', '_'))
    names = {}
    for n, (is_definition, files) in sorted(found.items()):
        if '-' not in n:
            continue
        if n in outside:
            print(f'kept, since std has it too: {n}')
            continue
        new = spelled(n, is_definition, known)
        if new != n:
            names[n] = new
    back = collections.defaultdict(set)
    for n in found:
        back[names.get(n, n)].add(n)
    for new, olds in sorted(back.items()):
        if len(olds) > 1:
            print(f'fall together: {new}: {sorted(olds)}')
    return names


def respell(text, names):
    pattern = re.compile(r"(?<![A-Za-z0-9_'\-₀-₉])(" + '|'.join(sorted(map(re.escape, names), key=len, reverse=True)) + r")(?![A-Za-z0-9_'\-₀-₉])")
    return pattern.sub(lambda m: names[m.group(1)], text)


def main():
    names = renaming()
    for old, new in sorted(names.items()):
        print(f'{old} -> {new}')
    if '--list' in sys.argv:
        return
    changed = 0
    for f in sorted((ROOT / 'crates').rglob('*')):
        if f.is_file() and f.suffix in ('.antt', '.rt', '.edit') and 'out' not in f.relative_to(ROOT).parts:
            text = f.read_text()
            new = respell(text, names)
            if new != text:
                f.write_text(new)
                changed += 1
    print(f'{len(names)} names respelled in {changed} files')


if __name__ == '__main__':
    main()
