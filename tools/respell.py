#!/usr/bin/env python3
"""Respells the definitions and lemmas of this repository, once, after the toolchain's own port:
words joined by dashes become snake case (`band-of` is `band_of`), and the crates that bear the name
of a library of the toolchain get names of their own. Run it at the top of the repository."""
import collections, glob, os, re, subprocess

CRATES = {'bytes': 'big_endian', 'logbook': 'frame_logs', 'logbook_tests': 'frame_logs_tests'}
TYPES = {'Used-so-far': 'UsedSoFar'}
TOKEN = re.compile(r"[^\s(){}\[\];,.«»\"⟦⟧λ]+")
DEFINED = re.compile(r"\s*(?:(?:abbrev|unfoldable|pub)\s+)*(?:record\s+|data\s+)?([^\s(){}:]+)\s*(?:[({].*)?:(?:\s|$)")


def sources(ending):
    return sorted(glob.glob('crates/*/**/*' + ending, recursive=True))


def defined_names():
    """Names with a dash that specs/ and proofs/ define; those of a function's goals are the checker's."""
    names = {}
    for path in sources('.antt'):
        goals = os.path.basename(path) in ('Answers.antt', 'Invariants.antt')
        for line in open(path, encoding='utf8'):
            found = DEFINED.match(line)
            if found and '-' in found.group(1) and not line.lstrip().startswith('--'):
                if not (goals and re.search(r':\s*goal\.', line)):
                    name = found.group(1)
                    names[name] = TYPES.get(name, name.replace('-', '_'))
    return names


def turned(text, comment, names):
    lines = []
    for line in text.split('\n'):
        code, mark, rest = line, '', ''
        at = line.find(comment)
        if at >= 0:
            code, mark, rest = line[:at], line[at:], ''
        code = TOKEN.sub(lambda m: names.get(m.group(0), m.group(0)), code)
        code = re.sub(r'«([a-z]\w*_\w*)»', r'\1', code)
        for old, new in CRATES.items():
            code = re.sub(r'\bRattle\.%s\.' % old, 'Rattle.%s.' % new, code)
            code = re.sub(r'\buse %s::' % old, 'use %s::' % new, code)
        lines.append(code + mark + rest)
    return '\n'.join(lines)


def main():
    names = defined_names()
    fallen = [n for n, k in collections.Counter(names.values()).items() if k > 1]
    if fallen:
        raise SystemExit('names fall together: ' + ' '.join(fallen))
    for ending, comment in (('.antt', '--'), ('.rt', '//')):
        for path in sources(ending):
            old = open(path, encoding='utf8').read()
            new = turned(old, comment, names)
            if new != old:
                open(path, 'w', encoding='utf8').write(new)
    text = open('crates.txt', encoding='utf8').read()
    for old, new in CRATES.items():
        lines = [l if l.startswith('#') else re.sub(r'\b%s\b' % old, new, l) for l in text.split('\n')]
        text = '\n'.join(lines)
        subprocess.run(['git', 'mv', 'crates/' + old, 'crates/' + new], check=True)
    open('crates.txt', 'w', encoding='utf8').write(text)
    print(len(names), 'names respelt')


main()
