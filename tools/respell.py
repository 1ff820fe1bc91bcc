#!/usr/bin/env python3
"""Brings the project's own names to the spelling of today's Rattle: words in snake case, types and modules in camel case.

usage: tools/respell.py [--map FILE]     at the top of the checkout, once, on what the kit's port.py wrote

Definitions, lemmas, constructors and local names such as `starredLeaf` become `starred_leaf`. In the name of a lemma a dash
stays between two names of definitions or of plain list functions, and joins no plain word: `merge-covers-first` becomes
`merge-covers_first`. Rewritten are specs/ and proofs/, the ghost lines and clauses of src/, the edits of must-fail/, and the
names between backticks in comments, README.md and docs/. Functions of src/ keep their names: they are in snake case already.
--map writes each old name and its new one, a line each.
"""
import argparse
import glob
import re

SEPARATE = r"""[^\s(){}.,;:λ"'`=@|]+(?:'[^\s(){}.,;:λ"'`=@|]*)*"""
TOKEN = re.compile(SEPARATE)
DECLARED = re.compile(r"\s*(?:(?:abbrev|unfoldable|data|record|ruleset|pub) )*([^\s:{}()=.,;]+)(?: [^=:]*(?:\([^)]*\)[^=:]*)*)? (?::|where|=)")
# functions of the library that lemmas are named for
LIBRARY = {'length', 'append', 'drop', 'take', 'map', 'set', 'sets', 'get_or', 'eqb', 'cons', 'sum', 'add', 'mul', 'concat',
           'flat_map', 'div'}
# what port.py wrote of `getD-map`; the library has a `get_or-map`
WRITTEN = {'get_d_map': 'get_or-map_there'}
# words that join others and name nothing by themselves, whatever a field or a constructor is called
PLAIN = {'a', 'all', 'an', 'and', 'any', 'are', 'as', 'at', 'both', 'by', 'each', 'few', 'for', 'from', 'in', 'is', 'later', 'more',
         'no', 'none', 'not', 'of', 'off', 'on', 'one', 'or', 'other', 'over', 'so', 'than', 'the', 'then', 'there', 'to',
         'told', 'too', 'was', 'with'}


def snake(word):
    """`starredLeaf` as `starred_leaf`; what begins with a capital letter is a type and stays."""
    if not word or word[0].isupper():
        return word
    word = word.replace('getD', 'get_or')
    return re.sub(r"(?<=[a-z0-9])(?=[A-Z])|(?<=[A-Z])(?=[A-Z][a-z])", '_', word).lower()


def antt_files():
    return sorted(p for kind in ('specs', 'proofs') for p in glob.glob(f'crates/*/{kind}/**/*.antt', recursive=True) if '/out/' not in p)


def sources():
    return sorted(glob.glob('crates/*/src/**/*.rt', recursive=True))


def uncommented(text):
    return re.sub(r'(?m)(^|(?<=\s))--.*$', '', text)


def declared(paths):
    found = set()
    for path in paths:
        for line in uncommented(open(path).read()).split('\n'):
            said = DECLARED.match(line)
            if said:
                found.add(said.group(1))
            elif re.match(r'\s+(?:pub )?[^\s:]+(?:, )?', line) and ' : ' in line:
                found.add(line.split()[0])
    return found


def joined(name, words):
    """The name of a lemma: a dash between two names, an underscore before or after a plain word. Parts that together are a
    name, as in `read-line-sharp`, are one: the longest such, from the left."""
    parts, units = [snake(part) for part in name.split('-')], []
    while parts:
        most = max([n for n in range(1, len(parts) + 1) if '_'.join(parts[:n]) in words], default=1)
        units.append('_'.join(parts[:most]))
        parts = parts[most:]
    out = units[0]
    for before, after in zip(units, units[1:]):
        both = all((unit in words and unit not in PLAIN) or unit[:1].isupper() for unit in (before, after))
        out += ('-' if both else '_') + after
    return out


def of_the_library(paths):
    """What is imported from modules that are not this project's."""
    crates = {line.split(':')[0] for line in open('crates.txt') if ':' in line and line[0] != '#'}
    found = set()
    for path in paths:
        for module, names in re.findall(r'(?m)^(?:ghost )?use ([^\s;{]+?)\.\{([^}]*)\}', open(path).read()):
            if module.split('.')[0] != 'Rattle' or module.split('.')[1] not in crates:
                found |= {n.split(' as ')[0].strip() for n in names.split(',')}
    return found


def renamings():
    paths = antt_files()
    own = declared(p for p in paths if '/specs/' in p)
    tokens = {t for p in paths for t in TOKEN.findall(uncommented(open(p).read()))}
    words = {snake(n) for n in own if '-' not in n and not n[0].isupper()} | LIBRARY
    words |= set(re.findall(r'(?m)^\s*(?:pub )?fn (\w+)', '\n'.join(open(p).read() for p in sources())))
    theirs = of_the_library(paths)
    new = {t: snake(t) for t in tokens if re.fullmatch(r"[a-z][\w']*", t) and snake(t) != t and t not in theirs}
    new |= {n: joined(n, words) for n in own if '-' in n and n[:1].islower() and joined(n, words) != n and n not in theirs}
    new |= WRITTEN
    taken = {}
    for token in sorted(tokens):
        taken.setdefault(new.get(token, token), []).append(token)
    for name, olds in sorted(taken.items()):
        for old in olds if len(olds) > 1 else []:
            if '-' in old and old not in theirs:  # a lemma that would have its function's name
                new[old] = name + '_lem'
    return new


def alike_in_a_file(new):
    """Names of lemmas that are in snake case already and would fall together with another of their file: they get `_lem`."""
    found = {}
    for path in antt_files():
        if '/specs/' in path:
            tokens = set(TOKEN.findall(uncommented(open(path).read())))
            found |= {t: t + '_lem' for t in tokens for other in tokens if t != other and t not in new and new.get(other) == t}
    return found


def respelled(text, new):
    return TOKEN.sub(lambda m: new.get(m.group(0), m.group(0)), text)


def between_backticks(text, new):
    return re.sub(r'`([^`\n]+)`', lambda m: '`' + respelled(m.group(1), new) + '`', text)


def antt(text, new):
    out = []
    for line in text.split('\n'):
        code, mark, comment = re.match(r'((?:(?!(?:^|(?<=\s))--(?:\s|-|$)).)*)(-*)(.*)$', line).groups()
        out.append(respelled(code, new) + mark + between_backticks(comment, new))
    return '\n'.join(out)


def source(text, new):
    """Ghost lines and clauses; a clause may stand on lines of its own up to the brace that closes it."""
    out, depth = [], 0
    for line in text.split('\n'):
        begins = re.match(r'\s*(ghost use|requires|ensures|ghost)\b', line)
        if begins or depth > 0:
            depth = max(0, depth + line.count('{') - line.count('}'))
            out.append(respelled(line, new))
        else:
            code, _, comment = line.partition('//')
            out.append(code + _ + between_backticks(comment, new))
    return '\n'.join(out)


def edit(text, new):
    """An edit has the older spelling still: a field stands tight to what it is of."""
    out = []
    in_source = 'file: src/' in text
    for line in text.split('\n'):
        if line.startswith(('old: ', 'new: ')) and not in_source:
            line = line[:5] + respelled(re.sub(r'\((\w+) \.(\w+)\)', r'\1.\2', line[5:]), new)
            line = re.sub(r'(?<=\w) \.(?=\w)', '.', line)
        out.append(line)
    return '\n'.join(out)


def main():
    ask = argparse.ArgumentParser(description=__doc__, formatter_class=argparse.RawDescriptionHelpFormatter)
    ask.add_argument('--map')
    said = ask.parse_args()
    new = renamings()
    if said.map:
        with open(said.map, 'w') as out:
            out.writelines(f'{old} {name}\n' for old, name in sorted(new.items()))
    alike = alike_in_a_file(new)
    changed = 0
    for path, how, names in [(p, antt, new | alike if '/specs/' in p else new) for p in antt_files()] + others(new):
        before = open(path).read()
        after = how(before, names)
        if after != before:
            changed += 1
            with open(path, 'w') as out:
                out.write(after)
    print(f'respell: {len(new) + len(alike)} names, {changed} files')


def others(new):
    work = [(p, source) for p in sources()]
    work += [(p, edit) for p in sorted(glob.glob('crates/*/must-fail/*.edit'))]
    work += [(p, between_backticks) for p in ['README.md', *sorted(glob.glob('docs/**/*.md', recursive=True))]]
    return [(path, how, new) for path, how in work]


if __name__ == '__main__':
    main()
