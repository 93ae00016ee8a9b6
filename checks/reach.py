#!/usr/bin/env python3
"""What a statement reaches through definitions: how many of them, and in how many lines.

  checks/reach.py FILE NAME..         the definitions NAME.. of FILE (specs/*.antt), or the contracts of the functions NAME.. of FILE (src/*.rt)
  checks/reach.py --by N FILE NAME..  the N heaviest files, and the N heaviest definitions that it alone leads to
  checks/reach.py --list FILE NAME..  each definition with its file, its line and its lines
  checks/reach.py --most LINES,DEFINITIONS FILE NAME..   status 1 where it reaches more
  checks/reach.py --but NAME .. FILE NAME..   without the definitions of that name and what is reached through them alone

Counted are definitions of specs/ and the types and traits of src/ that these name, each once, with the lines that are neither blank nor
comments. Of a type with an `impl Model` a clause sees the value alone, so the line `ghost Value` counts, and how it is kept doesn't. Proofs,
functions' bodies and the library's own definitions don't count. A word stands for what the file's `use` lines or its own definitions say it
does; a variable of that name is taken for it too, so the figures are upper bounds.
"""
import argparse
import os
import re
import sys
from collections import defaultdict

ROOT = os.path.join(os.path.dirname(os.path.dirname(os.path.abspath(__file__))), 'crates')
WORD = re.compile(r"(?<![\w.'])[A-Za-z_][\w'\-]*(?:\.[A-Za-z_][\w'\-]*)*|◌[^\s◌,}]*◌")
USE = re.compile(r'(?:^|\n)\s*(?:pub )?(?:ghost )?use Rattle\.(\w+)\.specs\.([\w.]+?)(?:\.\{([^}]*)\}|(?: as (\w+))?)\s*;?(?=\n|$)')
RUST_USE = re.compile(r'(?:^|\n)(?:pub )?use ((?:crate|super|self|ug_\w+)::[^;]*);')


class File:
    """A file of specs/ or src/: its definitions by name, and what its words stand for."""

    def __init__(self, path):
        self.path = path
        self.text = open(path).read()
        self.items = {}   # name -> (line, code lines, text)
        self.part = {}    # constructor -> name
        self.words = {}   # word -> (crate, module, name)
        for crate, module, names, alias in USE.findall(self.text):
            if names:
                for one in names.split(','):
                    m = re.match(r'\s*(\S+)(?: as (\S+))?\s*$', one)
                    if m:
                        self.words[m.group(2) or m.group(1)] = (crate, module, m.group(1))
            else:
                whole = module.split('.')
                self.words[alias or whole[-1]] = (crate, module, None)
        lines = self.text.split('\n')
        starts = self.starts(lines)
        for (at, name), (end, _) in zip(starts, starts[1:] + [(len(lines), '')]):
            code = [l for l in self.cut(lines[at:end]) if l.strip() and not re.match(r'\s*(--|//)', l)]
            if name in self.items:
                old = self.items[name]
                self.items[name] = (old[0], old[1] + len(code), old[2] + '\n' + '\n'.join(code))
            else:
                self.items[name] = (at + 1, len(code), '\n'.join(code))

    def cut(self, lines):
        return lines


class Spec(File):
    def starts(self, lines):
        out, modules = [], []
        for i, line in enumerate(lines):
            if not line.strip() or line.lstrip().startswith('--'):
                continue
            indent = len(line) - len(line.lstrip())
            while modules and indent <= modules[-1]:
                modules.pop()
            text = line.strip()
            if text.startswith('module '):
                out.append((i, '(module %d)' % i))
                modules.append(indent)
                continue
            if indent != (modules[-1] + 2 if modules else 0):
                continue
            m = re.match(r"(?:(?:abbrev|unfoldable|pub|private|partial) )*(?:record|data) ([A-Z][\w']*)", text) or \
                re.match(r"(?:(?:abbrev|unfoldable|pub|private|partial) )*([A-Za-z_◌][^\s:({]*) :", text)
            if m:
                out.append((i, m.group(1)))
            elif re.match(r'(ruleset|syntax|open|use|pub use) ', text):
                out.append((i, '(%s %d)' % (text.split()[0], i)))
        for k, (i, name) in enumerate(out):
            end = out[k + 1][0] if k + 1 < len(out) else len(lines)
            head = lines[i].strip()
            if re.match(r'(pub |abbrev )*data ', head):
                under = len(lines[i]) - len(lines[i].lstrip()) + 2
                for line in lines[i + 1:end]:
                    m = re.match(r'^ {%d}([A-Z]\w*) :' % under, line)
                    if m:
                        self.part[m.group(1)] = name
        return out


class Source(File):
    def __init__(self, path):
        super().__init__(path)
        for name, text in re.findall(r'(?m)^impl(?:<[^{]*?>)? Model for (\w+)[^{]*\{(.*?)^\}', self.text, re.S | re.M):
            value = re.search(r'ghost Value = \{(.*?)\};', text, re.S)
            if name in self.items and value:
                lines = value.group(0).split('\n')
                self.items[name] = (self.items[name][0], len(lines), value.group(1))
        for whole in RUST_USE.findall(self.text):
            for name, target in flat(whole):
                self.words.setdefault(name, ('rust', target, name))

    def starts(self, lines):
        out = []
        for i, line in enumerate(lines):
            m = re.match(r'^(?:pub(?:\([a-z]+\))? )?(struct|enum|trait|type|const) (\w+)', line)
            if m:
                out.append((i, m.group(2)))
                continue
            m = re.match(r'^impl(?:<[^{]*?>)? Model for (\w+)', line)
            if m:
                out.append((i, m.group(1)))
                continue
            if re.match(r'^(?:pub(?:\([a-z]+\))? )?(?:unsafe )?fn |^impl|^mod |^pub mod |^use |^pub use |^ghost |^#\[cfg', line):
                out.append((i, '(other %d)' % i))
        return out

    def cut(self, lines):
        """Up to the end of the item's own block."""
        depth, out, begun = 0, [], False
        for line in lines:
            if line.startswith('#['):
                if begun:
                    break
            out.append(line)
            bare = re.sub(r'//.*', '', line)
            depth += bare.count('{') - bare.count('}')
            begun = begun or '{' in bare or ';' in bare
            if begun and depth <= 0 and re.search(r'[;}]', bare):
                break
        return out

    def contract(self, name):
        at = re.search(r'\bfn %s\b' % re.escape(name), self.text)
        if not at:
            sys.exit('reach.py: there is no function %s in %s' % (name, self.path))
        head = self.text[:at.start()]
        begin = head.rfind('\n') + 1
        text = re.split(r'\n\s*\{', self.text[begin:], maxsplit=1)[0]
        return [l for l in text.split('\n') if l.strip() and not re.match(r'\s*//', l)]


def flat(tree, front=''):
    tree = tree.strip()
    m = re.match(r'^([\w:]*?)(?:::)?\{(.*)\}$', tree, re.S)
    if m:
        depth, last, body = 0, 0, m.group(2) + ','
        for i, ch in enumerate(body):
            depth += (ch == '{') - (ch == '}')
            if ch == ',' and depth == 0:
                if body[last:i].strip():
                    yield from flat(body[last:i], front + m.group(1) + '::')
                last = i + 1
        return
    m = re.match(r'^([\w:]+)(?: as (\w+))?$', tree)
    if m:
        whole = front + m.group(1)
        yield m.group(2) or whole.split('::')[-1], whole


class Tree:
    def __init__(self, root):
        self.root = root
        self.files = {}
        self.types = defaultdict(dict)  # crate -> type name -> path
        for crate in sorted(os.listdir(root)):
            for base, make in (('specs', Spec), ('src', Source)):
                top = os.path.join(root, crate, base)
                for folder, _, names in os.walk(top):
                    for name in names:
                        if name.endswith(('.antt', '.rt')) and name != 'Lib.antt':
                            path = os.path.join(folder, name)
                            self.files[path] = make(path)
                            if make is Source:
                                for item in self.files[path].items:
                                    self.types[crate].setdefault(item, path)

    def crate_of(self, path):
        return os.path.relpath(path, self.root).split(os.sep)[0]

    def find(self, crate, module, name):
        """The definitions that NAME of the module is."""
        parts = module.split('.')
        if parts[0] == 'declared':
            # the module of a type: its file and then its name, perhaps its variants
            words = [p for p in parts[1:] if p != 'TheVariants'] + ([name] if name else [])
            for k in range(len(words), 0, -1):
                path = os.path.join(self.root, crate, 'src', *words[:k]) + '.rt'
                if path in self.files:
                    for word in words[k:]:
                        if word in self.files[path].items:
                            return [(path, word)]
            for word in words:
                if word in self.types[crate]:
                    return [(self.types[crate][word], word)]
            return []
        path = os.path.join(self.root, crate, 'specs', *parts) + '.antt'
        if path not in self.files:
            return []
        f = self.files[path]
        if name is None:
            return []
        if name in f.items:
            return [(path, name)]
        if name in f.part:
            return [(path, f.part[name])]
        if name in f.words and f.words[name][2]:
            return self.find(*f.words[name])   # passed on by `pub use`
        return []

    def meant(self, path, text):
        f = self.files[path]
        out = set()
        for token in set(WORD.findall(text)):
            word, *rest = token.split('.')
            if word in f.items:
                out.add((path, word))
            elif word in f.part:
                out.add((path, f.part[word]))
            elif word in f.words:
                crate, module, name = f.words[word]
                if crate == 'rust':
                    where = module.split('::')
                    home = where[0] if where[0].startswith('ug_') else self.crate_of(path)
                    for part in where[1:]:
                        if part in self.types[home]:
                            out.add((self.types[home][part], part))
                else:
                    out.update(self.find(crate, module, name if name else (rest[0] if rest else None)))
        return out

    def reach(self, seeds, but=()):
        seen, todo, by = set(), list(seeds), {}
        while todo:
            one = todo.pop()
            if one in seen:
                continue
            seen.add(one)
            path, name = one
            by[one] = {x for x in self.meant(path, self.files[path].items[name][2]) if x != one and x[1] not in but}
            todo.extend(by[one])
        return seen, by


def main():
    p = argparse.ArgumentParser(usage=__doc__)
    p.add_argument('--by', type=int, default=0)
    p.add_argument('--list', action='store_true')
    p.add_argument('--most')
    p.add_argument('--but', action='append', default=[])
    p.add_argument('--root', default=ROOT)
    p.add_argument('file')
    p.add_argument('names', nargs='+')
    a = p.parse_args()
    tree = Tree(os.path.abspath(a.root))
    path = os.path.abspath(a.file)
    if path not in tree.files:
        sys.exit('reach.py: %s is no file of specs/ or src/' % a.file)
    f = tree.files[path]
    own = 0
    if isinstance(f, Source):
        seeds = set()
        for name in a.names:
            lines = f.contract(name)
            own += len(lines)
            seeds |= tree.meant(path, '\n'.join(lines))
    else:
        seeds = set()
        for name in a.names:
            if name not in f.items:
                sys.exit('reach.py: there is no definition %s in %s' % (name, a.file))
            seeds.add((path, name))
    seen, by = tree.reach(seeds, a.but)
    size = lambda one: tree.files[one[0]].items[one[1]][1]
    total = sum(map(size, seen))
    kinds = {'specs': [0, 0], 'src': [0, 0]}
    crates = set()
    for one in seen:
        rel = os.path.relpath(one[0], tree.root).split(os.sep)
        crates.add(rel[0])
        kinds[rel[1]][0] += 1
        kinds[rel[1]][1] += size(one)
    print('%s: %d definitions, %d lines, of %d crates (specs/ %d, %d lines; types and traits %d, %d lines)%s' % (
        ' '.join(a.names), len(seen), total, len(crates), *kinds['specs'], *kinds['src'],
        '; own contract %d lines' % own if own else ''))
    if a.by:
        files = defaultdict(lambda: [0, 0])
        for one in seen:
            files[one[0]][0] += 1
            files[one[0]][1] += size(one)
        print('heaviest files (lines, definitions):')
        for name, (n, m) in sorted(files.items(), key=lambda x: -x[1][1])[:a.by]:
            print('  %5d %4d  %s' % (m, n, os.path.relpath(name, tree.root)))
        per = defaultdict(lambda: [0, 0])
        for name, (n, m) in files.items():
            per[tree.crate_of(name)][0] += n
            per[tree.crate_of(name)][1] += m
        print('by crate:', ', '.join('%s %d/%d' % (c, m, n) for c, (n, m) in sorted(per.items(), key=lambda x: -x[1][1])))
        # what falls away without one definition: lines reached through it alone
        gain = []
        for one in seen:
            if one in seeds:
                continue
            left, todo = set(), list(seeds)
            while todo:
                x = todo.pop()
                if x in left or x == one:
                    continue
                left.add(x)
                todo.extend(by[x])
            gain.append((total - sum(map(size, left)), len(seen) - len(left), one))
        print('heaviest definitions (lines and definitions that are reached through it alone, itself counted):')
        for lines, n, one in sorted(gain, key=lambda x: -x[0])[:a.by]:
            print('  %5d %4d  %s %s' % (lines, n, os.path.relpath(one[0], tree.root), one[1]))
    if a.list:
        for one in sorted(seen):
            print('%s:%d %s %d' % (os.path.relpath(one[0], tree.root), tree.files[one[0]].items[one[1]][0], one[1], size(one)))
    if a.most:
        lines, definitions = map(int, a.most.split(','))
        if total > lines or len(seen) > definitions:
            print('reach.py: more than %d lines or %d definitions' % (lines, definitions))
            sys.exit(1)


main()
