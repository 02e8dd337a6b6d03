"""What `believed` knows of .antt and .rt files: their imports, their declarations, and who names whom."""
import os, re, glob
from collections import deque

HEAD = re.compile(r'^(?P<ind> *)(?P<mods>(?:pub |abbrev |unfoldable )*)(?P<rd>record |data )?(?P<name>[^\s(){};,."]+)(?P<rest>(?:\s.*)?)$')
TOKEN = re.compile(r'[^\s(){};,"λ⌜⌝]+')
WORDS = {'unfolding', 'where', 'let', 'in', 'λ', '→', '∙', 'record', 'data', 'module', 'use', 'mod', 'pub', 'abbrev', 'unfoldable'}
USE = re.compile(r'^(?P<ghost>\s*(?:ghost )?)use (?P<mod>\S+?)(?:\.\{(?P<names>.*)\}| as (?P<alias>[^;\s]+))(?P<semi>;?)$')


class Item:
    """One declaration: lines a..b of its file, c..a being the comment over it; frames are the module heads that it stands in."""
    def __init__(self, **k): self.__dict__.update(k)
    def __repr__(self): return f'{self.key}:{self.name}'
    @property
    def law(self): return self.kind == 'law'


def key_of(crate, path, top):
    return crate + '|' + os.path.relpath(path, os.path.join(top, 'crates', crate))[:-5].replace('/', '.')


def resolve(mod):
    """the module Rattle.cell.specs.Cell as cell|specs.Cell"""
    m = re.match(r'Rattle\.([a-z_0-9]+)\.(.*)$', mod)
    return m and m.group(1) + '|' + m.group(2)


def parse_imports(lines):
    imports, alias = {}, {}
    for l in lines:
        m = USE.match(l)
        if not m: continue
        if m.group('alias'): alias[m.group('alias')] = m.group('mod'); continue
        for n in m.group('names').split(','):
            n = n.strip()
            if ' as ' in n:
                o, nn = [x.strip() for x in n.split(' as ')]
                imports[nn] = (m.group('mod'), o)
            elif n: imports[n] = (m.group('mod'), n)
    return imports, alias


class File:
    def __init__(self, crate, path, top):
        self.crate, self.path, self.key = crate, path, key_of(crate, path, top)
        self.lines = open(path, encoding='utf-8').read().split('\n')
        if self.lines and self.lines[-1] == '': self.lines.pop()
        self.imports, self.alias = parse_imports(self.lines)
        self.items = []
        self.parse()
        self.names = {i.name: i for i in self.items}
        for i in self.items:
            if i.kind == 'data':
                for m in i.members: self.names.setdefault(m, i)

    def parse(self):
        L, starts, frames, k = self.lines, [], [], 0      # frames: (indent of the module word, first line, last line)
        while k < len(L):
            l, s = L[k], L[k].strip()
            if not s or s.startswith('--') or USE.match(l) or re.match(r'(pub )?mod ', s): k += 1; continue
            ind = len(l) - len(l.lstrip(' '))
            while frames and ind <= frames[-1][0]: frames.pop()
            if s.startswith('module '):
                e = k
                while not L[e].rstrip().endswith('where'): e += 1
                frames.append((ind, k, e)); starts.append((k, None, None, None, None, None)); k = e + 1; continue
            if ind == (frames[-1][0] + 2 if frames else 0):
                m = HEAD.match(l)
                if m and m.group('name') not in WORDS and (m.group('rd') or re.match(r'\s*:(\s|$)', m.group('rest')) or (m.group('mods') and ' : ' in l)):
                    mods = m.group('mods')
                    kind = (m.group('rd') or '').strip() or ('abbrev' if 'abbrev' in mods else 'unfoldable' if 'unfoldable' in mods else 'law')
                    starts.append((k, m.group('name'), kind, 'pub' in mods, ind, tuple(frames)))
            k += 1
        for n, (k, name, kind, pub, ind, fr) in enumerate(starts):
            if name is None: continue
            j = starts[n + 1][0] if n + 1 < len(starts) else len(L)
            while j > k + 1 and (not L[j - 1].strip() or L[j - 1].strip().startswith('--')): j -= 1
            c = k
            while c > 0 and L[c - 1].strip().startswith('--') and not L[c - 1].strip().startswith('-- ----'): c -= 1
            if c == 0: c = k
            it = Item(crate=self.crate, key=self.key, name=name, kind=kind, pub=pub, a=k, b=j, c=c, indent=ind, frames=fr, members=[])
            it.text = '\n'.join(x for x in L[k:j] if not x.strip().startswith('--'))
            it.lines, it.comment = sum(1 for x in L[k:j] if x.strip() and not x.strip().startswith('--')), k - c
            if kind in ('record', 'data'):
                for x in L[k + 1:j]:
                    m = re.match(r'^\s+(?:pub )?((?:[^\s:(){}]+ )+):', x)
                    if m: it.members += [w for w in m.group(1).split() if w not in it.members]
            self.items.append(it)

    def statement(self, it):
        """the lines of a law up to its first clause"""
        out = []
        for n, l in enumerate(it.text.split('\n')):
            if n and (l.strip().startswith('unfolding ') or l.strip().startswith(it.name + ' ')): break
            out.append(l)
        return out

    def heads(self, it):
        return [' '.join(x.strip() for x in self.lines[a:e + 1]) for _, a, e in it.frames]


class Repo:
    def __init__(self, top):
        self.top = top
        self.crates = [l.split(':')[0].split()[0] for l in open(os.path.join(top, 'crates.txt')) if not l.startswith('#') and ':' in l]
        self.files, self.sources = {}, {}
        for c in self.crates:
            for sub in ('specs', 'proofs'):
                for p in sorted(glob.glob(f'{top}/crates/{c}/{sub}/**/*.antt', recursive=True)):
                    f = File(c, p, top); self.files[f.key] = f
            for p in sorted(glob.glob(f'{top}/crates/{c}/src/**/*.rt', recursive=True)):
                self.sources[p] = Source(c, p)

    def refs(self, text, f, but=None):
        """the declarations that a text of this file names"""
        out = set()
        for t in TOKEN.findall(text):
            parts = t.split('.')
            if len(parts) > 1 and parts[0] in f.alias:
                at = resolve(f.alias[parts[0]]) or ''
                g = self.files.get(at)
                if g is None and len(parts) > 2: g, parts = self.files.get(at + '.' + parts[1]), parts[1:]
                if g and parts[1] in g.names: out.add(g.names[parts[1]])
                continue
            for n in {t.rstrip(':'), *[p for p in parts if p]}:
                for q in (n, '◌' + n + '◌'):
                    if q in f.names: out.add(f.names[q])
                    elif q in f.imports:
                        m, o = f.imports[q]
                        g = self.files.get(resolve(m) or '')
                        if g and o in g.names: out.add(g.names[o])
        out.discard(but)
        return out

    def closure(self, roots):
        """the definitions behind these"""
        seen = {r for r in roots if not r.law}; q = deque(seen)
        while q:
            it = q.popleft()
            for x in self.refs(it.text, self.files[it.key], it):
                if not x.law and x not in seen: seen.add(x); q.append(x)
        return seen


def spoken(kind):
    """a type as it stands in the name that Rattle gives an impl: `Result<i32, Refusal>` is ResultI32Refusal"""
    return ''.join(w[:1].upper() + w[1:] for w in re.findall(r'\w+', kind))


def conversions(text):
    """each `impl From<A> for B` of a source file: where its text begins and ends, its name BFromA, and what stands in its `ghost from_gives = { .. }`"""
    for m in re.finditer(r'^( *)impl\b[^{;]*?\bFrom<([^{;]+)>\s+for\s+([^{;]+?)\s*(?:\bwhere\b[^{;]*)?\{$', text, re.M):
        end = text.index(f'\n{m.group(1)}}}', m.end())
        gives = re.search(r'^ +ghost from_gives = \{(.*?)\};$', text[m.end():end], re.M | re.S)
        yield m.start(), end, f'{spoken(m.group(3))}From{spoken(m.group(2))}', ' '.join(gives.group(1).split()) if gives else ''


class Source:
    """a .rt file: its functions with their clauses; the `from` of an `impl From` is public, and `from_gives` is its clause"""
    def __init__(self, crate, path):
        self.crate, self.path, self.names = crate, path, {}
        self.text = open(path, encoding='utf-8').read()
        L = self.text.split('\n')
        of = {k: (name, gives) for a, b, name, gives in conversions(self.text) for k in range(self.text.count('\n', 0, a), self.text.count('\n', 0, b) + 1)}
        self.imports, self.alias = parse_imports(L)
        self.functions, k = [], 0
        head = re.compile(r'^\s*(pub(?:\(\w+\))? )?(extern "C" )?fn (\w+)')
        while k < len(L):
            m = head.match(L[k])
            if m:
                first, j, clause, ens, req, sign = k, k, None, [], [], []
                while j < len(L) and L[j].strip() != '{' and not (clause is None and j > k and L[j - 1].endswith('{')):
                    s = L[j].strip()
                    if s.startswith('ensures'): clause = ens
                    elif s.startswith('requires') or s.startswith('decreases'): clause = req if s.startswith('requires') else []
                    if clause is not None and j > k: clause.append(s)
                    elif clause is None: sign.append(s)
                    j += 1
                f = dict(name=m.group(3), pub=bool(m.group(1)), c=bool(m.group(2)), ensures='\n'.join(ens), requires='\n'.join(req), signature=' '.join(sign), converts=first in of)
                if f['converts']:
                    f |= dict(name=f'{of[first][0]}.{m.group(3)}', pub=True, ensures=of[first][1])
                self.functions.append(f)
                k = j
            k += 1
