#!/usr/bin/env python3
"""Makes what is made by counting and comparing in docs/DESIGN-PASS.md anew: today's counts, the table, and all that stands under "Changed, old
and new side by side".

    pages.py OLDTREE NEWTREE PAGE            writes them into PAGE, in place of what stands there
    pages.py OLDTREE NEWTREE PAGE --check    writes nothing
Both print what asks more of callers, and what went but is not named in PAGE. OLDTREE is the tree of the commit in PAGE's first line.

What changed is what contracts.py finds (CONTRACTS, else the kit's port/contracts.py). What differs by the rules alone is said once, as
rules, and listed by name: the script puts the rules into the old contract, unfolds the new abbreviations by their definitions as they
stand in NEWTREE, and compares text. Whatever is not equal then is printed in full, old and new.
"""
import collections
import glob
import importlib.util
import json
import os
import re
import subprocess
import sys
import textwrap

KIT = os.path.dirname(subprocess.run(['rt', 'doc'], capture_output=True, text=True).stdout.split('\n')[0])
CONTRACTS = os.environ.get('CONTRACTS', os.path.join(KIT, 'port/contracts.py'))
HEADING = '## Changed, old and new side by side'

# ---- text

TOKEN = re.compile(r"[A-Za-z_][A-Za-z0-9_']*")


def squeeze(s):
    return re.sub(r'\s+', ' ', s).strip()


def split_at(text, mark):
    """the parts of a text between the marks that stand in no bracket"""
    parts, deep, last, i = [], 0, 0, 0
    while i < len(text):
        if text[i] in '([{':
            deep += 1
        elif text[i] in ')]}':
            deep -= 1
        elif not deep and text.startswith(mark, i):
            parts.append(text[last:i])
            last = i + len(mark)
            i = last
            continue
        i += 1
    return [p.strip() for p in parts + [text[last:]]]


def angle_split(text):
    """the parts between commas, where < and > are brackets too"""
    parts, deep, last = [], 0, 0
    for i, ch in enumerate(text):
        if ch in '([{<':
            deep += 1
        elif ch in ')]}' or (ch == '>' and text[i - 1] != '-'):
            deep -= 1
        elif ch == ',' and not deep:
            parts.append(text[last:i])
            last = i + 1
    return [p.strip() for p in parts + [text[last:]] if p.strip()]


def strip_parens(text):
    text = text.strip()
    while text.startswith('('):
        deep = 0
        for i, ch in enumerate(text):
            deep += (ch == '(') - (ch == ')')
            if not deep:
                break
        if i != len(text) - 1:
            return text
        text = text[1:-1].strip()
    return text


def conjuncts(clause):
    """A × B is A and B, where no arrow or λ reaches over both"""
    parts = split_at(clause, ' × ')
    if len(parts) == 1:
        inner = strip_parens(clause)
        return [inner] if inner == clause.strip() else conjuncts(inner)
    if any(len(split_at(p, '→')) > 1 or len(split_at(p, 'λ')) > 1 for p in parts):
        return [clause.strip()]
    return [q for p in parts for q in conjuncts(p)]


def arguments(text, at):
    """the arguments that follow a place: paths and brackets, and where they end"""
    out = []
    while True:
        m = re.compile(r"\s+([A-Za-z_][\w']*(?:\.[\w']+)*|0x[\w]+|\d+)").match(text, at)
        if m:
            out.append(m.group(1))
            at = m.end()
            continue
        m = re.compile(r'\s+\(').match(text, at)
        if not m:
            return out, at
        deep, i = 0, m.end() - 1
        while i < len(text):
            deep += (text[i] == '(') - (text[i] == ')')
            i += 1
            if not deep:
                break
        out.append(text[m.end() - 1:i])
        at = i


def put_in(body, values):
    """a body with names replaced, not those behind a dot"""
    return re.sub(r"(?<![\w.'])[A-Za-z_][\w']*", lambda m: values.get(m.group(0), m.group(0)), body)


# ---- signatures

def parameters(sign):
    """type parameters, parameters (name, type) and result of a signature"""
    i = 0
    if sign.startswith('<'):
        deep = 0
        for i, ch in enumerate(sign):
            deep += (ch == '<') - (ch == '>' and sign[i - 1] != '-')
            if not deep:
                break
        i += 1
    start = sign.index('(', i)
    deep = 0
    for j in range(start, len(sign)):
        deep += (sign[j] == '(') - (sign[j] == ')')
        if not deep:
            break
    found = []
    for p in angle_split(sign[start + 1:j]):
        name, _, kind = p.partition(':')
        name = name.strip()
        found.append((name[4:] if name.startswith('mut ') else name, kind.strip()) if kind else ('self', name))
    return sign[:start].strip(), found, sign[j + 1:].strip()


def plain(kind):
    """a type without lifetimes"""
    return re.sub(r"<'\w+>", '', re.sub(r"&'\w+ ", '&', kind))


class Types:
    """structs that lend: their fields and what their ghost fields say"""

    def __init__(self, root, before):
        self.fields, self.ghosts, self.crate, self.private = {}, {}, {}, set()
        for path in sorted(glob.glob(os.path.join(root, 'crates/*/src/**/*.rt'), recursive=True)):
            text = open(path, encoding='utf-8').read()
            crate = os.path.relpath(path, os.path.join(root, 'crates')).split('/')[0]
            self.private |= {(crate, n) for n in re.findall(r'^struct (\w+)', text, re.M)}
            for m in re.finditer(r"^pub struct (\w+)(<'[^>]*>)? \{\n(.*?)^\}", text, re.M | re.S):
                name, body = m.group(1), m.group(3)
                if not m.group(2) and name in before:
                    continue
                self.fields[name], self.ghosts[name] = [], []
                self.crate[name] = os.path.relpath(path, os.path.join(root, 'crates')).split('/')[0]
                for line in re.findall(r'^    (?:pub )?(.*),$', body, re.M):
                    g = re.match(r'ghost (\w+): \{ (.*) \}$', line)
                    if g:
                        self.ghosts[name].append((g.group(1), g.group(2)))
                    elif not line.startswith('//'):
                        field, _, kind = line.partition(': ')
                        self.fields[name].append((field, kind))

    def name(self, kind):
        """the struct of this type, if it is one that lends or is new"""
        m = re.match(r"^(?:&(?:'\w+ )?(?:mut )?)?(\w+)(?:<[^>]*>)?$", kind)
        return m.group(1) if m and m.group(1) in self.fields else None

    def leaves(self, path, kind):
        """fields within fields, as paths, outer ones first"""
        out = []
        for field, inner in self.fields[kind]:
            out.append((f'{path}.{field}', field, inner))
            if self.name(inner):
                out += self.leaves(f'{path}.{field}', self.name(inner))
        return out

    def says(self, path, kind):
        """what a value of a type holds by its type alone: (field, text with the value's path)"""
        out = []
        own = {field for field, _ in self.fields[kind]}
        for name, text in self.ghosts[kind]:
            out.append((f'{kind}.{name}', re.sub(r"(?<![\w.'])[A-Za-z_][\w']*", lambda m: f'{path}.{m.group(0)}' if m.group(0) in own else m.group(0), text)))
        for field, inner in self.fields[kind]:
            if self.name(inner):
                out += self.says(f'{path}.{field}', self.name(inner))
        return out


# ---- definitions

def records(specs):
    """records by name: crate, parameters and fields"""
    out = collections.defaultdict(list)
    for (crate, name), texts in specs.items():
        for text in texts:
            m = re.match(r'(?:pub )?record ' + re.escape(name) + r' (.*?) ?: Type 0 where (.*)$', text)
            if not m:
                continue
            given = [n for group in re.findall(r'\(([^:()]*) :', m.group(1)) for n in group.split()]
            fields = [squeeze(f) for f in re.split(r'(?:^| )pub (?=\w+ : )', m.group(2)) if f.strip()]
            out[name].append((crate, given, [(f.split(' : ', 1)[0], f.split(' : ', 1)[1]) for f in fields]))
    return out


def equation(specs, crate, name):
    """the one equation of a definition: its arguments and its body"""
    text = specs[crate, name][0]
    m = re.match(r'(?:abbrev |unfoldable |pub )*' + re.escape(name) + r' : .* ' + re.escape(name) + r' ([\w ]*?) = (.*)$', text)
    return m.group(1).split(), m.group(2)


ABBREVIATIONS = [
    ('kkt', 'emitted_at'), ('kkt', 'item_at'), ('opf_program', 'written_at'), ('network', 'network_in'), ('contraction', 'selector_in'),
    ('sequence', 'answered'), ('sequence', 'listed'),
]

# Abbreviations in a module over what they are read from: the file, of the new tree.
OVER = ['sens_snap/specs/Points', 'parameter_sheet/specs/Sites', 'parameter_column/specs/Points', 'kkt_rows/specs/Sides', 'opf_problem/specs/Walks']


def over_modules(new):
    """name: the module's parameters with its own, and its body"""
    out = {}
    for file in OVER:
        path = os.path.join(new, 'crates', file + '.antt')
        if not os.path.exists(path):
            continue
        lines, stack = open(path, encoding='utf-8').read().split('\n'), []
        for i, line in enumerate(lines):
            deep = len(line) - len(line.lstrip())
            if not line.strip() or line.strip().startswith('--'):
                continue
            while stack and deep <= stack[-1][0]:
                stack.pop()
            m = re.match(r' *module _ (.*) where$', line)
            if m:
                stack.append((deep, [n for group in re.findall(r'\(([^:()]*) :', m.group(1)) for n in group.split()]))
            m = re.match(r' *abbrev pub ([\w]+) :', line)
            if m:
                body = []
                for later in lines[i + 1:]:
                    if later.strip() and len(later) - len(later.lstrip()) < deep or re.match(r' *(abbrev|--|unfoldable|pub|module)', later) or not later.strip():
                        break
                    body.append(later.strip())
                own = re.match(re.escape(m.group(1)) + r"((?: [\w']+)*) = (.*)$", ' '.join(body))
                if own:
                    text = own.group(2)
                    while n := re.match(r"let ([\w']+) = ([^ ]+) in (.*)$", text):
                        text = put_in(n.group(3), {n.group(1): n.group(2)})
                    out[file.split('/')[0], m.group(1)] = ([n for _, ns in stack for n in ns] + own.group(1).split(), text)
    return out


# Old parameter -> field, where they have not one name. Names in the list are tried in turn.
FIELDS = {
    'c': ['counts'], 'x': ['index'], 'idx': ['index'], 'solution': ['sheet'], 'p': ['pieces'], 'lay': ['layout'], 'wiring': ['wiring', 'words'],
    'sums': ['values'], 'column': ['words'], 's': ['side'],
}

# Types that became std's.
RESULTS = {'Item': 'Option<Triplet>', 'Three': '[Option<Triplet>; 3]', 'Linear': 'Option<f64>', 'Part': 'Option<usize>', 'Gathering': 'Option<usize>'}



class Pair:
    """A function, old and new: what the rules make of it."""

    def __init__(self, name, old_sign, new_sign, old, new, env):
        self.name, self.env = name, env
        self.old_sign, self.new_sign = old_sign, new_sign
        self.old, self.new = old, new  # (requires, ensures), each a list of (name, text)
        self.groups, self.renamed, self.moved, self.asks, self.trouble = [], [], [], [], []
        self.rules = set()
        self.map()
        self.compare()

    # -- parameters

    def map(self):
        T = self.env.types
        self.type_old, old, self.result_old = parameters(self.old_sign)
        self.type_new, new, self.result_new = parameters(self.new_sign)
        names_new = dict(new)
        self.kept = [n for n, k in old if n in names_new and plain(k) == plain(names_new[n])]
        left = [(n, k) for n, k in old if n not in self.kept]
        mine = lambda k: T.name(k) and (self.name.split(' ')[0], T.name(k)) not in T.private  # noqa: E731
        self.bundles = [(n, T.name(k), k) for n, k in new if n not in self.kept and mine(k)]
        self.place, self.buffer = {}, None
        for n, bundle, kind in self.bundles:
            taken = []
            leaves = T.leaves(n, bundle)
            if bundle == 'Sink':
                taken = self.sink(left, n)
            elif bundle == 'Buffer':
                kinds = {plain(k): o for o, k in left}
                if '&mut [u8]' in kinds:
                    self.buffer = (kinds['&mut [u8]'], 'at' if 'at' in dict(left) else None, n)
                    taken = [o for o in self.buffer[:2] if o]
            else:
                for o, k in left:
                    for want in FIELDS.get(o, []) + [o]:
                        hit = [p for p, f, fk in leaves if f == want and plain(fk) == plain(k)]
                        if hit:
                            self.place[o] = hit[0]
                            taken.append(o)
                            break
                # idx stays as the index, and its pieces are the sheet's
                if 'pieces' in [f for _, f, _ in leaves] and 'idx' in self.kept and 'solution' in taken:
                    self.place['idx.pieces'] = next(p for p, f, _ in leaves if f == 'pieces')
            left = [(o, k) for o, k in left if o not in taken]
            self.groups.append((taken, n))
        fresh = [(n, k) for n, k in new if n not in self.kept and not mine(k)]
        # a number and a count are an answer
        for n, k in fresh:
            if n == 'answer' and k in ('Answer', 'Result<Written, Refusal>'):
                gave = {'Answer': {'number': '(number_of answer)', 'count': '(count_of answer)'}}.get(k, {'number': '(number_of answer)', 'a': '(written_of answer).a', 'p': '(written_of answer).p'})
                if all(o in dict(left) for o in gave):
                    self.place.update(gave)
                    self.groups.append((list(gave), n))
                    left = [(o, kk) for o, kk in left if o not in gave]
                    fresh = [(m, kk) for m, kk in fresh if m != n]
        # other names: as many of a type as before, in their order
        for kind in list(dict.fromkeys(plain(RESULTS.get(k, k)) for _, k in left)):
            olds = [o for o, k in left if plain(RESULTS.get(k, k)) == kind]
            news = [n for n, k in fresh if plain(k) == kind]
            if len(olds) == len(news):
                self.renamed += list(zip(olds, news))
                left = [(n, k) for n, k in left if n not in olds]
                fresh = [(n, k) for n, k in fresh if n not in news]
        order = [o for o, _ in old]
        self.renamed.sort(key=lambda pair: order.index(pair[0]))
        self.left, self.fresh = left, fresh
        self.has_sink = any(b == 'Sink' for _, b, _ in self.bundles)
        if self.has_sink:
            self.rules.add('sink')

    def sink(self, left, n):
        sheets = [(o, k) for o, k in left if plain(k) in ('&mut [u32]', '&mut [f64]')]
        kinds = [plain(k) for _, k in sheets]
        if kinds != ['&mut [u32]', '&mut [u32]', '&mut [f64]']:
            return []
        self.sheets = [o for o, _ in sheets]
        names = [o for o, k in left if k == 'usize']
        self.sink_name = n
        self.limit = next((o for o in ('limit', 'cap') if o in names), None)
        self.at = 'at' if 'at' in names else None
        return self.sheets + [o for o in (self.limit, self.at) if o]

    # -- clauses

    def canon_new(self, text):
        """a new clause, with a lent value's .now and .entry left out and the new abbreviations unfolded"""
        while m := re.match(r"let ([\w']+) = ([^ ]+) in (.*)$", text):
            text = put_in(m.group(3), {m.group(1): m.group(2)})
        for n, bundle, kind in self.bundles:
            if not kind.startswith('&mut'):
                text = re.sub(r"(?<![\w.'])" + n + r"((?:\.(?:now|entry))+)(?![\w'])", n, text)
        text = re.sub(r"\bself\.(?:entry|now)\b", 'self', text)
        if not hasattr(self.env, 'over'):
            self.env.over = over_modules(self.env.new_tree)
        for crate, name in [*self.env.over, *ABBREVIATIONS]:
            text = self.unfold(text, crate, name)
        return self.answers(text)

    def unfold(self, text, crate, name):
        if (crate, name) in self.env.over:
            given, body = self.env.over[crate, name]
        elif (crate, name) in self.env.new_specs:
            given, body = equation(self.env.new_specs, crate, name)
        else:
            return text
        at = 0
        while True:
            m = re.compile(r"(?<![\w.'])" + name + r"(?![\w'])").search(text, at)
            if not m:
                return text
            args, _ = arguments(text, m.end())
            if len(args) < len(given) or (name in ('answered', 'listed') and args[0] not in ('result', 'answer')):
                at = m.end()
                continue
            end = m.end()
            used = []
            for _ in given:
                one, end = self.one(text, end)
                used.append(one)
            made = put_in(body, dict(zip(given, used)))
            text = text[:m.start()] + made + text[end:]
            at = m.start() + len(made)
            self.rules.add(name)

    @staticmethod
    def one(text, at):
        m = re.compile(r"\s+([A-Za-z_][\w']*(?:\.[\w']+)*)").match(text, at)
        if m:
            return m.group(1), m.end()
        m = re.compile(r'\s+\(').match(text, at)
        deep, i = 0, m.end() - 1
        while i < len(text):
            deep += (text[i] == '(') - (text[i] == ')')
            i += 1
            if not deep:
                break
        return text[m.end() - 1:i], i

    def answers(self, text):
        if self.env.short_table:
            text = re.sub(r'work_of (\w+) ≡ Short', r'IsTrue (is_short \1)', text)
        text = re.sub(r'\((number_of|count_of) (result|answer)\)', r'\1 \2', text)
        return re.sub(r'\b(number_of|count_of) (result|answer)\b', r'\1·\2', text)

    def rewrite(self, text):
        """an old clause by the rules"""
        if any(o in self.place or o in dict(self.renamed) for o in re.findall(r"λ \(?([\w']+)", text)):
            self.trouble.append('a bound name is that of a parameter')
        if self.has_sink and getattr(self, 'sheets', None):
            r, c, v = self.sheets
            at = self.at or '0'
            m = re.search(rf'Puts {self.limit} (.*) \(held {r}\.entry {c}\.entry {v}\.entry {at}\) \(held {r}\.exit {c}\.exit {v}\.exit result\)', text)
            if m:
                inner = m.group(1)
                text = text[:m.start()] + f'Gains {inner} SINK.old SINK.new' + text[m.end():]
                self.rules.add('Gains')
            elif self.result_old.endswith('usize') and not self.result_new:
                text = re.sub(r"(?<![\w.'])result(?![\w'])", 'SINK.new.count', text)
        if self.buffer and self.env.adds_is_wrote:
            out, at, b = self.buffer
            m = re.search(rf"Wrote (.*) {out}\.old {out}\.new {at or '0'} result(?![\w'])", text)
            if m:
                text = text[:m.start()] + f'Adds {m.group(1)} {b}.old {b}.new' + text[m.end():]
            text = re.sub(r"(?<![\w.'])result(?![\w'])", f'{b}.new.len', text)
            text = re.sub(rf"(?<![\w.']){out}\.(old|new)(?![\w'])", rf'{b}.\1.bytes.now', text)
            if at:
                text = re.sub(rf"(?<![\w.']){at}(?![\w'])", f'{b}.old.len', text)
        values = dict(self.renamed)

        def sub(m):
            word, tail = m.group(1), m.group(2) or ''
            if word + tail == 'idx.pieces' and 'idx.pieces' in self.place:
                return self.place['idx.pieces']
            if word in self.place:
                path = self.place[word]
                if path.startswith('('):
                    return path
                first = tail.split('.')[1] if tail else ''
                if first == 'entry':
                    tail = tail[len('.entry'):]
                return path + tail
            if self.has_sink and word in getattr(self, 'sheets', []):
                field = ('rows', 'cols', 'values')[self.sheets.index(word)]
                when = {'.old': 'old', '.new': 'new', '.entry': 'old', '.exit': 'new'}.get(tail)
                return f'SINK.{when}.{field}.now' if when else m.group(0)
            if self.has_sink and word == self.limit:
                return 'SINK.old.limit'
            if self.has_sink and word == self.at:
                return 'SINK.old.count'
            return values.get(word, word) + tail

        text = re.sub(r"(?<![\w.'])([A-Za-z_][\w']*)((?:\.[\w']+)*)", sub, text)
        if self.has_sink:
            text = text.replace('SINK', self.sink_name)
        text = self.options(text)
        text = re.sub(r'\b(result|answer)\.number\b', r'(number_of \1)', text)
        text = re.sub(r'\b(result|answer)\.count\b', r'(count_of \1)', text)
        return self.answers(text)

    def options(self, text):
        """a flag beside a count, once an option"""
        kinds = dict(parameters(self.new_sign)[1])
        kinds['result'] = self.result_new[3:]
        for x, kind in kinds.items():
            if kind == 'Option<usize>':
                m = re.search(rf'(?<![\w.])\(?{x}\.(?:ok|whole) ≡ true → (.*)$', text)
                if m:
                    closing = '(' if m.group(0).startswith('(') else ''
                    body = m.group(1)[:-1] if closing else m.group(1)
                    body = re.sub(rf'(?<![\w.]){x}\.count(?![\w])', 'n', body)
                    text = text[:m.start()] + closing + f'IfSome {x} (λ n. {body})' + (')' if closing else '')
                text = re.sub(rf'(?<![\w.]){x}\.(?:ok|whole)(?![\w])', f'is_some {x}', text)
        return text

    def expand(self, clause):
        """a record of the old tree that went, as its fields"""
        head = clause.split(' ', 1)[0]
        if head in self.env.gone_records:
            args, end = arguments(' ' + clause, len(head) + 1)
            if end == len(clause) + 1:
                for crate, given, fields in self.env.gone_records[head]:
                    if len(given) == len(args):
                        return [(f'{head}.{n}', put_in(text, dict(zip(given, args)))) for n, text in fields]
        return None

    def derived(self, clause):
        """what a record of the new tree says by its fields, one level down"""
        out = []
        head = clause.split(' ', 1)[0]
        args, end = arguments(' ' + clause, len(head) + 1)
        if end == len(clause) + 1:
            for crate, given, fields in self.env.records.get(head, []):
                if len(given) == len(args):
                    out += [put_in(text, dict(zip(given, args))) for _, text in fields]
        return out

    def compare(self):
        T = self.env.types
        old_req = [(n, self.rewrite(t)) for n, t in self.old[0]]
        old_ens = [(n, self.rewrite(t)) for n, t in self.old[1]]
        new_req = [(n, self.canon_new(t)) for n, t in self.new[0]]
        new_ens = [(n, self.canon_new(t)) for n, t in self.new[1]]
        says = []
        for n, bundle, kind in self.bundles:
            if bundle not in ('Sink', 'Buffer'):
                says += T.says(n, bundle)
        said = {squeeze(t): g for g, t in says}
        # the old requires, taken apart
        old_parts, has_room = [], False
        for i, (n, t) in enumerate(old_req):
            original = self.old[0][i]
            for part in conjuncts(t):
                fields = self.expand(part)
                if fields is not None:
                    for f, ft in fields:
                        old_parts.append((original, f, squeeze(ft)))
                elif self.has_sink and re.match(r'Room ', part):
                    has_room = True
                    old_parts.append((original, 'Room', squeeze(part)))
                else:
                    old_parts.append((original, n, squeeze(part)))
        new_parts = [(self.new[0][i], n, squeeze(p)) for i, (n, t) in enumerate(new_req) for p in conjuncts(t)]
        known = {t for _, _, t in old_parts}
        more = set(known)
        for t in known:
            more.update(squeeze(d) for d in self.derived(t))
        new_texts = {t for _, _, t in new_parts}
        # old parts: moved into a type, standing still, or left
        self.only_old, moved, used = [], [], collections.Counter()
        for original, n, t in old_parts:
            if t in said:
                moved.append((original, said[t]))
            elif n == 'Room':
                sink = self.sink_name
                want = f'Room {sink}.old.limit (held {" ".join(self.sheets)} {sink}.old.count)'
                alike = re.fullmatch(rf'Room {sink}\.old\.limit \(held ({"|".join(self.sheets)}) \w+ \w+ ({re.escape(sink)}\.old\.count|0)\)', t)
                if alike and self.env.fits_is_room:
                    moved.append((original, 'Sink.room'))
                else:
                    self.only_old.append((original, t))
            elif t in new_texts:
                used[t] += 1
            else:
                self.only_old.append((original, t))
        self.moved = []
        for original, g in moved:
            if (original, g) not in self.moved:
                self.moved.append((original, g))
        # new parts that no old one says
        self.only_new, self.extra = [], 0
        for original, n, t in new_parts:
            if t in known:
                continue
            if self.has_sink:
                m = re.fullmatch(rf'{self.sink_name}\.old\.count < (0x[\w]+|\d+)', t)
                if m and has_room and int(m.group(1).replace('_', ''), 0) == 0x4000_0000:
                    self.rules.add('far')
                    self.extra += 1
                    continue
                if t == f'{self.sink_name}.old.count ≡ 0' and self.at is None:
                    self.rules.add('empty')
                    self.extra += 1
                    continue
            if t in more:
                self.only_new.append((original, t, False))
            else:
                self.only_new.append((original, t, True))
        # ensures
        old_e = collections.Counter(squeeze(p) for _, t in old_ens for p in conjuncts(t))
        new_e = collections.Counter(squeeze(p) for _, t in new_ens for p in conjuncts(t))
        self.ens_old = [self.old[1][i] for i, (n, t) in enumerate(old_ens) if any(squeeze(p) not in new_e for p in conjuncts(t))]
        self.ens_new = [self.new[1][i] for i, (n, t) in enumerate(new_ens) if any(squeeze(p) not in old_e for p in conjuncts(t))]
        # as many clauses as before, less those that are in the type
        self.counts = (len(old_parts) - len(moved), len(new_parts) - self.extra, sum(old_e.values()), sum(new_e.values()))
        if self.by_rules() and (self.counts[0] != self.counts[1] or self.counts[2] != self.counts[3]):
            self.trouble.append(f'the counts of clauses differ: {self.counts}')
        # what is asked more
        for original, t, asks in self.only_new:
            if asks:
                self.asks.append(('requires', original[1]))
        if self.groups_matter():
            for g, t in says:
                if squeeze(t) not in more:
                    self.asks.append((g, t))
        if self.has_sink and not has_room and getattr(self, 'sheets', None):
            self.asks.append(('Sink.room', 'Fits'))

    def groups_matter(self):
        return bool(self.bundles)

    def same_result(self):
        old, new = self.result_old, self.result_new
        for a, b in RESULTS.items():
            old = re.sub(rf'\b{a}\b', b, old)
        return old == new or ((self.has_sink or self.buffer) and old == '-> usize' and new == '')

    def by_rules_sign(self):
        return not self.left and not self.fresh and self.same_result() and self.type_old == self.type_new and all(t for t, _ in self.groups)

    def by_rules(self):
        """whether nothing is left of the contract once the rules are put in"""
        return not self.only_old and not self.only_new and not self.ens_old and not self.ens_new and not self.trouble

    def line(self):
        bits = [f'{", ".join(t)} -> {n}' for t, n in self.groups if t]
        bits += [f'{o} -> {n}' for o, n in self.renamed]
        if self.result_old != self.result_new and self.result_new:
            bits.append(f'{self.result_old or "nothing"} is {self.result_new or "nothing"}'.replace('-> ', ''))
        into = collections.OrderedDict()
        for original, g in self.moved:
            into.setdefault(original[0] or 'its clause', None)
        if into:
            bits.append('into the type: ' + ', '.join(into))
        return f'{short(self.name)}: ' + ('; '.join(bits) or 'the abbreviations')


def short(name):
    return re.sub(r' src/', ' ', name)


class Env:
    def __init__(self, old, new):
        self.new_tree = new
        spec = importlib.util.spec_from_file_location('contracts', CONTRACTS)
        self.module = importlib.util.module_from_spec(spec)
        spec.loader.exec_module(self.module)
        self.json = json.loads(subprocess.run([sys.executable, CONTRACTS, old, new, '--json'], check=True, capture_output=True, text=True).stdout)
        _, self.old_functions, _, self.old_specs, _, _ = self.module.read(old)
        _, self.new_functions, _, self.new_specs, _, _ = self.module.read(new)
        self.types = Types(new, {n for _, _, n in declared(old)})
        self.records = records(self.new_specs)
        gone = {tuple(x) for x in self.json['definitions']['gone']}
        self.gone_records = {}
        for name, found in records(self.old_specs).items():
            here = [r for r in found if (r[0], name) in gone]
            if here and name != 'Room':
                self.gone_records[name] = here
        # Sink's ghost field is Room, but that its count may be the last that is allowed
        self.fits_is_room = False
        rooms = records(self.old_specs).get('Room')
        if 'Fits' in self.records and rooms:
            room, fits = dict(rooms[0][2]), dict(self.records['Fits'][0][2])
            self.fits_is_room = room.keys() == fits.keys() and all(room[k] == fits[k] or (k == 'far' and room[k].replace(' < ', ' ≤ ') == fits[k]) for k in room) and dict(self.types.ghosts.get('Sink', [])).get('room') == 'Fits limit (held rows cols values count)'
        self.adds_is_wrote = 'Adds' in self.records and wrote(self.old_specs) == wrote(self.new_specs)
        self.short_table = tables(self.old_specs, self.new_specs)
        self.types_gone = sorted(set(declared(old)) - set(declared(new)))

    def public(self, name):
        """whether the old function was public"""
        for (crate, path, place, fn), found in self.old_functions.items():
            if ' '.join(p for p in (crate, path, place, fn) if p) == name:
                return any(f['pub'] for f in found)
        return None


def tables(old, new):
    """whether is_short is true of just the blocks of which work_of is Short"""
    if ('kkt', 'work_of') not in old or ('kkt', 'is_short') not in new:
        return False
    a = dict(re.findall(r'work_of (\w+) = (\w+)', old['kkt', 'work_of'][0]))
    b = dict(re.findall(r'is_short (\w+) = (\w+)', new['kkt', 'is_short'][0]))
    return a.keys() == b.keys() and all((a[k] == 'Short') == (b[k] == 'true') for k in a)


def wrote(specs):
    """Wrote of the old tree, Adds of the new: what they say of bytes, place before and place after; Adds says besides that it is the same buffer"""
    for name, values in (('Wrote', {'bytes': 'bytes', 'old': 'OLD', 'new': 'NEW', 'at': 'AT', 'k': 'END'}), ('Adds', {'bytes': 'bytes', 'old.bytes.now': 'OLD', 'new.bytes.now': 'NEW', 'old.len': 'AT', 'new.len': 'END'})):
        if ('site_text', name) in specs:
            fields = records({('site_text', name): specs['site_text', name]})[name][0][2]
            said = [re.sub(r"[A-Za-z_][\w']*(?:\.[\w']+)*", lambda m: values.get(m.group(0), m.group(0)), t) for _, t in fields]
            return sorted(t for t in said if 'ghost_name' not in t)
    return None


def declared(root):
    out = []
    for path in sorted(glob.glob(os.path.join(root, 'crates/*/src/**/*.rt'), recursive=True)):
        crate = os.path.relpath(path, os.path.join(root, 'crates')).split('/')[0]
        out += [(crate, m.group(1), m.group(2)) for m in re.finditer(r'^(?:pub )?(struct|enum|type) (\w+)', open(path, encoding='utf-8').read(), re.M)]
    return out


def pairs(env):
    signs = collections.OrderedDict()
    for name, a, b in env.json['signatures changed']:
        signs.setdefault(name, []).append((a, b))
    out, seen = [], collections.Counter()
    for name, ro, eo, rn, en in env.json['contracts changed']:
        key = [x for x in signs.get(name, [])]
        if key:
            a, b = key[min(seen[name], len(key) - 1)]
        else:
            a = b = old_sign(env, name)
        seen[name] += 1
        out.append(Pair(name, a, b, (tup(ro), tup(eo)), (tup(rn), tup(en)), env))
    named = {p.name for p in out}
    for name, found in signs.items():
        if name not in named:
            for a, b in found:
                out.append(Pair(name, a, b, ([], []), ([], []), env))
    return sorted(out, key=lambda p: p.name)


def laid(text):
    """prose in lines of 150"""
    out = []
    for block in text.split('\n\n'):
        for item in re.split(r'\n(?=- )', block):
            out.append(textwrap.fill(squeeze(item), 150, subsequent_indent='  ' if item.startswith('- ') else '', break_long_words=False, break_on_hyphens=False))
        out.append('')
    return '\n'.join(out[:-1])


def tup(clauses):
    return [tuple(c) for c in clauses]


def old_sign(env, name):
    for (crate, path, place, fn), found in env.old_functions.items():
        if ' '.join(p for p in (crate, path, place, fn) if p) == name:
            return found[0]['sign']
    raise KeyError(name)


def clause(mark, word, c):
    return f'{mark} {word} {c[0] + " " if c[0] else ""}{{ {c[1]} }}'


def listed(p):
    """the clauses of a function that still differ, old and new"""
    out = []
    old_req = [c for c in p.old[0] if any(c == o for o, _ in p.only_old)]
    new_req = [c for c in p.new[0] if any(c == o for o, _, _ in p.only_new)]
    out += [clause('-', 'requires', c) for c in old_req]
    out += [clause('-', 'ensures', c) for c in p.ens_old]
    out += [clause('+', 'requires', c) for c in new_req]
    out += [clause('+', 'ensures', c) for c in p.ens_new]
    return out


# Why a clause that text cannot show to be the old one asks no more, or who meets it. By function.
SAME = {
    'capi_problem program.rt lists_back': 'the same, of the two counts in one struct',
    'change lib.rt place_of': 'the same: field and index were found from the head within, and the old clause says this of the head',
    'contraction lib.rt contract_row': 'the same: of the forward mode, which is the one that is left here, `Sided` says this of the words that are made',
    'contraction lib.rt contract_rows': 'the same: of the forward mode, which is the one that is left here, `Sided` says this',
    'kkt_generators lib.rt put_dispatch': "another function: the old one put one generator's entries and is part of `put_turns`; this one stands for the public `put_generators`, which asked the same",
    'site_text lib.rt put_change': 'the same where the buffer is empty, as the old one took it to be',
}
MORE = {
    'capi_contraction calls.rt first_out': 'before, the function made the array of one count itself; its one caller, the export, makes it now',
    'capi_contraction calls.rt third_out': 'before, the function made the array of one count itself; its one caller, the export, makes it now',
    'opf_problem lib.rt lay_a': 'the same: `parts_in` (opf_problem/specs/Walks) names the parts that the old clause spells out',
    'opf_problem lib.rt lay_p': 'the same: `parts_in` (opf_problem/specs/Walks) names the parts that the old clause spells out',
    'opf_problem lib.rt lay_program': 'the same: `parts_in` (opf_problem/specs/Walks) names the parts that the old clause spells out',
    'opf_problem lib.rt lay_sides': 'the same: `parts_in` (opf_problem/specs/Walks) names the parts that the old clause spells out',
    'kkt_rows lib.rt put_terms': 'by its type, and the terms are the site\'s; its callers have such a value',
    'opf_readback lib.rt cost_sum': 'the same of a slice: it is just what is filled or read, cut by the caller, where it stood beside a place in the whole',
    'opf_readback lib.rt objective_of': 'the same of a slice: it is just what is filled or read, cut by the caller, where it stood beside a place in the whole',
    'opf_readback lib.rt put_duals': 'the same of a slice: it is just what is filled or read, cut by the caller, where it stood beside a place in the whole',
    'opf_readback lib.rt put_entry': 'the same of a slice: it is just what is filled or read, cut by the caller, where it stood beside a place in the whole',
    'opf_readback lib.rt put_flagged': 'the same of a slice: it is just what is filled or read, cut by the caller, where it stood beside a place in the whole',
    'opf_readback lib.rt put_lower': 'the same of a slice: it is just what is filled or read, cut by the caller, where it stood beside a place in the whole',
    'opf_readback lib.rt put_sheds': 'the same of a slice: it is just what is filled or read, cut by the caller, where it stood beside a place in the whole',
    'opf_readback lib.rt put_turned': 'the same of a slice: it is just what is filled or read, cut by the caller, where it stood beside a place in the whole',
    'opf_readback lib.rt put_values': 'the same of a slice: it is just what is filled or read, cut by the caller, where it stood beside a place in the whole',
    'opf_readback lib.rt signed_of': 'the same of a slice: it is just what is filled or read, cut by the caller, where it stood beside a place in the whole',
    'problem lib.rt nodal_into': 'the same of a slice: it is just what is filled or read, cut by the caller, where it stood beside a place in the whole',
    'sens_operands lib.rt put_rows': 'the same of a slice: it is just what is filled or read, cut by the caller, where it stood beside a place in the whole',
    'sens_snap duals.rt bound_duals': 'the same of a slice: it is just what is filled or read, cut by the caller, where it stood beside a place in the whole',
    'sens_snap sheet.rt put_entry': 'the same of a slice: it is just what is filled or read, cut by the caller, where it stood beside a place in the whole',
    'sens_snap sheet.rt put_generator_duals': 'the same of a slice: it is just what is filled or read, cut by the caller, where it stood beside a place in the whole',
    'sens_snap sheet.rt put_segment_duals': 'the same of a slice: it is just what is filled or read, cut by the caller, where it stood beside a place in the whole',
    'sens_snap sheet.rt put_words': 'the same of a slice: it is just what is filled or read, cut by the caller, where it stood beside a place in the whole',
    'parameter_column lib.rt constraint_column': 'the same: `Column` holds counts, index and words that are fitted, and the counts are the point\'s; of the sheet it asks what it asked, of the point\'s own pieces',
    'parameter_column lib.rt demand_column': 'the same: `Column` holds counts, index and words that are fitted, and the counts are the point\'s; of the sheet it asks what it asked, of the point\'s own pieces',
    'parameter_column lib.rt gamma_column': 'the same: `Column` holds counts, index and words that are fitted, and the counts are the point\'s; of the sheet it asks what it asked, of the point\'s own pieces',
    'parameter_column lib.rt limit_column': 'the same: `Column` holds counts, index and words that are fitted, and the counts are the point\'s; of the sheet it asks what it asked, of the point\'s own pieces',
    'parameter_column lib.rt quadratic_column': 'the same: `Column` holds counts, index and words that are fitted, and the counts are the point\'s; of the sheet it asks what it asked, of the point\'s own pieces',
    'parameter_column lib.rt shift_column': 'the same: `Column` holds counts, index and words that are fitted, and the counts are the point\'s; of the sheet it asks what it asked, of the point\'s own pieces',
    'parameter_column lib.rt susceptance_column': 'the same: `Column` holds counts, index and words that are fitted, and the counts are the point\'s; of the sheet it asks what it asked, of the point\'s own pieces',
    'parameter_column lib.rt switching_column': 'the same: `Column` holds counts, index and words that are fitted, and the counts are the point\'s; of the sheet it asks what it asked, of the point\'s own pieces',
    'parameter_column lib.rt weight_column': 'the same: `Column` holds counts, index and words that are fitted, and the counts are the point\'s; of the sheet it asks what it asked, of the point\'s own pieces',
    'opf_readback lib.rt read_into': 'the same: `RawPoint` says of the vectors and the layout what the old clauses said, and the number of pieces is the layout\'s',
    'sens_snap sheet.rt snap_into': 'the same: `CountedPoint` says of the point what the clause on its pieces said',
    'site_text lib.rt put_named_b': 'the same of a change\'s kind and index, which the old clauses read from its first word',
    'contraction lib.rt adjoint_column': 'the same of slices as long as the system: `Sheet` and the slices hold dimension and columns, which went beside them',
    'contraction lib.rt adjoint_word': 'the same of slices as long as the system: `Sheet` and the slices hold dimension and columns, which went beside them',
    'contraction lib.rt contract_columns': 'the same of slices as long as the system: `Sheet` and the slices hold dimension and columns, which went beside them',
    'contraction lib.rt gather_rest': 'the same of slices as long as the system: `Sheet` and the slices hold dimension and columns, which went beside them',
    'opf_rows lib.rt put_both': 'by its type: `LinearRow` says of row and start what the old clauses said, and holds the site, which its callers have',
    'opf_rows lib.rt put_terms': 'by its type: `LinearRow` says of row and start what the old clauses said, and holds the site, which its callers have',
    'opf_rows lib.rt put_written': 'by its type: `LinearRow` says of row and start what the old clauses said, and holds the site, which its callers have',
    'replay_opf main.rt number_at': 'before, it answered 0 where there is no number; its callers stay within the record',
    'sens_parameters lib.rt lay_columns': 'before, of any number of pieces that the sheet is laid with; its one caller had the number that the wiring gives',
}
TYPE = 'by its type alone; its callers have such a value'

RULES = '''Said once, as rules. The script that makes these lists puts the rules into the old contract, unfolds the new abbreviations by their definitions
in the tree, and compares clause by clause, as text.

- A parameter that became a field of a struct is that field: `c` is `counts`, `wiring`, `readings`, `term_index` and `term_coefficient` are the fields of
  these names, `sheet` and `solution` are `sheet`, `x` and `idx` are `index`, `p` (and, beside a sheet, `idx.pieces`) is `pieces`, `lay` is `layout`. So
  `wiring.now` is `grid.now.plan.wiring.now` where a `Grid` is lent, and `kkt.now.grid.plan.wiring.now` where a `Kkt` is. A clause that a ghost field of the struct says
  word for word is no clause any more: there is no such value without it. `sign`, `counts`, `rows`, `weights` are a `Selector`. Of what is lent
  shared, `.entry` and `.now` are one, and `A × B` is two clauses.
- Three sheets, `limit` (or `cap`) and `at` are a `Sink`: `at` is `sink.old.count`, `limit` is `sink.old.limit`, what a function answered as the next place is
  `sink.new.count`, `rows.new` is `sink.new.rows.now`. `Puts limit X (held rows.entry .. at) (held rows.exit .. result)` is `Gains X sink.old sink.new`, which says
  besides that the limit and the lent sheets stay the same. `Room limit (held rows cols values at)` is the sink's ghost field `Fits`, but that the count may be
  0x4000_0000 itself; where no other clause bounds the count, `sink.old.count < 0x4000_0000` is one, which `Room` said. A function without `at` began at place 0, so the
  count of its sink is 0.
- `out` and `at` of a text are a `Buffer`: `at` is `text.old.len`, `result` is `text.new.len`, `out.old` is `text.old.bytes.now`, and `Wrote X out.old out.new at result` is
  `Adds X text.old text.new`.
- `emitted_at`, `item_at`, `written_at`, `network_in`, `selector_in`, `answered` and `listed` are abbreviations: `emitted_at k` is
  `emitted (start_in k.index) (reading ..) (solved ..)`, `network_in lent` is `lent lent.wiring lent.readings lent.term_index lent.term_coefficient`, `answered result out` is
  `filled (number_of result) (count_of result) out`, and so on.
- `number` and `count`, as parameters or of an old `Answer`, are `number_of` and `count_of` of the `Result`; `number`, `a` and `p` of an assembly are `number_of answer`,
  `(written_of answer).a` and `.p`. A flag beside a count is an option: `r.ok ≡ b` is `is_some r ≡ b`, and `r.ok ≡ true → P r.count` is `IfSome r (λ n. P n)`.
- `Item` is `Option<Triplet>`, `Three` `[Option<Triplet>; 3]`, `Linear` `Option<f64>`, `Part` and `Gathering` `Option<usize>`. `work_of b ≡ Short` is `IsTrue (is_short b)`: the two
  tables agree on every block.
- `Lent` (kkt/specs/Walks, opf_program/specs/Walks) and `Laid` (opf_problem/specs/Walks), records that went, are their fields, one by one.
- A parameter may have another name.'''


def main(argv):
    old, new, page = argv[:3]
    env = Env(old, new)
    found = pairs(env)
    signed = {(n, a, b) for n, a, b in env.json['signatures changed']}
    out = [HEADING, '', laid('As `contracts.py` of the kit lists them, by text; lemmas of proofs/ aside. ' + lost(env)), '']
    alone = [p for p in found if p.by_rules() and p.by_rules_sign()]
    rest = [p for p in found if p not in alone]
    out += ['### Rules', '', laid(RULES), '', 'The structs and what their ghost fields say:', '', '```text']
    for name in sorted(env.types.ghosts):
        for g, t in env.types.ghosts[name]:
            out.append(f'{env.types.crate[name]} {name} {g} {{ {t} }}')
    out += ['```', '']
    out += ['### By the rules alone', '', f'{len(alone)} functions: every clause is the same once the rules are put in, as many as before less those that are in the type. Old parameters stand before the arrow, new ones behind it.', '', '```text']
    out += [p.line() for p in alone]
    out += ['```', '', '### What asks more of callers', '']
    asking = [p for p in found if p.asks and short(p.name) not in SAME]
    same = [p for p in found if p.asks and short(p.name) in SAME]
    public = [p for p in asking if env.public(p.name)]
    out += [more(env, asking, public), '']
    if asking:
        out += ['```text']
        for p in asking:
            out.append(f'{short(p.name)} ({"public" if env.public(p.name) else "private"}): {why(p)}')
            out += [f'+ {g} {{ {t} }}' for g, t in p.asks]
        out += ['```', '']
    if same:
        out += ['Read one by one and found to ask no more, though their text is another:', '']
        out += [laid(f'- {short(p.name)}: {SAME[short(p.name)]}.') for p in same] + ['']
    out += ['### Signatures', '', '```text']
    partly = []
    for p in rest:
        if (p.name, p.old_sign, p.new_sign) not in signed:
            continue
        if p.by_rules_sign():
            partly.append(p.line())
        else:
            out += [short(p.name), f'- {p.old_sign}', f'+ {p.new_sign}']
    out += ['```', '']
    if partly:
        out += ['By the rules alone, where a clause stands in the next section:', '', '```text'] + partly + ['```', '']
    out += ['### Clauses', '', '```text']
    for p in rest:
        lines = listed(p)
        if lines:
            out += [short(p.name)] + lines
            if p.moved:
                names = list(collections.OrderedDict.fromkeys(o[0] or 'its clause' for o, _ in p.moved))
                out.append('  into the type: ' + ', '.join(names))
    out += ['```', '', '### Definitions', '', '```text']
    for *key, a, b in env.json['definitions']['changed']:
        out.append(' '.join(key))
        out += [f'- {t}' for t in a] + [f'+ {t}' for t in b]
    out += ['```', '', '### Ghost fields and edits', '', '```text']
    for label in ('ghost items and constants', 'edits and outputs'):
        for *key, a, b in env.json[label]['changed']:
            out.append(' '.join(key))
            out += [f'- {t}' for t in ([a] if isinstance(a, str) else a)] + [f'+ {t}' for t in ([b] if isinstance(b, str) else b)]
    out += ['```', '']
    text = open(page, encoding='utf-8').read()
    print(f'functions: by the rules alone {len(alone)}, in full {len(rest)}, asking more {len(asking)}, of them public {len(public)}')
    for p in asking:
        print('asks more:', short(p.name), 'PUBLIC' if env.public(p.name) else 'private', why(p), *[f'\n    {g} {{ {t} }}' for g, t in p.asks])
    for p in found:
        if p.trouble:
            print('trouble:', short(p.name), p.trouble)
    above = text[:text.index(HEADING)]
    went(env, above)
    if '--check' not in argv:
        open(page, 'w', encoding='utf-8').write(counted(new, above) + '\n'.join(out))


def why(p):
    if short(p.name) in MORE:
        return MORE[short(p.name)]
    return TYPE if all(g != 'requires' for g, _ in p.asks) else 'TO BE JUDGED'


# Of what tools/places.py prints, what stays and why; the first pattern that a line fits counts.
KEPT = {
    '1': [('C', r'.')],
    '2': [('C', r'crates/capi'), ('plain', r'crates/(decoding|replay_)|fn (columns|rows) '), ('form', r'fn (linear_rows|count_sheds|count_equalities|count_inequalities) ')],
    '3': [('form', r'while let'), ('speed', r'crates/network/'), ('plain', r'crates/(kkt_chains|susceptance)/.*while|crates/(words|model)/')],
    '4': [('form', r'fn (try_from|number) '), ('plain', r'fn (objective_of|solved_is_long|limits_of|is_named) ')],
    '5': [
        ('C', r'crates/capi|crates/replay_|crates/decoding|fn (change|make|run_changes|change_b|susceptance_coo|kkt_triplets|assemble_opf):'),
        ('plain', r'.'),
    ],
    '6': [('plain', r'.')],
    '7': [('plain', r'.')],
}


# Places that tools/places.py does not see, found by reading, and still to do.
READ = {'1': 7, '2': 15, '3': 14, '4': 21, '5': 8, '6': 2, '7': 2}


def counted(new, text):
    """today's counts, and the table"""
    run = lambda *a: subprocess.run([sys.executable, 'tools/places.py', *a], check=True, capture_output=True, text=True, cwd=new).stdout.splitlines()  # noqa: E731
    today = {l.split(':')[0]: int(l.split()[1]) for l in run()}
    before = {}

    def row(m):
        before[m.group(2)] = int(m.group(3))
        return f'{m.group(1)} {m.group(3)} | {today[m.group(2)]} |'

    text = re.sub(r'^(\| (\d): .* \|) (\d+) \| \d+ \|$', row, text, flags=re.M)
    files = glob.glob(os.path.join(new, 'crates/*/proofs/**/*.antt'), recursive=True)
    read = lambda paths: [l for p in paths for l in open(p, encoding='utf-8')]  # noqa: E731
    answers = [p for p in files if p.endswith('/Answers.antt')]
    n = {
        'answers': len(answers), 'invariants': sum(p.endswith('/Invariants.antt') for p in files),
        'goals': sum(bool(re.match(r'(abbrev )?pub .* : goal\.', l)) for l in read(answers)), 'proofs': len(read(files)),
        'src': len(read(glob.glob(os.path.join(new, 'crates/*/src/**/*.rt'), recursive=True))),
    }
    m = re.search(r'(files `Answers\.antt` 364 and today )[\d,]+(, `Invariants\.antt` 112 and )[\d,]+(, goals .*? 2,657 and )[\d,]+(, lines of proofs 37,543 and )[\d,]+(; lines of src/\s+16,074 and )[\d,]+', text, re.S)
    text = text[:m.start()] + ''.join(f'{a}{n[k]:,}' for a, k in zip(m.groups(), n)) + text[m.end():]
    rows = []
    for point in sorted(today):
        kept = collections.Counter()
        for line in run(point):
            kept[next((why for why, p in KEPT[point] if re.search(p, line)), 'todo')] += 1
        forms, todo = kept.pop('form', 0), kept.pop('todo', 0) + kept.pop('to do', 0)
        rows.append(f'| {point} | {before[point]} | {before[point] - today[point]} | {", ".join(f"{c} {w}" for w, c in kept.items()) or "0"} | {forms} | {todo + READ[point]} |')
    head = '| point | places found | changed | kept, with a reason | of today\'s forms | still to do |\n|---|---|---|---|---|---|\n'
    return re.sub(r'\| point \| places found .*?\n(?=\| 8 )', lambda _: head + '\n'.join(rows) + '\n', text, count=1, flags=re.S)


def lost(env):
    j = env.json
    bits = []
    gone = [short(x) for x in j['ensures all gone']]
    rest = {'replay_opf main.rt ' + n for n in ('assembled', 'doubles', 'list', 'words')}
    said = ' but ' + ', '.join(g.split(' ')[-1] for g in gone) + ' of replay_opf, which answer the rest of the record as a slice, where they answered a place and promised that it lies within' if set(gone) == rest else ' but ' + ', '.join(gone) if gone else ''
    bits.append('Of the functions that are found again none lost its clauses' + said)
    bits.append('none that was public is no longer so' if not j['no longer pub'] else 'no longer public: ' + ', '.join(map(short, j['no longer pub'])))
    n = j['edits and outputs']['gone']
    bits.append('no test, edit, input or output went' if not n and not j['tests']['gone'] else 'gone: ' + ', '.join(' '.join(x) for x in n + j['tests']['gone']))
    return '; '.join(bits) + '.'


def more(env, asking, public):
    if not asking:
        return 'Nothing: no function has a new or narrower `requires`, and no type says more than the clauses that it stands for.'
    return f'{len(asking)} functions, of them {len(public)} public: a new or narrower `requires`, or a type that says more than the clauses it stands for.'


def went(env, above):
    """what contracts.py no longer finds, and the page does not name"""
    names = [(n.split(' ')[0], n.split(' (')[0].split(' ')[-1]) for n in env.json['functions not found again']]
    names += [(n[0], n[-1]) for n in env.json['definitions']['gone']]
    names += [(c, n) for c, _, n in env.types_gone]
    for crate, name in names:
        if not re.search(rf'`{re.escape(name)}`', above):
            print('went, not named by the page:', crate, name)


main(sys.argv[1:])
