#!/usr/bin/env python3
"""Places in crates/*/src where today's forms may be plainer, point by point of docs/DESIGN-PASS.md.

    tools/places.py            the counts
    tools/places.py POINT      each place of a point, as file:line and what stands there
"""
import collections
import glob
import re
import sys

FN = re.compile(
    r'^( *)((?:#\[[^\n]*\]\n +)*)((?:pub )?(?:extern "C" )?)fn (\w+)(<(?:[^<>]|<[^<>]*>|->)*>)?\(([^{]*?)\)( -> [^\n{]*)?'
    r'\n?((?: +(?:requires|ensures\*?)[^\n]*\n)*) *\{\n(.*?)^\1\}', re.M | re.S)


def sources():
    for path in sorted(glob.glob('crates/*/src/*.rt')):
        with open(path) as f:
            yield path, f.read()


def functions():
    for path, text in sources():
        for m in FN.finditer(text):
            yield (path, text.count('\n', 0, m.start(4)) + 1, m.group(3), m.group(4), m.group(6), m.group(7) or '',
                   m.group(8), m.group(9))


def lines(pattern):
    return [(path, text.count('\n', 0, m.start()) + 1, m.group(0).strip())
            for path, text in sources() for m in re.finditer(pattern, text, re.M)]


def point1():
    """enums of the shape of Option, a flag or a number beside a value, numbers for refusals"""
    found = lines(r'^    Unknown,$')
    found += lines(r'^    (?:pub )?(?:ok|keep): bool,$')
    found += lines(r'^    (?:pub )?number: u32,$')
    found += lines(r'\bnumber: [1-7],|^ *return [1-7];$')
    found += [(p, n, f'fn {name}{result}') for p, n, how, name, _, result, _, _ in functions()
              if result == ' -> u32' and 'extern' not in how and re.search(r'number|unknown|four_if|note', name)]
    return found


def shape(parameters, result, body):
    """a body with each name as its place of first use, and each number and type as one mark"""
    seen = {}

    def mark(m):
        word = m.group(0)
        if re.fullmatch(r'if|else|return|let|mut|for|in|while|match|true|false|as', word):
            return word
        if re.fullmatch(r'[uf]\d+|usize|bool|[A-Z]\w*', word):
            return 'T'
        return 'x%d' % seen.setdefault(word, len(seen))

    text = re.sub(r'//[^\n]*', '', parameters + '|' + result + '|' + body)
    text = re.sub(r'\b\d[\w.]*', '0', text)
    return ' '.join(re.sub(r'\b[A-Za-z_]\w*', mark, text).split())


def point2():
    """functions whose text is the same but for names, types and numbers"""
    same = collections.defaultdict(list)
    for path, line, _, name, parameters, result, _, body in functions():
        if len(body.split('\n')) > 2:
            same[shape(parameters, result, body)].append((path, line, name))
    return [(p, n, f'fn {name} (of {len(group)})') for group in same.values() if len(group) > 1 for p, n, name in group]


def point3():
    """while loops, and for loops over an index whose body is one fill, copy or test"""
    found = lines(r'^ *while .*\{$')
    found += lines(r'^( *)for (\w+) in 0\.\.[^\n]*\{\n\1    \w+\[\2\] = [^\n]*;\n\1\}')
    found += lines(r'^( *)for (\w+) in 0\.\.[^\n]*\{\n\1    if [^\n]*\{\n\1        return (?:true|false);\n\1    \}\n\1\}')
    return [(p, n, what.split('\n')[0]) for p, n, what in found]


def point4():
    """numbers turned into enums and back by hand, equality by hand"""
    found = [(p, n, f'fn {name}{result}') for p, n, _, name, parameters, result, _, body in functions()
             if re.search(r'^ +\d+ => ', body, re.M) or (result == ' -> u32' and re.search(r'=> \d+,$', body, re.M))]
    return found + [(p, n, f'fn {name}{result}') for p, n, _, name, parameters, result, _, body in functions()
                    if result == ' -> bool' and re.search(r'=> (?:true|false),$', body, re.M)]


# Of each group the first bundle that a function takes whole counts.
BUNDLES = [
    [['wiring: &', 'readings: &', 'term_index: &', 'term_coefficient: &'], ['wiring: &', 'readings: &', 'c: Counts'],
     ['wiring: &', 'c: Counts'], ['readings: &', 'c: Counts'],
     ['point: &OperatingPoint', 'term_index: &', 'term_coefficient: &'], ['kkt: &Kkt', 'term_index: &', 'term_coefficient: &']],
    [['sheet: &', 'c: Counts', 'p: usize'], ['solution: &', 'c: Counts', 'p: usize'], ['sheet: &', 'c: Counts', 'x: KktIdx']],
    [['rows: &mut', 'cols: &mut', 'values: &mut', 'limit: usize'], ['rows: &mut', 'cols: &mut', 'values: &mut']],
    [['sign: f64', 'counts: &[', 'rows: &[', 'weights: &[']],
    [['idx: KktIdx', 'column: &mut']],
    [['out: &mut [f64]', 'at: usize']],
]


def point5():
    """parameters that travel together"""
    return [(path, line, f'fn {name}: ' + ', '.join(part.split(':')[0] for part in bundle))
            for path, line, how, name, parameters, _, _, _ in functions() if 'extern' not in how
            for group in BUNDLES for bundle in [next((b for b in group if all(part in parameters for part in b)), None)] if bundle]


def point6():
    """a slice or array beside how much of it counts, parallel slices, searches by hand"""
    return [(p, n, f'fn {name}') for p, n, _, name, parameters, _, _, _ in functions()
            if re.search(r'head: &(?:mut )?\[u32\],\s*next: ', parameters) or re.search(r'buses: &(?:mut )?\[u32\],(?:\s*cols: [^,]*,)?\s*sums: ', parameters)
            or re.search(r'\bacc: &(?:mut )?\[f64\],\s*hit: ', parameters)]


def point7():
    """enums that say which step is run"""
    return lines(r'^(?:pub )?enum (?:Work|Use|Side|Group|How|Sides)\b')


def main():
    points = {str(n): globals()[f'point{n}'] for n in range(1, 8)}
    if len(sys.argv) > 1:
        for path, line, what in points[sys.argv[1]]():
            print(f'{path}:{line}: {what}')
    else:
        for n, find in points.items():
            print(f'{n}: {len(find())} {find.__doc__}')


main()
