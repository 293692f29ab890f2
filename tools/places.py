#!/usr/bin/env python3
"""Counts the places of docs/DESIGN-PASS.md in src/. At the top: tools/places.py [--list]"""
import collections
import glob
import re
import sys

LIST = '--list' in sys.argv
files = sorted(glob.glob('crates/*/src/**/*.rt', recursive=True))
text = {f: open(f).read() for f in files}

# ---- functions: where, name, parameters, clauses, body

Fn = collections.namedtuple('Fn', 'file line name params clauses body')


def functions():
    head = re.compile(r'^[ ]*(?:#\[[^\n]*\n[ ]*)*(?:pub(?:\(crate\))? )?(?:extern "C" )?fn (\w+)(?:<[^\n]*?>)?\(', re.M)
    for f, s in text.items():
        for m in head.finditer(s):
            depth, i = 1, m.end()
            while depth:
                depth += {'(': 1, ')': -1}.get(s[i], 0)
                i += 1
            params = s[m.end():i - 1]
            ind = re.match(r'[ ]*', s[s.rfind('\n', 0, m.start(1)) + 1:]).group(0)
            j = s.find('{\n', i)
            one = re.compile(r'^%s\{$|\{$' % ind, re.M).search(s, i)
            j = one.end() if one else j
            k = s.find('\n%s}' % ind, j)
            yield Fn(f, s.count('\n', 0, m.start(1)) + 1, m.group(1), re.sub(r'\s+', ' ', params).strip(' ,'), s[i:j], s[j:k])


fns = list(functions())


def show(title, rows):
    print('%4d  %s' % (len(rows), title))
    if LIST:
        for r in rows:
            print('        ' + r)


def lines(pattern):
    p = re.compile(pattern)
    return ['%s:%d %s' % (f, n, l.strip()) for f, s in text.items() for n, l in enumerate(s.split('\n'), 1) if p.search(l)]


print('1. enums of our own in place of Option or Result, flags with a value beside, numbers for kinds or refusals')
shaped = []
for f, s in text.items():
    for m in re.finditer(r'enum (\w+) \{([^}]*)\}', s):
        kinds = [v.strip(' ,') for v in m.group(2).split('\n') if v.strip() and not v.strip().startswith('//')]
        named = ' '.join(kinds)
        if re.search(r'Refused\(u8\)|No\(u8\)|\bBad\b', named) or (len(kinds) == 2 and '(' in named):
            shaped.append('%s %s' % (f, m.group(1)))
show('enums shaped like Option or Result', shaped)
show('refusals by number', lines(r'\b(Refused|No)\(\d+\)|Terminal::\w+ => (10|17),$|\bn: u8\) -> usize|fn refused\('))
show('flags with a value beside', lines(r'^\s+\w+: bool,$'))
show('numbers that stand for none or failed', lines(r'fn (find|next_zone|class_at)\(.*-> usize|^\s*Err\(_\) => 0,'))
show('kinds by number', lines(r'word: u8|op == b|\bop\b.*== b'))
show('functions that take the step code as a number, types that have it', ['%s:%d %s' % (x.file, x.line, x.name) for x in fns if re.search(r'\bstep: (usize|u32)', x.params)]
     + lines(r'^struct (Test|Sizes)\b'))

print('2. functions alike but for names, numbers and types, in groups')
shape = collections.defaultdict(list)
for x in fns:
    toks = re.findall(r'\w+|[^\w\s]', re.sub(r'//[^\n]*', '', x.body))
    key = ' '.join('w' if re.match(r'\w', t) and t not in KEY else t for t in toks) if (KEY := {'if', 'else', 'while', 'for', 'in', 'match', 'return', 'let', 'mut'}) else ''
    if len(toks) >= 4:
        shape[key].append('%s:%d %s' % (x.file, x.line, x.name))
groups = [v for v in shape.values() if len(v) > 1]
print('%4d  functions in %d groups' % (sum(map(len, groups)), len(groups)))
if LIST:
    for g in groups:
        print('        ' + '; '.join(g))

print('3. loops')
show('while and loop', lines(r'^\s*(\'\w+: )?(while|loop)\b'))
show('for', lines(r'^\s*(\'\w+: )?for\b'))

print('4. equality, order, copying, conversion and printing by hand')
show('types that derive Clone and Copy alone', lines(r'derive\(Clone, Copy\)\]'))
show('functions that only widen, compare or choose', ['%s:%d %s' % (x.file, x.line, x.name) for x in fns
     if re.fullmatch(r'(wide\d*|least|one_if|of_(answer|begun|outcome|first|second)|is_(done|list)|room_if|reply_of)', x.name)])
show('functions that copy or compare bytes by hand', ['%s:%d %s' % (x.file, x.line, x.name) for x in fns
     if re.fullmatch(r'(copy_up|copy_down|copy_within|fill|equal|all_zero|load|write_run)', x.name)])
show('functions that print by hand', ['%s:%d %s' % (x.file, x.line, x.name) for x in fns
     if re.fullmatch(r'(word|decimal|number|tag_number|refused|answer|stores|outcome|begun|say|line)', x.name) and 'out: &mut Stdout' in x.params])

print('5. facts in the contracts of three or more functions, parameters that travel together')
fact = collections.defaultdict(set)
for x in fns:
    for req in re.findall(r'requires(?: \w+)? \{ (.*) \}$', x.clauses, re.M):
        for part in re.split(r' × ', req):
            part = re.sub(r'\.(old|now)', '', part.strip('() '))
            fact[part].add('%s %s' % (x.file, x.name))
rows = ['%d  %s' % (len(v), k) for k, v in sorted(fact.items(), key=lambda kv: -len(kv[1])) if len(v) >= 3]
show('facts', rows)
pairs = collections.Counter()
for x in fns:
    ps = [p.strip() for p in x.params.split(',') if ':' in p]
    for i in range(len(ps)):
        for j in range(i + 1, len(ps)):
            pairs[ps[i] + ', ' + ps[j]] += 1
show('pairs of parameters in five or more functions', ['%d  %s' % (n, p) for p, n in pairs.most_common() if n >= 5])

print('6. buffers with a length beside them, sorted lists searched by hand')
show('functions that take bytes and how many of them are used', ['%s:%d %s' % (x.file, x.line, x.name) for x in fns if re.search(r'\bheld: usize', x.params)])
show('halving searches', lines(r'^\s*while low < high'))

print('7. a switch on which step to run')
show('functions that choose a step by a kind passed to them', ['%s:%d %s' % (x.file, x.line, x.name) for x in fns
     if (re.search(r': (Of|Merge|Terminal|Word|Side|Command)\b', x.params) or x.params.startswith('self')) and re.search(r'match (of|m|by|w|word|c\.word|self|side)\b', x.body)
     or re.search(r'\bmatch side\b', x.body)])

print('8. proofs')
ans = glob.glob('crates/*/proofs/**/Answers.antt', recursive=True) + glob.glob('crates/*/proofs/**/Invariants.antt', recursive=True)
count = sum(len(re.findall(r'^pub [\w\-+]+ :', open(f).read(), re.M)) for f in ans if f.endswith('Answers.antt'))
print('%4d  answers in %d files, %d lines' % (count, len(ans), sum(open(f).read().count('\n') for f in ans)))
