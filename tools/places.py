#!/usr/bin/env python3
"""Lists the places in src/ that a design pass looks at.

usage: python3 tools/places.py [POINT]     at the top; without a point, only how many there are of each

A place is a line that a pattern finds (points 1, 3, 4, 6 and 7), a pair of functions that say nearly the same
(2), a clause or a pair of parameters that three functions or more share (5), or a file in proofs/ (8). What
it finds is to be read: not each of them wants another form.
"""
import collections, difflib, glob, re, sys

FILES = sorted(glob.glob('crates/*/src/**/*.rt', recursive=True))
LINES = {
    1: r'^\s*(pub(\(crate\))? )?enum |: bool,$|_at: u64,$|: Option<\w+>, *$|links: \[u32'
       r'|fn (number|from_number|kind_from|meaning|link_number)\b'
       r'|Err\((\w+)\) => (return )?(Ok\()?Err\(|Err\(\w+\) => (false|0|Answer|Ok\(Answer)|=> return (None|Some)|if let (Err|Some)\(\w+\) ='
       r'|Some\(\w+\) => (\w+|Ok\(\w+\)),$|None => (0|false|nothing|Err\(.*|Ok\(\(?\)?\)|&line.*),$|Err\(AllocError\)',
    3: r'\bwhile |\bfor \w+ in [^{]*\.\.|\.enumerate\(\)|\b(count|next|place|members) (\+=|-=) 1;|count = count\.saturating_add|\.get\(\*?\w+\)',
    4: r'^\s*impl\b.* for |fn (new|number|from_number|kind_from|numbers_of|row_of|to_bytes|from_bytes|from_numbers|kind_name|link_number|stands_for)\b|write(ln)?!\(|Value \{ root: 0, setup: 0 \}|promised: 0',
    6: r'\b(used|n|accounts): usize,$|\[\w+(<.*>)?; \d+\],?$|\w+: \[\w+; \d+\]|maxima|Vec<usize>|\.(links|places|sent)\[k\]',
    7: r'enum (Pass|Mark|Story)\b|match (self|story|trial\.story|layout|i) \{|\bfn\(|\bdyn |\bFn(Mut|Once)?\(',
}


def functions():
    for path in FILES:
        text = open(path).read()
        for m in re.finditer(r'^( *)(?:pub(?:\(crate\))? )?fn (\w+).*?^\1\}', text, re.M | re.S):
            yield path, m.group(2), m.group(0)


def body(text):
    code = re.sub(r'^\s*(requires|ensures).*$', '', text, flags=re.M)
    return re.findall(r'\w+|[^\w\s]', re.sub(r'//.*', '', code))


def twins():
    found = [(p, n, body(t)) for p, n, t in functions() if '#[test]' not in t]
    found = [f for f in found if len(f[2]) > 30]
    for i, (p, n, b) in enumerate(found):
        for q, m, c in found[i + 1:]:
            match = difflib.SequenceMatcher(None, b, c, autojunk=False)
            if match.quick_ratio() > 0.8 and match.ratio() > 0.8:
                yield f'{p}:{n} ~ {q}:{m}'


def shared():
    clauses, pairs = collections.defaultdict(list), collections.defaultdict(list)
    for path, name, text in functions():
        for clause in re.findall(r'^\s*(?:requires|ensures)(?: \w+)? (\{.*\})$', text, re.M):
            for part in re.findall(r'\w+(?:\.\w+)? < \d+|model_of \S+ \S+ \S+|device_of self\.\w+|string_bytes \S+ ≡ string_bytes \S+', clause):
                clauses[part].append(f'{path}:{name}')
        head = re.match(r'.*?\((.*?)\) ?(?:->|\{|requires|ensures|$)', text, re.S)
        names = sorted(set(re.findall(r'(\w+): ', head.group(1)))) if head else []
        for i, a in enumerate(names):
            for b in names[i + 1:]:
                pairs[a, b].append(f'{path}:{name}')
    for what, where in [*clauses.items(), *((' and '.join(k), v) for k, v in pairs.items())]:
        if len(where) >= 3:
            yield f'{what}: {len(where)} functions: ' + ', '.join(where)


def lines(point):
    for path in FILES:
        for k, line in enumerate(open(path), 1):
            if re.search(LINES[point], line) and not line.lstrip().startswith(('//', 'ghost use')):
                yield f'{path}:{k}: {line.strip()}'


def places(point):
    if point == 2:
        return list(twins())
    if point == 5:
        return list(shared())
    if point == 8:
        return sorted(f'{p}: {sum(1 for _ in open(p))} lines' for p in glob.glob('crates/*/proofs/**/*.antt', recursive=True))
    return list(lines(point))


if len(sys.argv) > 1:
    print('\n'.join(places(int(sys.argv[1]))))
else:
    for point in range(1, 9):
        print(point, len(places(point)))
