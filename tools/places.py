#!/usr/bin/env python3
"""Counts the places in crates/*/src that a newer form of the language could replace, point by point, and lists them.

Use: places.py [POINT..] [--list]     at the top of the checkout; --at COMMIT reads the sources of that commit instead."""
import collections, re, subprocess, sys

args = sys.argv[1:]
listing = '--list' in args
args = [a for a in args if a != '--list']
commit = None
if '--at' in args:
    i = args.index('--at')
    commit = args[i + 1]
    del args[i:i + 2]


def sources():
    if commit:
        names = subprocess.run(['git', 'ls-tree', '-r', '--name-only', commit, 'crates'], capture_output=True, text=True, check=True).stdout
    else:
        names = subprocess.run(['git', 'ls-files', '-co', '--exclude-standard', 'crates'], capture_output=True, text=True, check=True).stdout
    for n in sorted(names.split('\n')):
        if re.fullmatch(r'crates/\w+/src/.*\.rt', n):
            if commit:
                yield n, subprocess.run(['git', 'show', f'{commit}:{n}'], capture_output=True, text=True, check=True).stdout
            else:
                try:
                    yield n, open(n).read()
                except FileNotFoundError:
                    pass


FILES = dict(sources())
HEAD = re.compile(r'^( *)(?:pub )?fn (\w+)')


def functions():
    """Each function: file, line, name, signature, clauses, body."""
    for path, text in FILES.items():
        lines = text.split('\n')
        i = 0
        while i < len(lines):
            m = HEAD.match(lines[i])
            if not m:
                i += 1
                continue
            indent, name, start = m.group(1), m.group(2), i
            j = i
            while j < len(lines) and not re.match(indent + r'(\{|\{\}|.*\{\})?$', lines[j]) and not lines[j].rstrip().endswith('{') and not lines[j].rstrip().endswith(';'):
                j += 1
            if j < len(lines) and lines[j].rstrip().endswith(';'):
                i = j + 1
                continue
            head = '\n'.join(lines[start:j + 1])
            k = j
            if not re.match(indent + r'\{\}$', lines[j]) and not head.rstrip().endswith('{}'):
                k = j + 1
                while k < len(lines) and lines[k] != indent + '}':
                    k += 1
            body = '\n'.join(lines[j + 1:k])
            clauses = re.findall(r'^\s+(requires|ensures)( \w+)? \{(.*?)\}\s*$', head, re.S | re.M)
            yield path, start + 1, name, head, clauses, body
            i = k + 1


def grep(pattern):
    return [f'{p}:{n}: {l.strip()}' for p, t in FILES.items() for n, l in enumerate(t.split('\n'), 1)
            if re.search(pattern, l) and not l.lstrip().startswith('//')]


KEYWORDS = set('let mut if else while loop for in match return break continue true false as pub fn struct enum impl self'.split())


def shape(head, body):
    """The code with its names and numbers replaced by their order of first use: two functions of one shape are twins."""
    sig = re.split(r'\n\s+(requires|ensures)', head)[0]
    code = re.sub(r'//.*', '', sig + ' { ' + body + ' }')
    seen = {}
    out = []
    for tok in re.findall(r"b'(?:\\.|.)'|b\"[^\"]*\"|\w+|[^\s\w]", code):
        if tok in KEYWORDS or not re.match(r"\w|b'|b\"", tok):
            out.append(tok)
        else:
            out.append(seen.setdefault(tok, f'_{len(seen)}'))
    return ' '.join(out)


def point1():
    yield 'own enums', grep(r'^(pub )?enum ')
    yield 'functions that answer u8', [f'{p}:{n}: {name}' for p, n, name, head, c, b in functions() if re.search(r'-> u8\b', head)]
    yield 'a number of a refusal in a field', grep(r'number: u8')
    yield 'yes or no as a number', [f'{p}:{n}: {name}' for p, n, name, head, c, b in functions()
                                    if re.search(r'-> (u8|u16|usize)\b', head) and re.search(r'^\s*(return )?1;?$', b, re.M) and re.search(r'^\s*(return )?0;?$', b, re.M) and 'while' not in b]


def point2():
    groups = collections.defaultdict(list)
    for p, n, name, head, c, b in functions():
        if len(re.findall(r'\w+', b)) >= 4 and name != 'main':
            groups[shape(head, b)].append(f'{p}:{n}: {name}')
    yield 'functions of one shape', [' = '.join(g) for g in groups.values() if len(g) > 1]


def point3():
    yield 'while and loop', grep(r"^\s+('\w+: )?(while .*\{|loop \{)$")
    yield 'for', grep(r'^\s+for .*\{$')
    yield 'iterator chains', grep(r'\.(position|all|any|filter|map|fold|find|sum|count|rev|zip|take_while|enumerate)\(')


def point4():
    yield 'fields compared', grep(r'\.0 (==|!=) ')
    yield 'functions that are one cast', [f'{p}:{n}: {name}' for p, n, name, head, c, b in functions() if re.fullmatch(r'\s*(\w+\()?[\w.% ()/:]+ as \w+\)?\s*', b)]
    yield 'lengths read for a proof', [f'{p}:{n}: {name}' for p, n, name, head, c, b in functions() if re.fullmatch(r'\s*\w+\.len\(\)\s*', b)]
    yield 'and, least, less by hand', [f'{p}:{n}: {name}' for p, n, name, head, c, b in functions() if name in ('both', 'lower', 'less_one', 'at_least_one', 'one_if_same', 'one_if_other', 'one_if_used', 'one_if_name', 'one_if')]
    yield 'conversions by hand', [f'{p}:{n}: {name}' for p, n, name, head, c, b in functions() if name in ('decode', 'encode', 'decode_equation', 'symbol_no', 'cell_no', 'code_at', 'line_code', 'put_code', 'mark_at')]
    yield 'equality and copies by hand', [f'{p}:{n}: {name}' for p, n, name, head, c, b in functions() if name in ('same', 'same_bytes', 'same_two', 'copy_in', 'put_row', 'append', 'table_kept', 'state_kept')]


def point5():
    facts = collections.defaultdict(set)
    params = collections.defaultdict(set)
    for p, n, name, head, clauses, b in functions():
        for kind, label, text in clauses:
            if kind == 'requires':
                for fact in re.split(r' × ', re.sub(r'\s+', ' ', text)):
                    facts[fact.strip().strip('()').strip()].add(f'{p}:{n}: {name}')
        sig = re.split(r'\n\s+(requires|ensures)', head)[0]
        ps = re.findall(r'(\w+): ((?:&(?:\'\w+ )?(?:mut )?)?[^,()]+?)(?=,|\)|\n)', sig)
        names = tuple(f'{a}: {t.strip()}' for a, t in ps)
        for i in range(len(names)):
            for j in range(i + 1, len(names)):
                for k in range(j + 1, len(names)):
                    params[(names[i], names[j], names[k])].add(f'{p}:{n}: {name}')
    yield 'facts in three contracts or more', sorted((f'{len(s)} x {f}' for f, s in facts.items() if len(s) >= 3), key=lambda x: -int(x.split()[0]))
    yield 'three parameters together in three functions or more', sorted((f'{len(s)} x {", ".join(t)}' for t, s in params.items() if len(s) >= 3), key=lambda x: -int(x.split()[0]))


def point6():
    yield 'a list with its length beside it', [f'{p}:{n}: {name}' for p, n, name, head, c, b in functions()
                                               if re.search(r': &(mut )?\[u(8|16)', head.split('requires')[0]) and re.search(r'\b(n|used|len|size): (usize|u16)', head.split('requires')[0])]
    yield 'struct of a list and how much is used', grep(r'pub used: ')


def point7():
    yield 'a switch by letter', grep(r'match (fields::)?letter\(')
    yield 'closures and impl Fn', grep(r'\|[\w, &]*\| |impl Fn|: Fn\w*\(')


def point8():
    names = subprocess.run(['git', 'ls-tree', '-r', '--name-only', commit or 'HEAD', 'crates'], capture_output=True, text=True).stdout.split('\n')
    yield 'Answers.antt', [n for n in names if n.endswith('/Answers.antt')]
    yield 'Invariants.antt', [n for n in names if n.endswith('/Invariants.antt')]
    yield 'other files of proofs/', [n for n in names if re.search(r'/proofs/', n) and not n.endswith(('/Answers.antt', '/Invariants.antt', '/Lib.antt'))]


POINTS = {'1': point1, '2': point2, '3': point3, '4': point4, '5': point5, '6': point6, '7': point7, '8': point8}
print(f'functions: {sum(1 for _ in functions())}')
for key in (args or POINTS):
    print(f'point {key}')
    for title, found in POINTS[key]():
        print(f'  {len(found):4}  {title}')
        if listing:
            for f in found:
                print(f'          {f}')
