#!/usr/bin/env python3
"""planted.py [CRATE..] [--limit N] [--seed S] [--fn WORD] [--list] [--work FOLDER] [--out FILE]

Plants bugs in the functions of crates and asks the checker what it says of each: of the crates that are named, or of all
that the programs are built on. It works on a copy of the repository, and changes nothing here. A function is checked against
the contracts of what it calls and not against their bodies, so one run can judge one bug in each of many functions, as long
as none of them calls another.

  refused    the function with the bug is not proved
  unfit      a proof file no longer fits the code, which shows little
  no program the compiler refuses it
  PROVED     the bug meets the contract: the contract is too weak, or the bug changes no answer

--limit N   at most N bugs for each function, drawn by the seed (default 12; 0: all)
--out FILE  a line for each bug, with its verdict; one that has a verdict there already is not tried again
"""
import argparse, os, random, re, shutil, subprocess, sys, tempfile

OPERATORS = [(' < ', ' <= '), (' <= ', ' < '), (' > ', ' >= '), (' >= ', ' > '), (' == ', ' != '), (' != ', ' == '), (' && ', ' || '),
             (' || ', ' && '), (' + ', ' - '), (' - ', ' + '), (' & ', ' | '), (' | ', ' & '), (' ^ ', ' & '), (' << ', ' >> '),
             (' >> ', ' << '), (' / ', ' % '), (' % ', ' / '), (' |= ', ' &= '), (' &= ', ' |= '), (' |= ', ' = ')]
METHODS = [('is_some', 'is_none'), ('is_none', 'is_some'), ('min', 'max'), ('max', 'min'), ('all', 'any'), ('any', 'all'),
           ('is_some_and', 'is_none_or'), ('saturating_sub', 'wrapping_sub'), ('source', 'target'), ('target', 'source')]
FIELDS = [('p', 'q'), ('q', 's'), ('s', 'p'), ('m', 'n'), ('n', 'm'), ('left', 'right'), ('right', 'left'), ('from', 'to'), ('to', 'from'),
          ('size', 'point'), ('point', 'size'), ('marks', 'edges'), ('edges', 'marks'), ('element', 'name'), ('first', 'second'),
          ('second', 'first'), ('concepts', 'lines'), ('rule', 'index'), ('absent', 'falling'), ('falling', 'absent')]
INTEGERS = ('u8', 'u16', 'u32', 'u64', 'usize')
CASES = {'Refusal': ['Phase', 'Range(0)', 'Absent(0)', 'Full(256)', 'Order(0)', 'Unpaired'], 'Status': ['Open', 'Empty', 'Inhabited'],
         'Phase': ['Open', 'Sealed'], 'Subject': ['RoleAxiom', 'Concept', 'Pair', 'Axiom', 'Seal', 'Line', 'Claim', 'Closing'],
         'Kind': ['Inclusion', 'Transitivity', 'Concept', 'Pair', 'Axiom', 'Seal', 'Line', 'Claim', 'CloseEmpty', 'CloseInhabited'],
         'Use': ['Unused', 'Name', 'Role', 'Concept'], 'Unfit': ['Refers', 'Full']}


def wiped(text):
    """The text with comments, strings, clauses, ghost items, attributes and tests blanked out, of the same length."""
    out = list(text)

    def wipe(a, b):
        for i in range(a, b):
            if out[i] != '\n':
                out[i] = ' '

    for m in re.finditer(r'//[^\n]*|"(?:\\.|[^"\\])*"|#!?\[[^\]\n]*\]', text):
        wipe(m.start(), m.end())

    def close(code, at):
        depth, i = 0, code.index('{', at)
        start = i
        while i < len(code):
            depth += {'{': 1, '}': -1}.get(code[i], 0)
            i += 1
            if depth == 0:
                break
        return start, i

    code = ''.join(out)
    for m in re.finditer(r'\b(requires|ensures)\b', code):
        wipe(m.start(), close(code, m.start())[1])
    code = ''.join(out)
    for m in re.finditer(r'\bghost\b', code):
        brace, semi = code.find('{', m.start()), code.find(';', m.start())
        line = code.find('\n', m.start())
        if 0 <= brace < line and not (semi >= 0 and semi < brace):
            end = close(code, m.start())[1]
        else:
            end = semi + 1
        wipe(m.start(), end)
    code = ''.join(out)
    for m in re.finditer(r'\bmod\s+tests\s*\{', code):
        wipe(m.start(), close(code, m.start())[1])
    code = ''.join(out)
    for m in re.finditer(r'^\s*(pub(\(crate\))?\s+)?(use|mod|extern|type)\b[^;]*;', code, re.M):
        wipe(m.start(), m.end())
    return ''.join(out)


# the types that have methods of their own, beside those of traits
PLAIN = set()


class Function:
    def __init__(self, path, name, start, end, params, gives):
        self.path, self.name, self.start, self.end, self.params, self.gives = path, name, start, end, params, gives
        self.bugs = []

    def simple(self):
        return self.name.split('::')[-1]


def functions(path, crate, code):
    """The functions of a file, by the names that the checker gives them."""
    module = os.path.relpath(path, os.path.join('crates', crate, 'src'))[:-3]
    prefix = crate if module in ('lib', 'main') else crate + '::' + module.replace(os.sep, '::')
    owners = []
    for m in re.finditer(r'^(impl|pub trait|trait)\b((?:[^{;\[]|\[[^\]]*\])*)\{', code, re.M):
        depth, i = 0, m.end() - 1
        while i < len(code):
            depth += {'{': 1, '}': -1}.get(code[i], 0)
            i += 1
            if depth == 0:
                break
        words = re.sub(r"<[^<>]*>", '', re.sub(r"<[^<>]*>", '', m.group(2))).strip()
        if ' for ' in words:
            trait, of = words.split(' for ')
            owner = of.strip().split('::')[-1] + trait.strip().split('::')[-1]
        else:
            owner = words.split(':')[0].strip().split('::')[-1].strip()
            PLAIN.add(owner)
        owners.append((m.start(), i, owner))
    for m in re.finditer(r'\bfn\s+(\w+)', code):
        i, depth = m.end(), 0
        while i < len(code) and not (code[i] in '{;' and depth == 0):
            depth += {'(': 1, '[': 1, ')': -1, ']': -1}.get(code[i], 0)
            i += 1
        if i >= len(code) or code[i] == ';':
            continue
        start, depth = i, 0
        while i < len(code):
            depth += {'{': 1, '}': -1}.get(code[i], 0)
            if depth == 0:
                break
            i += 1
        owner = [o for a, b, o in owners if a < m.start() < b]
        params = re.findall(r'(\w+)\s*:\s*([^,)]+)', code[m.end():start])
        gives = re.search(r'->\s*(.*)', code[m.end():start], re.S)
        yield Function(path, '::'.join([prefix] + owner + [m.group(1)]), start + 1, i, params, gives.group(1).split('where')[0].strip() if gives else '')


def bugs(code, text, f):
    """(start, end, new) for each bug in a body; the code has its strings and comments blanked out."""
    body, a = code[f.start:f.end], f.start
    for old, new in OPERATORS:
        for m in re.finditer(re.escape(old), body):
            yield a + m.start(), a + m.end(), new
    for m in re.finditer(r'(?<![\w.\'])(\d+)(?![\w.]|\s*;\s*\d)', body):
        n = int(m.group(1))
        yield a + m.start(), a + m.end(), str(n + 1)
        if n:
            yield a + m.start(), a + m.end(), str(n - 1)
    for m in re.finditer(r'(?<![\w.])(\d+)(?=\.\.)', body):
        yield a + m.start(), a + m.end(), str(int(m.group(1)) + 1)
    for m in re.finditer(r'\.\.=?(?=[\w(])(?<=[\w)]..)', body):
        yield a + m.start(), a + m.end(), '..' if m.group(0) == '..=' else '..='
    for m in re.finditer(r'\b(true|false)\b', body):
        yield a + m.start(), a + m.end(), 'false' if m.group(1) == 'true' else 'true'
    # two arguments that stand beside each other change places
    for m in re.finditer(r'(?<=[(,] )?(&?[\w.]+), (&?[\w.]+)(?=[,)])', body):
        if m.group(1) != m.group(2):
            yield a + m.start(), a + m.end(), m.group(2) + ', ' + m.group(1)
    # a statement goes
    for m in re.finditer(r'(?m)^[ \t]*((?:self\.|\*|\w+\[)[^\n=;{}]*(?:[|&^+\-]?=)(?!=)[^\n;{}]*;)', body):
        yield a + m.start(1), a + m.end(1), ''
    for m in re.finditer(r'(?m)^[ \t]*([\w.:]+\([^\n;{}]*\)\??;)', body):
        yield a + m.start(1), a + m.end(1), ''
    # two statements beside each other change places: a check in the wrong order
    lines = list(re.finditer(r'(?m)^([ \t]*)([^\n{}]*;)\n', body))
    for x, y in zip(lines, lines[1:]):
        if x.end() == y.start() and x.group(1) == y.group(1):
            yield a + x.start(), a + y.end(), text[a + y.start():a + y.end()] + text[a + x.start():a + x.end()]
    for m in re.finditer(r'\bif (?!let\b)([^{}\n]+) \{', body):
        yield a + m.start(1), a + m.end(1), '!(' + text[a + m.start(1):a + m.end(1)] + ')'
    for m in re.finditer(r'\b(break|continue);', body):
        yield a + m.start(), a + m.end(), 'continue;' if m.group(1) == 'break' else 'break;'
    for old, new in METHODS:
        for m in re.finditer(r'(?<=\.)%s(?=\()' % old, body):
            yield a + m.start(), a + m.end(), new
    for old, new in FIELDS:
        for m in re.finditer(r'(?<=\.)%s\b(?!\()' % old, body):
            yield a + m.start(), a + m.end(), new
    for enum, cases in CASES.items():
        for m in re.finditer(r'\b%s::(\w+)(\([^()]*\))?' % enum, body):
            names = [case.split('(')[0] for case in cases]
            at = names.index(m.group(1)) if m.group(1) in names else -1
            for case in (cases[(at + 1) % len(cases)], cases[at - 1]):
                yield a + m.start(), a + m.end(), enum + '::' + case
    for m in re.finditer(r'\bSome\(([^()]|\([^()]*\))*\)(?! *(=>|=))', body):
        yield a + m.start(), a + m.end(), 'None'
    # the values of two arms of a match change places
    arms = list(re.finditer(r'(?m)^([ \t]*)[^\n=]*=> ([^\n{},]+),\n', body))
    for x, y in zip(arms, arms[1:]):
        if x.end() == y.start() and x.group(1) == y.group(1) and x.group(2) != y.group(2):
            yield a + x.start(2), a + y.end(2), text[a + y.start(2):a + y.end(2)] + text[a + x.end(2):a + y.start(2)] + text[a + x.start(2):a + x.end(2)]
    # what the function gives is turned round, or lost
    depth, tail = 0, 0
    for i, c in enumerate(body):
        depth += {'{': 1, '(': 1, '[': 1, '}': -1, ')': -1, ']': -1}.get(c, 0)
        if depth == 0 and (c == ';' or (c == '}' and body[i + 1:].strip() and not re.match(r'\s*(\.|\?|else|[,;)])', body[i + 1:]))):
            tail = i + 1
    last = text[a + tail:a + len(body)].strip()
    if last and not last.startswith('//'):
        s, e = a + tail + body[tail:].index(body[tail:].strip()[0]), a + len(body.rstrip())
        if f.gives == 'bool':
            yield s, e, '!(' + text[s:e] + ')'
        elif f.gives.startswith('Option<'):
            yield s, e, 'None'
        elif f.gives in INTEGERS:
            yield s, e, '(' + text[s:e] + ') ^ 1'
    # a number that is given is another
    for one, its in f.params:
        if its.strip() in INTEGERS:
            for m in re.finditer(r'(?<![\w.])%s\b(?!\s*[:(])' % one, body):
                yield a + m.start(), a + m.end(), '(%s ^ 1)' % one
    # one parameter for another of its type
    for one, its in f.params:
        for other, type_ in f.params:
            if one != other and its.strip() == type_.strip():
                for m in re.finditer(r'(?<![\w.])%s\b(?!\s*:)' % one, body):
                    yield a + m.start(), a + m.end(), other


def planted(texts, chosen):
    """The texts with the chosen bugs in them."""
    by_file = {}
    for f, (s, e, new) in chosen:
        by_file.setdefault(f.path, []).append((s, e, new))
    result = {}
    for path, list_ in by_file.items():
        text = texts[path]
        for s, e, new in sorted(list_, reverse=True):
            text = text[:s] + new + text[e:]
        result[path] = text
    return result


def calls(code, fs):
    """Which functions a function reaches, by the names in its body."""
    direct = {f.name: {g.name for g in fs if g is not f and re.search(r'\b%s\s*(::<[^>]*>)?\(' % re.escape(g.simple()), code[f.path][f.start:f.end])} for f in fs}
    reach = {}
    for f in fs:
        seen, todo = set(), [f.name]
        while todo:
            for g in direct[todo.pop()]:
                if g not in seen:
                    seen.add(g)
                    todo.append(g)
        reach[f.name] = seen
    return reach


def verdicts(said):
    """What is said of each function: (verdict, reason)."""
    found = {}
    for line in said.splitlines():
        m = re.match(r'fn (\S+?)(?: where its callers give what it asks)?: (proved|no proof: .*|.*)$', line)
        if m:
            found[m.group(1)] = m.group(2)
    return found


def judged(f, found):
    """The verdict on function f, closures in it counted; None where something below it keeps it from one."""
    parts = f.name.split('::')
    owner = parts[-2] if len(parts) > 1 and parts[-2][:1].isupper() else None

    def is_own(name):
        # a method stands under the module of its type, and an impl's name has the trait's types too
        if owner is None:
            return name == f.name
        them = name.split('::')
        return len(them) > 1 and them[-1] == parts[-1] and (them[-2] == owner or (owner not in PLAIN and them[-2].startswith(owner)))

    own = [said for name, said in found.items() if '::fn::' not in name and is_own(name)]
    inner = [said for name, said in found.items() if '::fn::' in name and is_own('::'.join(name.replace('::fn::', '::', 1).split('::')[:-1]))]
    if not own:
        return None
    if any(s.startswith('no proof') and 'it calls' not in s for s in own + inner):
        return 'refused'
    if any('it calls' in s for s in own + inner):
        return None
    return 'PROVED' if all(s == 'proved' for s in own + inner) else 'refused'


def built_on():
    """The crates that the programs are built on, in the order of crates.txt: those of trials have no contracts to ask."""
    lines = [line.split(':') for line in open('crates.txt') if ':' in line and not line.startswith('#')]
    named = {name: deps.split() for name, deps in lines}
    below, todo = set(), [name for name in named if os.path.isfile(os.path.join('crates', name, 'src', 'main.rt'))]
    while todo:
        for dep in named.get(todo.pop(), []):
            if dep in named and dep not in below:
                below.add(dep)
                todo.append(dep)
    return [name for name in named if name in below]


def main():
    p = argparse.ArgumentParser(usage=__doc__)
    p.add_argument('crates', nargs='*')
    p.add_argument('--limit', type=int, default=12)
    p.add_argument('--seed', type=int, default=1)
    p.add_argument('--fn', default='')
    p.add_argument('--list', action='store_true')
    p.add_argument('--work', default='')
    p.add_argument('--out', default='')
    o = p.parse_args()
    root = os.getcwd()
    if not os.path.isfile('crates.txt'):
        sys.exit('planted.py: run it at the top of the repository')
    crates = o.crates or built_on()
    room = o.work or ('' if o.list else tempfile.mkdtemp(prefix='planted-'))
    copy = os.path.join(room, 'repo')
    if not o.list and not os.path.isdir(copy):
        shutil.copytree(root, copy, symlinks=True, ignore=shutil.ignore_patterns('.git', 'must-fail'))
    done = set()
    if o.out and os.path.isfile(o.out):
        done = {line.rstrip('\n').split('\t', 1)[1] for line in open(o.out) if '\t' in line}
    log = open(o.out, 'a') if o.out else None
    tally = {'refused': 0, 'unfit': 0, 'no program': 0, 'PROVED': 0}
    for crate in crates:
        texts, code, fs = {}, {}, []
        for d, _, names in sorted(os.walk(os.path.join('crates', crate, 'src'))):
            for n in sorted(names):
                if n.endswith('.rt'):
                    path = os.path.join(d, n)
                    texts[path] = open(path).read()
                    code[path] = wiped(texts[path])
                    fs += list(functions(path, crate, code[path]))
        fs = [f for f in fs if o.fn in f.name]

        def words(f, bug):
            s, e, new = bug
            text = texts[f.path]
            ls, le = text.rfind('\n', 0, s) + 1, text.find('\n', e - 1)
            show = lambda t: ' / '.join(x.strip() for x in t.strip('\n').split('\n'))
            return '%s\t%s\t=>\t%s' % (f.name, show(text[ls:le]), show(text[ls:s] + new + text[e:le]))

        for f in fs:
            seen, all_ = set(), []
            for bug in bugs(code[f.path], texts[f.path], f):
                w = words(f, bug)
                if w not in seen and w.split('\t')[1] != w.split('\t')[3]:
                    seen.add(w)
                    all_.append((bug, w))
            random.Random(o.seed).shuffle(all_)
            f.bugs = [(b, w) for b, w in (all_[:o.limit] if o.limit else all_) if w not in done]
        print('%s: %d functions, %d bugs' % (crate, len(fs), sum(len(f.bugs) for f in fs)), flush=True)
        if o.list:
            for f in fs:
                for _, w in f.bugs:
                    print(w)
            continue
        reach = calls(code, fs)

        def say(verdict, w):
            tally[verdict] += 1
            if log:
                log.write('%s\t%s\n' % (verdict, w))
                log.flush()
            if verdict == 'PROVED' or not log:
                print(verdict, w, flush=True)

        while any(f.bugs for f in fs):
            chosen = []
            left = [f for f in fs if f.bugs]
            in_the_way = {f.name: sum(g.name in reach[f.name] or f.name in reach[g.name] for g in left) for f in left}
            for f in sorted(left, key=lambda f: in_the_way[f.name]):
                if all(g.name not in reach[f.name] and f.name not in reach[g.name] for g, _ in chosen):
                    chosen.append((f, f.bugs[0]))
            while chosen:
                changed = planted(texts, [(f, b[0]) for f, b in chosen])
                for path in texts:
                    open(os.path.join(copy, path), 'w').write(changed.get(path, texts[path]))
                try:
                    r = subprocess.run(['rt', 'check'], cwd=os.path.join(copy, 'crates', crate), capture_output=True, text=True, timeout=1500)
                    said = r.stdout + r.stderr
                except subprocess.TimeoutExpired:
                    said = ''
                if 'logic=' in said:
                    break
                # no program: those bugs that an error points into go, and the others are tried again
                errors = re.findall(r'(?m)^(src/\S+?):(\d+):\d+: error', said)
                bad = []
                for f, b in chosen:
                    text = changed[f.path]
                    shift = sum(len(x[1][0][2]) - (x[1][0][1] - x[1][0][0]) for x in chosen if x[0].path == f.path and x[0].start < f.start)
                    grown = len(b[0][2]) - (b[0][1] - b[0][0])
                    first = text.count('\n', 0, f.start + shift) + 1
                    last = text.count('\n', 0, f.end + shift + grown) + 1
                    here = os.path.join('crates', crate, '')
                    if any(here + path == f.path and first - 12 <= int(line) <= last for path, line in errors):
                        bad.append((f, b))
                for f, b in bad or chosen:
                    say('no program' if bad else ('unfit' if 'proofs/' in said else 'no program'), b[1])
                    f.bugs.remove(b)
                chosen = [x for x in chosen if x not in bad] if bad else []
                said = ''
            if chosen:
                found = verdicts(said)
                settled = 0
                for f, b in chosen:
                    v = judged(f, found)
                    if v is None and len(chosen) == 1:
                        v = 'refused' if 'logic=not-proved' in said else 'PROVED'
                    if v is None:
                        continue
                    fit = not re.search(r'(?m)^proofs/%s/\S*: error.*(cannot be named|no field|not in scope)' % re.escape('/'.join(f.name.split('::')[1:])), said)
                    say(v if fit or v != 'refused' else 'unfit', b[1])
                    f.bugs.remove(b)
                    settled += 1
                if not settled:
                    # what is in the way is found by trying one alone next
                    f, b = chosen[0]
                    say('unfit', b[1])
                    f.bugs.remove(b)
        for path in texts:
            open(os.path.join(copy, path), 'w').write(texts[path])
    print(', '.join('%s %d' % (k, v) for k, v in tally.items()))
    if not o.work and not o.list:
        shutil.rmtree(room, ignore_errors=True)


main()
