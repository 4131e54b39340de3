#!/usr/bin/env python3
"""Brings the repository's own antt names to today's spelling, everywhere they are used.

    python3 tools/port/respell.py            in the state that the kit's port.py left
    python3 tools/port/respell.py --check    says what it would do and what falls together, and writes nothing

Types, records, predicates and modules stay in upper camel case, everything else goes to snake case: humps and
dashes become `_`. The table of all renames goes to tools/port/respelled.tsv. Names of the Rust code, of the
libraries, and those that Rattle makes of the code stay as they are.

It refuses where two names of one file would become one: then no name can be captured by another, and each
definition means what it meant.
"""
import collections
import glob
import os
import re
import subprocess
import sys

CHECK = '--check' in sys.argv
ROOT = os.getcwd()
TABLE = 'tools/port/respelled.tsv'

# A module named Contracts falls together with specs.contracts, which Rattle makes of the code.
PROMISES = ['build_call', 'build_cases', 'build_file_nodes', 'build_leaves', 'build_matrix', 'build_nodes', 'dewmycel']

# Where a page names such a module without its path.
SAID = {
    'crates/demands/specs/Lib.antt': [('crate dewmycel, Contracts.', 'crate dewmycel, Promises.')],
    'docs/RULES.md': [('cite Contracts of dewmycel', 'cite Promises of dewmycel')],
    'docs/DECISIONS.md': [("the crate's `Contracts`", "the crate's `Promises`")],
}

# Old library names inside our names, as the library has them today.
PARTS = {'getD': 'get_or'}

# Names for which the rule alone would make two into one: (module, old) -> new. A module is CRATE.MODULE.
CHOSEN = {
    # the field fell together with the definition that its own type cites
    ('format_panel.Opened', 'parts-at'): 'parts_from',
    # the lemma fell together with the definition caseTree, where a proof imports both
    ('build_nodes.LoopLaws', 'case-tree'): 'case_tree_is',
    # the cases of two data types
    ('spec_theorems.Said', 'without-leaf'): 'without_a_leaf',
    ('spec_forgotten.FallingLaws', 'no-node'): 'at_absent',
    # a function has parameters paths_at and steps_at, whose requires cites these: there the parameter would hide the
    # word. The sections' starts of one file are named alike, as treePoolAt was before.
    ('spec_rules.TreeReader', 'nodesAt'): 'tree_nodes_at',
    ('spec_rules.TreeReader', 'casesAt'): 'tree_cases_at',
    ('spec_rules.TreeReader', 'bindingsAt'): 'tree_bindings_at',
    ('spec_rules.TreeReader', 'pathsAt'): 'tree_paths_at',
    ('spec_rules.TreeReader', 'stepsAt'): 'tree_steps_at',
    # facts that were written as functions: in upper camel case, as all others
    ('spec_forgotten.ForgettingSaid', 'never_stuck'): 'NeverStuck',
    ('spec_forgotten.ForgettingSaid', 'one_way'): 'OneWay',
    ('spec_forgotten.ForgettingSaid', 'a-switch-without-default'): 'SwitchWithoutDefault',
    ('spec_forgotten.ForgettingSaid', 'a-way-in-the-file'): 'WayInTheFile',
    ('spec_forgotten.ForgettingSaid', 'few-tests'): 'FewTests',
    ('spec_forgotten.ForgettingSaid', 'forgotten-or-covered'): 'ForgottenOrCovered',
    ('spec_forgotten.ForgettingSaid', 'hollow-or-filled'): 'HollowOrFilled',
    ('spec_forgotten.ForgettingSaid', 'hollow-or-none'): 'HollowOrNone',
    ('spec_forgotten.ForgettingSaid', 'fits-by-value'): 'FitsByValue',
    ('spec_forgotten.ForgettingSaid', 'walks-agree'): 'WalksAgree',
    ('spec_forgotten.ForgettingSaid', 'covered-panels-have-a-leaf'): 'CoveredPanelsHaveALeaf',
    ('spec_forgotten.ForgettingSaid', 'one_answer'): 'OneAnswer',
}

# Variables and helpers of one file for which the rule alone would make two into one: (file, old) -> new.
CHOSEN_LOCAL = {
}

IDENT = re.compile(r"[^\s(){}\[\],;.\"`]+")
CODE = re.compile(r"--[^\n]*|//[^\n]*|\"(?:[^\"\\]|\\.)*\"|[^\s(){}\[\],;.\"`]+|.", re.S)


def hump(part):
    """One part of a name, between dashes and underscores."""
    if part in PARTS:
        return PARTS[part]
    if not part or part[0].isupper():
        return part
    part = re.sub(r"(?<=[a-z0-9₀-₉'])([A-Z])(?=[A-Z])", r'_\1', part)
    part = re.sub(r"(?<=[a-z0-9₀-₉'])([A-Z])", r'_\1', part)
    return part.lower() if re.search('[A-Z]', part) else part


def is_word(name):
    return re.match(r"[A-Za-z]", name) is not None


def snake(name):
    name = name.replace('′', "'")
    if not is_word(name):
        return name
    return '_'.join(hump(p) for p in re.split('[-_]', name)) if '-' in name or '_' in name else hump(name)


def read(f):
    with open(f, encoding='utf-8') as h:
        return h.read()


def fail(text):
    sys.exit('respell.py: ' + text)


# ---- the modules renamed to Promises

def promised(text):
    for c in PROMISES:
        text = re.sub(r'\bRattle\.%s\.specs\.Contracts\b' % c, 'Rattle.%s.specs.Promises' % c, text)
        text = text.replace('crates/%s/specs/Contracts' % c, 'crates/%s/specs/Promises' % c)
    return text


def move_contracts(texts):
    moved = {}
    for c in PROMISES:
        old = 'crates/%s/specs/Contracts.antt' % c
        new = 'crates/%s/specs/Promises.antt' % c
        if old not in texts:
            fail(old + ' is not there: this script runs once, after port.py')
        if new in texts:
            fail(new + ' is there already')
        moved[old] = new
    out = {}
    for f, t in texts.items():
        t = promised(t)
        m = re.match(r'crates/(\w+)/', f)
        if m and m.group(1) in PROMISES:
            if f.endswith('/specs/Lib.antt'):
                t = re.sub(r'(?m)^pub mod Contracts$', 'pub mod Promises', t)
            # comments and edits of the crate that name the file
            t = re.sub(r'\bspecs/Contracts\b', 'specs/Promises', t)
        for a, b in SAID.get(f, []):
            if a not in t:
                fail('%s no longer says %s' % (f, a))
            t = t.replace(a, b)
        out[moved.get(f, f)] = t
    return moved, out


# ---- declarations

DECL = re.compile(r"^(\s*)((?:(?:pub|abbrev|unfoldable|opaque|private)\s+)*)((?:record|data)\s+)?([^\s(){}\[\],;.\"`:]+(?:\s+[^\s(){}\[\],;.\"`:]+)*)(\s*(?:[({].*)?)\s*:(?:\s|$)")
NOT_DECL = {'use', 'let', 'in', 'unfolding', 'module', 'where', '--', 'record', 'data', 'elim', 'λ', '|', 'rw', 'omega', '∙', 'with', 'returns'}


def code_of(line):
    i = re.search(r'(^|\s)--', line)
    return line[:i.start()] if i else line


def declared(text):
    """(name, kind, whether it is a definition, type) of a file's declarations; kind: top, type, field, con, inner."""
    found = []
    block = []      # (indent, kind) of the records, data types and local blocks that a line may be in
    lines = text.split('\n')
    for n, raw in enumerate(lines):
        line = code_of(raw)
        if not line.strip():
            continue
        ind = len(line) - len(line.lstrip())
        while block and ind <= block[-1][0]:
            block.pop()
        m = DECL.match(line)
        names = m.group(4).split() if m else []
        if m and (m.group(2) or m.group(3) or not (set(names) & NOT_DECL)) and not (names and names[0] in NOT_DECL and not m.group(3)):
            inside = [k for _, k in block]
            if m.group(3):
                kind = 'type'
            elif inside and inside[-1] in ('record', 'data'):
                kind = 'field' if inside[-1] == 'record' else 'con'
            elif 'where' in inside:
                kind = 'inner'
            else:
                kind = 'top'
            if m.group(5).strip() and not m.group(3):
                names = []      # a line of an argument list, no declaration
            if kind != 'type' and len(names) > 1 and not (kind in ('field', 'con') or m.group(2)):
                # `a b : T` declares two, but a line of a longer type may look the same
                names = []
            # the type, over the lines that follow it
            t = line[m.end():]
            k = n + 1
            while k < len(lines) and lines[k].strip() and len(lines[k]) - len(lines[k].lstrip()) > ind:
                t += ' ' + code_of(lines[k]).strip()
                k += 1
            for name in names:
                found.append((name, kind, 'abbrev' in m.group(2) or 'unfoldable' in m.group(2), t.strip()))
            if m.group(3) and line.rstrip().endswith('where'):
                block.append((ind, m.group(3).strip()))
                continue
        elif re.match(r'\s*((pub|abbrev|unfoldable)\s+)*(record|data)\b', line) and line.rstrip().endswith('where'):
            found.append((re.search(r'\b(?:record|data)\s+([^\s({:]+)', line).group(1), 'type', True, ''))
            block.append((ind, re.search(r'\b(record|data)\b', line).group(1)))
            continue
        if re.match(r'\s*where\b', line) or (re.search(r'\swhere$', line.rstrip()) and not re.match(r'\s*module\b', line) and not block_like(line)):
            block.append((ind, 'where'))
    return found


def block_like(line):
    return re.match(r'\s*((pub|abbrev|unfoldable)\s+)*(record|data|module)\b', line) is not None


# ---- imports

USE = re.compile(r"(?m)^(\s*(?:(?:unfoldable|abbrev|pub)\s+)*(?:ghost\s+)?use\s+)([^\s{;]+?)(?:\.\{([^}]*)\}|\s+as\s+([^\s;]+))?\s*(;?)\s*$")


def items(text):
    for part in text.split(','):
        w = part.split()
        if w:
            yield w[0], (w[2] if len(w) == 3 and w[1] == 'as' else None)


def module_of(f):
    m = re.match(r'crates/(\w+)/specs/(\w+)\.antt$', f)
    return '%s.%s' % m.groups() if m else None


def main():
    if subprocess.run(['git', 'rev-parse', '--show-prefix'], capture_output=True, text=True).stdout.strip():
        fail('run it at the top of the checkout')
    listed = subprocess.run(['git', 'ls-files', '--cached', '--others', '--exclude-standard'], capture_output=True, text=True, check=True).stdout.split('\n')
    files = [f for f in listed if f and not f.startswith('tools/port/')
             and (re.search(r'\.(antt|rt|edit|md)$', f) or f.startswith(('include/', 'rust/', 'examples/', 'tools/')))]
    texts = {}
    for f in files:
        try:
            texts[f] = read(f)
        except (UnicodeDecodeError, FileNotFoundError, IsADirectoryError):
            pass
    before = dict(texts)
    moved, texts = move_contracts(texts)
    back = {new: old for old, new in moved.items()}

    # where two names would become one, one of them gets another; then once more from the start
    for _ in range(12):
        out, rows, clashes, pairs, lower_types, doubtful, left, table, decls = plan(texts)
        clashes += settle(pairs, texts, table, decls)
        if not pairs:
            break
    said('%d names of %d modules' % (len(rows), len(table)))
    for m, a, b in lower_types:
        said('a fact in lower case: %s %s -> %s' % (m, a, b))
    if CHECK:
        for k, n in doubtful.most_common():
            said('doubtful: %s (%d)' % (k, n))
        for k, n in left.most_common():
            said('left: %s (%d)' % (k, n))
    for c in SETTLED:
        said('settled: ' + c)
    for c in clashes:
        said('clash: ' + c)
    if clashes and not CHECK:
        fail('two names would become one; see above')
    if CHECK:
        return
    for old, new in moved.items():
        subprocess.run(['git', 'mv', old, new], check=True)
    for f, t in out.items():
        if t != before.get(back.get(f, f)) or f in back:
            with open(f, 'w', encoding='utf-8') as h:
                h.write(t)
    with open(TABLE, 'w', encoding='utf-8') as h:
        for r in sorted(rows):
            h.write('\t'.join(r) + '\n')


def plan(texts):
    specs = {module_of(f): f for f in texts if module_of(f)}
    proofs = [f for f in texts if re.match(r'crates/\w+/proofs/.*\.antt$', f)]
    decls = {m: declared(texts[f]) for m, f in specs.items()}

    table = {}          # module -> {old: new}, of all it declares
    lower_types = []
    for m, ds in decls.items():
        table[m] = {}
        for name, kind, pub, t in ds:
            new = CHOSEN.get((m, name)) or CHOSEN_LOCAL.get((specs[m], name)) or (name if kind == 'type' else snake(name))
            if new != name:
                table[m][name] = new
            if kind in ('top', 'inner') and re.search(r'(^|→ )Type( \S+)?$', t) and name[0].islower():
                lower_types.append((m, name, new))
    # what a module passes on with `pub use`
    for _ in range(3):
        for m, f in specs.items():
            for u in USE.finditer(texts[f]):
                o = own(u.group(2), table)
                if 'pub' in u.group(1).split() and o:
                    for a, b in items(u.group(3) or ''):
                        if a in table[o] and not b:
                            table[m][a] = table[o][a]

    # fields and cases, which need no import where they stand behind a dot
    fields = collections.defaultdict(set)
    for m, ds in decls.items():
        for name, kind, _, _ in ds:
            if kind == 'field':
                fields[name].add(table[m].get(name, name))
    behind = {}
    for name, news in fields.items():
        if len(news) > 1:
            said('a field with two new names: %s %s' % (name, sorted(news)))
        behind[name] = sorted(news)[0]
    everywhere = collections.defaultdict(set)
    for m, t in table.items():
        for a, b in t.items():
            everywhere[a].add(b)
    unique = {a: next(iter(bs)) for a, bs in everywhere.items() if len(bs) == 1}
    FINAL.clear()
    FINAL.update(table[m].get(name, name) for m, ds in decls.items() for name, _, _, _ in ds)

    out = {}
    clashes, pairs, envs = [], [], {}
    rows = set()
    doubtful = collections.Counter()
    left = collections.Counter()
    for m, t in table.items():
        for a, b in t.items():
            rows.add((m, a, b))

    for f, text in texts.items():
        if f.endswith(('.antt', '.rt')):
            out[f], renames, kept = respell_code(f, text, table, decls, behind, fields, unique, doubtful, left)
            envs[f] = renames
            for a, b in sorted(renames.items()):
                if module_of(f) is None or a not in table[module_of(f)]:
                    if (f, a) not in kept and f.endswith('.antt') and a not in everywhere:
                        rows.add((f[len('crates/'):-len('.antt')].replace('/', '.'), a, b))
    for f, text in texts.items():
        if f not in out:
            out[f] = respell_text(f, text, unique, envs)
    for f in out:
        if f.endswith(('.antt', '.rt')):
            pairs += injective(f, texts[f], out[f])
        if f.endswith('.rt'):
            # a parameter that the clause meant before stays meant
            old = hides(f, texts[f])
            clashes += [x for x in hides(f, out[f]) if x not in old]
    lists = collections.Counter(f.lower() for f in out)
    clashes += ['%s: two files that differ only in case' % f for f, n in lists.items() if n > 1]

    return out, rows, clashes, pairs, lower_types, doubtful, left, table, decls


def settle(pairs, texts, table, decls):
    """Another name for one of two that became one: what a lemma proves is named after the definition, and not the other way."""
    open_ = []
    for f, olds, done in pairs:
        if len(olds) == 1:
            open_.append('%s: %s' % (f, olds))
            continue
        imported, kept = {}, set()
        for u in USE.finditer(texts[f]):
            o = own(u.group(2), table)
            for a, b in items(u.group(3) or ''):
                if o:
                    imported[b or a] = (o, a)
                else:
                    kept.add(b or a)
        rank = []
        for x in olds:
            m = module_of(f)
            here = [d for d in decls.get(m, []) if d[0] == x]
            if x in kept:
                rank.append((0, 'lib', x, None))
            elif here or x in imported:
                om, ox = (m, x) if here else imported[x]
                om = origin(om, ox, decls, texts)
                ds = [d for d in decls.get(om, []) if d[0] == ox]
                kind = ds[0][1] if ds else 'top'
                if any(d[2] for d in ds) or kind == 'type':
                    rank.append((1, 'def', x, (om, ox)))
                elif kind == 'con':
                    rank.append((1, kind, x, (om, ox)))
                elif kind == 'field':
                    rank.append((4, kind, x, (om, ox)))
                else:
                    rank.append((3, 'lemma', x, (om, ox)))
            else:
                rank.append((5, 'local', x, None))
        rank.sort(key=lambda r: (r[0], '-' in r[2], r[2]))
        if len([r for r in rank if r[0] == rank[0][0]]) > 1:
            if rank[0][0] < 3 or len(rank) > 2:
                open_.append('%s: %s' % (f, rank))
                continue
        for n, kind, x, at in rank[1:]:
            if kind == 'local':
                SETTLED.append('%s: variable %s beside %s' % (f, x, rank[0][2]))
                CHOSEN_LOCAL[(f, x)] = snake(x) + '_holds'
            elif kind == 'field':
                SETTLED.append('%s: field %s beside %s' % (at[0], x, rank[0][2]))
                for m2, ds in decls.items():
                    if any(d[0] == at[1] and d[1] == 'field' for d in ds):
                        CHOSEN[(m2, at[1])] = snake(at[1]) + '_holds'
            elif kind == 'lemma':
                SETTLED.append('%s: lemma %s beside %s' % (at[0], x, rank[0][2]))
                CHOSEN[at] = snake(at[1]) + '_lem'
            else:
                open_.append('%s: %s' % (f, rank))
    return open_


SETTLED = []


def origin(m, x, decls, texts):
    """The module that declares x, where m only passes it on."""
    if any(d[0] == x for d in decls.get(m, [])):
        return m
    c, n = m.split('.')
    for u in USE.finditer(texts.get('crates/%s/specs/%s.antt' % (c, n), '')):
        if 'pub' in u.group(1).split() and any(a == x for a, _ in items(u.group(3) or '')):
            q = re.match(r'Rattle\.(\w+)\.specs\.(\w+)$', u.group(2))
            if q:
                return origin('%s.%s' % q.groups(), x, decls, texts)
    return m


def said(x):
    print(x)


def own(path, table):
    """The own module that a path names, with the type in it left out."""
    m = re.match(r'Rattle\.(\w+)\.specs\.(\w+)(?:\.(.*))?$', path)
    if m and '%s.%s' % m.group(1, 2) in table:
        return '%s.%s' % m.group(1, 2)
    return None


GENERATED = re.compile(r'^(tie|c|l|w)$')


def respell_code(f, text, table, decls, behind, fields, unique, doubtful, left):
    mod = module_of(f)
    env, keep, aliases = {}, set(), {}
    is_proof = '/proofs/' in f
    if mod:
        env.update(table[mod])
    local_decls = declared(text) if f.endswith('.antt') else []
    if is_proof:
        for name, kind, _, t in local_decls:
            # an answer or an invariant of the old walk, or a piece of the walk over a cycle of functions
            if re.search(r'\.(Need-|invariant|decreases)|\b\S+\.ps\b', t):
                keep.add(name)
    own_imports = {}
    for u in USE.finditer(text):
        path, its, alias = u.group(2), u.group(3), u.group(4)
        o = own(path, table)
        for a, b in items(its or ''):
            name = b or a
            if o:
                if a in table[o]:
                    own_imports[a] = table[o][a]
                    if not b:
                        env[a] = table[o][a]
                elif not b:
                    keep.add(a)
            elif not b:
                keep.add(a)
            if b and snake(b) != b:
                env[b] = CHOSEN_LOCAL.get((f, b)) or snake(b)
        if alias:
            if o:
                aliases[alias] = o
            elif is_proof:
                keep.add(alias)     # a module that Rattle made of the code
            if alias not in keep and snake(alias) != alias:
                env[alias] = CHOSEN_LOCAL.get((f, alias)) or snake(alias)
    if is_proof:
        for name, kind, _, t in local_decls:
            if name not in keep and kind in ('top', 'inner') and not name.endswith('-spec') and snake(name) != name and name not in env:
                env[name] = CHOSEN_LOCAL.get((f, name)) or snake(name)
        keep.add('tie')
    # variables in camel case: the library has no such names any more; and bound variables with a dash
    plain = set()
    for line in text.split('\n'):
        if f.endswith('.antt') and not USE.match(line):
            plain.update(IDENT.findall(code_of(line)))
    if f.endswith('.antt'):
        bound = set()
        code = '\n'.join(code_of(l) for l in text.split('\n'))
        for g in re.finditer(r"λ\s+([^.(){}]+)\.", code):
            bound.update(g.group(1).split())
        for g in re.finditer(r"[({]([^(){}:=,]+?)\s*:\s", code):
            bound.update(g.group(1).split())
        for g in re.finditer(r"\blet\s+([^\s(){}:=]+)\s*[:=]", code):
            bound.add(g.group(1))
        for name in plain:
            if name in env or name in keep or not is_word(name):
                continue
            camel = re.match(r"[a-z][a-z0-9]*[A-Z]", name) and '-' not in name
            if (camel and not is_proof) or (name in bound and snake(name) != name):
                env[name] = CHOSEN_LOCAL.get((f, name)) or snake(name)
    for a in keep:
        env.pop(a, None)

    renames = dict(env)
    result = []
    # tokens with what stands before them
    use_spans = [(u.start(2), u.end(), u) for u in USE.finditer(text)]
    spans = {s: (e, u) for s, e, u in use_spans}
    pos = 0
    prev = ''           # the text just before the token
    chain = []          # the words of the projection that a token may end
    for m in CODE.finditer(text):
        if m.start() < pos:
            continue
        if m.start() in spans:
            e, u = spans[m.start()]
            result.append(respell_use(u, text, table, env))
            pos = e
            prev, chain = '', []
            continue
        w = m.group(0)
        if w.startswith('--') and (f.endswith('.antt')) and prev in ('', ' ', '\n'):
            result.append(respell_comment(w, env, unique))
            prev = w
            continue
        if w.startswith('//') and f.endswith('.rt'):
            result.append(respell_comment(w, env, unique))
            prev = w
            continue
        if w.startswith('"'):
            result.append(w)
            prev, chain = w, []
            continue
        if IDENT.fullmatch(w):
            if prev == '.':
                new = projection(f, w, chain, aliases, table, behind, env, doubtful, renames, is_proof)
                chain.append(w)
            else:
                new = env.get(w, w)
                if new == w and f.endswith('.antt') and w not in keep and w not in env:
                    if behind.get(w, w) != w and re.match(r'\s+=\s', text[m.end():m.end() + 4]) and in_record(text, m.start()):
                        new = behind[w]
                    elif (f, w) in CHOSEN_LOCAL:
                        new = CHOSEN_LOCAL[(f, w)]
                    elif is_word(w) and snake(w) != w:
                        if is_proof:
                            left[w] += 1
                        else:
                            # a variable that a clause binds
                            new = behind.get(w) or snake(w)
                    if new != w:
                        renames[w] = new
                chain = [w]
            result.append(new)
            prev = w
        else:
            if w != '.':
                chain = [')'] if w in ')]' else []
            elif prev in ('', ' ', '\n'):
                chain = []
            result.append(w)
            prev = w
    return ''.join(result), renames, keep


def in_record(text, i):
    """Whether the place stands directly inside the braces of a record."""
    n = 0
    while i > 0:
        i -= 1
        if text[i] == '}':
            n += 1
        elif text[i] == '{':
            if n == 0:
                return re.search(r'record\s*$', text[max(0, i - 20):i]) is not None
            n -= 1
    return False


def projection(f, w, chain, aliases, table, behind, env, doubtful, renames, is_proof):
    root = chain[0] if chain else ''
    if root == 'Rattle' and len(chain) > 3:
        o = own('.'.join(chain[:4]), table)     # a name with its whole path
        return table[o].get(w, w) if o else w
    if root in aliases and len(chain) == 1:
        return table[aliases[root]].get(w, w)
    if w not in behind or behind[w] == w:
        return w
    if root == 'tie':
        return w
    made = root in ('c', 'l', 'w', 'a') and not (set(chain) & {'requires', 'ensures', 'invariant', 'given', 'known', 'result', 'args'})
    if is_proof and made:
        doubtful['%s: left .%s behind %s' % (f, w, '.'.join(chain[-3:]))] += 1
        return w
    if is_proof and root in ('c', 'l', 'w', 'a'):
        doubtful['%s: renamed .%s behind %s' % (f, w, '.'.join(chain[-3:]))] += 1
    renames[w] = behind[w]
    return behind[w]


def respell_use(u, text, table, env):
    path, its, alias = u.group(2), u.group(3), u.group(4)
    o = own(path, table)
    s = text[u.start(2):u.end()]
    new_path = path
    if o:
        head, tail = path.split('.')[:4], path.split('.')[4:]
        new_path = '.'.join(head + [table[o].get(t, t) for t in tail])
    if its is not None:
        parts = []
        for part in its.split(','):
            w = part.split()
            if w:
                na = table[o].get(w[0], w[0]) if o else w[0]
                nb = env.get(w[2], w[2]) if len(w) == 3 else None
                space = re.match(r'(\s*).*?(\s*)$', part, re.S)
                part = space.group(1) + na + (' as ' + nb if nb and nb != na else '') + space.group(2)
            parts.append(part)
        whole = new_path + '.{' + ','.join(parts) + '}'
    elif alias is not None:
        whole = new_path + ' as ' + env.get(alias, alias)
    else:
        whole = new_path
    end = s[len(path):]
    if u.group(5):
        whole += ';'
    # what stood behind the line's end stays
    tail = re.search(r'\s*$', s).group(0)
    return whole + tail


CAMEL = re.compile(r"(?<![\w.'-])[a-z][a-z0-9]*(?:[A-Z][A-Za-z0-9]*)+(?:-[A-Za-z0-9-]+)?(?![\w'(-])")


FINAL = set()


def respell_comment(text, env, unique):
    def one(m):
        w = m.group(0)
        if w in env or w in unique:
            return env.get(w) or unique[w]
        # a name that port.py respelled in the code and not on pages
        return snake(w) if is_word(w) and snake(w) in FINAL else w

    text = re.sub(r'`([^`\n]+)`', lambda m: '`' + IDENT.sub(one, m.group(1)) + '`', text)
    return CAMEL.sub(one, text)


def respell_text(f, text, unique, envs):
    if f.endswith('.edit'):
        return respell_edit(f, text, unique, envs)
    if f.endswith('.md'):
        return respell_comment(text, {}, unique)
    if f.startswith('tools/'):
        return text
    # a C or Rust example: its comments alone
    return re.sub(r'(//|#|/\*|\*).*', lambda m: respell_comment(m.group(0), {}, unique), text)


def respell_edit(f, text, unique, envs):
    """An edit's lines are text of the file that the line above them names."""
    lines, env = [], {}
    for line in text.split('\n'):
        m = re.match(r'(file|old|new): ?', line)
        if m and m.group(1) == 'file':
            env = envs.get(os.path.join(os.path.dirname(os.path.dirname(f)), line[m.end():].strip()), {})
        elif line.startswith('#'):
            line = respell_comment(line, {}, unique)
        else:
            def one(t):
                w = t.group(0)
                if not is_word(w) or snake(w) == w and w not in env:
                    return w
                return env.get(w) or unique.get(w) or (snake(w) if snake(w) in FINAL else w)
            i = m.end() if m else 0
            line = line[:i] + IDENT.sub(one, line[i:])
        lines.append(line)
    return '\n'.join(lines)


def words(f, text):
    """The words of a file but for those behind a dot, which no variable can capture."""
    out = []
    before, last = '', ' '
    for m in CODE.finditer(text):
        w = m.group(0)
        if w.startswith('"') or (w.startswith('--') and f.endswith('.antt')) or (w.startswith('//') and f.endswith('.rt')):
            continue
        if IDENT.fullmatch(w):
            if last != '.' or before in ') \n':
                out.append(w)
        before, last = last[-1:], w
    return out


def injective(f, old, new):
    """Each new name of a file comes from one old name alone: else (file, the old names, whether it matters)."""
    def parts(t):
        t = USE.sub(lambda u: ' '.join((b or a) for a, b in items(u.group(3) or '')) + ' ' + (u.group(4) or ''), t)
        if f.endswith('.rt'):
            t = '\n'.join(clauses(t))      # functions and words of clauses may have one name
        return words(f, t)
    a, b = parts(old), parts(new)
    if len(a) != len(b):
        return [(f, ['%d words became %d' % (len(a), len(b))], True)]
    to, frm = collections.defaultdict(set), collections.defaultdict(set)
    for x, y in zip(a, b):
        to[x].add(y)
        frm[y].add(x)
    bad = [(f, sorted(xs), True) for y, xs in frm.items() if len(xs) > 1]
    bad += [(f, ['%s becomes %s' % (x, sorted(ys))], True) for x, ys in to.items() if len(ys) > 1]
    return bad


def clauses(text):
    code = re.sub(r'//.*', '', text)
    for q in re.finditer(r'\b(requires|ensures|decreases)\b[^{};]*\{', code):
        yield code[q.end() - 1:closing(code, q.end() - 1, '{', '}')]


def closing(text, i, a, b):
    n = 0
    while i < len(text):
        if text[i] == a:
            n += 1
        elif text[i] == b:
            n -= 1
            if n == 0:
                return i
        i += 1
    return len(text)


def hides(f, text):
    """Parameters that hide a word which a clause of their function may mean: the check gives no warning there."""
    code = re.sub(r'//.*', '', text)
    imported = set()
    for u in USE.finditer(code):
        if 'ghost' in u.group(1):
            imported.update(b or a for a, b in items(u.group(3) or ''))
    bad = []
    for m in re.finditer(r'\bfn\s+(\w+)', code):
        i = code.find('(', m.end())
        j = closing(code, i, '(', ')')
        names = set(re.findall(r'(\w+)\s*:(?!:)', code[i:j]))
        names |= set(re.findall(r'const\s+(\w+)\s*:', code[m.end():i]))
        k = j + 1
        cited = set()
        while k < len(code):
            q = re.compile(r'[{;]|\b(requires|ensures|decreases)\b').search(code, k)
            if not q or q.group(0) in '{;':
                break
            a = code.find('{', q.end())
            b = closing(code, a, '{', '}')
            for t in re.finditer(r"[^\s(){}\[\],;.\"`]+", code[a:b]):
                if code[a + t.start() - 1] != '.':
                    cited.add(t.group(0))
            k = b + 1
        for n in sorted(names & cited & imported):
            bad.append('%s: fn %s has a parameter %s beside a word that is imported' % (f, m.group(1), n))
    return bad


if __name__ == '__main__':
    main()
