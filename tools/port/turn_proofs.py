#!/usr/bin/env python3
"""Turns proof files that walk the code in the older generated form, Proof.antt, into Invariants.antt and Answers.antt.

usage: turn_proofs.py NAMES CRATE [FUNCTION ..]

NAMES is the names.json that `rt check --generated DIR --old-names` writes in CRATE's folder: for each function the goals and the steps
of its code, by their older and by their present names. CRATE is the crate's folder. Answers that the check finds alone are left out;
a path `c.before.before.if1.true` becomes `c.if-a-b.true`, and an invariant's arguments become the fields of the loop's record.
"""
import json
import os
import re
import sys

ID = r"[^\s(){}.;,@\"«»\[\]\\λ]+"
plain = lambda s: re.sub("-+", "-", s.replace("_", "-").replace("·", "-"))


def decls(text):
    """Splits a file: its head (comments and use lines), then its declarations as (comment, name, signature, unfolding, body)."""
    lines = text.split("\n")
    blocks, cur = [], []
    for line in lines:
        if line and not line[0].isspace() and line[0] not in ")}]":
            if cur:
                blocks.append("\n".join(cur))
            cur = [line]
        else:
            cur.append(line)
    if cur:
        blocks.append("\n".join(cur))
    head, rest, comment = [], [], []
    i = 0
    while i < len(blocks):
        b = blocks[i].rstrip("\n")
        if b.startswith("use "):
            b = re.sub(r"\{\s+", "{", re.sub(r",?\s*\}", "}", re.sub(r"\s+", " ", b)))
            if comment and not rest:
                head += comment
                comment = []
            head.append(b)
        elif b.startswith("--"):
            comment.append(b)
        elif b.strip():
            rest.append([comment, b])
            comment = []
        i += 1
    if not rest:
        head += comment
    return head, rest


def grouped(rest):
    """Declarations: a signature, then unfolding lines and equations of its name."""
    out = []
    for comment, b in rest:
        m = re.match(r"(?:abbrev |unfoldable |pub |mutual |inline )*(" + ID + r")\s*:(?=\s)", b)
        if m and " = " not in b.split("\n")[0].split(":")[0]:
            out.append({"comment": comment, "name": m.group(1), "sig": b, "lines": []})
        elif out:
            out[-1]["lines"].append(b if not comment else "\n".join(comment + [b]))
        else:
            out.append({"comment": comment, "name": "", "sig": b, "lines": []})
    return out


class Fn:
    def __init__(self, of, labels=(), cycle=False):
        self.labels = labels
        self.cycle = cycle
        self.stem = of.get("stem") or ""
        self.needs = {}
        for (old, new), at in zip(of["needs"], of["asked_at"]):
            self.needs[plain(old)] = (new, at[0])
        self.settled = of.get("settled", [])
        self.named = {plain(p[0]): p[0] for p in of["places"]}
        self.parent = {p[0]: p[1] for p in of["places"]}
        self.step = {p[0]: p[2] for p in of["places"]}
        self.loops = {plain(l[0][0]): (l[0][1], l[1], ch) for l, ch in zip(of["loops"], of["changed"])}
        self.of = of
        # what an arm binds and knows: a path below an older step, and the arm's field that stands for it
        self.arms = {}
        for p, a in zip(of["places"], of["arms"]):
            if a:
                self.arms[p[0]] = {(plain(step),) + tuple(path): "%s.%s" % (a[0], field) for field, step, path in a[2]}
        # what a step calls, and the parameters of what it calls
        self.callee = {plain(p[2][0]): p[3] for p in of["places"] if p[3]}
        self.params = of["params"]

    def arms_to(self, place):
        out = {}
        while place is not None:
            for k, v in self.arms.get(place, {}).items():
                out.setdefault(k, v)
            place = self.parent.get(place)
        return out

    def chain(self, place):
        out = []
        while place is not None:
            if place in self.step:
                out.append(self.step[place])
            place = self.parent.get(place)
        return out


START = {"args", "requires", "ranges", "utf8", "type_inv", "type-inv", "auto", "lifetimes", "well_formed", "well-formed"}


def turn_paths(text, fn, place, said):
    steps = {}
    if fn and place is not None:
        for old, new in fn.chain(place):
            if old:
                steps.setdefault(plain(old), new)
    # names for places on the way
    alias = {"c"}
    while True:
        m = None
        for a in alias:
            m = re.search(r"\n?[ \t]*let (" + ID + r") = " + re.escape(a) + r"(?:\.before)* in(?=\s)", text)
            if m:
                break
        if not m:
            break
        alias.add(m.group(1))
        text = text[: m.start()] + text[m.end():]
    names = "|".join(re.escape(a) for a in sorted(alias, key=len, reverse=True))
    arms = fn.arms_to(place) if fn and place is not None else {}
    # a name for a part of what an arm gives: the part itself, so that its field can be said
    while True:
        m = re.search(r"\n?[ \t]*let (" + ID + r") = ((?:" + names + r")(?:\.before)*\.[^\s()]+) in(?=\s)", text)
        while m:
            path = re.sub(r"^(?:" + names + r")(?:\.before)*\.", "", m.group(2)).split(".")
            key = (plain(path[0]),)
            if any(k[0] == key[0] for k in arms):
                break
            m = re.compile(r"\n?[ \t]*let (" + ID + r") = ((?:" + names + r")(?:\.before)*\.[^\s()]+) in(?=\s)").search(text, m.end())
        if not m:
            break
        name, whole = m.group(1), m.group(2)
        text = text[: m.start()] + re.sub(r"(?<![\w.'₀-₉{-])" + re.escape(name) + r"(?![\w'₀-₉-])", lambda _: whole, text[m.end():])

    def put(m):
        path = [x for x in (m.group(2) or "").split(".") if x]
        if not path:
            return "c" if m.group(1) else m.group(0)
        field = path[0]
        heads = {k[0] for k in arms}
        if field == "pre":
            field = path[0] = "requires"
        for f in (field, field.lower(), re.sub(r"_(?:lem|holds)$", "", field), re.sub(r"\d+$", "", field)):
            if plain(f) in steps or plain(f) in heads or f in START:
                field = path[0] = f
                break
        for n in range(len(path), 0, -1):
            key = (plain(field),) + tuple(path[1:n])
            if key in arms and not arms[key].endswith("-own"):
                return ".".join(["c", arms[key]] + path[n:])
        if path[1:2] and path[1] in ("rest", "true", "false") and (plain(field),) in arms:
            return ".".join(["c", arms[(plain(field),)]] + path[1:])
        if plain(field) in steps:
            if any(k[0] == plain(field) for k in arms):
                said.append("a part of an arm: %s at %s: %s" % (".".join(path), place, sorted(arms.items())))
            return ".".join(["c", steps[plain(field)]] + path[1:])
        if field in START or not fn:
            path[0] = field.replace("-", "_")
            if field == "requires" and fn and fn.cycle and path[1:2]:
                # the first part was that the measure has its value
                if path[1] == "0":
                    return ".".join(["c", "decreases"] + path[2:])
                if path[1] == "1":
                    path = path[:1] + path[2:]
            if field == "requires" and fn and fn.labels and path[1:2] and path[1] in "01":
                path[1] = fn.labels[int(path[1])]
            return ".".join(["c"] + path)
        said.append("no step %s at %s" % (field, place))
        return ".".join(["c"] + path)

    text = re.sub(r"(?<![\w.'-])(?:" + names + r")(?![\w'-])((?:\.before(?![\w'-]))*)((?:\." + ID + r")*)", put, text)
    # the test of `if !x` says x, and no longer `not x`
    text = re.sub(r"not-(?:true|false) (?:_|[^\s()]+|\([^()]*\)) (c\.[^\s(),]*\.(?:true|false))(?![\w'.-])", lambda m: "NOT!" + m.group(1) + "!", text)
    # where a lemma asks for the test as it stands, with its `not`
    text = re.sub(r"(?<![\w.'!-])(c\.(?:[^\s(),.]+\.)*if-not-[^\s(),.]*\.(?:true|false))(?![\w'.-])", r"(ap not \1)", text)
    text = re.sub(r"NOT!(\S+?)!", r"\1", text)
    return turn_results(text, fn, place, said)


def turn_results(text, fn, place, said):
    """What a call left in a `&mut` argument: `.new.1.1.0` is the third parameter's, by its name."""
    by_new = {}
    if fn and place is not None:
        for old, new in fn.chain(place):
            if old and plain(old) in fn.callee:
                by_new[new] = fn.params.get(fn.callee[plain(old)])
    held = {}
    for m in re.finditer(r"let (" + ID + r") = c\.(" + ID + r") in", text):
        held[m.group(1)] = m.group(2)

    def put(m):
        who, field, path = m.group(1), {"last": "new", "kept": "auto"}.get(m.group(2), m.group(2)), m.group(3)
        step = who[2:] if who.startswith("c.") else held.get(who)
        params = by_new.get(step)
        i = path.count(".1")
        if params and i < len(params):
            return "%s.%s.%s" % (who, field, params[i])
        said.append("whose parameter: " + m.group(0))
        return m.group(0)

    return re.sub(r"(?<![\w.'-])((?:c\.)?" + ID + r")\.(new|last|auto|kept)((?:\.1)*\.0)(?![\w.])", put, text)


def turn_measure(d, fns, said):
    """A recursion's measure: the parameters by name."""
    f = d["name"][2:].replace("-", "_")
    if f not in fns:
        said.append("whose measure: " + d["name"])
        return None
    params = None
    for fn in fns.values():
        for path, names in fn.params.items():
            if path.split("::")[-1] == f:
                params = names
    body = "\n".join(d["lines"])
    m = re.match(re.escape(d["name"]) + r" κs a =", body)
    if not m or not params:
        said.append("odd measure %s %s" % (d["name"], params))
        return None
    body = re.sub(r"(?<![\w.])a((?:\.1)*)\.0(?![\d])", lambda k: "l." + params[k.group(1).count(".1")], body[m.end():])
    return "abbrev pub decreases-%s : goal.decreases-%s\ndecreases-%s l =%s" % (f, f, f, body.rstrip())


def turn_invariant(d, fn, said):
    """An invariant or a measure: its arguments become fields of l."""
    m = re.search(r"tie\.(invariant|decreases)-(" + ID + r")", d["sig"])
    kind, loop = m.group(1), m.group(2)
    if plain(loop) not in fn.loops:
        said.append("no loop " + loop)
        return None
    new, vars_, changed = fn.loops[plain(loop)]
    body = "\n".join(d["lines"])
    m = re.match(re.escape(d["name"]) + r"((?:\s+" + ID + r")*)\s*=", body)
    if not m:
        said.append("odd form of " + d["name"])
        return None
    args = m.group(1).split()
    body = body[m.end():]
    moved = [v for v, ch in zip(vars_, changed) if ch]
    want = [("l.initial." if ch else "l.") + v for v, ch in zip(vars_, changed)] + ["l." + v for v in moved]
    if len(args) != len(want):
        said.append("%s has %d arguments, the loop %s" % (d["name"], len(args), want))
    table = dict(zip(args, want))
    table.pop("_", None)

    def put(m):
        w = m.group(0)
        return table.get(w, w)

    body = re.sub(r"(?<![\w.'₀-₉-])" + ID, put, body) if table else body
    out = list(d["comment"])
    word = kind + "-" + fn.stem + new
    out.append("abbrev pub %s : goal.%s" % (word, word))
    out += [u for u in d["lines"] if u.startswith("unfolding")]
    out.append("%s l =%s" % (word, body.rstrip()))
    return "\n".join(out)


def used(name, text):
    return re.search(r"(?<![\w.'-])" + re.escape(name) + r"(?![\w'-])", text)


def turn_use(line, text):
    """A use line with the names that text has, or None."""
    m = re.match(r"(use [^{]*)\.\{(.*)\}\s*$", line, re.S)
    if not m:
        m2 = re.match(r"use (\S+)(?: as (\S+))?$", line)
        name = (m2.group(2) or m2.group(1).split(".")[-1]) if m2 else None
        return line if name is None or used(name, text) else None
    keep = []
    for n in [x.strip() for x in m.group(2).split(",")]:
        local = n.split(" as ")[-1].strip()
        if "◌" in local:
            parts = [p for p in local.split("◌") if p]
            if all(p in text for p in parts):
                keep.append(n)
        elif used(local, text):
            keep.append(n)
    return "%s.{%s}" % (m.group(1), ", ".join(keep)) if keep else None


BINDER = re.compile(r"(?:\((" + ID + r") : tie\.((?:After|Else|Then|In|At|Start)[^\s()]*)([^()]*)\)|tie\.((?:After|Else|Then|In|At|Start)[^\s()]*)([^()→]*?)) *(?:→)? *")


def placed(d, fn, said):
    """A lemma over one place of the code: its name, place, type and body, for a `let` in the answers that cite it. Else None."""
    sig = re.sub(r"\s+", " ", d["sig"])
    m = re.match(r"(?:abbrev |unfoldable |pub )*(" + ID + r") : ", sig)
    if not m or "tie." not in sig or "tie.Need-" in sig or re.search(r"tie\.(invariant|decreases)-", sig):
        return None
    b = BINDER.match(sig, m.end())
    if not b:
        said.append("a lemma over a place, of another form: " + d["name"])
        return None
    place = b.group(2) or b.group(4)
    place = fn.named.get(plain(place), place)
    rest = sig[b.end():].strip()
    eqs = [l for l in d["lines"] if not l.startswith("unfolding")]
    body = "\n".join(eqs)
    e = re.match(re.escape(d["name"]) + r" (" + ID + r")((?: (?!=\s)" + ID + r")*) =(?=\s)", body)
    if not e or len(eqs) != 1:
        said.append("a lemma over a place, with another equation: " + d["name"])
        return None
    hidden = []
    while rest.startswith("{"):
        h = re.match(r"\{([^:}]+) : ([^{}]+)\} *(?:→ *)?", rest)
        hidden += h.group(1).split()
        rest = "(%s : %s) → %s" % (h.group(1), h.group(2), rest[h.end():]) if not rest[h.end():].startswith("{") else rest
        break
    return {"name": d["name"], "place": place, "hidden": hidden, "type": rest, "var": e.group(1), "args": e.group(2).split(), "body": body[e.end():].strip(),
            "typevar": b.group(1), "unfolding": [l for l in d["lines"] if l.startswith("unfolding")]}


def placed_in_cycle(d, aliases):
    """The same of a function in a cycle of calls, whose lemmas take the measure's value first."""
    sig = re.sub(r"\s+", " ", d["sig"])
    m = re.match(r"(?:abbrev |unfoldable |pub )*(" + ID + r") : \(t : ℕ\) \(c : (" + ID + r")\.((?:After|Else|Then|In|At|Start)" + ID + r")", sig)
    if not m or m.group(2) not in aliases:
        return None
    i, depth = m.end(), 1
    while depth:
        depth += {"(": 1, ")": -1}.get(sig[i], 0)
        i += 1
    fn = aliases[m.group(2)]
    rest = re.sub(r"^ *→ *", "", sig[i:])
    body = "\n".join(l for l in d["lines"] if not l.startswith("unfolding"))
    e = re.match(re.escape(d["name"]) + r" t c =(?=\s)", body)
    if not e:
        return None
    return {"name": d["name"], "place": fn.named.get(plain(m.group(3)), m.group(3)), "hidden": [], "args": [], "var": "c", "typevar": "c", "type": rest,
            "body": body[e.end():].strip(), "unfolding": [l for l in d["lines"] if l.startswith("unfolding")], "fn": fn}


def rename_var(text, old, new):
    return text if old in (None, new) else re.sub(r"(?<![\w.'₀-₉-])" + re.escape(old) + r"(?![\w'₀-₉-])", new, text)


def with_lets(text, helpers, fn, said):
    """The lemmas over places that an answer cites, as `let`s at its start; each call of one loses its place. Returns the text and unfolding names."""
    lets, opened = [], []

    def want(name):
        h = helpers[name]
        if any(n == name for n, _ in lets):
            return
        body = rename_var(h["body"], h["var"], "c")
        type_ = rename_var(h["type"], h["typevar"], "c")
        body, type_ = calls(body), calls(type_)
        body = turn_paths(body, h.get("fn", fn), h["place"], said)
        type_ = turn_paths(type_, h.get("fn", fn), h["place"], said)
        if h["hidden"] + h["args"]:
            body = "λ %s. %s" % (" ".join(h["hidden"] + h["args"]), body)
        opened.extend(h["unfolding"])
        lets.append((name, "let %s : %s = %s in" % (name, type_, body)))

    def calls(t):
        for name in helpers:
            pat = re.compile(r"(?<![\w.'₀-₉-])" + re.escape(name) + r"(?![\w'₀-₉-])(?: t(?= ))?( (?:\((?:c|back\w+|[a-z]\w*)(?:\.before)*\)|(?:c|back\w+|[a-z]\w*)(?:\.before)*(?![\w.'-])))?")
            if pat.search(t):
                want(name)
                t = pat.sub(name + " _" * len(helpers[name]["hidden"]), t)
        return t

    return calls(text), lets, opened


def top_commas(t):
    out, depth = [], 0
    for i, ch in enumerate(t):
        if ch in "([{":
            depth += 1
        elif ch in ")]}":
            depth -= 1
        elif ch == "," and depth == 0:
            out.append(i)
    return out


def as_record(body, new, fn, members, said):
    """The answer to what a call asks, where that has names: a pair becomes a record of them."""
    m = re.match(r"(\w+)(?:-[^\s]*)?-requires", new)
    path = next((p for p in fn.params if p.split("::")[-1] == m.group(1)), None) if m else None
    names = ASKED.get(path)
    if not names:
        return body
    callee = m.group(1)
    if callee in members:
        return body
    k = body.index(" =") + 2
    head, t = body[:k], body[k:]
    # past the lets
    at = 0
    for m in re.finditer(r"(?<=\s)in(?=[\s(])", t):
        if t[: m.start()].count("(") == t[: m.start()].count(")"):
            at = m.end()
    last = t[at:].strip()
    if last.startswith("(") and last.endswith(")") and top_commas(last[1:-1]):
        inner = last[1:-1]
        i = top_commas(inner)[0]
        a, b = inner[:i].strip(), inner[i + 1:].strip().rstrip(",")
        if top_commas(b):
            b = "(" + b + ")"
        return head + t[:at] + " " + "record { %s = %s; %s = %s }" % (names[0], a, names[1], b)
    said.append("what %s asks has names: %s" % (callee, names))
    return body


ASKED = {}


def turn(folder, path, fns, said):
    """fns: the functions of the folder by stem."""
    text = open(os.path.join(folder, "Proof.antt"), encoding="utf-8").read()
    text = re.sub(r"\.«(\w+)»", r".\1", text)
    head, rest = decls(text)
    inv, ans, helpers = [], [], []
    fn = fns.get("")
    cycle = fn is None
    aliases = {}
    if cycle:
        for u in head:
            m = re.match(r"use \S+\.Lts-(\S+) as (\S+)$", u)
            if m:
                aliases[m.group(2)] = fns[m.group(1)]
    members = set(fns) if cycle else set()
    all_ = grouped(rest)
    over = {}
    for d in all_:
        if cycle:
            h = placed_in_cycle(d, aliases)
            if h:
                over[h["name"]] = h
            continue
        h = placed(d, fn, said)
        if h:
            over[h["name"]] = h
    # a lemma that only goes back to an earlier place: its fields are those of the later one now
    back = [n for n, h in over.items() if re.match(r"tie\.[\w-]+$", h["type"])]
    for name in back:
        over.pop(name)
    all_ = [d for d in all_ if d["name"] not in back]
    for name in back * 3:
        gone = re.compile(r"\(" + re.escape(name) + r" " + ID + r"(?:\." + ID + r")*\)|(?<![\w.'-])" + re.escape(name) + r" (?:\(" + ID + r"(?:\." + ID + r")*\)|" + ID + r"(?:\." + ID + r")*)")
        for d in all_:
            d["lines"] = [gone.sub("c", l) for l in d["lines"]]
            d["sig"] = gone.sub("c", d["sig"])
        for h in over.values():
            h["body"], h["type"] = gone.sub("c", h["body"]), gone.sub("c", h["type"])
    for d in all_:
        if d["name"] in over:
            continue
        sig = re.sub(r"\s+", " ", d["sig"])
        if cycle:
            m = re.search(r"(?<![\w.-])(" + ID + r")\.(Need|invariant|decreases)-", sig)
            if m and m.group(1) in aliases:
                fn = aliases[m.group(1)]
                sig = sig[: m.start()] + "tie" + sig[m.start() + len(m.group(1)):]
                d["sig"] = d["sig"].replace(m.group(1) + "." + m.group(2), "tie." + m.group(2), 1)
            elif re.search(r": Measures \d", sig):
                t = turn_measure(d, fns, said)
                if t:
                    inv.append(t)
                continue
            elif re.search(r": ℕ → In \d", sig) or d["name"].startswith("+"):
                continue
        body = "\n".join(d["lines"])
        if re.search(r": (\{M : Type 1\} → )?statement M", sig) or d["name"].endswith("-spec") and "statement" in sig:
            continue
        m = re.search(r"tie\.Need-(" + ID + r")", sig)
        if m:
            old = m.group(1)
            key = plain(old)
            for k in (key, re.sub(r"^overflow-", "", key), re.sub(r"^nonzero-", "", key), re.sub(r"^slice-bounds-", "slice-", key), re.sub(r"^slice-bounds-", "part-", key)):
                if k in fn.needs:
                    key = k
                    break
            bodyless = re.sub(r"\s+", " ", re.sub(r"(?m)^unfolding .*$", "", body)).strip()
            bodyless = re.sub(r"^(\S+) t ", r"\1 ", bodyless)
            trivial = re.fullmatch(re.escape(d["name"]) + r"( \S+)* = search rules", bodyless) and "unfolding" not in body
            if trivial:
                continue
            if key not in fn.needs:
                said.append("no goal %s (settled: %s), left out" % (old, " ".join(fn.settled)))
                continue
            else:
                new, place = fn.needs[key]
            out = list(d["comment"])
            new = fn.stem + new
            out.append("pub %s : goal.%s" % (new, new))
            body = "\n".join(l for l in d["lines"] if not l.startswith("unfolding"))
            body = re.sub(r"^" + re.escape(d["name"]) + r"(?= )", lambda _: new, body)
            body = re.sub(r"^(\S+(?: t)? c) κs =", r"\1 =", body)
            body, lets, opened = with_lets(body, over, fn, said)
            body = turn_paths(body, fn, place, said)
            if lets:
                m2 = re.match(r"(\S+(?: t)? c =)\s*", body)
                body = m2.group(1) + "\n    " + "\n    ".join(t for _, t in lets) + "\n    " + body[m2.end():]
            body = as_record(body, new[len(fn.stem):], fn, members, said)
            opens = [w for l in d["lines"] + opened if l.startswith("unfolding") for w in l.split()[1:]]
            if opens:
                out.append("unfolding " + " ".join(dict.fromkeys(opens)))
            out.append(body)
            ans.append("\n".join(out))
        elif re.search(r"tie\.(invariant|decreases)-", sig) or re.match(r"(?:abbrev |pub )*(invariant|decreases)-", d["sig"]) and "tie." in sig:
            t = turn_invariant(d, fn, said)
            if t:
                inv.append(t)
        else:
            helpers.append(("\n".join(d["comment"] + [d["sig"]] + d["lines"]), d["name"]))
    uses = [h for h in head if h.startswith("use ")]
    comments = [h for h in head if h.startswith("--")]
    drop = lambda u: re.search(r"\.(Statement|Tie|Lts\S*|Reads as \S+|Kinds as \S+)(?!\S)", u) or re.search(r"\.Tie\.\{|\.Lts\S* as |Statement\.\{", u) or ".{statement}" in u or "borrow.Fn." in u
    uses = [u for u in uses if not drop(u)]

    def write(name, parts, module):
        target = os.path.join(folder, name)
        if not parts:
            if os.path.exists(target):
                os.remove(target)
            return
        extra = []
        text = "\n".join(parts)
        more = True
        while more:
            more = False
            for h, n in helpers:
                if h not in extra and used(n, text + "\n".join(extra)):
                    extra.append(h)
                    more = True
        extra = [h for h, n in helpers if h in extra]
        body = "\n\n".join(extra + parts)
        keep = [k for k in (turn_use(u, body) for u in uses) if k]
        if used("not", body) and not any(re.search(r"[{ ,]not[,}]", k) for k in keep):
            keep.append("use mathlib.Core.Bool.{not}")
        if used("ap", body) and not any(re.search(r"[{ ,]ap[,}]", k) for k in keep):
            keep.append("use mathlib.Core.Path.{ap}")
        if used("rules", body) and not any("rules" in k for k in keep):
            keep.append("use borrow.Author.Rules.{rules}")
        keep.append("use %s.%s as goal" % (path, module))
        with open(target, "w", encoding="utf-8") as f:
            f.write("\n".join(comments + keep) + "\n\n" + body + "\n")

    write("Invariants.antt", inv, "Given")
    write("Answers.antt", ans, "Goals")
    os.remove(os.path.join(folder, "Proof.antt"))


def clause_labels(crate):
    """The names of the `requires` of each function that has several, by the function's path."""
    out = {}
    for folder, _, files in os.walk(os.path.join(crate, "src")):
        for f in files:
            if not f.endswith(".rt"):
                continue
            mod = os.path.relpath(os.path.join(folder, f), os.path.join(crate, "src"))[:-3].replace("/", ".")
            mod = "" if mod in ("lib", "main") else mod + "."
            cur = None
            for line in open(os.path.join(folder, f), encoding="utf-8"):
                m = re.search(r"\bfn (\w+)", line)
                if m:
                    cur = mod + m.group(1)
                m = re.match(r"\s+requires (\w+) \{", line)
                if m and cur:
                    out.setdefault(cur, []).append(m.group(1))
    return out


def main(argv):
    names, crate, only = argv[0], argv[1], argv[2:]
    data = json.load(open(names))
    by = {}
    labels = clause_labels(crate)
    for c in os.listdir(os.path.dirname(os.path.abspath(crate))):
        for f, names_ in clause_labels(os.path.join(os.path.dirname(os.path.abspath(crate)), c)).items():
            ASKED["%s::%s" % (c, f.replace(".", "::"))] = names_
    for module, of in data.items():
        m = re.match(r"Rattle-\w+-proofs\.(.*)\.Lts(.*)$", module)
        if m and "needs" in of:
            stem = m.group(2).lstrip("-")
            f = m.group(1)
            if stem:
                f = ".".join(f.split(".")[:-1] + [stem])
            by.setdefault(m.group(1), {})[stem] = Fn(of, labels.get(f, ()), bool(stem))
    name = os.path.basename(os.path.abspath(crate))
    for f, fns in sorted(by.items()):
        folder = os.path.join(crate, "proofs", *f.split("."))
        if only and f not in only:
            continue
        if not os.path.exists(os.path.join(folder, "Proof.antt")):
            continue
        said = []
        turn(folder, "Rattle.%s.proofs.%s" % (name, f), fns, said)
        for s in said:
            print("%s: %s" % (f, s))


if __name__ == "__main__":
    main(sys.argv[1:])
