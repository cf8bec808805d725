#!/usr/bin/env python3
"""Turns the walks of a crate's Proof.antt files of the older kit into Invariants.antt and Answers.antt.

usage: answers.py CRATE-FOLDER NAMES.json [FUNCTION-FOLDER..]

For a crate whose walks are still the older kit's (docs/PORT.md): rename its Proof.antt files to Proof.antt.old, run `rt check --generated DIR --old-names`
in its folder, and hand over DIR/names.json. The folders of the functions get the two files; the .old files are to go before a commit.
Answers that are a bare search are left out: the check finds them. What it can't turn it leaves in the text, and the check says so.
"""
import json
import os
import re
import sys


def norm(s):
    return s.replace("-", "_")


ATOM = r"[\w'·₀-₉-]+"
SKIP = re.compile(r"^\s*(search rules|search needs)\s*$")


def blocks(text):
    out = []
    for line in text.split("\n"):
        if line and not line[0].isspace() and not (out and line[0] in ")]}"):
            out.append([line])
        elif out:
            out[-1].append(line)
    return ["\n".join(b).rstrip() for b in out if "\n".join(b).strip()]


class Names:
    def __init__(self, j):
        self.needs = {norm(a): b for a, b in j["needs"]}
        self.at = {norm(a): norm(p[0]) for (a, b), p in zip(j["needs"], j["asked_at"])}
        self.parent = {norm(p[0]): norm(p[1]) if p[1] else None for p in j["places"]}
        self.byplace, self.step_of = {}, {}
        self.settled = {norm(x) for x in j.get("settled") or []}
        self.steps, self.fields, self.arms, self.clauses, self.places = {}, {}, {}, {}, {}
        names = j["places_by_name"]
        for k, p in enumerate(j["places"]):
            place, parent, (old, new), callee, renamed = p
            self.places[norm(place)] = names[k]
            o = norm(old)
            self.step_of[norm(place)] = o
            if o:
                self.steps.setdefault(o, new)
                for a, b in renamed:
                    self.fields.setdefault((o, norm(a)), b)
            arm = (j.get("arms") or [None] * len(names))[k]
            if arm:
                step, n, parts = arm
                for field, ostep, path in parts:
                    if not path and ostep == "match":
                        continue
                    self.arms[(norm(ostep), tuple(norm(x) for x in path))] = (step, field)
                    self.byplace.setdefault(norm(place), {})[(norm(ostep), tuple(norm(x) for x in path))] = (step, field)
                if any(ostep == "match" and not path for _, ostep, path in parts) and step.startswith("in_default"):
                    own = [f for f, o2, path in parts if o2 == "match" and not path][0]
                    self.byplace.setdefault(norm(place), {})[("match", ())] = (step, own)
            c = (j.get("clauses") or [None] * len(names))[k]
            if c and o:
                self.clauses[o] = c
                FIELDS[new] = c.get("fields") or []
        self.asked = {norm(a): b for a, b in (j.get("asked") or {}).items()}
        self.loops = j.get("loops") or []
        self.changed = j.get("changed") or []
        self.pre = j.get("pre")


def split_decl(block):
    """name, type text, unfolding line, clauses [(patterns, body)]"""
    lines = block.split("\n")
    head = lines[0]
    m = re.match(r"^((?:abbrev |pub |unfoldable )*)(\S+)((?: \{[^{}]*\})*) :(.*)$", head)
    if not m:
        return None
    name = m[2]
    return m[1], name, m[3], m[4]


MUTS = {}


def muts(fn):
    """The &mut slices among a function's parameters, by the function's name."""
    if not MUTS:
        for d, dirs, fs in os.walk(os.path.join(CRATES)):
            dirs[:] = [x for x in dirs if x != "out"]
            for f in fs:
                if f.endswith(".rt"):
                    t = open(os.path.join(d, f), encoding="utf-8").read()
                    for m in re.finditer(r"\bfn (\w+)(?:<[^>]*>)?\(([^)]*)\)", t):
                        MUTS.setdefault(m[1], re.findall(r"(\w+)(?=: |\b,|$)", re.sub(r": [^,]*", ": ", m[2].replace("&mut self", "self").replace("&self", "self"))))
    return MUTS.get(fn, [])


def path_turner(nm, place=None, root="c"):
    chain = []
    while place:
        chain.append(place)
        place = nm.parent.get(place)

    def arm_of(key):
        for p in chain:
            if key in nm.byplace.get(p, {}):
                return nm.byplace[p][key]
        return nm.arms.get(key)

    def turn(m):
        head, path = m[1], m[2]
        if head not in (root, "c"):
            return m[0]
        segs = path[1:].split(".")
        had = len(segs)
        while segs and segs[0] == "before":
            segs.pop(0)
        if not segs:
            return m[0]
        first = norm(segs[0])
        if first in ("pre",):
            segs[0] = "requires"
            first = "requires"
        if first == "requires" and nm.pre and nm.pre.get("fields") and len(segs) > 1 and segs[1].isdigit():
            k = int(segs[1]) - (nm.pre.get("before") or 0)
            if 0 <= k < len(nm.pre["fields"]) and nm.pre["fields"][k]:
                segs[1] = nm.pre["fields"][k]
            return head + "." + ".".join(segs)
        if first not in nm.steps:
            for cut in (re.sub("_lem$", "", first), re.sub("^bor_", "", first), first[:1].lower() + first[1:], re.sub(r"\d+$", "", first)):
                if cut in nm.steps:
                    first = cut
                    break
        # an arm, by the longest path
        for n in range(len(segs) - 1, -1, -1):
            key = (first, tuple(norm(x) for x in segs[1 : 1 + n]))
            if arm_of(key):
                step, field = arm_of(key)
                return head + "." + ".".join([step, field] + segs[1 + n :])
        if first in nm.steps:
            out = [nm.steps[first]]
            rest = segs[1:]
            if rest:
                f = norm(rest[0])
                if f in ("taken", "left") and re.fullmatch(r"if\d*|\w*test\d*", first):
                    here = next((p for p in chain if nm.step_of.get(p) == first), "")
                    f = "false" if f == "left" or here.startswith(("else", "after_loop", "Else", "After_loop")) else "true"
                    rest[0] = f
                if f == "inv":
                    rest[0] = "invariant"
                elif (first, f) in nm.fields:
                    rest[0] = nm.fields[(first, f)]
                elif f in ("auto", "kept") and len(rest) > 1 and rest[1].isdigit():
                    ms = muts(re.sub(r"\d+$", "", first)) or muts(first)
                    ones = 0
                    while 1 + ones < len(rest) and rest[1 + ones] == "1":
                        ones += 1
                    if 1 + ones < len(rest) and rest[1 + ones] == "0" and ones < len(ms):
                        rest[0:  2 + ones] = ["auto", ms[ones]]
                c = nm.clauses.get(first)
                if rest[0] == "ensures" and c and c.get("fields"):
                    fs = c["fields"]
                    if len(fs) == 1 and fs[0]:
                        rest[1:1] = [fs[0]]
                    elif len(rest) > 1 and rest[1].isdigit() and int(rest[1]) < len(fs):
                        rest[1] = fs[int(rest[1])]
            return head + "." + ".".join(out + rest)
        return head + "." + ".".join(segs)

    return turn


PATH = re.compile(r"(?<![\w'.-])(" + ATOM + r"|\))((?:\." + ATOM + r")+)")


def drop_projection(body, helpers):
    """h e becomes e.before.., for helpers that go from a place to an earlier one."""
    if not helpers:
        return body
    names = "|".join(re.escape(h) for h in sorted(helpers, key=len, reverse=True))
    pat = re.compile(r"(?<![\w'.-])(" + names + r") +(" + ATOM + r"(?:\." + ATOM + r")*)(?![\w'-])")
    while True:
        new = tidy_parens(pat.sub(lambda m: "(" + m[2] + ".before" * helpers[m[1]] + ")" if m[2] not in helpers else m[0], body))
        if new == body:
            return body
        body = new


def tidy_parens(body):
    while True:
        new = re.sub(r"\((" + ATOM + r"(?:\." + ATOM + r")*)\)", lambda m: m[1], body)
        if new == body:
            return body
        body = new


HELPERS = set()


def drop_lets(body):
    """let n = c in .. becomes .. with c."""
    while True:
        m = re.search(r"\blet (" + ATOM + r") = (" + ATOM + r"(?:\." + ATOM + r")*) in\s+", body)
        if not m:
            return body
        var, val = m[1], m[2]
        rest = body[m.end() :]
        def put_in(k):
            if var == "at" and k.string[k.end() : k.end() + 1] not in (".", ")", ",", ";", "\n", ""):
                word = re.search(r"([\w'-]+) +$", k.string[: k.start()])
                if not word or word[1] not in HELPERS:
                    return k[0]
            return val

        rest = re.sub(r"(?<![\w'.-])" + re.escape(var) + r"(?![\w'-])", put_in, rest)
        body = body[: m.start()] + rest


def named_ensures(crate, where):
    fn = where.split(".")[-1]
    mod = where.split(".")[:-1]
    src = os.path.join(CRATES, crate, "src")
    for cand in (os.path.join(src, *mod) + ".rt", os.path.join(src, "lib.rt"), os.path.join(src, "main.rt"), os.path.join(src, *mod[:-1]) + ".rt"):
        if os.path.exists(cand):
            t = open(cand, encoding="utf-8").read()
            m = re.search(r"\bfn " + fn + r"\b.*?\n\s*\{\n|\bfn " + fn + r"\b.*?\n\{", t, re.S)
            if m:
                return re.findall(r"\n\s*ensures (\w+) \{", m[0])
    return []


def projected(body, names):
    """A pair as the record of the named clauses."""
    depth, last = 0, 0
    for m in re.finditer(r"[()\[\]{}]|\bin\b", body):
        if m[0] in "([{":
            depth += 1
        elif m[0] in ")]}":
            depth -= 1
        elif depth == 0:
            last = m.end()
    lets, final = body[:last], body[last:].strip()
    parts = top_parts(final)
    thing = re.match(r"(rw .*) at (c\.(\S+)\.ensures)$", final, re.S)
    if thing and len(FIELDS.get(thing[3], [])) == len(names):
        fields = "; ".join(f"{n} = {thing[1]} at {thing[2]}.{k}" for n, k in zip(names, FIELDS[thing[3]]))
    elif parts and len(parts) == len(names):
        fields = "; ".join(f"{n} = {p.strip()}" for n, p in zip(names, parts))
    else:
        fields = "; ".join(f"{n} = ({final}).{k}" for k, n in enumerate(names))
    return (lets + "\n    " if lets else " ") + "record { " + fields + " }"


def top_parts(text):
    if not (text.startswith("(") and text.endswith(")")):
        return None
    depth, parts, cur = 0, [], ""
    for k, ch in enumerate(text[1:-1]):
        if ch in "([{":
            depth += 1
        elif ch in ")]}":
            depth -= 1
            if depth < 0:
                return None
        if ch == "," and depth == 0:
            parts.append(cur)
            cur = ""
        else:
            cur += ch
    if cur.strip():
        parts.append(cur)
    return parts if len(parts) > 1 else None


CRATES = "."
FIELDS = {}


def convert(folder, nm, crate, where):
    path = os.path.join(folder, "Proof.antt.old")
    text = open(path, encoding="utf-8").read()
    uses, decls, comments = [], [], []
    pend = []
    for b in blocks(text):
        if re.match(r"(pub )?use ", b):
            uses.append(b)
        elif b.startswith("--"):
            pend.append(b)
        else:
            decls.append((pend, b))
            pend = []
    turn = path_turner(nm)
    # gather: signature blocks are followed by clause blocks of the same name
    groups = []
    for pc, b in decls:
        for line_block in blocks(b):
            m = re.match(r"^((?:abbrev |pub |unfoldable )*)(\S+)((?: \{[^{}]*\})*) :( .*|$)", line_block.split("\n")[0])
            if m and not line_block.startswith("unfolding "):
                groups.append({"mods": m[1], "name": m[2], "comments": pc, "sig": line_block, "rest": []})
                pc = []
            elif groups:
                groups[-1]["rest"].append(line_block)
    helpers = {}
    answers, invariants, kept = [], [], []
    loops = {}
    for k, (nm_pair, variables) in enumerate(nm.loops):
        loops[norm(nm_pair[0])] = (nm_pair[1], variables, nm.changed[k] if k < len(nm.changed) else [])
    for g in groups:
        sig = g["sig"]
        typ = re.sub(r"\s+", " ", sig[sig.index(" :") + 2 :]).strip()
        unf = [r for r in g["rest"] if r.startswith("unfolding ")]
        clauses = [r for r in g["rest"] if not r.startswith("unfolding ")]
        g["typ"], g["unf"], g["clauses"] = typ, unf, clauses
        m = re.fullmatch(r"tie\.\S+(?: (?:invariant|decreases)-\S+)* → tie\.\S+(?: (?:invariant|decreases)-\S+)*", typ)
        if m and len(clauses) == 1:
            cm = re.match(r"^\S+ (\S+) =\s*(.*)$", clauses[0], re.S)
            if cm:
                body = tidy_parens(drop_projection(cm[2], helpers)).strip()
                if re.fullmatch(re.escape(cm[1]) + r"(\.before)*", body):
                    helpers[g["name"]] = body.count(".before")
                    g["kind"] = "projection"
                    continue
        if re.match(r"tie\.invariant-?\S*$", typ) or re.match(r"tie\.decreases-?\S*$", typ):
            g["kind"] = "loop"
            continue
        m = re.match(r"tie\.Need-(\S+)(.*)$", typ)
        if m:
            g["kind"] = "answer"
            continue
        if re.search(r"statement", typ) and g["name"].rstrip().endswith(("spec",)):
            g["kind"] = "spec"
            continue
        g["kind"] = "other"
    ensures = named_ensures(crate, where)

    def body_of(text, at=None):
        t = drop_projection(text, helpers)
        t = drop_lets(t)
        t = tidy_parens(drop_projection(t, helpers))
        # keep parens that a projection of a call needs: only atoms were freed
        t = PATH.sub(path_turner(nm, at), t)
        return t

    HELPERS.clear()
    HELPERS.update(g["name"] for g in groups if g["kind"] in ("projection", "other"))
    # helpers that take a place: they become lets of the answers that use them
    placed = {}
    for g in groups:
        if g["kind"] != "other" or not g["clauses"]:
            continue
        m = re.match(r"\((\S+) : tie\.([^\s)]+)(?: (?:invariant|decreases)-\S+?)*\)\s*(?:→\s*)?(.*)$", g["typ"]) or re.match(r"()tie\.(\S+)(?: (?:invariant|decreases)-\S+?)* → (.*)$", g["typ"])
        cm = re.match(r"^(\S+)((?: +(?:[^\s()=]+))*?) =\s(.*)$", g["clauses"][0], re.S)
        if not m or not cm or not cm[2].split() or len(g["clauses"]) > 1:
            continue
        ps = cm[2].split()
        implicit = []
        typ0 = m[3]
        while True:
            im = re.match(r"\{([^:{}]+) : ([^{}]*)\}\s*(→\s*)?", typ0)
            if not im:
                break
            implicit += [(im[1].split(), im[2])]
            typ0 = typ0[im.end() :]
        m = (m[0], m[1], m[2], "".join(f"({' '.join(ns)} : {t}) → " for ns, t in implicit) + typ0)
        ps = ps[:1] + [n for ns, _ in implicit for n in ns] + ps[1:]
        placed[g["name"]] = {"implicit": sum(len(ns) for ns, _ in implicit), "p": m[1] or ps[0], "place": norm(m[2]), "type": m[3], "params": ps[1:], "own": ps[0], "body": cm[3].strip(), "unf": g["unf"], "order": len(placed)}
        g["kind"] = "placed"

    def using(text, found, root):
        """The text with `h c.before` as `h`, and the helpers that it uses."""
        if not placed or not root:
            return text
        names = "|".join(re.escape(h) for h in sorted(placed, key=len, reverse=True))
        pat = re.compile(r"(?<![\w'.-])(" + names + r") +" + re.escape(root) + r"(?:\.before)*(?![\w'.-])")

        def one(m):
            found.add(m[1])
            return "\x01" + m[1] + "\x02" + " _" * placed[m[1]]["implicit"]

        text = tidy_parens(pat.sub(one, text))
        return re.sub(r"\((\x01[^\x02]*\x02)\)", lambda m: m[1], text)

    def put(text, var, val):
        return re.sub(r"(?<![\w'.-])" + re.escape(var) + r"(?![\w'-])", val, text) if var else text

    def with_helpers(raw, unf, at, param):
        """An answer's body with the lets that it needs, and its unfolding line."""
        found, done, texts = set(), set(), {}
        body = using(tidy_parens(drop_projection(drop_lets(drop_projection(raw, helpers)), helpers)), found, param)
        while found - done:
            h = sorted(found - done)[0]
            done.add(h)
            it = placed[h]
            typ = using(tidy_parens(drop_projection(drop_lets(drop_projection(it["type"], helpers)), helpers)), found, it["p"])
            txt = using(tidy_parens(drop_projection(drop_lets(drop_projection(it["body"], helpers)), helpers)), found, it["own"])
            turn2 = path_turner(nm, it["place"], param)
            typ, txt = (PATH.sub(turn2, put(x, v, param)) for x, v in ((typ, it["p"]), (txt, it["own"])))
            lam = "λ " + " ".join(it["params"]) + ". " if it["params"] else ""
            texts[h] = f"let {h} : {typ} = {lam}{txt} in"
        body = PATH.sub(path_turner(nm, at, param), body)
        names = []
        for u in unf + [u for h in sorted(done, key=lambda h: placed[h]["order"]) for u in placed[h]["unf"]]:
            for w in u.split()[1:]:
                if w not in names:
                    names.append(w)
        lets = "\n    ".join(texts[h] for h in sorted(done, key=lambda h: placed[h]["order"]))
        if lets:
            body = "\n    " + lets + "\n    " + body.strip()
        return re.sub("[\x01\x02]", "", body), ["unfolding " + " ".join(names)] if names else []

    for g in groups:
        if g["kind"] in ("projection", "spec", "placed"):
            continue
        if g["kind"] == "loop":
            m = re.match(r"tie\.(invariant|decreases)-(\S+)$", g["typ"])
            kind, old = m[1], norm(m[2])
            if old not in loops:
                kept.append("-- LOOP? " + g["sig"])
                continue
            new, variables, changed = loops[old]
            cl = g["clauses"][0]
            cm = re.match(r"^(\S+)((?: +\S+)*?) =\s*(.*)$", cl, re.S)
            params = cm[2].split()
            expect = list(variables) + [v for v, ch in zip(variables, changed) if ch]
            body = cm[3]
            if len(params) > len(expect):
                params = [p for p in params if not re.fullmatch(r"t\d+₀?", p)]
            if len(params) == len(expect):
                for i, p in enumerate(params):
                    if p == "_":
                        continue
                    v = expect[i]
                    fv = "«%s»" % v if v in ("data", "open", "record", "ruleset") else v
                    path2 = ("l.initial." if i < len(variables) and changed[i] else "l.") + fv
                    body = re.sub(r"(?<![\w'.-])" + re.escape(p) + r"(?![\w'₀-₉-])", "\0" + path2, body)
                body = body.replace("\0", "")
            else:
                body = "{- PARAMS %s | %s -} " % (params, expect) + body
            label = f"{kind}-{new}"
            unf = "".join(u + "\n" for u in g["unf"])
            sep = " " if "\n" not in body.strip() else "\n    "
            invariants.append(f"abbrev pub {label} : goal.{label}\n{unf}{label} l ={sep}{body.strip()}\n")
            continue
        if g["kind"] == "answer":
            old = norm(g["name"])
            new = nm.needs.get(old)
            if new is None:
                # by the label in the type
                m = re.match(r"tie\.Need-(\S+)", g["typ"])
                alt = norm(re.sub(r"^(overflow|nonzero|bounds)-", "", m[1]))
                new = nm.needs.get(alt) or nm.needs.get(norm(m[1]))
            al = {"loop_holds": "loop_init", "loop_less": "loop_smaller", "loop_again": "loop_preserved"}
            if new is None:
                o = old
                for a, b in al.items():
                    o = o.replace(a, b)
                new = nm.needs.get(o)
            if new is None:
                if old in nm.settled:
                    continue
                print("  no goal for", g["name"], g["typ"])
                continue
            cl = g["clauses"][0] if g["clauses"] else ""
            cm = re.match(r"^(\S+)((?: +(?:\S+|\([^)]*\)))*?) =(\s.*)$", cl, re.S)
            if not cm:
                kept.append("-- CLAUSE? " + cl)
                continue
            body = cm[3]
            if SKIP.match(body) and not g["unf"]:
                continue
            params = [p for p in cm[2].split() if p not in ("κs",)]
            p0 = params[-1] if params else "c"
            at = nm.at.get(old)
            for k2, v2 in nm.needs.items():
                if v2 == new:
                    at = nm.at.get(k2)
            b, unfs = with_helpers(body, g["unf"], at, p0 if p0 != "_" else "c")
            if new.startswith("returns") and len(ensures) > 1:
                b = projected(b, ensures)
            asked = nm.asked.get(old) or nm.asked.get(re.sub(r"_\d+$", "", old))
            if "-requires" in new and asked and len(asked) > 1:
                b = projected(b, asked)
            if p0 == "_":
                p0 = "c"
            unf = "".join(u + "\n" for u in unfs)
            com = "".join(x + "\n" for x in g["comments"] if not re.match(r"-- -+ the needs", x))
            answers.append(f"{com}pub {new} : goal.{new}\n{unf}{new} {p0} ={b.rstrip()}\n")
            continue
        # other helpers
        t = g["sig"]
        txt = "\n".join([t] + g["rest"])
        txt = body_of(txt)
        txt = re.sub(r"tie\.(\S+?)(?=[\s)])", lambda m: "goal." + nm.places.get(norm(m[1]), m[1]), txt + "\n")
        kept.append("".join(x + "\n" for x in g["comments"]) + txt.rstrip() + "\n")
    head = []
    for u in uses:
        if re.search(r"\.(Statement|Tie|Reads|Lts)(\.|\b| as)", u) or "borrow.Author.Needs" in u:
            continue
        head.append(u)
    goal = "Rattle.%s.proofs.%s" % (crate, where)
    for f in ("Answers.antt", "Invariants.antt"):
        p = os.path.join(folder, f)
        if os.path.exists(p):
            os.remove(p)
    shared = []
    for k in reversed(list(kept)):
        m = re.search(r"(?m)^(?:abbrev |unfoldable |pub )*(\S+)(?: \{[^}]*\})* :", k)
        if m and any(re.search(r"(?<![\w'.-])" + re.escape(m[1]) + r"(?![\w'-])", i) for i in invariants + [x for _, x in shared]):
            kept.remove(k)
            shared.insert(0, (m[1], re.sub(r"(?m)^(abbrev |unfoldable )(?!pub)", r"\1pub ", k, count=1)))
    invariants = [k for _, k in shared] + invariants
    if shared:
        head.append("use %s.Invariants.{%s}" % (goal, ", ".join(n for n, _ in shared)))
    if invariants:
        used = prune([h for h in head if not h.startswith("use " + goal + ".Invariants")], "\n".join(invariants))
        open(os.path.join(folder, "Invariants.antt"), "w", encoding="utf-8").write(renamed("\n".join(used + [f"use {goal}.Given as goal"]) + "\n\n" + "\n".join(invariants)))
    if answers:
        body = "\n".join(kept + answers)
        used = prune(head, body)
        open(os.path.join(folder, "Answers.antt"), "w", encoding="utf-8").write(renamed("\n".join(used + [f"use {goal}.Goals as goal"]) + "\n\n" + body))
    return len(answers), len(invariants), len(kept)


def prune(uses, body):
    tokens = set(re.findall(r"[^\s(){};.,@«»:|\"]+", body)) | set(re.findall(r"[^\s(){};,\"]+", body))
    parts = set()
    for t in tokens:
        parts.add(t)
    out = []
    for u in uses:
        m = re.match(r"^((?:pub )?use [^\s{]+?)\.\{([^}]*)\}$", u.strip(), re.S)
        if m:
            names = [n.strip() for n in m[2].split(",") if n.strip()]
            keep = []
            for n in names:
                last = n.split(" as ")[-1]
                pieces = [x for x in re.split("◌", last) if x]
                if last in tokens or ("◌" in last and all(any(x == t or x in t for t in tokens) for x in pieces)) or last in ("rules", "arith", "List", "ℕ"):
                    if last in ("List", "ℕ") and last not in tokens:
                        continue
                    if last in ("rules", "arith") and last not in tokens:
                        continue
                    keep.append(n)
            if keep:
                out.append(m[1] + ".{" + ", ".join(keep) + "}")
        else:
            alias = u.strip().split(" as ")[-1].split(".")[-1]
            if re.search(r"(?<![\w'])" + re.escape(alias) + r"(?![\w'])", body):
                out.append(u.strip())
    return out


RENAMED = {}


def renamed(text):
    if not RENAMED:
        for l in open(os.path.join(CRATES, "..", "docs", "PORT-NAMES.tsv"), encoding="utf-8"):
            a, b = l.rstrip("\n").split("\t")
            if re.fullmatch(r"[a-z][a-z0-9]*[A-Z]\w*", a):
                RENAMED[a] = b
    return re.sub(r"(?<![\w'-])[a-z][a-z0-9]*[A-Z]\w*(?![\w'-])", lambda m: RENAMED.get(m[0]) or re.sub(r"(?<=[a-z0-9])[A-Z]", lambda k: "_" + k[0].lower(), m[0]), text)


def main():
    crate_dir, names = sys.argv[1], sys.argv[2]
    only = set(sys.argv[3:])
    crate = os.path.basename(os.path.abspath(crate_dir))
    global CRATES
    CRATES = os.path.dirname(os.path.abspath(crate_dir))
    j = json.load(open(names, encoding="utf-8"))
    done = 0
    for key, v in j.items():
        if not isinstance(v, dict) or not key.endswith(".Lts"):
            continue
        m = re.match(r"Rattle-(\w+)-proofs\.(.+)\.Lts$", key)
        if not m or m[1] != crate:
            continue
        folder = os.path.join(crate_dir, "proofs", *m[2].split("."))
        if only and m[2] not in only and m[2].split(".")[-1] not in only:
            continue
        if not os.path.exists(os.path.join(folder, "Proof.antt.old")):
            continue
        a, i, k = convert(folder, Names(v), crate, m[2])
        done += 1
        print(f"{m[2]}: {a} answers, {i} invariants, {k} kept")
    print(done, "functions")


if __name__ == "__main__":
    main()
