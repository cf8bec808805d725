#!/usr/bin/env python3
"""Spells this repository's own definitions and lemmas as today's Rattle does: words in snake case, where port.py left them as they were.

usage: respell.py [ROOT]     once, right after port.py

It turns names that are written in lower camel case or with dashes and that specs/ or the lemma files of proofs/ declare or bind.
A dash stays where it joins two names of definitions, as in length-journaled; before a plain word it becomes _.
Names that other libraries export, what Rattle makes (goals, steps, places) and Rust's own names stay. In a function's Proof.antt only what it imports from
this repository, and fields of this repository's records, are turned. Must-fail edits are turned as the file that they edit.
Where two names would fall together, OTHERWISE has the one to take, and a lemma that would have a definition's name gets _lem; what still falls together is printed as 'meets:', to be looked at.
docs/PORT-NAMES.tsv lists the names before and after.
"""
import os
import re
import sys

ROOT = sys.argv[1] if len(sys.argv) > 1 else "."
OPEN = r"(?<![^\s(){};.,@«»:←|])"
TOKEN = re.compile(r"[^\s(){};.,@«»:←|\"]+")
STRING = re.compile(r'"(?:[^"\\\n]|\\.)*"')
CAMEL = re.compile(r"[a-z][A-Za-z0-9_']*[A-Z][A-Za-z0-9_']*$")
KEBAB = re.compile(r"[^\W\d_][^\s]*-[^\s]*\w")
USE = re.compile(r"(?m)^\s*(?:ghost )?use ([^\s;{]+?)(?:\.\{([^}]*)\})?(?: as (\S+?))?;?$")
DECLARED = re.compile(r"(?m)^ *(?:(?:abbrev|unfoldable|pub|opaque|instance) )*([^\s(){}.:;,|=]+)(?: \{[^{}\n]*\})* :(?= |$)")
DATA = re.compile(r"(?m)^ *(?:pub )?data [^\n=]*(?:=([^\n]*(?:\n +\|[^\n]*)*))")
WORDS = "length take drop append map get_or set sets cond first fold sum nil cons push slice_set slice_index all each zeros".split()

# A field that would meet a function of its file, and a lemma that would meet a word of std: what they are called instead.
OTHERWISE = {"in-block": "within_block", "is-nan": "is_nan_lem"}
# Fields that may be called as those of another record: which one is meant goes by the record's type.
SHARED = {"src-spot", "first-code", "second-code"}


def crates(root):
    top = os.path.join(root, "crates")
    return sorted(c for c in os.listdir(top) if os.path.isdir(os.path.join(top, c, "src")))


def files(root, ends):
    for folder, dirs, names in os.walk(os.path.join(root, "crates")):
        dirs[:] = sorted(d for d in dirs if d != "out")
        for n in sorted(names):
            if n.endswith(ends):
                yield os.path.join(folder, n)


def of_function(path):
    return os.path.basename(path) in ("Proof.antt", "Answers.antt", "Invariants.antt")


def code(text):
    """The text without comments of antt."""
    return re.sub(r"(?m)(^|(?<=\s))--(?=[\s-]|$).*$", "", text)


def old_style(name):
    return bool(CAMEL.match(name)) or bool(KEBAB.match(name)) and not name.startswith("-")


def snake(word):
    return re.sub(r"(?<=[a-z0-9'])[A-Z]", lambda m: "_" + m[0].lower(), word) if CAMEL.match(word) else word


def spelled(name, words):
    if name in OTHERWISE:
        return OTHERWISE[name]
    parts = [snake(p) for p in name.split("-")]
    out = parts[0]
    for i, p in enumerate(parts[1:], 1):
        rest = "_".join(parts[i:])
        symbol = not re.match(r"\w", p[:1] or " ") or not re.match(r"[\w']", parts[i - 1][-1:] or " ")
        joins = out in words and rest in words
        out += ("-" if symbol or joins else "_") + p
    return out


def own(module, mine):
    steps = module.split(".")
    return steps[0] == "Rattle" and len(steps) > 1 and steps[1] in mine


def imports(text, mine):
    """The names that a file imports from other libraries, and those that it imports from this repository; aliases of other libraries' modules."""
    theirs, ours, aliases = set(), set(), set()
    for module, names, alias in USE.findall(text):
        which = ours if own(module, mine) else theirs
        for n in (names or "").split(","):
            n = n.strip()
            if n:
                which.update(x.strip() for x in n.split(" as "))
        if not names and not own(module, mine):
            aliases.add(alias or module.split(".")[-1])
    return theirs, ours, aliases


def meeting(path, old, new, renamed, words):
    """The new names of a file that stand for two of its names: in a .rt file for a name of specs/ and a parameter, a local or a constant. (A Rust function no clause can name.)"""
    if of_function(path):
        return
    was, now = (set(TOKEN.findall(code(x))) for x in (old, new))
    made = {}
    for n in was - now:
        if old_style(n):
            made.setdefault(renamed.get(n) or spelled(n, words), set()).add(n)
    if path.endswith(".rt"):
        was = set(re.findall(r"\b(?:let(?: mut)?|const|static|for) (\w+)|\b(\w+): ", old))
        was = {x for pair in was for x in pair}
    for n, olds in sorted(made.items()):
        meets = olds | ({n} if n in was else set())
        if len(meets) > 1:
            yield n, meets


def main():
    mine = set(crates(ROOT))
    declared, fields, functions, theirs_all = set(), set(), set(WORDS), set()
    texts = {p: open(p, encoding="utf-8").read() for p in files(ROOT, (".antt", ".rt"))}
    for p, t in texts.items():
        if not p.endswith(".antt"):
            continue
        theirs_all |= imports(t, mine)[0]
        if of_function(p):
            continue
        c = code(t)
        for n in DECLARED.findall(c):
            declared.add(n)
            if "/specs/" in p and not KEBAB.match(n):
                functions.add(snake(n))
        for n in re.findall(r"(?m)^ +(?:pub )?([^\s(){}.:;,|=]+) :(?= |$)", c):
            fields.add(n)
        for block in DATA.findall(c):
            for arm in block.split("|"):
                w = arm.split()
                if w:
                    declared.add(w[0])
    renamed = {n: spelled(n, functions) for n in declared if old_style(n)}
    taken = {renamed.get(n, n) for n in declared if not KEBAB.match(n)}
    for n, to in renamed.items():
        if KEBAB.match(n) and to in taken and n not in SHARED:
            renamed[n] = OTHERWISE[n] = to + "_lem"

    def turn_antt(path, text):
        theirs, ours, aliases = imports(text, mine)
        proof = of_function(path)

        def word(m):
            n = m[0]
            at = m.start()
            before = m.string[:at]
            if not old_style(n) or n in theirs and n not in ours:
                return n
            dotted = before.endswith(".")
            if dotted:
                head = re.search(r"([\w'·-]+(?:\.[\w'·-]+)*)\.$", before)
                if head and (head[1].split(".")[0] in aliases or head[1].startswith("Rattle.") and not own(head[1], mine)):
                    return n
            if proof:
                if dotted and n in fields and n in renamed or not dotted and n in ours and n in renamed:
                    return renamed[n]
                return n
            if n in renamed:
                return renamed[n]
            return n if dotted else spelled(n, functions)

        out, n = [], 0
        for line in text.split("\n"):
            cut = re.search(r"(^|\s)--(?=[\s-]|$)", line)
            body, comment = (line[: cut.start()], line[cut.start() :]) if cut else (line, "")
            m = re.match(r"(\s*(?:pub )?(?:use|mod) )([^\s{]+)(.*)$", body)
            if m:
                outside = m[1].strip().endswith("use") and not own(m[2], mine)
                body = body if outside else m[1] + m[2] + TOKEN.sub(word, m[3])
            else:
                body = TOKEN.sub(word, body)
            comment = re.sub(r"`([^`\s]+)`", lambda k: "`" + renamed.get(k[1], k[1]) + "`", comment)
            out.append(body + comment)
        return "\n".join(out)

    def turn_rt(text):
        theirs = imports(text, mine)[0]

        def word(m):
            n = m[0]
            return renamed[n] if n in renamed and n not in theirs else n

        def line(l):
            parts, at = [], 0
            for s in STRING.finditer(l):
                parts += [TOKEN.sub(word, l[at : s.start()]), s[0]]
                at = s.end()
            return "".join(parts) + TOKEN.sub(word, l[at:])

        return "\n".join(line(l) for l in text.split("\n"))

    bad = 0
    for p, t in sorted(texts.items()):
        new = turn_antt(p, t) if p.endswith(".antt") else turn_rt(t)
        for n, olds in meeting(p, t, new, renamed, functions):
            print(f"meets: {os.path.relpath(p, ROOT)}: {' and '.join(sorted(olds))} -> {n}")
            bad += 1
        if new != t:
            with open(p, "w", encoding="utf-8") as f:
                f.write(new)
    with open(os.path.join(ROOT, "docs", "PORT-NAMES.tsv"), "w", encoding="utf-8") as f:
        for a, b in sorted(renamed.items()):
            f.write(f"{a}\t{b}\n")
    print(f"respell: {len(renamed)} names turned, {bad} meet another")
    return 0


if __name__ == "__main__":
    raise SystemExit(main())
