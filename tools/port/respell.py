#!/usr/bin/env python3
"""Spells the repository's own names as CONTRACT_STYLE.md, 'Names', has them.

usage: respell.py [--check] [--table FILE]     at the top of the repository, once, after port.py, with everything committed

It collects what the crates' specs/ and proofs/ declare (definitions, facts, record fields, constructors, lemmas, local functions and lets) and turns

    bad-length, makeOf    a definition, a field, a constructor, a local name      bad_length, make_of
    add-comm, lineIs      a lemma: a dash only between two names that are         add_comm, line_is
    length-drop           declared (here or by an imported library)               length-drop
    Upto-mono             a fact keeps its capital                                Upto-mono
    x′                                                                            x'

in each .antt file of specs/ and proofs/, and in .rt files in ghost use lines, clauses, ghost items and using(..) of attributes. It leaves strings, Rust code,
labels, Rust identifiers and names that a file imports from a library. It writes the table old -> new (default: respelled.tsv at the top, one line for
each name with what it was declared as), also the names that were given another spelling because two would fall together (marked '!').
must-fail/*.edit are edits.py's. --check writes nothing. It runs once: a name of several parts could be cut otherwise the second time.
"""
import glob
import os
import re
import sys

W = r"[^\s(){}.;,@\"«»\[\]\\]+"
TOKEN = re.compile(r"--[^\n]*|\"(?:[^\"\\]|\\.)*\"|'(?:[^'\\\n]|\\.)'|«[^»\n]*»|" + W + r"|\.")
DECL = re.compile(r"(?m)^([ \t]*)((?:(?:abbrev|unfoldable|pub|private|instance)[ ]+)*)(%s)((?:[ ]+\{[^{}\n]*\})*)[ ]+:(?=[ \n])" % W)
RECORD = re.compile(r"(?m)^([ \t]*)(?:pub )?(record|data) (%s)([^\n]*(?:\n(?!\1\S)[^\n]*)*)" % W)
USE = re.compile(r"(?m)^[ \t]*(?:pub )?(?:ghost )?use ([^\s;{]+?)(?:\.?\{([^}]*)\})?(?: as (%s))?;?[ \t]*$" % W)
LET = re.compile(r"\blet (%s) (?::(?= )|=)" % W)
LAMBDA = re.compile(r"λ (%s(?: %s)*)\." % (W, W))
# What Rattle names in a proof of a function: an answer, an invariant, a measure, the proof. proofs.py spells these.
MADE = re.compile(r" *(?:tie|goal)\.(?:Need|InvT|MeasureT|invariant|decreases)|[^\n]* → statement M|[^\n]*: statement M")
RESERVED = set("open data record with in as at use module where mod pub abbrev unfoldable unfolding let elim if then else search grind omega simp rw cc ground assumption ruleset syntax fn match type struct enum impl".split())


def read(p):
    with open(p, encoding="utf-8") as f:
        return f.read()


def is_op(name):
    return "◌" in name or not re.search(r"[A-Za-zα-ωΑ-Ωℕℤℚ]", name)


def bare(text):
    """The text with comments and strings blanked, of the same length."""
    blank = lambda it: re.sub(r"[^\n]", " ", it[0])
    return re.sub(r"--[^\n]*|\"(?:[^\"\\\n]|\\.)*\"", blank, text)


def bare_rt(text):
    blank = lambda it: re.sub(r"[^\n]", " ", it[0])
    return re.sub(r"//[^\n]*|b?\"(?:[^\"\\\n]|\\.)*\"", blank, text)


def is_yours(path):
    """Says whether the module that a use line names is the repository's own."""
    steps = path.strip(".").split(".")
    return steps[0] == "package" or steps[0] == "Rattle" and len(steps) > 1 and steps[1] in OWN


def snake(name):
    """camelCase to snake_case in a name with no dash; a name that begins with a capital stays."""
    if re.match(r"[A-ZΑ-Ω]", name):
        return name
    name = re.sub(r"(?<=[a-z0-9])([A-Z])(?=[a-z0-9]|$|[_'])", lambda m: "_" + m[1].lower(), name)
    return name


def plain(name):
    return re.sub(r"[-_]", "-", name)


class Kinds:
    def __init__(self):
        self.of = {}

    def add(self, name, kind):
        self.of.setdefault(name, set()).add(kind)


def result_of(text, at):
    """The text of a type after its last arrow outside brackets."""
    depth, start, i = 0, at, at
    line_start = text.rfind("\n", 0, at) + 1
    indent = len(text[line_start:]) - len(text[line_start:].lstrip())
    while i < len(text):
        c = text[i]
        if c == "\n":
            rest = text[i + 1 :]
            n = re.match(r"[ \t]*", rest).end()
            if depth == 0 and n <= indent:
                break
        depth += c in "({["
        depth -= c in ")}]"
        if depth == 0 and c == "→":
            start = i + 1
        i += 1
    return text[start:i].strip()


def declared(text, kinds):
    code = bare(text)
    spans = []
    for it in RECORD.finditer(code):
        kinds.add(it[3], "type")
        inside, base = it[4], it.start(4)
        spans.append((it.start(), it.end()))
        for d in DECL.finditer(code, base, it.end()):
            if d.start() > it.start() and len(d[1]) > len(it[1]):
                kinds.add(d[3], "field" if it[2] == "record" else "constructor")
    for d in DECL.finditer(code):
        if any(a < d.start(3) < b and a != d.start() for a, b in spans):
            continue
        name = d[3]
        if name in RESERVED or is_op(name) or MADE.match(code, d.end()):
            continue
        end = result_of(code, d.end())
        if "abbrev" in d[2] or "unfoldable" in d[2] or re.fullmatch(r"Type \S+", end):
            kinds.add(name, "definition")
        elif d[1]:
            kinds.add(name, "lemma")
        else:
            kinds.add(name, "lemma")
    for d in re.finditer(r"(?m)^[ \t]*(?:pub )?ruleset (%s)" % W, code):
        kinds.add(d[1], "definition")
    for d in LET.finditer(code):
        kinds.add(d[1], "local")
    for d in LAMBDA.finditer(code):
        for name in d[1].split():
            if re.fullmatch(r"\w[\w'′-]*", name):
                kinds.add(name, "local")


def imported(text):
    """The names that a file imports: from libraries, and from the repository."""
    others, yours = set(), set()
    for it in USE.finditer(bare(text)):
        names = [n.strip() for n in (it[2] or "").split(",") if n.strip()]
        names = [re.sub(r".* as ", "", n).strip("« »") for n in names] + [re.sub(r" as .*", "", n).strip("« »") for n in names if " as " in n]
        (yours if is_yours(it[1]) else others).update(names)
    return others, yours


OWN = set()


def words_of(text, suffix):
    code = bare(text) if suffix == ".antt" else ghosts(text)
    return set(it for it in TOKEN.findall(code) if it not in (".",))


def parts_of_ghosts(text):
    """The spans of a .rt file that are antt: items of ghost use, clauses, ghost items, using(..)."""
    code, spans = bare_rt(text), []
    for it in re.finditer(r"\bghost use [^;{]*\{([^}]*)\}|\bghost use ([^;{]*);", code):
        spans.append(it.span(1) if it[1] is not None else it.span(2))
    for it in re.finditer(r"\b(?:requires|ensures)\*?(?: \w+)? \{|\bghost (?:\w+: )?(?:\w+ )?\{|\bdecreases \{|\bghost \w+: \{", code):
        depth, i = 0, it.end() - 1
        while i < len(code):
            depth += code[i] == "{"
            depth -= code[i] == "}"
            if depth == 0:
                break
            i += 1
        spans.append((it.end(), i))
    for it in re.finditer(r"\b(?:using|unfolding)\(([^)]*)\)", code):
        spans.append(it.span(1))
    return sorted(set(spans))


def ghosts(text):
    return " ; ".join(text[a:b] for a, b in parts_of_ghosts(text))


def main(argv):
    writes = "--check" not in argv
    table_at = argv[argv.index("--table") + 1] if "--table" in argv else "respelled.tsv"
    OWN.update(c for c in os.listdir("crates") if os.path.isdir(os.path.join("crates", c, "src")))
    antt = sorted(p for part in ("specs", "proofs") for p in glob.glob(f"crates/*/{part}/**/*.antt", recursive=True))
    rts = sorted(glob.glob("crates/*/src/**/*.rt", recursive=True))
    texts = {p: read(p) for p in antt + rts}
    kinds, others, ours, library = Kinds(), {}, {}, set()
    for p in antt:
        declared(texts[p], kinds)
    for p in antt + rts:
        others[p], ours[p] = imported(texts[p])
        library |= others[p]
    rust = {p: set(re.findall(r"\w+", bare_rt(texts[p]))) for p in rts}
    modules = {os.path.basename(p)[: -len(".antt")] for p in antt} | {d for p in antt for d in p.split("/")}

    # What may stand on either side of a dash: declared names that are no locals, and what is imported, by their dashed form.
    known = {plain(n) for n, of in kinds.of.items() if of - {"local"}} | {plain(n) for n in library} | {"suc", "zero", "true", "false", "none", "some"}
    new_of = {}

    def lemma(name):
        pieces = re.split(r"-", name)
        if len(pieces) == 1:
            return snake(name)
        out, i = "", 0
        found = []
        while i < len(pieces):
            j = len(pieces) if i else len(pieces) - 1
            while j > i + 1 and "-".join(map(plain, pieces[i:j])) not in known:
                j -= 1
            run = pieces[i:j]
            is_name = is_op(run[0]) or plain("-".join(run)) in known or bool(re.match(r"[A-Z]", run[0])) or bool(re.match(r"[^\w]", run[0]))
            found.append(("_".join(map(snake, run)), is_name))
            i = j
        for k, (word, is_name) in enumerate(found):
            if k:
                out += "-" if is_name and found[k - 1][1] or is_op(word) else "_"
            out += word
        return out

    for name, of in kinds.of.items():
        name_ = name.replace("′", "'")
        if is_op(name):
            continue
        if of & {"definition", "type", "field", "constructor", "local"} and not (of & {"lemma"} and not of & {"definition", "type", "field", "constructor"}):
            # a dash beside a symbol stays, as k₋ or to_ℕ-*
            new = re.sub(r"(?<=\w|')-(?=\w)", "_", name_)
            new = snake(new) if not re.match(r"[A-Z]", new) else new
        else:
            new = lemma(name_)
        if new != name:
            new_of[name] = new
    # ---- clashes, file by file
    words = {p: words_of(texts[p], p[p.rindex(".") :]) for p in texts}
    bare_heads = {}
    for p in antt:
        # words that stand behind no dot: what a new name could meet
        bare_heads[p] = set(re.findall(r"(?<![^\s(){};,@«»\[\]])" + W, bare(texts[p])))
    for p in rts:
        code = ghosts(texts[p])
        bare_heads[p] = set(re.findall(r"(?<![.:\w-])" + W, code)) | params(texts[p])
    changed, table = True, {}
    marked = {}
    users = {}
    for p in texts:
        for w in words[p]:
            if w in new_of and w not in others[p]:
                users.setdefault(w, []).append(p)
    rounds = 0
    while changed and rounds < 8:
        changed, rounds = False, rounds + 1
        for old in sorted(users):
            new = new_of.get(old)
            if new is None:
                continue
            bad = None
            for p in users[old]:
                rivals = {o for o in words[p] if o != old and new_of.get(o, o) == new and (o not in others[p] or o == new)}
                rivals = {o for o in rivals if o in bare_heads[p] or o in new_of}
                if rivals:
                    bad = (p, sorted(rivals)[0])
                    break
            if not bad and kinds.of[old] - {"local"} and new in kinds.of and new not in new_of and any(new in declared_in(texts[p]) and old in declared_in(texts[p]) for p in users[old] if p.endswith(".antt")):
                bad = (users[old][0], new)
            if bad or new in RESERVED:
                is_lemma = kinds.of[old] <= {"lemma", "local"}
                base = re.sub(r"_(of|lem|by|two)$", "", new) if old in marked else new
                tries = [base + e for e in (("_lem", "_is", "_2") if is_lemma else ("_at", "_by", "_2") if base.endswith("_of") else ("_of", "_by", "_2"))]
                if base.endswith("_of") and not is_lemma:
                    tries.insert(0, base[:-3] + "_at")
                taken = set().union(*(words[p] for p in users[old])) | {new_of.get(o, o) for p in users[old] for o in words[p]}
                pick = next((t for t in tries if t not in taken), base + "_3")
                marked[old] = (new, bad)
                new_of[old] = pick
                changed = True
    n = 0
    for p in sorted(texts):
        text = texts[p]
        table_here = {o: w for o, w in new_of.items() if o not in others[p]}
        if p.endswith(".antt"):
            new = turned(text, table_here)
        else:
            new, last = "", 0
            for a, b in parts_of_ghosts(text):
                if a < last:
                    continue
                new += text[last:a] + turned(text[a:b], table_here)
                last = b
            new += text[last:]
            # a name in backticks in a comment
            quoted = lambda it: re.sub(r"`([^`\n]*)`", lambda m: "`" + TOKEN.sub(lambda k: table_here.get(k[0], k[0]) if not re.fullmatch(r"[a-z]+", k[0]) else k[0], m[1]) + "`", it[0])
            new = re.sub(r"//[^\n]*", quoted, new)
        if new != text:
            n += 1
            if writes:
                with open(p, "w", encoding="utf-8") as f:
                    f.write(new)
    rows = [f"{'!' if o in marked else ''}\t{o}\t{w}\t{'+'.join(sorted(kinds.of[o]))}\t{'meets ' + str(marked[o][1][1]) + ' in ' + marked[o][1][0] if o in marked and marked[o][1] else ''}" for o, w in sorted(new_of.items()) if o in users]
    if n and (writes or "--table" in argv):
        with open(table_at, "w", encoding="utf-8") as f:
            f.write("\n".join(rows) + "\n")
    print("\n".join(r for r in rows if r.startswith("!")))
    print(f"respell: {len(rows)} names, {sum(r.startswith('!') for r in rows)} given another spelling, {n} files; the table: {table_at}")
    return 0


CACHE = {}


def declared_in(text):
    key = id(text)
    if key not in CACHE:
        k = Kinds()
        declared(text, k)
        CACHE[key] = {n for n, of in k.of.items() if of - {"local", "field"}}
    return CACHE[key]


def params(text):
    """Rust names that a clause can see: parameters, locals, constants and fields of ghost blocks."""
    code = bare_rt(text)
    return set(re.findall(r"\b(\w+)\s*:(?!:)", code)) | set(re.findall(r"\blet (?:mut )?(\w+)", code)) | set(re.findall(r"\bconst (\w+)", code))


def turned(text, table):
    def one(it):
        word = it[0]
        if word.startswith("--"):
            return re.sub(r"`([^`\n]*)`", lambda m: "`" + TOKEN.sub(lambda k: table.get(k[0], k[0]), m[1]) + "`", word)
        return table.get(word, word)

    return TOKEN.sub(one, text)


if __name__ == "__main__":
    raise SystemExit(main(sys.argv[1:]))
