"""Lists and counts the places in crates/*/src that a pass over the design looks at, point by point.

Usage: python3 tools/places.py [FOLDER]        (FOLDER: a checkout; here by default)

Each point has patterns that a machine can find. What a pattern finds is a candidate: docs/DESIGN-PASS.md says which of
them are places and what became of each.
"""
import glob
import itertools
import os
import re
import sys

TOP = sys.argv[1] if len(sys.argv) > 1 else "."
FILES = sorted(glob.glob(os.path.join(TOP, "crates/*/src/*.rt")))
CODE = [f for f in FILES if os.path.basename(f) != "tests.rt"]


def read(path):
    return open(path, encoding="utf-8").read()


def name(path):
    return os.path.relpath(path, TOP)


def without_comments(text):
    return re.sub(r"//[^\n]*", lambda m: " " * len(m.group()), text)


def line_of(text, at):
    return text.count("\n", 0, at) + 1


def lines(files, pattern, unless=None):
    found = []
    for path in files:
        for number, line in enumerate(without_comments(read(path)).split("\n"), 1):
            if re.search(pattern, line) and not (unless and re.search(unless, line)):
                found.append(f"{name(path)}:{number}: {line.strip()}")
    return found


def block(text, at):
    """The text of the braces that open at or after `at`, and where they end."""
    start = text.index("{", at)
    depth = 0
    for i in range(start, len(text)):
        depth += {"{": 1, "}": -1}.get(text[i], 0)
        if depth == 0:
            return text[start + 1 : i], i + 1
    return text[start + 1 :], len(text)


def matches(pattern):
    """Each match in the code: its place, the match, and the text of its file."""
    for path in CODE:
        text = without_comments(read(path))
        for m in re.finditer(pattern, text):
            yield f"{name(path)}:{line_of(text, m.start())}", m, text


def enums(files):
    for path in files:
        text = without_comments(read(path))
        for m in re.finditer(r"\benum (\w+)", text):
            body, _ = block(text, m.end())
            variants, depth, part = [], 0, ""
            for c in body:
                depth += {"{": 1, "(": 1, "}": -1, ")": -1}.get(c, 0)
                if c == "," and depth == 0:
                    variants.append(part.strip())
                    part = ""
                else:
                    part += c
            variants = [v for v in variants + [part.strip()] if v]
            yield path, line_of(text, m.start()), m.group(1), variants


def functions(files):
    """Each function: file, line, name, parameters, clauses, body."""
    for path in files:
        text = without_comments(read(path))
        for m in re.finditer(r"\bfn (\w+)(<[^(]*>)?\(", text):
            depth, i = 1, m.end()
            while depth:
                depth += {"(": 1, ")": -1}.get(text[i], 0)
                i += 1
            parameters = text[m.end() : i - 1]
            clauses = []
            while True:
                stop = re.compile(r"[{;]").search(text, i)
                if not stop:
                    break
                clause = re.search(r"\b(requires|ensures)\*?( \w+)? $", text[i : stop.start()] + ("" if text[stop.start()] == "{" else ";"))
                if text[stop.start()] == ";":
                    body = ""
                    break
                if not clause:
                    body, _ = block(text, stop.start())
                    break
                inner, i = block(text, stop.start())
                clauses.append((clause.group(1), inner.strip()))
            yield path, line_of(text, m.start()), m.group(1), parameters, clauses, body


TOKEN = re.compile(r'"(?:[^"\\]|\\.)*"|\w+|[^\s\w]')
WORDS = set("let mut if else match for in while loop return fn self Self Some None Ok Err true false as impl where".split())


def shape(body):
    """The tokens of a body with its names and literals blotted out."""
    return tuple(t if t in WORDS or not re.match(r'[\w"]', t) else ("0" if t[0].isdigit() or t[0] == '"' else "x") for t in TOKEN.findall(body))


def split_product(fact):
    parts, depth, part = [], 0, ""
    for c in fact:
        depth += {"(": 1, ")": -1}.get(c, 0)
        if c == "×" and depth == 0:
            parts.append(part.strip())
            part = ""
        else:
            part += c
    parts.append(part.strip())
    out = []
    for p in parts:
        while p.startswith("(") and p.endswith(")") and len(split_product(p[1:-1])) > 0 and balanced(p[1:-1]):
            p = p[1:-1].strip()
        out += [p] if len(parts) == 1 else split_product(p)
    return out


def balanced(s):
    depth = 0
    for c in s:
        depth += {"(": 1, ")": -1}.get(c, 0)
        if depth < 0:
            return False
    return depth == 0


def show(title, found):
    print(f"  {title}: {len(found)}")
    for line in found:
        print(f"      {line}")


def point_1():
    two = [f"{name(p)}:{n}: enum {e}: {' | '.join(re.sub(chr(10)+' *', ' ', v) for v in vs)}" for p, n, e, vs in enums(CODE) if len(vs) == 2 and any(re.search(r"[({]", v) for v in vs)]
    show("own enums of two variants of which one has a value", two)
    show("functions that answer a refusal in an Option", lines(CODE, r"-> Option<Refusal>"))
    show("refusals taken out of an Option to be passed on", lines(CODE, r"if let Some\(refusal\) ="))
    show("arms that only pass on or repackage", lines(CODE, r"\bNone => (None|Err\()|\bErr\((\w+)\) => Err\(\2\)|\bSome\((\w+)\) => Ok\(\3\)|\bSome\(\w+\) => Some\("))
    show("arms that give a default", lines(CODE, r"\b(None|\[\]) => ([\w:]+(\(\))?,|false|Run \{)", r"None => None|=> Err"))
    show("bytes read as kinds", lines(CODE, r"\b(selection|side|kind|code) (==|!=|<=|>=|<|>) \d|match byte_at|byte_at\([^)]*\) == \d"))
    show("numbers of an enum's variants by a match", lines(CODE, r"\w+::\w+ => \d+,$"))
    show("flags among a struct's fields", lines(CODE, r"^\s*(pub(\(crate\))? )?\w+: bool,$"))


def point_2():
    groups = {}
    every = [(p, n, f, shape(b), b) for p, n, f, _, _, b in functions(CODE)]
    for p, n, f, s, b in every:
        if len(s) >= 12:
            groups.setdefault(s, []).append(f"{name(p)}:{n} {f}")
    show("groups of functions that are alike but for names and numbers", [", ".join(g) for g in groups.values() if len(g) > 1])
    import difflib
    near = []
    for (p, n, f, s, b), (q, m, g, t, c) in itertools.combinations(every, 2):
        if s != t and min(len(s), len(t)) >= 30:
            r = difflib.SequenceMatcher(None, s, t, autojunk=False)
            if r.real_quick_ratio() > 0.85 and r.quick_ratio() > 0.85 and r.ratio() > 0.85:
                near.append(f"{name(p)}:{n} {f}, {name(q)}:{m} {g}")
    show("pairs of functions that are nearly alike", near)
    types = {}
    for place, m, _ in matches(r"\b(?:struct|type|const|enum) (\w+)"):
        types.setdefault(m.group(1), []).append(place)
    show("types, aliases and constants whose name stands more than once", [f"{t}: {', '.join(ps)}" for t, ps in types.items() if len(ps) > 1])
    free = {}
    for path in CODE:
        for m in re.finditer(r"^(?:pub(?:\(crate\))? )?fn (\w+)", without_comments(read(path)), re.M):
            free.setdefault(m.group(1), []).append(name(path))
    show("free functions whose name stands in more than one file", [f"{f}: {', '.join(ps)}" for f, ps in free.items() if len(ps) > 1 and f != "main"])


def point_3():
    show("loops over a range of numbers", lines(CODE, r"\bfor \w+ in .*\.\."))
    show("while and loop", lines(CODE, r"\b(while\b.*\{|loop \{)"))
    show("counters moved by one", lines(CODE, r"[+-]= 1;"))
    asks = []
    for place, m, text in matches(r"\bfor [^\n]* in [^\n]*\{"):
        if re.search(r"return (true|false);", block(text, m.end() - 1)[0]):
            asks.append(f"{place}: {m.group()}")
    show("loops that only answer whether some or all are so", asks)


def point_4():
    printed = []
    for path, n, f, _, _, body in functions(CODE):
        for m in re.finditer(r"let (\w+) = &?[\w.]+(?:\(\))?;", body):
            rest = body[: m.start()] + body[m.end() :]
            inside = re.findall(r"\{" + m.group(1) + r"\}", rest)
            whole = re.findall(r"(?<![\w.{])" + m.group(1) + r"\b(?!:)", re.sub(r'"(?:[^"\\]|\\.)*"', "", rest))
            if inside and not whole:
                printed.append(f"{name(path)}:{n} {f}: {m.group(1)}")
    show("locals that are copied only to be printed", printed)
    show("orders field by field", lines(CODE, r"(\w+)\.(\w+) == (\w+)\.\2 &&|\.(\w+) < \w+\.\4\b"))
    show("conversions by a function", lines(CODE, r"\bfn (of|from_\w+|to_\w+|number)\("))


def point_5():
    facts = {}
    for path, n, f, parameters, clauses, body in functions(CODE):
        for kind, text in clauses:
            for fact in sorted(set(split_product(re.sub(r"\s+", " ", text)))):
                plain = re.sub(r"\.(now|old)\b", "", fact)
                facts.setdefault(plain, []).append(f"{f}")
    show("facts in the contracts of three or more functions", [f"{fact}   [{', '.join(fs)}]" for fact, fs in facts.items() if len(fs) >= 3 and kind])
    together = {}
    for path, n, f, parameters, clauses, body in functions(CODE):
        ps = sorted(set(re.sub(r"\s+", " ", p).strip() for p in re.findall(r"\w+: [^,()]+(?:\([^)]*\))?[^,]*", parameters)))
        for pair in itertools.combinations(ps, 2):
            together.setdefault((os.path.dirname(name(path)), pair), []).append(f)
    show("pairs of parameters that travel through three or more functions of a crate", [f"{d}: {a}; {b}   [{', '.join(fs)}]" for (d, (a, b)), fs in together.items() if len(fs) >= 3 and "rt:" not in a + b])


def point_6():
    found = []
    for place, m, text in matches(r"\bstruct (\w+)[^;{]*\{"):
        body, _ = block(text, m.end() - 1)
        if re.search(r": \[", body):
            found.append(f"{place}: struct {m.group(1)}: " + re.sub(r"\s+", " ", body.strip()))
    show("structs with an array", found)
    show("constant arrays", lines(CODE, r"\bconst \w+: \["))
    show("local arrays of a fixed length", lines(CODE, r"let mut \w+ = \[.*; \w+\];|let mut \w+ = \[\w+ \{"))
    show("indices into what lies elsewhere", lines(CODE, r"\b(next|index|position|at|key): usize"))


def point_7():
    found = {}
    variants = {v_name: e for _, _, e, vs in enums(CODE) for v_name in [re.match(r"\w+", v).group() for v in vs]}
    for path, n, f, _, _, body in functions(CODE):
        used = set(re.findall(r"\b([A-Z]\w+)::(?:\w+)(?:\([^)]*\)| \{[^}]*\})?(?: \||\s*=>| if)", body))
        for e in used:
            if e in {x for _, _, x, _ in enums(CODE)}:
                found.setdefault(e, []).append(f"{name(path)}:{n} {f}")
    show("own enums on which three or more functions match", [f"{e}: {', '.join(fs)}" for e, fs in found.items() if len(fs) >= 3])


def point_8():
    for crate in sorted(glob.glob(os.path.join(TOP, "crates/*"))):
        answers = lemmas = proof_lines = 0
        for path in glob.glob(os.path.join(crate, "proofs/**/*.antt"), recursive=True):
            text = read(path)
            proof_lines += text.count("\n")
            count = len(re.findall(r"^pub [\w-]+ :", text, re.M))
            if os.path.basename(path) == "Answers.antt":
                answers += count
            elif os.path.basename(path) != "Invariants.antt":
                lemmas += len(re.findall(r"^(?:pub )?[^\s:]+ : ", text, re.M))
        print(f"  {os.path.basename(crate)}: {answers} answers, {lemmas} lemmas, {proof_lines} lines of proofs")


for number, point in enumerate([point_1, point_2, point_3, point_4, point_5, point_6, point_7, point_8], 1):
    print(f"{number}.")
    point()
