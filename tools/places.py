#!/usr/bin/env python3
"""Counts, in the crates' src/, the places of which the page docs/DESIGN-PASS.md speaks.

    tools/places.py          the tree that it stands in
    tools/places.py COMMIT   the tree of a commit
    tools/places.py -v ..    also each place
"""
import collections
import os
import re
import signal
import subprocess
import sys

HERE = os.path.dirname(os.path.dirname(os.path.abspath(__file__)))


def git(*args):
    return subprocess.run(["git", "-C", HERE, *args], check=True, capture_output=True, text=True).stdout


def tree(commit):
    """The text of each file of crates/ by its path."""
    if commit:
        names = git("ls-tree", "-r", "--name-only", commit, "crates").split("\n")
        return {n: git("show", f"{commit}:{n}") for n in names if n.endswith((".rt", ".antt"))}
    files = {}
    for folder, folders, names in os.walk(os.path.join(HERE, "crates")):
        folders[:] = [f for f in folders if f != "out"]
        for name in names:
            if name.endswith((".rt", ".antt")):
                path = os.path.join(folder, name)
                files[os.path.relpath(path, HERE)] = open(path).read()
    return files


def code(text):
    """The text without comments and strings, line for line."""
    text = re.sub(r'"(\\.|[^"\\\n])*"', '""', text)
    return re.sub(r"//.*", "", text)


def block(text, start):
    """What stands between the brace at or behind `start` and the one that ends it."""
    i = text.index("{", start)
    depth = 0
    for j in range(i, len(text)):
        depth += (text[j] == "{") - (text[j] == "}")
        if depth == 0:
            return text[i + 1 : j], j
    return text[i + 1 :], len(text)


class Function:
    def __init__(self, path, text, m):
        self.path, self.name = path, m.group(1)
        self.line = text.count("\n", 0, m.start()) + 1
        end = m.end()
        # clauses: `requires name { .. }`, `ensures name { .. }`, `requires { .. }`, `ensures { .. }`
        paren = text.index("(", m.start())
        depth = 0
        for j in range(paren, len(text)):
            depth += (text[j] == "(") - (text[j] == ")")
            if depth == 0:
                break
        self.params = [p.strip() for p in re.split(r",(?![^<(\[]*[>)\]])", text[paren + 1 : j]) if p.strip()]
        at = j
        self.clauses = []
        while True:
            c = re.compile(r"[^{};]*?\b(requires|ensures)\b\s*\w*\s*(?=\{)").match(text, at)
            if not c:
                break
            inner, at = block(text, c.end())
            self.clauses.append((c.group(1), " ".join(inner.split())))
            at += 1
        rest = text[at:]
        semi, brace = rest.find(";"), rest.find("{")
        self.body = "" if brace < 0 or (0 <= semi < brace) else block(text, at)[0]

    def __str__(self):
        return f"{self.path}:{self.line} {self.name}"


def functions(files):
    for path, text in files.items():
        if path.endswith(".rt"):
            text = code(text)
            for m in re.finditer(r"\bfn (\w+)", text):
                if text[: m.start()].rstrip().endswith("("):
                    continue
                yield Function(path, text, m)


def lines(files, pattern):
    found = []
    for path, text in files.items():
        if path.endswith(".rt"):
            for n, line in enumerate(code(text).split("\n"), 1):
                if "ghost" not in line and re.search(pattern, line):
                    found.append(f"{path}:{n} {line.strip()}")
    return found


def option_shaped(files):
    """Enums of two cases, of which at most one has no value and at least one has a single one."""
    found = []
    for path, text in files.items():
        if path.endswith(".rt"):
            text = code(text)
            for m in re.finditer(r"\benum (\w+)", text):
                cases = [c.strip() for c in block(text, m.end())[0].split(",\n") if c.strip()]
                if len(cases) == 2 and any(re.match(r"\w+\(\w+\)", c) for c in cases):
                    found.append(f"{path}:{text.count(chr(10), 0, m.start()) + 1} enum {m.group(1)}")
    return found


def kinds(files):
    """Constants that stand for cases: named in a match."""
    found = []
    for place in lines(files, r"\bconst [A-Z_]+: u\d+ = \d+;"):
        path, name = place.split(":")[0], re.search(r"const ([A-Z_]+)", place).group(1)
        if re.search(rf"\b{name} (=>|\|)|\| {name}\b", code(files[path])):
            found.append(place)
    return found


WORDS = {"let", "mut", "if", "else", "match", "for", "in", "while", "return", "Some", "None", "Ok", "Err", "self", "true", "false"}


def twins(files):
    """Functions whose bodies, of 20 tokens or more, are alike but for names and numbers."""
    shapes = collections.defaultdict(list)
    for f in functions(files):
        tokens = re.findall(r"\w+|[^\w\s]", f.body)
        if len(tokens) >= 20:
            shapes[" ".join(t if not t[0].isalnum() or t in WORDS else "_" for t in tokens)].append(f)
    return [" = ".join(str(f) for f in fs) for fs in shapes.values() if len(fs) > 1]


def facts(files):
    """Clauses of one text, but for the parameter's name and its moment, in three functions or more."""
    seen = collections.defaultdict(set)
    for f in functions(files):
        for kind, text in f.clauses:
            plain = re.sub(r"\b\w+\.(?=count|width|number|point)", "", re.sub(r"\.(now|old|new|entry)\b", "", text))
            if "result" not in text.split():
                seen[plain].add(str(f))
    return [f"{{ {t} }}: " + ", ".join(sorted(fs)) for t, fs in seen.items() if len(fs) >= 3]


PLAIN = r"^(mut )?\w+: (u8|u16|u32|u64|usize|i32|i64|bool|Global|&HostRuntime)$"


def together(files):
    """Pairs of plain parameters that stand side by side in three functions or more."""
    seen = collections.defaultdict(list)
    for f in functions(files):
        for a, b in zip(f.params, f.params[1:]):
            if re.match(PLAIN, a) and re.match(PLAIN, b):
                seen[f"{a}, {b}"].append(str(f))
    return [f"({t}): " + ", ".join(fs) for t, fs in seen.items() if len(fs) >= 3]


def buffers(files):
    """Structs with a count beside lent memory, with two Vecs side by side, or with an index for a link; searches by hand."""
    found = []
    for path, text in files.items():
        if path.endswith(".rt"):
            text = code(text)
            for m in re.finditer(r"\bstruct (\w+)[^;{(]*\{", text):
                body = block(text, m.start())[0]
                where = f"{path}:{text.count(chr(10), 0, m.start()) + 1} struct {m.group(1)}"
                if re.search(r"&'a mut \[", body) and re.search(r"\bused: usize", body):
                    found.append(where + ": a count beside lent memory")
                if len(re.findall(r": Vec<", body)) > 1:
                    found.append(where + ": two Vecs side by side")
                if re.search(r"\b(next|first): Option<u16>", body):
                    found.append(where + ": an index for a link")
    return found + lines(files, r"while low < high")


POINTS = [
    ("1 enums of the shape of Option or Result", option_shaped),
    ("1 numbers that stand for cases", kinds),
    ("1 a number for each case, by a match", lambda f: lines(f, r"^\s*\w+::\w+(\(_\))? => \d+,$")),
    ("1 a flag for success", lambda f: lines(f, r"-> Result<bool|Option<bool>")),
    ("1 a pair for an error", lambda f: lines(f, r"-> Result<.*, \(\w+, \w+\)>")),
    ("1 None and Err passed on by hand", lambda f: lines(f, r"\b(None|Err\(\w+\)) => (return )?(None|Err|false|true|0|unreachable)\b|\.ok\(\) else|\bOk\((\w+)\) => (Ok\()?\4\)?,|Err\(\w+\) => return")),
    ("2 twins", twins),
    ("3 loops over a range, or with a counter", lambda f: lines(f, r"\bfor \w+ in [^{]*\.\.|\bwhile (?!let)")),
    ("4 equality, order, joining and printing by hand", lambda f: lines(f, r"\.point == \w+\.point && |\.point < \w+\.point \|\||<< 24\)|-> Result<String")),
    ("4 loops that copy or clear", lambda f: lines(f, r"^\s*\w+\[[^\]]+\] = (\w+\[[^\]]+\]|0);")),
    ("5 a fact in three contracts or more", facts),
    ("5 parameters side by side in three functions or more", together),
    ("6 buffers, parallel arrays, links by index, searches", buffers),
    ("7 tables of functions, dyn", lambda f: lines(f, r"\bdyn\b|: fn\(|\[fn\(")),
]


def main():
    signal.signal(signal.SIGPIPE, signal.SIG_DFL)
    args = [a for a in sys.argv[1:] if a != "-v"]
    files = tree(args[0] if args else None)
    for title, count in POINTS:
        found = count(files)
        print(f"{len(found):4}  {title}")
        if "-v" in sys.argv:
            for place in found:
                print(f"        {place}")
    for title, part in [("answers and invariants", r"/(Answers|Invariants|Proof)\.antt$"), ("lemmas", r"/proofs/\w+\.antt$"), ("definitions", r"/specs/\w+\.antt$")]:
        texts = [t for p, t in files.items() if re.search(part, p) and not p.endswith("Lib.antt")]
        print(f"{len(texts):4}  8 files of {title}, {sum(t.count(chr(10)) for t in texts)} lines")


main()
