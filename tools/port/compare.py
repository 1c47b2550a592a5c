#!/usr/bin/env python3
"""Holds definitions and statements against those of the commit before the port: they may differ by a one-to-one renaming alone.

usage: compare.py [COMMIT]     at the top of the repository; COMMIT is the first line of docs/PORT.md where none is given

Of crates/*/specs it compares every word, of the lemma files of crates/*/proofs every declared name with its type. Parentheses are left out, since a
projection `g x .f` is `(g x).f` now. It prints each file that is gone or whose words differ in number, each old name that became two, and each two old names
of one file that became one; the last line counts what it held against each other.
"""
import collections, pathlib, re, subprocess, sys

commit = sys.argv[1] if len(sys.argv) > 1 else pathlib.Path("docs/PORT.md").read_text().split()[0]
git = lambda *words: subprocess.run(["git", *words], capture_output=True, text=True, check=True).stdout
WORD = re.compile(r"[A-Za-z][\w'₀-₉-]*|[^\sA-Za-z]")
HEAD = re.compile(r"^(\s*)(?:(?:pub|abbrev|unfoldable|irreducible) +)*([A-Za-z][\w'₀-₉-]*) *:(?: |$)")

def words(text):
    return [w for w in WORD.findall(re.sub(r"\s+", " ", text).replace(" .", ".")) if w not in "()"]

def whole(text):
    return [words("\n".join(l for l in text.split("\n") if not re.match(r"\s*(use |--|module )", l)))]

def statements(text):
    found, now, deep = [], None, 0
    for line in text.split("\n"):
        if re.match(r"\s*(use |--|module )", line): now = None; continue
        head = HEAD.match(line)
        if head and not re.match(r"\s*(?:let|in|λ|\|) ", line):
            now, deep = [line], len(head.group(1)); found.append(now)
        elif now is not None:
            if line.strip() and len(line) - len(line.lstrip()) > deep: now.append(line)
            else: now = None
    return [words(" ".join(s).split(" = ")[0]) for s in found]

became, counts = collections.defaultdict(set), collections.Counter()
for path in git("ls-tree", "-r", "--name-only", commit, "crates").split():
    m = re.fullmatch(r"crates/\w+/(specs|proofs)/\w+\.antt", path)
    if not m: continue
    if not pathlib.Path(path).exists(): print("gone:", path); continue
    read = whole if m.group(1) == "specs" else statements
    old, new = read(git("show", f"{commit}:{path}")), read(pathlib.Path(path).read_text())
    if len(old) != len(new): print(f"differs: {path}: {len(old)} statements, now {len(new)}")
    here = collections.defaultdict(set)
    for a, b in zip(old, new):
        counts[m.group(1)] += len(a) if read is whole else 1
        if len(a) != len(b): print("differs:", path, " ".join(a)[:200], "|", " ".join(b)[:200]); continue
        for x, y in zip(a, b): became[x].add(y); here[y].add(x)
    for y, xs in here.items():
        if len(xs) > 1: print(f"one now: {path}: {', '.join(sorted(xs))} became {y}")
for x, ys in sorted(became.items()):
    if len(ys) > 1: print(f"two now: {x} became {', '.join(sorted(ys))}")
print(f"{counts['specs']} words of specs/, {counts['proofs']} statements of proofs/, {sum(x not in ys for x, ys in became.items())} names that became others")
