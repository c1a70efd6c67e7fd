#!/usr/bin/env python3
"""design_counts.py [COMMIT] [-v]: how many places of older forms stand in crates/*/src, by point of docs/DESIGN-PASS.md;
of the tree as it stands, or of a commit. With -v each place is printed."""
import re, subprocess, sys

args = [a for a in sys.argv[1:] if a != "-v"]
verbose = "-v" in sys.argv


def sources():
    if args:
        names = subprocess.run(["git", "ls-tree", "-r", "--name-only", args[0], "crates"], capture_output=True, text=True, check=True).stdout.split("\n")
        for n in names:
            if re.fullmatch(r"crates/\w+/src/.*\.rt", n):
                yield n, subprocess.run(["git", "show", f"{args[0]}:{n}"], capture_output=True, text=True, check=True).stdout
    else:
        import glob
        for n in sorted(glob.glob("crates/*/src/**/*.rt", recursive=True)):
            yield n, open(n).read()


FILES = list(sources())


def lines(pattern):
    return [(n, i + 1, l.strip()) for n, s in FILES for i, l in enumerate(s.split("\n")) if re.search(pattern, l) and not l.strip().startswith("//")]


def heads(pattern):
    out = []
    for n, s in FILES:
        for m in re.finditer(r"\bfn (\w+)(<[^>]*>)?\(((?:[^()]|\([^()]*\))*)\)( -> [^\n{]*)?", s):
            if re.search(pattern, m.group(0), re.S):
                out.append((n, s[: m.start()].count("\n") + 1, " ".join(m.group(0).split())[:110]))
    return out


POINTS = [
    ("1 a struct or enum of the repository's own with a number, a flag or a variant that says whether there is a value", lines(r"^\s+pub (number|answer|met|sound): (u8|bool),$") + lines(r"^\s+(None|Nothing|Refusal),$")),
    ("1 a function whose result is such a type", heads(r"-> (Verdict|Ruling|Layout|Stepped|Turn|Holding|Object|Met|Taken|Reading|Ran|Step|Setting)$")),
    ("1 a refusal, an answer or a why written as a number", lines(r"number: \d+,|answer: \d+,|refused\((t, )?\d+\)|\banswer\(\d+,|refusal\(\d+\)|short: \d|why: \d")),
    ("1 a test of such a number", lines(r"\.number [!=]= 0|\.answer [!=]= 0|\.short [!=]= 0|\bif [a-z] != 0 \{|== 2 \{|\bo != 1\b|sound")),
    ("2 a function that std has: the greater, the lesser, a difference that stops at 0", heads(r"^fn (less|greater|minus|lesser|larger|back|either)\(")),
    ("3 a while", lines(r"^\s*while ")),
    ("3 .. that adds one to a counter", [(n, i, l) for n, i, l in lines(r"^\s+\w+ \+= 1;$")]),
    ("3 a for over the indices of a slice", lines(r"for \w+ in 0\.\.\w+\.len\(\)")),
    ("4 a comparison or conversion of whole values written by hand", heads(r"^fn (same|same_\w+|number|bits|inc|low|print_\w+)\(")),
    ("5 a function that takes the class count, the directory's numbers and the record's bytes side by side", heads(r"k: Class,\s+r: &\[u8\]")),
    ("5 .. what a weaver gives side by side", heads(r"instructions: &\[u8\],\s+kinds: &\[u8\]")),
    ("5 .. the machine's arrays side by side", heads(r"frames: &mut|counts: &mut|held: &mut|objects: &mut")),
    ("5 .. what a turn reads of the state side by side", heads(r"counts: &\[u16\],.*\bt: Thread")),
    ("5 a function of eight parameters or more", [(n, i, l) for n, i, l in heads(r"^fn ") if l.count(":") >= 8]),
    ("6 an array of numbers in which places have meanings, or two arrays read together", lines(r"\[u64; 36\]|\[u64; 8\]|\[usize; 8192\]|\[0usize; 8192\]|\[u32; 16\]")),
    ("7 a match on an opcode's number", lines(r"match (opcode|op) \{")),
]
for name, places in POINTS:
    print(f"{len(places):4}  {name}")
    if verbose:
        for n, i, l in places:
            print(f"      {n}:{i}: {l}")
