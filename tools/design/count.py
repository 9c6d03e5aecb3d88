#!/usr/bin/env python3
"""Counts, in the .rt files of crates/*/src of a commit (or of the checkout), the places that docs/DESIGN-PASS.md speaks of.

    tools/design/count.py [COMMIT] [--list POINT]

Comments are left out. What it finds is a list to read, not a verdict: the page says which of the places stay, and why.
"""
import re
import subprocess
import sys


def sources(commit):
    if commit is None:
        names = subprocess.run(["git", "ls-files", "crates/*/src/*.rt"], capture_output=True, text=True, check=True).stdout.split()
        return {n: open(n, encoding="utf-8").read() for n in names}
    names = subprocess.run(["git", "ls-tree", "-r", "--name-only", commit, "crates"], capture_output=True, text=True, check=True).stdout.split()
    names = [n for n in names if re.fullmatch(r"crates/\w+/src/\w+\.rt", n)]
    return {n: subprocess.run(["git", "show", f"{commit}:{n}"], capture_output=True, text=True, check=True).stdout for n in names}


def code(text):
    """The lines without comments, clauses left in."""
    return [re.sub(r"\s*//.*$", "", line) for line in text.split("\n")]


def functions(text):
    """(line, name, signature without clauses, body) of each function."""
    lines = code(text)
    found, i = [], 0
    while i < len(lines):
        m = re.match(r"^(\s*)(?:pub(?:\(crate\))? )?(?:unsafe )?(?:extern \"C\" )?fn (\w+)", lines[i])
        if not m:
            i += 1
            continue
        indent, start = m.group(1), i
        while not (lines[i] == indent + "{" or lines[i].endswith("{") and not re.match(r"\s*(requires|ensures)", lines[i]) or lines[i].endswith(";") and i == start):
            i += 1
        opened = i
        if not lines[i].endswith(";"):
            while lines[i] != indent + "}":
                i += 1
        head, clauses = [], False
        for line in lines[start:opened + 1]:
            if re.match(r"\s*(requires|ensures)", line):
                clauses = True
            if not clauses:
                head.append(line)
        found.append((start + 1, m.group(2), " ".join(" ".join(head).split()), lines[opened + 1:i]))
        i += 1
    return found


TYPES = r"\b(u8|u16|u32|u64|usize|i16|i32|i64)\b"


def shape(name, signature, body):
    """A function with its name, its types, its locals and its numbers taken out."""
    text = re.sub(r"^.*?\bfn ", "", signature).replace(name, "F", 1) + " " + " ".join(" ".join(body).split())
    text = re.sub(TYPES, "T", text)
    text = re.sub(r"\b\d+\b", "N", text)
    names = {}
    return re.sub(r"\b[a-z_][a-z_0-9]*\b(?!::)", lambda m: names.setdefault(m.group(0), f"x{len(names)}"), text)


def parameters(signature):
    inside = signature[signature.index("(", signature.index("fn ")) + 1:]
    depth, count, any_text = 0, 0, ""
    for c in inside:
        if c in "([{<":
            depth += 1
        if c in ")]}>" and depth == 0:
            break
        if c in ")]}>":
            depth -= 1
        any_text += c
        if c == "," and depth == 0:
            count += 1
    return count + (1 if any_text.strip().rstrip(",").count(":") > count or "self" in any_text and not any_text.strip().endswith(",") else 0)


def places(files):
    out = {k: [] for k in "1a 1b 1c 2 3 4 5a 5b 6 7".split()}
    shapes = {}
    for path, text in sorted(files.items()):
        lines = code(text)
        for n, line in enumerate(lines, 1):
            at = f"{path}:{n}: {line.strip()}"
            if re.match(r"^\s+(Refused\(u8\)|Refusal\(|Bad|TooLarge|None),?$", line):
                out["1a"].append(at)
            if re.match(r"^\s+(pub )?\w+: bool,$", line) or re.match(r"^\s+(pub )?refusal: u8,$", line):
                out["1b"].append(at)
            if re.search(r"\bif \w+(\.refusal)? != 0 \{|\bnext == 0\b", line):
                out["1c"].append(at)
            if re.match(r"^\s*('\w+: )?while ", line):
                out["3"].append(at)
            if re.match(r"^\s*match (\w*due|profile|self|ending|asked)\b", line):
                out["7"].append(at)
        for n, name, signature, body in functions(text):
            at = f"{path}:{n}: {name}"
            long_enough = len([b for b in body if b.strip()]) >= 3
            if long_enough:
                shapes.setdefault(shape(name, signature, body), []).append(at)
            if re.search(r"equal|^copy_|^fill_|^clear|^spread_|^code_of|^size$|^residue$|^put_|^wrapping_mul$|^inside$", name) and "_c/" not in path:
                out["4"].append(at)
            if parameters(signature) > 7:
                out["5b"].append(f"{at} ({parameters(signature)} parameters)")
            if re.search(r"(buf|out): &mut \[u8\], at: usize", signature) or re.search(r"-> (Taken|Written|Fed|Line|Filled|Cut)\b", signature):
                out["6"].append(at)
        clauses = re.findall(r"requires[^{]*\{[^{}]*\b(Rebuilt|Set|IsBase|Small program|small program)\b", text)
        out["5a"] += [f"{path}: {c}" for c in clauses]
    out["2"] = [" = ".join(group) for group in shapes.values() if len(group) > 1]
    return out


def main():
    args = sys.argv[1:]
    listed = args[args.index("--list") + 1] if "--list" in args else None
    commit = args[0] if args and not args[0].startswith("--") else None
    found = places(sources(commit))
    what = {
        "1a": "variants that make an enum an Option or a Result",
        "1b": "flags and refusal numbers beside values, in structs",
        "1c": "tests of a number for a refusal or for nothing",
        "2": "groups of functions that differ in names, types or constants alone",
        "3": "while loops",
        "4": "equality, copies, filling, conversion and printing by hand",
        "5a": "requires with a fact that three or more contracts have",
        "5b": "functions with more than seven parameters",
        "6": "buffers with a place or length beside them",
        "7": "switches on which step to run",
    }
    for key, rows in found.items():
        print(f"{key:3} {len(rows):4}  {what[key]}")
        if listed == key:
            for row in rows:
                print(f"      {row}")


main()
