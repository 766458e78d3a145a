#!/usr/bin/env python3
"""tools/twins.py [COMMIT]: functions of crates/*/src that are equal but for types, numbers, and the names of kinds and engines.

Prints each group of such functions of three lines or more, and how many functions stand in groups. Clauses and comments are not compared.
With COMMIT the files are those of that commit.
"""
import re
import subprocess
import sys
from collections import defaultdict


def files(commit):
    if commit:
        names = subprocess.run(["git", "ls-tree", "-r", "--name-only", commit, "crates"], capture_output=True, text=True, check=True).stdout.split()
    else:
        names = subprocess.run(["git", "ls-files", "crates"], capture_output=True, text=True, check=True).stdout.split()
    for name in names:
        if re.fullmatch(r"crates/[a-z0-9_]+/src/.*\.rt", name):
            if commit:
                yield name, subprocess.run(["git", "show", f"{commit}:{name}"], capture_output=True, text=True, check=True).stdout
            else:
                yield name, open(name).read()


def functions(text):
    """Each function's name and text, from `fn` to the closing brace of its body; but not what an `impl TRAIT for TYPE` owes the trait."""
    text = re.sub(r"^impl(<.*?>)? [^{\n]* for [^{]*\{\n.*?^\}$", "", text, flags=re.M | re.S)
    for start in re.finditer(r"^( *)(?:pub(?:\([a-z]+\))? )?(?:const )?(?:extern \"C\" )?fn (\w+)", text, re.M):
        end = re.compile(rf"^{start[1]}\}}$", re.M).search(text, start.end())
        if end:
            yield start[2], text[start.start():end.end()]


def shape(name, text):
    text = re.sub(r"//.*", "", text)
    text = re.sub(r'"[^"]*"', '"S"', text)
    text = re.sub(rf"\b{name}\b", "NAME", text)
    text = re.sub(r"-?\b[0-9][0-9a-zA-Z_.]*(e-?[0-9]+)?\b", "N", text)
    text = re.sub(r"\b(u8|u16|u32|u64|usize|f32|f64|i32|i64|binary32|binary64)\b", "T", text)
    text = re.sub(r"\b[a-z0-9_]*?(normal_|open01_|either_)?(u32|u64|f32|f64)s?(_[a-z]+)?\b", "WORD", text)
    text = re.sub(r"\b(Xoshiro256ppX8|Philox4x32X8|Xoshiro256pp|SplitMix64|xoshiro256pp|philox4x32|xoshiro|philox)\b", "ENGINE", text)
    text = re.sub(r"\b(Fill|Made)\b", "MADE", text)
    text = re.sub(r"rng\.NAME\(\)|rng\.WORD\(\)|draws::draw\(rng\)", "DRAW", text)
    return re.sub(r"\s+", " ", text)


def main():
    commit = sys.argv[1] if len(sys.argv) > 1 else None
    groups = defaultdict(list)
    for file, text in files(commit):
        for name, function in functions(text):
            body = re.sub(r"^    (ensures|requires) .*\n( {8,}.*\n)*", "", function, flags=re.M)
            if body.count("\n") >= 3:
                groups[shape(name, body)].append(f"{file}: {name}")
    twins = [members for members in groups.values() if len(members) > 1]
    for members in sorted(twins, key=len, reverse=True):
        print(*members, sep="\n  ")
    print(f"{sum(map(len, twins))} functions in {len(twins)} groups")


main()
