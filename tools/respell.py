#!/usr/bin/env python3
"""respell: brings the repository's own definitions and lemmas to today's spelling, after port.py has run.

usage: python3 tools/respell.py [--list] [FOLDER]

A definition, a field or a lemma is in snake case. A dash stays where each part between dashes is the name of a definition or of a list
function of the library, as in `length-stored`. Names of functions, modules and types keep their spelling, and so do names that Rattle makes
(the goals of a proof that walks the code). With --list it only prints the names, old and new, and those that fall together with another.
"""
import collections
import os
import re
import sys

WORD = re.compile(r"[^\s(){}\[\];.,:λ`\"|⟦⟧⌜⌝]+")
DECLARED = re.compile(r"^(\s*)(?:(?:abbrev|unfoldable|pub|ruleset)\s+)*([^\s(){}\[\];:.,λ|]+)\s*(?:\{ℓ\}\s*)?:(?=\s)(.*)", re.M)
CAMEL = re.compile(r"^[a-z]+[a-z0-9]*(?:[A-Z0-9][A-Za-z0-9]*)+'*$")
# Of the library: list functions whose names a lemma of ours joins to another by a dash.
LIBRARY = set("append drop length map set sets take zip get_or iterate".split())
# Where the plain spelling is taken, or says something else.
CHOSEN = {
    "all-zero": "all_zero_lem",
    "bit-xor": "bit-xor",
    "by-half": "by_half_lem",
    "bytes-written": "bytes_written_lem",
    "counter-masked": "counter_masked_lem",
    "highest-below": "highest_below_lem",
    "in-float": "in_float_lem",
    "lane-zero": "lane_zero_lem",
    "long_of": "long_of_lem",
    "round-masked": "round_masked_lem",
    "xorShr": "xor_shifted",
}
# A local name that a definition now has.
LOCAL = [("crates/delivery/proofs/claims/Theorems.antt", "last_block", "block_within")]


def snake(name):
    """words_from of wordsFrom; a name with a dash keeps it for now."""
    return re.sub(r"(?<=[a-z0-9])([A-Z])", lambda m: "_" + m[1].lower(), name)


def files(root, ends, inside=("crates",)):
    for top in inside:
        for folder, dirs, names in os.walk(os.path.join(root, top)):
            dirs[:] = sorted(d for d in dirs if d not in ("out", ".git"))
            for f in sorted(names):
                if f.endswith(ends):
                    yield os.path.join(folder, f)


def read(path):
    with open(path, encoding="utf-8") as f:
        return f.read()


def declared(root):
    """The names that the repository declares in specs/ and proofs/, with whether a definition of specs/ has the name."""
    found, defined = collections.defaultdict(set), set()
    for p in files(root, ".antt"):
        text = read(p)
        for m in DECLARED.finditer(text):
            name, rest = m[2], m[3]
            if re.match(r"\s*(tie|goal)\.", rest) or re.search(r"--", m[1]):
                continue
            found[name].add(p)
            if "/specs/" in p:
                defined.add(name)
    return found, defined


def renamed(root):
    found, defined = declared(root)
    parts = LIBRARY | {snake(n) for n in defined if "-" not in n}
    to = {}
    for name in found:
        if not re.match(r"[a-z]", name):
            continue
        new = name
        if "-" not in name and CAMEL.match(name):
            new = snake(name)
        elif "-" in name:
            cut = [snake(x) for x in name.replace("getD", "get_or").replace("leBytes", "le_bytes").split("-")]
            lemma = name not in defined and not name.endswith("-spec")
            new = "-".join(cut) if lemma and all(x in parts for x in cut) else "_".join(cut)
        new = CHOSEN.get(name, new)
        if new != name:
            to[name] = new
    return to, found


def together(root, to, found):
    """New names that something else has already, anywhere in the repository."""
    used = collections.defaultdict(set)
    for p in files(root, (".antt", ".rt")):
        for w in WORD.findall(read(p)):
            used[w].add(p)
    back = collections.defaultdict(list)
    for a, b in to.items():
        back[b].append(a)
    for b, olds in sorted(back.items()):
        if len(olds) > 1 or b in used:
            yield b, olds, sorted(os.path.relpath(p, root) for p in used.get(b, ()))


def turn(text, to, code):
    """Replaces whole words, in comments only names in camel case and what stands in backticks."""

    def word(m):
        return to.get(m[0], m[0])

    def camel(m):
        return to.get(m[0], m[0]) if "-" not in m[0] else m[0]

    out = []
    for line in text.split("\n"):
        at = line.find(code) if not line.lstrip().startswith(code) else len(line) - len(line.lstrip())
        at = len(line) if at < 0 else at
        head, tail = line[:at], line[at:]
        tail = re.sub(r"`[^`]*`", lambda m: WORD.sub(word, m[0]), WORD.sub(camel, tail))
        out.append(WORD.sub(word, head) + tail)
    return "\n".join(out)


def main(argv):
    listing = "--list" in argv
    root = ([a for a in argv if not a.startswith("--")] or ["."])[0]
    to, found = renamed(root)
    if listing:
        for a, b in sorted(to.items()):
            print(a, b)
        for b, olds, where in together(root, to, found):
            print("together:", b, "<-", " ".join(olds), "|", " ".join(where[:6]), len(where))
        return 0
    for path, was, now in LOCAL:
        text = read(os.path.join(root, path))
        with open(os.path.join(root, path), "w", encoding="utf-8") as f:
            f.write(WORD.sub(lambda m: now if m[0] == was else m[0], text))
    names = set(found) | set(to.values())

    def older(m):
        """In pages and edits, which port.py does not turn, also a name that port.py respelled."""
        w = m[0]
        if w in to:
            return to[w]
        for new in (snake(w), snake(w).replace("-", "_")):
            if w not in names and new != w and new in names:
                return new
        return w

    for p in files(root, (".antt", ".rt")):
        text = read(p)
        new = turn(text, to, "--" if p.endswith(".antt") else "//")
        if new != text:
            with open(p, "w", encoding="utf-8") as f:
                f.write(new)
    for p in files(root, ".edit"):
        text = read(p)
        new = "\n".join(WORD.sub(older, l) if re.match(r"(old|new|refuses): ", l) else l for l in text.split("\n"))
        if new != text:
            with open(p, "w", encoding="utf-8") as f:
                f.write(new)
    pages = [os.path.join(root, "README.md"), *files(root, ".md", ("docs",))]
    for p in pages:
        if not os.path.isfile(p):
            continue
        text = read(p)
        new = re.sub(r"`[^`\n]*`", lambda m: WORD.sub(older, m[0]), text)
        if new != text:
            with open(p, "w", encoding="utf-8") as f:
                f.write(new)
    print(f"respell: {len(to)} names")
    return 0


if __name__ == "__main__":
    raise SystemExit(main(sys.argv[1:]))
