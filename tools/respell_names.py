#!/usr/bin/env python3
# respell_names: once, after the kit's port.py: gives the repository's own definitions and lemmas the spelling of today's Rattle. Words are in snake case, a dash joins two names only, and what makes a fact or a type is in camel case.
# Run it at the top of the checkout, on the tree that port.py left. It changes specs/, proofs/, the clauses of src/, the edits and the code spans of the pages; functions of src/, strings, inputs and outputs keep their names. Names that would fall together are said and left as they are.
import collections
import os
import re
import sys

WORD = re.compile(r'[^\s(){}.;,@"«»\x60]+')
COMMENT = re.compile(r"(?m)(^|(?<=\s))--.*$")
HEAD = re.compile(r"(?m)^[ \t]*(?:(?:abbrev|unfoldable)[ \t]+)?(?:pub[ \t]+)?(?:(?:record|data|abbrev)[ \t]+)?(?:pub[ \t]+)?([^\s(){}.;,@\"«»]+)[ \t]*(?:\([^)\n]*\)[ \t]*|\{[^}\n]*\}[ \t]*)*:[ \t]")
USE = re.compile(r"(?m)^[ \t]*(?:pub )?(?:ghost )?use ([^\s;{]+?)(?:\.\{([^}]*)\})?;?[ \t]*$")
LOWER = re.compile(r"[a-z]")
CAMEL = re.compile(r"(?<![A-Za-z0-9_])[a-z][a-z0-9_]*[A-Z][A-Za-z0-9_]*")
# Facts that began in lower case, and a definition that would fall together with a lemma of the library; a word of some files alone has those files' crates.
FACTS = {"sameFrom": "SameFrom", "takeAll": "take_pieces"}
# Lemmas that a definition would fall together with, by file.
LEMMAS = [
    (("model/proofs/CommandCalls", "model/proofs/ForceCalls", "model/proofs/PointerCalls", "model/proofs/Limits", "commands/proofs/Outcome", "force/proofs/Outcome"), "no_room", "without_room"),
    (("link/proofs/HostsCalls",), "run_call", "run_promise"),
]
IN_SOME = {"accepted": ("IsAccepted", ("commands", "force"))}


def files(root, ends, tops=("crates",)):
    for top in tops:
        whole = os.path.join(root, top)
        if os.path.isfile(whole):
            yield whole
        for folder, dirs, names in os.walk(whole):
            dirs[:] = sorted(d for d in dirs if d != "out")
            for name in sorted(names):
                if name.endswith(ends):
                    yield os.path.join(folder, name)


def read(path):
    with open(path, encoding="utf-8") as f:
        return f.read()


def crates(root):
    return {c for c in os.listdir(os.path.join(root, "crates"))}


def snake(word):
    def one(m):
        w = re.sub(r"(?<=[a-z0-9])([A-Z]+)(?=[A-Z][a-z]|[^A-Za-z]|$)", lambda u: "_" + u[1].lower(), m[0])
        return re.sub(r"(?<=[A-Za-z0-9])([A-Z])", lambda u: "_" + u[1].lower(), w).lower() if re.search("[A-Z]", w) else w

    return CAMEL.sub(one, word)


def own_function(path):
    """Whether the file is the proof of one function, in which a name with a dash may be Rattle's."""
    parts = path.split(os.sep)
    at = len(parts) - 1 - parts[::-1].index("proofs") if "proofs" in parts else None
    return at is not None and len(parts) - at > 2


def main():
    root = sys.argv[1] if len(sys.argv) > 1 else "."
    own = crates(root)
    for stems, old, new in LEMMAS if "--show" not in sys.argv else []:
        for stem in stems:
            path = os.path.join(root, "crates", stem + ".antt")
            text = read(path)
            with open(path, "w", encoding="utf-8") as f:
                f.write(re.sub(rf"(?<![\w.-]){old}(?![\w-])", new, text))
    mine = lambda path: path.startswith("Rattle.") and path.split(".")[1] in own and not re.match(r"Rattle\.\w+\.(specs\.(declared|contracts)|proofs\.[a-z_]\w*\.)", path)
    defined, specs, foreign, said = collections.Counter(), set(), set(), collections.Counter()
    for path in files(root, ".antt"):
        text = COMMENT.sub("", read(path))
        for m in HEAD.finditer(text):
            if not own_function(path):
                defined[m[1]] += 1
            elif CAMEL.search(m[1]) and "-" not in m[1]:
                defined[m[1]] += 1
            if "/specs/" in path:
                specs.add(m[1])
        for m in re.finditer(r"(?m)^  (?:pub )?([a-z][A-Za-z0-9]*)(?: :|$)", text):
            if CAMEL.fullmatch(m[1]):
                defined[m[1]] += 1
                if "/specs/" in path:
                    specs.add(m[1])
        for line in re.findall(r"(?m)^(?:  )+((?:[a-z][A-Za-z0-9]* )+): ", text):
            for word in line.split():
                if CAMEL.fullmatch(word):
                    defined[word] += 1
        for word in WORD.findall(text):
            said[word] += 1
    for path in files(root, (".antt", ".rt")):
        for m in USE.finditer(read(path)):
            if m[2] and not mine(m[1]):
                foreign |= {w.split(" as ")[0].strip() for w in m[2].split(",")}
    for path in files(root, ".rt"):
        for line in re.findall(r"(?m)^ghost use [^;]*;", read(path)):
            for word in re.findall(r" as (\w+)", line):
                if CAMEL.fullmatch(word):
                    defined[word] += 1
    # Locals in lower camel case are spelled alike.
    for word in list(said):
        if CAMEL.fullmatch(word) and word not in foreign and (len(word) > 3 or word in defined):
            defined[word] += 1
    joined = {snake(w) for w in specs} | foreign
    table = {}
    for word in defined:
        if word in foreign or word in IN_SOME:
            continue
        if word in FACTS:
            table[word] = FACTS[word]
            continue
        if not LOWER.match(word) and "-" not in word:
            continue
        parts = [snake(p) for p in word.split("-")]
        new = parts[0]
        for a, b in zip(parts, parts[1:]):
            new += ("-" if a in joined and b in joined else "_") + b
        if new != word:
            table[word] = new
    # Names that fall together.
    by_new = collections.defaultdict(set)
    for old, new in table.items():
        by_new[new].add(old)
        if new in said or new in foreign:
            by_new[new].add(new)
    apart = collections.defaultdict(set)
    for path in files(root, (".antt", ".rt")):
        text = COMMENT.sub("", read(path))
        here = set(WORD.findall(text))
        for w in here & set(table):
            both = by_new[table[w]] & here
            if len(both) > 1:
                apart[table[w]].add((tuple(sorted(both)), os.path.relpath(path, root)))
    for new, where in sorted(apart.items()):
        print(f"fall together as {new}:", *sorted({" ".join(w) for w, _ in where}), "in", *sorted({p for _, p in where})[:3])
    if "--show" in sys.argv:
        for old, new in sorted(table.items()):
            print(f"{old}\t{new}")
        return
    for new in apart:
        for old in by_new[new]:
            if old in table and "-" in old:
                table[old] = None
    table = {o: n for o, n in table.items() if n}

    def turned(text, function):
        def one(m):
            w = m[0]
            behind = text[m.start() - 1 : m.start()] == "."
            if function and "-" in w and behind and not text[: m.start()].rstrip(".").endswith(tuple("ABCDEFGHIJKLMNOPQRSTUVWXYZ")):
                return w
            return table.get(w, w)

        return WORD.sub(one, text)

    for path in files(root, (".antt", ".edit"), ("crates", "tried")):
        text = read(path)
        new = turned(text, path.endswith(".antt") and own_function(path))
        parts = os.path.relpath(path, root).split(os.sep)
        for word, (fact, homes) in IN_SOME.items():
            users = parts[1] in homes and "specs" in parts and f"pub {word} :" in new or any(re.search(rf"use Rattle\.{h}\.specs\.\w+\.\{{[^}}]*\b{word}\b", new) for h in homes)
            if users:
                new = re.sub(rf"(?<![\w.-]){word}(?![\w-])", fact, new)
        if new != text:
            with open(path, "w", encoding="utf-8") as f:
                f.write(new)
    for path in files(root, ".rt"):
        text = read(path)
        new = "".join(p if p.startswith('"') else turned(p, False) for p in re.split(r'("(?:\\.|[^"\\\n])*")', text))
        for word, (fact, homes) in IN_SOME.items():
            if any(re.search(rf"ghost use Rattle\.{h}\.specs\.\w+\.\{{[^}}]*\b{word}\b", new) for h in homes):
                new = re.sub(rf"(?m)^((?:ghost use|\s*(?:requires|ensures)).*)$", lambda m: re.sub(rf"(?<![\w.-]){word}(?![\w-])", fact, m[1]), new)
        if new != text:
            with open(path, "w", encoding="utf-8") as f:
                f.write(new)
    for path in files(root, ".md", ("docs", "README.md", "examples", "bench/README.md", "second/README.md")):
        text = read(path)
        new = re.sub(r"\x60[^\x60\n]+\x60", lambda m: turned(m[0], False), text)
        if new != text:
            with open(path, "w", encoding="utf-8") as f:
                f.write(new)
    print(f"respell_names: {len(table)} names")


main()
