#!/usr/bin/env python3
"""Respells the repository's own definitions and lemmas as the kit spells its own: words in snake case.

usage: respell.py [--list]     at the top of the repository, after the kit's port.py

A definition, field or constructor is in snake case: sumMod -> sum_mod, largest-modulus -> largest_modulus.
In the name of a lemma (a theorem of proofs/) a dash joins the names that it speaks of, and stays: asRow-take -> as_row-take.
Functions of src/, types, modules, strings, inputs and outputs keep their names. A name that a file takes from the kit stays there.
--list prints the table and what falls together, and writes nothing.
"""
import collections
import glob
import re
import sys

W = r"[^\s(){}.;,@\"«»\[\]\\`]+"
TOKEN = re.compile(W)


# Names that would fall together with another one of their file.
APART = {"insertRow": "inserted_row", "noDivisor": "has_no_divisor"}


def read(path):
    with open(path, encoding="utf-8") as it:
        return it.read()


def snake(name):
    return re.sub(r"(?<=[a-z0-9])([A-Z])", lambda it: "_" + it[1].lower(), name)


def declared(path):
    """Yields (name, whether it is a lemma) for each name that the file declares, those of nested modules and of local parts too."""
    in_specs = "/specs/" in path
    above = []  # the heads above a line, with their indentation
    for line in read(path).split("\n"):
        text = line.lstrip()
        if not text or text.startswith("--"):
            continue
        indent = len(line) - len(text)
        while above and above[-1][0] >= indent:
            above.pop()
        is_field = bool(above) and above[-1][1]
        head = re.match(r"((?:abbrev |unfoldable |pub )*)(data|record) (%s)" % W, text)
        it = re.match(r"((?:abbrev |unfoldable |pub )*)(%s) :(?:\s|$)" % W, text)
        above.append((indent, bool(head)))
        if head and not head[3].startswith("{"):
            yield head[3], False
        elif it and it[2] not in ("use", "mod"):
            yield it[2], not (is_field or in_specs or re.search("abbrev|unfoldable", it[1]))


def table():
    kinds = collections.defaultdict(set)
    for part in ("specs", "proofs"):
        for path in sorted(glob.glob(f"crates/*/{part}/**/*.antt", recursive=True)):
            if re.search(r"/proofs/.+/(Proof|Answers|Invariants)\.antt$", path):
                continue
            for name, is_lemma in declared(path):
                kinds[name].add(is_lemma)
    out = {}
    for name, are in kinds.items():
        if name[0].isupper() or name[0] in "ΦΨ":
            continue
        if "◌" in name:
            for word in name.split("◌"):
                if "-" in word and len(word) > 1 and word[0].isalpha():
                    out[word] = snake(word).replace("-", "_")
        new = snake(name)
        if False in are:
            new = new.replace("-", "_")
        new = APART.get(name, new)
        if new != name and re.match(r"[a-z]", name):
            out[name] = new
    return out, kinds


def imported(text):
    """The names that a file takes from the kit."""
    names = set()
    for module, listed in re.findall(r"(?m)^(?:pub |ghost )?use ([^\s{]+?)\.\{([^}]*)\}", text):
        if not re.match(r"Rattle\.(%s)\.(specs|proofs)\b" % "|".join(OWN), module):
            names.update(it.split(" as ")[-1].strip().strip("«»") for it in listed.split(","))
    return names


OWN = sorted(it.split("/")[1] for it in glob.glob("crates/*/src"))


def of_source():
    """The names of src/ with dashes, as the steps of a proof by hand have them."""
    words = set()
    for path in glob.glob("crates/*/src/**/*.rt", recursive=True):
        text = re.sub(r"//.*", "", read(path))
        words.update(re.findall(r"\b[a-z]\w*_\w*\b", text))
    return {it.replace("_", "-") for it in words}


def turned(text, path, names, steps, kinds):
    kept = imported(text)
    is_proof = bool(re.search(r"/proofs/.+/(Proof|Answers|Invariants)\.antt$", path))
    is_text = path.endswith(".md")

    def one(found):
        word = found[0]
        if word not in names:
            # An operator's name, as in a `use` line.
            if "◌" in word:
                return "◌".join(names.get(it, it) if len(it) > 1 else it for it in word.split("◌"))
            return word
        start = found.start()
        before = text[text.rfind("\n", 0, start) + 1 : start]
        after_dot = before.endswith(".")
        if not after_dot and word in kept:
            return word
        if is_proof and after_dot and word in steps and "-" in word:
            return word
        is_comment = re.match(r"\s*(--|//)", before) or (path.endswith(".rt") and "//" in before)
        if (is_comment or is_text) and "-" in word:
            is_glossary = re.match(r"(--|//)   (\S+, )*$", before)
            in_ticks = before.count("`") % 2 == 1
            is_def = all(k is False for k in kinds[word]) and word not in PROSE
            return names[word] if is_glossary or in_ticks or is_def else word
        return names[word]

    return re.sub(r"«([^«»\s-]+)»", lambda it: it[1] if it[1] not in RESERVED else it[0], TOKEN.sub(one, text))


RESERVED = set("data record deriving module where use mod pub package open as unfoldable abbrev axiom unfold unfolding ruleset mutual infix infixl infixr elim let in do Type coe fcoe tcoe hcom com".split())
# Words of English that are names too: a comment means the words.
PROSE = {"zero-dimensional", "one-to-one", "above-one", "no-divisor", "is-next", "input-lines", "output-lines", "after-end", "all-terms", "all-exponents", "unique-first", "unique-second", "row-whole", "add-zero", "add-neg", "mul-one", "mul-add", "of-line", "as-product", "as-tail", "as-unit", "by-unit"}


def aligned(old, new):
    """The text with each glossary (lines `--   NAMES   MEANING`) that a new name has changed set out in columns again."""
    was, now = old.split("\n"), new.split("\n")
    entry = re.compile(r"(--|//)   (\S(?:.*?\S)?) {3,}(\S.*)$")
    at = 0
    while at < len(now):
        end = at
        while end < len(now) and entry.match(now[end]):
            end += 1
        if now[at:end] != was[at:end]:
            parts = [entry.match(it).groups() for it in now[at:end]]
            width = max(len(it[1]) for it in parts) + 3
            now[at:end] = [f"{mark}   {names.ljust(width)}{meaning}" for mark, names, meaning in parts]
        at = max(end, at + 1)
    return "\n".join(now)


def main():
    names, kinds = table()
    steps = of_source()
    existing = set(kinds)
    clash = collections.defaultdict(list)
    for old, new in names.items():
        clash[new].append(old)
    if "--list" in sys.argv:
        for old, new in sorted(names.items()):
            print(f"{old}\t{new}")
        for new, olds in sorted(clash.items()):
            if len(olds) > 1 or new in existing:
                print(f"together: {new}: {olds}{' and itself' if new in existing else ''}")
        print("steps:", sorted(set(names) & steps))
        return
    paths = [p for part in ("specs", "proofs", "must-fail", "src") for p in glob.glob(f"crates/*/{part}/**/*", recursive=True) if re.search(r"\.(antt|rt|edit)$", p)]
    paths += ["README.md", *glob.glob("docs/*.md")]
    for path in paths:
        text = read(path)
        new = aligned(text, turned(text, path, names, steps, kinds))
        if new != text:
            with open(path, "w", encoding="utf-8") as it:
                it.write(new)
            print(path)


if __name__ == "__main__":
    main()
