#!/usr/bin/env python3
"""Brings the repository's own definitions, lemmas and local names in specs/ and proofs/ to Rattle's spelling.

usage: python3 tools/respell.py          in the repository, once, after /opt/rattle/port/port.py

A name of several words is in snake case (bit-below-two becomes bit_below_two), a fact is spelled as a type (Within-ring becomes
WithinRing), and a dash stays where it joins two names: between a type and a name, and in the names of KEPT. The names of the library,
the names that the check makes and the names of src/ stay as they are. A name in a clause of src/, in an edit of must-fail/ or, between
backticks, in a document follows its definition.
"""

import glob
import re

# a lemma about two definitions: the dash joins their names, and with an underscore it would fall together with the library's bit_and and bit_or
KEPT = {"bit-and", "bit-or", "bit-suc", "bit-zero"}
# facts that are spelled as types
FACTS = {"Within-ring": "WithinRing"}
# a definition or a theorem that would have the name of its function
BESIDE_A_FUNCTION = {
    "layer-name", "every-set-has-a-tree", "heard-sets-grow", "heard-sets-name-the-ring", "one-quiet-round-is-enough", "posts-are-bounded",
    "quiet-ring-hears-all", "round-is-legal", "rounds-are-legal", "some-round-loses-nobody", "survivors-agree", "survivors-are-heard",
    "value-is-join-over-heard", "worked-rings",
}
CRATES = "carrier|demo|flooding|inspect|joining|refusal|script|shown"
DASHED = r"[A-Za-z_][\w']*(?:-[\w'*+]+)+"


def files(*patterns):
    return sorted(f for p in patterns for f in glob.glob(p, recursive=True) if "/out/" not in f)


def uncommented(text, mark):
    return re.sub(rf"(?m)(^|\s){mark}.*$", r"\1", text)


def made_by_others(texts):
    """The names of the library and those that the check makes."""
    found = set()
    for text in texts:
        for path, names in re.findall(r"(?:^|\n)\s*(?:pub )?(?:ghost )?use ([\w.+·]+)\.\{([^}]*)\}", text):
            if not re.match(rf"Rattle\.({CRATES})\.", path) or path.endswith((".Goals", ".Given")):
                for name in names.split(","):
                    found.update(name.strip().split(" as "))
        found.update(re.findall(rf"(?m)^\s*(?:abbrev )?(?:pub )?({DASHED})[^\n:]* : goal\.", text))
    return found


def fields(texts):
    """The fields of the repository's own records."""
    found = set()
    for text in texts:
        for body in re.findall(r"(?m)^(?: *)(?:pub )?record \w[^\n]* where\n((?:[ ]+[^\n]*\n|\n)+)", text):
            found.update(re.findall(rf"(?m)^\s+(?:pub )?({DASHED}) :", body))
    return found


def new_name(name):
    if name in FACTS:
        return FACTS[name]
    if name in BESIDE_A_FUNCTION:
        return name.replace("-", "_") + "_lem"
    first, rest = name.split("-", 1)
    if name in KEPT or first[0].isupper() or any(part[0].isupper() for part in rest.split("-")):
        return name
    return name.replace("-", "_")


def main():
    proofs = files("crates/*/specs/**/*.antt", "crates/*/proofs/**/*.antt")
    sources = files("crates/*/src/**/*.rt")
    texts = {f: open(f).read() for f in proofs + sources}
    bare = [uncommented(texts[f], "--") for f in proofs]
    others = made_by_others(list(texts.values()))
    own_fields = fields(bare)
    own = set()
    for text in bare:
        own.update(re.findall(rf"(?<![\w.'-])({DASHED})(?![\w'-])", text))
    own -= others
    names = {n: new_name(n) for n in own | own_fields if new_name(n) != n}
    after = {}
    for old, new in names.items():
        after.setdefault(new, []).append(old)
    together = {new: olds for new, olds in after.items() if len(olds) > 1 or new in others}
    if together:
        raise SystemExit(f"respell: names that would fall together: {together}")

    def spelled(match):
        dot, name = match.group(1), match.group(2)
        if dot and name not in own_fields:
            return match.group(0)
        return dot + names.get(name, name)

    token = re.compile(rf"(?<![\w'-])(\.?)({DASHED})(?![\w'-])")
    for f in proofs:
        lines = [l if l.lstrip().startswith("--") else token.sub(spelled, l) for l in texts[f].split("\n")]
        open(f, "w").write("\n".join(lines))
    for f in sources:
        lines = [l if l.lstrip().startswith("//") else token.sub(spelled, l) for l in texts[f].split("\n")]
        open(f, "w").write("\n".join(lines))
    for f in files("crates/*/must-fail/*.edit"):
        text = open(f).read()
        open(f, "w").write(token.sub(spelled, text))
    for f in ["README.md"] + files("docs/**/*.md"):
        text = open(f).read()
        open(f, "w").write(re.sub(rf"`({DASHED})`", lambda m: "`" + names.get(m.group(1), m.group(1)) + "`", text))
    print(f"respell: {len(names)} names respelled in {len(proofs)} files of specs/ and proofs/")
    for old in sorted(names):
        print(f"  {old} -> {names[old]}")


if __name__ == "__main__":
    main()
