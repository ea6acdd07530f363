#!/usr/bin/env python3
"""port_names.py [--list]: brings this repository's own names to snake case, once, right after the port to a newer Rattle.

Words and lemmas written with a dash or in camel case become snake case (`isBalanced` is `is_balanced`, `nearest-comm` is `nearest_comm`),
and an import under a name with a middle dot goes by its plain name (`node as Spec·node` is `node`), but for `index`, which a parameter
hides, so that it is `spec_index`. A lemma that would fall together with a definition has `_lem` at its end. Types and modules keep their camel case, the
running depth keeps its letter D, and a signed number's parts keep theirs, P and N. Names that Rattle makes of the code (in proofs/F/) are
not this script's: only what a file declares, imports or projects is renamed there. Comments are left as they are.
"""
import glob
import os
import re
import subprocess
import sys

TOKEN = re.compile(r"[^\s(){},;.\[\]`'\"]+")
TOGETHER = {"first-root": "first_root_lem", "entry-by": "entry_by_lem", "is-index": "is_index_lem", "from_start": "from_start_lem", "opening_of": "opening_of_lem", "read-of": "read_of_lem"}
PARTS = [("getD", "get_or"), ("getElem", "get_elem"), ("→neqZ", "→neq_z"), ("nonNeg", "non_neg")]


def own(name):
    """The name in snake case."""
    if name in TOGETHER:
        return TOGETHER[name]
    for old, new in PARTS:
        name = name.replace(old, new)
    name = name.replace("-", "_").replace("Spec·index", "spec_index").replace("Spec·", "")
    return re.sub(r"(?<=[a-z0-9])([A-Z])", lambda m: "_" + m.group(1).lower(), name)


def code(line):
    """The line's code, and its comment."""
    at = re.search(r"(^|\s)--(\s|$)", line)
    return (line, "") if not at else (line[: at.start()], line[at.start():])


def is_function(path):
    """Whether the file answers the goals of one function, whose names Rattle makes."""
    return path.count("/") > 3 and os.path.basename(path) in ("Proof.antt", "Answers.antt", "Invariants.antt")


def declared(path):
    top = re.compile(r"^\s*(?:(?:abbrev|unfoldable|pub|data|record|ruleset)\s+)*([^\s:(){},;.]+)\s+(?:\{[^}]*\}\s+)?[:=]\s")
    for line in open(path, encoding="utf-8"):
        line, _ = code(line)
        if line.strip().startswith("use "):
            yield from re.findall(r" as ([a-z-]+)", line)
            continue
        m = top.match(line)
        if m:
            yield m.group(1)
        for m in re.finditer(r"[({]([^\s:(){},;.]+(?: [^\s:(){},;.]+)*) : ", line):
            yield from m.group(1).split()
        for m in re.finditer(r"\blet ([^\s:(){},;.]+) (?:: |= )", line):
            yield m.group(1)


def wants(name):
    if name.startswith("Spec·"):
        return True
    if not re.match(r"[a-z→]|[DPNV]-|T→", name) or "◌" in name:
        return False
    return own(name) != name


def files():
    for kind in ("specs", "proofs"):
        yield from sorted(glob.glob("crates/*/%s/**/*.antt" % kind, recursive=True))


def main():
    renamed = {}
    for path in files():
        if is_function(path):
            continue
        for name in declared(path):
            if wants(name):
                renamed[name] = own(name)
    renamed["some-refusal"] = "some_refusal"
    for path in sorted(glob.glob("crates/*/src/*.rt")):
        for name in re.findall(r"Spec·\w+", open(path, encoding="utf-8").read()):
            renamed[name] = own(name)
    if "--list" in sys.argv:
        for old, new in sorted(renamed.items()):
            print(old, new)
        return
    for path in list(files()) + sorted(glob.glob("crates/*/src/*.rt")) + sorted(glob.glob("crates/*/must-fail/*.edit")):
        text = open(path, encoding="utf-8").read()
        here = dict(renamed)
        if is_function(path):
            imported = set()
            for use in re.findall(r"^use [^{]*\{([^}]*)\}", text, flags=re.M):
                imported.update(TOKEN.findall(use))
            fields = set(re.findall(r"\.([^\s(){},;.\[\]`'\"]+)", text)) | set(re.findall(r"[{;] ([^\s(){},;.]+) = ", text))
            goals = set(re.findall(r"^(?:abbrev )?(?:pub )?([^\s:(){},;.]+) : (?:tie|goal)\.", text, flags=re.M))
            locals_ = set(declared(path)) - goals
            here = {old: new for old, new in renamed.items() if (old in imported or old in fields or old in locals_) and old not in goals}
            for name in locals_:
                if wants(name) and not re.search(r"-(?:spec|requires)(?:-\d+)?$", name):
                    here[name] = own(name)
        out = []
        for line in text.split("\n"):
            if path.endswith(".edit"):
                head, sep, rest = line.partition(" ")
                if head in ("old:", "new:"):
                    out.append(head + sep + TOKEN.sub(lambda m: here.get(m.group(0), m.group(0)), rest))
                else:
                    out.append(line)
                continue
            if path.endswith(".rt"):
                line = line if "Spec·index" in line else re.sub(r"(\w+) as Spec·\1", r"\1", line)
                out.append(line if line.strip().startswith("//") else TOKEN.sub(lambda m: here.get(m.group(0), m.group(0)), line))
                continue
            before, comment = code(line)
            out.append(TOKEN.sub(lambda m: here.get(m.group(0), m.group(0)), before) + comment)
        new = "\n".join(out)
        if new != text:
            with open(path, "w", encoding="utf-8") as f:
                f.write(new)
    for crate in sorted(glob.glob("crates/*/src")):
        subprocess.run(["rt", "fmt"], cwd=os.path.dirname(crate), check=True)


if __name__ == "__main__":
    main()
