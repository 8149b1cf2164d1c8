#!/usr/bin/env python3
"""Brings the repository's own definitions and lemmas to today's spelling: words in snake case, types and modules in camel case, and a dash only
between two names. Run once, right behind port.py, at the top of the repository: tools/rename_names.py [FOLDER]. It goes by text.

What is declared in specs/ and in the lemma files of proofs/ is renamed, in these, in the contracts and `ghost use` lines of src/, in Proof.antt and in
must-fail/. What a Proof.antt declares for itself keeps its name. The table of names is written to tools/names.tsv."""
import os
import re
import sys

TOKEN = re.compile(r"[^\W\d][\w'\-]*")
DECLARED = re.compile(r"^(\s*)((?:(?:pub|abbrev|unfoldable)\s+)*)([^\W\d][\w'\-]*)\s+:(?:\s|$)")
TYPE = re.compile(r"^\s*(?:(?:pub|abbrev|unfoldable)\s+)*(?:record|data)\s+([^\W\d][\w'\-]*)")


def snake(word):
    if not re.match(r"[a-zμ]", word):
        return word
    return re.sub(r"(?<=[^A-Z_])([A-Z])", lambda m: "_" + m[1], word).lower() if re.search(r"[A-Z]", word) else word


def files(root, endings):
    for folder, dirs, names in os.walk(os.path.join(root, "crates")):
        dirs[:] = sorted(d for d in dirs if d != "out")
        for name in sorted(names):
            if name.endswith(endings):
                yield os.path.join(folder, name)


def main(root):
    declared, names, tokens, imported, stated, labels, together = set(), set(), set(), set(), set(), set(), {}
    for path in files(root, (".antt",)):
        with open(path) as f:
            text = f.read()
        own = os.path.basename(path) != "Proof.antt"
        for line in text.split("\n"):
            if line.strip().startswith("--"):
                continue
            tokens |= set(TOKEN.findall(line))
            together.setdefault(path, set()).update(TOKEN.findall(line))
            m = re.match(r"(?:pub )?use (?!Rattle\.[a-z_]+\.(?:specs|proofs)\.(?!Prelude|Common))[\w.]+\.\{(.*)\}", line)
            if m:
                imported |= set(TOKEN.findall(m[1]))
            if not own:
                continue
            m = DECLARED.match(line)
            if m:
                declared.add(m[3])
                if "/specs/" in path:
                    stated.add(m[3])
                    if m[1] and "-" in m[3]:
                        labels.add(m[3])
                if "/specs/" in path and "-" not in m[3]:
                    names.add(snake(m[3]))
            m = TYPE.match(line)
            if m:
                declared.add(m[1])
                names.add(m[1])
    names |= {i for i in imported if "-" not in i}

    def joined(name):
        parts = [snake(p) for p in name.split("-")]
        if name in labels:
            return "_".join(parts)
        out = parts[0]
        for a, b in zip(parts, parts[1:]):
            out += ("-" if a in names and b in names else "_") + b
        return out

    table = {}
    for old in sorted(declared, key=lambda d: ("-" in d, d)):
        if old in imported:
            continue
        new = joined(old)
        if new == old:
            continue
        if "-" in old and (new in tokens or new in table.values()):
            new += "_lem"
        if new in table.values() or new in imported:
            print(f"kept, since {new} is there: {old}")
            continue
        if new in declared and any(old in t and new in t for t in together.values()):
            # A lemma that would have its function's name.
            if old in ("rowsLeft", "isName"):
                # The other one is a field, and a name in a proof.
                table[old] = new
                continue
            if new in stated or new + "_lem" in tokens:
                print(f"kept, since {new} is there: {old}")
                continue
            table[new] = new + "_lem"
        table[old] = new
    renamed = TOKEN
    changed = 0
    for path in files(root, (".antt", ".rt", ".edit")):
        with open(path) as f:
            text = f.read()
        local = set()
        if path.endswith("Proof.antt"):
            local = {m[3] for m in map(DECLARED.match, text.split("\n")) if m}

        def turned(m):
            word = m[0]
            if word in local or word not in table:
                return word
            if table[word] == word + "_lem" and (not path.endswith(".antt") or m.string[m.end():m.end() + 1] == "."):
                # A function of src/, or a crate, of that name.
                return word
            return table[word]

        lines = []
        for line in text.split("\n"):
            if line.strip().startswith(("--", "//")):
                lines.append(renamed.sub(lambda m: table.get(m[0], m[0]) if "-" not in m[0] and table.get(m[0]) != m[0] + "_lem" else m[0], line))
            else:
                lines.append(renamed.sub(turned, line))
        new = "\n".join(lines)
        if new != text:
            changed += 1
            with open(path, "w") as f:
                f.write(new)
    os.makedirs(os.path.join(root, "tools"), exist_ok=True)
    with open(os.path.join(root, "tools", "names.tsv"), "w") as f:
        for old in sorted(table):
            f.write(f"{old}\t{table[old]}\n")
    print(f"{len(table)} names, {changed} files")


if __name__ == "__main__":
    main(sys.argv[1] if len(sys.argv) > 1 else ".")
