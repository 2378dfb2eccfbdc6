#!/usr/bin/env python3
"""Spells this repository's own definitions, lemmas and their fields in snake case, as the library does.

usage: python3 tools/snake_names.py [--check]        at the top of a checkout, after the kit's port.py

A name that a file of specs/ or proofs/ declares, and that has an inner capital behind a small letter or a dash, gets
underscores: wordsOf becomes words_of, sample-held becomes sample_held. Names that begin with a capital are types and
stay, but for their dashes. Names that the check makes up (goals, invariants, what stands first behind c., l., w., g.,
goal. and i.) stay, and so does a name in a file that imports it from the library. Clauses, edits and the code spans of
docs/ are turned too; the code of src/, its strings, inputs and outputs are not. --check writes nothing.
"""

import pathlib
import re
import sys

TOKEN = re.compile(r"[^\s(){}.;,@\"«»`\[\]|]+")
DECLARED = re.compile(r"^\s*(?:(?:abbrev|unfoldable|pub|data|record|module|mod)\s+)*([^\s(){}.;,@\"«»:]+)(?:\s+\{[^{}]*\})*\s+:\s", re.M)
USE = re.compile(r"\buse\s+([^\s;{]+?)(?:\.?\{([^}]*)\}|\s+as\s|;|$)", re.M)
MADE_HEADS = {"c", "l", "w", "g", "goal", "i", "v"}
MADE_SECOND = {"args", "initial", "fn", "new", "auto", "ranges", "type_inv", "requires", "ensures", "in_Ok"}
CLAUSE_STARTS = re.compile(r"\b(requires\*?|ensures\*?|ghost)\b")


def turned(name):
    name = re.sub(r"(?<=[a-z0-9])([A-Z])", lambda m: "_" + m[1].lower(), name) if name[:1].islower() else name
    return name.replace("-", "_")


def has_old_spelling(name):
    if not re.fullmatch(r"[A-Za-z][\w'-]*", name):
        return False
    return "-" in name or (name[:1].islower() and re.search(r"[a-z0-9][A-Z]", name) is not None)


def is_function_folder(path):
    parts = path.parts
    return "proofs" in parts and parts.index("proofs") < len(parts) - 2


def antt_files(root):
    return sorted(p for p in root.glob("crates/*/*/**/*.antt") if "out" not in p.parts)


def declared(path):
    text = path.read_text(encoding="utf-8")
    for found in DECLARED.finditer(text):
        name = found[1]
        rest = text[found.end():found.end() + 80]
        if is_function_folder(path) and re.match(r"(goal|given|needs?)\.", rest):
            continue
        yield name


def imported_from_library(text):
    names = set()
    for path, block in USE.findall(text):
        first = path.split(".")
        if first[0] == "Rattle" and len(first) > 1 and first[1] not in LIBRARY and (ROOT / "crates" / first[1]).is_dir():
            continue
        for item in (block or "").split(","):
            item = item.strip().split(" as ")[-1].strip()
            if item:
                names.add(item)
    return names


LIBRARY = {"std", "core", "std_alloc", "std_heap", "std_io", "std_collections"}
ROOT = pathlib.Path(".")


def made_names(path, text):
    """Names that the check makes up, in a file of answers: what it declares at a type goal.x, and labels of records."""
    if not is_function_folder(path):
        return set()
    return set(re.findall(r"^\s*(?:abbrev )?(?:pub )?([^\s:]+) : goal\.", text, re.M))


def behind_made_head(text, start):
    """Whether the token that begins here is the first behind c., goal. and the like, or the second behind c.args."""
    head = re.search(r"([^\s(){};,@\"«»`\[\]|]*)\.$", text[max(0, start - 200):start])
    if not head:
        return False
    steps = head[1].split(".")
    if steps[0] not in MADE_HEADS:
        return False
    return len(steps) == 1 or (len(steps) == 2 and steps[1] in MADE_SECOND)


def respelled(text, table, keep):
    out, at = [], 0
    for found in TOKEN.finditer(text):
        old = found[0]
        if old in table and old not in keep and not behind_made_head(text, found.start()):
            out.append(text[at:found.start()])
            out.append(table[old])
            at = found.end()
    out.append(text[at:])
    return "".join(out)


def respelled_outside_strings(text, table, keep):
    parts = re.split(r'("(?:[^"\\\n]|\\.)*")', text)
    return "".join(p if i % 2 else respelled(p, table, keep) for i, p in enumerate(parts))


def respelled_spans(text, table):
    """Only what stands between backquotes."""
    return re.sub(r"`[^`\n]+`", lambda m: respelled(m[0], table, set()), text)


def main():
    check = "--check" in sys.argv[1:]
    names = set()
    for path in antt_files(ROOT):
        names |= {n for n in declared(path) if has_old_spelling(n)}
    table = {n: turned(n) for n in sorted(names)}
    # a lemma that would have its definition's name
    definitions = {n for o, n in table.items() if "-" not in o}
    table = {o: n + "_lem" if "-" in o and n in definitions else n for o, n in table.items() if o != n}
    fallen = {}
    for old, new in table.items():
        fallen.setdefault(new, []).append(old)
    for new, olds in sorted(fallen.items()):
        if len(olds) > 1:
            print(f"fall together: {', '.join(olds)} as {new}")
    changed = 0
    for path in antt_files(ROOT) + sorted(ROOT.glob("crates/*/src/**/*.rt")) + sorted(ROOT.glob("crates/*/must-fail/*.edit")) \
            + sorted(ROOT.glob("docs/*.md")) + [ROOT / "README.md"]:
        text = path.read_text(encoding="utf-8")
        if path.suffix == ".md":
            new = respelled_spans(text, table)
        else:
            if "grow_last" in text and "growLast" in text:
                # the kit's script gave a lemma this name, which is the definition's now
                text = respelled(text, {"grow_last": "grow_last_lem"}, set())
            keep = imported_from_library(text) | made_names(path, text)
            new = respelled_outside_strings(text, table, keep)
            for old, name in table.items():
                if old in TOKEN.findall(text) and old not in keep and name in TOKEN.findall(text) and path.suffix != ".edit":
                    print(f"meets: {path}: {old} becomes {name}, which stands there already")
        if new != text:
            changed += 1
            if not check:
                path.write_text(new, encoding="utf-8")
    print(f"{len(table)} names, {changed} files")
    if check:
        print("\n".join(f"{o} {n}" for o, n in sorted(table.items())))


if __name__ == "__main__":
    main()
