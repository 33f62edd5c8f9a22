#!/usr/bin/env python3
"""tools/respell.py [--list] [FOLDER]: brings the repository's own definitions and lemmas to the spelling of today's Rattle, once, right
after the kit's port.py: words in snake case, facts (what is a `Type`) as types. docs/PORT.md says what it was for.

It goes by whole names that the files of specs/ and proofs/ declare, in .antt files, in the clauses and comments of .rt files, in the
edits and in the pages. Functions of src/, exported names, strings, inputs and outputs are left. --list prints the names and changes nothing.
"""
import collections
import os
import re
import sys

NAME = r"[^\W]['\w-]*"
DECLARED = re.compile(rf"^(\s*)((?:(?:abbrev|unfoldable|pub)\s+)*)({NAME})\s+:\s(.*)$")
KIND = re.compile(rf"^\s*(?:pub\s+)?(?:record|data|ruleset)\s+({NAME})")
WORD = re.compile(r"(?<![\w'-])[^\W\d][\w']*(?:-[\w']+)*(?![\w'-])")
CAMEL = re.compile(r"^[a-z][a-z0-9]*[A-Z]")
# names that the check itself gives to goals and their proofs in proofs/F/
GIVEN = re.compile(r"^(invariant|measure|returns|.*-(requires|init|preserved|smaller|again|less|start|bounds)(-\d+)?|.*-\d+)$")


# lemmas whose definition takes their name: FOLDER, NAME
LEMMAS = {("crates/batch", "runs_by"), ("crates/explaining", "one_more"), ("crates/image", "window_bytes"), ("crates/promises", "same_next"), ("crates/promises", "still_read")}


KITS = re.compile(r"(?m)^use ([\w.·]+)\.\{([^}]*)\}")


def snake(name):
    name = re.sub(r"(Of|On)(\d)", r"\1_\2", name)
    name = re.sub(r"([a-z0-9])([A-Z])", r"\1_\2", name)
    return re.sub(r"[A-Z]", lambda m: m[0].lower(), name).replace("-", "_")


def upper(name):
    name = "".join(w[:1].upper() + w[1:] for w in name.split("-"))
    return name


def files(top, ends):
    for folder, dirs, names in os.walk(top):
        dirs[:] = sorted(d for d in dirs if d not in (".git", "out", "target"))
        for n in sorted(names):
            if n.endswith(ends):
                yield os.path.join(folder, n)


def read(p):
    with open(p, encoding="utf-8") as f:
        return f.read()


def declared(top):
    """Each declared name: where it stands and whether it is a fact or a type."""
    found = collections.defaultdict(list)
    for p in files(os.path.join(top, "crates"), ".antt"):
        lines = read(p).split("\n")
        for i, line in enumerate(lines):
            if line.lstrip().startswith("--"):
                continue
            m = DECLARED.match(line)
            if m:
                depth, text, j = len(m[1]), m[4], i + 1
                while j < len(lines) and lines[j].strip() and len(lines[j]) - len(lines[j].lstrip()) > depth:
                    if re.match(r"\s*unfolding\b", lines[j]):
                        break
                    text += " " + lines[j].strip()
                    j += 1
                fact = bool(re.search(r"(^|→\s*)Type(\s+\d+)?\s*$", text.strip()))
                found[m[3]].append((p, i + 1, fact))
            k = KIND.match(line)
            if k:
                found[k[1]].append((p, i + 1, True))
    return found


def table(found):
    new = {}
    for name, places in found.items():
        shared = [x for x in places if not x[0].endswith("/Proof.antt")]
        facts = {f for _, _, f in (shared or places)}
        if not shared and GIVEN.match(name):
            continue
        if name.endswith("-spec"):
            new[name] = name[:-5].replace("-", "_") + "_spec"
        elif facts == {True}:
            to = upper(name)
            if to != name and not name.startswith("_"):
                new[name] = to
        elif CAMEL.match(name) or ("-" in name and shared):
            new[name] = snake(name)
    # a lemma that would have its definition's name
    taken = {b for a, b in new.items() if "-" not in a} | {n for n in found if "-" not in n and n not in new}
    return {a: (b + "_lem" if "-" in a and not a.endswith("-spec") and b in taken else b) for a, b in new.items() if a != b}


def code_only(line, change):
    """The change, over what is no string."""
    return "".join(t if t.startswith('"') else change(t) for t in re.split(r'("(?:[^"\\]|\\.)*")', line))


def main(argv):
    listing = "--list" in argv
    top = next((a for a in argv if not a.startswith("--")), ".")
    found = declared(top)
    new = table(found)
    crates = set(os.listdir(os.path.join(top, "crates")))
    # names that would fall together with another declared name
    back = collections.defaultdict(set)
    for a, b in new.items():
        back[b].add(a)
    for b, olds in sorted(back.items()):
        others = (olds | {b}) if b in found else olds
        if len(others) > 1:
            print("falls together:", b, "<-", ", ".join(sorted(others)), "|", "; ".join(f"{o}@{os.path.relpath(found[o][0][0], top)}" for o in sorted(others)))
    if listing:
        for a, b in sorted(new.items()):
            print(a, "->", b)
        return 0
    camel = {a: b for a, b in new.items() if "-" not in a and (CAMEL.match(a))}

    def by(names):
        return lambda text: WORD.sub(lambda m: names.get(m[0], m[0]), text)

    for p in files(top, (".antt", ".rt", ".edit", ".md", "mutants.accepted")):
        if os.path.basename(p) == "PORT.md":
            continue
        text = whole = read(p)
        own = {n: n + "_lem" for folder, n in LEMMAS if os.path.relpath(p, top).startswith(folder + "/proofs/")}
        if own and p.endswith(".antt"):
            text = by(own)(text)
        if p.endswith(".antt"):
            # names that the file has from the kit, which a lemma of ours may share
            kit = {x.strip().split(" as ")[0] for m in KITS.finditer(text) for x in m[2].split(",") if m[1].split(".")[0] != "Rattle" or m[1].split(".")[1] not in crates}
            lines = []
            for line in text.split("\n"):
                comment = line.lstrip().startswith("--")
                lines.append(code_only(line, by(camel if comment else {a: b for a, b in new.items() if a not in kit})))
            if "/specs/" in p:
                lines = realigned(text.split("\n"), lines)
            to = "\n".join(lines)
        elif p.endswith(".rt"):
            to = "\n".join(code_only(line, by(camel)) for line in text.split("\n"))
        else:
            to = by(camel)(text)
        if to != whole:
            with open(p, "w", encoding="utf-8") as f:
                f.write(to)
    return 0


def realigned(old, new):
    """Columns of a glossary follow where a name in it grew."""
    return new if old == new else columns(old, new)


def columns(old, new):
    out, i = list(new), 0
    while i < len(out):
        if not old[i].lstrip().startswith("--"):
            i += 1
            continue
        j = i
        while j < len(out) and old[j].lstrip().startswith("--"):
            j += 1
        marks = [k for k in range(i, j) if re.search(r"\S +==  ", new[k])]
        if marks and any(old[k] != new[k] for k in marks):
            left = {k: re.match(r"(.*?\S) +==  ", new[k])[1] for k in marks}
            wide = max(len(s) for s in left.values()) + 2
            shift = None
            for k in range(marks[0], j):
                if k in left:
                    shift = wide + 4 - (re.search(r" ==  ", old[k]).start() + 5)
                    out[k] = left[k].ljust(wide) + "==  " + re.match(r".*?\S +==  (.*)$", new[k])[1]
                elif shift is not None and re.match(r"^--\s{8,}\S", new[k]):
                    body = new[k][2:].lstrip()
                    gap = len(new[k]) - 2 - len(body)
                    out[k] = "--" + " " * max(3, gap + shift) + body
                else:
                    shift = None
        i = j
    return out


if __name__ == "__main__":
    raise SystemExit(main(sys.argv[1:]))
