#!/usr/bin/env python3
"""Brings the repository's own names in specs/, proofs/ and clauses to one spelling.

usage: python3 tools/respell.py [--dry]      at the top of the repository, once

Words are written in snake_case, types in CamelCase: `goal-by` and `goalBy` become `goal_by`, `In-range` becomes `InRange`.
Names of the toolchain's libraries and of Rust code stay. Parts of generated names (what a call, a loop or a clause
is called in proofs) get the spelling that they have in the code: `c.rows-after` becomes `c.rows_after`.
"""
import os
import re
import sys
from collections import defaultdict

TOKEN = re.compile(r"[A-Za-z_ℕ][A-Za-z0-9_'₀-₉]*(?:-[A-Za-z0-9_'₀-₉]+)*")
DRY = "--dry" in sys.argv


def files(*ends):
    for folder, dirs, names in os.walk("crates"):
        dirs[:] = sorted(d for d in dirs if d != "out")
        for n in sorted(names):
            if n.endswith(ends):
                yield os.path.join(folder, n)


def read(p):
    with open(p, encoding="utf-8") as f:
        return f.read()


CRATES = {l.split(":")[0].strip() for l in read("crates.txt").splitlines() if ":" in l and not l.startswith("#")}
USE = re.compile(r"use\s+([\w.+-]+)\.\{([^}]*)\}")


def names_of(group):
    for part in group.split(","):
        part = part.strip()
        if not part:
            continue
        yield [x.strip() for x in part.split(" as ")]


def is_kit(path):
    parts = path.split(".")
    return not (parts[0] == "Rattle" and len(parts) > 1 and parts[1] in CRATES)


# names that come from the toolchain, by file and in all
kit_of, kit = {}, set()
for p in files(".antt", ".rt"):
    here = set()
    for path, group in USE.findall(read(p)):
        if is_kit(path):
            here |= {n[0] for n in names_of(group)}
    kit_of[p] = here
    kit |= here

DECLARED = re.compile(r"(?:^|\n)[ ]*(?:(?:abbrev|unfoldable|pub|opaque|let|data|record|newtype|mutual)\s+)*([A-Za-z][\w'-]*)\s*(?::|=|\([^()\n]*:|\{[^{}\n]*:)")
OWN_RECORD = re.compile(r"\b(?:record|data)\s+([A-Z][\w'-]*)")


def plain(text, rt=False):
    """The text with comments and strings blanked, of the same length."""
    out = list(text)
    for m in re.finditer(r'"(?:\\.|[^"\\\n])*"|//[^\n]*' if rt else r'"(?:\\.|[^"\\\n])*"|--[^\n]*', text):
        for i in range(m.start(), m.end()):
            if out[i] != "\n":
                out[i] = " "
    return "".join(out)


own = set()
for p in files(".antt"):
    if "/specs/" in p or "/proofs/" in p:
        t = plain(read(p))
        for n in DECLARED.findall(t) + OWN_RECORD.findall(t):
            own.add(n)
        for m in re.finditer(r"[({]([^(){}:→=]*?)\s*:", t):
            own |= set(TOKEN.findall(m.group(1)))
        for m in re.finditer(r"λ([^.]*?)\.\s", t):
            own |= set(TOKEN.findall(m.group(1)))
        for m in re.finditer(r"\|\s*([A-Za-z][\w' -]*?)\s*(?:=|:|↦)", t):
            own |= set(TOKEN.findall(m.group(1)))
        for path, group in USE.findall(read(p)):
            for n in names_of(group):
                own |= set(n[1:])
                if not is_kit(path):
                    own.add(n[0])
for p in files(".rt"):
    for path, group in USE.findall(read(p)):
        for n in names_of(group):
            own |= set(n[1:])
            if not is_kit(path):
                own.add(n[0])

# names of Rust code, whose spelling generated names keep
rust = set()
for p in files(".rt"):
    code = re.sub(r"(?m)^[ ]*(?:ghost|ensures|requires|loop_invariant)\b[^\n]*", "", plain(read(p), rt=True))
    rust |= set(re.findall(r"[A-Za-z_][A-Za-z0-9_]*", code))
labels = set()
for p in files(".rt"):
    labels |= set(re.findall(r"\b(?:ensures|requires|ghost)\s+([a-z]\w*)\s*[:{]", read(p)))
rust_snake = labels | {n for n in rust if "_" in n.strip("_") and n == n.lower()} | {"invariant_of", "in_ok", "in_err", "type_inv", "int_to", "is_none", "is_some", "into_iter", "into_iter_gives", "overflow_add", "overflow_sub", "overflow_mul", "overflow_div", "from_residual", "split_at", "is_empty"}


def snake(n):
    n = n.replace("-", "_")
    n = re.sub(r"(?<=[a-z0-9])([A-Z])", lambda m: "_" + m.group(1).lower(), n)
    return n


def camel(n):
    return "".join(w[:1].upper() + w[1:] for w in n.split("-"))


def respelt(n):
    if n[:1].isupper():
        return camel(n) if "-" in n else n
    return snake(n)


def by_parts(n):
    """A generated name, its parts spelt as in the code."""
    parts, out, i = n.split("-"), [], 0
    while i < len(parts):
        for j in range(len(parts), i, -1):
            w = "_".join(parts[i:j])
            if j - i == 1 or w in rust_snake:
                out.append(w)
                i = j
                break
    return "-".join(out)


# names that would fall together with another
APART = {
    "Sound-change": "SoundPlanChange",
    "Sound-stage": "SoundPlanStage",
    "Sound-outcome": "SoundPlanOutcome",
    "entry-of": "entry_after",
    "part_in": "part_in_is",
    "timer-of": "timer_of_record",
    "changeOf": "change_of_row",
    "stageOf": "stage_of_row",
    "outcomeOf": "outcome_of_row",
    "comparisonOf": "comparison_of_row",
    "count_no": "count_no_is",
    "held_by": "held_by_some",
    "outcome-at": "outcome_at_place",
    "toldOf": "told_to_the_end",
    "weights-of": "weights_in",
}

mapping = {n: respelt(n) for n in own if re.match(r"[A-Za-z]", n) and respelt(n) != n and (n not in rust or re.search('[a-z][A-Z]', n) and n[0].islower())}
mapping.update(APART)
back = defaultdict(set)
for o, n in mapping.items():
    back[n].add(o)
for n in own:
    if n in back and n not in APART:
        back[n].add(n)
together = {n: o for n, o in back.items() if len(o) > 1}


def is_generated(p, t, start, tok, goals):
    """A token that names what the checker made: after `c.` and the like, or a goal of this file."""
    if "/proofs/" not in p or os.path.basename(p) not in ("Answers.antt", "Invariants.antt", "Choices.antt"):
        return False
    if tok in goals:
        return True
    line = t[t.rfind("\n", 0, start) + 1:start]
    m = re.search(r"(?:[A-Za-z_][\w'₀-₉-]*\.)+(?:«?)$", line)
    return bool(m) and m.group(0).split(".")[0] in ("c", "l", "goal", "given", "g", "w", "at")


def turned(p):
    text = read(p)
    rt = p.endswith(".rt")
    t = plain(text, rt)
    goals = set(re.findall(r"\b(?:goal|given)\.([\w'-]+)", t)) | set(re.findall(r"Goals\.\{([^}]*)\}", t))
    out, last = [], 0
    for m in TOKEN.finditer(t):
        tok = m.group(0)
        if rt and t[max(0, m.start() - 1):m.start()] == "'":
            continue
        new = tok
        if is_generated(p, t, m.start(), tok, goals) and "-" in tok:
            new = by_parts(tok)
            if new == tok and tok in mapping and tok not in goals and "_" not in tok and tok not in gen_words:
                new = mapping[tok]
        elif tok in mapping and tok not in kit_of[p]:
            new = mapping[tok]
        elif not rt and "-" in tok and tok not in kit and tok not in kit_of[p] and tok.replace("-", "_") in rust_snake:
            new = tok.replace("-", "_")
        if new != tok:
            out += [text[last:m.start()], new]
            last = m.end()
    out.append(text[last:])
    return "".join(out)


# words of the checker that have a hyphen of their own
gen_words = set()

if __name__ == "__main__":
    for n, o in sorted(together.items()):
        print("fall together:", n, sorted(o))
    changed = 0
    for p in list(files(".antt", ".rt")):
        new = turned(p)
        if new != read(p):
            changed += 1
            if not DRY:
                with open(p, "w", encoding="utf-8") as f:
                    f.write(new)
    for p in ["README.md"] + [os.path.join("docs", f) for f in sorted(os.listdir("docs")) if f.endswith(".md") and not f.startswith("PORT")]:
        text = read(p)
        new = re.sub(r"`([^`\n]+)`", lambda m: "`" + TOKEN.sub(lambda k: mapping.get(k.group(0), k.group(0)), m.group(1)) + "`", text)
        if new != text:
            changed += 1
            if not DRY:
                with open(p, "w", encoding="utf-8") as f:
                    f.write(new)
    print(len(mapping), "names,", changed, "files")
