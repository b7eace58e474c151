#!/usr/bin/env python3
"""Brings this repository's own definitions and lemmas to snake case, once, behind the kit's port.py.

usage: respell.py [--check]        at the top of the repository; --check writes nothing and lists what falls together

Turns names that specs/*.antt and proofs/*.antt declare or bind (camel case and dashes), wherever they stand in .antt files, in the clauses
and `ghost use` items of .rt files and in must-fail edits. Types and modules keep their capitals; names of libraries, of Rust and those that
Rattle makes keep their spelling.
"""
import collections
import pathlib
import re
import sys

ROOT = pathlib.Path(__file__).resolve().parent.parent
CRATES = ROOT / "crates"
TOKEN = re.compile(r"[^\s(){}.;,@\"«»]+")
SIGNATURE = re.compile(r"^\s*(?:(?:pub|abbrev|unfoldable|pattern|private|axiom)\s+)*((?:[^\s(){}.;,@\"«»:=→λ]+\s+)+):(?=\s)", re.M)
BOUND = re.compile(r"(?:\blet\s+)([^\s(){}.;,@\"«»:=]+)\s*(?::|=)|[({]((?:[^\s(){}.;,@\"«»:=→λ×]+\s+)+):(?=\s)|λ\s+((?:[^\s(){}.;,@\"«»:=→λ]+\s*)+)\.(?=\s)")
ALIAS = re.compile(r"\bas\s+([^\s(){}.;,@\"«»]+)")
USE = re.compile(r"^(?:pub )?(?:ghost )?use ([^\s;{]+?)\.?\{([^}]*)\};?$|^(?:pub )?(?:ghost )?use ([^\s;{]+)(?: as (\S+?))?;?$", re.M)
COMMENT = re.compile(r"--.*$", re.M)
OWN = {p.name for p in CRATES.iterdir()}
# What falls together with another name once it is turned, by hand: a lemma with its function's name ends in _lem.
BY_HAND = {}
BY_HAND_IN = {}


def load_tables():
    table = pathlib.Path(__file__).with_name("respell.tsv")
    if not table.exists():
        return
    for line in table.read_text().splitlines():
        if not line or line.startswith("#"):
            continue
        cells = line.split("\t")
        if len(cells) == 2:
            BY_HAND[cells[0]] = cells[1]
        else:
            BY_HAND_IN[(cells[0], cells[1])] = cells[2]


def is_turned(name):
    if not re.search(r"[A-Za-z]", name) or name[0] in "'◌_" or "◌" in name:
        return False
    if re.fullmatch(r"[A-Z][A-Z0-9_]*", name):
        return False
    if "-" in name:
        return re.search(r"[^\W_]-[^\W_]", name) is not None
    return re.match(r"[a-z]", name) is not None and re.search(r"[a-z0-9][A-Z]", name) is not None


def turned(name):
    words = re.sub(r"(?<=[a-z0-9'])([A-Z])", lambda m: "_" + m[0].lower(), name) if re.match(r"[a-z]", name) else name
    return words.replace("-", "_")


def antt_files():
    return sorted(p for p in CRATES.rglob("*.antt") if "out" not in p.parts)


def is_shared(path):
    parts = path.relative_to(CRATES).parts
    return len(parts) == 3 and parts[1] in ("specs", "proofs")


def own_path(path):
    steps = path.split(".")
    return steps[0] == "Rattle" and len(steps) > 1 and steps[1] in OWN


def library_names(text):
    for found in USE.finditer(text):
        path, names = found[1], found[2]
        if path and not own_path(path):
            for item in names.split(","):
                item = item.strip()
                if item:
                    yield item.split(" as ")[0].strip(), item.split(" as ")[-1].strip()


def declared():
    names = collections.defaultdict(set)
    bound = collections.defaultdict(set)
    for path in antt_files():
        if not is_shared(path):
            continue
        text = COMMENT.sub("", path.read_text())
        for found in SIGNATURE.finditer(text):
            for name in found[1].split():
                names[name].add(str(path.relative_to(ROOT)))
        for found in BOUND.finditer(text):
            for group in found.groups():
                for name in (group or "").split():
                    bound[name].add(str(path.relative_to(ROOT)))
        for found in USE.finditer(text):
            for item in (found[2] or "").split(","):
                if " as " in item and own_path(found[1] or ""):
                    bound[item.split(" as ")[-1].strip()].add(str(path.relative_to(ROOT)))
    return names, bound


def main():
    check = "--check" in sys.argv
    load_tables()
    names, bound = declared()
    table = {}
    for name in set(names) | set(bound):
        if is_turned(name):
            table[name] = BY_HAND.get(name, turned(name))
    # a lemma that would have its function's name ends in _lem
    camel = {turned(name) for name in table if "-" not in name}
    snake = {name for name in names if "-" not in name}
    for name in table:
        if "-" in name and name not in BY_HAND and (turned(name) in camel or turned(name) in snake):
            table[name] = turned(name) + "_lem"
    taken = set(names)
    together = collections.defaultdict(set)
    for old, new in table.items():
        if old in names:
            together[new].add(old)
            if new in taken:
                together[new].add(new)
    if check:
        for new, olds in sorted(together.items()):
            if len(olds) > 1:
                print("together:", new, "<-", "; ".join(f"{o} ({', '.join(sorted(names[o]))})" for o in sorted(olds)))
    library = collections.defaultdict(set)
    for path in antt_files():
        for base, local in library_names(path.read_text()):
            library[local].add(path)
            library[base].add(path)
    for old in sorted(table):
        if old in library:
            print("library:", old, sorted(str(p.relative_to(ROOT)) for p in library[old])[:3], "declared", sorted(names.get(old, ()))[:3], sorted(bound.get(old, ()))[:3])

    changed = 0
    rust = sorted(path for path in CRATES.rglob("*.rt") if "out" not in path.parts)
    edits = sorted(CRATES.glob("*/must-fail/*.edit"))
    for turn, paths in ((turn_antt, antt_files()), (turn_rust, rust), (turn_edit, edits)):
        for path in paths:
            text = path.read_text()
            new = turn(text, path, table)
            if new == text:
                continue
            changed += 1
            if turn is turn_antt:
                clash(path, text, new, table)
            if not check:
                path.write_text(new)
    print(f"{len(table)} names turned, {changed} files")


def skips(text):
    return {n for pair in library_names(text) for n in pair}


def turn_antt(text, path, table):
    local = set()
    if not is_shared(path):
        # a function's own proof: its goals keep the names that Rattle makes
        for found in SIGNATURE.finditer(COMMENT.sub("", text)):
            local.update(found[1].split())
    out = []
    for line in text.split("\n"):
        has_comment = line.lstrip().startswith("--") or " -- " in line
        code, dash, comment = line.partition("--") if has_comment else (line, "", "")
        out.append(turn_text_line(code, path, table, text, local) + dash + turn_comment(comment, table))
    return "\n".join(out)


def turn_text_line(code, path, table, text, local):
    rel = str(path.relative_to(ROOT))
    skip = skips(text)
    def one(match):
        name = match[0]
        by = BY_HAND_IN.get((rel, name))
        if by:
            return by
        if name in skip or name in local:
            return name
        return table.get(name, name)
    return TOKEN.sub(one, code)


def turn_comment(comment, table):
    return re.sub(r"`([^`]*)`", lambda m: "`" + TOKEN.sub(lambda t: table.get(t[0], t[0]), m[1]) + "`", comment)


CLAUSE = re.compile(r"(?:requires|ensures)\*?\s*(?:\w+\s*)?\{|ghost\s+(?:\w+\s*:\s*)?\{")


def turn_rust(text, path, table):
    rel = str(path.relative_to(ROOT))
    skip = skips(text)
    def one(match):
        by = BY_HAND_IN.get((rel, match[0]))
        return by or (match[0] if match[0] in skip else table.get(match[0], match[0]))
    text = re.sub(r"^(?:pub )?ghost use Rattle\.(\w+)\.[^;]*;", lambda m: TOKEN.sub(one, m[0]) if m[1] in OWN else m[0], text, flags=re.M)
    out, at = [], 0
    for found in CLAUSE.finditer(text):
        if found.start() < at:
            continue
        deep, end = 1, found.end()
        while deep:
            deep += (text[end] == "{") - (text[end] == "}")
            end += 1
        out.append(text[at:found.end()])
        out.append(TOKEN.sub(one, text[found.end():end]))
        at = end
    out.append(text[at:])
    return "".join(out)


def turn_edit(text, path, table):
    crate = path.relative_to(CRATES).parts[0]
    out, antt, words = [], False, set()
    for line in text.split("\n"):
        if line.startswith("file:"):
            antt = line.strip().endswith(".antt")
            target = CRATES / crate / line.partition(":")[2].strip()
            words = set(TOKEN.findall(target.read_text())) if antt and target.exists() else set()
        elif antt and re.match(r"(old|new):", line):
            head, _, rest = line.partition(":")
            line = head + ":" + TOKEN.sub(lambda m: table.get(m[0]) or (turned(m[0]) if is_turned(m[0]) and turned(m[0]) in words else m[0]), rest)
        out.append(line)
    return "\n".join(out)


def clash(path, old, new, table):
    """Two names of one file that become one."""
    strip = lambda t: COMMENT.sub("", t)
    back = collections.defaultdict(set)
    rel = str(path.relative_to(ROOT))
    skip = skips(old)
    for name in set(TOKEN.findall(strip(old))):
        to = BY_HAND_IN.get((rel, name)) or (name if name in skip else table.get(name, name))
        back[to].add(name)
    for to, olds in sorted(back.items()):
        if len(olds) > 1:
            print("clash:", rel, to, "<-", ", ".join(sorted(olds)))


if __name__ == "__main__":
    main()
