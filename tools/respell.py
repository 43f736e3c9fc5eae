#!/usr/bin/env python3
"""respell: brings the names of the repository's own definitions and lemmas to one spelling, once, after port.py.

Words are written in snake case and facts and types in upper camel case: firstWhere and refuse-if become first_where and
refuse_if, Plain-word becomes PlainWord. Names of Rust items, files and what the checker makes stay as they are. Clauses
that port.py left behind a lambda are written with `result`; the definition that had this name is called result_of.
Run it at the top of the repository. A second run changes nothing.
"""
import collections
import glob
import re

NAME = r"[^\s(){}.;,@\"«»⌜⌝\[\]|]+"
TOKEN = re.compile(NAME)
HEAD = re.compile(r"^\s*(?:(?:pub|abbrev|unfoldable|infix[lr]?|mutual)\s+)*(?:(data|record)\s+)?((?:" + NAME + r")(?:\s+" + NAME + r")*?)(?:\s+[({].*)?\s*:(?:\s|$)")

# Names that would fall together with another that is in scope beside them.
OWN = {
    "is-reserved": "tells_reserved",
    "is-number": "tells_number",
    "is-assign": "tells_assign",
    "text-run": "text_run_is",
    "unlessRefused": "said_unless_refused",
}


def spelled(name):
    if name in OWN:
        return OWN[name]
    if name[0].isupper():
        return "".join(part[:1].upper() + part[1:] for part in name.split("-"))
    name = re.sub(r"([a-z0-9])([A-Z])", lambda m: m[1] + "_" + m[2].lower(), name)
    return name.replace("-", "_")


def ours():
    """The old and the new spelling of each name that a file of specs/ or proofs/ declares."""
    table = {}
    for path in sorted(glob.glob("crates/*/specs/**/*.antt", recursive=True) + glob.glob("crates/*/proofs/**/*.antt", recursive=True)):
        for line in open(path, encoding="utf-8"):
            m = HEAD.match(line)
            if not m or line.lstrip().startswith("--") or ": goal." in line or " = " in line.split(":")[0]:
                continue
            for name in m[2].split():
                if re.search(r"[A-Za-z0-9]-[A-Za-z0-9]|^[a-z][a-z0-9]*[A-Z]", name) and spelled(name) != name:
                    table[name] = spelled(name)
    return table


def respelled(text, table, skip_generated):
    def turn(m):
        word = m[0]
        bare = word.rstrip("'")
        new = table.get(word) or (table.get(bare) and table[bare] + word[len(bare):])
        if not new:
            return word
        if skip_generated and text[m.start() - 1 : m.start()] == ".":
            path = re.search(r"[^\s(){};,]*$", text[: m.start()])[0]
            if re.match(r"(c|w|l|g|goal|need)\.", path) and word not in FIELDS:
                return word
        return new

    return TOKEN.sub(turn, text)


def fields():
    """The fields of records, which stand behind a dot."""
    found = set()
    for path in glob.glob("crates/*/specs/**/*.antt", recursive=True) + glob.glob("crates/*/proofs/**/*.antt", recursive=True):
        inside = False
        for line in open(path, encoding="utf-8"):
            if re.match(r"\s*(pub\s+)?record\s", line) and line.rstrip().endswith("where"):
                inside = True
            elif inside and line.strip() and not line.startswith(" "):
                inside = False
            elif inside:
                m = HEAD.match(line)
                found.update(m[2].split() if m else [])
    return found


# What stands outside code in a file of antt, and in a Rattle file.
QUIET_ANTT = re.compile(r"--[^\n]*|\"[^\"\n]*\"")
QUIET_RUST = re.compile(r"//[^\n]*|\"(?:\\.|[^\"\\])*\"|b?'(?:\\.|[^'\\\n])'", re.S)
LEFT = re.compile(r"(requires|ensures)\*( \w+)? \{ λ (\w+)\. ⌜ (.*?) ⌝ \}", re.S)


def outside(quiet, text, turn):
    out, at = [], 0
    for m in quiet.finditer(text):
        out += [turn(text[at : m.start()]), m[0]]
        at = m.end()
    return "".join(out + [turn(text[at:])])


def plain(m):
    """A clause behind a lambda, as a plain fact."""
    fact = m[4]
    if m[3] != "_":
        fact = re.sub(r"(?<![\w.'-])" + re.escape(m[3]) + r"(?![\w'-])", "result", fact)
    if fact.startswith("(") and fact.endswith(")") and balanced(fact[1:-1]):
        fact = fact[1:-1]
    return f"{m[1]}{m[2] or ''} {{ {fact} }}"


def balanced(text):
    depth = 0
    for c in text:
        depth += (c == "(") - (c == ")")
        if depth < 0:
            return False
    return depth == 0


def of_result(text):
    return re.sub(r"(?<![\w.'-])result(?![\w'-])", "result_of", text)


def held(text):
    return re.search(r"Held\.\{[^}]*\bresult\b[^}]*\}", text)


def main():
    table = ours()
    changed = 0
    for path in sorted(glob.glob("crates/**/*.antt", recursive=True)):
        text = open(path, encoding="utf-8").read()
        new = outside(QUIET_ANTT, text, lambda t: respelled(t, table, "/proofs/" in path))
        if path == "crates/reader/specs/Held.antt" or held(new):
            new = of_result(new)
        changed += save(path, text, new)
    for path in sorted(glob.glob("crates/*/src/**/*.rt", recursive=True)):
        text = open(path, encoding="utf-8").read()
        new = outside(QUIET_RUST, text, lambda t: respelled(t, table, False))
        if held(new):
            new = re.sub(r"(ghost use [^;]*Held\.\{[^}]*\};)", lambda m: of_result(m[0]), new)
            new = LEFT.sub(lambda m: m[0].replace(m[4], of_result(m[4])), new)
        new = LEFT.sub(plain, new)
        changed += save(path, text, new)
    print(f"respell: {len(table)} names, {changed} files changed")


def save(path, old, new):
    if old == new:
        return 0
    with open(path, "w", encoding="utf-8") as f:
        f.write(new)
    return 1


if __name__ == "__main__":
    FIELDS = fields()
    main()
