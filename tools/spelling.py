#!/usr/bin/env python3
# Brings the names of this repository's definitions and lemmas to the kit's spelling: words in snake case, types in camel case, a dash between two names alone.
"""usage: tools/spelling.py [FOLDER]   the folder that holds crates/ (this repository by default); files are rewritten in place.
usage: tools/spelling.py --names      prints each name with what it becomes, and changes nothing."""

import os
import re
import sys

LETTERS = r"[^\s(){}\[\];,.:@\"«»`|]"
TOKEN = re.compile(LETTERS + "+")
DEFINED = re.compile(r"^(\s*)(?:abbrev |unfoldable )?(?:pub )?(?:abbrev )?(" + LETTERS + r"+(?: " + LETTERS + r"+)*) :(?: |$)(.*)")
DECLARED = re.compile(r"^\s*(?:pub )?(data|record) (" + LETTERS + "+)")
IMPORTED = re.compile(r"^\s*(?:pub |ghost )?use ([^\s{;]+?)(?:\.\{([^}]*)\})?(?: as (\S+))?;?$")
ASKED = re.compile(r"(?:tie\.Need-|goal\.)")
# Words of the logic and its library that a lemma's name may join by a dash.
WORDS = set(
    "add sub mul div mod rem pow neg mag pos negsuc suc zero length append take drop replicate set get get_or map sum all "
    "cond if not and or eq ne lt le min max fits ltb leb eqb cong to_z of_z rev concat index elim".split()
)


def sources(root):
    for folder, dirs, files in os.walk(os.path.join(root, "crates")):
        dirs[:] = sorted(d for d in dirs if d not in ("out", "data", "must-fail"))
        for name in sorted(files):
            if name.endswith((".antt", ".rt")):
                yield os.path.join(folder, name)


def read(path):
    with open(path, encoding="utf-8") as f:
        return f.read()


def code(line, path):
    return line.split("--")[0] if path.endswith(".antt") else line.split("//")[0]


def snake(name):
    return re.sub(r"(?<=[a-z0-9])([A-Zℤ])", lambda m: "_" + (m.group(1) if m.group(1) == "ℤ" else m.group(1).lower()), name)


def camel(name):
    return "".join(part[:1].upper() + part[1:] for part in name.split("-"))


def collect(root):
    """What the repository defines: plain names, types, members of records and data, what others ask for by name, what comes from elsewhere."""
    names, types, members, asked, foreign = set(), set(), set(), set(), set()
    for path in sources(root):
        within = None
        for line in read(path).split("\n"):
            text = code(line, path)
            use = IMPORTED.match(text)
            if use:
                own = re.match(r"Rattle\.(\w+)\.(specs|proofs)\b", use.group(1))
                if not own or own.group(1) in ("std", "core", "io", "libc", "os") or "declared" in use.group(1):
                    foreign |= {w.strip().split(" as ")[0] for w in (use.group(2) or "").split(",")}
                continue
            if not path.endswith(".antt"):
                continue
            declared = DECLARED.match(text)
            if declared:
                types.add(declared.group(2))
                within = len(text) - len(text.lstrip())
                continue
            defined = DEFINED.match(text)
            if not defined:
                continue
            indent, words, rest = len(defined.group(1)), defined.group(2).split(), defined.group(3)
            if words[0] in ("let", "module", "pub") or "(" in words[0]:
                continue
            if within is not None and indent <= within:
                within = None
            if ASKED.search(rest):
                asked |= set(words)
            elif within is not None:
                members |= set(words)
            elif re.search(r"Type [01]$", rest.rstrip()):
                types |= set(words)
            else:
                names |= set(words)
    return names, types, members, asked, foreign


def respelled(root):
    names, types, members, asked, foreign = collect(root)
    known = {n for n in names | members if "-" not in n} | {n for n in types} | WORDS | {snake(n) for n in names | members}

    def lemma(name):
        parts = name.split("-")
        out = snake(parts[0])
        for left, right in zip(parts, parts[1:]):
            out += ("-" if left in known and right in known else "_") + snake(right)
        return out

    change = {}
    for name in sorted((names | types | members) - asked - foreign):
        if not re.match(r"[A-Za-z]", name) or re.match(r"(decreases|invariant|returns|loop)-", name):
            continue
        if name in types:
            new = camel(name) if "-" in name and re.match(r"[A-Z]", name) else name
        elif re.match(r"[A-Z]", name):
            new = name
        elif name.endswith("-spec"):
            new = snake(name).replace("-", "_")
        elif name in members:
            new = snake(name).replace("-", "_")
        else:
            new = lemma(name)
        if new != name:
            change[name] = new
    # A lemma that would have its function's name says that it is one.
    plain = {new for old, new in change.items() if "-" not in old}
    own = names | types | members
    for name in sorted(own):
        new = change.get(name, name)
        if ("-" in name and new != name and (new in plain or new in own)) or (name not in change and name in plain and name not in foreign):
            change[name] = new + "_lem"
    return change


def together(change, own):
    """Names that fall together with another one of the repository."""
    seen, clash = {name: name for name in own if name not in change}, []
    for old, new in change.items():
        if new in seen:
            clash.append((old, seen[new], new))
        seen[new] = old
    return clash


def turn(text, change):
    def one(m):
        old = m.group(0)
        new = change.get(old, old)
        # behind a dot a function's name is the code's
        projected = text[m.start() - 1 : m.start()] == "." and "-" not in old and new == old + "_lem"
        return old if projected else new

    return TOKEN.sub(one, text)


def ghost(text, change):
    """In a .rt file: the clauses and the lines 'ghost use' alone, since functions keep their names."""
    out, depth = [], 0
    for line in text.split("\n"):
        body = line.split("//")[0]
        opens = re.match(r"\s*(requires|ensures|ghost)\b", body)
        if opens or depth > 0:
            out.append(turn(body, change) + line[len(body):])
            depth += body.count("{") - body.count("}")
        else:
            out.append(line)
    return "\n".join(out)


def main():
    args = sys.argv[1:]
    root = os.path.join(os.path.dirname(os.path.realpath(__file__)), "..")
    if args and args[0] != "--names":
        root = args[0]
    if args and args[0] == "--names":
        for old, new in respelled(root).items():
            print(old, new)
        return
    # A name of three may want a second look, since its parts are respelled too.
    change = respelled(root)
    while change:
        names, types, members, _, _ = collect(root)
        for old, other, new in together(change, names | types | members):
            print(f"falls together: {old} and {other} as {new}", file=sys.stderr)
        for path in sources(root):
            text = read(path)
            new = turn(text, change) if path.endswith(".antt") else ghost(text, change)
            if new != text:
                with open(path, "w", encoding="utf-8") as f:
                    f.write(new)
        change = respelled(root)


main()
