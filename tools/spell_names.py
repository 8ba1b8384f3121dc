#!/usr/bin/env python3
"""Brings the repository's own definitions and lemmas to the spelling of today's Rattle, in place: words in snake case, types in
camel case. It is run once, at the top, right after the kit's port.py. Names of the library, of goals, of functions in src/, and
whatever stands in strings and comments keep their spelling."""
import glob
import os
import re

NAME = re.compile(r"[A-Za-z_][A-Za-z0-9_]*(?:-[A-Za-z0-9_]+)+'*")
OWN_CRATES = re.compile(r"Rattle\.(" + "|".join(sorted(os.listdir("crates"))) + r")\.")
USE = re.compile(r"\s*(?:pub )?use (\S+?)\.\{(.*)\}")
PROOF_FILES = ("Answers.antt", "Invariants.antt", "Proof.antt")
# a definition with the name of a function of the same module is imported under another
BESIDE_A_FUNCTION = {"next_state": "next_state_of", "sent_of": "sent_at"}


def today(name):
    if name[0].isupper():
        return "".join(word[0].upper() + word[1:] for word in name.split("-"))
    return name.replace("-", "_")


def code_and_comment(line, mark):
    """The line up to its comment, and the comment; a mark in a string begins none."""
    inside = False
    for at, char in enumerate(line):
        if char == '"' and line[at - 1 : at] != "\\":
            inside = not inside
        elif not inside and line.startswith(mark, at):
            return line[:at], line[at:]
    return line, ""


def outside_strings(code, change):
    parts = re.split(r'("(?:[^"\\]|\\.)*")', code)
    return "".join(part if n % 2 else change(part) for n, part in enumerate(parts))


def read(path):
    with open(path, encoding="utf-8") as file:
        return file.read()


def own_names(paths):
    """The names with a hyphen in definitions and lemmas that no library lends."""
    lent, found = set(), set()
    for path in paths:
        for line in read(path).splitlines():
            use = USE.match(line)
            if not use:
                found.update(NAME.findall(code_and_comment(line, "--")[0]))
            elif not OWN_CRATES.match(use.group(1)):
                lent.update(item.strip().split(" as ")[0] for item in use.group(2).split(","))
    return found - lent


def aliases(paths):
    """The names with a hyphen under which code imports a definition."""
    return {name for path in paths for name in re.findall(r" as (" + NAME.pattern + ")", "\n".join(re.findall(r"^ghost use .*", read(path), re.M)))}


def respell(text, mark, own, changed):
    def one(match):
        name = match.group(0)
        before = match.string[: match.start()]
        if name not in own or re.search(r"(?:^|[^A-Za-z0-9_'.])(?:c|goal)\.$", before):
            return name
        changed.add(name)
        return today(name)

    lines = []
    for line in text.split("\n"):
        if mark == "--" and re.match(r"pub [\w'-]+ : goal\.", line):
            lines.append(line)
            continue
        code, comment = code_and_comment(line, mark)
        lines.append(outside_strings(code, lambda part: NAME.sub(one, part)) + comment)
    return "\n".join(lines)


def beside_functions(text):
    for name, other in BESIDE_A_FUNCTION.items():
        use = re.search(r"^ghost use [^;]*[{ ]" + name + r"[,}][^;]*;$", text, re.M)
        if not use or not re.search(r"^(?:pub )?(?:const )?fn " + name + r"\b|^use [\w:]*::" + name + ";", text, re.M):
            continue
        clause = re.compile(r"\b" + name + r"\b(?! *(?:::<|\())")
        head, tail = text[: use.end()], text[use.end() :]
        head = head[: use.start()] + re.sub(r"\b" + name + r"\b", f"{name} as {other}", head[use.start() :])
        lines = [clause.sub(other, l) if re.match(r"\s*(?:requires|ensures)\b", l) else l for l in tail.split("\n")]
        text = head + "\n".join(lines)
    return text


def main():
    logic = glob.glob("crates/*/specs/**/*.antt", recursive=True) + glob.glob("crates/*/proofs/**/*.antt", recursive=True)
    code = glob.glob("crates/*/src/**/*.rt", recursive=True)
    own = own_names(p for p in logic if os.path.basename(p) not in PROOF_FILES)
    own |= aliases(code)
    taken = {}
    for name in sorted(own):
        taken.setdefault(today(name), []).append(name)
    words = set()
    for path in logic:
        words.update(re.findall(r"[A-Za-z_][A-Za-z0-9_]*'*", re.sub(NAME, " ", re.sub(r"--.*", "", read(path)))))
    changed = set()
    for path in logic + code:
        text = read(path)
        new = respell(text, "--" if path.endswith(".antt") else "//", own, changed)
        if path.endswith(".rt"):
            new = beside_functions(new)
        if new != text:
            with open(path, "w", encoding="utf-8") as file:
                file.write(new)
    for name in sorted(changed):
        print(f"{name} {today(name)}")
    for new, names in sorted(taken.items()):
        if len(names) > 1 or new in words:
            print(f"look: {' and '.join(names)} fall together as {new}{' with a name that stood before' if new in words else ''}")


main()
