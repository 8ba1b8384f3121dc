#!/usr/bin/env python3
"""Counts the places in crates/*/src that the design pass (docs/DESIGN-PASS.md) looks at, point by point.

Run it at the top of the repository: tools/count_places.py prints the counts, tools/count_places.py -v every place too. To count
an older commit, run it in a checkout of that commit. It finds candidates by their shape; which of them stay, and why, is for the
page to say."""
import collections
import difflib
import glob
import itertools
import re
import sys

VERBOSE = "-v" in sys.argv[1:]
FILES = sorted(glob.glob("crates/*/src/**/*.rt", recursive=True))


def without_comments(text):
    return re.sub(r"//[^\n]*", "", text)


TEXTS = {path: open(path, encoding="utf-8").read() for path in FILES}
CODE = {path: without_comments(text) for path, text in TEXTS.items()}
FUNCTION = re.compile(r"^[ \t]*(?:pub(?:\([a-z]+\))? )?(?:extern \"C\" )?fn (\w+)", re.M)


def functions():
    """Every function as (place, name, signature, body)."""
    for path, text in CODE.items():
        for found in FUNCTION.finditer(text):
            begin = found.start()
            depth, at, body_at = 0, found.end(), None
            # the body is the first brace that begins a line or ends one without closing in it, after the clauses
            for line in re.finditer(r"[^\n]*\n", text[found.end():] + "\n"):
                stripped = line.group().strip()
                clause = stripped.startswith(("requires", "ensures", "ghost"))
                if not clause and (stripped == "{" or stripped.endswith("{") or stripped.endswith("{}")):
                    body_at = found.end() + line.start() + line.group().rindex("{")
                    break
                if not clause and stripped.endswith(";") and depth == 0:
                    break
            if body_at is None:
                continue
            depth, end = 0, body_at
            for end in range(body_at, len(text)):
                depth += {"{": 1, "}": -1}.get(text[end], 0)
                if depth == 0:
                    break
            number = text.count("\n", 0, begin) + 1
            yield f"{path}:{number}", found.group(1), text[begin:body_at], text[body_at:end + 1]


def matches(pattern, group=0, texts=CODE):
    for path, text in texts.items():
        for found in re.finditer(pattern, text, re.M):
            line = text.count("\n", 0, found.start()) + 1
            yield f"{path}:{line}", found.group(group).strip()


def tokens(text):
    return [re.sub(r"^\d[\w.]*$", "0", t) for t in re.findall(r"\w+|[^\s\w]", text)]


def twins():
    """Pairs of functions whose code, signature and body, is the same for four fifths or more, names of functions aside."""
    known = [(place, name, tokens(without_clauses(signature) + body)) for place, name, signature, body in functions()]
    known = [entry for entry in known if len(entry[2]) >= 40]
    for (place, name, code), (place_2, name_2, code_2) in itertools.combinations(known, 2):
        if min(len(code), len(code_2)) / max(len(code), len(code_2)) < 0.7:
            continue
        if difflib.SequenceMatcher(None, code, code_2, autojunk=False).ratio() >= 0.8:
            yield place, f"{name} ~ {name_2} ({place_2})"


def without_clauses(signature):
    return re.sub(r"^\s*(requires|ensures|ghost)\b.*$", "", signature, flags=re.M)


def parameters(signature):
    inside = re.search(r"\((.*)\)", without_clauses(signature), re.S)
    text = inside.group(1) if inside else ""
    return sorted(set(re.findall(r"(\w+): ([^,:]+?(?:<[^>]*>)?)\s*(?:,|$)", text.replace("\n", " "))))


def repeated_clauses():
    seen = collections.Counter(text for _, text in matches(r"^\s*(?:requires|ensures)(?: \w+)? (\{.*\})\s*$", 1))
    return [(f"{count} times", text) for text, count in seen.most_common() if count >= 3]


def travelling():
    seen = collections.Counter()
    for place, _, signature, _ in functions():
        if re.match(r"crates/(frame|coding|carriers|phy)/", place):
            for pair in itertools.combinations(parameters(signature), 2):
                seen[pair] += 1
    return [(f"{count} times", f"{a[0]}: {a[1]} with {b[0]}: {b[1]}") for (a, b), count in seen.most_common() if count >= 3]


def small_results():
    for place, name, signature, _ in functions():
        result = re.search(r"->\s*(.+?)\s*(?:\n|$)", without_clauses(signature).replace("\n)", ")"))
        kind = result.group(1) if result else ""
        if re.fullmatch(r"u8|\(u8, .*\)|\(.*\bbool\b.*\)", kind):
            yield place, f"{name} -> {kind}"


POINTS = [
    ("1 own enums", lambda: matches(r"^\s*(?:pub(?:\(crate\))? )?enum (\w+)", 1)),
    ("1 results that are a u8, or hold a flag", small_results),
    ("1 a number that stands for a kind or for nothing", lambda: matches(r"=> (?:HOLE|0,|1000)|-> \(u8, usize, char\)|Err\(_\) => 0|-> u8 \{|&format!\(\"\"\)")),
    ("2 pairs of functions alike", twins),
    ("3 loops over a range of numbers", lambda: matches(r"^\s*for .* in .*\.\..*\{$")),
    ("3 while and loop", lambda: matches(r"^\s*(?:while|loop)\b.*$")),
    ("3 loops that fill, count, search or sum by hand", lambda: matches(r"^\s*for (?!.*\.\.)\S.* in .*\{$")),
    ("4 equality, order, copying, conversion and printing by hand", lambda: matches(r"^impl.* (?:PartialEq|Eq|Ord|PartialOrd|Hash|Clone|Copy|Debug|fmt::Display|Display|From<\w+>|TryFrom<\w+>) for .*$|^\s*(?:pub )?fn (?:from_number|number|code|carrier_from|is_heard|is_at|parse_number)\b.*$|Err\(_?\w*\) => (?:return )?Err\(")),
    ("5 clauses that stand in three contracts or more", repeated_clauses),
    ("5 parameters that travel together in three signatures or more (libraries)", travelling),
    ("6 buffers with a length beside, cursors", lambda: matches(r"^\s*let (?:\(\w+, _\)) = \w+\.split_at_mut\(.*$|^\s*(?:at|at_before|after|first|held_before): usize,$|, at: usize, .*$")),
    ("7 a match that chooses a step", lambda: matches(r"^\s*match (?:modulation|code_rate|kind|flaw)\b.*$")),
    ("7 function pointers, dyn, closures' bounds", lambda: matches(r"\bfn\(|\bdyn \w+|\bFn(?:Mut|Once)?\(")),
]


def main():
    for title, find in POINTS:
        places = list(find())
        print(f"{len(places):4}  {title}")
        if VERBOSE:
            for place, text in places:
                print(f"        {place}  {text}")
    for crate in sorted({path.split("/")[1] for path in FILES}):
        answers = glob.glob(f"crates/{crate}/proofs/**/Answers.antt", recursive=True)
        goals = sum(len(re.findall(r"^pub [\w-]+ : goal\.", open(path, encoding="utf-8").read(), re.M)) for path in answers)
        lemmas = [path for path in glob.glob(f"crates/{crate}/proofs/**/*.antt", recursive=True)]
        lines = sum(len(open(path, encoding="utf-8").readlines()) for path in lemmas)
        if lemmas:
            print(f"{goals:4}  8 answers in {crate}, {lines} lines of proofs")


main()
