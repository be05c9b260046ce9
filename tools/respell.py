#!/usr/bin/env python3
"""Brings the repository's own definitions and lemmas to the spelling of today's Rattle: words in snake case, types and facts in upper camel case.

usage: python3 tools/respell.py [--check] [FOLDER]

It was run once, right behind the kit's port.py, which respells the names that libraries have and only some of the repository's own. FOLDER is the
top of a checkout (default: the one that the script lies in). --check writes nothing and lists names that fall together.

A name is one that specs/*.antt or proofs/*.antt declares: a definition, a lemma, a constructor, a field, a name after `where`. What Rattle makes (the goals
and facts below proofs/FUNCTION/) and what src/ declares stay. Constants, which a `const` of src/ has in capitals, are in small letters.
"""

import collections
import glob
import os
import re
import sys

WORD = r"[^\s(){}\[\].;,@\"«»|]+"
DECLARED = re.compile(r"^( *)(?:(?:abbrev|unfoldable|pub) )*(?:(record|data) )?(" + WORD + r")(?: (?:\([^:]*:.*\)|\{.*\}))* : ")
QUIET = re.compile(r'"(?:[^"\\\n]|\\.)*"')

# Names that would fall together with another one of the same file.
BY_HAND = {
    "SOLVED": "solved_number",
    "NO-TIMETABLE": "no_timetable_number",
    "WRONG-FORM": "wrong_form_number",
    "TOO-MANY": "too_many_number",
    "OUT-OF-RANGE": "out_of_range_number",
    "SAME-EVENT": "same_event_number",
    "NOT-PEAKED": "not_peaked_number",
    "AREA-TOO-SHORT": "area_too_short_number",
    "NOTHING-ALLOWED": "nothing_allowed_number",
    "AREA": "area_room",
    "EARLIEST": "earliest_word",
    "ENTRIES": "entry_count",
    "EVENTS": "events_word",
    "RULE": "rule_word",
    "WISH": "wish_word",
    "NOTES": "note_count",
    "OUTPUT": "known_output",
    "TAB": "tab_byte",
    "WIDTH": "set_width",
    "WORD": "word_width",
    "CASE-5": "case_5_text",
    "CASE-5-RAISED": "case_5_raised_text",
    "CASE-6": "case_6_text",
    "CASE-7": "case_7_text",
    "CASE-8": "case_8_text",
}


def files(top, *patterns):
    return sorted(f for p in patterns for f in glob.glob(os.path.join(top, "crates", "*", p)))


def read(path):
    with open(path, encoding="utf-8") as f:
        return f.read()


def in_snake_case(name):
    if re.fullmatch(r"[A-Z][A-Z0-9-]*(?:_[A-Z0-9]+)*", name) and len(name) > 1:
        return name.lower().replace("-", "_")
    if name[:1].isupper():
        return name
    words = re.sub(r"(?<=[a-z0-9])([A-Z])", lambda m: "_" + m[1].lower(), name)
    return re.sub(r"(?<=[\w'])-(?=\w)", "_", words)


def table(top):
    """Old and new name of each declaration whose spelling changes. A lemma that would get the name of a definition ends in `_lem`."""
    rows, kept = {}, set()
    for path in files(top, "specs/*.antt", "proofs/*.antt"):
        for line in read(path).split("\n"):
            m = DECLARED.match(line)
            if not m or line.lstrip().startswith("--") or m[3] in ("use", "let", "in"):
                continue
            new = BY_HAND.get(m[3]) or in_snake_case(m[3])
            if new != m[3]:
                rows[m[3]] = new
            else:
                kept.add(new)
    lemmas = {old for old in rows if "-" in old and old not in BY_HAND and not old.isupper()}
    taken = kept | {new for old, new in rows.items() if old not in lemmas}
    return {old: new + "_lem" if old in lemmas and new in taken else new for old, new in rows.items()}


def turned(text, rows, made):
    """The text with each whole word that has a row respelled; where `made` is set, a word behind a dot is Rattle's and stays."""
    quiet = [m.span() for m in QUIET.finditer(text)]
    aliases = set(re.findall(r"\buse [^\s;{]+ as (" + WORD + ")", text))

    def one(m):
        word = m[0]
        if word not in rows or any(a <= m.start() < b for a, b in quiet):
            return word
        if made and text[: m.start()].endswith("."):
            head = re.search("(" + WORD + r")\.$", text[: m.start()])
            if not head or head[1] not in aliases:
                return word
        return rows[word]

    # a code span of a comment ends a word
    return re.sub(r"[^\s(){}\[\].;,@\"«»|`]+", one, text)


def ghost_only(text, rows):
    """A source file: its clauses, ghost items and comments' code spans."""
    clause = re.compile(r"(?:requires|ensures)\*?(?: \w+)? \{|ghost [^{;]*\{")
    out, at = [], 0
    while True:
        m = clause.search(text, at)
        if not m:
            break
        depth, end = 1, m.end()
        while depth:
            depth += {"{": 1, "}": -1}.get(text[end], 0)
            end += 1
        out += [text[at : m.end()], turned(text[m.end() : end], rows, False)]
        at = end
    return "".join(out) + text[at:]


def together(top, rows):
    """Pairs of names that become one in some file."""
    for path in files(top, "specs/*.antt", "proofs/*.antt", "proofs/*/*.antt", "src/*.rt"):
        words = set(re.findall(r"[^\s(){}\[\].;,@\"«»|`]+", read(path)))
        spelled = collections.defaultdict(set)
        for w in words:
            spelled[rows.get(w, w)].add(w)
        for new, olds in sorted(spelled.items()):
            if len(olds) > 1:
                yield os.path.relpath(path, top), new, sorted(olds)


def main(args):
    check = "--check" in args
    args = [a for a in args if a != "--check"]
    top = os.path.abspath(args[0] if args else os.path.join(os.path.dirname(os.path.abspath(__file__)), ".."))
    rows = table(top)
    for path, new, olds in together(top, rows):
        print(f"together: {path}: {new}: {' '.join(olds)}")
    print(f"{len(rows)} names")
    if check:
        return
    for path in files(top, "specs/*.antt", "proofs/*.antt", "proofs/*/*.antt", "src/*.rt"):
        text = read(path)
        made = re.search(r"/proofs/[^/]+/", path) is not None
        new = ghost_only(text, rows) if path.endswith(".rt") else turned(text, rows, made)
        if new != text:
            with open(path, "w", encoding="utf-8") as f:
                f.write(new)


main(sys.argv[1:])
