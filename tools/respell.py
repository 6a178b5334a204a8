#!/usr/bin/env python3
"""Brings the project's own definitions and lemmas to the spelling of today's Rattle.

Run once at the top, after the kit's port.py: words in camel case or with a dash, as headLen and no-windows, become snake
case, as head_len and no_windows. Types and modules keep their capitals. Functions of src/, strings, inputs and outputs
keep their names. The names are those that specs/ and the lemma files of proofs/ declare; a name that a file takes from
the language's library is left alone there.
"""
import collections
import os
import re
import sys

WORD = r"[A-Za-z][\w'-]*"
DECLARED = re.compile(r"^(\s*)(?:\|\s*)?(?:(?:abbrev|unfoldable|pub|open|ruleset)\s+)*(" + WORD + r")\s*:(?!:)")
LIBRARY_USE = re.compile(r"^use (?!Rattle\.(?:OWN)\.)[^{]*\{([^}]*)\}")
# Names that would fall together with another one.
APART = {
    "after-arrival": "after_arrival_lem",
    "arrived-packet": "arrived_packet_lem",
    "at-start": "at_start_lem",
    "barrier-after": "barrier_after_is",
    "barrier-sent": "barrier_sent_is",
    "first-line": "first_line_is",
    "in-range": "is_in_range",
    "is-seated": "is_seated_lem",
    "letter-in": "letter_in_lem",
    "no-later": "no_later_lem",
    "on-shelf": "is_on_shelf",
    "opened-place": "opened_place_is",
    "packet-of": "packet_of_lem",
    "past-sent": "past_sent_is",
    "point-eight": "point_eight_lem",
    "point-seven": "point_seven_lem",
    "seats-most": "seats_within_most",
    "second-sent": "second_sent_lem",
    "sends-most": "sends_within_most",
    "shelf-after": "shelf_after_is",
    "slots-most": "slots_within_most",
    "well-formed": "is_well_formed",
    "with-place": "place_with",
    "wrong-length": "wrong_length_lem",
}
FUNCTION_FILES = ("Proof.antt", "Invariants.antt", "Answers.antt")


def snake(name):
    if name in APART:
        return APART[name]
    name = name.replace("getD", "getOr").replace("-", "_")
    return re.sub(r"(?<=[a-z0-9'])([A-Z])", r"_\1", name).lower()


def files(ends):
    for folder, folders, names in os.walk("."):
        folders[:] = [f for f in folders if f not in (".git", "out", "target")]
        for name in sorted(names):
            if name.endswith(ends):
                yield os.path.join(folder, name)


def declared():
    names = set()
    for path in files(".antt"):
        if os.path.basename(path) in FUNCTION_FILES and "/proofs/" in path:
            continue
        for line in open(path):
            found = DECLARED.match(line.split("--")[0])
            if found:
                names.add(found.group(2))
    old = {n for n in names if n[0].islower() and ("-" in n or re.search(r"[a-z0-9][A-Z]", n))}
    return {n: snake(n) for n in old}, names


def from_library(text, crates):
    use = re.compile(LIBRARY_USE.pattern.replace("OWN", "|".join(crates)), re.M)
    return {w.strip() for group in use.findall(text) for w in group.split(",")}


def turn(text, new, kept, comment):
    def code(part):
        def one(found):
            word = found.group(0)
            return word if word in kept else new.get(word, word)

        return re.sub(r"(?<![\w'-])" + WORD, one, part)

    def remark(part):
        part = re.sub(r"`[^`]*`", lambda m: code(m.group(0)), part)
        return re.sub(r"\b[a-z]+[A-Z]\w*", lambda m: new.get(m.group(0), m.group(0)), part)

    lines = []
    for line in text.split("\n"):
        if comment is None:
            lines.append(remark(line))
        else:
            at = line.find(comment)
            lines.append(code(line) if at < 0 else code(line[:at]) + remark(line[at:]))
    return "\n".join(lines)


def main():
    crates = sorted(os.listdir("crates"))
    new, names = declared()
    together = collections.defaultdict(list)
    for old, spelt in new.items():
        together[spelt].append(old)
    for spelt, olds in sorted(together.items()):
        if len(olds) > 1 or spelt in names:
            print("fall together:", spelt, olds, "declared" if spelt in names else "")
    for path in files((".antt", ".rt", ".edit", ".md")):
        text = open(path).read()
        kept = from_library(text, crates)
        comment = {".antt": "--", ".rt": "//", ".edit": "#"}.get(os.path.splitext(path)[1])
        turned = turn(text, new, kept, comment)
        if turned != text:
            open(path, "w").write(turned)
    return 0


if __name__ == "__main__":
    sys.exit(main())
