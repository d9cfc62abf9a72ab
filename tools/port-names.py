#!/usr/bin/env python3
"""Brings the repository's own definitions and lemmas to the spelling of today's Rattle: words in snake case, a dash only between a word of
the library and the name that it is about. Run once, at the top, right after /opt/rattle/port/port.py; docs/PORT.md says of which commit. With
--table it prints the renaming and writes nothing. Functions of src/, types, modules and strings keep their names."""
import collections
import glob
import re
import sys

TOKEN = re.compile(r"[^\s(){}.;,@\"«»:`#|/\[\]]+(?:-[^\s(){}.;,@\"«»:`#|/\[\]]+)*")
HEAD = re.compile(r"^((?:(?:pub|abbrev|unfoldable|data|record|ruleset) +)*)([^\s(){}.;,@\":]+)\s*(.*)$")
FIELD = re.compile(r"^  +((?:(?:pub|abbrev|unfoldable) +)*)([^\s(){}.;,@\":]+) : ")
# names that would fall together with another in the files that name them, and variables of statements, of which some fell under a name of another file
HERE = {
    "crates/aes/proofs/Expansion.antt": {"next_word": "next_word_lem"},
    "crates/challenge/proofs/ByForm.antt": {"given_by": "given_by_lem"},
    "crates/challenge/proofs/Known.antt": {"given_by": "given_by_lem"},
    "crates/challenge/proofs/Laws.antt": {"too_long": "too_long_lem"},
    "crates/keystreams/proofs/Laws.antt": {"is_key": "key_is"},
    "crates/promises/proofs/HostExamples.antt": {"seal-call": "sealing_call"},
    "crates/promises/proofs/NoInputTwice.antt": {"link-of": "link_at"},
    "crates/promises/proofs/SealingAgain.antt": {"seal-call": "sealing_call"},
    "crates/promises/specs/Challenge.antt": {"output-after": "output_after"},
    "crates/promises/specs/NoInputTwice.antt": {"prepared-key": "prepared_key"},
    "crates/promises/specs/WhereItEnds.antt": {
        name: name.lower().replace("-", "_")
        for name in ("one-payload one-before one-size one-after other-before other-size other_After other-later other-iov prepared-key".split())
    },
    "crates/stream/proofs/Answers.antt": {"too_long": "too_long_lem"},
}
# words of the library that a lemma may join to a name by a dash
LIBRARY = set("length get_or take drop set replicate map append cond bit_xor bit_and bit_or".split())


def antt():
    return sorted(glob.glob("crates/*/specs/**/*.antt", recursive=True) + glob.glob("crates/*/proofs/**/*.antt", recursive=True))


def declared():
    """Each name with its kinds: 'type', 'definition', 'lemma', 'field', or 'goal' for what answers a generated goal."""
    names = collections.defaultdict(set)
    for path in antt():
        for line in open(path):
            if line.startswith(("--", "use ", "mod ", "pub mod ", "pub use ", "module ")):
                continue
            if line[:1] not in (" ", "\t", "\n"):
                found = HEAD.match(line)
                if not found:
                    continue
                words, name, rest = found.groups()
                if "record" in words or "data" in words:
                    names[name].add("type")
                elif rest.startswith((": tie.", ": goal.")):
                    names[name].add("goal")
                elif rest.startswith(":"):
                    names[name].add("definition" if "abbrev" in words or "unfoldable" in words else "lemma")
            else:
                found = FIELD.match(line)
                if found:
                    words, name = found.groups()
                    names[name].add("definition" if "abbrev" in words or "unfoldable" in words else "field")
    return names


def snake(word):
    word = re.sub(r"([a-z0-9'])([A-Z])", r"\1_\2", word)
    word = re.sub(r"([A-Z])([A-Z][a-z])", r"\1_\2", word)
    return word.lower()


def spelled(name, functions):
    parts = [("get_or" if part == "getD" else part) for part in name.split("-")]
    parts = [part if part[:1].isupper() and len(part) > 1 and part[1].islower() and i == 0 else snake(part) for i, part in enumerate(parts)]
    out = parts[0]
    for before, after in zip(parts, parts[1:]):
        out += ("-" if before in LIBRARY and before == out and (after in functions or after.split("_")[0] in functions) else "_") + after
    return out


def table():
    names = declared()
    functions = LIBRARY | {snake(name) for name, kinds in names.items() if "definition" in kinds and "-" not in name and name != "is"}
    foreign = set()
    for path in antt():
        for line in open(path):
            found = re.match(r"^(?:pub )?use (?!Rattle\.(?:%s)\.)\S*?\.\{(.*)\}" % "|".join(crates()), line)
            if found:
                foreign |= {item.split(" as ")[-1].strip() for item in found.group(1).split(",")}
    renamed = {}
    for name, kinds in names.items():
        if "type" in kinds or not ("-" in name or re.search(r"^[a-z].*[A-Z]", name)) or not re.match(r"[a-z+μ]", name):
            continue
        if kinds == {"goal"}:
            continue
        renamed[name] = spelled(name, functions)
    # names that would fall together: the definition keeps the word, the lemma or field gets _lem
    taken = collections.defaultdict(list)
    for name in names:
        taken[renamed.get(name, name)].append(name)
    for new, olds in sorted(taken.items()):
        if any("definition" in names[old] for old in olds):
            for old in olds:
                if old in renamed and "definition" not in names[old]:
                    renamed[old] = new + "_lem"
    return {old: new for old, new in renamed.items() if old != new}, names, foreign


def crates():
    return [line.split(":")[0] for line in open("crates.txt") if ":" in line and not line.startswith("#")]


# what is no code: a comment, a string, a character
QUIET = re.compile(r"(?:^|(?<=[\s(){}.;,]))--[^\n]*|//[^\n]*|b?\"(?:[^\"\\\n]|\\.)*\"|b'(?:[^'\\]|\\.)'")


def turn(text, renamed):
    """The text with its names renamed; in a comment only those that no English word looks like, and in a string none."""
    spoken = {old: new for old, new in renamed.items() if re.search("[a-z][A-Z]", old)}

    def words(part, among):
        return TOKEN.sub(lambda found: among.get(found.group(0), found.group(0)), part)

    out, end = "", 0
    for quiet in QUIET.finditer(text):
        out += words(text[end : quiet.start()], renamed)
        said = quiet.group(0)
        if said.startswith(("--", "//")):
            said = re.sub(r"#([^\s(){}.;,@:`]+)", lambda found: "#" + renamed.get(found.group(1), found.group(1)), said)
            said = words(said, spoken)
        out += said
        end = quiet.end()
    return out + words(text[end:], renamed)


def main():
    renamed, names, foreign = table()
    if "--table" in sys.argv:
        for old, new in sorted(renamed.items()):
            print(old, new, *sorted(names[old]), "FOREIGN" if old in foreign else "", sep="\t")
        return
    for path in antt():
        text = open(path).read()
        here = renamed | HERE.get(path, {})
        # a name that this file brings in from a library is not ours
        for found in re.finditer(r"^(?:pub )?use (?!Rattle\.(?:%s)\.)\S*?\.\{(.*)\}" % "|".join(crates()), text, re.M):
            for item in found.group(1).split(","):
                here.pop(item.split(" as ")[-1].strip(), None)
        new = turn(text, here)
        if new != text:
            open(path, "w").write(new)
    for path in sorted(glob.glob("crates/*/src/**/*.rt", recursive=True)):
        text = open(path).read()
        new = turn(text, renamed)
        if new != text:
            open(path, "w").write(new)
    for path in sorted(glob.glob("crates/*/must-fail/*.edit")):
        text = open(path).read()
        new = "".join(turn(line, renamed) if line.startswith(("old:", "new:")) else line for line in text.splitlines(True))
        if new != text:
            open(path, "w").write(new)


if __name__ == "__main__":
    main()
