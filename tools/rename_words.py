#!/usr/bin/env python3
"""Gives the definitions and lemmas of the crates their names in snake case. Run once, at the top, right after port.py.

A word that specs/ or proofs/ define is spelled in snake case, as the library's are: `dwordAt` is `dword_at`,
`number-below` is `number_below`. Types and modules, functions of src/, and names that Rattle makes keep theirs. What
port.py itself renamed is renamed here too where it doesn't look: in the must-fail edits and the documents.
"""
import glob
import re
import sys

# The words that port.py renamed, since the library has words that are spelled the same.
BY_PORT = """
action-spec add-at all-append all-back all-both all-map all-of answerIn answerOf any-spec at-last at-other blockAt
blocksFrom by-bytes by-entries by-name by-number by-parts by-size byteAt bytesAt bytesOf choose-spec claimOf clear-spec
copy-spec countOf each-all each-from each-same endOf entry-in entryOf fieldOf fill-spec find-spec first-byte first-holds
first-spec firstOf found-all found-type from-each from-front from-named from-one from-step fullOf givenOf go-typed
goes-on good-more has-room has-words headOf imageOf in-b in-block in-both in-end in-list in-order in-table inTable
inTurn isLast kindOf length-from length-runs lengths-differ lineOf lines-after linesFrom linesOf list-inside listFrom
listOf lowByte mark-spec moduleOf mul-at nameAt noSlot none-left not-null number-behind number-fits number-past
number-size numberOf of-number offsetOf one-apart one-block one-byte one-line one-more one-name one-spec one-width oneOf
orElse placeOf put-is put-on put-same put-spec read-spec record-is refused-as run-end run-on runFrom same-block
same-entries same-length same-name same-outcome same-self same-shape same-spec same-test same-tests single-step
size-below size-is size-of sized-on slot-cases slotOf small-spec step-end step-is step-past step-spec stepOf stepsOf
stops-first stored-is stored-some table-none tableAt tableOf tablesOf taken-none targetOf textOf typedOf valuesOf walkOf
went-on widthOf with-it without-all word-same wordAt write-spec written-same writtenOf same-parts
""".split()

MODIFIERS = r"(?:(?:abbrev|unfoldable|irreducible|pub|ruleset) )*"
DECLARED = re.compile(r"^" + MODIFIERS + r"(?!data |record |use |mod |unfolding )([^\s:(){},;.]+)\s*(?:[({][^:]*[)}]\s*)*:(?!=)", re.M)
MEMBER = re.compile(r"^ +(?:pub )?([a-z][\w'-]*) :", re.M)
GOAL = re.compile(r"^(?:pub )?([^\s:]+) : \(?(?:tie|goal)\.", re.M)
NAME = r"[\w'₀-₉-]"


# Where two words would fall together.
APART = {"entryIn": "entry_of_bundle", "is-sound": "sound_when_walked", "hasWords": "has_kind_and_id"}


def snake(name):
    if name in APART:
        return APART[name]
    return re.sub(r"(?<=[a-z0-9])([A-Z])", lambda m: "_" + m.group(1).lower(), name).replace("-", "_")


def is_word(name):
    """A word in the older spelling: in lower camel case, or with a dash. A Type has a capital at its start."""
    return name[0].islower() and snake(name) != name


def files(*patterns):
    found = []
    for p in patterns:
        found += glob.glob("crates/*/" + p, recursive=True)
    return sorted(p for p in found if "/out/" not in p)


def own_words():
    words = set()
    for p in files("specs/**/*.antt", "proofs/**/*.antt"):
        text = open(p, encoding="utf-8").read()
        goals = set(GOAL.findall(text))
        found = set(DECLARED.findall(text))
        if "/specs/" in p or not p.endswith("/Proof.antt"):
            found |= set(MEMBER.findall(text))
        words |= {w for w in found if w not in goals and not w.startswith(("invariant-", "decreases-", "ghost-"))}
    return {w for w in words if is_word(w)}


def renamer(words):
    inner = "|".join(sorted(map(re.escape, words), key=len, reverse=True))
    # Not a part of a longer name, and not a name that Rattle makes, which stands in a module.
    pattern = re.compile(rf"(?<!tie\.)(?<!goal\.)(?<!{NAME})(?:{inner})(?!{NAME})")
    return lambda text: pattern.sub(lambda m: snake(m.group()), text)


def in_code(text, mark, rename, rename_camel):
    """Renames in code; in comments, where a dash may join words of English, only what stands in `..` or leads a list."""
    lines = []
    for line in text.split("\n"):
        at = line.find(mark)
        if at < 0:
            lines.append(rename(line))
            continue
        comment = rename_camel(line[at:])
        comment = re.sub(r"`[^`]*`", lambda m: rename(m.group()), comment)
        comment = re.sub(rf"^({re.escape(mark)} {{4,}})({NAME}+)(?=  |$)", lambda m: m.group(1) + rename(m.group(2)), comment)
        lines.append(rename(line[:at]) + comment)
    return "\n".join(lines)


def fallen_together(path, before, after, words):
    """Names of one file that were two and are one now."""
    old = set(re.findall(rf"{NAME}+", before))
    was = {}
    for w in old:
        new = snake(w) if w in words else w
        was.setdefault(new, set()).add(w)
    return [f"{path}: {sorted(v)}" for v in was.values() if len(v) > 1]


def main():
    own = own_words()
    print(f"{len(own)} words of the crates")
    every = own | {w for w in BY_PORT if is_word(w)}
    rename, rename_all = renamer(own), renamer(every)
    camel = renamer({w for w in own if "-" not in w})
    camel_all = renamer({w for w in every if "-" not in w})
    together = []
    for p in files("specs/**/*.antt", "proofs/**/*.antt", "src/**/*.rt"):
        before = open(p, encoding="utf-8").read()
        after = in_code(before, "//" if p.endswith(".rt") else "--", rename, camel)
        together += fallen_together(p, before, after, own)
        if after != before:
            open(p, "w", encoding="utf-8").write(after)
    for p in files("must-fail/*.edit"):
        before = open(p, encoding="utf-8").read()
        after = "\n".join(line if line.startswith(("#", "file:")) else rename_all(line) for line in before.split("\n"))
        if after != before:
            open(p, "w", encoding="utf-8").write(after)
    for p in sorted(glob.glob("docs/*.md")):
        before = open(p, encoding="utf-8").read()
        after = re.sub(r"`[^`\n]*`", lambda m: m.group() if ".edit" in m.group() else rename_all(m.group()), before)
        after = camel_all(after)
        if after != before:
            open(p, "w", encoding="utf-8").write(after)
    print("\n".join(together))
    return 0


if __name__ == "__main__":
    sys.exit(main())
