#!/usr/bin/env python3
"""Finds, in a checkout, what the points of docs/DESIGN-PASS.md look for.

usage: python3 tools/places.py POINT     at the top; POINT is 1 to 8

What it prints are hits, one a line. The page says which of them are places of the point, and which places no search
finds.
"""

import collections
import difflib
import glob
import itertools
import re
import subprocess
import sys

SOURCES = "crates/*/src/*.rt"
NUMBERED = (
    "find|first_recorded|digit_of|stretch|level|places_needed|bytes_needed|view_places|open|low_of|high_of|held_by|code"
    "|pair|pair_hours|check_flags|after_hour|held|flag_of|write_piece|answer"
)
CONVERTS = (
    "of_|to_|copy_|answer_in|number_of|place_of|low_of|high_of|inner_range|wide|size_of|bits_of|signed_of|number_from"
    r"|put|print_|residue_of|step\b|grams_of|byte_of|count_of|flag_of|length_of|held|numeral_of|places\b|power|start_of"
    "|digit_of"
)
COMPARES = (
    "lesser|greater|kept_of|at_most|count_on|hours_in|end_of|piece_end|hours_of|is_|allowed|touches|takes_left|bad_"
    "|names_start"
)
LINES = {
    # Own enums; a flag, or a number that is one; answers with a number that stands for none or for a kind.
    1: [
        r"^(pub )?enum ",
        r"^    (pub )?(negative|found|number|bad|times|places|length): |(good|after_minus|pair): bool",
        rf"fn ({NUMBERED})\b",
    ],
    3: [r"^\s*(while|loop)\b"],
    # Conversions by `as`; conversion, copying and printing; order and equality.
    4: [r" as (u8|u16|u32|u64|usize|i32|i64)\b", rf"\bfn ({CONVERTS})", rf"\bfn ({COMPARES})"],
    6: [
        r"\[(0|0u8|0i32|0u16); |\[(u8|i32|u16); |&mut [a-z_]+\[|&[a-z_]+\[[^]]*\.\.|\[\.\.[a-z]",
    ],
    7: [r"Towards|\bkind\b|pair: bool|hours < (4|8|16)|places < (4|8)|\bFn(Mut|Once)?\(|\bdyn\b|: fn\("],
}
KEYWORDS = set(
    "fn pub let mut if else match while for in return break struct enum const as self true false".split()
)


def without_comments(file):
    return re.sub(r"//[^\n]*", "", open(file).read())


def lines(patterns):
    for pattern in patterns:
        subprocess.run(["git", "grep", "-nP", pattern, "--", SOURCES], check=False)


def shape(word):
    if word in KEYWORDS or not re.match(r"\w", word):
        return word
    return "N" if word[0].isdigit() else "I"


def twins():
    """Functions of one shape, and pairs of nearly one, when names and numbers are taken away."""
    found = []
    for file in sorted(glob.glob(SOURCES)):
        text = without_comments(file)
        for name, head, body in re.findall(r"\bfn (\w+)((?:.|\n)*?)(?: |\n)\{\n((?:.|\n)*?)\n\}\n", text):
            code = re.split(r"\b(?:requires|ensures)\b", head)[0] + " { " + body
            words = [shape(word) for word in re.findall(r"\w+|[^\s\w]", code)]
            if len(words) > 18:
                found.append((file[7:].replace("/src", "") + ":" + name, words))
    families = collections.defaultdict(list)
    for name, words in found:
        families[" ".join(words)].append(name)
    for family in families.values():
        if len(family) > 1:
            print("same shape:", ", ".join(family))
    for place, (name, words) in enumerate(found):
        for other, more in found[:place]:
            if words == more or "sagivelume" in name + other:
                continue
            matcher = difflib.SequenceMatcher(None, words, more, autojunk=False)
            if matcher.quick_ratio() >= 0.93 and matcher.ratio() >= 0.93:
                print("near:", other, name)


def together():
    """Parameters that three functions or more have, and facts in three contracts or more."""
    groups, facts = collections.defaultdict(list), collections.defaultdict(list)
    signature = re.compile(
        r"\bfn (\w+)(?:<[^>]*>)?\(([^{}]*?)\)\s*(?:->[^{}]*?)?"
        r"((?:\s*(?:requires|ensures)[^{}]*\{[^{}]*\})*)\s*\{\n"
    )
    for file in sorted(glob.glob(SOURCES)):
        crate = file.split("/")[1]
        if crate == "sagivelume_c":
            continue
        for name, parameters, contract in signature.findall(without_comments(file)):
            names = sorted({p.split(":")[0].strip() for p in parameters.split(",") if ":" in p} - {"rt"})
            for size in range(2, len(names) + 1):
                for group in itertools.combinations(names, size):
                    groups[group].append(crate + ":" + name)
            for word, clause in re.findall(r"(requires|ensures)[^{}]*\{([^{}]*)\}", contract):
                for fact in re.split(r" × (?![^()]*\))", " ".join(clause.split())):
                    facts[word + " " + fact].append(crate + ":" + name)
    for group, users in sorted(groups.items(), key=lambda item: -len(item[1])):
        wider = any(set(group) < set(other) and users == others for other, others in groups.items())
        if len(users) > 2 and not wider:
            print("parameters", len(users), *group, "|", *users)
    for fact, users in sorted(facts.items(), key=lambda item: -len(item[1])):
        if len(users) > 2:
            print("fact", len(users), fact, "|", *users)


def proofs():
    """For each crate its files and lines of proofs, answers, invariants, lemmas, and lemmas that nothing cites."""
    tracked = ["git", "ls-files", "crates/*/proofs/*.antt", "crates/*/specs/*.antt", SOURCES]
    files = subprocess.run(tracked, capture_output=True, text=True, check=True).stdout.split()
    texts = {file: open(file).read() for file in files}
    cited = collections.Counter(
        word for text in texts.values() for word in re.findall(r"[A-Za-z_][\w'-]*", re.sub("--.*", "", text))
    )
    counts, uncited, statements = collections.defaultdict(lambda: [0] * 6), [], collections.defaultdict(list)
    definition = re.compile(r"^(?:pub )?(?:abbrev )?(?:pub )?([A-Za-z_][\w'-]*) :(.*(?:\n +.*)*)", re.M)
    for file, text in texts.items():
        if "/proofs/" not in file:
            continue
        crate = file.split("/")[1]
        row = counts[crate]
        row[0] += 1
        row[1] += text.count("\n")
        for name, statement in definition.findall(text):
            if re.search(r"\bgoal\.", statement):
                row[3 if file.endswith("Invariants.antt") else 2] += 1
            elif crate != "theorems":
                row[4] += 1
                own = len(re.findall(rf"(?m)^(?:pub )?(?:abbrev )?(?:pub )?{re.escape(name)}(?![\w'-])", text))
                if cited[name] <= own:
                    row[5] += 1
                    uncited.append(file + ":" + name)
                statements[" ".join(re.split(r"\n\S", statement)[0].split())].append(file + ":" + name)
    print("crate files lines answers invariants lemmas uncited")
    for crate in sorted(counts):
        print(crate, *counts[crate])
    print("sum", *map(sum, zip(*counts.values())))
    for name in uncited:
        print("uncited", name)
    for statement, names in statements.items():
        if len(names) > 1 and len(statement) > 9:
            print("same statement", *names)


def main():
    point = int(sys.argv[1])
    others = {2: twins, 5: together, 8: proofs}
    others.get(point, lambda: lines(LINES[point]))()


if __name__ == "__main__":
    main()
