#!/usr/bin/env python3
"""Breaks the lines of the crates that have more than 120 characters: today's spelling made some of them longer.

usage: python3 tools/narrow.py [CRATE..]     at the top; all crates, if none is named

A `use` of many names becomes several of the same path. A comment goes on with its last words on the next line. Code is
broken before the outermost operator, or the outermost part in brackets, that leaves both parts short enough. What the
lines say stays as it is, word by word. `rt fmt` keeps all of it.
"""

import os
import re
import sys

WIDE = 120
USE = re.compile(r"^((?:pub |ghost )*use \S+\.\{)(.*)(\};?)$")
WORDS = re.compile(r"^( *)((?:unfolding )?[a-z_0-9]+(?: [a-z_0-9]+)*)$")
COMMENT = re.compile(r"^( *(?:--|//) )(.*)$")
# Of a dictionary in a comment: a name, two spaces or more, what it means.
ENTRY = re.compile(r"^( *-- +\S.*?\S {2,})\S")
# The operators before which a line may go on, the loosest first.
LOOSE = [" → ", " = ", " : ", " ↔ ", " × ", " ≡ ", " ∙ ", " ∷ ", " && ", " || "]
OPEN, CLOSE = "([{", ")]}"


def split_use(head, names, tail):
    lines, line = [], ""
    for name in names.split(", "):
        longer = f"{line}, {name}" if line else name
        if line and len(head + longer + tail) > WIDE:
            lines.append(head + line + tail)
            longer = name
        line = longer
    return lines + [head + line + tail]


def cut(line, least):
    """The place of the last blank by which a line may end."""
    return line.rindex(" ", least, WIDE + 1)


def depths(line):
    found, depth = [], 0
    for letter in line:
        depth -= letter in CLOSE
        found.append(depth)
        depth += letter in OPEN
    return found


def broken(line):
    """The two parts of a line of code."""
    text = line.lstrip()
    indent = len(line) - len(text)
    depth = depths(line)
    places, values = [], []
    for at in range(indent + 4, WIDE + 1):
        rest = line[at:]
        if indent + 6 + len(rest.strip()) > WIDE:
            continue
        rank = next((k for k, it in enumerate(LOOSE) if rest.startswith(it)), None)
        if rank is None and rest.startswith((" (", " {")):
            rank = len(LOOSE)
        if rest.startswith(" = ") and depth[at] == 0:
            values.append(at + 2)
        elif rank is not None and at >= indent + 20:
            # (after the sign that gives a type, and not before it)
            places.append((depth[at], rank, -at - 2 * rest.startswith(" : ")))
    places = [it for it in places if -it[2] <= WIDE]
    best = min(places, default=None)
    if best and (not values or best[0] == 0 and best[1] < len(LOOSE) and -best[2] > values[0]):
        at = -best[2]
    else:
        at = values[0] if values else cut(line, indent + 20)
    # A line that goes on with an operator is followed by one at the same place, what is in brackets within them.
    is_within = text.startswith("(") and depth[at] > 0
    more = 4 if is_within or not text.startswith(("→ ", "≡ ", "∷ ", "(")) else 0
    return line[:at].rstrip(), " " * (indent + more + 2 * text.startswith("let ")) + line[at:].strip()


def narrowed(lines):
    lines, done = list(lines), []
    while lines:
        line = lines.pop(0)
        if len(line) <= WIDE:
            done.append(line)
            continue
        use, words, comment = USE.match(line), WORDS.match(line), COMMENT.match(line)
        if use:
            done += split_use(*use.groups())
        elif comment or words:
            entry = ENTRY.match(line)
            prefix = comment[1] if comment else " " * (len(words[1]) or 4)
            if entry:
                prefix = line[: line.index("--") + 2] + " " * (len(entry[1]) - line.index("--") - 2)
            at = cut(line, len(prefix))
            done.append(line[:at])
            rest = line[at + 1 :]
            # The next line takes the words, where it goes on with the same.
            after = lines[0] if lines else ""
            plain = after.startswith(prefix) and after[len(prefix) : len(prefix) + 1].strip() and not ENTRY.match(after)
            plain = plain and (not comment or after != prefix.rstrip())
            if plain and (comment or WORDS.match(after)):
                lines[0] = prefix + rest + " " + after[len(prefix) :]
            else:
                lines.insert(0, prefix + rest)
        else:
            one, other = broken(line)
            done.append(one)
            lines.insert(0, other)
    return done


def main():
    for crate in sys.argv[1:] or sorted(os.listdir("crates")):
        for part in ("src", "specs", "proofs"):
            for folder, folders, names in os.walk(f"crates/{crate}/{part}"):
                for name in sorted(names):
                    path = f"{folder}/{name}"
                    if not name.endswith((".rt", ".antt")):
                        continue
                    with open(path, encoding="utf-8") as file:
                        text = file.read()
                    new = "\n".join(narrowed(text.split("\n")))
                    if new != text:
                        with open(path, "w", encoding="utf-8") as file:
                            file.write(new)
                        print(path)


main()
