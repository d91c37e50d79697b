#!/usr/bin/env python3
"""Spells the repository's own definitions and lemmas in snake case, as the library spells its words.

usage: tools/respell.py [ROOT]

Run once, right after the toolchain's port.py. Turned are the names that the files of specs/ and proofs/ declare: as words of these files, in the
clauses and `ghost use` items of src/, in must-fail edits, and between backticks in comments and pages. Functions, types, fields of src/, strings,
inputs and outputs keep their names. Where two names would fall together, APART says what each becomes. A line 'meets:' names a file in which a name
comes to stand beside one that was so spelled before.
"""
import collections
import os
import re
import sys

WORD = r'[^\s(){}.;,@"«»]+'
DECLARED = re.compile(r"^ *((?:abbrev |unfoldable |pub |data |record )*)(%s)(?: \{[^{}\n]*\}| \([^()\n]*\))* :(?= |$)" % WORD)
WORD_IN_TICKS = r"[A-Za-z][\w'-]*"
COMMENT = re.compile(r"--[^\n]*")
# A lemma, or a field, whose name would fall together with that of the definition that it speaks of, gets this ending.
ENDING = "_is"
# The same for a name that is spelled so already.
APART = {"tables-of": "view_tables", "held-at": "held_at_is"}
# In one file alone: a lemma that would meet a definition.
IN_FILE = {
    "crates/night/proofs/Demand/Numbers.antt": {"last_entry": "last_entry_is"},
    "crates/night/proofs/View/Logs.antt": {"last_entry": "last_entry_is"},
    "crates/protocol/proofs/Object.antt": {"read_first": "read_first_is"},
}
# The definition whose name a clause now keeps for what a function returns, and the files that cite it.
RESULT = {"result": "result_of"}
CITES_RESULT = (
    "crates/model/specs/Block.antt",
    "crates/model/specs/Step.antt",
    "crates/block/src/lib.rt",
    "crates/block/proofs/result/Proof.antt",
    "crates/steady/proofs/BlockEnd.antt",
    "crates/steady/proofs/Values.antt",
    "crates/night/specs/Opened.antt",
    "crates/night/specs/Rules.antt",
    "crates/night/proofs/View/Rules.antt",
)
IN_FILE.update({path: RESULT for path in CITES_RESULT})
# What Rattle calls a call's facts, by the function's own name.
LABEL = re.compile(r"(?<=\.)([a-z][\w-]*-[\w-]+)(?=\.(?:ensures|requires|result|after|args)\b)")
RESERVED = set(
    "data record deriving module where use mod pub package open as unfoldable abbrev axiom unfold unfolding ruleset mutual infix infixl infixr "
    "elim let in do Type coe fcoe tcoe hcom com result requires ensures ghost".split()
)


def snake(name):
    head = re.sub(r"(?<=[a-z0-9])[A-Z]", lambda m: "_" + m[0].lower(), name)
    return head.replace("-", "_")


def texts(root, endings):
    for folder, dirs, files in os.walk(root):
        dirs[:] = sorted(d for d in dirs if d not in ("target", "out", ".git"))
        for f in sorted(files):
            if f.endswith(endings):
                yield os.path.join(folder, f)


def read(path):
    with open(path, encoding="utf-8") as f:
        return f.read()


def declared(root):
    names = collections.defaultdict(set)
    for path in texts(os.path.join(root, "crates"), ".antt"):
        for line in read(path).splitlines():
            m = DECLARED.match(line)
            if m and "--" not in m[2]:
                names[m[2]].add(path)
    return names


def table(names):
    rows = {}
    defined = {snake(name) for name in names if "-" not in name}
    for name in names:
        if re.fullmatch(r"P\d+(-\w+)?", name):
            rows[name] = snake("p" + name[1:])
        elif re.fullmatch(r"right-P\d+(-\w+)?", name):
            rows[name] = snake(name.replace("-P", "-p"))
        elif name[0].islower() and snake(name) != name and "-spec" not in name:
            rows[name] = APART.get(name, snake(name) + (ENDING if "-" in name and snake(name) in defined else ""))
    return rows


def turn_antt(text, rows):
    """The words outside comments and strings; between backticks in comments."""
    out, at = [], 0
    for m in re.finditer(r'"(?:[^"\\\n]|\\.)*"|--[^\n]*', text):
        out.append(turn_words(text[at : m.start()], rows))
        out.append(m[0] if m[0].startswith('"') else turn_ticks(m[0], rows))
        at = m.end()
    out.append(turn_words(text[at:], rows))
    return "".join(out)


def turn_words(text, rows):
    return re.sub(WORD, lambda m: rows.get(m[0], m[0]), text)


def turn_ticks(text, rows):
    """A span with a slash is a path or an edit's name."""
    return re.sub(r"`[^`/\n]*`", lambda m: turn_words(m[0].replace("`", " ` "), rows).replace(" ` ", "`"), text)


def turn_aliases(text):
    """The names that a file gives to modules by `use M as name`, unless the new one has another meaning there."""
    rows = {m: m.replace("-", "_") for m in re.findall(r"(?m)^use [^\s{]+ as ([a-z][\w-]*-[\w-]*)$", text)}
    was = words(text)
    return turn_antt(text, {old: new for old, new in rows.items() if new not in was})


# What may stand in a .rt file of antt: ghost items and clauses.
CLAUSE = re.compile(r"ghost use [^;]*;|(?:requires|ensures|ghost)\*?(?: \w+:?)? \{|#\[tactic\([^\]]*\]")


def turn_rt(text, rows):
    out, at = [], 0
    for m in CLAUSE.finditer(text):
        if m.start() < at:
            continue
        end = m.end()
        if text[m.start() : m.end()].endswith("{"):
            depth = 1
            while depth:
                depth += {"{": 1, "}": -1}.get(text[end], 0)
                end += 1
        out.append(re.sub(r"//[^\n]*", lambda c: turn_ticks(c[0], rows), text[at : m.start()]))
        out.append(turn_words(text[m.start() : end], rows))
        at = end
    out.append(re.sub(r"//[^\n]*", lambda c: turn_ticks(c[0], rows), text[at:]))
    return "".join(out)


def words(text):
    return set(re.findall(r'(?<![.\w-])%s' % WORD, COMMENT.sub("", text)))


def main():
    root = sys.argv[1] if len(sys.argv) > 1 else "."
    rows = table(declared(root))
    turned = collections.defaultdict(set)
    for old, new in rows.items():
        turned[new].add(old)
        if new in RESERVED:
            print(f"meets: {old} would be the word {new}")
    for new, olds in turned.items():
        if len(olds) > 1:
            print(f"meets: {' '.join(sorted(olds))} would all be {new}")
    for path in texts(os.path.join(root, "crates"), (".antt", ".rt", ".edit")):
        text = read(path)
        mine = dict(rows)
        mine.update(IN_FILE.get(os.path.relpath(path, root), {}))
        if path.endswith(".antt"):
            if path.endswith("/Proof.antt"):
                text = LABEL.sub(lambda m: m[0] if re.search(r"-\d+$", m[0]) else m[0].replace("-", "_"), text)
            # Two files cite it by its module, beside the protocol's own result.
            new = turn_aliases(turn_antt(text, mine)).replace(" block.result ", " block.result_of ")
            was = words(text)
            for w in sorted(was):
                if w in mine and mine[w] in was and IN_FILE.get(os.path.relpath(path, root), {}).get(mine[w]) is None:
                    print(f"meets: {os.path.relpath(path, root)}: {w} beside {mine[w]}")
        elif path.endswith(".rt"):
            new = turn_rt(text, mine)
        else:
            # An edit's texts are lines of src/ or of specs/: what is no clause is code, and has no such name.
            new = turn_words(text, {k: v for k, v in mine.items() if re.search(r"[A-Z-]", k)})
        if new != read(path):
            with open(path, "w", encoding="utf-8") as f:
                f.write(new)
    spelled = {rows.get(name, name) for name in declared(root)}
    for path in texts(root, ".md"):
        if os.path.relpath(path, root).startswith("nights"):
            continue
        text = read(path)
        new = turn_ticks(text, rows)
        # What port.py spelled anew has its new name there too.
        new = re.sub(
            r"`[^`/\n]*`",
            lambda t: re.sub(WORD_IN_TICKS, lambda m: snake(m[0]) if snake(m[0]) in spelled and m[0][0].islower() else m[0], t[0]),
            new,
        )
        if new != text:
            with open(path, "w", encoding="utf-8") as f:
                f.write(new)


if __name__ == "__main__":
    main()
