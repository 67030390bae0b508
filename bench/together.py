#!/usr/bin/env python3
"""Tries many wrong bodies of one crate in one check each, for bench/wrong-bodies.

    bench/together.py CRATE EDIT..

CRATE is the folder of a crate in a copy of the repository, which is proved as it stands; its sources are edited there and put back. Each EDIT is a file in the form
of must-fail/. For each a line is written:

    refused EDIT: PLACE: WORDS     a goal of the edited function was refused, at this place
    alone EDIT: WHY                nothing is known of it: it is to be tried by itself

A function is proved from its own body and from the clauses of what it calls. So edits inside the bodies of different functions do not
change each other's goals, and one check tries them all. An edit counts as refused only where a goal of its own function is refused: one
of its source lines, or one that its own answers do not prove. A name that is gone, a limit of the prover, a type error, a goal of
another function or a lemma that fails says nothing here. An edit outside the bodies of functions is never tried together with others.
"""

import re
import subprocess
import sys
from collections import defaultdict
from pathlib import Path
from typing import NamedTuple

FUNCTION = re.compile(r"( *)(?:pub(?:\([a-z]+\))? )?(?:const |unsafe )*fn (\w+)")
IMPL = re.compile(r"( *)(?:unsafe )?(?:impl|trait)\b")
SOURCE = re.compile(r"(?:(?:note|error): )?(?:\./)?(src/\S+?\.rt):(\d+):\d+: ")
ANSWER = re.compile(r"(?:\./)?proofs/(\S+?)(?:/\w+)?\.antt:\d+:\d+: error: (`[^`]*`: )?(.*)")
VERDICT = re.compile(r"fn \w+::(\S+): (proved|no proof: expected answers|no proof|not proved)")
# Words of the check of a proof that names what the edit took away.
GONE = re.compile(r"has no field|is not in scope|has no `|was not admitted|is no name|operand is missing|expected the end|cannot continue")
# Words of a limit of the prover, at which it gives no verdict.
LIMIT = re.compile(r"antt ran out of |(outgrew the memory limit|stopped at the step limit) \(")


class Function(NamedTuple):
    """A function with a body: its file, its name, what it is a method of, and its lines, counted from 1; the body is from `body`."""

    file: str
    name: str
    of: str
    first: int
    body: int
    last: int

    def may_be(self, path):
        """Whether this path of proofs/ may be this function's: of a method its type (which may be of another module), else its module."""
        *owner, name = path.split("/")
        if name != self.name:
            return False
        if self.of:
            return bool(owner) and all(word in owner[-1] for word in self.of.split())
        module = Path(self.file).relative_to("src").with_suffix("").as_posix()
        return "/".join(owner) == ("" if module in ("lib", "main") else module)


class Edit(NamedTuple):
    """A wrong body: its file, the pairs of texts by path, and the functions that they are in the bodies of."""

    file: str
    pairs: list
    functions: frozenset


def functions_in(file, text):
    """The functions of a file in rt fmt's layout, where a function's lines are those up to the brace in its own column."""
    lines = text.split("\n")
    found, of, of_indent = [], "", None
    for at, line in enumerate(lines):
        if of_indent is not None and line == of_indent + "}":
            of, of_indent = "", None
        head = IMPL.match(line)
        if head and "{" in line:
            of_indent = head[1]
            generic = re.sub(r"<[^<>]*>", "", re.sub(r"<[^<>]*>", "", line[head.end() :]))
            of = " ".join(re.findall(r"[A-Z]\w*", generic.split(" where ")[0]))
        start = FUNCTION.match(line)
        if not start:
            continue
        indent = start[1]
        level = [n for n in range(at, len(lines)) if lines[n].startswith(indent) and lines[n][len(indent) : len(indent) + 1].strip()]
        body = next((n for n in level if lines[n].endswith("{")), None)
        last = next((n for n in level if lines[n] == indent + "}"), None)
        if body is not None and last is not None and body < last and not line.endswith(("}", ";")):
            found.append(Function(file, start[2], of, at + 1, body + 1, last + 1))
    return found


class Crate:
    """A crate in a copy of the repository, with its sources as they were."""

    def __init__(self, folder):
        self.folder = Path(folder)
        self.texts = {it.relative_to(folder).as_posix(): it.read_text() for it in sorted(self.folder.glob("src/**/*.rt"))}
        self.functions = {file: functions_in(file, text) for file, text in self.texts.items()}

    def functions_at(self, file, line):
        """The functions that a line stands in, the outermost first."""
        return [it for it in self.functions.get(file, []) if it.first <= line <= it.last]

    def read(self, file):
        """An edit, or why it cannot be tried together with others."""
        pairs, path, old = [], None, None
        for line in Path(file).read_text().split("\n"):
            word, _, rest = line.partition(": ") if ": " in line else (line.rstrip(":"), "", "")
            if word == "file":
                path = rest.strip()
            elif word == "old":
                old = rest
            elif word == "new":
                pairs.append((path, old, rest))
        within = set()
        for path, old, _ in pairs:
            text = self.texts.get(path, "")
            if not old or text.count(old) != 1:
                return f"what it takes away does not stand once in {path} as it is"
            line = text[: text.index(old)].count("\n") + 1
            around = self.functions_at(path, line)
            if len(around) != 1 or line <= around[0].body:
                return "it is not inside the body of one function"
            within.add(around[0])
        return Edit(file, pairs, frozenset(within)) if pairs else "it has no pair of texts"

    def write(self, edits):
        """Writes the sources with these edits; answers the edits that the earlier ones hide."""
        texts, hidden = dict(self.texts), []
        for edit in edits:
            if any(texts[path].count(old) != 1 for path, old, _ in edit.pairs):
                hidden.append(edit)
                continue
            for path, old, new in edit.pairs:
                texts[path] = texts[path].replace(old, new)
        for path, text in texts.items():
            (self.folder / path).write_text(text)
        return hidden

    def check(self):
        """The status and the lines of a check of the crate as it now stands."""
        ran = subprocess.run(["rt", "check"], cwd=self.folder, stdin=subprocess.DEVNULL, stdout=subprocess.PIPE, stderr=subprocess.STDOUT, errors="replace", text=True)
        return ran.returncode, ran.stdout.split("\n")


class Judged(NamedTuple):
    """What a check said: the refused goals of each function, those of other places, and the lines that stop it before the prover."""

    refused: dict
    elsewhere: list
    before: list


def judge(crate, edits, lines):
    """What the lines of a check of these edits say."""
    edited = {it for edit in edits for it in edit.functions}
    unproved = {found[1].replace("::", "/") for found in map(VERDICT.match, lines) if found and found[2] in ("no proof: expected answers", "not proved")}
    paths = {it: [path for path in unproved if it.may_be(path)] for it in edited}
    owner = {path[0]: it for it, path in paths.items() if len(path) == 1}
    refused, elsewhere, before = defaultdict(list), [], []
    for line in lines:
        source, answer = SOURCE.match(line), ANSWER.match(line)
        if "error[" in line or (source and ": error: " in line and "`" not in line):
            before.append(line)
        elif source and "it is not proved that" in line:
            around = crate.functions_at(source[1], int(source[2]))
            found = around[0] if len(around) == 1 else None
            if found not in edited:
                elsewhere.append(line)
            elif found in owner.values() and not LIMIT.search(line):
                refused[found].append(line)
        elif answer:
            if answer[1] not in owner:
                elsewhere.append(line)
            elif answer[2] and not GONE.search(line) and not LIMIT.search(line):
                refused[owner[answer[1]]].append(line)
        elif re.match(r"(?:struct|enum|impl) \S+: not proved(?!; it waits)", line):
            elsewhere.append(line)
    return Judged(refused, elsewhere, before)


def rounds_of(edits):
    """The edits in rounds, each of which has no two of one function."""
    rounds = []
    for edit in edits:
        free = next((it for it in rounds if all(not edit.functions & other.functions for other in it)), None)
        if free is None:
            rounds.append([edit])
        else:
            free.append(edit)
    return rounds


def try_together(crate, edits, said):
    """Tries these edits in one check; where that stops early, without those at fault, or in halves."""
    hidden = crate.write(edits)
    tried = [it for it in edits if it not in hidden]
    status, lines = crate.check()
    found = judge(crate, tried, lines)
    whole = status == 1 and "logic=not-proved" in lines and not found.before and not found.elsewhere
    if status == 0 or whole:
        for edit in tried:
            goal = next((line for it in edit.functions for line in found.refused.get(it, [])), None)
            said[edit.file] = f"refused {edit.file}: {goal[:160]}" if goal else f"alone {edit.file}: no goal of its function is refused"
    else:
        why = next(iter(found.before + found.elsewhere), f"its check ended with status {status}")
        at_fault = [it for it in tried if it.functions & functions_of(crate, found.before)] or (tried if len(tried) == 1 else [])
        for edit in at_fault:
            said[edit.file] = f"alone {edit.file}: {why[:160]}"
        rest = [it for it in tried if it not in at_fault]
        half = 0 if at_fault else len(rest) // 2
        for part in rest[:half], rest[half:]:
            if part:
                try_together(crate, part, said)
    if hidden:
        try_together(crate, hidden, said)


def functions_of(crate, lines):
    """The functions that lines of the check point to."""
    places = [found for found in map(SOURCE.match, lines) if found]
    return {it for found in places for it in crate.functions_at(found[1], int(found[2]))}


def main(folder, files):
    crate, said, edits = Crate(folder), {}, []
    for file in files:
        edit = crate.read(file)
        if isinstance(edit, str):
            said[file] = f"alone {file}: {edit}"
        else:
            edits.append(edit)
    try:
        for round_of in rounds_of(edits):
            try_together(crate, round_of, said)
    finally:
        crate.write([])
    for file in files:
        print(said[file])


if __name__ == "__main__":
    if len(sys.argv) < 3:
        sys.exit("usage: bench/together.py CRATE EDIT..")
    main(sys.argv[1], sys.argv[2:])
