#!/usr/bin/env python3
"""Counts what has to be read to believe a claim: reading.py [MODULE.WORD..]

For each word of a contract, as go_sgf.specs.Spelling.Spells, it follows the words that its
definition cites, and prints how many definitions there are in all, how many lines they have, and
the files that have them, with the lines in each. Without a word it does so for the claims of
proofs.md. Definitions of the kit, as those of lists, and the types of the sources aren't counted.
"""

import re
import sys
from pathlib import Path

CRATES = Path(__file__).resolve().parent.parent / "crates"

CLAIMS = [
    ("area", "go_board.specs.Reaching.area"),
    ("what a play leaves", "go_board.specs.Reaching.moved"),
    ("legal move", "go_game.specs.Standings.IsLegal"),
    ("choice", "go_game.specs.Choices.IsChoice"),
    ("whole state", "go_game.specs.Whole.whole_of"),
    ("chain tables", "go_chains.specs.Sound.IsKept"),
    ("canonical text", "go_sgf.specs.Spelling.canonical"),
    ("a record is spelled", "go_sgf.specs.Spelling.Spells"),
    ("a record is refused", "go_sgf.specs.Refusals.IsRefusal"),
    ("a record's game", "go_record.specs.Games.IsGameOf"),
    ("verdict", "go_record.specs.Verdicts.IsVerdict"),
    ("tidy", "goref_tools.specs.Tidying.Tidies"),
    ("judge", "goref_tools.specs.Judging.Judges"),
    ("one answer", "goref_session.specs.Answered.Answered"),
    ("whole runs", "goref.specs.Conversation.Converses"),
    ("the program's status", "goref_program.specs.Status.FollowsWords"),
]

HEAD = re.compile(
    r"^(\s*)(?:(?:abbrev|unfoldable|opaque)\s+)?(?:pub\s+)?(?:(?:record|data)\s+)?([^\s:(){}]+)\s*(?:[:({]|$)")
USE = re.compile(r"^(?:pub\s+)?use\s+(Rattle\.\S+?)\.\{([^}]*)\}")
WORD = re.compile(r"[^\s(){},;.:λ→×=]+")


class Module:
    """The definitions of a file: by name the numbers of their lines, and what the file imports."""

    def __init__(self, path):
        self.lines = path.read_text().splitlines()
        self.path = path
        self.imports = {}
        self.definitions = {}
        name = None
        for number, line in enumerate(self.lines):
            use = USE.match(line)
            if use:
                for word in (w.strip() for w in use.group(2).split(",")):
                    self.imports[word.split(" as ")[-1]] = (use.group(1), word.split(" as ")[0])
                continue
            if not line.strip() or line.lstrip().startswith("--") or line.startswith("use "):
                continue
            if re.match(r"^(pub )?mod(ule)? ", line):
                name = None
                continue
            head = HEAD.match(line)
            begins = head and re.match(r"^\s{0,2}(abbrev|unfoldable|opaque|pub|record|data)\b", line) and not re.match(r"^\s+pub \S+ :", line)
            plain = head and not head.group(1) and (" : " in line)
            if begins or plain:
                name = head.group(2)
            if name is not None:
                self.definitions.setdefault(name, []).append(number)

    def place(self):
        """The crate of the file, and its path there."""
        crate, *path = self.path.relative_to(CRATES).with_suffix("").parts
        return crate, ".".join(path)

    def origin(self, word):
        """The crate, the file and the name of an imported word."""
        place, name = self.imports[word]
        parts = place.split(".")
        return parts[1], ".".join(parts[2:]), name

    def cited(self, name):
        text = "\n".join(self.lines[number] for number in self.definitions[name])
        found = set(WORD.findall(text))
        for word in list(self.definitions) + list(self.imports):
            if "◌" in word and all(part in text for part in word.split("◌") if part):
                found.add(word)
        return found


MODULES = {}


def module(crate, path):
    key = (crate, path)
    if key not in MODULES:
        file = CRATES / crate / (path.replace(".", "/") + ".antt")
        MODULES[key] = Module(file) if file.exists() else handed_on(crate, path)
    return MODULES[key]


def handed_on(crate, path):
    """The file of another crate's words that a crate hands on under its own name."""
    library = CRATES / crate / "specs/Lib.antt"
    if not library.exists():
        return None
    for line in library.read_text().splitlines():
        use = re.match(r"^pub use Rattle\.(\w+)\.(specs\.\w+)$", line)
        if use and use.group(2) == path:
            return module(use.group(1), use.group(2))
    return None


def closure(crate, path, word):
    """All definitions that one stands on, itself among them."""
    seen, waiting = set(), [(crate, path, word)]
    while waiting:
        at = waiting.pop()
        here = module(at[0], at[1])
        if here is None:
            continue
        at = (*here.place(), at[2])
        if at in seen:
            continue
        if at[2] in here.imports:
            waiting.append(here.origin(at[2]))
            continue
        if at[2] not in here.definitions:
            continue
        seen.add(at)
        for cited in here.cited(at[2]):
            if cited in here.definitions:
                waiting.append((at[0], at[1], cited))
            elif cited in here.imports:
                waiting.append(here.origin(cited))
    return seen


def report(claim, word):
    if word.count(".") < 2:
        sys.exit(f"{word}: a word is a crate, a module and a name, as go_sgf.specs.Spelling.Spells")
    crate, rest = word.split(".", 1)
    path, name = rest.rsplit(".", 1)
    found = closure(crate, path, name)
    if not found:
        sys.exit(f"{word}: there is no such definition")
    files = {}
    for at in found:
        files[at[:2]] = files.get(at[:2], 0) + len(module(*at[:2]).definitions[at[2]])
    print(f"{claim}: {len(found)} definitions, {sum(files.values())} lines")
    for (crate, path), lines in sorted(files.items()):
        print(f"    {lines:5} {crate}/{path.replace('.', '/')}.antt")


def main():
    claims = [(word, word) for word in sys.argv[1:]] or CLAIMS
    for claim, word in claims:
        report(claim, word)


if __name__ == "__main__":
    main()
