#!/usr/bin/env python3
"""Checks docs/PROMISES.md against the tree: every name that it cites is there, every rule has a row, every edit is cited.

Run from anywhere: python3 tests/promises.py. Nothing but the standard library is used, and nothing is proved or built. Each stale item
is printed on a line of its own; the last line counts. The exit status is 0 only if there were rules and names, and none is stale.

What is read in docs/PROMISES.md, always between backticks:

    `crate/File name other`   declared in File.antt of the crate: under specs/ in the column "definition", under proofs/ in the column
                              "theorems", under either elsewhere; `Record.field` is a field of a record or a constructor of a type;
                              File may have its folder before it, as in `crate/Folder/File name`
    `crate label other`       in the column "edits", or in one of EDITS: crates/crate/must-fail/label.edit
    `crate::name`             a free function or a type in the crate's src/
    `crate::Type::name`       a function or a constant in an impl of the type

The first column, "rule", holds the numbers of docs/RULES.md. A table whose first column is "call" pairs each call with its definition: that
one has to be the whole of the call's `ensures`. The definition of a host's call has to be named by the statement about many hosts too.
"""

import re
import sys
from pathlib import Path

ROOT = Path(__file__).resolve().parent.parent
CRATES = ROOT / "crates"
PROMISES = ROOT / "docs" / "PROMISES.md"
RULES = ROOT / "docs" / "RULES.md"

LINK = CRATES / "uniqueness" / "specs" / "Link.antt"
EDITS = ("edits", "a wrong program", "code and definition alike")
GROUPS = "MTCONFSBKRUDALHE"  # groups of rules that have rows; P is for the program around the calls
RULE = re.compile(rf"\b[P{GROUPS}][1-9][0-9]*\b")
SPAN = re.compile(r"`([^`]+)`")
PLACE = re.compile(r"([a-z_]+)/((?:[A-Z]\w*/)*[A-Z]\w*)((?: \S+)+)")
CODE = re.compile(r"([a-z_]+)::(?:([A-Z]\w*)::)?(\w+)")
LABELS = re.compile(r"([a-z_]+)((?: [a-z0-9_]+)+)")
DECLARED = re.compile(r"\s*(?:(?:abbrev|unfoldable|pub) )*((?:[^\s(){}=]+ )+):(?:\s|$)")
TYPE = re.compile(r"\s*(?:pub )?(?:record|data) ([A-Za-z]\S*) ")
NOT_DECLARED = ("--", "let ", "use ", "λ", "(", "→")


class Names:
    """What one .antt file declares: its names, and for each record or data type the fields or constructors."""

    def __init__(self, path):
        self.names = set()
        self.parts = {}
        within, indent = None, 0
        for line in path.read_text(encoding="utf-8").splitlines():
            text = line.lstrip()
            if not text or text.startswith(NOT_DECLARED):
                continue
            depth = len(line) - len(text)
            if within and depth <= indent:
                within = None
            head = TYPE.match(line)
            if head:
                within, indent = head.group(1), depth
                self.names.add(within)
                self.parts.setdefault(within, set())
                continue
            found = DECLARED.match(line)
            if found:
                names = found.group(1).split()
                self.names.update(names)
                if within:
                    self.parts[within].update(names)

    def has(self, name):
        if name in self.names:
            return True
        owner, dot, part = name.partition(".")
        return bool(dot) and part in self.parts.get(owner, ())


class Source:
    """What the .rt files of a crate declare: free functions and types, and what stands in the impl of each type."""

    def __init__(self, folder):
        self.free = set()
        self.within = {}
        for path in sorted(folder.rglob("*.rt")):
            owner = None
            for line in path.read_text(encoding="utf-8").splitlines():
                if line and not line[0].isspace():
                    head = re.match(r"impl(?:<[^>]*>)? (\w+)", line)
                    owner = head.group(1) if head else None
                    top = re.match(r'(?:pub )?(?:extern "C" )?(?:fn|struct|enum|const) (\w+)', line)
                    if top:
                        self.free.add(top.group(1))
                elif owner:
                    item = re.match(r"\s+(?:pub(?:\(crate\))? )?(?:fn|const) (\w+)", line)
                    if item:
                        self.within.setdefault(owner, set()).add(item.group(1))

    def has(self, owner, name):
        return name in self.within.get(owner, ()) if owner else name in self.free


class Check:
    def __init__(self):
        self.stale = {}  # what is wrong, and the lines where
        self.files = {}
        self.sources = {}
        self.cited = set()
        self.edits = set()
        self.pairs = set()

    def wrong(self, line, what):
        self.stale.setdefault(what, []).append(line)

    def sources_of(self, crate):
        if crate not in self.sources:
            self.sources[crate] = Source(CRATES / crate / "src")
        return self.sources[crate]

    def declared(self, path):
        if path not in self.files:
            self.files[path] = Names(path)
        return self.files[path]

    def place(self, line, crate, file, names, folders):
        paths = [p for folder in folders for p in sorted((CRATES / crate / folder).rglob(f"{file}.antt"))]
        if not paths:
            self.wrong(line, f"no file {file}.antt in {' or '.join(f'crates/{crate}/{f}' for f in folders)}")
        for name in names:
            self.cited.add((crate, file, name))
            if paths and not any(self.declared(p).has(name) for p in paths):
                self.wrong(line, f"{crate}/{file} does not declare {name} (in {' or '.join(folders)})")

    def code(self, line, crate, owner, name):
        shown = "::".join(part for part in (crate, owner, name) if part)
        self.cited.add(shown)
        if not self.sources_of(crate).has(owner, name):
            self.wrong(line, f"no {shown} in crates/{crate}/src")

    def labels(self, line, crate, labels):
        for label in labels:
            self.edits.add((crate, label))
            if not (CRATES / crate / "must-fail" / f"{label}.edit").is_file():
                self.wrong(line, f"no edit {label} of {crate}")

    def span(self, line, column, text):
        """One text between backticks. Texts of no known form, such as file names, are left alone outside the four columns."""
        place, code, labels = PLACE.fullmatch(text), CODE.fullmatch(text), LABELS.fullmatch(text)
        crate = next((m.group(1) for m in (place, code, labels) if m), None)
        known = crate is not None and (CRATES / crate).is_dir()
        if place and known and column not in EDITS:
            folders = {"definition": ["specs"], "theorems": ["proofs"]}.get(column, ["specs", "proofs"])
            self.place(line, crate, place.group(2), place.group(3).split(), folders)
        elif code and known and column not in ("definition", "theorems", *EDITS):
            self.code(line, crate, code.group(2), code.group(3))
        elif labels and known and column in EDITS:
            self.labels(line, crate, labels.group(2).split())
        elif column in ("definition", "function", "theorems", *EDITS) or place or code:
            self.wrong(line, f"`{text}` is no citation for this place")

    def pair(self, line, call, definition):
        """A call, and the definition that its contract is an equation with; that of a host's call stands in the statement about many hosts."""
        code, function = call.split("::")
        meaning, file, name = re.split("[/ ]", definition)
        source = (CRATES / code / "src" / "lib.rt").read_text(encoding="utf-8")
        clause = r"(?:done )?\{\s*(?:done_after (?:host|lookup)\.new result out\.new|set_up_after result|started_after result out\.new|begun_after lookup\.new result out\.new)\s*≡ (\w+) "
        contract = re.search(rf"pub fn {function}\((?:(?!\npub fn ).)*?\n    ensures {clause}", source, re.S)
        used = re.search(rf"ghost use Rattle\.{meaning}\.specs\.{file}\.{{[^}}]*\b{name}(?: as (\w+))?[,}}]", source)
        if not contract or not used or contract.group(1) != (used.group(1) or name):
            self.wrong(line, f"the ensures of {call} is no equation with {definition}")
        link = LINK.read_text(encoding="utf-8")
        if meaning == "host" and not re.search(rf"use Rattle\.host\.specs\.{file}\.{{[^}}]*\b{name}\b", link):
            self.wrong(line, f"{LINK.name} does not name {definition}")
        self.pairs.add(call)


def cells(line):
    return [cell.strip() for cell in line.strip().strip("|").split("|")]


def main():
    check = Check()
    rules = set(re.findall(r"\*\*([A-Z][1-9][0-9]*)\.?\*\*", RULES.read_text(encoding="utf-8")))
    rows = set()
    header = []
    for at, line in enumerate(PROMISES.read_text(encoding="utf-8").splitlines(), 1):
        for rule in RULE.findall(SPAN.sub("", line)):
            if rule not in rules:
                check.wrong(at, f"no rule {rule} in RULES.md")
        if not line.startswith("|"):
            header = []
            for text in SPAN.findall(line):
                check.span(at, "", text)
        elif not header:
            header = cells(line)
        elif not set(line) <= set("|- :"):
            row = cells(line)
            if len(row) != len(header):
                check.wrong(at, f"{len(row)} cells under {len(header)} heads")
            if header[0] == "call":
                check.pair(at, *(SPAN.search(cell).group(1) for cell in row[:2]))
            for column, cell in zip(header, row):
                if column == "rule":
                    rows.update(RULE.findall(cell))
                    if not RULE.search(cell):
                        check.wrong(at, "a row without a rule")
                for text in SPAN.findall(cell):
                    check.span(at, column, text)

    due = {rule for rule in rules if rule[0] in GROUPS}
    for rule in sorted(due - rows, key=lambda r: (GROUPS.index(r[0]), int(r[1:]))):
        check.wrong(None, f"no row for rule {rule}")
    for path in sorted(CRATES.glob("*/must-fail/*.edit")):
        crate, label = path.parts[-3], path.stem
        if (crate, label) not in check.edits:
            check.wrong(None, f"edit {label} of {crate} is not cited")

    for what, lines in check.stale.items():
        at = ", ".join(str(line) for line in dict.fromkeys(lines) if line)
        print(f"stale: {what}" + (f" (docs/PROMISES.md, line {at})" if at else ""))
    print(f"promises: {len(due & rows)} of {len(due)} rules, {len(check.cited)} names, {len(check.edits)} edits, "
          f"{len(check.pairs)} calls, {len(check.stale)} stale")
    return 1 if check.stale or not due or not check.cited or not check.pairs else 0


if __name__ == "__main__":
    sys.exit(main())
