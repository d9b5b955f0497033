#!/usr/bin/env python3
"""Counts the places of a checkout that are written in older forms, by the eight points of docs/DESIGN-PASS.md.

usage: design_pass.py [-v | -t] [-p POINT] [ROOT]

  ROOT      the top of a checkout (the folder that this script's folder stands in, unless it is named)
  -v        print each place as file:line: text; [reason] marks one that has a reason for staying in a comment beside it
  -t        print the places as a table in Markdown, those of one kind in one file in one line
  -p POINT  only this point (1 to 8) or kind (1a, 3b, ..)

Points 1 to 7 read crates/*/src/*.rt, point 8 reads crates/*/proofs/**/*.antt. Everything here is a rule over the text: comments
and the insides of strings are blanked, items are found by a keyword and matched brackets, and the rest is regular expressions.
So the script finds shapes, not meanings. Each rule stands in one function below, under the words that it prints.
"""
import collections
import difflib
import glob
import os
import re
import signal
import sys

INTEGER = r"(?:u8|u16|u32|u64|u128|usize|i8|i16|i32|i64|isize)"
OPEN, CLOSE = "([{", ")]}"
KEYWORDS = set("as break const continue else enum false fn for if impl in let loop match mod mut pub ref return self Self struct "
               "true use while where dyn move u8 u16 u32 u64 usize bool".split())

# A comment that says why a place stays has one of these phrases. It stands right above the place or above its function.
REASON = re.compile(r"plainer|[Tt]ried:|[Nn]o heap|[Ff]ixed memory|C interface|may not change|README (names|gives)|"
                    r"[Nn]o (Option|Result|enum|vector)|stays a number|this promises|A loop, as in")


# ---- reading the sources ----------------------------------------------------------------------------------------------------

def blanked(text):
    """The text with comments and the insides of string and character literals turned into spaces, line breaks kept."""
    out, i = list(text), 0
    rule = re.compile(r'//[^\n]*|"(?:\\.|[^"\\])*"|\'(?:\\.[^\']*|[^\'\\])\'')
    while m := rule.search(text, i):
        a, e = m.span()
        if text[a] in "\"'":
            a, e = a + 1, e - 1
        for k in range(a, e):
            if out[k] != "\n":
                out[k] = " "
        i = m.end()
    return "".join(out)


def closing(code, at):
    """The place of the bracket that closes the one at a place."""
    depth = 0
    for k in range(at, len(code)):
        if code[k] in OPEN:
            depth += 1
        elif code[k] in CLOSE:
            depth -= 1
            if depth == 0:
                return k
    return len(code) - 1


def split(text, angles=False):
    """The parts of a list, cut at the commas that stand in no bracket."""
    parts, depth, start = [], 0, 0
    for k, c in enumerate(text):
        if c in OPEN or (angles and c == "<"):
            depth += 1
        elif c in CLOSE or (angles and c == ">" and text[k - 1] not in "-="):
            depth -= 1
        elif c == "," and depth == 0:
            parts.append(text[start:k])
            start = k + 1
    parts.append(text[start:])
    return [p.strip() for p in parts if p.strip()]


def line_of(text, at):
    return text.count("\n", 0, at) + 1


class File:
    def __init__(self, root, path):
        self.path = os.path.relpath(path, root)
        self.crate = self.path.split(os.sep)[1]
        with open(path, encoding="utf-8") as f:
            self.text = f.read()
        self.lines = self.text.split("\n")
        self.code = blanked(self.text)
        self.functions = list(functions_in(self))
        self.types = list(types_in(self))

    def function_at(self, at):
        for f in self.functions:
            if f.start <= at <= f.end:
                return f
        return None


class Function:
    """name, params [(name, type)], result, clauses [(word, text)], and where it stands: start, body, end are offsets in file.text."""


class Type:
    """word (struct or enum), name, parts: of a struct [(field, type)], of an enum [(variant, data or "")], start, end."""


def functions_in(file):
    code = file.code
    for m in re.finditer(r"\bfn\s+(\w+)\s*(?:<[^(]*?>)?\s*\(", code):
        f = Function()
        if "#[test]" in code[code.rfind("}", 0, m.start()) + 1:m.start()]:
            continue
        f.file, f.name, f.start = file, m[1], m.start()
        stop = closing(code, m.end() - 1)
        f.params = []
        for p in split(code[m.end():stop], angles=True):
            name, colon, kind = p.partition(":")
            f.params.append((re.sub(r"^mut\s+", "", name.strip()), " ".join(kind.split()) if colon else "Self"))
        at = stop + 1
        while at < len(code) and code[at] not in "{;" and not re.compile(r"\b(?:requires|ensures|where)\b").match(code, at):
            at = closing(code, at) + 1 if code[at] in "([" else at + 1
        f.result = " ".join(code[stop + 1:at].replace("->", "").split())
        f.clauses = []
        clause = re.compile(r"[^{};]*?\b(requires|ensures)\b\s*\w*\s*\{")
        while c := clause.match(code, at):
            e = closing(code, c.end() - 1)
            f.clauses.append((c[1], " ".join(code[c.end():e].split())))
            at = e + 1
        f.body = code.find("{", at)
        if f.body < 0 or (";" in code[at:f.body]):
            f.body = f.end = at
        else:
            f.end = closing(code, f.body)
        f.code = code[f.body:f.end + 1]
        f.text = file.text[f.body:f.end + 1]
        yield f


def types_in(file):
    code = file.code
    for m in re.finditer(r"\b(struct|enum)\s+(\w+)[^{;(]*\{", code):
        t = Type()
        t.file, t.word, t.name, t.start, t.end = file, m[1], m[2], m.start(), closing(code, m.end() - 1)
        above = code[code.rfind("\n\n", 0, t.start) + 1:t.start]
        t.derives = re.findall(r"\w+", " ".join(re.findall(r"derive\(([^)]*)\)", above)))
        t.is_c = "repr(C)" in above
        t.parts = []
        for p in split(re.sub(r"#\[[^\]]*\]", "", code[m.end():t.end]), angles=t.word == "struct"):
            if p.startswith("ghost"):
                continue
            p = re.sub(r"^pub(\([^)]*\))?\s+", "", p)
            if t.word == "struct":
                name, _, kind = p.partition(":")
                t.parts.append((name.strip(), " ".join(kind.split())))
            else:
                v = re.match(r"(\w+)\s*(.*)", p, re.S)
                t.parts.append((v[1], " ".join(v[2].split())))
        yield t


def arms(code, at):
    """The arms of the match whose { stands at a place: pairs of pattern and body."""
    text, out, i = code[at + 1:closing(code, at)], [], 0
    while (k := text.find("=>", i)) >= 0:
        pattern, j = text[i:k].strip(" \n,"), k + 2
        while j < len(text) and text[j].isspace():
            j += 1
        if j < len(text) and text[j] == "{":
            e = closing(text, j) + 1
        else:
            e, depth = j, 0
            while e < len(text) and not (text[e] == "," and depth == 0):
                depth += (text[e] in OPEN) - (text[e] in CLOSE)
                e += 1
        out.append((" ".join(pattern.split()), " ".join(text[j:e].split())))
        i = e + 1
    return out


def matches_in(f):
    """Each match of a function: its offset in the file, what it looks at, and its arms."""
    for m in re.finditer(r"\bmatch\s+([^{]+?)\s*\{", f.code):
        yield f.body + m.start(), m[1], arms(f.code, m.end() - 1)


def loops_in(f):
    """Each while and loop of a function: its offset in the file, its test ("" for loop), and its body."""
    for m in re.finditer(r"\b(?:while\s+([^{]+?)|(loop))\s*\{", f.code):
        yield f.body + m.start(), m[1] or "", f.code[m.end():closing(f.code, m.end() - 1)]


def tokens(code):
    return re.findall(r"\w+|\"[^\"]*\"|'\w+|->|=>|::|[<>=!]=|&&|\|\||\.\.=?|[^\w\s]", code)


# ---- a place, and the kinds of places ---------------------------------------------------------------------------------------

class Place:
    """Where it is, what is said of it, and short: the few words that the table has for it."""
    def __init__(self, file, at, text, function=None, short=None, others=()):
        self.file, self.line, self.text = file, line_of(file.text, at), " ".join(text.split())
        self.short = short or re.sub(r"^(?:fn|struct|enum) ", "", re.split(r"[:({,]| ->| \{", self.text)[0]).strip()
        self.own, self.others = self.short, others
        self.reason = self.has_reason(at, function or file.function_at(at))

    def has_reason(self, at, function):
        rows = {self.line}
        if function:
            rows.add(line_of(self.file.text, function.start))
        for row in rows:
            said, k = [self.file.lines[row - 1].partition("//")[2]], row - 2
            while k >= 0 and re.match(r"\s*(//|#)", self.file.lines[k]):
                said.insert(0, self.file.lines[k].strip().lstrip("/").strip())
                k -= 1
            if REASON.search(" ".join(said)):
                return True
        return False


KINDS = []


def kind(number, words):
    """Registers a rule: a function from the files to the places that it finds."""
    def keep(rule):
        KINDS.append((number, words, rule))
        return rule
    return keep


def all_types(files, word=None):
    return [t for f in files for t in f.types if word is None or t.word == word]


def all_functions(files):
    return [f for file in files for f in file.functions]


def place_of(item, text, short=None, others=()):
    """The place of a function or a type; others are the ones that it is a twin of."""
    return Place(item.file, item.start, text, item if isinstance(item, Function) else None, short or item.name, others)


# ---- 1: own Option and Result, flags, numbers -------------------------------------------------------------------------------

def variants(t):
    return " | ".join(v + (" " + d if d.startswith("{") else d) for v, d in t.parts)


def is_error(t):
    """Whether an enum is an error of its own: it is printed, or is an Error."""
    return re.search(r"\b(Error|Display) for %s\b" % t.name, t.file.code)


@kind("1a", "enums with the shape of Option: two variants, one of them without data")
def own_option(files):
    return [place_of(t, "enum %s { %s }" % (t.name, variants(t))) for t in all_types(files, "enum")
            if len(t.parts) == 2 and sorted(bool(d) for _, d in t.parts) == [False, True] and not is_error(t)]


@kind("1b", "enums with the shape of Result: two variants with data, one of them for what went wrong")
def own_result(files):
    return [place_of(t, "enum %s { %s }" % (t.name, variants(t))) for t in all_types(files, "enum")
            if len(t.parts) == 2 and all(d for _, d in t.parts) and not is_error(t)
            and any(re.match("Bad|Wrong|Stopped|Refused|Failed|Err|Broken|Missing", v) for v, _ in t.parts)]


@kind("1c", "enums of three or more variants, one of which says that there is none, or a refusal")
def refused_inside(files):
    out = []
    for t in all_types(files, "enum"):
        bad = [v for v, d in t.parts if v in ("Refused", "Bad", "Wrong", "Unknown", "Nothing", "Invalid") or (v in ("End", "None") and not d)]
        if len(t.parts) > 2 and bad and not is_error(t):
            out.append(place_of(t, "enum %s: %s beside %d others" % (t.name, ", ".join(bad), len(t.parts) - len(bad))))
    return out


# Flags that are values of the protocol, each true or false of every message or answer.
OF_A_MESSAGE = {"response", "conflict", "truncated", "tentative", "cut"}


@kind("1d", "structs with a flag that says whether the fields beside it count")
def flags(files):
    return [place_of(t, "struct %s: %s beside %d fields%s" % (t.name, n, len(t.parts) - 1, " (repr(C))" if t.is_c else ""), t.name + "." + n)
            for t in all_types(files, "struct") for n, k in t.parts if k == "bool" and n not in OF_A_MESSAGE and len(t.parts) > 1]


@kind("1e", "functions whose number 0, or count of all, can stand for none")
def number_for_none(files):
    out = []
    for f in all_functions(files):
        if not re.fullmatch(INTEGER, f.result):
            continue
        bad = re.search(r"return 0;|\{ 0 \}|=> 0,|[^\w=]\s*\b0\s*\}$|(?:=>|return|[;}])\s*\w+::COUNT\b", " ".join(f.code.split()))
        if bad:
            out.append(place_of(f, "fn %s -> %s: %s" % (f.name, f.result, bad[0].strip(" };") or "0")))
    return out


KIND_FIELD = re.compile(r"kinds?|states?|phase|what|refusal|why|family|opcode|rcode|status")


@kind("1f", "struct fields that hold a kind, a state or a refusal as a number")
def numbered_fields(files):
    return [place_of(t, "struct %s: %s: %s%s" % (t.name, n, k, " (repr(C))" if t.is_c else ""), t.name + "." + n) for t in all_types(files, "struct")
            for n, k in t.parts if KIND_FIELD.fullmatch(n) and re.fullmatch(r"\[?%s(;.*\])?" % INTEGER, k)]


@kind("1g", "parameters that hand a kind, a state or a refusal along as a number")
def numbered_parameters(files):
    return [place_of(f, "fn %s(%s: %s)" % (f.name, n, k), "%s(%s)" % (f.name, n)) for f in all_functions(files)
            for n, k in f.params if KIND_FIELD.fullmatch(n) and re.fullmatch(INTEGER, k)]


@kind("1h", "exits that pass a refusal or a none on by hand, where ? would do")
def by_hand(files):
    rule = re.compile(r"if !?\w+\.(?:refused|good|bad) \{"
                      r"|let [\w:]+\([^()]*\) = [^;{]* else \{\s*return [^;}]*?(?:Bad|None|Nothing|Wrong|Short|Err\([a-z]\w*\)|refuse\w*)\b[^;}]*;?\s*\}"
                      r"|let [\w:]+\([^()]*\) = (\w+) else \{\s*return \1;?\s*\}"
                      r"|if let [\w:]*(?:Refused|Bad|Err)\((\w+)\) = [^{]* \{\s*return [^;}]*\(\2\)"
                      r"|(?:Bad|None|Nothing|Wrong|Err\(\w+\)) => (?:\{\s*)?return [^,;]*(?:Bad|None|Nothing|Wrong|Err)\b")
    return [Place(f.file, f.body + m.start(), f.name + ": " + m[0], f) for f in all_functions(files) for m in rule.finditer(f.code)]


@kind("1i", "values whose fields are all zero, false or empty, that stand for none")
def zeroes(files):
    out, nothing = [], r"(\w+: )?(0|false|\[\w+; [^\]]*\]|\w+::(Off|Ended))"
    for f in all_functions(files):
        for m in re.finditer(r"\b([A-Z]\w*) \{", f.code):
            fields = split(f.code[m.end():closing(f.code, m.end() - 1)])
            if len(fields) >= 2 and all(re.fullmatch(nothing, p) for p in fields):
                out.append(Place(f.file, f.body + m.start(), "%s: %s of zeroes" % (f.name, m[1]), f, "%s (%s)" % (f.name, m[1])))
    return out


@kind("1j", "refusals that are filled in beside a flag which says that there is none")
def beside_no(files):
    return [Place(f.file, f.body + m.start(), "%s: %s" % (f.name, m[0]), f) for f in all_functions(files)
            for m in re.finditer(r"\brefused: false,\s*\w+: [\w:]+", f.code)]


@kind("1k", "constants that number the kinds of something: three or more of one impl, from 0 up")
def numbering(files):
    out = []
    for file in files:
        for m in re.finditer(r"\bimpl (\w+) \{", file.code):
            numbers = [int(n) for n in re.findall(r"\bconst \w+: u\d+ = (\d+);", file.code[m.end():closing(file.code, m.end() - 1)])]
            if len(numbers) >= 3 and numbers == list(range(len(numbers))):
                out.append(Place(file, m.start(), "impl %s: %d numbers" % (m[1], len(numbers)), short="%s (%d)" % (m[1], len(numbers))))
    return out


# ---- 2: twins ---------------------------------------------------------------------------------------------------------------

def renamed(words):
    """Tokens with every name and literal replaced by the number of its first use: equal for texts that differ in names alone."""
    seen = {}
    return tuple(w if w in KEYWORDS or not re.match(r"[\w\"']", w) else "#%d" % seen.setdefault(w, len(seen)) for w in words)


# Methods that a trait names: that two types have one is no hint to a twin.
OF_A_TRAIT = set("next from try_from fmt eq ne cmp partial_cmp default clone drop deref as_ref size_hint from_str into index".split())


def in_groups(keyed, least):
    groups = collections.defaultdict(list)
    for key, item in keyed:
        groups[key].append(item)
    return [g for g in groups.values() if len(g) >= least]


def listed(items):
    """Functions or types by crate: names: same_name, fold; octets: part."""
    crates = collections.OrderedDict()
    for i in items:
        crates.setdefault(i.file.crate, collections.Counter())[i.name] += 1
    return "; ".join("%s: %s" % (c, ", ".join(n if k == 1 else "%s (%d)" % (n, k) for n, k in names.items())) for c, names in crates.items())


def as_group(items, words):
    return [place_of(i, "%s %s: of the %d %s" % (words, i.name, len(items), listed(items)), others=[g for g in items if g is not i]) for i in items]


def same_functions(files):
    """Groups of functions that differ in names, types and literals alone: of 25 tokens at least, or of 8 and one name."""
    keyed = []
    for f in all_functions(files):
        words = tokens(" ".join(k for _, k in f.params) + " " + f.result + f.code)
        if len(words) >= 25:
            keyed.append(((renamed(words), None), f))
        elif len(words) >= 8 and f.name not in OF_A_TRAIT:
            keyed.append(((renamed(words), f.name), f))
    return in_groups(keyed, 2)


@kind("2a", "functions that are the same but for names, types and literals")
def twins(files):
    return [p for g in same_functions(files) for p in as_group(g, "fn")]


NEAR = {}


def near_pairs(files):
    """Pairs of functions whose bodies agree in nine tokens of ten, names aside, and have 30 of them; those of one name are a pair if
    they agree in four of five and have 15. With the pairs the share that agrees: those of one name from 0.6 on are kept too."""
    if id(files) in NEAR:
        return NEAR[id(files)]
    known = {id(f): k for k, g in enumerate(same_functions(files)) for f in g}
    rows = []
    for f in all_functions(files):
        words = [w if w in KEYWORDS or not re.match(r"[\w\"']", w) else "x" for w in tokens(f.code)]
        if len(words) >= 15:
            rows.append((f, words))
    pairs = []
    for i, (f, a) in enumerate(rows):
        for g, b in rows[i + 1:]:
            one = f.name == g.name and f.name not in OF_A_TRAIT
            least = 0.6 if one else 0.9
            if not one and min(len(a), len(b)) < 30:
                continue
            if id(f) in known and known[id(f)] == known.get(id(g)) or 2 * min(len(a), len(b)) < least * (len(a) + len(b)):
                continue
            m = difflib.SequenceMatcher(None, a, b, autojunk=False)
            if m.quick_ratio() >= least and m.ratio() >= least:
                pairs.append((f, g, m.ratio() >= (0.8 if one else 0.9)))
    NEAR[id(files)] = pairs
    return pairs


def by_pairs(pairs, words):
    out = collections.OrderedDict()
    for f, g in pairs:
        for a, b in ((f, g), (g, f)):
            out.setdefault((a.file.path, a.start), (a, []))[1].append(b)
    return [place_of(f, "fn %s: %s %s" % (f.name, words, listed(gs)), others=gs) for _, (f, gs) in sorted(out.items())]


@kind("2b", "functions that are nearly the same (nine tokens of ten, names aside; four of five if they have one name)")
def near_twins(files):
    return by_pairs([(f, g) for f, g, near in near_pairs(files) if near], "near")


@kind("2c", "stretches of 30 tokens or more that stand to the letter in two functions or more, those of 2a and 2b aside")
def same_stretches(files):
    size, seen = 30, {}
    near = {frozenset((id(f), id(g))) for f, g, is_near in near_pairs(files) if is_near}
    near |= {frozenset((id(f), id(h))) for g in same_functions(files) for f in g for h in g}
    for f in all_functions(files):
        found = [(m[0], m.start()) for m in re.finditer(r"\w+|[^\w\s]", f.code)]
        for i in range(len(found) - size + 1):
            seen.setdefault(tuple(w for w, _ in found[i:i + size]), []).append((f, found[i][1], i))
    out, last = [], {}
    for words, places in sorted(seen.items(), key=lambda s: (s[1][0][0].file.path, s[1][0][0].start, s[1][0][2])):
        for f, at, i in places:
            others = [g for g, _, _ in places if g is not f and frozenset((id(f), id(g))) not in near]
            if not others:
                continue
            if id(f) not in last or last[id(f)] < i - 1:
                text = " ".join(f.code[at:at + 60].split())
                out.append(Place(f.file, f.body + at, "fn %s, as in %s: %s .." % (f.name, listed(others), text), f, f.name, others))
            last[id(f)] = max(i, last.get(id(f), i))
    return out


@kind("2d", "types that have half of their fields or variants in common (two at least), or one name in two places")
def type_twins(files):
    def alike(t, u):
        a, b = {n for n, _ in t.parts}, {n for n, _ in u.parts}
        return t.word == u.word and len(a & b) >= 2 and 2 * len(a & b) >= len(a | b)
    out = []
    for t in all_types(files):
        same = [u for u in all_types(files) if u is not t and alike(t, u)]
        called = [u for u in all_types(files) if u is not t and u.name == t.name and u not in same]
        if same or called:
            text = "%s %s" % (t.word, t.name)
            text += ": alike " + listed(same) if same else ""
            text += ": a name also in " + ", ".join(u.file.crate for u in called) if called else ""
            out.append(place_of(t, text, others=same + called))
    return out


@kind("2e", "functions of one name that agree in three tokens of five, those of 2a and 2b aside")
def one_name(files):
    return by_pairs([(f, g) for f, g, near in near_pairs(files) if not near], "of one name, and like")


# ---- 3: loops counted by hand -----------------------------------------------------------------------------------------------

def loop_kind(test, body):
    """3a an index up by 1, 3b a count down by 1, 3c another while, 3d a loop."""
    if not test:
        return "3d"
    down = re.fullmatch(r"0 < (\w+)|(\w+) > 0|(\w+) != 0", test)
    if down:
        return "3b"
    if test.startswith("let ") and ".next()" in test:
        return "an iterator's"
    up = re.match(r"(\w+) <=? ", test)
    if up and re.search(r"\b%s = %s \+ 1;|\b%s \+= 1;" % (up[1], up[1], up[1]), body):
        return "3a"
    return "3c"


def loops(which):
    def rule(files):
        return [Place(f.file, at, "%s: %s" % (f.name, "while " + test if test else "loop"), f) for f in all_functions(files)
                for at, test, body in loops_in(f) if loop_kind(test, body) == which]
    return rule


kind("3a", "while loops that count an index up by 1")(loops("3a"))
kind("3b", "while loops that count down to 0")(loops("3b"))
kind("3c", "other while loops: an offset moved by hand")(loops("3c"))
kind("3d", "loop { .. } with a place moved by hand")(loops("3d"))


@kind("3e", "arrays written out by hand: each of four or more indices taken in a line of its own")
def unrolled(files):
    out = []
    for f in all_functions(files):
        lines = [l for l in f.code.split("\n") if re.search(r"^\s*let \w+ = .*[\[,( ]\d+[\]),]", l)]
        if len(lines) >= 4 and re.search(r"\[\w+(, \w+){3,},?\]", f.code):
            out.append(place_of(f, "fn %s: %d lines" % (f.name, len(lines))))
    return out


def found(pattern):
    """The places where the code of a function has a pattern."""
    return lambda files: [Place(f.file, f.body + m.start(), "%s: %s" % (f.name, m[0]), f) for f in all_functions(files)
                          for m in re.finditer(pattern, f.code)]


kind("3f", "assignments written x = x + n, where x += n would do")(found(r"(?<![\w.])([\w.]+) = \1 [-+*/] [^;,]*[;,]"))


# ---- 4: equality, order, copies, conversions, printing ------------------------------------------------------------------------

@kind("4a", "functions that compare two values: named same_.., below_.., or three fields and more against others")
def compared(files):
    return [place_of(f, "fn %s(%s)" % (f.name, ", ".join("%s: %s" % p for p in f.params))) for f in all_functions(files)
            if f.result == "bool" and (re.match(r"(is_)?(same|below|above|equal|less)(_|$)", f.name)
                                       or len(re.findall(r"if [\w.]+ != [\w.:]+ \{\s*return false", f.code)) >= 2)]


@kind("4b", "a match or an if let whose arms are true and false alone, where matches! would do")
def true_or_false(files):
    out = []
    for f in all_functions(files):
        for at, subject, pairs in matches_in(f):
            if {b for _, b in pairs} == {"true", "false"}:
                out.append(Place(f.file, at, "%s: match %s" % (f.name, subject), f))
        for m in re.finditer(r"if (let [^{]*?) \{\s*(?:true|false)\s*\} else \{\s*(?:true|false)\s*\}", f.code):
            out.append(Place(f.file, f.body + m.start(), "%s: if %s" % (f.name, m[1]), f))
    return out


@kind("4c", "if .. { true } else { false } and its likes, with a bool in one branch or both")
def if_bool(files):
    rule = re.compile(r"if (?!let)([^{;]*?) \{\s*([^{};]*?)\s*\} else \{\s*([^{};]*?)\s*\}")
    return [Place(f.file, f.body + m.start(), "%s: %s" % (f.name, m[0]), f) for f in all_functions(files) for m in rule.finditer(f.code)
            if f.result == "bool" and {m[2], m[3]} & {"true", "false"}]


@kind("4d", "if .. { return true; } or false before a bool result, where && and || would do")
def early_bool(files):
    rule = re.compile(r"if (?!let)[^{;]*? \{\s*return (?:true|false);\s*\}")
    out = []
    for f in all_functions(files):
        inside = [(at - f.body, closing(f.code, f.code.find("{", at - f.body))) for at, _, _ in loops_in(f)]
        out += [Place(f.file, f.body + m.start(), "%s: %s" % (f.name, m[0]), f) for m in rule.finditer(f.code)
                if f.result == "bool" and not any(a <= m.start() <= e for a, e in inside)]
    return out


@kind("4e", "struct values with three or more fields copied one by one from another value")
def copied(files):
    out = []
    for f in all_functions(files):
        for m in re.finditer(r"\b([A-Z]\w*) \{", f.code):
            fields = [re.match(r"(\w+): (\w+)\.\w+$", p) for p in split(f.code[m.end():closing(f.code, m.end() - 1)])]
            sources = collections.Counter(x[2] for x in fields if x)
            if f.name not in ("from", "try_from") and sources and sources.most_common(1)[0][1] >= 3:
                source, n = sources.most_common(1)[0]
                out.append(Place(f.file, f.body + m.start(), "%s: %s with %d fields of %s" % (f.name, m[1], n, source), f))
    return out


kind("4f", "fields taken out into a variable before they are used (let f = x.f;)")(found(r"let (?:mut )?\w+ = \w+(?:\.\w+)+;"))


@kind("4g", "fields written as name: name, where the name alone would do")
def longhand(files):
    out = []
    for f in all_functions(files):
        out += [Place(f.file, f.body + m.start(), "%s: %s" % (f.name, m[0].strip(" ,{")), f)
                for m in re.finditer(r"(?<=[{,\s])(\w+): \1(?=\s*[,}])", f.code)]
    return out


PATH = r"(?:\w+::)*[A-Z]\w*::[A-Z][a-z]\w*"
CONSTANT = r"(?:\d+|(?:\w+::)*[A-Z]\w*::[A-Z][A-Z_0-9]*)"


@kind("4h", "a match that turns an enum into numbers or numbers into an enum")
def numbered(files):
    out = []
    for f in all_functions(files):
        for at, subject, pairs in matches_in(f):
            to = sum(bool(re.match(PATH + r"\b", p) and re.match(r"%s$|\w+\(%s\b|\w+ \{ \w+: %s\b" % (CONSTANT, CONSTANT, CONSTANT), b)) for p, b in pairs)
            back = sum(bool(re.fullmatch(CONSTANT, p) and re.match(PATH + r"\b", b)) for p, b in pairs)
            if (to >= 2 or back >= 2) and f.name not in ("from", "try_from"):
                out.append(Place(f.file, at, "%s: match %s, %d arms" % (f.name, subject, len(pairs)), f))
    return out


@kind("4i", "functions of one value that turn it into another type, where From or TryFrom would do")
def converted(files):
    own = {t.name for t in all_types(files)}
    last = lambda k: re.sub(r"^.*::", "", k)  # noqa: E731
    return [place_of(f, "fn %s(%s) -> %s" % (f.name, f.params[0][1], f.result)) for f in all_functions(files)
            if len(f.params) == 1 and last(f.result) in own and last(f.params[0][1]) in own | {"u8", "u16"}
            and last(f.params[0][1]) != last(f.result) and not re.match(r"(from|try_from|refuse)(_|$)", f.name)]


@kind("4j", "printing by hand: digits, and words for the variants of an enum or piece after piece")
def printed(files):
    out = []
    programs = {f.crate for f in files if f.path.endswith("main.rt")}
    for f in all_functions(files):
        if f.name == "main" or f.name == "fmt":
            continue
        strings = re.findall(r'"(?:\\.|[^"\\])*"', f.text)
        words = [w for w in strings if re.search(r"[A-Za-z=]", w) and "\\x" not in w]
        if re.search(r"digit|hex|spell|decimal|put_number|put_field", f.name) or (f.name in ("text", "number") and f.file.crate in programs):
            out.append(place_of(f, "fn %s" % f.name))
        elif len(words) >= 2 or (words and re.search(r"\b(put|text|write_all)\(", f.code)):
            out.append(place_of(f, "fn %s: %d words" % (f.name, len(words))))
    return out


@kind("4k", "words put together from octets, or taken apart, by * 256 and / 256")
def octet_sums(files):
    rule = re.compile(r"\* (?:256|65536|16777216|4294967296)\b|[/%] 256\b")
    return [place_of(f, "fn %s: %s" % (f.name, ", ".join(rule.findall(f.code)))) for f in all_functions(files) if rule.search(f.code)]


@kind("4l", "bits taken by / and % 2 or % 16, where & and >> would do")
def bits(files):
    return [place_of(f, "fn %s: %d times" % (f.name, len(re.findall(r"% (?:2 ==|16\b)", f.code)))) for f in all_functions(files)
            if f.name not in ("hex_digit", "spell") and re.search(r"% (?:2 ==|16\b)", f.code)]


@kind("4m", "the lesser of two numbers, or a letter's fold, by an if")
def lesser(files):
    rule = re.compile(r"if (\w+) < ([\w:]+) \{\s*\1\s*\} else \{\s*\2\s*\}|if \w+ <= 90 \{[^}]*\} else \{[^}]*\}")
    return [Place(f.file, f.body + m.start(), "%s: %s" % (f.name, m[0]), f) for f in all_functions(files) for m in rule.finditer(f.code)]


@kind("4n", "types that derive no equality and no Debug")
def bare(files):
    return [place_of(t, "%s %s%s" % (t.word, t.name, " (repr(C))" if t.is_c else "")) for t in all_types(files)
            if not {"PartialEq", "Debug"} & set(t.derives)]


@kind("4o", "an if that stands alone in an if or an else, where && or else if would do")
def nested(files):
    out = []
    for f in all_functions(files):
        for m in re.finditer(r"(?:\bif (?!let)[^{};]*|\belse) \{\s*(?=if (?!let))", f.code):
            outer = closing(f.code, f.code.rfind("{", 0, m.end()))
            at = closing(f.code, f.code.find("{", m.end())) + 1
            while e := re.compile(r"\s*else(?: if [^{]*)? \{").match(f.code, at):
                at = closing(f.code, e.end() - 1) + 1
            if not f.code[at:outer].strip():
                out.append(Place(f.file, f.body + m.start(), "%s: %s if .." % (f.name, m[0]), f))
    return out


# ---- 5: facts and parameters that travel together -----------------------------------------------------------------------------

@kind("5a", "functions of more than six parameters")
def many(files):
    return [place_of(f, "fn %s: %d (%s)" % (f.name, len(f.params), ", ".join(n for n, _ in f.params)), "%s (%d)" % (f.name, len(f.params)))
            for f in all_functions(files) if len(f.params) > 6]


@kind("5b", "groups of three or more parameters that stand together in three or more functions (the greatest ones)")
def groups(files):
    rows = [(f, frozenset(f.params)) for f in all_functions(files) if len(f.params) >= 3]
    sets = {a & b for i, (_, a) in enumerate(rows) for _, b in rows[:i] if len(a & b) >= 3}
    while more := {a & b for a in sets for b in sets if len(a & b) >= 3} - sets:
        sets |= more
    often = {s: [f for f, p in rows if s <= p] for s in sets}
    often = {s: fs for s, fs in often.items() if len(fs) >= 3}
    greatest = [s for s in often if not any(s < t for t in often)]
    out = []
    for s in sorted(greatest, key=lambda s: (-len(s), often[s][0].file.path, often[s][0].start)):
        fs = often[s]
        order = [n for n, k in fs[0].params if (n, k) in s]
        text = "(%s) in %d: %s" % (", ".join(order), len(fs), listed(fs))
        out.append(place_of(fs[0], text, text))
    return out


def facts_of(f):
    """The facts of a function's clauses, with each parameter's name replaced by its type: time ≤ latest is u64 ≤ latest."""
    types = {n: re.sub(r"^&(?:'\w+ )?(?:mut )?", "", k) for n, k in f.params if n.isidentifier()}
    for word, text in f.clauses:
        for part in re.split(r"×|→", text):
            fact = part.strip()
            while fact.startswith("(") and closing(fact, 0) == len(fact) - 1:
                fact = fact[1:-1].strip()
            if "≡" in fact and word == "ensures" and re.match(r"result(\.now|\.new)? ≡|\w+ result ≡|\w+\.new ≡", fact):
                continue                    # the function's own equation
            if fact.startswith("OnErr "):
                continue                    # that a refusal changes nothing, which each call says of itself
            if re.search(r"[≡≤<]", fact):
                yield re.sub(r"(?<![\w.])(\w+)(?!\w)", lambda m: types.get(m[1], m[1]), fact)


@kind("5c", "facts that stand in the contracts of three or more functions (a parameter's name aside)")
def facts(files):
    held = collections.OrderedDict()
    for f in all_functions(files):
        for fact in dict.fromkeys(facts_of(f)):
            held.setdefault(fact, []).append(f)
    said = lambda fact, fs: "%s, in %d: %s" % (fact, len(fs), listed(fs))  # noqa: E731
    return [place_of(fs[0], said(fact, fs), said(fact, fs)) for fact, fs in held.items() if len(fs) >= 3]


# ---- 6: buffers, arrays, offsets ----------------------------------------------------------------------------------------------

LENGTH = re.compile(r"len|used|count|names|n|size|done|left")


@kind("6a", "parallel arrays: two or more of one length beside one another, in a struct or in parameters")
def parallel(files):
    out = []
    for item, parts in [(t, t.parts) for t in all_types(files, "struct")] + [(f, f.params) for f in all_functions(files)]:
        lengths = collections.Counter(m[1] for _, k in parts if (m := re.search(r"\[%s; *([\w:]+)\]" % INTEGER, k)))
        if lengths and lengths.most_common(1)[0][1] >= 2:
            out.append(place_of(item, "%s: %d of length %s" % ((item.name,) + lengths.most_common(1)[0][::-1])))
    return out


@kind("6b", "an array with a length or count beside it in a struct")
def counted_arrays(files):
    return [place_of(t, "struct %s: %s, with %s%s" % (t.name, ", ".join(arrays), lengths[0], " (repr(C))" if t.is_c else ""))
            for t in all_types(files, "struct")
            if (arrays := [n for n, k in t.parts if k.startswith("[")]) and (lengths := [n for n, k in t.parts if LENGTH.fullmatch(n) and k == "usize"])]


@kind("6c", "functions that take a slice or an array and, beside it, how much of it counts")
def counted_slices(files):
    out = []
    for f in all_functions(files):
        arrays = any(re.search(r"\[.*;", k) for _, k in f.params)
        lengths = [n for n, k in f.params if k == "usize" and (n in ("len", "used") or arrays and LENGTH.fullmatch(n))]
        if lengths and any("[" in k for _, k in f.params):
            out.append(place_of(f, "fn %s: %s" % (f.name, lengths[0])))
    return out


@kind("6d", "functions that write into a buffer at an offset and give the offset after")
def cursors(files):
    return [place_of(f, "fn %s(%s)" % (f.name, ", ".join(n for n, _ in f.params))) for f in all_functions(files)
            if f.result == "usize" and any(k == "&mut [u8]" and after == ("at", "usize") for (_, k), after in zip(f.params, f.params[1:]))]


@kind("6e", "structs that hold offsets into octets that stand elsewhere")
def offsets(files):
    return [place_of(t, "struct %s: %s%s" % (t.name, ", ".join(found), " (repr(C))" if t.is_c else "")) for t in all_types(files, "struct")
            if (found := [n for n, k in t.parts if re.fullmatch(r"at|starts?|ends?|next|records|run", n) and re.match(r"\[?(usize|u16)", k)])]


@kind("6f", "functions that take a value with offsets and, beside it, the octets that they point into")
def lent_beside(files):
    held = {t.name for t in all_types(files, "struct") if any(re.fullmatch(r"starts?|ends?|at|next", n) for n, _ in t.parts)}
    out = []
    for f in all_functions(files):
        inside = next((m for m in re.finditer(r"\bimpl(?:<[^>]*>)? (\w+)(?:<[^>]*>)? \{", f.file.code) if m.end() <= f.start <= closing(f.file.code, m.end() - 1)), None)
        kinds = [re.sub(r"^&?('\w+ )?(mut )?(.*::)?|<.*", "", k) if k != "Self" else (inside[1] if inside else "") for _, k in f.params]
        found = [k for k in kinds if k in held]
        if found and any(k.endswith("[u8]") and "mut" not in k for _, k in f.params):
            out.append(place_of(f, "fn %s: %s" % (f.name, ", ".join(found))))
    return out


@kind("6g", "fixed arrays of zeroes in programs, where a Vec serves")
def program_arrays(files):
    programs = {f.crate for f in files if f.path.endswith("main.rt")}
    return [Place(file, m.start(), m[0], short=m[1]) for file in files if file.crate in programs
            for m in re.finditer(r"let mut (\w+) = \[0(?:u8)?; [^;]*;", file.code)]


@kind("6h", "arrays and slices searched by a hand-counted loop that returns what it finds")
def searched(files):
    return [Place(f.file, at, "%s: while %s" % (f.name, test), f) for f in all_functions(files) for at, test, body in loops_in(f)
            if loop_kind(test, body) in ("3a", "3b") and re.search(r"return (?:true|i|k|[\w:]+\((?:i|k)\));", body) and not f.name.startswith("below")]


# ---- 7: switches and tables of functions --------------------------------------------------------------------------------------

@kind("7a", "function pointers and tables of functions")
def pointers(files):
    return [Place(file, m.start(), file.lines[line_of(file.code, m.start()) - 1]) for file in files for m in re.finditer(r"\bfn\s*\(", file.code)]


@kind("7b", "a match that chooses which of two or more functions to run")
def switches(files):
    named, out = {f.name for f in all_functions(files)}, []
    for f in all_functions(files):
        for at, subject, pairs in matches_in(f):
            if any(a <= at <= closing(f.file.code, f.file.code.find("{", a)) for a, _, _ in loops_in(f)):
                continue                    # a loop's own turns
            called = []
            for _, body in pairs:
                # What an arm runs: the call that it ends with, or the last whose result it names.
                steps = [p.strip() for p in body.strip("{} ").split(";")]
                m = re.match(r"(?:return )?(?:\w+(?:::|\.))*([a-z]\w*)\(", steps[-1])
                m = m or next(filter(None, (re.match(r"let \w+ = (?:\w+(?:::|\.))*([a-z]\w*)\(", p) for p in steps[::-1])), None)
                if m and m[1] in named and m[1] not in called:
                    called.append(m[1])
            if len(called) >= 2:
                out.append(Place(f.file, at, "%s: match %s runs %s" % (f.name, subject, ", ".join(called)), f, "%s (%s)" % (f.name, ", ".join(called))))
    return out


def declared(files, file, name, path):
    """The enum of a name that a file means: by the path before it, the file's own, one that it imports, or one of its crate."""
    found = [t for t in all_types(files, "enum") if t.name == name]
    crates = [path] if path else [t.file.crate for t in found if t.file is file]
    m = re.search(r"\buse (\w+)(?:::\w+)*::(?:\{[^}]*\b%s\b|%s\b)" % (name, name), file.code)
    crates += [m[1]] if m else []
    for crate in crates + [file.crate]:
        crate = file.crate if crate not in {t.file.crate for t in found} else crate
        for t in found:
            if t.file.crate == crate:
                return t
    return None


@kind("7c", "enums that three or more functions take apart by match or if let")
def often_matched(files):
    users = collections.OrderedDict()
    for f in all_functions(files):
        patterns = [p for _, _, pairs in matches_in(f) for p, _ in pairs] + re.findall(r"\blet ([\w:]+)", f.code)
        for p in patterns:
            m = re.match(r"(?:(\w+)::)?([A-Z]\w*)::[A-Z]", p)
            t = m and declared(files, f.file, m[2], m[1])
            if t and f not in users.setdefault((t.file.path, t.start), (t, []))[1]:
                users[(t.file.path, t.start)][1].append(f)
    said = lambda t, fs: "%s in %d: %s" % (t.name, len(fs), listed(fs))  # noqa: E731
    return [place_of(t, "enum " + said(t, fs), said(t, fs)) for _, (t, fs) in sorted(users.items()) if len(fs) >= 3]


@kind("7d", "calls that choose what runs by a literal true or false among their arguments")
def literal_flags(files):
    rule = re.compile(r"\b(?!unwrap_or|map_or|fold)([a-z]\w*)\((?:[^();]*, )?(?:true|false)(?:, [^;]*?)?\)")
    return [Place(f.file, f.body + m.start(), "%s: %s" % (f.name, m[0]), f) for f in all_functions(files) for m in rule.finditer(f.code)]


# ---- 8: proofs ------------------------------------------------------------------------------------------------------------------

class Proof:
    """A file under proofs/: name is Answers.antt, Invariants.antt or a lemma file."""
    def __init__(self, root, path):
        self.path, self.name = os.path.relpath(path, root), os.path.basename(path)
        self.crate = self.path.split(os.sep)[1]
        with open(path, encoding="utf-8") as f:
            self.lines = f.read().rstrip("\n").split("\n")
        self.kind = self.name[:-5] if self.name in ("Answers.antt", "Invariants.antt") else "lemmas"


# The older library, and what it is called in the imports.
OLDER = ("mathlib.Core", "lib.", "native.", "borrow.", "Prim.Native")


def proof_counts(root, verbose, as_table=False):
    """Point 8 is printed by itself: counts of files and lines, not places in src."""
    proofs = [Proof(root, p) for p in sorted(glob.glob(os.path.join(root, "crates/*/proofs/**/*.antt"), recursive=True))]
    row = lambda key, words, n, extra="": print("  %-3s %-96s %5s%s" % (key, words, n, extra))  # noqa: E731
    used = lambda p, lib: any(re.match(r"\s*(pub )?use %s" % re.escape(lib), l) for l in p.lines)  # noqa: E731
    if as_table:
        print("| crate | Answers: files, lines | Invariants: files, lines | lemmas: files, lines | import the older library |\n|---|---|---|---|---|")
        for crate in sorted({p.crate for p in proofs}):
            here = [p for p in proofs if p.crate == crate]
            cells = [[p for p in here if p.kind == k] for k in ("Answers", "Invariants", "lemmas")]
            print("| %s | %s | %d of %d |" % (crate, " | ".join("%d, %d" % (len(c), sum(len(p.lines) for p in c)) for c in cells),
                                            sum(any(used(p, lib) for lib in OLDER) for p in here), len(here)))
        return
    for key, which in (("8a", "Answers"), ("8b", "Invariants"), ("8c", "lemmas")):
        found = [p for p in proofs if p.kind == which]
        row(key, {"lemmas": "files of lemmas"}.get(which, which + ".antt files"), len(found), "  (%d lines)" % sum(len(p.lines) for p in found))
        for crate, ps in sorted((c, [p for p in found if p.crate == c]) for c in {p.crate for p in found}) if verbose else ():
            print("        crates/%s: %d files, %d lines" % (crate, len(ps), sum(len(p.lines) for p in ps)))
    found = [p for p in proofs if any(used(p, lib) for lib in OLDER)]
    row("8d", "files that import the older library (%s)" % ", ".join(OLDER), len(found), " of %d" % len(proofs))
    if verbose:
        for lib in OLDER:
            with_it = [p for p in proofs if used(p, lib)]
            print("        %s: %d files (Answers %d, Invariants %d, lemmas %d)" % (
                (lib, len(with_it)) + tuple(sum(p.kind == k for p in with_it) for k in ("Answers", "Invariants", "lemmas"))))
    held, named = collections.defaultdict(set), collections.defaultdict(set)
    for p in proofs:
        if p.kind == "Answers":
            for l in p.lines:
                l = " ".join(l.split())
                # The part after = is what an answer says; its head names the goal.
                said = l.split(" = ", 1)[-1]
                if len(said) > 12 and not re.match(r"use |pub |unfolding |module |--", l) and not re.search(r" =$|^[\w.\-]+ in$", l):
                    held[said].add(p.path)
        elif p.kind == "lemmas":
            for l in p.lines:
                if (m := re.match(r"(?:pub )?(?:unfoldable )?([\w.\-]+ : .*)", l)) and len(m[1]) > 30:
                    named[" ".join(m[1].split())].add(p.path)
    repeated = sorted(((len(ps), s, ps) for s, ps in held.items() if len(ps) >= 3), reverse=True, key=lambda r: r[:2])
    row("8e", "lines that stand to the letter in three or more Answers.antt", len(repeated))
    if verbose:
        for n, s, _ in repeated:
            print("        in %d: %s" % (n, s[:160]))
    twice = sorted((n, ps) for n, ps in named.items() if len(ps) >= 2)
    row("8f", "lemmas whose first line, name and all, stands to the letter in two files of lemmas or more", len(twice))
    if verbose:
        for n, ps in twice:
            print("        %s  in %s" % (n[:120], ", ".join(sorted(p[7:] for p in ps))))


# ---- the report -----------------------------------------------------------------------------------------------------------------

POINTS = {
    "1": "Own enums like Option or Result, flags with a value beside, numbers for kinds and refusals",
    "2": "Twins",
    "3": "Loops that count by hand",
    "4": "Equality, order, copying, conversion and printing written by hand",
    "5": "Facts in several contracts, parameters that travel together",
    "6": "Buffers with a length beside, parallel arrays, lists searched by hand, offsets",
    "7": "Switches on which step to run, tables of functions",
    "8": "Proofs",
}


WIDEST = 140


def print_row(*cells):
    """A row of a table, whose last cell goes on in the next row where it is too long."""
    before, words = "| " + " | ".join(cells[:-1]) + " | ", cells[-1]
    while len(before + words) + 2 > WIDEST and re.search("[;,] ", words):
        room = WIDEST - len(before) - 6
        cut = words.rfind("; ", 0, room) + 1 or words.rfind(", ", 0, room) + 1 or re.search("[;,] ", words).start() + 1
        print(before + words[:cut] + " |")
        words = ".. " + words[cut:].strip()
    print(before + words + " |")


def short_path(file):
    return file.path[len("crates/"):].replace("/src/", "/")


def table(found):
    """The places of a point as rows of a table: those of one kind in one file together, twins group by group."""
    twins = any(p.others for _, _, places in found for p in places)
    print("| kind | those that are alike |\n|---|---|" if twins else "| kind | file | places |\n|---|---|---|")
    for n, _, places in found:
        if any(p.others for p in places):
            groups = []
            for p in places:
                members = {(short_path(p.file), p.own)} | {(short_path(o.file), o.name) for o in p.others}
                touched = [g for g in groups if g & members]
                groups = [g for g in groups if not g & members] + [set.union(members, *touched)]
            for g in sorted(groups, key=min):
                said = collections.OrderedDict()
                for path, name in sorted(g):
                    said.setdefault(path, []).append(name)
                print_row(n, "; ".join("%s %s" % (path, ", ".join(names)) for path, names in said.items()))
            continue
        rows = collections.OrderedDict()
        for p in places:
            rows.setdefault(short_path(p.file), collections.Counter())[p.short] += 1
        for path, shorts in rows.items():
            said = ["%s%s" % (s, " (%d times)" % k if k > 1 else "") for s, k in shorts.items()]
            for one in said if n in ("5b", "5c", "7c") else [", ".join(said)]:
                print_row(n, path, one)


def main():
    arguments, verbose, tables, only, root = sys.argv[1:], False, False, "", None
    while arguments:
        word = arguments.pop(0)
        if word == "-v":
            verbose = True
        elif word == "-t":
            tables = True
        elif word == "-p" and arguments:
            only = arguments.pop(0)
        elif word.startswith("-"):
            sys.exit(__doc__)
        else:
            root = word
    root = os.path.abspath(root or os.path.join(os.path.dirname(os.path.abspath(__file__)), ".."))
    files = [File(root, p) for p in sorted(glob.glob(os.path.join(root, "crates/*/src/**/*.rt"), recursive=True))]
    print("%d files of source, %d lines, %d functions, %d types" % (
        len(files), sum(len(f.lines) - 1 for f in files), len(all_functions(files)), len(all_types(files))))
    for point, words in POINTS.items():
        if only and only[0] != point:
            continue
        found = [(n, w, rule(files)) for n, w, rule in KINDS if n[0] == point and (len(only) < 2 or n == only)]
        if tables:
            print("\n%s. %s\n" % (point, words))
            table(found) if point != "8" else proof_counts(root, False, True)
            continue
        if point != "8":
            places = [p for _, _, ps in found for p in ps]
            print("%s. %s: %d places, %d with a reason beside" % (point, words, len(places), sum(p.reason for p in places)))
        else:
            print("%s. %s" % (point, words))
            proof_counts(root, verbose)
        for n, w, ps in found:
            reasons = sum(p.reason for p in ps)
            print("  %-3s %-96s %5d%s" % (n, w, len(ps), "  (%d with a reason)" % reasons if reasons else ""))
            for p in ps if verbose else ():
                print("        %s:%d: %s%s" % (p.file.path, p.line, p.text[:200], "  [reason]" if p.reason else ""))


signal.signal(signal.SIGPIPE, signal.SIG_DFL)
main()
