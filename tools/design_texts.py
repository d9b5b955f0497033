#!/usr/bin/env python3
"""Prints, as Markdown, each public law, definition, record and data type of specs/ and proofs/ whose text is not that of a commit, old and new.

usage, from the repository's root: python3 tools/design_texts.py COMMIT

A declaration is found by its file and its name; one that has another file or another name now is not. Spaces and line breaks do not count.
"""
import re
import subprocess
import sys

# the first line of a public declaration: its indent, its kind, its name, and what stands after the colon
DECLARED = re.compile(r"( *)((?:abbrev |unfoldable )?)pub ([^\s:(){}]+) :(.*)")
TYPE = re.compile(r"( *)pub (record|data) ([^\s:(){}]+)")


def git(*arguments):
    return subprocess.run(("git",) + arguments, capture_output=True, text=True, check=True).stdout


def sources(commit):
    """The texts of specs/ and proofs/ at a commit, by crate and file."""
    found = {}
    for name in git("ls-tree", "-r", "--name-only", commit).split("\n"):
        m = re.fullmatch(r"crates/(\w+)/(specs|proofs)/(.*)\.antt", name)
        if m:
            found[(m[1], m[2], m[3])] = git("show", commit + ":" + name)
    return found


def indent(line):
    return len(line) - len(line.lstrip())


def declarations(text):
    """The public declarations of a file: a law by its statement, a definition and a type whole."""
    lines, found, i = text.split("\n"), {}, 0
    while i < len(lines):
        m, t = DECLARED.match(lines[i]), TYPE.match(lines[i])
        j = i + 1
        if t:
            while j < len(lines) and lines[j].strip() and indent(lines[j]) > len(t[1]):
                j += 1
            found[t[3]] = ("type", [line[len(t[1]):] for line in lines[i:j]])
        elif m:
            own = re.compile(r" *" + re.escape(m[3]) + r"(?![\w-])")
            other = re.compile(r" *(pub |abbrev |unfoldable |unfolding )")
            while j < len(lines) and indent(lines[j]) > len(m[1]) and lines[j].strip() and not own.match(lines[j]) and not other.match(lines[j]):
                j += 1
            kind = "definition" if m[2] else "law"
            while m[2] and j < len(lines) and lines[j].strip() and (own.match(lines[j]) or indent(lines[j]) > len(m[1])):
                j += 1
            found[m[3]] = (kind, [line[len(m[1]):] for line in lines[i:j]])
        i = j
    return found


def main():
    old, new = sources(sys.argv[1]), sources("HEAD")
    plain = lambda lines: re.sub(r"\s+", " ", " ".join(lines))
    for title, wanted in (("Laws", "law"), ("Definitions", "definition"), ("Records and data types", "type")):
        print("### %s\n" % title)
        for key in sorted(set(old) & set(new)):
            before, after = declarations(old[key]), declarations(new[key])
            for name in before:
                kind, text = before[name]
                if kind == wanted and name in after and plain(text) != plain(after[name][1]):
                    print("%s/%s `%s`:\n\n```text\n-- old\n%s\n-- new\n%s\n```\n" % (key[0], key[2], name, "\n".join(text), "\n".join(after[name][1])))


main()
