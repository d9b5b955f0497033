#!/usr/bin/env python3
"""Tries the changes of tests/changes_*.txt, each in a copy of the repository, and says what refuses it.

usage, from the repository's root: python3 tests/changes.py [--list] [--jobs N] [WORD ..]
(WORD: only changes whose line, or file's name, has it; N are tried at a time)

A change is tried by rt check in the crates below, in their order, from the lowest that it edits on; the first that is not proved refuses it. It
is printed with the first law or theorem there that is refused. Functions whose own proofs (proofs/FN/Answers.antt and Invariants.antt) are
refused or leave a goal open as well are named after it: where the change gives the code another shape, that says nothing about the change.
Exit status 1 if some change is refused by no law or theorem, or is none: its code or definition has an error of its own.
"""
import concurrent.futures
import glob
import os
import queue
import re
import shutil
import subprocess
import sys
import tempfile

CRATES = ['octets', 'refusal', 'names', 'name_table', 'message', 'host', 'witness', 'order', 'lookup', 'examples', 'exchange']
# an error, its file named from the crate's folder on: ./proofs/NameWalk.antt:12:3: error: `at_none`: ..
ERROR = re.compile(r'^(?:\./)?((?:src|specs|proofs)/\S+?):\d+:\d+: error(?:\[[\w-]+\])?: (?:`([^`]*)`)?(.*)', re.M)
# the files of a function's proof; and a function with an open goal or without a measure (not one that only calls such a function)
PROOF = re.compile(r'proofs/(\S+)/(?:Invariants|Answers|Proof)\.antt')
OPEN = re.compile(r'^fn (\S+): no proof: expected ', re.M)
# a crate below, which is checked first, is not proved
BELOW = re.compile(r'^rt: the library (\w+) did not build', re.M)
# the status of rt check where the prover came to a limit of its own and gives no verdict
LIMIT = 3


def changes():
    found = []
    for path in sorted(glob.glob('tests/changes_*.txt')):
        for line in open(path, encoding='utf-8').read().split('\n'):
            if line.startswith('#') or not line.strip():
                continue
            if line.startswith('['):
                found.append((path, line, []))
            elif line.startswith('file: '):
                found[-1][2].append([line[6:], None, None])
            elif line.startswith('old: '):
                found[-1][2][-1][1] = line[5:].replace('\\n', '\n')
            elif line.startswith('new: '):
                found[-1][2][-1][2] = line[5:].replace('\\n', '\n')
            else:
                sys.exit('not understood: ' + line)
    return found


def applied(root, edits):
    """The files that the edits change, with their new texts: every old text is looked for in the file as it was."""
    texts = {}
    for name, old, new in edits:
        before = open(os.path.join(root, name), encoding='utf-8').read()
        if before.count(old) != 1:
            sys.exit('%s: %d times: %s' % (name, before.count(old), old))
        texts.setdefault(name, []).append((before.index(old), old, new))
    result = {}
    for name, places in texts.items():
        text = open(os.path.join(root, name), encoding='utf-8').read()
        for at, old, new in sorted(places, reverse=True):
            text = text[:at] + new + text[at + len(old):]
        result[name] = text
    return result


def refusal(root, edits):
    """What is refused: 'law', 'function' or 'error', with its name; or None."""
    lowest = min(CRATES.index(name.split('/')[1]) for name, old, new in edits)
    for crate in CRATES[lowest:]:
        run = subprocess.run(['rt', 'check'], cwd=os.path.join(root, 'crates', crate), capture_output=True, text=True)
        out = run.stdout + run.stderr
        if run.returncode == 0:
            continue
        below = BELOW.search(out)
        where = below.group(1) if below else crate
        laws, functions, errors = [], [], []
        for path, name, rest in ERROR.findall(out):
            proof = PROOF.fullmatch(path)
            if not path.startswith('proofs/'):
                errors.append(where + '/' + path + ' ' + name)
            elif 'was not admitted' in rest:  # it cites what is refused itself
                continue
            elif proof:
                functions.append(where + '::' + proof.group(1).replace('+', '').replace('/', '::'))
            else:
                laws.append(where + '/' + path[len('proofs/'):-len('.antt')] + ' ' + name)
        last = where + ': ' + ' '.join(out.split()[-12:])
        if errors or run.returncode not in (1, LIMIT):
            return 'error', errors[0] if errors else last
        functions = list(dict.fromkeys(functions + OPEN.findall(out)))
        more = (', and ' + ', '.join(functions) if functions else '') + (' (at a limit of the prover)' if run.returncode == LIMIT else '')
        if laws:
            return 'law', laws[0] + more
        return 'function', ', '.join(functions) or last
    return None


def tried(root, edits):
    """What refuses the edits, made in the copy at root and taken back."""
    after = applied(root, edits)
    before = {name: open(os.path.join(root, name), encoding='utf-8').read() for name in after}
    for name, text in after.items():
        open(os.path.join(root, name), 'w', encoding='utf-8').write(text)
    by = refusal(root, edits)
    for name, text in before.items():
        open(os.path.join(root, name), 'w', encoding='utf-8').write(text)
    return by


def main():
    jobs, words = 1, [w for w in sys.argv[1:] if not w.startswith('--')]
    if '--jobs' in sys.argv:
        jobs = int(sys.argv[sys.argv.index('--jobs') + 1])
        words.remove(str(jobs))
    chosen = [c for c in changes() if not words or any(w in c[0] or w in c[1] for w in words)]
    for path, title, edits in chosen:
        applied('.', edits)
    if '--list' in sys.argv:
        print('%d changes' % len(chosen))
        return
    count = {'law': 0, 'function': 0, 'error': 0, None: 0}
    says = {'law': 'refused at ', 'function': 'refused at a function alone: ', 'error': 'IS NO CHANGE: '}
    work = tempfile.mkdtemp()
    copies = queue.Queue()

    def one(change):
        root = copies.get()
        try:
            by = tried(root, change[2])
        finally:
            copies.put(root)
        count[by and by[0]] += 1
        print('%s: %s' % (change[1], says[by[0]] + by[1] if by else 'NOT REFUSED'), flush=True)

    try:
        for n in range(jobs):
            # rt check in a copy begins with what checks in this folder kept
            copies.put(shutil.copytree('.', os.path.join(work, str(n)), ignore=shutil.ignore_patterns('.git', 'out', 'target')))
        with concurrent.futures.ThreadPoolExecutor(jobs) as pool:
            list(pool.map(one, chosen))
        print('%d changes: %d refused at a law or theorem, %d at a function alone, %d not refused, %d are none'
              % (len(chosen), count['law'], count['function'], count[None], count['error']))
    finally:
        shutil.rmtree(work, ignore_errors=True)
    sys.exit(1 if count['law'] < len(chosen) or not chosen else 0)


main()
