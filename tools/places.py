#!/usr/bin/env python3
"""Counts the places of docs/DESIGN-PASS.md in crates/*/src of the folder that it is given (or of this one); with -v it lists them.

Points 1 to 7 are of the sources, point 8 is of the proofs. A place is a line `file:line what`.
"""
import collections
import glob
import os
import re
import sys

args = [a for a in sys.argv[1:] if a != '-v']
verbose = '-v' in sys.argv[1:]
top = args[0] if args else os.path.join(os.path.dirname(os.path.abspath(__file__)), '..')
files = sorted(glob.glob(os.path.join(top, 'crates/*/src/*.rt')))
text = {f: open(f).read() for f in files}


def at(f, pos, what):
    return '%s:%d %s' % (os.path.relpath(f, top), text[f].count('\n', 0, pos) + 1, what)


def body_of(s, start, word):
    """Where the braces of an item open that starts there; None where it has none."""
    if word != 'fn':
        return s.find('{', start)
    i, depth = s.find('(', start), 0
    while i < len(s):
        depth += {'(': 1, ')': -1}.get(s[i], 0)
        if depth == 0:
            break
        i += 1
    # behind the parameters stand the result and the clauses; a clause has braces on its own line
    for line in s[i:].split('\n'):
        if not re.match(r' *(requires|ensures|where|[A-Z]\w*: )', line):
            if line.endswith(';'):
                return None
            if line.endswith('{'):
                return i + len(line) - 1
        i += len(line) + 1
    return None


def items(f, word):
    """Each `word NAME .. { .. }` of a file: its place, name, head and body."""
    s = text[f]
    for m in re.finditer(r'^(?: *)(?:pub(?:\(crate\))? )?(?:extern "C" )?%s (\w+)' % word, s, re.M):
        i = body_of(s, m.end(), word)
        if i is None:
            continue
        depth, k = 0, i
        while k < len(s):
            if s[k] == '{':
                depth += 1
            elif s[k] == '}':
                depth -= 1
                if depth == 0:
                    break
            k += 1
        yield m.start(), m.group(1), s[m.start():i], s[i:k + 1]


def own_shapes():
    """Enums with a variant for a refusal or for nothing, structs with a flag beside what it tells of, constants for states."""
    for f in files:
        for pos, name, head, body in items(f, 'enum'):
            variants = re.findall(r'^    (\w+)(?:\(|,| \{)', body, re.M)
            if {'Refused', 'Nothing', 'Done'} & set(variants):
                yield at(f, pos, 'enum ' + name)
        for pos, name, head, body in items(f, 'struct'):
            if re.search(r'\b(?:whole|end): bool|\blast: isize', body):
                yield at(f, pos, 'struct ' + name)
        for m in re.finditer(r'^(?:pub(?:\(crate\))? )?const (READING|WHOLE|DAMAGED|MISS)\b', text[f], re.M):
            yield at(f, m.start(), 'const ' + m.group(1))


def answering():
    """Functions that answer such an enum."""
    own = {p.split(' enum ')[1] for p in own_shapes() if ' enum ' in p} - {'Value'}
    for f in files:
        for pos, name, head, body in items(f, 'fn'):
            m = re.search(r'-> (\w+)\s*(?:\n|$|\{| )', head)
            if m and m.group(1) in own:
                yield at(f, pos, 'fn %s -> %s' % (name, m.group(1)))


def twins():
    """Functions whose bodies are the same once names, types, variants and numbers are taken out, and not what they call."""
    keep = {'if', 'else', 'match', 'while', 'loop', 'for', 'in', 'return', 'let', 'mut', 'fn', 'pub', 'as', 'self', 'true', 'false', 'usize', 'bool'}
    groups = collections.defaultdict(list)
    for f in files:
        if '/boundary/' in f:
            continue
        for pos, name, head, body in items(f, 'fn'):
            if body.count('\n') < 4:
                continue
            code = re.sub(r'//[^\n]*', '', body)
            code = re.sub(r'b?"(?:[^"\\]|\\.)*"', 'S', code)
            code = re.sub(r'\b[A-Z]\w*(?:::\w+)*', 'X', code)
            code = re.sub(r'[a-z_]\w*(?!\w)(?![(!])', lambda m: m.group(0) if m.group(0) in keep else 'x', code)
            code = re.sub(r'\d[\d_a-fx]*', '0', code)
            groups[re.sub(r'\s+', ' ', code)].append(at(f, pos, 'fn ' + name))
    for g in groups.values():
        if len(g) > 1:
            yield ', '.join(g)


def index_loops():
    """Loops in which a variable that is an index, or counts turns, goes up or down by a fixed step."""
    for f in files:
        for m in re.finditer(r"^( *)(?:'\w+: )?(?:while [^\n]*|loop) \{\n(.*?)^\1\}", text[f], re.M | re.S):
            step = re.search(r'^\s*(\w+) ([-+])= \d+;', m.group(2), re.M)
            if step:
                yield at(f, m.start(), 'loop counting ' + step.group(1))
        for m in re.finditer(r'^ *for ([a-z]\w*) in 0\.\.[^\n]*\.len\(\) \{', text[f], re.M):
            yield at(f, m.start(), 'for over the places of a slice')


def by_hand():
    """Functions that compare, convert or print a type of their own by hand."""
    names = r'same|is_end|byte_or|form_number|class_number|kind_number|wide8|wide16|wide|low|narrow|magnitude|all|more|refused|cut|form_of'
    for f in files:
        for pos, name, head, body in items(f, 'fn'):
            if re.fullmatch(names, name):
                yield at(f, pos, 'fn ' + name)


def repeated_facts():
    """Facts that three functions or more require, and parameters that three or more take side by side."""
    facts = collections.defaultdict(list)
    pairs = collections.defaultdict(list)
    for f in files:
        crate = os.path.relpath(f, top).split('/')[1]
        if crate == 'boundary':
            continue
        for pos, name, head, body in items(f, 'fn'):
            for m in re.finditer(r'requires (?:\w+ )?\{ (.*) \}', head):
                for fact in m.group(1).split(' × '):
                    facts[crate, fact.strip('() ')].append(at(f, pos, name))
            m = re.search(r'\((.*?)\)(?: ->|\s)', head, re.S)
            if m:
                took = [p.split(':')[0].strip() for p in m.group(1).split(',') if ':' in p]
                for a in range(len(took) - 2):
                    pairs[crate, ', '.join(took[a:a + 3])].append(at(f, pos, name))
    for (crate, fact), where in sorted(facts.items()):
        if len(where) > 2:
            yield '%s: %s in %d' % (crate, fact, len(where))
    for (crate, took), where in sorted(pairs.items()):
        if len(where) > 2:
            yield '%s: (%s) in %d' % (crate, took, len(where))


def buffers():
    """Arrays in a struct with a number beside them, and constant arrays that are read side by side."""
    for f in files:
        for pos, name, head, body in items(f, 'struct'):
            if re.search(r': \[\w+; \w+\]', body) and re.search(r': usize', body):
                yield at(f, pos, 'struct ' + name)
        for m in re.finditer(r'^const (\w+): \[\w+; 256\]', text[f], re.M):
            yield at(f, m.start(), 'const ' + m.group(1))


def switches():
    """Switches on a number that says which step to run."""
    for f in files:
        for m in re.finditer(r'^ *match ((?:h\.)?kind) \{', text[f], re.M):
            if m.group(1) == 'h.kind' or re.search(r'kind: u8|= h\.kind;', text[f][:m.start()][-700:]):
                yield at(f, m.start(), 'match kind')


def answers():
    """Proof files of functions."""
    return (os.path.relpath(f, top) for f in sorted(glob.glob(os.path.join(top, 'crates/*/proofs/**/Answers.antt'), recursive=True)))


def lemma_files():
    """Lines of all proof files."""
    for f in sorted(glob.glob(os.path.join(top, 'crates/*/proofs/**/*.antt'), recursive=True)):
        for line in open(f):
            if line.strip():
                yield f


for title, count in [('1 own shapes', own_shapes), ('1 functions that answer them', answering), ('2 groups of twins', twins), ('3 index loops', index_loops), ('4 by hand', by_hand), ('5 repeated facts and parameters', repeated_facts), ('6 buffers', buffers), ('7 switches', switches), ('8 answer files', answers), ('8 proof lines', lemma_files)]:
    found = list(count())
    print('%-36s %d' % (title, len(found)))
    if verbose and not title.startswith('8'):
        for place in found:
            print('    ' + place)
