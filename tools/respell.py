#!/usr/bin/env python3
"""Spells the definitions, lemmas and record fields of crates/ in snake case, as `walkSays` to `walk_says` and `no-byte-lost` to `no_byte_lost`.

usage: tools/respell.py [FOLDER]

FOLDER is the top of a checkout, this one by default. A name turns if a file of specs/, or a file of lemmas in proofs/, declares it, and it has a capital
behind a small letter, or a dash. Types stay, and so do predicates, which begin with a capital. What turns: the text of .antt and .rt files, of must-fail edits, and
the code spans of README.md, docs/*.md and the READMEs below; never quoted text, and in a comment a name with a dash only between back ticks. Behind a
dot a name turns if a module stands before the dot, or if it is a field of a record that is declared here. What turned is printed, old and new.
"""

import os
import re
import sys

NAME = r"[^\s(){}.;,@\"«»`]+"
# Names that would fall together with another, or that the rule would misspell. A lemma gives way to the definition of its name.
ODD = {
    "decodeOP-N": "decode_op_n",
    "readLE": "read_le",
    "writeLE": "write_le",
    "code-says": "code_says_lem",
    "is-least": "is_least_lem",
    "version-byte": "version_byte_lem",
    "within-limit": "within_limit_lem",
    "of-body": "in_body",
    "of_length": "in_length",
    "to_end": "to_end_lem",
}
SIGNATURE = re.compile(rf"^(\s*)(?:(?:pub|abbrev|unfoldable)\s+)*({NAME})((?: {NAME})*)(?: \{{[^{{}}\n]*\}})* :(?=\s)")
WORDS = {"let", "|", "λ", "in", "pub", "abbrev", "unfoldable", "record", "data", "module", "elim", "use", "--"}


def files(top, endings):
    for folder, dirs, names in os.walk(top):
        dirs[:] = sorted(d for d in dirs if d not in ("out", "target", ".git", "landings"))
        for name in sorted(names):
            if name.endswith(endings):
                yield os.path.join(folder, name)


def snake(name):
    if name.isupper():
        return name.replace("-", "_")
    return re.sub(r"(?<=[a-z0-9])[A-Z]", lambda m: "_" + m[0].lower(), name).replace("-", "_")


def is_odd(name):
    capitals = re.fullmatch(r"[A-Z0-9]+(-[A-Z0-9]+)+", name)
    return bool(capitals or not name[:1].isupper() and re.search(r"[^\W\d_]-|-[^\W_]|[a-z0-9][A-Z]", name))


def declared(top):
    """The names to turn, those of them that are fields, and all names that are declared."""
    names, fields, every = set(), set(), set()
    for path in files(os.path.join(top, "crates"), ".antt"):
        if path.endswith("/Proof.antt"):
            continue
        inside = False
        with open(path, encoding="utf-8") as f:
            for line in f:
                if re.match(r"(pub )?(record|data)\b", line):
                    inside = True
                elif line[:1].strip():
                    inside = False
                m = SIGNATURE.match(line)
                for name in [m[2], *m[3].split()] if m else []:
                    every.add(name)
                    if name not in WORDS and is_odd(name):
                        (fields if inside and line.lstrip().startswith("pub ") else names).add(name)
    return names | set(ODD), fields, every


class Speller:
    def __init__(self, names, fields, every):
        self.names, self.fields, self.every = names, fields, every
        self.used, self.older = {}, False

    def new(self, word):
        bare = word.rstrip("'")
        if bare in self.names or bare in self.fields:
            turned = ODD.get(bare, snake(bare))
            self.used[bare] = turned
            return turned + word[len(bare) :]
        if self.older and is_odd(bare) and snake(bare) in self.every:
            return snake(bare) + word[len(bare) :]
        return "get_or" if self.older and word == "getD" else word

    def code(self, text, proof=False):
        def one(m):
            before = text[: m.start()]
            if before.endswith("."):
                head = re.search(rf"({NAME})\.$", before)
                module = head and head[1][0].isupper()
                field = not proof and m[0].rstrip("'") in self.fields | self.names
                if not module and not field:
                    return m[0]
            return self.new(m[0])

        return re.sub(NAME, one, text)

    def prose(self, text):
        """A comment: between back ticks as code, and elsewhere only what can be no English."""
        parts = text.split("`")
        for i, part in enumerate(parts):
            if i % 2:
                parts[i] = self.code(part)
            else:
                parts[i] = re.sub(r"\w+'*", lambda m: self.new(m[0]) if re.search("[a-z0-9][A-Z]", m[0]) else m[0], part)
        return "`".join(parts)

    def source(self, text, comment, proof=False):
        """Code with comments that begin with `comment`, and with quoted text, which stays."""
        cut = re.compile(rf'"(?:[^"\\\n]|\\.)*"|(?<!\S){comment}[^\n]*')
        out, last = [], 0
        for m in cut.finditer(text):
            out.append(self.code(text[last : m.start()] if last == 0 else text[last : m.start()], proof))
            out.append(m[0] if m[0].startswith('"') else self.prose(m[0]))
            last = m.end()
        out.append(self.code(text[last:], proof))
        return "".join(out)

    def edit(self, text):
        """An edit, which port.py left alone: what that script spelled anew turns here too, and a projection is written tight."""
        lines, self.older = [], True
        for line in text.splitlines(keepends=True):
            head = re.match(r"(old|new): ", line)
            if head:
                rest = re.sub(r"(?<=[\w)']) \.(?=[a-z0-9])", ".", line[len(head[0]) :])
                rest = re.sub(r"(?<=[ (])\(([a-z]\w*\.[a-z]\w*)\)", r"\1", rest)
                line = head[0] + self.source(rest, "(?:--|//)")
            elif line.startswith("#"):
                line = self.prose(line)
            lines.append(line)
        self.older = False
        return "".join(lines)

    def page(self, text):
        self.older = True
        text = re.sub(r"`[^`\n]+`", lambda m: "`" + self.code(m[0][1:-1]) + "`", text)
        self.older = False
        return text


def main(argv):
    top = os.path.abspath(argv[0]) if argv else os.path.dirname(os.path.dirname(os.path.abspath(__file__)))
    speller = Speller(*declared(top))
    turned = 0
    for path in files(top, (".antt", ".rt", ".edit", ".md")):
        inside = path.startswith(os.path.join(top, "crates") + os.sep)
        if not inside and not path.endswith(".md") or os.path.basename(path).startswith("PORT"):
            continue
        with open(path, encoding="utf-8") as f:
            old = f.read()
        if path.endswith(".antt"):
            new = speller.source(old, "--", path.endswith("/Proof.antt"))
        elif path.endswith(".rt"):
            new = speller.source(old, "//")
        elif path.endswith(".edit"):
            new = speller.edit(old)
        else:
            new = speller.page(old)
        if new != old:
            turned += 1
            with open(path, "w", encoding="utf-8") as f:
                f.write(new)
    for old, new in sorted(speller.used.items()):
        print(f"{old}\t{new}")
    print(f"{turned} files", file=sys.stderr)


if __name__ == "__main__":
    main(sys.argv[1:])
