#!/usr/bin/env python3
"""Gives the repository's own antt names today's spelling, words in snake case. Run once, at the top of the checkout, right after port.py: python3 tools/respell.py

It takes no arguments. The table is tools/respell.tsv, a row a name: old, a tab, new. A row has a third column where it doesn't hold everywhere:
    local        a bound name of specs and lemma files alone
    prose        port.py turned it in the code: what comments, pages and edits still say
    NAME path    two columns: of that file alone, and only while the file still has NAME (the row's old spelling is what NAME turns to, so a second run would go on)
A second run changes nothing; files that came after it (docs/PORT.md, and the answers and invariants that stand for a Proof.antt) are left alone. What turns, by whole tokens:
    crates/**/*.antt       the code but quoted text; in comments code spans, and bare words that the file's code has
    crates/**/*.rt         requires, ensures, 'ghost use'; comments as above
    crates/*/must-fail     the lines old: and new:, and comments as above
    README.md, NOTICE, docs/**/*.md     code spans and fenced blocks but shell commands, and bare words with an inner capital
    harness, tools         comments: code spans, and bare words with an inner capital
What stays: a name that a file imports from the kit and doesn't declare, module paths, strings, Rust, and in a Proof.antt what Rattle makes: a label behind a dot that
.ensures, .result, .given, .requires, .new or .old follows (the goals' answers are in no row).
"""

import collections
import os
import re
import sys

WORD = re.compile(r'[^\s(){}.;,@"«»]+')
PART = re.compile(r"[^\x60\[\]|/:\\*…⟨⟩⟦⟧'’#?!\s(){}.;,@\"«»]+'*")
QUIET = re.compile(r'"(?:[^"\\\n]|\\.)*"|(?<![^\s(){}.;,@"«»])--[^\n]*|\{-.*?-\}', re.S)
SPAN = re.compile(r"(\x60+)(?:[^\n]|\n(?!\s*\n))*?\1")
FENCE = re.compile(r"^( *)(\x60{3,})([^\n\x60]*)\n(.*?)^\1\2 *$", re.S | re.M)
SHELL = re.compile(r"\x60*\s*(?:\$ |\./|(?:antt|rt|just|cargo|python3|bash|cd|tar|cp|ls|for|env|export|tools|harness)[ /])")
USE = re.compile(r"\buse\s+([^\s;{}]+?)(?:\.\{([^}]*)\}|(?=[\s;]|$))")
GHOST_USE = re.compile(r"ghost\s+use\b[^;]*;")
CLAUSE = re.compile(r"(?:requires|ensures)\s*\*?\s*(?:\w+\s*)?\{|ghost\s*(?:\w+\s*(?::\s*(?:(?:owns|lends)\s*)?|=\s*))?\{")
RUST = re.compile(
    r"""//[^\n]*|/\*.*?\*/|[bc]?r(#*)".*?"\1|[bc]?"(?:\\.|[^"\\])*"|b?'(?:\\u\{[0-9a-fA-F_]+\}|\\x..|\\.|[^'\\])'|'?\w+|\s+|.""",
    re.S,
)
MADE = re.compile(r"\.(?:ensures|result|given|requires|new|old)(?![\w'-])")
DECLARED = re.compile(r"^ *(?:(?:pub|abbrev|unfoldable|field) )*((?:[^\s(){}.;,@\"«»]+ )+):(?: |$)", re.M)
BLOCK = re.compile(r"(?<![^\s(){};,])(?:where|do|let|mutual) +(?=\S)")
LATER = re.compile(r"^use \S+\.(?:Goals|Given) as goal$", re.M)
CAPITAL = re.compile(r"[a-z0-9₀-₉][A-Z]")

everywhere, local, prose, here = {}, {}, {}, collections.defaultdict(list)
seen = collections.Counter()


def read_table():
    with open(os.path.join(os.path.dirname(os.path.realpath(__file__)), "respell.tsv"), encoding="utf-8") as f:
        for line in f:
            row = line.rstrip("\n").split("\t")
            if len(row) == 2:
                everywhere[row[0]] = row[1]
            elif len(row) == 3 and row[2] == "local":
                local[row[0]] = row[1]
            elif len(row) == 3 and row[2] == "prose":
                prose[row[0]] = row[1]
            elif len(row) == 4:
                here[row[3]].append((row[2], row[0], row[1]))


def between(pattern, text, inside, outside):
    out, at = [], 0
    for m in pattern.finditer(text):
        out += [outside(text[at : m.start()]), inside(m[0])]
        at = m.end()
    return "".join(out + [outside(text[at:])])


def closing(text, at):
    depth = 0
    for m in re.compile(QUIET.pattern + r"|[{}]", re.S).finditer(text, at):
        depth += (m[0] == "{") - (m[0] == "}")
        if depth < 0:
            return m.start()
    return None


def blanked(text):
    return QUIET.sub(lambda m: re.sub(r"[^\n]", " ", m[0]), text)


def realigned(old, new):
    """The new text, in which the later lines of a block stand under its first item again (as snake.py of the kit does)."""
    was, now, lines = blanked(old).split("\n"), blanked(new).split("\n"), new.split("\n")
    by = [0] * len(lines)
    for row, (a, b) in enumerate(zip(was, now)):
        for x, y in zip(BLOCK.finditer(a), BLOCK.finditer(b)) if a != b else ():
            below = row + 1
            while x.end() != y.end() and below < len(was):
                if was[below].strip() and was[below][: x.end()].strip():
                    break
                by[below] += (y.end() - x.end()) * bool(was[below].strip())
                below += 1
    seen["lines moved"] += sum(map(bool, by))
    return "\n".join(" " * n + line if n >= 0 else line[-n:] for n, line in zip(by, lines))


class File:
    def __init__(self, path, crates):
        self.path = path
        with open(path, encoding="utf-8", newline="") as f:
            self.old = f.read()
        self.table, self.said, self.proof = dict(everywhere), {}, path.endswith("Proof.antt")
        if path.endswith(".antt"):
            if not self.proof:
                self.table.update(local)
            code = blanked(self.old)
            words = set(WORD.findall(code))
            self.table.update((a, b) for while_, a, b in here.get(path, ()) if while_ in words)
            declared = {n for m in DECLARED.finditer(code) for n in m[1].split()}
        else:
            words = set(PART.findall(self.old)) if path.endswith(".md") else set()
            self.said = {a: b for while_, a, b in here.get(path, ()) if while_ in words}
            code, declared = "\n".join(m[0] for m in GHOST_USE.finditer(self.old)), set()
        for m in USE.finditer(code) if path.endswith((".antt", ".rt")) else ():
            parts = m[1].split(".")
            if parts[0] == "Rattle" and parts[1] in crates:
                continue
            for item in (m[2] or "").split(","):
                name = item.split(" as ")[-1].strip()
                if name in self.table and name not in declared:
                    seen["kit names kept"] += 1
                    del self.table[name]
        self.said = {**prose, **self.table, **self.said}
        self.code_words = set()

    def code(self, text):
        def one(m):
            w = m[0]
            if w not in self.table:
                return w
            if self.proof and text[m.start() - 1 : m.start()] == "." and MADE.match(text, m.end()):
                return w
            start = re.search(r"[^\s(){};,]*$", text[: m.start()])[0]
            if start.startswith("Rattle.") and text[m.end() : m.end() + 1] == ".":
                return w  # a part of a module's path
            seen["words in code"] += 1
            return self.table[w]

        return WORD.sub(one, text)

    def span(self, text):
        return text if SHELL.match(text) else self.words(text, lambda w: True)

    def words(self, text, may):
        def one(m):
            if m[0] not in self.said or not may(m[0]):
                return m[0]
            seen["words in comments and pages"] += 1
            return self.said[m[0]]

        return WORD.sub(lambda m: one(m) if m[0] in self.said else PART.sub(one, m[0]), text)

    def comment(self, text, may):
        return between(SPAN, text, self.span, lambda t: self.words(t, may))

    def antt(self, text):
        self.code_words = self.code_words or set(WORD.findall(blanked(text)))
        return between(QUIET, text, lambda q: q if q[0] == '"' else self.comment(q, self.in_code), self.code)

    def in_code(self, w):
        return w in self.code_words or w in prose and prose[w] in self.code_words

    def rt(self, text):
        parts, at = [], 0
        while at < len(text):
            m = RUST.match(text, at)
            word, end = m[0], m.end()
            clause = CLAUSE.match(text, at) if word in ("requires", "ensures", "ghost") else None
            use = GHOST_USE.match(text, at) if word == "ghost" else None
            if clause and closing(text, clause.end()):
                end = closing(text, clause.end())
                parts += [("rust", clause[0]), ("antt", text[clause.end() : end])]
            elif use:
                end = use.end()
                parts.append(("antt", use[0]))
            else:
                parts.append(("comment" if word[:2] in ("//", "/*") else "rust", word))
            at = end
        self.code_words = {w for kind, t in parts if kind == "antt" for w in WORD.findall(t)}
        how = {"antt": self.antt, "comment": lambda t: self.comment(t, self.in_code), "rust": str}
        return "".join(how[kind](t) for kind, t in parts)

    def edit(self, text):
        self.code_words = {w for line in text.split("\n") if line[:4] in ("old:", "new:") for w in WORD.findall(line)}
        line = lambda text: text[:4] + self.words(text[4:], lambda w: True)
        turn = {"file": str, "old:": line, "new:": line}
        comment = lambda line: self.comment(line, self.in_code)
        return "\n".join(turn.get(line[:4], comment)(line) for line in text.split("\n"))

    def page(self, text):
        def block(m):
            return m if re.search(r"^ *\x60+(?:sh|bash|shell|console|json|toml)\b", m) or SHELL.match(m.split("\n", 1)[1]) else self.code(m)

        capital = lambda w: bool(CAPITAL.search(w))
        return between(FENCE, text, block, lambda t: self.comment(t, capital))

    def other(self, text):
        sign = "//" if self.path.endswith((".rs", ".c", ".h")) else "#"
        capital = lambda w: bool(CAPITAL.search(w))

        def line(text):
            at = re.search(r"(?:^|\s)" + sign, text)
            return text[: at.start()] + self.comment(text[at.start() :], capital) if at else text

        return "\n".join(map(line, text.split("\n")))


def below(top, tails):
    for folder, folders, files in os.walk(top):
        folders[:] = sorted(f for f in folders if f not in ("target", "out", "node_modules") and not f.startswith("."))
        yield from (os.path.join(folder, f) for f in sorted(files) if f.endswith(tails) and not os.path.islink(os.path.join(folder, f)))


def main():
    if not os.path.isdir("crates"):
        sys.exit("run it at the top of the checkout")
    read_table()
    crates = set(os.listdir("crates"))
    work = [(f, "antt") for f in below("crates", ".antt")] + [(f, "rt") for f in below("crates", ".rt")] + [(f, "edit") for f in below("crates", ".edit")]
    work += [(f, "page") for f in ("README.md", "NOTICE") if os.path.exists(f)] + [(f, "page") for f in below("docs", ".md")]
    work += [(f, "other") for f in below("harness", (".rs", ".c", ".h", "run"))]
    work += [(f, "other") for f in below("tools", "") if not f.startswith("tools/respell")]
    for path, kind in work:
        it = File(path, crates)
        if path == "docs/PORT.md" or LATER.search(it.old):
            continue
        new = getattr(it, kind)(it.old)
        if kind == "antt" and len(new) != len(it.old):
            new = realigned(it.old, new)
        seen["files read"] += 1
        if new != it.old:
            seen["files changed: " + kind] += 1
            with open(path, "w", encoding="utf-8", newline="") as f:
                f.write(new)
    print(f"rows {len(everywhere) + len(local) + len(prose) + sum(map(len, here.values()))}; " + "; ".join(f"{what} {n}" for what, n in sorted(seen.items())))


main()
