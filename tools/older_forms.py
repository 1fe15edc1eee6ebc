#!/usr/bin/env python3
"""Finds the places of src/ that are written in an older form where the language has a plainer one.

usage: python3 tools/older_forms.py [--list] [POINT..]      at the top of the repository

Prints how many places each point has, and with --list each place. The points are those of docs/DESIGN-PASS.md: 1 answers, 2 twins,
3 counted loops, 4 derives and conversions, 5 parameters and clauses that go together, 6 arrays, 7 switches, 8 proofs.
"""
import collections
import glob
import re
import sys



def block(text, start):
    """The text between the brace at or after start and the one that closes it."""
    i = text.index("{", start)
    depth = 0
    for j in range(i, len(text)):
        depth += {"{": 1, "}": -1}.get(text[j], 0)
        if depth == 0:
            return text[i + 1 : j]
    return text[i + 1 :]


def plain(text):
    """The text without comments."""
    return re.sub(r"//[^\n]*", "", text)


class Function:
    def __init__(self, path, name, head, body):
        self.path, self.name, self.head, self.body = path, name, head, body
        found = re.search(r"\((.*?)\)\s*(?:->\s*([^\n{]+))?(?:\n|\{|$)", head, re.S)
        self.parameters = []
        if found:
            self.parameters = [re.sub(r"\s+", " ", p).strip() for p in re.split(r",(?![^\[<(]*[\])>])", found[1]) if p.strip()]
        self.result = (found[2] or "").strip() if found else ""
        self.clauses = re.findall(r"(requires|ensures)\s*\w*\s*\{(.*?)\}\s*(?=\n\s*(?:requires|ensures)|\n\{|$)", head, re.S)

    def place(self):
        return f"{self.path}: {self.name}"


def functions(path, text):
    """Each function of a file: its head with the contract, and its body. The body begins at the first line that is a brace alone, or ends the head's line."""
    for found in re.finditer(r"(?m)^[ \t]*(?:pub(?:\([a-z]+\))? )?(?:const )?(?:unsafe )?(?:extern \"C\" )?fn (\w+)", text):
        after = re.search(r"(?m)(?:^[ \t]*\{[ \t]*$|^[^\n]*\{[ \t]*$)", text[found.start() :])
        lines = text[found.start() :].split("\n")
        at, offset = None, found.start()
        for line in lines:
            if re.match(r"^\s*\{\s*$", line) or (re.search(r"\)\s*(->.*)?\{\s*$", line) and not re.match(r"^\s*(requires|ensures)", line)):
                at = offset + line.rindex("{")
                break
            offset += len(line) + 1
        if at is not None and after:
            yield Function(path, found[1], text[found.start() : at], block(text, at))


def declared(kind, text):
    for found in re.finditer(r"(?m)((?:^[ \t]*#\[[^\n]*\]\n)*)^[ \t]*(?:pub )?%s (\w+)[^\n;{]*\{" % kind, text):
        yield found[2], found[1], block(text, found.end() - 1)


def sources():
    for path in sorted(glob.glob("crates/*/src/*.rt")):
        yield path[len("crates/") :], plain(open(path).read())


def answers():
    enums = set()
    for path, text in sources():
        for name, _, body in declared("enum", text):
            if re.search(r"\bRefused\b", body):
                enums.add(name)
                yield "answer enum", f"{path}: {name}"
    for path, text in sources():
        for name, _, body in declared("struct", text):
            types = re.findall(r":\s*([^,\n]+)", body)
            if len(types) > 1 and any(t.split("::")[-1].strip() in enums or t.startswith("Result<") for t in types):
                yield "answer with a value beside it", f"{path}: {name}"
            for field, kind in re.findall(r"(\w+):\s*(u\d+|usize)\b", body):
                if field in ("stage", "choice", "kind", "side", "number"):
                    yield "number for a kind or refusal", f"{path}: {name}.{field}"
        for f in functions(path, text):
            if f.result == "u16" and re.search(r"result ≡ [^×}]*number", f.head):
                yield "number for a kind or refusal", f.place()


def twins():
    groups = collections.defaultdict(list)
    for path, text in sources():
        for f in functions(path, text):
            body = re.findall(r"[A-Za-z_]\w*|\d+|[^\s\w]", ",".join(f.parameters) + "->" + f.result + "{" + f.body)
            if len(body) < 30:
                continue
            seen = {}
            shape = tuple(t if not re.match(r"\w", t) or t in ("let", "mut", "if", "else", "while", "for", "in", "match", "return") else
                          ("0" if t.isdigit() else seen.setdefault(t, len(seen))) for t in body)
            groups[shape].append(f)
    for shape, members in sorted(groups.items(), key=lambda g: g[1][0].place()):
        if len(members) > 1:
            for f in members[1:]:
                yield "function like another", f"{f.place()}, as {members[0].place()}"


def loops():
    for path, text in sources():
        for f in functions(path, text):
            for found in re.finditer(r"while ([^{]*)\{", f.body):
                inner = block(f.body, found.end() - 1)
                counted = {a or b for a, b in re.findall(r"(\w+) [+-]= 1;|(\w+) [+-]= [A-Z]\w*;", inner)}
                words = set(re.findall(r"\w+", found[1])) | set(re.findall(r"\[(\w+)\]", found[1] + inner))
                if counted & words:
                    yield "counted loop", f.place()


def derives():
    for path, text in sources():
        for kind in ("struct", "enum"):
            for name, marks, body in declared(kind, text):
                if "Copy" not in marks and not re.search(r"\b(Vec|String|Box|R|W)\b|&mut", body):
                    yield "plain type that is not Copy", f"{path}: {name}"
        for f in functions(path, text):
            if re.fullmatch(r"\s*\w+ as \w+\s*", f.body):
                yield "conversion by hand", f.place()


def together():
    groups, clauses = collections.defaultdict(set), collections.defaultdict(set)
    for path, text in sources():
        for f in functions(path, text):
            names = f.parameters
            for i in range(len(names) - 2):
                groups[tuple(re.sub(r"'\w+ ", "", n) for n in names[i : i + 3])].add(f.place())
            for kind, fact in f.clauses:
                if kind == "requires":
                    for part in re.split(r"(?<!Type 0) × ", re.sub(r"\s+", " ", fact).strip()):
                        clauses[part.strip("() ")].add(f.place())
    for group, places in sorted(groups.items()):
        if len(places) > 2:
            yield "three parameters together in three functions or more", f"{', '.join(group)}: {len(places)} functions"
    for fact, places in sorted(clauses.items()):
        if len(places) > 2:
            yield "fact required by three functions or more", f"{fact}: {len(places)} functions"


def arrays():
    for path, text in sources():
        for name, _, body in declared("struct", text):
            fixed = re.findall(r"(\w+):\s*\[", body)
            if fixed:
                yield "struct with fixed arrays", f"{path}: {name} ({', '.join(fixed)})"
        for f in functions(path, text):
            fixed = [p for p in f.parameters if re.search(r"&mut \[\w+; ", p)]
            if fixed:
                yield "function lent fixed arrays", f"{f.place()} ({len(fixed)})"
            if re.search(r"let mut \w+(: \[[^\]]*\])? = \[", f.body):
                yield "function with fixed arrays of its own", f.place()


def switches():
    for path, text in sources():
        for f in functions(path, text):
            for found in re.finditer(r"match ([^{]*)\{", f.body):
                arms = re.findall(r"(?m)^\s*(\d+|[A-Z_]{2,}) =>", block(f.body, found.end() - 1))
                if 3 <= len(arms):
                    yield "match on a number", f"{f.place()} ({len(arms)} arms)"
            tests = re.findall(r"if ([\w.]+) == (?:\d+|[A-Z_]{2,})\b", f.body)
            if len(tests) > 2 and len(set(tests)) == 1:
                yield "tests of one number in a row", f.place()


def proofs():
    for path in sorted(glob.glob("crates/*/proofs/**/*.antt", recursive=True)):
        text = open(path).read()
        for line in re.findall(r"-- DROPPED.*", text):
            yield "comment of a converter", path[len("crates/") :]
        if path.endswith("Answers.antt") and "goal" in text:
            for name in re.findall(r"(?m)^pub (\S+) : goal\.", text):
                yield "answer", f"{path[len('crates/'):]}: {name}"


POINTS = {"1": answers, "2": twins, "3": loops, "4": derives, "5": together, "6": arrays, "7": switches, "8": proofs}


def main():
    asked = [a for a in sys.argv[1:] if a in POINTS] or list(POINTS)
    for point in asked:
        found = list(POINTS[point]())
        kinds = collections.Counter(kind for kind, _ in found)
        print(f"{point}: {len(found)}" + "".join(f"; {kind} {n}" for kind, n in sorted(kinds.items())))
        if "--list" in sys.argv:
            for kind, place in found:
                print(f"   {kind}: {place}")


if __name__ == "__main__":
    main()
