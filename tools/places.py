#!/usr/bin/env python3
"""Lists the places of the points of docs/DESIGN-PASS.md in crates/*/src.

places.py [COMMIT] [POINT]   of a commit, or of the files as they stand; of one point, or the counts of all"""
import glob
import re
import subprocess
import sys


def sources(commit):
    if commit is None:
        return {p: open(p).read() for p in sorted(glob.glob("crates/*/src/*.rt"))}
    names = subprocess.check_output(["git", "ls-tree", "-r", "--name-only", commit, "crates"], text=True).split()
    names = [n for n in names if re.fullmatch(r"crates/\w+/src/\w+\.rt", n)]
    return {n: subprocess.check_output(["git", "show", f"{commit}:{n}"], text=True) for n in names}


def code(text):
    """Without comments, and without the tests, which stand last."""
    text = text.split("#[test]")[0]
    return re.sub(r"//[^\n]*", "", text)


def lines_of(files, pattern):
    for name, text in files.items():
        for number, line in enumerate(code(text).split("\n"), 1):
            if re.search(pattern, line):
                yield f"{name}:{number}: {line.strip()}"


def functions(files):
    """Each function: place, name, parameters, contract, body."""
    for name, text in files.items():
        text = code(text)
        for m in re.finditer(r"^( *)(?:pub(?:\(crate\))? )?(?:extern \"C\" )?fn (\w+)", text, re.M):
            end = text.index("\n" + m.group(1) + "}", m.end()) if "\n" + m.group(1) + "}" in text[m.end():] else len(text)
            whole = text[m.start():end]
            opened = re.search(r"(^|\}|\n) *\{\n| \{\n| \{ ", whole)
            head = whole[:opened.end()] if opened else whole
            body = whole[len(head):]
            if "ensures" in whole or "requires" in whole:
                cut = whole.find("\n" + m.group(1) + "{")
                head, body = whole[:cut], whole[cut:]
            place = f"{name}:{text[:m.start()].count(chr(10)) + 1}"
            inner = head[head.index("("):]
            params = re.findall(r"(?:mut )?(\w+): ([^,\n]+?)(?:,|\)\s*(?:->|\n|\{|$)|\n)", inner.split("requires")[0].split("ensures")[0])
            yield place, m.group(2), params, head, body


def shape(body):
    body = re.sub(r'b?"[^"]*"', "S", body)
    body = re.sub(r"\b(?!if|else|while|for|in|let|mut|return|match|loop|true|false)[A-Za-z_]\w*\b", "I", body)
    return re.sub(r"\s+", " ", re.sub(r"\b\d\w*", "N", body)).strip()


def repeated(groups, least):
    return [f"{key}: {len(places)} ({', '.join(places)})" for key, places in sorted(groups.items()) if len(places) >= least]


def point_1(files):
    yield from lines_of(files, r"^(pub )?enum ")
    yield from lines_of(files, r"const [A-Z_]+: u8 = \d+;|const (PREDICATE|ROW|HEAD|LITERAL|LESS_THAN): usize = \d+;")
    yield from lines_of(files, r"^ *(pub )?(plain|variable): bool|fn \w+\(plain: bool")
    yield from lines_of(files, r"^ *pub (whole|fresh|clear|marked|sources): \[?usize|fn (number|binder|column|first_compared|like|scan|scan_column)\b.*(usize|u32)|-> (usize|u32)$(?<=fn)")


def point_2(files):
    groups = {}
    for place, name, _, _, body in functions(files):
        if len(body) > 90:
            groups.setdefault(shape(body), []).append(f"{name} {place}")
    for places in groups.values():
        if len(places) > 1:
            yield " = ".join(places)


def point_3(files):
    yield from lines_of(files, r"^\s*('\w+: )?(while|loop)\b")


def point_4(files):
    yield from lines_of(files, r"fn (wide|byte|two|pair|four|at_most|larger|either|both|number|kind_of|ending|cell|place|row_before|is_cell|digit|is_plain|ending_of|first_of|second_of|say)\b")
    yield from lines_of(files, r" as (u8|u16|u32|u64|usize)\b")


def point_5(files):
    facts, groups = {}, {}
    for place, name, params, head, _ in functions(files):
        crate = place.split("/")[1]
        for clause in re.findall(r"requires (?:\w+ )?\{ (.*) \}$", head, re.M):
            for fact in re.split(r" × ", clause):
                fact = fact.strip()
                fact = fact[1:-1] if fact.startswith("(") and fact.endswith(")") else fact
                facts.setdefault(f"{crate}: {fact}", []).append(name)
        names = [n for n, _ in params if n not in ("self",)]
        for a, b in zip(names, names[1:]):
            groups.setdefault(f"{crate}: parameters {a}, {b}", []).append(name)
    yield from repeated(facts, 3)
    yield from repeated(groups, 3)


def point_6(files):
    for name, text in files.items():
        for m in re.finditer(r"pub (\w+): \[[^\]]*\],?\n\s*pub (many|size|\w+s): usize", code(text)):
            yield f"{name}: {m.group(1)} with {m.group(2)}"


def point_7(files):
    yield from lines_of(files, r"\bif plain\b|&dyn|dyn Fn|: fn\(")


POINTS = [point_1, point_2, point_3, point_4, point_5, point_6, point_7]


def main():
    words = sys.argv[1:]
    chosen = [w for w in words if w.isdigit() and len(w) == 1]
    commits = [w for w in words if w not in chosen]
    files = sources(commits[0] if commits else None)
    for number, point in enumerate(POINTS, 1):
        if chosen and str(number) not in chosen:
            continue
        found = list(point(files))
        if chosen:
            print("\n".join(found))
        print(f"point {number}: {len(found)}")


main()
