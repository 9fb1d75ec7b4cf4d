#!/usr/bin/env python3
"""Lists the places in crates/*/src that docs/DESIGN-PASS.md counts, a point of that page at a time:

    tools/places.py [FOLDER] [POINT]

FOLDER is a checkout (the present folder, if none is named), POINT 1 to 7. Each place is a line FILE:LINE: WHAT, and
behind them stands how many they are. A place is a candidate: the page says which are of the form that it names."""
import collections
import glob
import os
import re
import sys


def sources(root):
    for path in sorted(glob.glob(os.path.join(root, "crates/*/src/**/*.rt"), recursive=True)):
        with open(path, encoding="utf-8") as file:
            yield os.path.relpath(path, os.path.join(root, "crates")), file.read()


def line_of(text, place):
    return text.count("\n", 0, place) + 1


# Functions: name, what stands before the body, the body, and where.
def functions(root):
    head = re.compile(r'(?ms)^( *)(?:pub(?:\(crate\))? )?(?:const )?(?:extern "C" )?fn (\w+).*?^\1\}')
    for path, text in sources(root):
        for found in head.finditer(text):
            whole = found.group(0)
            cut = re.search(r"(?m)^\s*\{\s*$", whole)
            if cut:
                front, body = whole[: cut.start()], whole[cut.start() :]
            else:
                at = whole.find("{\n")
                front, body = whole[:at], whole[at:]
            yield path, line_of(text, found.start()), found.group(2), front, body


def items(root, word):
    item = re.compile(r"(?ms)^ *(?:pub(?:\(crate\))? )?%s (\w+)[^;{(]*\{\n(.*?)^ *\}" % word)
    for path, text in sources(root):
        for found in item.finditer(text):
            yield path, line_of(text, found.start()), found.group(1), found.group(2)


def clauses(front):
    for found in re.finditer(r"(?ms)(requires|ensures)\*?( \w+)? \{ (.*?) \}$", front):
        yield found.group(1), re.sub(r"\s+", " ", found.group(3))


def parameters(front):
    start = front.find("(")
    depth, end = 0, start
    for end in range(start, len(front)):
        depth += {"(": 1, ")": -1}.get(front[end], 0)
        if depth == 0:
            break
    inside = front[start + 1 : end]
    return [p.strip() for p in re.split(r",(?![^<\[(]*[>\])])", inside) if p.strip()]


def point_1(root):
    for path, line, name, body in items(root, "enum"):
        variants = re.findall(r"(?m)^\s+([A-Z]\w*)(\(.*\))?(?: = \d+)?,", body)
        payloads = [v for v in variants if v[1]]
        if payloads and len(variants) <= 3:
            yield path, line, "enum of %d variants, %d with a value: %s" % (len(variants), len(payloads), name)
    for path, line, name, body in items(root, "struct"):
        flags = re.findall(r"(?m)^\s+(?:pub )?(\w+): bool,", body)
        values = re.findall(r"(?m)^\s+(?:pub )?(\w+): (?!bool)", body)
        if flags and values:
            yield path, line, "flag and value: %s { %s }" % (name, ", ".join(flags))
    for path, text in sources(root):
        for found in re.finditer(r"\b(number|stop|kind): u(?:8|16)\b|\b\w*Stopped\(u8\)|^(?:pub )?const [A-Z]+: u16 = 0x", text, re.M):
            yield path, line_of(text, found.start()), "number for a kind: " + found.group(0)
    for path, line, name, front, _ in functions(root):
        if re.search(r"\) -> u8\b", front) and re.search(r"refusal|fault|stop", name):
            yield path, line, "number for a refusal: fn " + name


def point_2(root):
    groups = collections.defaultdict(list)
    for path, line, name, front, body in functions(root):
        signature = re.split(r"(?m)^\s*(?:requires|ensures)", front)[0].replace(name, "F")
        code = re.sub(r"//.*", "", body)
        both = []
        for text in (signature, code):
            text = re.sub(r"\b(u8|u16|u32|u64|usize)\b", "T", text)
            text = re.sub(r"\b0x[0-9A-Fa-f]+\b|\b\d+(?:u8|u16|u32|usize)?\b", "N", text)
            text = re.sub(r"\b[A-Z][A-Z_0-9]+\b", "K", text)
            text = re.sub(r"\b[A-Z][a-z]\w*\b", "C", text)
            text = re.sub(r"\b[a-z_]+(?=\()", "f", text)
            text = re.sub(r"\b(a|x|y|sp|pc|n|v|d|i|z|c)\b(?=[,:;)\. ])", "r", text)
            both.append(re.sub(r"\s+", " ", text))
        if len(both[1]) > 30:
            groups[tuple(both)].append((path, line, name))
    for group in groups.values():
        if len(group) > 1:
            for path, line, name in group:
                yield path, line, "fn %s, as %d others" % (name, len(group) - 1)
    shapes = collections.defaultdict(list)
    for path, line, name, body in items(root, "struct"):
        if path.startswith("r6501q_host/"):
            continue
        shape = re.sub(r"\b(u8|u16|u32|u64|usize)\b", "T", body)
        shape = re.sub(r": [A-Z]\w*", ": C", re.sub(r"//.*", "", shape))
        shapes[re.sub(r"\s+", " ", shape)].append((path, line, name))
    for group in shapes.values():
        if len(group) > 1:
            for path, line, name in group:
                yield path, line, "struct %s, as %d others" % (name, len(group) - 1)


def point_3(root):
    for path, text in sources(root):
        for found in re.finditer(r"(?m)^ *(while|loop)\b.*$", text):
            yield path, line_of(text, found.start()), found.group(0).strip()


def point_4(root):
    for path, line, name, front, body in functions(root):
        compared = len(re.findall(r"\(?\w+(?:\.\w+)* == ", body))
        if re.match(r"same_", name) or compared >= 3 and not re.search(r"\blet\b|\bif\b", body):
            yield path, line, "comparison or copy: fn " + name
        elif re.search(r"(_from|^from_\w+|^host_\w+|^pack|^unpack|^registers_of|^cpu_of|^halt_of)$", name) and name != "input_count_from":
            yield path, line, "conversion: fn " + name
        elif re.search(r"^(digit|put_digits|put_decimal|put_word|digit_count|value)$", name):
            yield path, line, "printing or reading of digits: fn " + name
        elif re.search(r"\bmatch \w+ \{\s+0(x0+)? => ", body):
            yield path, line, "number to enum: fn " + name


def point_5(root):
    facts = collections.defaultdict(list)
    pairs = collections.defaultdict(list)
    for path, line, name, front, _ in functions(root):
        for kind, text in clauses(front):
            for part in text.split(" × ") if kind == "requires" else [text]:
                facts[kind, part.strip("() ")].append((path, line, name))
        ps = parameters(front)
        for a, b in zip(ps, ps[1:]):
            if ":" in a and ":" in b:
                pairs[a, b].append((path, line, name))
    for (kind, text), where in sorted(facts.items(), key=lambda f: -len(f[1])):
        if len(where) >= 3:
            yield where[0][0], where[0][1], "%s of %d functions: %s" % (kind, len(where), text)
    for (a, b), where in sorted(pairs.items(), key=lambda f: -len(f[1])):
        if len(where) >= 4:
            yield where[0][0], where[0][1], "together in %d functions: %s, %s" % (len(where), a, b)


def point_6(root):
    for path, line, name, body in items(root, "struct"):
        if re.search(r"\b(count|len|length|used): (u8|usize)", body):
            yield path, line, "values with their number beside them: struct " + name
    for path, line, name, front, _ in functions(root):
        lists = [p for p in parameters(front) if re.search(r": &(?:mut )?\[", p)]
        named = [re.sub(r":.*", "", p) for p in lists]
        for a, b in (("clocks", "codes"), ("times", "words")):
            if any(n.endswith(a) for n in named) and any(n.endswith(b) for n in named):
                yield path, line, "parallel lists %s, %s: fn %s" % (a, b, name)
        if any(p.startswith("text: &mut [u8]") for p in lists) and "at: usize" in front:
            yield path, line, "text with its length beside it: fn " + name


def point_7(root):
    for path, line, name, front, body in functions(root):
        calls = re.findall(r"(?m)^\s+\S+(?: \| \S+)* => (?:\w+::)*(\w+)\(", body)
        if len(calls) >= 3 and re.search(r"\bmatch opcode|\bmatch operation", body):
            yield path, line, "a match with %d calls: fn %s" % (len(calls), name)
    for path, text in sources(root):
        for found in re.finditer(r": fn\(|\[fn\(", text):
            yield path, line_of(text, found.start()), "function pointer"


def main():
    words = sys.argv[1:]
    asked = [w for w in words if w.isdigit()]
    root = next((w for w in words if not w.isdigit()), ".")
    points = [point_1, point_2, point_3, point_4, point_5, point_6, point_7]
    for number, point in enumerate(points, 1):
        if asked and str(number) not in asked:
            continue
        places = list(point(root))
        for path, line, what in places:
            print("%s:%d: %s" % (path, line, what))
        print("point %d: %d places\n" % (number, len(places)))


main()
