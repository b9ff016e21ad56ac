#!/usr/bin/env python3
# Counts the places that docs/DESIGN-PASS.md speaks of, by its points, in the src/ of a checkout, and lists them. It goes by text: a place
# that it finds is one to look at. Usage: forms.py [CHECKOUT] [POINT ..]
import collections
import pathlib
import re
import sys

root = pathlib.Path(sys.argv[1]) if len(sys.argv) > 1 else pathlib.Path(__file__).resolve().parent.parent
points = {int(p) for p in sys.argv[2:]} or set(range(1, 8))
FUNCTION = re.compile(r"(?m)^( *)(pub )?(?:extern \"C\" )?fn (\w+)")
NONE = re.compile(r"\b0 (if|where|for none|when)|\bor 0\b|number by which|and 0 past|0 else")


def closing(text, at, pair):
    deep = 0
    for i in range(at, len(text)):
        deep += (text[i] == pair[0]) - (text[i] == pair[1])
        if not deep:
            return i
    return len(text)


class Function:
    def __init__(self, crate, text, found):
        self.name = "%s::%s" % (crate, found[3])
        opened = text.index("(", found.end())
        closed = closing(text, opened, "()")
        signature = text[opened + 1 : closed]
        self.parameters = re.findall(r"(?:^|,)\s*(?:mut )?(\w+)\s*:", signature)
        # The body opens at the end of the signature's line, or in a line of its own after the clauses.
        line = text.index("\n", closed) if "\n" in text[closed:] else len(text)
        # A trait's function has none.
        if text[line - 1] == "{":
            body = line - 1
        else:
            body = re.compile(r"(?m)^%s\{|;$" % found[1]).search(text, closed).end() - 1
        self.clauses = text[closed + 1 : body]
        self.answer = (re.match(r"\s*-> ([^\n{]+)", self.clauses) or [None, ""])[1]
        self.body = "" if text[body] == ";" else re.sub(r"//[^\n]*", "", text[body + 1 : closing(text, body, "{}")])
        above = text[: found.start()].rstrip("\n").split("\n")
        self.comment = ""
        while above and above[-1].strip().startswith(("//", "#[")):
            self.comment = above.pop().strip() + " " + self.comment

    # The body with its names, numbers and strings left out.
    def shape(self):
        return re.sub(r"\s+", " ", re.sub(r"\b(?!if|else|for|in|while|loop|match|let|mut|return|true|false)\w+\b", "x", self.body)).strip()


sources = sorted(root.glob("crates/*/src/**/*.rt"))
texts = [(p.relative_to(root / "crates").parts[0], p.read_text()) for p in sources]
functions = [Function(crate, text, found) for crate, text in texts for found in FUNCTION.finditer(text)]


def tell(point, what, places):
    if point in points:
        print("%d. %s: %d" % (point, what, len(places)))
        for place in places:
            print("    " + place)


kinds = [(crate, found[1], found[2]) for crate, text in texts for found in re.finditer(r"(?ms)^(?:pub )?enum (\w+) \{\n(.*?)^\}", text)]
tell(1, "enums", ["%s::%s { %s }" % (c, n, ", ".join(re.findall(r"(?m)^    (\w+(?:\([^)]*\))?)", b))) for c, n, b in kinds])
structs = [(crate, found[1], found[2]) for crate, text in texts for found in re.finditer(r"(?ms)^(?:pub )?struct (\w+)[^{;]*\{\n(.*?)^\}", text)]
fields = [(c, n, re.findall(r"(?m)^    (?:pub )?(\w+): ([^,\n]+)", b)) for c, n, b in structs]
tell(1, "structs with a flag beside other fields", ["%s::%s { %s }" % (c, n, ", ".join(a for a, _ in f)) for c, n, f in fields if len(f) > 1 and any(t == "bool" for _, t in f)])
numbers = [f for f in functions if f.answer.strip() in ("u16", "u32", "usize") and NONE.search(f.comment)]
tell(1, "functions that answer a number where others have no value or a refusal", [f.name for f in numbers])

shapes = collections.defaultdict(list)
for f in functions:
    if f.shape().count("x") >= 12:
        shapes[f.shape()].append(f.name)
tell(2, "groups of functions with one shape", [", ".join(names) for names in shapes.values() if len(names) > 1])

loops = [(f, found[1]) for f in functions for found in re.finditer(r"(?m)^ *((?:while .*|loop) \{)", f.body)]
tell(3, "loops that are no for", ["%s  %s" % (f.name, head) for f, head in loops])
counted = [f for f in functions if re.search(r"(?m)^ *(\w+) [+-]= 1;$", f.body) and re.search(r"while ", f.body)]
tell(3, "functions with a loop that counts by one", [f.name for f in counted])

tell(4, "functions that are one choice of two plain values", [f.name for f in functions if re.fullmatch(r"\s*if [^{};]+ \{\s*[^{};]+\s*\} else \{\s*[^{};]+\s*\}\s*", f.body)])
tell(4, "comparisons of two lists by hand", [f.name for f in functions if re.search(r"(\w+)\[(\w+)\] != (\w+)\[\2\]", f.body)])

together = collections.Counter()
for f in functions:
    for n in (2, 3):
        for i in range(len(f.parameters) - n + 1):
            together[tuple(f.parameters[i : i + n])] += 1
tell(5, "two or three parameters that stand together in eight functions or more", ["%d  %s" % (n, ", ".join(t)) for t, n in together.most_common() if n >= 8])
clauses = collections.Counter(c for f in functions for c in re.findall(r"requires (?:\w+ )?\{ (.*) \}", f.clauses))
tell(5, "clauses asked by three functions or more", ["%d  %s" % (n, c) for c, n in clauses.most_common() if n >= 3])

tell(6, "functions with two arrays or slices of numbers", [f.name for f in functions if len(set(f.parameters) & {"fields", "starts", "mark", "path", "sets", "watch", "due", "begins"}) > 1])
tell(7, "choices of a step by a number", [f.name for f in functions if re.search(r"match \w+ \{(\s*\d+ => \w+\([^\n]*\),){3,}", f.body) or len(re.findall(r"if \w+ == \d+ \{\s*return \w+\(", f.body)) > 2])
