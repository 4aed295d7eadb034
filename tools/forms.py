#!/usr/bin/env python3
"""Lists the places in src/ that are written in older forms of the language.

    python3 tools/forms.py          every place, under the point that it belongs to, then the counts
    python3 tools/forms.py COUNTS   the counts alone

A place is a line that a pattern finds, so the list is a list of candidates: docs/DESIGN-PASS.md says what became of each.
Tests are left out.
"""
import collections
import pathlib
import re
import sys

ROOT = pathlib.Path(__file__).resolve().parent.parent
FUNCTION = re.compile(r"^( *)(?:pub(?:\([a-z]+\))? )?(?:const )?fn (\w+)(?:<[^(]*>)?\(", re.M)
TOKEN = re.compile(r"[A-Za-z_]\w*|\d[\d_]*|b?'[^']*'|b?\"[^\"]*\"|[^\s\w]")
KEYWORDS = {
    "if", "else", "match", "for", "in", "while", "let", "mut", "return", "Some", "None", "Ok", "Err", "self", "Self",
    "true", "false", "as", "break", "continue",
}


def sources():
    for path in sorted(ROOT.glob("crates/*/src/**/*.rt")):
        text = path.read_text()
        yield str(path.relative_to(ROOT)), text.split("#[cfg(test)]\nmod tests {")[0] if path.name != "tests.rt" else ""


class Function:
    def __init__(self, file, line, name, parameters, result, clauses, body):
        self.file, self.line, self.name = file, line, name
        self.parameters, self.result, self.clauses, self.body = parameters, result, clauses, body

    @property
    def place(self):
        return f"{self.file}:{self.line}: {self.name}"


def functions(file, text):
    for start in FUNCTION.finditer(text):
        indent = start.group(1)
        opened = re.compile(r"^%s\{$|\{\}$| \{$|;$" % indent, re.M).search(text, start.end())
        head, rest = split_parameters(text[start.end() : opened.start()])
        body = ""
        if opened.group().strip() == "{":
            body = text[opened.end() : re.compile(r"^%s\}$" % indent, re.M).search(text, opened.end()).start()]
        clauses = re.findall(r"(?:requires|ensures\*?)(?: \w+)? \{ (.*) \}", rest)
        first = rest.strip().split("\n")[0].strip()
        parameters = [re.sub(r"\s+", " ", p.strip()) for p in re.split(r",(?![^<(\[]*[>)\]])", head) if p.strip()]
        line = text.count("\n", 0, start.start()) + 1
        yield Function(file, line, start.group(2), parameters, first if first.startswith("->") else "", clauses, body)


def split_parameters(text):
    depth = 1
    for place, char in enumerate(text):
        depth += {"(": 1, ")": -1}.get(char, 0)
        if depth == 0:
            return text[:place], text[place + 1 :]
    return text, ""


def lines(pattern, skip=None):
    found = []
    for file, text in sources():
        for number, line in enumerate(text.split("\n"), 1):
            code = line.split("//")[0]
            if re.search(pattern, code) and not (skip and re.search(skip, code)):
                found.append(f"{file}:{number}: {line.strip()}")
    return found


def all_functions():
    return [f for file, text in sources() for f in functions(file, text)]


def sums_of_two():
    found = []
    for file, text in sources():
        for match in re.finditer(r"enum (\w+)(?:<[^>]*>)? \{\n(.*?)\n\}", text, re.S):
            variants = [v.strip().rstrip(",") for v in match.group(2).split("\n") if not v.strip().startswith("//")]
            shapes = sorted(bool(re.match(r"\w+\([^,]*\)$", v)) for v in variants)
            if shapes in ([False, True], [True, True]) and not any("{" in v for v in variants):
                found.append(f"{file}:{text.count(chr(10), 0, match.start()) + 1}: enum {match.group(1)}")
    return found


def relays():
    """Functions that only hand their own parameters on to another."""
    found = []
    for f in all_functions():
        names = [p.split(":")[0].replace("mut ", "").strip() for p in f.parameters if "self" not in p.split(":")[0]]
        call = re.fullmatch(r"\s*(?:self\.)?(\w+)(?:::<\w+>)?\(([^()]*)\)\s*", f.body)
        if call and [a.strip() for a in call.group(2).split(",") if a.strip()] == names:
            found.append(f"{f.place} -> {call.group(1)}")
    return found


def shape(body):
    code = re.sub(r"//.*", "", body)
    return tuple(t if t in KEYWORDS or not re.match(r"[\w'\"]", t) else "_" for t in TOKEN.findall(code))


def twins():
    groups = collections.defaultdict(list)
    for f in all_functions():
        groups[shape(f.body)].append(f)
    found = []
    for body, group in groups.items():
        if len(body) >= 14 and len(group) > 1:
            found.append(" = ".join(f.place for f in group))
    return found


def namesakes():
    """Functions outside impl blocks that have one name in two files."""
    uses = collections.defaultdict(list)
    for file, text in sources():
        for match in re.finditer(r"^(?:pub(?:\([a-z]+\))? )?fn (\w+)", text, re.M):
            uses[match.group(1)].append(f"{file}:{text.count(chr(10), 0, match.start()) + 1}")
    return [f"{name}: {' '.join(files)}" for name, files in sorted(uses.items()) if len(files) > 1 and name != "main"]


def counting_loops():
    return lines(r"\bwhile (?!let)|\bfor \w+ in [\w.()]+\.\.|\benumerate\(\)|\+= 1;")


def adding_loops():
    """Loops whose body only adds up, or looks for the first that fits."""
    found = []
    for f in all_functions():
        for loop in re.finditer(r"\n( *)for [^\n]* \{\n(.*?)\n\1\}", f.body, re.S):
            body = loop.group(2)
            if re.search(r"^\s*\w+ \+= ", body, re.M) or re.search(r"return (true|false|Some\(\w+\)|\w+);", body):
                found.append(f.place)
    return found


def repeated_facts():
    uses = collections.defaultdict(set)
    for f in all_functions():
        for clause in f.clauses:
            uses[re.sub(r"\s+", " ", clause)].add(f.place)
    return [f"{len(u)} times: {c}" for c, u in sorted(uses.items()) if len(u) > 2]


def travelling():
    uses = collections.defaultdict(set)
    for f in all_functions():
        named = [p for p in f.parameters if ":" in p and not p.startswith("heap:")]
        for size in range(2, len(named) + 1):
            for i in range(len(named) - size + 1):
                uses[", ".join(p.split(":")[0] for p in named[i : i + size])].add(f.place)
    wide = {c: u for c, u in uses.items() if len(u) > 2}
    kept = [c for c in wide if not any(c != d and c in d and len(wide[d]) >= len(wide[c]) for d in wide)]
    return [f"{len(wide[c])} times: {c}" for c in sorted(kept)]


def counted_buffers():
    found = []
    for file, text in sources():
        for match in re.finditer(r"struct (\w+)[^{;]*\{\n(.*?)\n\}", text, re.S):
            if re.search(r": (&mut )?\[[^\]]*\]", match.group(2)) and re.search(r"(count|len|at|used): u", match.group(2)):
                found.append(f"{file}:{text.count(chr(10), 0, match.start()) + 1}: struct {match.group(1)}")
    return found


def parallel():
    return lines(r"let (labels|calls) = \[")


def switches():
    found = []
    for file, text in sources():
        for match in re.finditer(r"^enum (\w+) \{\n((?:    \w+,\n)+)\}", text, re.M):
            found.append(f"{file}:{text.count(chr(10), 0, match.start()) + 1}: enum {match.group(1)}")
    return found + lines(r": fn\(|\[fn\(")


def proofs():
    files = [p for p in ROOT.glob("crates/*/proofs/**/*.antt")]
    answers = [p for p in files if p.name in ("Answers.antt", "Invariants.antt", "Proof.antt")]
    rows = [f"{len(answers)} files of answers and invariants, {sum(p.read_text().count(chr(10)) for p in answers)} lines"]
    lemmas = [p for p in files if p not in answers and p.name != "Lib.antt"]
    return rows + [f"{len(lemmas)} files of lemmas, {sum(p.read_text().count(chr(10)) for p in lemmas)} lines"]


def texts():
    return [f.place for f in all_functions() if "Result<String, AllocError>" in f.result]


POINTS = [
    ("1a enums of the shape of Option or Result", sums_of_two),
    ("1b an Option that holds a failure", lambda: lines(r"Option<(Fault|Stop)>")),
    ("1c numbers as errors", lambda: lines(r"Result<.*, (u8|u16|u32|u64|usize)>")),
    ("1d flags in structs, and flags that a changing call answers", lambda: lines(r"^    (pub )?\w+: bool,|fn \w+\(&mut .*-> bool")),
    ("1e numbers that stand for kinds", lambda: lines(r"reason: u8|-> u8|const (NEITHER|VERIFIED|DISCLOSED)\b", r"fn (weight|grade|put)")),
    ("1f matches that only pass a failure on", lambda: lines(r"Err\((\w+)\) => Err\(|None => None,|None => unreachable")),
    ("2a functions that only hand on their parameters", relays),
    ("2b functions of one shape", twins),
    ("2c functions that only make a table of one value", lambda: lines(r"^fn no_\w+")),
    ("2d functions of one name in two files", namesakes),
    ("3a loops that count by hand", counting_loops),
    ("3b loops that add up or look for the first", adding_loops),
    ("4a conversions by functions of their own", lambda: lines(r"fn (numbered|number|lent)\(")),
    ("4b texts laid out by functions", texts),
    ("4c casts", lambda: lines(r"\bas (u|i)(8|16|32|64|128|size)\b")),
    ("5a facts in three contracts or more", repeated_facts),
    ("5b parameters that travel together, in three signatures or more", travelling),
    ("6a buffers with a length beside them", counted_buffers),
    ("6b parallel arrays", parallel),
    ("6c tables filled by index", lambda: lines(r"^\s*\w+(\.\w+)?\[[^\]]+\] = ")),
    ("7 switches on a step, tables of functions", switches),
    ("8 proofs", proofs),
]


def main():
    counts_only = sys.argv[1:] == ["COUNTS"]
    for title, find in POINTS:
        found = find()
        print(f"{title}: {len(found)}")
        if not counts_only:
            for row in found:
                print(f"    {row}")


main()
