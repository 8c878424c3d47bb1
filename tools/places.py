#!/usr/bin/env python3
"""Where the code may still have an older form: prints, for each point of docs/DESIGN-PASS.md, the lines of crates/*/src that its pattern finds.

    python3 tools/places.py            # every line found
    python3 tools/places.py --count    # only the numbers

A line found is a place to look at; the page says which of them are places, and what became of each.
"""
import collections
import difflib
import glob
import re
import sys

LINES = [
    ("1a own enums", r"^\s*(pub(\(crate\))? )?enum \w+"),
    ("1b a number that stands for none", r"//.*, or 0\b|//.*, or the number of|\bi == 0\b|\bi > 0\b|u32::MAX$|usize::MAX$"),
    ("1c numbers of cases, arm by arm", r"::\w+(\(.*\))? => [0-9]+,$"),
    ("1d flags in structs", r"^\s+(pub(\(crate\))? )?\w+: bool,"),
    ("1e errors passed on by hand, results of results", r"Err\(\w+\) => return|Err\((\w+)\) => (Err|\w+::Failed)\(|Result<Result<|, \(S, Refusal\)>"),
    ("3 loops with a counter", r"\bfor \w+ in [^{]*\.\.|^\s*while "),
    ("4a equality and tests by hand", r"=> (true|false),$|None => false,$|_ => false,$"),
    ("4b conversions by hand", r"% HALF|& 0x\w+\) as|\bas u(8|32)\b|Some\(\w+\) => Some\(|None => None,|\) -> (Reply|Answer|Push|Sending) *$|\) -> (Reply|Answer|Push|Sending) {$"),
    ("4c printing by hand", r"fn (told|say_\w+|reason|show_\w+|follow_\w+|again)\b"),
    ("6 arrays", r"^\s+(pub(\(crate\))? )?\w+: \[\w+; \w+\],|-> \[\w+; \w+\]|: Vec<(u64|Node|usize)>,"),
    ("7 traits of one call, switches on a call", r"^(pub )?trait \w+|match call\b|match call\."),
]


def sources():
    return sorted(glob.glob("crates/*/src/**/*.rt", recursive=True))


def found(pattern):
    for name in sources():
        for number, line in enumerate(open(name, encoding="utf-8"), 1):
            if re.search(pattern, line):
                yield f"{name}:{number}: {line.strip()}"


def functions():
    """Each function with its place and the shape of its body: names, numbers and texts are all alike."""
    for name in sources():
        text = open(name, encoding="utf-8").read()
        for match in re.finditer(r"\bfn (\w+)", text):
            start = re.search(r"(?m)^ *\{$|\{$|;$", text[match.end():])
            if not start or start.group().endswith(";"):
                continue
            at = match.end() + start.end() - 1
            depth, end = 0, at
            for end in range(at, len(text)):
                depth += {"{": 1, "}": -1}.get(text[end], 0)
                if depth == 0:
                    break
            tokens = re.findall(r'"[^"]*"|\w+|[^\w\s]', re.sub(r"//.*", "", text[at:end]))
            keep = {"if", "else", "match", "for", "in", "return", "let", "mut", "while", "Ok", "Err", "Some", "None"}
            shape = [t if t in keep or not re.match(r'[\w"]', t) else "a" for t in tokens]
            yield f"{name}:{text[:match.start()].count(chr(10)) + 1}: fn {match.group(1)}", shape


def twins():
    """Pairs of functions outside the tests whose bodies have nearly the same shape."""
    all_of_them = [(place, shape) for place, shape in functions() if len(shape) > 14 and "tests" not in place]
    for i, (place, shape) in enumerate(all_of_them):
        for other, likewise in all_of_them[:i]:
            matcher = difflib.SequenceMatcher(None, shape, likewise, autojunk=False)
            if matcher.quick_ratio() > 0.88 and matcher.ratio() > 0.88:
                yield f"{other} ~ {place}"


def clauses():
    """Clauses that stand three times or more, with the names of the functions' own arguments left as they are."""
    count = collections.Counter()
    for name in sources():
        for line in open(name, encoding="utf-8"):
            if re.match(r"^\s+(requires|ensures)\b.*\{", line):
                count[line.strip()] += 1
    return [f"{n} times: {clause}" for clause, n in count.most_common() if n > 2]


def signatures():
    """Functions with five parameters or more, self not counted."""
    for name in sources():
        text = open(name, encoding="utf-8").read()
        for match in re.finditer(r"\bfn (\w+)(<[^(]*>)?\(([^{;]*?)\)\s*(->|where|\{|\n\s+(requires|ensures))", text):
            depth, parts = 0, 1
            body = match.group(3).strip().rstrip(",")
            for c in body:
                depth += c in "(<[" and 1 or c in ")>]" and -1 or 0
                parts += c == "," and depth == 0
            if re.match(r"(&('\w+ )?)?(mut )?self\b", body):
                parts -= 1
            if body and parts > 4:
                yield f"{name}:{text[:match.start()].count(chr(10)) + 1}: fn {match.group(1)}, {parts} parameters"


def proofs():
    """Answers to goals, by crate: how many goals, how many lines."""
    for crate in sorted(glob.glob("crates/*")):
        goals = lines = 0
        for name in glob.glob(crate + "/proofs/**/*.antt", recursive=True):
            text = open(name, encoding="utf-8").read()
            lines += text.count("\n")
            if name.endswith(("Answers.antt", "Invariants.antt")):
                goals += len(re.findall(r"^(abbrev )?pub [\w-]+ : goal\.", text, re.M))
        if lines:
            yield f"{crate}/proofs: {goals} answers and invariants, {lines} lines with the lemmas"


def main():
    short = "--count" in sys.argv
    points = [(name, list(found(pattern))) for name, pattern in LINES]
    points.append(("2 pairs of functions of one shape", list(twins())))
    points.append(("5a clauses that stand three times or more", clauses()))
    points.append(("5b functions with five parameters or more", list(signatures())))
    points.append(("8 answers", list(proofs())))
    for name, lines in sorted(points):
        print(f"{name}: {len(lines)}")
        for line in [] if short else lines:
            print("    " + line)


main()
