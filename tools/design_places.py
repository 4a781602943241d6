#!/usr/bin/env python3
"""Lists the places in crates/*/src that docs/DESIGN-PASS.md speaks of, by point, and counts them.

    python3 tools/design_places.py            the counts
    python3 tools/design_places.py 3 4        the places of points 3 and 4, a line each

It goes by text, so it finds what has the look of a place; what only reading finds stands in the page.
"""
import pathlib
import re
import sys

ROOT = pathlib.Path(__file__).resolve().parent.parent

# Of each point: what is looked for, and how it looks. A pattern may pass the end of a line.
LOOKS = {
    1: [
        ("`?` written out on an Option or a Result",
         r"let (?:Some|Ok)\([^)]*\) = [^;{]* else \{\s*return (?:None|Err\([^;]*\));\s*\}"),
        ("an arm that only hands on None or Err", r"(?:None|Err\(\w+\)) => (?:None|Err\([^;]*?\)),"),
        ("an arm for None or Err that gives a constant", r"(?:None|Err\(_\)) => (?:true|false|0|NOWHERE|Span::\w+|\{\})"),
        ("an enum of one's own", r"(?m)^ *(?:pub )?enum \w+"),
        ("a number, or a flag, for a kind", r"fn \w+\([^)]*\) -> (?:u8|usize)\s*\n\s*ensures[^\n]*\b(?:number|rank|code|_one|letter)\b"),
        ("a sentinel", r"_ => 0,"),
        ("a flag beside a value", r"\(bool, \w+\)|minus: bool"),
    ],
    2: [
        ("a constant said again", None),
        ("a function with the name of another crate's", None),
    ],
    3: [
        ("a loop over a range", r"for \w+ in [^{\n]*\.\.[^{\n]*\{"),
        ("a loop under a test", r"\bwhile (?!let\b)[^{]*\{"),
        ("a loop that walks a slice by hand", r"\bwhile let [^{]*\{"),
        ("a loop with no head", r"\bloop \{"),
        ("a loop over elements that ends early or counts", r"for (?:\w+|\(\w+, \w+\)) in [^.{\n]*(?:\.iter\(\)(?:\.enumerate\(\))?)? \{"),
    ],
    4: [
        ("an equality, an order or a conversion by hand", r"impl(?:<[^>]*>)? (?:PartialEq|Eq|PartialOrd|Ord|Clone|Default|From<[^{]*>|TryFrom<[^{]*>|\w+::Display)\s+for"),
        ("a function that compares or converts", r"fn (?:same_bytes|rank|of|byte|word|number|value|number_cell|container_cell|named_format|tell|unread|spell|digit)\b"),
        ("a widening cast", r"\bas (?:u64|u128|i128|u32)\b"),
        ("a copy field by field of nothing", r"NOWHERE,|: None,\n"),
        ("printing by hand", r"format!\(|b'0' \+|b'a' - 10"),
    ],
    5: [
        ("a function of five or more parameters", None),
        ("a fact or an abstraction that stands in contracts again and again", None),
    ],
    6: [
        ("an array or a buffer with a length beside it", r"(?:\w+: (?:\[[^\]]*; \w+\]|Vec<\w+>|&'a mut \[u8\]),\n\s*(?:len|depth|at|used): usize)"),
        ("a search by halves", r"high - low"),
        ("arrays that run beside each other", r"numbers: Vec<usize>,\n\s*pub scratch"),
        ("a tree in a table of numbers", r"pub (?:links|entry|first): usize,"),
    ],
    7: [
        ("a flag passed along that says which step to take", r"\b(?:keyed|last|full|found|done): bool\b"),
        ("a type without fields that stands for a step", r"pub struct \w+;\n\nimpl \w+ for"),
        ("a closure, a bound or a dyn in its place", r"\bdyn \w+|\b(?:impl )?Fn(?:Mut|Once)?\(|\bfn\("),
    ],
}


def sources():
    for path in sorted(ROOT.glob("crates/*/src/**/*.rt")):
        text = path.read_text()
        cut = text.find("#[cfg(test)]\nmod tests {")
        if path.name == "tests.rt":
            continue
        yield path.relative_to(ROOT), text if cut < 0 else text[:cut]


def by_pattern(pattern):
    for path, text in sources():
        for m in re.finditer(pattern, text):
            line = text.count("\n", 0, m.start()) + 1
            yield f"{path}:{line}: {' '.join(m.group(0).split())[:90]}"


def repeated(pattern):
    seen = {}
    for path, text in sources():
        for m in re.finditer(pattern, text, re.M):
            line = text.count("\n", 0, m.start()) + 1
            seen.setdefault(m.group(1), []).append(f"{path}:{line}: {m.group(0).strip()[:90]}")
    for name, places in sorted(seen.items()):
        if len({p.split("/")[1] for p in places}) > 1:
            yield from places


def long_heads():
    for path, text in sources():
        for m in re.finditer(r"fn (\w+)(?:<[^(]*>)?\(([^{]*?)\)\s*(?:->|\n|where|ensures|requires|\{)", text):
            names = [p for p in m.group(2).split(",") if ":" in p or "self" in p]
            if len(names) >= 5:
                line = text.count("\n", 0, m.start()) + 1
                yield f"{path}:{line}: {m.group(1)} takes {len(names)}"


def abstractions():
    words = {}
    for path, text in sources():
        for m in re.finditer(r"^ *(?:ensures|requires)[^\n]*", text, re.M):
            for w in set(re.findall(r"\b(listed|text_bytes|written|held|opened|notes|progress|tables|rows_in|rows_held|accepted_in|bytes_in|texts_of|ghost_name|part_ok|moved|fits|drop at|drop self)\b", m.group(0))):
                words.setdefault((path.parts[1], w), []).append(1)
    for (crate, w), n in sorted(words.items()):
        if len(n) >= 3:
            yield f"crates/{crate}/src: {w} in {len(n)} clauses"


def places(point):
    for what, pattern in LOOKS[point]:
        if pattern:
            yield what, list(by_pattern(pattern))
        elif "constant" in what:
            yield what, list(repeated(r"^(?:pub )?const (\w+):[^\n]*"))
        elif "name of another" in what:
            yield what, list(repeated(r"^ *(?:pub(?:\(crate\))? )?fn (?!new\b|len\b|clear\b|push\b|main\b|run\b|from\b|show\b|is_empty\b|compile\b|mentions\b|execute\b|compare\b)(\w+)\b[^\n]*"))
        elif "parameters" in what:
            yield what, list(long_heads())
        else:
            yield what, list(abstractions())


def main():
    wanted = [int(a) for a in sys.argv[1:]]
    for point in wanted or sorted(LOOKS):
        found = list(places(point))
        print(f"point {point}: {sum(len(p) for _, p in found)}")
        for what, lines in found:
            print(f"  {len(lines):3} {what}")
            if wanted:
                for line in lines:
                    print(f"        {line}")


main()
