#!/usr/bin/env python3
"""Lists places in crates/*/src by the points of docs/DESIGN-PASS.md.

    tools/places.py [FOLDER]       the count of each pattern
    tools/places.py --all [FOLDER] each place too
"""
import collections
import glob
import re
import sys

NUMBER = r"(?:[iu](?:8|16|32|64|128|size))"

# Patterns by line, for each point.
PATTERNS = {
    1: [
        ("a refusal as a number", r"-> u8 \{|-> u8$|Result<[^;{]*, u8>|\(u8\)|-> \(u8,|\bu8\)\]"),
        ("a variant or a value for none", r"^\s*Nothing,|^\s*(?:Refused\(u8\)|NoMemory|Memory),|=> 0,$|=> 255,$"),
        ("a flag", r"^\s*(?:pub )?[a-z_]+: bool,|\b[a-z_]+: bool[,)]"),
        ("an Option or a Result taken apart to be made again", r"Ok\(\w+\) => Ok\(|Err\((?:_|\w+)\) => (?:return )?Err\(|Some\(\w+\) => Some\(|None => None,|return Err\(\w+\);"),
    ],
    3: [
        ("while and loop", r"^\s*(?:while|loop)\b"),
        ("for over numbers", r"^\s*for \w+ in [^{]*\.\."),
    ],
    4: [
        ("as", r" as (?:" + NUMBER + r"|char)\b"),
        ("order, equality and printing in functions", r"fn (?:precedes|eq|cmp|words|write_\w+)\b"),
        ("a range tested by hand", r"< 1 \|\||< 0 \|\||< -?\d+ \|\|"),
    ],
    6: [
        ("a place or a length beside a buffer", r"^\s*(?:pub )?(?:at|start|end|begins|count|next|long|index|laid): (?:usize|&mut u16),|\(usize, Sight\)"),
        ("taken by a place", r"\w\[(?:i|j|k|count - 1|count|\w+ - 1)\](?! =)"),
    ],
    7: [
        ("a switch on what is asked", r"enum Asked|match asked|colon"),
    ],
}


def sources(folder):
    for name in sorted(glob.glob(f"{folder}/crates/*/src/**/*.rt", recursive=True)):
        yield name[len(folder) + 1:], open(name).read()


def by_lines(folder):
    for name, text in sources(folder):
        for number, line in enumerate(text.splitlines(), 1):
            if line.lstrip().startswith(("//", "ghost")):
                continue
            yield name, number, line


def functions(text):
    """Each function's name, line and body."""
    for found in re.finditer(r"\bfn (\w+)", text):
        depth, start, i = 0, None, found.end()
        while i < len(text):
            if text[i] == "{":
                line = text[text.rfind("\n", 0, i) + 1:i]
                if start is None and not re.match(r"\s*(?:requires|ensures)\b", line):
                    start = i
                depth += 1
            elif text[i] == "}":
                depth -= 1
                if depth == 0 and start is not None:
                    yield found.group(1), text.count("\n", 0, found.start()) + 1, text[start:i + 1]
                    break
            elif text[i] == ";" and depth == 0:
                break
            i += 1


def shape(body):
    """A body with its names and numbers left out, so that functions which differ in these alone are alike."""
    names, out = {}, []
    for token in re.findall(r"b?'(?:\\.|[^'])'|\"[^\"]*\"|\w+|[^\s\w]", re.sub(r"//.*", "", body)):
        if re.match(r"\d|b?'|\"", token):
            out.append("#")
        elif re.match(r"[A-Za-z_]", token) and token not in ("if", "else", "match", "for", "in", "let", "mut", "return", "while", "self", "Some", "None", "Ok", "Err", "fn", "as"):
            out.append(f"${names.setdefault(token, len(names))}")
        else:
            out.append(token)
    return " ".join(out)


def twins(folder):
    """Groups of functions of one shape, of at least 25 tokens, outside of impls of traits."""
    groups = collections.defaultdict(list)
    for name, text in sources(folder):
        for function, line, body in functions(text):
            form = shape(body)
            if form.count(" ") >= 24:
                groups[form].append(f"{name}:{line} {function}")
    return [group for group in groups.values() if len(group) > 1]


def facts(folder):
    """Facts that at least three functions require."""
    count = collections.Counter()
    for _, text in sources(folder):
        for clause in re.findall(r"^\s*requires (?:\w+ )?\{ (.*) \}$", text, re.M):
            for fact in clause.split(" × "):
                count[re.sub(r"\.(?:old|now)\b", "", fact.strip("() "))] += 1
    return [(fact, n) for fact, n in count.most_common() if n >= 3]


def travellers(folder):
    """Groups of three parameters that at least three functions take."""
    count = collections.Counter()
    for _, text in sources(folder):
        for found in re.findall(r"\bfn \w+(?:<[^>]*>)?\(([^)]*)\)", text):
            names = [p.split(":")[0].strip() + ":" + p.split(":", 1)[1].strip() for p in found.split(",") if ":" in p]
            for i in range(len(names) - 2):
                count[", ".join(names[i:i + 3])] += 1
    return [(group, n) for group, n in count.most_common() if n >= 3]


def main():
    arguments = [a for a in sys.argv[1:] if a != "--all"]
    folder = arguments[0] if arguments else "."
    everything = "--all" in sys.argv
    for point, patterns in PATTERNS.items():
        for label, pattern in patterns:
            places = [(n, i, l) for n, i, l in by_lines(folder) if re.search(pattern, l)]
            print(f"{point} {label}: {len(places)}")
            if everything:
                for name, number, line in places:
                    print(f"    {name}:{number} {line.strip()}")
    for label, rows in (("2 functions of one shape", twins(folder)), ("5 facts that three functions require", facts(folder)), ("5 parameters that three functions take together", travellers(folder))):
        print(f"{label}: {len(rows)}")
        if everything:
            for row in rows:
                print("    " + (" = ".join(row) if isinstance(row, list) else f"{row[1]} times: {row[0]}"))


main()
