#!/usr/bin/env python3
"""Counts the places of docs/DESIGN-PASS.md: tools/places.py [-v] [POINT].

Each point is a pattern over the lines of crates/*/src/*.rt, but for comments. With -v each place is printed.
Point 2 compares the bodies of functions, with every name, number and string put for one sign; point 8 counts
the files with answers and their lines.
"""
import collections
import glob
import re
import sys

POINTS = {
    "1": [
        r"^ +(Refused|Failed)\(Refusal\),$",  # an own Result
        r"^ +(Nothing|Missing|Small),$",  # an own Option
        r"^ +(pub )?[a-z_]+: bool,$",  # a flag beside values
        r"^ +(pub )?(code|id|verdict|answer): (u16|i32|([a-z]+::)?[A-Z][A-Za-z]+),$",  # a code or an answer beside values
        r"^(pub )?const [A-Z_]+: usize = [0-9]{1,2};$",  # numbers for kinds
        r"=> (16|17|18|19|48|128),?$|^ +(16|17|18|19|48|128)$|return (48|128);",  # numbers for none and for kinds
    ],
    "3": [r"^ +while .*[^=]<=? .*\{$", r"^ +while .* != .*\{$"],
    "4": [
        r"/ 256\) as u8|% 256\) as u8",  # bytes of a number
        r"^fn (wide|lesser|short|bit)\(",  # conversions of one's own
        r"if ([a-z_.]+(?:\(\))?) < ([a-z_.]+(?:\(\))?|[0-9]+) \{ \1 \} else",  # the lesser one
        r"(file|made|code|from|destination): (0|false),$",  # blank values written out
        r"octets::same\(",  # equality
        r"\.is_whole\(|image::is_whole|tapa::number\(",
    ],
    "5": [
        r"(line|page|words|body|name|sheet): &mut \[u8[^,]*, (at|n|used): usize",
        r"list: &mut \[usize; 2048\], n: usize",
        r"^ +(words|list|page): &mut \[(u8|usize)[^\]]*\],$",  # the same, a parameter a line
        r"cells: &(mut )?\[u32; 16\]",
        r"list: &(mut )?\[u64; 48\]",
        r"places: &(mut )?\[u32; 100\]",
        r"rt: HostRuntime, (program|path|lock): ",
        r"requires.*(Shaped b|Lawful b area)",
    ],
    "6": [
        r"^ +(pub )?(cells|list|entries|places|bytes|sources|kept|numbers|used): (&'a mut )?\[",
        r"^ +let (n|m|k) = [a-z:._]+\(.*&mut (name|line|entry|lines|path)",
    ],
    "7": [r"test: Test", r"fn passes\("],
}


def lines():
    for file in sorted(glob.glob("crates/*/src/*.rt")):
        for number, line in enumerate(open(file, encoding="utf-8"), 1):
            if not re.match(r" *//", line):
                yield file, number, line.rstrip("\n")


def matching(patterns):
    for file, number, line in lines():
        if any(re.search(p, line) for p in patterns):
            yield f"{file}:{number}: {line.strip()}"


def bodies():
    """The functions by the shape of their bodies, and the types by their fields."""
    shapes = collections.defaultdict(list)
    for file in sorted(glob.glob("crates/*/src/*.rt")):
        text = re.sub(r"(?m)^ *//.*\n", "", open(file, encoding="utf-8").read())
        for found in re.finditer(r"(?ms)^( *)(?:pub )?fn (\w+).*?^\1\{?\n?(.*?)^\1\}$", text):
            body = found.group(0)
            body = body[body.index("{\n") + 1 :] if "{\n" in body else body
            body = re.sub(r'b?"(?:[^"\\]|\\.)*"|b?\'[^\']*\'', "S", body)
            body = re.sub(r"\b(?!if|else|while|for|in|match|return|let|mut|loop\b)[A-Za-z_]\w*\b|\b\d\w*", "X", body)
            body = re.sub(r"\s+", " ", body)
            if body.count(";") + body.count("=>") >= 2:
                shapes[body].append(f"{file}: {found.group(2)}")
        for found in re.finditer(r"(?ms)^(?:pub )?(?:struct|enum) (\w+)[^{;]*\{\n(.*?)^\}", text):
            fields = re.sub(r"\bpub |\s", "", found.group(2))
            if fields.count(",") >= 2:
                shapes[fields].append(f"{file}: {found.group(1)}")
    return [names for names in shapes.values() if len(names) > 1]


def answers():
    files = glob.glob("crates/*/proofs/**/Answers.antt", recursive=True)
    return files, sum(len(open(f, encoding="utf-8").readlines()) for f in files)


def main():
    wanted = [a for a in sys.argv[1:] if a != "-v"] or list("12345678")
    for point in wanted:
        if point == "8":
            files, count = answers()
            print(f"8: {len(files)} files with answers, {count} lines")
            continue
        places = [", ".join(n) for n in bodies()] if point == "2" else list(matching(POINTS[point]))
        print(f"{point}: {len(places)} places")
        if "-v" in sys.argv:
            print("\n".join("   " + p for p in places))


main()
