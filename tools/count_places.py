#!/usr/bin/env python3
"""Counts the places of docs/DESIGN-PASS.md in crates/*/src, by point: python3 tools/count_places.py [-l] [COMMIT]

It goes by text: what it lists is looked at by a reader. -l lists the places. Without COMMIT it reads the working tree.
"""
import collections
import re
import subprocess
import sys


def sources(commit):
    """Gives {path: text} of every source file, of the working tree or of a commit."""
    tree = [] if commit is None else [commit]
    listing = ["git", "ls-tree", "-r", "--name-only", commit, "crates"] if tree else ["git", "ls-files", "-co", "--exclude-standard", "crates"]
    paths = subprocess.run(listing, capture_output=True, text=True, check=True).stdout.split()
    texts = {}
    for path in paths:
        if re.fullmatch(r"crates/\w+/src/\w+\.rt", path):
            if tree:
                texts[path] = subprocess.run(["git", "show", f"{commit}:{path}"], capture_output=True, text=True, check=True).stdout
            else:
                texts[path] = open(path, encoding="utf-8").read()
    return texts


def functions(texts):
    """Gives (place, head, body) of every function."""
    for path, text in texts.items():
        for m in re.finditer(r"^( *)(?:pub )?(?:extern \"C\" )?fn (\w+)", text, re.M):
            indent, name = m.group(1), m.group(2)
            end = re.compile(r"^%s\}" % indent, re.M).search(text, m.end())
            whole = text[m.start():end.end() if end else len(text)]
            body = re.search(r"^%s\{$|\{\n" % indent, whole, re.M)
            cut = body.start() if body else len(whole)
            yield f"{short(path)} {name}", whole[:cut], whole[cut:]


def short(path):
    return path.replace("crates/", "").replace("/src/", "/").replace(".rt", "")


def items(texts, kind):
    """Gives (place, body) of every struct or enum."""
    for path, text in texts.items():
        for m in re.finditer(r"^ *(?:pub )?%s (\w+)[^{;(]*\{(.*?)^ *\}" % kind, text, re.M | re.S):
            yield f"{short(path)} {m.group(1)}", m.group(2)


def shape(body):
    """Gives a body with names, numbers and texts replaced, so that twins have one shape."""
    body = re.sub(r"//.*", "", body)
    body = re.sub(r'b?"(\\.|[^"])*"|b?\'(\\.|[^\'])+\'', "S", body)
    words = "if else while for in match return let mut true false fn as break continue loop".split()
    body = re.sub(r"\b[A-Za-z_]\w*\b", lambda m: m.group(0) if m.group(0) in words else "N", body)
    return re.sub(r"\s+", " ", re.sub(r"\b\d+\b", "N", body))


def points(texts):
    fns = list(functions(texts))
    found = collections.OrderedDict()
    empty = r"\b(IllFormed|Nothing|Missing|Malformed|Empty|Failed|Ended|Unknown|Refused)\b"
    found["1a enums with a case for nothing or a refusal"] = [p for p, b in items(texts, "enum") if re.search(empty, b)]
    flag = r"pub (answer|number|reply|kind|is_\w+|goes_on|ends_line|\w+_noted)\s*:"
    found["1b structs with a flag or an answer beside values"] = [p for p, b in items(texts, "struct") if re.search(flag, b)]
    found["1c numbers named for kinds and refusals"] = [
        f"{short(p)} {m.group(1)}" for p, t in texts.items()
        for m in re.finditer(r"^(?:pub )?const (\w+): (?:u8|u32|usize|u64) = \d+;", t, re.M)
        if not re.search(r"MOST$|^PART$|^CALLS$|^FIRST_ID$", m.group(1))]
    found["1d arms by a bare number"] = [
        f"{p}: {len(n)} arms" for p, h, b in fns for n in [re.findall(r"^\s*\d+ =>", b, re.M)] if n]
    by_shape = collections.defaultdict(list)
    for p, h, b in fns:
        if b.count("\n") >= 3:
            by_shape[shape(b)].append(p)
    twins = [g for g in by_shape.values() if len(g) > 1]
    found["2 groups of functions with bodies of one shape"] = [" = ".join(g) for g in twins]
    loops = []
    for p, h, b in fns:
        for m in re.finditer(r"^( *)(?:while|loop)\b.*?^\1\}", b, re.M | re.S):
            if re.search(r"^\s*(\w+) (\+=|-=) |^\s*(\w+) = \3 [+-] ", m.group(0), re.M):
                loops.append(p)
    found["3 loops that count by hand"] = loops
    found["4a functions that are a match with true and false"] = [
        p for p, h, b in fns if "match" in b and re.search(r"=> true,", b) and re.search(r"=> false,", b)]
    found["4b functions that name or number each case"] = [
        p for p, h, b in fns if len(re.findall(r"=> (?:\d+|[A-Z_]{3,}|[\w:]+\((?:\w+, )*(?:0, )?b\"[^\"]*\"\)|two_words\(\d+, \w+\)),", b)) >= 3]
    found["4c structs copied field by field"] = [
        p for p, h, b in fns if len(re.findall(r"^\s*(\w+): \w+\.\1,", b, re.M)) >= 2]
    found["4d fields written twice"] = [
        f"{short(p)}: {n}" for p, t in texts.items() for n in [len(re.findall(r"^\s*(\w+): \1,$", t, re.M))] if n]
    found["4e fields copied into a local"] = [
        f"{short(p)}: {n}" for p, t in texts.items() for n in [len(re.findall(r"^\s*let \w+ = \w+(?:\.\w+)+;", t, re.M))] if n]
    facts = collections.Counter()
    for p, h, b in fns:
        for m in re.finditer(r"requires(?: \w+)? \{(.*?)\}\s*$", h, re.M):
            for fact in m.group(1).split("×"):
                facts[re.sub(r"[()]", "", fact).strip()] += 1
    found["5a facts required by three functions or more"] = [f"{f}: {n}" for f, n in facts.items() if n >= 3]
    groups = collections.Counter()
    for p, h, b in fns:
        args = re.search(r"\((.*?)\)", h, re.S)
        names = [a.strip() for a in (args.group(1) if args else "").split(",") if ":" in a]
        for i in range(len(names) - 1):
            groups[", ".join(names[i:i + 2])] += 1
    found["5b pairs of parameters in three functions or more"] = [f"{g}: {n}" for g, n in groups.items() if n >= 3]
    found["6a structs with an array and a count"] = [
        p for p, b in items(texts, "struct") if re.search(r"\[\w+; \w+\]", b) and "count: usize" in b]
    found["6b parallel arrays"] = [p for p, b in items(texts, "struct") if len(re.findall(r"\[\w+; \w+\]", b)) >= 2]
    found["6c an array or a slice with a count beside it"] = [
        p for p, h, b in fns if re.search(r"\[[^\]]*\],\s*(count|listed|size): usize", h)]
    found["7 tables and switches on which step to run"] = [
        p for p, h, b in fns if len(re.findall(r"^\s*\d+ => [\w:]+\(", b, re.M)) >= 3]
    return found


def main():
    names = [a for a in sys.argv[1:] if a != "-l"]
    found = points(sources(names[0] if names else None))
    for point, places in found.items():
        print(f"{point}: {len(places)}")
        if "-l" in sys.argv:
            for place in places:
                print(f"    {place}")


main()
