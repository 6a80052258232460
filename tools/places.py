#!/usr/bin/env python3
"""places.py [--list POINT] [ROOT]: counts the places of each point of docs/DESIGN-PASS.md in src/, and the answers in proofs/."""
import collections
import glob
import os
import re
import sys

# Variants that say that nothing is there, or that something is refused, in an enum that could be Option or Result.
NONE = {"Nothing", "Absent", "Ill", "Bad", "NoMore", "End", "Unknown", "None", "NoRecipe", "Invalid", "Missing", "Valid", "Good"}
ERR = {"Refused", "Fault", "Stop", "Failed", "Twice", "NoRoom", "Reference"}
# Parameters that functions hand on together.
TOGETHER = [{"words", "h"}, {"units", "index"}, {"out", "at"}, {"rest", "at"}, {"sheet", "text"}, {"line", "at"}, {"pairs", "m"}]


def sources(root):
    for file in sorted(glob.glob(f"{root}/crates/*/src/*.rt")):
        with open(file, encoding="utf-8") as it:
            yield os.path.relpath(file, root), re.sub(r"//[^\n]*", "", it.read())


def enums(text):
    for m in re.finditer(r"enum (\w+)(?:<[^>]*>)? \{(.*?)\n\}", text, re.S):
        body = re.sub(r"\{[^{}]*\}", "()", m[2])
        variants = re.findall(r"(\w+)(\([^)]*\))?\s*,", body)
        yield m[1], variants


def functions(text):
    """name, parameters, clauses, body"""
    for m in re.finditer(r"^( *)(?:pub )?(?:const )?fn (\w+)(?:<[^>(]*>)?\(", text, re.M):
        at, depth = m.end(), 1
        while depth:
            depth += {"(": 1, ")": -1}.get(text[at], 0)
            at += 1
        end = re.compile(rf"^{m[1]}\}}", re.M).search(text, at)
        start = re.compile(rf"^{m[1]}\{{|\{{$", re.M).search(text, at)
        if not end or not start:
            continue
        yield m[2], text[m.end() : at - 1], text[at : start.start()], text[start.end() : end.start()]


def parameters(params):
    return [it.split(":")[0].replace("mut ", "").strip() for it in re.split(r",(?![^<(\[]*[>)\]])", params) if ":" in it]


def shape(body):
    body = re.sub(r'b?"[^"]*"|b?\'[^\']*\'', "S", body)
    body = re.sub(r"\b\d[\d_]*(?:u\d+|usize)?\b", "N", body)
    keep = {"if", "else", "while", "for", "in", "return", "match", "let", "mut", "true", "false", "break", "loop"}
    body = re.sub(r"[A-Za-z_]\w*", lambda m: m[0] if m[0] in keep else "I", body)
    return re.sub(r"\s+", "", body)


def ladder(body):
    return len(re.findall(r"if [^{}]*\{\s*return (?:true|false);\s*\}", body)) >= 2


def facts(clauses):
    for clause in re.findall(r"requires \{(.*?)\}\s*(?=ensures|requires|$)", clauses, re.S):
        depth, last = 0, 0
        for i, c in enumerate(clause):
            depth += {"(": 1, ")": -1}.get(c, 0)
            if c == "×" and depth == 0:
                yield clause[last:i].strip(" ()\n")
                last = i + 1
        yield clause[last:].strip(" ()\n")


def places(root):
    found = collections.defaultdict(list)
    shapes, known = collections.defaultdict(list), collections.defaultdict(list)
    for file, text in sources(root):
        for name, variants in enums(text):
            found["1 own enums"].append(f"{file} {name}")
            names = {v for v, _ in variants}
            if len(variants) <= 3 and names & (NONE | ERR) or any(v == "Unknown" for v in names):
                found["1 like Option or Result"].append(f"{file} {name}")
        for name, params, clauses, body in functions(text):
            here = f"{file} {name}"
            ps = parameters(params)
            if "is_ingredient" in ps:
                found["1 is_ingredient"].append(here)
            if "flags" in ps:
                found["1 flags"].append(here)
            if re.search(r"\breturn (?:1[0-9]|2[0-4]);|=> (?:1[0-9]|2[0-4]),|(?:Stop|Refused|Fault)\((?:\d)", body) and "number" != name:
                found["1 numbers for refusals"].append(here)
            if body.count("\n") >= 4:
                shapes[shape(body)].append(here)
            for m in re.finditer(r"\bwhile (?!let\b)([^{]*)\{", body):
                found["3 loops"].append(here)
                if re.search(r"\b\w+ \+= 1;", body):
                    found["3 by hand"].append(here)
            if re.fullmatch(r"\s*match [^{]*\{(?:\s*[\w:]+(?:\([^)]*\))? => (?:true|false),)+\s*\}\s*", body):
                found["4 variant tests"].append(here)
            if re.fullmatch(r"\s*\w+ as \w+\s*", body):
                found["4 casts"].append(here)
            if re.search(r"while [^{]*\{\s*(\w+)\[[^\]]*\] = \w+\[[^\]]*\];\s*\w+ \+= 1;\s*\}", body):
                found["4 copies"].append(here)
            if ladder(body):
                found["4 ladders"].append(here)
            for fact in facts(clauses):
                known[fact].append(here)
            for group in TOGETHER:
                if group <= set(ps):
                    found["5 travelling"].append(f"{here} {sorted(group)}")
            for m in re.finditer(r"\[(\d{3,})\.\.(\d+)\]|\[0\.\.(\d{3,})\]", body):
                found["6 windows by number"].append(here)
            for m in re.finditer(r"match \w+ \{((?:\s*[\w:]+ =>[^\n]*)+)\s*\}", body):
                if m[1].count("(") >= 2:
                    found["7 switches"].append(here)
    for group in shapes.values():
        if len(group) > 1:
            found["2 twins"] += group
    for fact, where in known.items():
        if len(where) >= 3:
            found["5 facts in three or more"] += [f"{it} {fact[:60]}" for it in where]
    for file in sorted(glob.glob(f"{root}/crates/*/proofs/**/Answers.antt", recursive=True)):
        with open(file, encoding="utf-8") as it:
            count = len(re.findall(r"^pub \S+ : goal\.", it.read(), re.M))
        found["8 answers"] += [os.path.relpath(file, root)] * count
    return found


def main():
    words = sys.argv[1:]
    shown = words[words.index("--list") + 1] if "--list" in words else None
    root = words[-1] if words and os.path.isdir(words[-1]) else os.path.dirname(os.path.dirname(os.path.abspath(__file__)))
    found = places(root)
    for point in sorted(found):
        if shown is None:
            print(f"{point}: {len(found[point])}")
        elif point.startswith(shown):
            print(point, *found[point], sep="\n  ")


main()
