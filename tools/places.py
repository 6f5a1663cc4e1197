#!/usr/bin/env python3
"""Counts the places in src/ that could be written in another form, for docs/DESIGN-PASS.md.

usage: python3 tools/places.py [COMMIT]     with no commit, the files as they lie; prints each place, then the counts

It goes by text, so a place that it prints is a place to read, not a fault: the page says of each kind what became of it.
"""

import re
import subprocess
import sys
from collections import defaultdict

COMMIT = sys.argv[1] if len(sys.argv) > 1 else None


def shell(*words):
    return subprocess.run(words, capture_output=True, text=True, check=True).stdout


def read_all(pattern):
    """The files whose names match, with their text."""
    if COMMIT:
        names = shell("git", "ls-tree", "-r", "--name-only", COMMIT).split("\n")
    else:
        names = shell("git", "ls-files", "--cached", "--others", "--exclude-standard").split("\n")
    files = {}
    for name in sorted(set(names)):
        if re.fullmatch(pattern, name):
            try:
                files[name] = shell("git", "show", f"{COMMIT}:{name}") if COMMIT else open(name).read()
            except FileNotFoundError:
                pass
    return files


class Function:
    def __init__(self, file, line, head, contract, body):
        self.file, self.line, self.head, self.contract, self.body = file, line, head, contract, body
        self.name = re.search(r"fn (\w+)", head).group(1)

    def parameters(self):
        inside = self.head[self.head.index(self.name) + len(self.name):]
        inside = inside[inside.index("(") + 1:]
        parts = [p.strip() for p in re.split(r",(?![^<\[(]*[>\])])", inside.split(") ->")[0].rstrip(") \n"))]
        return [re.sub(r"^mut ", "", p) for p in parts if ":" in p]


def without_comments(text):
    return re.sub(r"//[^\n]*", "", text)


def functions(file, text):
    """The functions with a body: head, clauses, body, by brackets."""
    found = []
    for m in re.finditer(r"^[ \t]*(?:pub(?:\([a-z]+\))? )?(?:const )?fn \w+", text, re.M):
        at, depth, clause = m.end(), 0, m.end()
        body = None
        while at < len(text):
            c = text[at]
            if c == ";" and depth == 0:
                break
            if c in "([":
                depth += 1
            if c in ")]":
                depth -= 1
            if c == "{" and depth == 0:
                end, level = at, 0
                while True:
                    level += {"{": 1, "}": -1}.get(text[end], 0)
                    if level == 0:
                        break
                    end += 1
                before = text[clause:at]
                if re.search(r"(requires|ensures)\*?( \w+)?\s*$", before):
                    at = end + 1
                    continue
                body = text[at:end + 1]
                break
            at += 1
        if body is None:
            continue
        whole = text[m.start():at]
        cut = re.search(r"\n\s*(requires|ensures)", whole)
        head = whole[:cut.start()] if cut else whole
        contract = whole[cut.start():] if cut else ""
        found.append(Function(file, text[:m.start()].count("\n") + 1, " ".join(head.split()), contract, body))
    return found


def tell(point, what, places):
    for place in places:
        print(f"{point} {what}: {place}")
    counts.append((point, what, len(places)))


def lines_with(pattern, files):
    return [f"{file}:{n}: {line.strip()}" for file, text in files.items()
            for n, line in enumerate(text.split("\n"), 1) if re.search(pattern, line) and not line.strip().startswith("//")]


def option_shaped(files):
    places = []
    for file, text in files.items():
        for m in re.finditer(r"enum (\w+)[^{]*\{(.*?)\n\}", without_comments(text), re.S):
            bodies = re.sub(r"\{[^}]*\}|\([^)]*\)", "@", m.group(2))
            variants = [v.strip() for v in bodies.split(",") if v.strip()]
            if len(variants) == 2 and sum("@" in v for v in variants) >= 1:
                places.append(f"{file}: {m.group(1)} has {' and '.join(variants)}")
    return places


def codes(all_functions):
    """Functions that turn variants into numbers or texts, or numbers into variants, by a match."""
    places = []
    for f in all_functions:
        arms = re.findall(r"^\s*(.+?) => (.+?),?$", f.body, re.M)
        numbers = [a for a in arms if re.fullmatch(r"-?\d+", a[1]) or re.fullmatch(r"\(?\d+(, .*\))?", a[0])]
        texts = [a for a in arms if re.fullmatch(r"(\"[^\"]*\"|'.')", a[1])]
        if numbers or texts:
            places.append(f"{f.file}:{f.line}: {f.name}")
    return places


def twins(all_functions):
    """Functions whose bodies are the same but for the names in them."""
    groups = defaultdict(list)
    for f in all_functions:
        words = re.findall(r"\w+|[^\s\w]", without_comments(f.body))
        if len(words) < 16:
            continue
        seen = {}
        shape = tuple(seen.setdefault(w, f"_{len(seen)}") if re.match(r"[A-Za-z]\w*", w) and w not in KEYWORDS else
                      ("0" if w.isdigit() else w) for w in words)
        groups[shape].append(f)
    return [", ".join(f"{f.file}:{f.line} {f.name}" for f in group) for group in groups.values() if len(group) > 1]


KEYWORDS = {"let", "mut", "for", "in", "while", "if", "else", "match", "return", "Ok", "Err", "Some", "None", "self", "as"}


def facts(all_functions):
    """Clauses (as they stand, with old, new and now taken out) that three functions or more have."""
    having = defaultdict(set)
    for f in all_functions:
        for clause in re.findall(r"(?:requires|ensures)\*?(?: \w+)? \{ (.*) \}\s*$", f.contract, re.M):
            parts = [clause] if "→" not in clause else [p for p in clause.split(" → ")[:-1]]
            for part in parts:
                plain = re.sub(r"\.(old|new|now|entry)\b", "", part).strip("() ")
                if len(plain) > 8:
                    having[plain].add(f"{f.file}:{f.line} {f.name}")
    return [f"`{fact}`: {len(where)} functions: {'; '.join(sorted(where))}"
            for fact, where in sorted(having.items()) if len(where) >= 3]


def travelling(all_functions):
    """Groups of two parameters or more, by name and type, that three functions or more take together."""
    having = defaultdict(set)
    for f in all_functions:
        ps = sorted(set(re.sub(r"\s", "", re.sub(r"'\w+ ", "", p)) for p in f.parameters()))
        for i in range(len(ps)):
            for j in range(i + 1, len(ps)):
                having[(ps[i], ps[j])].add(f"{f.file}:{f.line} {f.name}")
    return [f"{a}, {b}: {len(where)} functions: {'; '.join(sorted(where))}"
            for (a, b), where in sorted(having.items()) if len(where) >= 3]


counts = []
source = read_all(r"crates/\w+/src/.*\.rt")
proofs = read_all(r"crates/\w+/proofs/.*\.antt")
every = [f for file, text in source.items() for f in functions(file, text)]

tell(1, "an enum of the shape of Option or Result", option_shaped(source))
tell(1, "a function that matches variants to numbers or texts, or numbers to variants", codes(every))
tell(1, "an error handed on, or replaced, by a match", lines_with(r"Err\((e|_|refusal)\) =>|\.or\(Err|_ => return Err", source))
tell(2, "functions that are the same but for names", twins(every))
tell(3, "a loop that counts by hand", lines_with(r"^\s*while ", source))
tell(3, "a loop over numbers", lines_with(r"\bfor \w+ in \(?[\w.()]*\.\.", source))
tell(3, "a loop over numbered elements", lines_with(r"\bfor \(\w+, \w+\) in .*enumerate", source))
tell(3, "a loop that sums, searches or tests by hand", [
    f"{f.file}:{f.line}: {f.name}" for f in every
    if re.search(r"\bfor [^{]*\{[^}]*(\+= |return (Some|true|false|i\b)|saturating_add)", f.body)])
tell(4, "a conversion by as", lines_with(r"^(?!\s*(pub |ghost )?use ).* as (u8|u16|u32|u64|usize|i32|i64)\b", source))
tell(4, "a comparison, conversion or text written by hand", lines_with(
    r"fn (not_after|eq|cmp|partial_cmp|clone|earlier|told|held|\w+_word|\w+_words|\w+_byte|kind_of|pile_of)\b|fn kind\(self\)"
    r"|impl.* (From|TryFrom|Display|PartialEq|PartialOrd|Ord|Clone)\b.* for ", source))
tell(4, "a value of zeros written out", [
    f"{file}:{text[:m.start()].count(chr(10)) + 1}: {m.group(1)}" for file, text in source.items()
    for m in re.finditer(r"(\w+) \{(?:\s*\w+: (?:0|None|false|\[(?:0|None|false); \d+\]),?)+\s*\}", text)])
tell(5, "a clause that three functions or more have", facts(every))
tell(5, "parameters that three functions or more take together", travelling(every))
tell(6, "an array", lines_with(r"\[[\w<>:{}, ]+; ?\w+\]", {f: t.split("#[cfg(test)]")[0] for f, t in source.items() if "/damaged/" not in f}))
tell(6, "a length beside", lines_with(r"^\s*(len|length|cells|ports|flying): usize,", source))
tell(7, "a function pointer or a dyn", lines_with(r"\bdyn |: fn\(", source))
tell(7, "a match that picks a step, or a kind that is handed down to be matched", lines_with(r"match (pile|accepts|\(byte, accepts\))|accepts: Accepts\)", source))
answers = [f"{file}: {len(re.findall(r'^pub ', text, re.M))}" for file, text in proofs.items() if file.endswith("Answers.antt")]
print("8 files of answers:", len(answers), "with answers:", sum(int(a.rsplit(' ', 1)[1]) for a in answers))
print("8 files of invariants:", sum(f.endswith("Invariants.antt") for f in proofs),
      "other files of proofs/:", sum(not f.endswith(("Answers.antt", "Invariants.antt")) for f in proofs),
      "lines of proofs/:", sum(t.count("\n") for t in proofs.values()))
print()
for point, what, n in counts:
    print(f"| {point} | {what} | {n} |")
