#!/usr/bin/env python3
"""Spells the repository's own definitions, lemmas, fields, constructors and local names as Rattle's guide to contracts
asks: in snake case. `knownIn` becomes `known_in`, `framed-or-none` becomes `framed_or_none`. Types and modules keep
upper camel case, and a name that the toolchain's library or a generated module has is left as it is. Run once, at the
top, behind the toolchain's own port.py; in pages only names in backticks change.

usage: respell.py [--list]     --list prints the renamings and what would fall together, and writes nothing
"""
import glob
import re
import sys

TOKEN = re.compile(r"[^\s(){}\[\];,.⌜⌝\"«»`|:@=]+")
CAMEL = re.compile(r"^[a-z][a-z0-9]*([A-Z][a-z0-9]*)+[?'′₀-₉]*$")
DASH = re.compile(r"^→?[a-zα-ω0-9?'→₀-₉]+(-[A-Za-zα-ω0-9?'→₀-₉]+)+$")
GENERATED = re.compile(r"\b(tie|goal|given)\.")


def spelled(name):
    name = re.sub(r"(?<=[a-z0-9])([A-Z])", lambda m: "_" + m.group(1).lower(), name)
    name = re.sub(r"([A-Z])", lambda m: m.group(1).lower(), name)
    return name.replace("-", "_")


def in_folder_of_function(path):
    return "/proofs/" in path and path.endswith(("/Proof.antt", "/Answers.antt", "/Invariants.antt"))


def code(line):
    at = line.find("--")
    return line if at < 0 or not (at == 0 or line[at - 1] == " ") else line[:at]


def imported(text):
    """The names that a file takes from the library."""
    names = set()
    for m in re.finditer(r"\buse\s+([^\s{};]+?)\.?(\{([^}]*)\})?\s*(?:as\s+\S+)?\s*$", text, re.M):
        own = re.match(r"Rattle\.(" + "|".join(CRATES) + r")\.", m.group(1))
        if not own or re.search(r"\.(Goals|Given|Tie|Statement)$", m.group(1)):
            listed = m.group(3) if m.group(2) else m.group(1).rsplit(".", 1)[-1]
            for n in listed.split(","):
                names.update(n.split())
    return names


def defined(path, text):
    """The names that a file defines: at the head of a signature, as a parameter, a field, a constructor, by λ or let."""
    names = set()
    function = in_folder_of_function(path)
    for line in text.split("\n"):
        line = code(line)
        m = re.match(r"\s*(?:let\s+)?(?:pub\s+|abbrev\s+|private\s+|unfoldable\s+)*([^\s(){}:]+(?:\s+[^\s(){}:]+)*)\s*:(?:\s|$)", line)
        if m and not (function and GENERATED.search(line)):
            names.update(m.group(1).split())
        for m in re.finditer(r"[({]([^(){}:]+?)\s*:\s", line):
            names.update(m.group(1).split())
        for m in re.finditer(r"λ\s*([^.]+)\.", line):
            names.update(TOKEN.findall(m.group(1)))
        m = re.match(r"\s*let\s+(.+?)\s*(?::.*)?=", line)
        if m:
            names.update(TOKEN.findall(m.group(1)))
        m = re.match(r"\s*(?:pub\s+)?([^\s(){}:=]+)(\s+[^=]*)?\s=(\s|$)", line)
        if m and not function:
            names.update(TOKEN.findall(m.group(0)))
        for m in re.finditer(r"\(inl ([^()]+)\)|\(inr ([^()]+)\)", line):
            names.update(TOKEN.findall(m.group(1) or m.group(2)))
    return names


CRATES = [line.split(":")[0].strip() for line in open("crates.txt") if ":" in line and not line.startswith("#")]
ANTT = sorted(p for c in CRATES for p in glob.glob(f"crates/{c}/**/*.antt", recursive=True) if "/out/" not in p)
SOURCES = sorted(p for c in CRATES for p in glob.glob(f"crates/{c}/src/**/*.rt", recursive=True))
EDITS = sorted(p for c in CRATES for p in glob.glob(f"crates/{c}/must-fail/*.edit"))
PAGES = sorted(glob.glob("*.md") + glob.glob("docs/**/*.md", recursive=True) + glob.glob("tools/**/*.md", recursive=True))


# record fields, which stand behind a dot and so hide no definition
FIELDS = {"as_load", "as_store"}


def main():
    texts = {p: open(p, encoding="utf-8").read() for p in ANTT + SOURCES + EDITS + PAGES}
    own, snake, kit, generated = set(), set(), {}, set()
    for p in ANTT:
        kit[p] = imported(texts[p])
        found = defined(p, texts[p])
        own |= {n for n in found if CAMEL.match(n) or DASH.match(n)}
        snake |= {n for n in found if re.match(r"^→?[a-z0-9]+(_[a-z0-9?'→]+)+$", n)}
        if in_folder_of_function(p):
            for line in texts[p].split("\n"):
                m = re.match(r"(?:pub\s+)?(\S+)\s*:\s*.*(?:tie\.Need-|goal\.)", line)
                if m:
                    generated.add(m.group(1))
    everywhere = set().union(*kit.values())
    names = {n: spelled(n) for n in own if n not in everywhere and CAMEL.match(n)}
    # a lemma that would have its function's name gets _lem
    taken = set(names.values()) | snake | everywhere
    for n in own:
        if n not in everywhere and not CAMEL.match(n):
            names[n] = spelled(n) + ("_lem" if spelled(n) in taken else "")
    lemmas = {n: n + "_lem" for n in (snake & {names[n] for n in own if n in names and CAMEL.match(n)}) - FIELDS}
    if "--list" in sys.argv:
        for n in sorted(names) + sorted(lemmas):
            print(n, names.get(n) or lemmas[n])
        for n in sorted(own & everywhere):
            print("left, a name of the library:", n)
        for n in sorted(generated & set(names)):
            print("also a generated name:", n)
        for target in sorted({names[n] for n in names}):
            if sum(1 for n in names if names[n] == target) > 1:
                print("falls together:", target)
        return
    for p, text in texts.items():
        if p in ANTT:
            leave = kit[p] | (generated if in_folder_of_function(p) else set())
            mine = dict(names)
            if not in_folder_of_function(p) and "/proofs/" in p:
                mine.update(lemmas)
            else:
                cited = set()
                for m in re.finditer(r"^use Rattle\.\w+\.proofs\.[A-Z]\w*\.\{([^}]*)\}", text, re.M):
                    cited.update(x.strip() for x in m.group(1).split(","))
                mine.update({n: lemmas[n] for n in lemmas if n in cited})

            def turn(m, leave=leave, mine=mine, text=text):
                n = m.group(0)
                behind = text[m.start() - 1] == "." if m.start() else False
                if n in leave or (n in lemmas and behind):
                    return n
                return mine.get(n, n)
            new = TOKEN.sub(turn, text)
        elif p in SOURCES:
            new = TOKEN.sub(lambda m: names[m.group(0)] if m.group(0) in names and CAMEL.match(m.group(0)) else m.group(0), text)
        elif p in EDITS:
            new = TOKEN.sub(lambda m: names.get(m.group(0), m.group(0)), text)
        else:
            new = re.sub(r"`[^`\n]*`", lambda s: TOKEN.sub(lambda m: names.get(m.group(0), m.group(0)), s.group(0)), text)
        if new != text:
            open(p, "w", encoding="utf-8").write(new)

main()
