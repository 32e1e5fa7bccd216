"""Respells the repository's own definitions and lemmas: words in snake case, facts and types in upper camel case.

usage: python3 tools/respell.py            at the top of the repository, once, after port.py

A name is turned where its file declares it or imports it from a crate of this repository, and behind a dot where it is a field of a record of specs/
or proofs/. Names that the check makes (goals, steps, arms) and names of the library stay. A dash that joins two functions, the outer call first, stays too.
Stops, with nothing written, where two names of a file would fall together.
"""

import glob
import os
import re
import sys

# names that join two functions
JOINED = {"length-decimal", "judge-field", "says-field"}
# a plain respelling would be the name of a type, a function or a field of the code
GIVEN = {
    "Line-fault": "TableFault", "Field-fault": "TableFieldFault", "first-day": "first_day_of", "is-faster": "is_faster_letter", "is-sign": "is_sign_byte",
    "is-spare": "is_spare_text", "contra-code": "contra_code_text", "owner-places": "places_of_owner", "record-length": "record_length_text",
    "layer-of": "layer_of_cause", "debit-count": "debit_count_of", "credit-count": "credit_count_of",
}
# fields of a record of specs/ and of a struct of the code, or a bound name: they may have one name
SHARED = {"user_again", "sort_code", "free_format", "from_sort_code", "from_account"}
# bound names, which no signature line shows
BOUND = {
    "Said-heading", "credit-total", "debit-total", "file-number", "from-a", "from-account", "from-name", "from-s", "from-sort-code",
    "free-format", "header-says", "originator-account", "originator-name", "originator-sort-code", "processing-day", "sort-code", "volume-says", "work-code",
}
# bound names in one file, whose given name is for a definition elsewhere
PLAIN = {"crates/parts/specs/Parts.antt": {"credit-count": "credit_count", "debit-count": "debit_count", "record-length": "record_length"}}
SIGNATURE = re.compile(r"^(\s*)((?:pub |abbrev |unfoldable |data |record |ruleset )*)([^\s:(){};,.]+) *(\(|:|\{)")
WORD = re.compile(r"[^\s(){};,.«»\"]+")
USE = re.compile(r"\buse\s+([\w.+-]+)\.\{([^}]*)\}")


def sources(kind):
    found = []
    for folder in ("specs", "proofs", "src"):
        found += glob.glob(f"crates/*/{folder}/**/*.{kind}", recursive=True)
    return sorted(found)


def blanked(text, rust):
    """The text with strings and comments blanked, of the same length."""
    blank = lambda m: " " * len(m[0])
    if rust:
        text = re.sub(r'b?"(?:[^"\\]|\\.)*"', blank, text)
        text = re.sub(r"b'(?:\\.|[^'\\])'", blank, text)
        return re.sub(r"//[^\n]*", blank, text)
    text = re.sub(r'"(?:[^"\\]|\\.)*"', blank, text)
    return re.sub(r"(?:^|(?<=[\s(]))--(?=\s|$)[^\n]*", blank, text, flags=re.M)


def signatures(text):
    """Each declared name of an antt file, with the words before it and its type."""
    lines = text.split("\n")
    for i, line in enumerate(lines):
        m = SIGNATURE.match(line)
        if not m:
            continue
        rest, j = line[m.end() - 1:], i + 1
        while j < len(lines) and "=" not in rest and lines[j].startswith(m[1] + "    "):
            rest += " " + lines[j].strip()
            j += 1
        yield len(m[1]), m[2].split(), m[3], rest


def is_made(rest):
    """Whether the type is a goal, so that the check made the name."""
    return re.match(r":\s*goal\.", rest.strip()) is not None


def is_fact(words, rest):
    return "record" in words or "data" in words or re.search(r"(→|:|\)|\}) Type 0\s*(where)?\s*$", rest) is not None


def respelled(name, fact):
    if name in GIVEN:
        return GIVEN[name]
    if name in JOINED:
        return name
    if fact:
        return "".join(part[:1].upper() + part[1:] for part in name.split("-"))
    return name.replace("-", "_")


def is_step(before):
    """Whether a word behind a dot is a step of a proof's record of facts, whose names the check makes."""
    return re.search(r"(?<![\w'.])(c|w|l|goal)\.$", before) is not None


def main():
    crates = {os.path.basename(c) for c in glob.glob("crates/*")}
    texts = {f: open(f, encoding="utf-8").read() for f in sources("antt") + sources("rt")}
    plain = {f: blanked(t, f.endswith(".rt")) for f, t in texts.items()}
    turned, fields, declared, made = {}, set(), {}, {}
    for f in sources("antt"):
        declared[f], made[f] = set(), set()
        facts = set()
        for indent, words, name, rest in signatures(plain[f]):
            if is_made(rest):
                made[f].add(name)
                continue
            declared[f].add(name)
            if indent and not set(words) & {"abbrev", "unfoldable"}:
                fields.add(name)
            if is_fact(words, rest):
                facts.add(name)
        for name in declared[f]:
            if "-" in name or (name in facts and name[0].islower()):
                turned.setdefault(f, {})[name] = respelled(name, name in facts or name[0].isupper())
    everywhere = {}
    for f, names in turned.items():
        module = "Rattle." + f[len("crates/"):-len(".antt")].replace("/", ".")
        everywhere[module] = names
    reading = {}
    for f, t in plain.items():
        own = dict(turned.get(f, {}))
        for path, items in USE.findall(t):
            names = everywhere.get(path)
            if names is None and path.split(".")[0] == "Rattle" and path.split(".")[1] in crates:
                # a constructor, from the module of its type
                names = everywhere.get(path.rsplit(".", 1)[0], {})
            for item in re.split(r"\s*,\s*", items.strip()):
                item = item.split(" as ")[0].strip()
                if names and item in names:
                    own[item] = names[item]
        for name in BOUND:
            own.setdefault(name, respelled(name, name[0].isupper()))
        own.update(PLAIN.get(f, {}))
        reading[f] = own
    dotted = {}
    for names in turned.values():
        for name, new in names.items():
            if name in fields:
                dotted[name] = new
    bad = 0
    out = {}
    for f, t in plain.items():
        own, pieces, at, seen = reading[f], [], 0, {}
        for m in WORD.finditer(t):
            word, before = m[0], t[max(0, m.start() - 60):m.start()]
            new = word
            if word in made.get(f, set()):
                pass
            elif before.endswith("."):
                path = re.search(r"(Rattle(?:\.[\w'+-]+)*)\.$", before)
                if path:
                    # a module named after a type, in a path
                    new = everywhere.get(path[1], {}).get(word, word) if word[0].isupper() else word
                elif word in dotted and not is_step(before):
                    new = dotted[word]
            else:
                label = re.match(r"\s*=(?!=)", t[m.end():m.end() + 4])
                if word in own:
                    new = own[word]
                elif label and word in dotted:
                    new = dotted[word]
            if not before.endswith("."):
                seen.setdefault(new, set()).add(word)
            pieces.append(texts[f][at:m.start()] + new)
            at = m.end()
        pieces.append(texts[f][at:])
        for new, words in seen.items():
            if len(words) > 1 and new not in SHARED:
                print(f"{f}: {sorted(words)} would all be {new}")
                bad += 1
        out[f] = "".join(pieces)
    if bad and "--force" not in sys.argv:
        raise SystemExit(f"{bad} names would fall together: nothing was written")
    n = 0
    for f, t in out.items():
        if t != texts[f]:
            open(f, "w", encoding="utf-8").write(t)
            n += 1
    print(f"{n} files written, {sum(len(x) for x in turned.values())} names")


main()
