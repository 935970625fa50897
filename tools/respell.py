# python3 tools/respell.py: brings the repository's own definitions, record fields and lemmas to the spelling that Rattle's library has: words in snake case, a dash between two
# names, types in camel case. It goes by whole words, in code, contracts, proofs, must-fail edits and pages; functions of src/, strings, inputs and outputs have no such word.
import collections, pathlib, re, sys

DECLARED = re.compile(r"\s*(?:(?:unfoldable|abbrev|pub|record|data|ruleset) )*([^\s(){}.;,@\"«»\[\]]+)(?: \{[^{}]*\})* :(?: |$)")
WORD = re.compile(r"(?<![\w'′₀-₉-])[A-Za-z][\w'′₀-₉]*(?:-[\w'′₀-₉]+)*")


def antt():
    for pattern in ("crates/*/specs/**/*.antt", "crates/*/proofs/**/*.antt"):
        yield from sorted(pathlib.Path(".").glob(pattern))


def snake(name):
    if name.startswith("get_d_"):
        return "get_or-" + name[6:]
    parts = []
    for part in name.replace("getD", "get_or").split("-"):
        if part[:1].islower():
            part = re.sub(r"(?<=[a-z0-9])[A-Z]", lambda m: "_" + m.group().lower(), part)
        parts.append(part)
    return "-".join(parts)


declared = set()
for path in antt():
    declared |= {m.group(1) for m in map(DECLARED.match, path.read_text().split("\n")) if m}
renamed = {name: snake(name) for name in declared if snake(name) != name}
# A lemma that would have its function's name.
renamed.update({new: new + "_lem" for new in renamed.values() if new in declared})
met = [new for new, n in collections.Counter(renamed.values()).items() if n > 1 or new in declared and new not in renamed]
if met:
    sys.exit("two names fall together: " + " ".join(sorted(met)))

# Fields and parameters of the code hide a definition of their name.
taken = set()
for path in pathlib.Path(".").glob("crates/*/src/**/*.rt"):
    text = re.sub(r"\b(?:ensures|requires|ghost)\b[^\n]*|//[^\n]*", "", path.read_text())
    taken |= set(re.findall(r"\b(\w+): ", text))
if taken & set(renamed.values()):
    sys.exit("a field or a parameter has this name: " + " ".join(sorted(taken & set(renamed.values()))))

paths = list(antt()) + [p for g in ("crates/*/src/**/*.rt", "crates/*/must-fail/*.edit", "docs/*.md", "docs/landings/*.md", "README.md") for p in sorted(pathlib.Path(".").glob(g))]
count = 0
for path in paths:
    text = path.read_text()
    # A function of src/ may have a lemma's old name.
    of_text = {old: new for old, new in renamed.items() if path.suffix == ".antt" or not new.endswith("_lem")}
    new = WORD.sub(lambda m: of_text.get(m.group(), m.group()), text)
    if path.suffix == ".md":
        # Only what is quoted as code.
        new = re.sub(r"`[^`\n]*`", lambda m: WORD.sub(lambda n: of_text.get(n.group(), n.group()), m.group()), text)
    if new != text:
        path.write_text(new)
        count += 1
print("%d names, %d files" % (len(renamed), count))
for name in sorted(renamed):
    print("    %s  %s" % (name, renamed[name]))
