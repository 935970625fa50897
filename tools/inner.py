# python3 tools/inner.py: the definitions of `specs/` on which no contract of a public function rests, no statement of `promises`, `observation` or `examples`, none of
# docs/ANSWERS.md (they stand in promises/proofs/OneAnswer*.antt) and none that docs/PROMISES.md names with its file: first those for private contracts, with the functions
# whose contracts they are, then those for laws alone.
import collections, pathlib, re

CRATES = pathlib.Path("crates")
STATED = ("promises", "observation", "examples")
USE = re.compile(r"^(?:ghost )?use (\S+?)\.\{(.*)\};?$", re.M)
DEFINED = re.compile(r"(?:(?:unfoldable|abbrev|pub|record|data) )+([^\s:(){}]+)")
CALLED = re.compile(r"^( *)(pub(?:\(super\))? )?fn (\w+)(.*?)^\1\{$", re.M | re.S)
SPECS = re.compile(r"Rattle\.([a-z_]+)\.specs\.(.+)$")


def names(text):
    text = re.sub(r"--.*", "", text)
    return {name for name in re.split(r"[\s(){}\[\],;]", text) if name}


def brought(text):
    return {name.split(" as ")[-1].strip(): (module, name.split(" as ")[0].strip()) for module, list in USE.findall(text) for name in list.split(",")}


# Each definition's text, by crate, file and name.
defined, imports = {}, {}
for path in sorted(CRATES.glob("*/specs/*.antt")):
    key = (path.parts[1], path.stem)
    imports[key] = brought(path.read_text())
    current = None
    for line in path.read_text().split("\n"):
        if line.startswith(("use ", "--", "pub mod")) or not line:
            continue
        found = DEFINED.match(line)
        if found:
            current = key + (found.group(1),)
        if current:
            defined[current] = defined.get(current, "") + line + "\n"


def cited(text, uses, here=None):
    for name in names(text):
        if here and here + (name,) in defined:
            yield here + (name,)
            continue
        module, name = uses.get(name) or tuple(name.rpartition(".")[::2])
        found = SPECS.match(module)
        if found and (found.group(1), found.group(2), name) in defined:
            yield found.group(1), found.group(2), name


def closed(roots):
    seen, left = set(), list(roots)
    while left:
        key = left.pop()
        if key not in seen:
            seen.add(key)
            left += cited(defined[key], imports[key[:2]], key[:2])
    return seen


public, private = set(), collections.defaultdict(set)
for path in CRATES.glob("*/src/**/*.rt"):
    text = path.read_text()
    library = CRATES / path.parts[1] / "src/lib.rt"
    module = path.parts[3].removesuffix(".rt")
    seen = library.exists() and (module == "lib" or "pub mod %s;" % module in library.read_text())
    for indent, marked, name, clauses in CALLED.findall(text):
        # A method is seen with its type.
        for key in cited("\n".join(re.findall(r"(?:ensures|requires)(?: \w+)? \{(.*)\}", clauses)), brought(text)):
            if marked == "pub " and (seen or indent and library.exists()):
                public.add(key)
            else:
                private[key].add("%s::%s" % (path.parts[1], name))
# The invariants that docs/PROMISES.md names; and what the statements that one answer fits are about, of private functions too.
told = pathlib.Path("docs/PROMISES.md").read_text()
named = {key for key in defined if re.search(r"`(?:[\w-]+ : )?%s`[^|`]*[, ]%s/(specs|proofs)/" % (re.escape(key[2]), key[0]), told)}
fits = [path.read_text() for path in CRATES.glob("promises/proofs/OneAnswer*.antt")]
answers = closed(key for text in fits for key in cited(text, brought(text)))
promised = closed(public | named | {key for key in defined if key[0] in STATED})
inner = closed(private) - promised
for title, keys in ("private contracts", inner), ("laws", set(defined) - promised - inner - answers):
    print(title)
    for key in sorted(keys):
        print("    %s/specs/%s.antt: %s  %s" % (key + (" ".join(sorted(private[key])),)))
