# python3 tools/tidy.py FILE..: in a proof file, the comment first, then the `use` lines: merged by module, without names that the file does not
# use, in the order of the libraries. Lines that only name a place of the source, or a module for display, go.
# For an older Rattle, whose files began with such lines: today `rt tidy` does it in a proved crate.
import re, sys

ORDER = ["mathlib.", "Prim.", "native.", "lib.", "borrow."]


def rank(module):
    for place, prefix in enumerate(ORDER):
        if module.startswith(prefix):
            return place
    if not module.startswith("Rattle·"):
        return 5
    if module.endswith(".Statement"):
        return 20
    if "·proofs." in module:
        return 10
    return 9 if ".declared." in module else 8 if "·specs." in module else 6


def is_used(name, body):
    name = name.split(" as ")[-1]
    parts = [part for part in name.split("_") if part]
    if "_" in name and parts:
        return all(part in body for part in parts)
    return re.search(r"(?<![^\s(){},;.←!])" + re.escape(name) + r"(?![^\s(){},;.])", body) is not None


def tidy(path):
    text = open(path).read()
    text = re.sub(r"^use \S+\.(Reads|Lts) as \S+\n", "", text, flags=re.M)
    text = re.sub(r"^-- src/.*\n", "", text, flags=re.M)
    comment, modules, aliases, body = [], {}, [], []
    for line in text.split("\n"):
        braces = re.match(r"use (\S+?)\.\{(.*)\}$", line)
        if body:
            body.append(line)
        elif braces:
            names = modules.setdefault(braces.group(1), [])
            names += [n.strip() for n in braces.group(2).split(",") if n.strip() not in names]
        elif line.startswith("use "):
            aliases.append(line)
        elif line.startswith("-- ") and (not comment or not (modules or aliases)):
            comment.append(line)
        elif line.strip():
            body.append(line)
    body = "\n".join(body).rstrip("\n")
    out = list(comment)
    for module in sorted(modules, key=lambda m: (rank(m), list(modules).index(m))):
        names = [n for n in modules[module] if is_used(n, body)]
        if names:
            out.append("use %s.{%s}" % (module, ", ".join(names)))
    open(path, "w").write("\n".join(out + aliases) + "\n\n" + body + "\n")


for path in sys.argv[1:]:
    tidy(path)
