# python3 tools/places.py DIR CRATE FUNCTION: for each need of a function, the places that lead to it, nearest first, each with the number of
# `.before` in front of it and the fields it has. DIR is where `rt dev CRATE --generated DIR` wrote; FUNCTION is its path, as vector/at_most.
# For an older Rattle, whose proofs walked the places by hand (Proof.antt): today a hole's goal is printed with every name that can be used.
import re, sys

where, crate, function = sys.argv[1:4]
text = open(f"{where}/Rattle·{crate}·proofs/proofs/{function}/Lts.antt").read()
records, current = {}, None
for line in text.split("\n"):
    found = re.match(r"\s+pub record (\S+) : ", line)
    if found:
        current = found.group(1)
        records.setdefault(current, {})
        continue
    found = re.match(r"\s+pub (\S+) : (.*)", line)
    if found and current:
        records[current][found.group(1)] = found.group(2)

for need, place in re.findall(r"^ +(Need-\S+) =\n?(?:.*\n)*? *\(c : (\S+?)\)", text, flags=re.M):
    chain, depth = [], 0
    while place:
        fields = records.get(place, {})
        own = [name for name in fields if name != "before"]
        inner = ",".join(records.get(place + "·own", {}))
        chain.append(f"{depth}:{place}" if place == "Start" else f"{depth}:{own[0] if own else place}({inner})")
        place, depth = fields.get("before"), depth + 1
    print(need, " | ".join(chain))
