# python3 tools/sizes.py: the table of docs/SIZES.md. Lines that are neither blank nor comments, by crate: code, contracts, definitions, laws, proofs of functions.
import pathlib, re

CLAUSE = re.compile(r"\s*(ensures|requires|ghost)\b")


def lines(path, comment):
    text = (line.strip() for line in path.read_text().split("\n"))
    return [line for line in text if line and not line.startswith(comment)]


def row(crate):
    code = contracts = 0
    for path in crate.glob("src/**/*.rt"):
        for line in lines(path, "//"):
            if CLAUSE.match(line):
                contracts += 1
            else:
                code += 1
    count = lambda paths: sum(len(lines(path, "--")) for path in paths)
    proofs = set(crate.glob("proofs/**/*.antt"))
    folders = {path for path in proofs if path.name in ("Invariants.antt", "Answers.antt", "Proof.antt")}
    return [code, contracts, count(crate.glob("specs/**/*.antt")), count(proofs - folders), count(folders)]


crates = [line.split(":")[0].split()[0] for line in open("crates.txt") if line.strip() and not line.startswith("#")]
total = [0] * 5
print("| crate | code | contracts | definitions | laws | proofs of functions |\n|---|---|---|---|---|---|")
for name in crates:
    sizes = row(pathlib.Path("crates") / name)
    total = [a + b for a, b in zip(total, sizes)]
    print(f"| `{name}` | " + " | ".join(f"{n:,}" for n in sizes) + " |")
print("| all | " + " | ".join(f"{n:,}" for n in total) + " |")
