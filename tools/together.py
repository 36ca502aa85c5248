"""Lists the sets of three parameters that stand together in three or more functions of one crate.

Run at the top of the repository: python3 tools/together.py
"""
import collections
import glob
import itertools
import re

counts = collections.Counter()
for path in glob.glob("crates/*/src/*.rt") + glob.glob("crates/*/src/*/*.rt"):
    text = open(path, encoding="utf-8").read()
    crate = path.split("/")[1]
    for found in re.finditer(r"fn (\w+)(<[^(]*>)?\(([^{;]*?)\)\s*(->|\n|\{)", text, re.S):
        parts = re.split(r",(?![^<\[(]*[>\])])", found.group(3))
        names = {re.sub(r"\s+", " ", p.strip()).split(":")[0].replace("mut ", "") for p in parts if ":" in p}
        for three in itertools.combinations(sorted(names), 3):
            counts[crate, three] += 1
for (crate, three), count in sorted(counts.items(), key=lambda item: (-item[1], item[0])):
    if count >= 3:
        print(count, crate, ", ".join(three))
