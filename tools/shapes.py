"""Pairs of places in crates/*/src that share the shape of six lines or more.

A line's shape is the line with each name, number and text replaced. Comments, imports and blank lines do not count.
Run at the top of the repository; prints a line for each pair, and then how many there are."""
import collections
import glob
import re

LEAST = 6


def shape(line):
    line = re.sub(r'"(\\.|[^"\\])*"', '"', line)
    line = re.sub(r"[A-Za-z_][A-Za-z0-9_]*", "n", line)
    return re.sub(r"[0-9][0-9_]*", "0", line)


def lines_of(path):
    kept = []
    for number, line in enumerate(open(path), 1):
        text = " ".join(line.split())
        if len(text) > 2 and not re.match(r"(//|use |ghost use |pub use |#)", text):
            kept.append((number, shape(text)))
    return kept


def pairs():
    places = collections.defaultdict(list)
    files = {path: lines_of(path) for path in sorted(glob.glob("crates/*/src/**/*.rt", recursive=True))}
    for path, lines in files.items():
        for start in range(len(lines) - LEAST + 1):
            window = tuple(text for _, text in lines[start : start + LEAST])
            if len(set(window)) > LEAST // 2:
                places[window].append((path, start))
    found = {}
    for spots in places.values():
        if len(spots) > 8:
            continue
        for a in range(len(spots)):
            for b in range(a + 1, len(spots)):
                (one, i), (other, j) = spots[a], spots[b]
                if one == other and abs(i - j) < LEAST:
                    continue
                found.setdefault((one, other), (files[one][i][0], files[other][j][0]))
    return found


if __name__ == "__main__":
    found = pairs()
    for (one, other), (i, j) in sorted(found.items()):
        print(f"{one}:{i} ~ {other}:{j}")
    print(len(found))
