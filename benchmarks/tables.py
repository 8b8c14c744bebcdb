#!/usr/bin/env python3
"""Tables and pictures of the figures.

    tables.py [--write]

Prints the tables of figures/layers.tsv and figures/store.tsv as Markdown and draws their pictures beside them. With
--write the tables take the place of those in docs/PERFORMANCE.md.
"""

import csv
import re
import sys
from pathlib import Path

from picture import Panel, picture

HERE = Path(__file__).resolve().parent
FIGURES = HERE / "figures"
DOCUMENT = HERE.parent / "docs" / "PERFORMANCE.md"


def rows_of(name):
    path = FIGURES / f"{name}.tsv"
    if not path.exists():
        return []
    with open(path, encoding="utf-8", newline="") as file:
        return [
            {key: int(value) if key in ("layers", "entries", "snapshots") else value for key, value in row.items()}
            | {"ours": float(row["ours"]), "plain": float(row["plain"])}
            for row in csv.DictReader(file, delimiter="\t")
        ]


def shown(value):
    """A number with three places that count."""
    if value >= 100:
        return f"{value:,.0f}"
    return f"{value:.3g}"


def table(head, rows):
    lines = ["| " + " | ".join(head) + " |", "|" + "---|" * len(head)]
    return "\n".join([*lines, *("| " + " | ".join(map(str, row)) + " |" for row in rows)])


def ratio(row):
    return row["ours"] / row["plain"]


def deep_table(rows):
    """The figures of the library through the most layers, at the places where scripts were measured too."""
    by_place = {(row["surface"], row["what"], row["layers"], row["entries"]): row for row in rows}
    script = [row for row in rows if row["surface"] == "script"]
    library = [by_place["library", row["what"], row["layers"], row["entries"]] for row in script]
    return table(
        ("what", "entries", "ours, µs", "plain, µs", "ratio"),
        [
            (row["what"], f"{row['entries']:,}", shown(row["ours"]), shown(row["plain"]), shown(ratio(row)))
            for row in library
        ],
    )


def grid(rows):
    """The figures of the library for which each number of layers has several numbers of entries."""
    library = [row for row in rows if row["surface"] == "library"]
    whats = list(dict.fromkeys(row["what"] for row in library))
    cells = {(row["what"], row["layers"], row["entries"]): row for row in library}
    layers = sorted({row["layers"] for row in library})
    entries = sorted({e for w, l, e in cells if all((w, n, e) in cells for n in layers) and w.startswith("look, ")})
    whats = [what for what in whats if all((what, l, e) in cells for l in layers for e in entries)]
    return whats, layers, entries, cells


def growth_table(rows):
    whats, layers, entries, cells = grid(rows)
    head = ("what", "layers", *(f"{number:,} entries" for number in entries))
    body = []
    for what in whats:
        for count in layers:
            row = [cells[what, count, number] for number in entries]
            body.append((what, count, *(f"{shown(cell['ours'])} ({shown(ratio(cell))})" for cell in row)))
    return table(head, body)


def other_table(rows):
    whats = grid(rows)[0]
    others = [
        row
        for row in rows
        if row["surface"] == "memory" or (row["surface"] == "library" and row["what"] not in whats)
    ]
    return table(
        ("what", "ours", "plain", "ratio"),
        [
            (row["what"], f"{shown(row['ours'])} {unit_of(row)}", f"{shown(row['plain'])} {unit_of(row)}", shown(ratio(row)))
            for row in others
        ],
    )


def unit_of(row):
    return {"us": "µs"}.get(row["unit"], row["unit"])


def layers_picture(rows):
    whats, layers, entries, cells = grid(rows)
    panels = []
    for title, group in (
        ("Lookups", [what for what in whats if what.startswith("look")]),
        ("Edits", [what for what in whats if not what.startswith("look")]),
    ):
        by_entries = Panel(f"{title}, {layers[-1]} layers", "entries of each layer", "microseconds")
        by_layers = Panel(f"{title}, {entries[-1]:,} entries", "layers", "microseconds")
        for what in group:
            by_entries.lines[what] = both([(n, cells[what, layers[-1], n]) for n in entries])
            by_layers.lines[what] = both([(n, cells[what, n, entries[-1]]) for n in layers])
        panels += [by_entries, by_layers]
    return picture(panels)


def both(points):
    """The points of the product and of the plain program."""
    return [(x, row["ours"]) for x, row in points], [(x, row["plain"]) for x, row in points]


def store_table(rows):
    times = [row for row in rows if row["unit"] == "us"]
    places = {what: place for place, what in enumerate(dict.fromkeys(row["what"] for row in times))}
    first = {}
    body = []
    for row in sorted(times, key=lambda row: places[row["what"]]):
        grows = row["ours"] / first.setdefault(row["what"], row["ours"])
        body.append(
            (
                row["what"],
                f"{row['snapshots']:,}",
                shown(row["ours"]),
                shown(grows),
            )
        )
    return table(("what", "snapshots", "ours, µs", "to the first row"), body)


def store_picture(rows):
    panel = Panel("Calls in a store", "standing snapshots", "microseconds")
    times = [row for row in rows if row["unit"] == "us"]
    for what in dict.fromkeys(row["what"] for row in times):
        panel.lines[what] = both([(row["snapshots"], row) for row in times if row["what"] == what])
    return picture([panel])


def tables():
    """The tables by name. The pictures are drawn on the way."""
    made = {}
    if layers := rows_of("layers"):
        made["deep"] = deep_table(layers)
        made["growth"] = growth_table(layers)
        made["others"] = other_table(layers)
        (FIGURES / "layers.svg").write_text(layers_picture(layers), encoding="utf-8")
    if store := rows_of("store"):
        made["store"] = store_table(store)
        (FIGURES / "store.svg").write_text(store_picture(store), encoding="utf-8")
    return made


def write(made):
    text = DOCUMENT.read_text(encoding="utf-8")
    for name, lines in made.items():
        begin, end = f"<!-- {name}: begin -->\n", f"\n<!-- {name}: end -->"
        pattern = re.escape(begin) + ".*?" + re.escape(end)
        text, count = re.subn(pattern, lambda _: begin + lines + end, text, flags=re.DOTALL)
        if count != 1:
            sys.exit(f"tables: {DOCUMENT} has no place for the table '{name}'")
    DOCUMENT.write_text(text, encoding="utf-8")


def main():
    made = tables()
    for name, lines in made.items():
        print(f"## {name}\n\n{lines}\n")
    if sys.argv[1:] == ["--write"]:
        write(made)


if __name__ == "__main__":
    main()
