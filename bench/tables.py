"""Writes the medians of docs/speed.tsv into the tables of docs/speed.md: python3 tables.py

A line of speed.tsv is a group, a case, a peer, the median of the ratios, their 10th and 90th percentile, and nanoseconds.
A table of the page follows a line `<!-- GROUP -->`; its rows name the cases that it shows, and its head the peers.
"""
import re
from pathlib import Path

docs = Path(__file__).resolve().parents[1] / "docs"
measured = re.findall(r"^(\w+)\t(.*?)\t(.*?)\t([\d.]+)", (docs / "speed.tsv").read_text(encoding="utf-8"), re.M)
cells = {row[:3]: row[3] for row in measured}


def filled(table):
    group, head, rule, rows = table.groups()
    peers = [peer.strip() for peer in head.strip("|\n").split("|")[1:]]
    cases = [row.split("|")[1].strip() for row in rows.splitlines()]
    ratios = {case: " | ".join(cells.get((group, case, peer), "") for peer in peers) for case in cases}
    return f"<!-- {group} -->\n\n{head}{rule}" + "".join(f"| {case} | {some} |\n" for case, some in ratios.items())


page = (docs / "speed.md").read_text(encoding="utf-8")
page = re.sub(r"<!-- (\w+) -->\n\n(\|.*\n)(\|[-|]*\n)((?:\|.*\n)+)", filled, page)
(docs / "speed.md").write_text(page, encoding="utf-8")
