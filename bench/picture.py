"""Draws docs/speed.svg, our time by the length of a key, of docs/speed.tsv; and docs/parquet.svg, times of DuckDB, of what
docs/parquet.md says in place of it: python3 bench/picture.py [FOLDER]"""
import math
import re
import sys
from pathlib import Path

DOCS = Path(__file__).resolve().parents[1] / "docs"
# A title, what is compared, and its group and its peer in speed.tsv.
PLOTS = [("XXH64", "both called", "c", "XXH64, called"),
         ("XXH64", "both inlined", "included", "XXH64, inlined"),
         ("XXH64", "ours called, xxHash inlined", "c", "XXH64, inlined"),
         ("Murmur", "both called", "c", "reference Murmur, called")]
WIDTH, HEIGHT, LEAST, MOST = 165, 124, 0.4, 1.5  # of a plot, and the ratios at its bottom and its top
TICKS, LENGTHS = (0.5, 0.75, 1, 1.25), (1, 4, 16, 64)
STYLE = """
text { font: 12px sans-serif; fill: #24292f } .title { font-weight: bold; font-size: 14px } .small { fill: #57606a }
.name { font-size: 14px } .with { fill: #0550ae } .without { fill: #8c959f }
.page { fill: #ffffff } .slower { fill: #fbe9d0 } .faster { fill: #dff3e4 } .tick { stroke: #8c959f; stroke-width: .5 }
.equal { stroke: #24292f; stroke-width: 1.5 } .time { fill: none; stroke: #0550ae; stroke-width: 2.5 } circle { fill: #0550ae }
@media (prefers-color-scheme: dark) {
text { fill: #e6edf3 } .small { fill: #9da7b3 } .page { fill: #0d1117 } .slower { fill: #3d2b12 } .faster { fill: #12301c }
.with { fill: #79c0ff } .without { fill: #6e7681 }
.tick { stroke: #6e7681 } .equal { stroke: #e6edf3 } .time { stroke: #79c0ff } circle { fill: #79c0ff }
}
"""


def text(x, y, words, kind="", anchor="start"):
    return f'<text class="{kind}" x="{x:.1f}" y="{y:.1f}" text-anchor="{anchor}">{words}</text>'


def plot(title, compared, pairs):
    x_of = lambda length: 8 + (WIDTH - 16) * math.log2(length) / math.log2(100)
    y_of = lambda ratio: HEIGHT * (MOST - ratio) / (MOST - LEAST)
    one = y_of(1)
    yield text(0, -26, title, "title") + text(0, -9, compared, "small")
    yield f'<rect class="slower" width="{WIDTH}" height="{one:.1f}"/>'
    yield f'<rect class="faster" y="{one:.1f}" width="{WIDTH}" height="{HEIGHT - one:.1f}"/>'
    for ratio in TICKS:
        place = f'x1="0.0" y1="{y_of(ratio):.1f}" x2="{WIDTH}.0" y2="{y_of(ratio):.1f}"'
        yield f'<line class="{"equal" if ratio == 1 else "tick"}" {place}/>'
        yield text(-5, y_of(ratio) + 4, ratio, "small", "end")
    for length in LENGTHS:
        yield text(x_of(length), HEIGHT + 15, length, "small", "middle")
    points = [(x_of(length), y_of(ratio)) for length, ratio in pairs]
    yield f'<polyline class="time" points="{" ".join(f"{x:.1f},{y:.1f}" for x, y in points)}"/>'
    yield from (f'<circle cx="{x:.1f}" cy="{y:.1f}" r="2.5"/>' for x, y in points)
    for extreme, below in ((max, -8), (min, 17)):
        length, ratio = extreme(pairs, key=lambda pair: pair[1])
        x = min(max(x_of(length), 14), WIDTH - 14)
        yield text(x, y_of(ratio) + below, f"{ratio:.2f}", "title", "middle")


def head(height, title, about):
    yield f'<svg xmlns="http://www.w3.org/2000/svg" viewBox="0 0 420 {height}" width="420" height="{height}" role="img">'
    yield f"<title>{title}</title>\n<desc>{about}</desc>"
    yield f'<style>{STYLE}</style>\n<rect class="page" width="420" height="{height}" rx="8"/>'


def speed():
    table, chosen = (DOCS / "speed.tsv").read_text(encoding="utf-8"), []
    for title, compared, group, peer in PLOTS:
        medians = re.findall(rf"^{group}\tkeys of (\d+) bytes?\t{peer}\t([\d.]+)", table, re.M)
        chosen.append((title, compared, sorted((int(length), float(ratio)) for length, ratio in medians)))
    ranges = "; ".join(f"{title}, {compared}: {min(r for _, r in pairs):.2f} to {max(r for _, r in pairs):.2f}"
                       for title, compared, pairs in chosen)
    yield from head(464, "Our time divided by theirs, for keys of 1 to 100 bytes", f"{ranges}.")
    yield text(14, 26, "Our time divided by theirs", "title")
    yield text(14, 44, "Below 1 we are faster. By the length of a key in bytes.", "small")
    for i, (title, compared, pairs) in enumerate(chosen):
        yield f'<g transform="translate({40 + i % 2 * 205} {100 + i // 2 * 194})">'
        yield "".join(plot(title, compared, pairs)) + "</g>"
    processor, gcc = re.search(r"processor: (.*?)(?: @|,).*compilers: gcc \(.*?\) (\d+)", table, re.S).groups()
    yield text(14, 452, f"Medians of five processes, {processor.replace('(R)', '')}, gcc {gcc}.", "small")


def bar(x, y, width, kind):
    return f'<rect class="{kind}" x="{x}" y="{y}" width="{width:.1f}" height="16" rx="2"/>'


def parquet():
    about = re.search(r"!\[(.*?)\]\(parquet\.svg\)", (DOCS / "parquet.md").read_text(encoding="utf-8"), re.S)[1]
    title, times = " ".join(about.split()).split(": ")
    queries = [(name, int(without), int(fast)) for name, without, fast in re.findall(r"([a-z ]+) (\d+), (\d+)", times)]
    longest = max(without for _, without, _ in queries)
    yield from head(370, title, about)
    yield text(14, 26, "DuckDB looks one value up", "title")
    yield text(14, 44, "Milliseconds, in one test of DuckDB 2.0. Shorter is better.", "small")
    for x, kind in ((14, "without"), (150, "with")):
        yield bar(x, 58, 16, kind) + text(x + 22, 71, f"{kind} filters", "name")
    for i, (name, *pair) in enumerate(queries):
        y = 102 + 68 * i
        yield text(14, y, name.strip(), "name")
        for j, (time, kind) in enumerate(zip(pair, ("without", "with"))):
            width = 330 * time / longest
            yield bar(14, y + 7 + 19 * j, width, kind) + text(20 + width, y + 20 + 19 * j, time, "title")


if __name__ == "__main__":
    folder = Path(sys.argv[1]) if len(sys.argv) > 1 else DOCS
    for drawing in (speed, parquet):
        (folder / f"{drawing.__name__}.svg").write_text("\n".join([*drawing(), "</svg>\n"]), encoding="utf-8")
