"""Bloom filters of Parquet files. A folder means all files below it that end in .parquet.

Exit status: 0 if all is done, 1 if a file failed (the others are done), 2 if the command line is wrong, 3 if there is nothing
(a file without filters; with ask, no row group that may have the value), 4 if a filter lacks a value, so queries lose rows.
"""
import argparse
import functools
import json
import os
import sys
import warnings

from .. import __version__
from .keys import parse
from .processes import each, end, end_of_signal, on_stop
from .reader import BloomFilterReader, all_places, false_positive_rate
from .stores import each_once, place_of
from .writer import Builder, FilterError, add_filters, check_filters, remove_filters

DONE, FAILED, _, NOTHING, WRONG = range(5)
CLEAR = "\r\x1b[K" if sys.stderr and sys.stderr.isatty() else ""  # the line of a bar
COMMANDS = {
    "add": "adds filters to files, in place or to another one",
    "remove": "removes filters",
    "check": "reads all values, and looks them up in the filters",
    "show": "prints for each filter: file, row group, column, bytes, false positive rate by its bits",
    "ask": "prints the row groups that may have a value, of each file that has some",
}


def main():
    on_stop(end_of_signal)
    open_outputs()
    parser = argparse.ArgumentParser(prog="python3 -m sketch_hash.parquet", description=__doc__,
                                     formatter_class=argparse.RawDescriptionHelpFormatter)
    parser.add_argument("--version", action="version", version=f"sketch_hash {__version__}")
    commands = parser.add_subparsers(dest="command", required=True)
    for name, text in COMMANDS.items():
        add_common_options(commands.add_parser(name, help=text, description=text))
    add_options(commands.choices["add"])
    commands.choices["remove"].add_argument("-c", "--column", action="append", help="all columns if left out")
    for name in ("add", "remove"):
        commands.choices[name].add_argument("-o", "--output", help="the file to write, if there is one FILE")
    commands.choices["ask"].add_argument("column", metavar="COLUMN")
    commands.choices["ask"].add_argument("value", metavar="VALUE", help="as 42, 2026-01-31, fox; hexadecimal for fixed bytes")
    args = parser.parse_args()
    check_options(args, parser)
    files = files_of(args.files)
    if getattr(args, "output", None) and [*map(str, files)] != args.files:
        parser.error("--output must come with one FILE")
    return run(args, files)


def open_outputs():
    """Closed ones become /dev/null: else the next files would take their places. A name may be any bytes."""
    while (number := os.open(os.devnull, os.O_RDWR)) <= 2:
        pass
    os.close(number)
    sys.stdout, sys.stderr = (stream or open(os.devnull, "w") for stream in (sys.stdout, sys.stderr))
    sys.stdout.reconfigure(errors="surrogateescape")


def add_common_options(command):
    command.add_argument("files", nargs="+", metavar="FILE", help="or a folder")
    command.add_argument("--jobs", type=int, default=1, metavar="N", help="how many processes work; 1 if left out")
    output = command.add_mutually_exclusive_group()
    output.add_argument("--quiet", action="store_true", help="prints errors and warnings alone")
    output.add_argument("--json", action="store_true", help="prints a JSON object for each file, in a line")


def add_options(command):
    command.add_argument("-c", "--column", action="append", required=True, help="as id or address.city; may be repeated")
    command.add_argument("-e", "--error-rate", type=float, help="as 0.01; about 1 %% if left out")
    command.add_argument("-m", "--max-bytes", type=int, help="of a filter, whatever its error rate then is")
    existing = command.add_mutually_exclusive_group()
    existing.add_argument("--replace", action="store_true", help="replaces filters that a file has")
    existing.add_argument("--skip-existing", action="store_true", help="keeps them, and adds those that are missing")


def check_options(args, parser):
    """Ends the program if no file could be changed with such options."""
    if args.jobs < 1:
        parser.error("--jobs must be at least 1")
    if getattr(args, "output", None) == "-":
        parser.error("--output must be a file: ./- is one of that name")
    if args.command == "add":
        try:
            Builder(args.error_rate, args.max_bytes)
        except ValueError as error:
            parser.error(str(error))


def run(args, files):
    statuses = set()
    if not files:
        print_error("no file ends in .parquet")
    for result in each(functools.partial(run_on, args), files, min(args.jobs, max(len(files), 1)), failed):
        statuses.add(result["status"])
        try:
            report(args, result)
        except BrokenPipeError:  # as of head
            end(FAILED)
        except OSError as error:
            print_error(f"the output cannot be written: {error.strerror}")
            os.dup2(os.open(os.devnull, os.O_WRONLY), sys.stdout.fileno())
            statuses.add(FAILED)
    order = (WRONG, FAILED, DONE, NOTHING) if args.command == "ask" else (WRONG, FAILED, NOTHING, DONE)
    return next((status for status in order if status in statuses), NOTHING)


def report(args, result):
    text = result.pop("text", None)
    if args.json:
        print(json.dumps(result), flush=True)
    elif "error" in result:
        print_error(f"{shown(result['file'])}: {result['error']}")
    elif result.get("notes") or text and not args.quiet:
        print("; ".join([*[text] * bool(text), *result.get("notes", [])]), flush=True)


def print_error(text):
    try:
        print(f"{CLEAR}sketch_hash.parquet: {text}", file=sys.stderr, flush=True)
    except OSError:
        pass


def shown(name):
    """The name of a file without what moves the cursor of a terminal, or ends a line."""
    return "".join(c if c.isprintable() or "\ud800" <= c <= "\udfff" else repr(c)[1:-1] for c in str(name))


def files_of(paths):
    """The files at paths and below folders, each once."""
    places, failing = [], []
    for path in paths:
        try:
            place = place_of(path)
            places += map(place.below, place.names()) if place.is_folder() else [place]
        except Exception:  # to open it fails again, and is reported
            failing.append(path)
    return each_once(places) + failing


def failed(file, reason):
    return {"file": str(file), "status": FAILED, "error": reason}


def run_on(args, file):
    """What is reported about a file. The others go on if it fails."""
    try:
        with warnings.catch_warnings(record=True) as caught:
            warnings.simplefilter("always")
            status, text, details = CALLS[args.command](args, file)
        notes = [str(note.message) for note in caught if note.category is UserWarning]
        return {"file": str(file), "status": status, "text": text, **details, **({"notes": notes} if notes else {})}
    except FilterError as error:
        return {**failed(file, str(error)), "status": WRONG}
    except Exception as error:
        return failed(file, " ".join(str(error).split()) or type(error).__name__)


def add(args, file):
    size = add_filters(
        file, args.output or file, args.column, error_rate=args.error_rate, max_bytes=args.max_bytes,
        replace=args.replace, skip_existing=args.skip_existing, progress=bar_of(file))
    return DONE, f"{shown(file)}: {size} bytes of filters" if size else f"{shown(file)}: nothing to add", {"bytes": size}


def remove(args, file):
    count = remove_filters(file, args.output or file, args.column)
    return DONE, f"{shown(file)}: {count} filters removed", {"filters": count}


def check(args, file):
    count = check_filters(file, progress=bar_of(file))
    text = f"{shown(file)}: {count} filters have all values" if count else f"{shown(file)}: no filters to check"
    return DONE if count else NOTHING, text, {"filters": count}


def show(args, file):
    with BloomFilterReader(file) as reader:
        found = [{"row_group": group, "column": column.name, "bytes": num_bytes,
                  "rate": false_positive_rate(reader.source.read(begin, num_bytes))}
                 for column, group, (begin, num_bytes) in all_places(reader.source, reader.footer)]
    lines = [f"{shown(file)}\t{row['row_group']}\t{shown(row['column'])}\t{row['bytes']}\t{row['rate']:.3g}" for row in found]
    return DONE if found else NOTHING, "\n".join(lines) or f"{shown(file)}: no filters", {"filters": found}


def ask(args, file):
    with BloomFilterReader(file) as reader:
        column, = reader.footer.find([args.column])
        groups, = reader.may_contain(args.column, [parse(args.value, column)])
        without = sum(column.place(group)[0] is None for group in groups)
        text = f"{shown(file)}: {len(groups)} of {reader.num_row_groups} row groups"
        text += f", {without} without a filter" if without else ""
        details = {"row_groups": groups, "num_row_groups": reader.num_row_groups, "without_filter": without}
    return (DONE, f"{text}: {' '.join(map(str, groups))}", details) if groups else (NOTHING, None, details)


CALLS = {"add": add, "remove": remove, "check": check, "show": show, "ask": ask}


def bar_of(file):
    """What draws on a terminal how many filters of a file are done."""
    def bar(steps, total):
        for done, step in enumerate(steps):
            print(f"{CLEAR}{shown(file)[-60:]}: {done} of {total} filters", end="", file=sys.stderr, flush=True)
            yield step
        print(CLEAR, end="", file=sys.stderr, flush=True)

    return bar if CLEAR else None
