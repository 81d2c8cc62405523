"""python3 add_on_cluster.py tcp://SCHEDULER:8786 FOLDER COLUMN..: adds Bloom filters to the Parquet files below the folder.

Exit status: 0 if all is done, 1 if a file failed (the others are done), 3 if there is no file.
"""
import collections
import pathlib
import sys
import urllib.parse

from distributed import Client, as_completed
from sketch_hash.parquet import add_filters


def files(folder):
    """Paths, each with the size and time that tell it from another machine's file of the same name. Names that begin with . or
    _ are those of temporary and hidden files."""
    found = (path for path in pathlib.Path(folder).rglob("*.parquet")
             if path.is_file() and not any(name.startswith((".", "_")) for name in path.relative_to(folder).parts))
    return [(str(path), path.stat().st_size, path.stat().st_mtime_ns) for path in found]


def add(path, columns):
    return add_filters(path, path, columns, skip_existing=True)


def main(scheduler, folder, *columns):
    failed = 0
    with Client(scheduler) as client:
        machines = collections.defaultdict(set)
        for worker, found in client.run(files, folder).items():
            for file in found:
                machines[file].add(urllib.parse.urlsplit(worker).hostname)
        tasks = {client.submit(add, file[0], columns, workers=[*hosts], pure=False): file[0]
                 for file, hosts in machines.items()}
        for task in as_completed(tasks):
            error = task.exception()
            failed += error is not None
            text = f"{task.result()} bytes of filters" if error is None else error
            print(f"{tasks[task]}: {text}", file=sys.stderr if error else sys.stdout)
    if not machines:
        print(f"no file below {folder} ends in .parquet", file=sys.stderr)
    return 1 if failed else 0 if machines else 3


if __name__ == "__main__":
    sys.exit(main(*sys.argv[1:]))
