"""What the scripts of this folder measured last: in bench/results a file for each of them, which says of what tree and machine it is.

A file has `of`, with the tree of crates (`git rev-parse HEAD:crates`), the commit, the day, the machine and the programs, and `figures`.
bench/page makes docs/PERFORMANCE.md of them.
"""

import argparse
import datetime
import hashlib
import json
import os
import pathlib
import platform
import re
import shlex
import subprocess
import sys

TOP = pathlib.Path(__file__).resolve().parent.parent
RESULTS = TOP / "bench/results"
TREE = 12
IN_MEMORY = {"tmpfs", "ramfs", "devtmpfs"}
QUIET = 1.0  # the load above which times say little


def output_of(*words):
    return subprocess.run(words, cwd=TOP, capture_output=True, text=True, check=True).stdout.strip()


def file_system(folder):
    """The kind of the file system of a folder, and its device."""
    return output_of("df", "--output=fstype,source", folder).splitlines()[1].split(maxsplit=1)


def disk_folder(text):
    """A folder on a disk; for the command line."""
    if not pathlib.Path(text).is_dir():
        raise argparse.ArgumentTypeError(f"{text} is not a folder")
    kind, _ = file_system(text)
    if kind in IN_MEMORY:
        raise argparse.ArgumentTypeError(f"{text} is in memory ({kind}); give a folder on a disk")
    return os.path.abspath(text)


def disk_of(folder):
    """The disk of a folder, with its model if it has one and its size."""
    kind, source = file_system(folder)
    number = os.stat(folder).st_dev
    device = pathlib.Path(f"/sys/dev/block/{os.major(number)}:{os.minor(number)}").resolve()
    if not device.exists():
        return f"{source}, {kind}"
    disk = device if (device / "device").exists() else device.parent
    model = disk / "device/model"
    names = [model.read_text().strip()] if model.exists() else [disk.name]
    if (disk / "size").exists():
        names.append(f"{int((disk / 'size').read_text()) * 512 / 1e9:.0f} GB")
    return f"{' of '.join(names)}, {kind}"


def machine(folder):
    """Processor, cores, memory and system, and the disk and file system of a folder if one is given."""
    model = re.search(r"model name\s*: (.*)", pathlib.Path("/proc/cpuinfo").read_text())
    memory = int(re.search(r"MemTotal:\s+(\d+)", pathlib.Path("/proc/meminfo").read_text())[1])
    found = {
        "processor": model[1] if model else platform.machine(),
        "cores": len(os.sched_getaffinity(0)),
        "memory": f"{memory / 2**20:.0f} GiB",
        "system": f"{platform.system()} {platform.release()}",
    }
    return found | ({"disk": disk_of(folder)} if folder else {})


def hash_of(command):
    """The hash of the program that a command starts, its last word that is an executable file, if any is."""
    files = [it for it in map(pathlib.Path, shlex.split(str(command))) if it.is_file() and os.access(it, os.X_OK)]
    return hashlib.sha256(files[-1].read_bytes()).hexdigest()[:16] if files else None


def run_now(programs, folder=None):
    """Of what a run is that begins now; `programs` are commands by name. It ends here if the crates have changes."""
    if changed := output_of("git", "status", "--porcelain", "--", "crates"):
        sys.exit(f"bench: commit or put away the changes of crates first\n{changed}")
    hashes = {name: hash_of(command) for name, command in programs.items()}
    if lacking := [str(programs[name]) for name, it in hashes.items() if it is None]:
        sys.exit(f"bench: there is no program {', '.join(lacking)} (make build)")
    load = os.getloadavg()[0]
    if load > QUIET:
        print(f"bench: the load is {load:.1f}: times will say little", file=sys.stderr)
    return {
        "tree": output_of("git", "rev-parse", "HEAD:crates")[:TREE],
        "commit": output_of("git", "rev-parse", "--short", "HEAD"),
        "date": f"{datetime.date.today():%Y-%m-%d}",
        "machine": machine(folder),
        "load": round(load, 1),
        "programs": hashes,
    }


def rounded(number):
    """Three digits of a number, or all before its point."""
    return float(f"{number:.3g}") if number < 100 else round(number)


def write(name, of, figures, folder):
    folder.mkdir(parents=True, exist_ok=True)
    (folder / f"{name}.json").write_text(json.dumps({"of": of, "figures": figures}, indent=1, ensure_ascii=False) + "\n")
    print(f"{folder / name}.json is written", file=sys.stderr)
    if folder == RESULTS:
        subprocess.run([TOP / "bench/page", "--write"], check=True)


def read(folder):
    """What was measured, by the file's name."""
    return {it.stem: json.loads(it.read_text()) for it in sorted(folder.glob("*.json"))}


def add_options(parser):
    """Options of all scripts that write their results."""
    parser.add_argument("--write", action="store_true", help="keep what was measured, and write docs/PERFORMANCE.md anew")
    parser.add_argument("--results", type=pathlib.Path, default=RESULTS, metavar="FOLDER", help="where --write keeps it; default bench/results")


def check_options(parser, words, *whole):
    """Ends here if --write has no --folder, or if bench/results would be of less than a whole run: of one whose options of these names differ from
    their defaults."""
    if words.write and not words.folder:
        parser.error("--write needs a --folder on a disk")
    if words.write and words.results.resolve() == RESULTS and any(getattr(words, it) != parser.get_default(it) for it in whole):
        parser.error("bench/results is of whole runs: give --results FOLDER too")
