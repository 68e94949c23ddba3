"""The programs that are run beside one another, each built first where it isn't."""
import subprocess
import sys
from pathlib import Path

TOP = Path(__file__).resolve().parent.parent


# The stores that the yardstick's transactions run over, each with the header that says that its library is there.
HEADERS = {"lmdb": "lmdb.h", "sqlite": "sqlite3.h"}


def yardstick():
    """The yardstick, built again where a source is newer."""
    return built(TOP / "yardstick" / "main.rs", "yardstick", [])


def stores():
    """The names of the stores whose libraries are there, and the program over them."""
    names = [name for name, header in HEADERS.items() if is_there(header)]
    if not names:
        sys.exit(f"none of {', '.join(HEADERS.values())} is here (apt-get install liblmdb-dev libsqlite3-dev)")
    words = [word for name in names for word in ("--cfg", name)]
    known = f"cfg({', '.join(HEADERS)})"
    source = TOP / "yardstick" / "stores" / "main.rs"
    return names, built(source, "-".join(["stores", *names]), ["--check-cfg", known, *words])


def is_there(header):
    """Whether a header of C can be had."""
    words = ["cc", "-fsyntax-only", "-include", header, "-x", "c", "/dev/null"]
    return subprocess.run(words, stderr=subprocess.DEVNULL).returncode == 0


def built(source, name, flags):
    """The program of this name, built again where a source is newer."""
    sources, program = TOP / "yardstick", TOP / "yardstick" / "out" / name
    newest = max(path.stat().st_mtime for path in sources.rglob("*.rs"))
    if not program.exists() or program.stat().st_mtime < newest:
        program.parent.mkdir(exist_ok=True)
        subprocess.run(["rustc", "-O", "--edition", "2024", *flags, "-o", program, source], check=True)
    return program


def tpcc():
    """The program of this repository, as ./tpcc proves and builds it."""
    subprocess.run([TOP / "tpcc", "script"], stdin=subprocess.DEVNULL, stdout=subprocess.DEVNULL, check=True)
    return TOP / "crates" / "tpcc" / "out" / "tpcc"


def write_load(kind, count, path):
    """Writes the script of so many lines that `bench_script` gives."""
    program = TOP / "crates" / "bench_script" / "out" / "bench_script"
    if not program.exists():
        print("proving and building bench_script", file=sys.stderr)
        subprocess.run(["rt", "run"], cwd=program.parent.parent, stdout=subprocess.DEVNULL, check=True)
    with open(path, "wb") as file:
        subprocess.run([program, kind, str(count)], stdout=file, check=True)
    with open(path, "rb") as file:
        if sum(1 for _ in file) != count:
            sys.exit(f"bench_script didn't write {count} lines of {kind}")
