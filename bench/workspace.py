"""A workspace beside the graphs of `bench/speed`, with copies of the crates of this repository and a program of a script's own."""
import os
import pathlib
import shutil

TOP = pathlib.Path(__file__).resolve().parent.parent
CACHE = pathlib.Path(os.environ.get("XDG_CACHE_HOME", pathlib.Path.home() / ".cache")) / "symple-speed"


def put(file, text):
    """Writes a file where it holds something else, so that what is proved of it stays."""
    if not file.exists() or file.read_bytes() != text:
        file.parent.mkdir(parents=True, exist_ok=True)
        file.write_bytes(text)


def put_only(folder, files):
    """Makes these the files of the folder, by their names."""
    for gone in {it for it in folder.rglob("*") if it.is_file()} - {folder / name for name in files}:
        gone.unlink()
    for name, text in files.items():
        put(folder / name, text)


def files_of(folder):
    return {str(it.relative_to(folder)): it.read_bytes() for it in folder.rglob("*") if it.is_file()}


def take_library(crate, copy):
    """Takes over the library that was proved of the crate, where there is one. `rt` looks itself whether it is one of these files."""
    stamp = crate / "out" / "rlib" / "stamp"
    taken = copy / "out" / "rlib"
    if stamp.exists() and not ((taken / "stamp").exists() and (taken / "stamp").read_bytes() == stamp.read_bytes()):
        shutil.rmtree(taken, ignore_errors=True)
        shutil.copytree(stamp.parent, taken)


def made(name, libraries, files):
    """The folder of the program with these files, over these libraries, in a workspace of its name."""
    workspace = CACHE / name
    for crate in (TOP / "crates").iterdir():
        copy = workspace / "crates" / crate.name
        for part in ("src", "specs", "proofs"):
            put_only(copy / part, files_of(crate / part))
        take_library(crate, copy)
    folder = workspace / "crates" / name
    for part in ("src", "proofs"):
        put_only(folder / part, {it.removeprefix(f"{part}/"): text for it, text in files.items() if it.startswith(f"{part}/")})
    put(workspace / "crates.txt", ((TOP / "crates.txt").read_text() + f"{name}: {libraries}\n").encode())
    return folder
