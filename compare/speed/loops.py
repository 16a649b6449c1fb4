"""What `lanes` and `small` share: a loop around the crates' calls built, and the CPU time of a process.

A source here is the one file of a program's crate. It is put beside copies of the crates that it stands on, in a folder outside the repository (where
no check would read it), and `rt run` proves and builds it there.
"""
import pathlib
import resource
import shutil
import subprocess
import sys
import tempfile

here = pathlib.Path(__file__).resolve().parent
root = here.parent.parent
out = root / "compare/build/speed"


def build(name, source_name, uses, without=None):
    """A program made of a source here, which calls the crates `uses`, less the lines that end in `without`."""
    out.mkdir(parents=True, exist_ok=True)
    lines = dict(line.split(":", 1) for line in (root / "crates.txt").read_text().split("\n") if ":" in line and not line.startswith("#"))
    needed = sorted(set(uses).union(*(lines[n].split() for n in uses)))
    with tempfile.TemporaryDirectory() as room:
        room = pathlib.Path(room)
        for n in needed:
            for part in ("src", "specs", "proofs"):
                if (root / "crates" / n / part).exists():
                    shutil.copytree(root / "crates" / n / part, room / "crates" / n / part)
        own = [f"{n}:{lines[n]}\n" for n in needed if n in lines]
        (room / "crates.txt").write_text("".join(own) + f"{name}: {' '.join(needed)}\n")
        program = room / "crates" / name
        (program / "src").mkdir(parents=True)
        source = (here / f"{source_name}.source").read_text().split("\n")
        (program / "src/main.rt").write_text("\n".join(line for line in source if not (without and line.endswith(without))))
        # It is run too, with nothing to read, and ends at once.
        made = subprocess.run(["rt", "run"], cwd=program, stdin=subprocess.DEVNULL, stdout=subprocess.DEVNULL, stderr=subprocess.PIPE, text=True)
        if not (program / "out" / name).exists():
            sys.exit(made.stderr)
        shutil.copy(program / "out" / name, out / name)
    return out / name


def seconds(program, request):
    """The CPU seconds of a process, its start included, and what it writes."""
    before = resource.getrusage(resource.RUSAGE_CHILDREN)
    r = subprocess.run([program], input=request, capture_output=True, check=True)
    after = resource.getrusage(resource.RUSAGE_CHILDREN)
    return after.ru_utime + after.ru_stime - before.ru_utime - before.ru_stime, r.stdout
