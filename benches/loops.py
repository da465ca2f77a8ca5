"""Runs the loops of crates/sd_bench and times them: by processor time, user and system, of the process."""
import functools
import hashlib
import os
import subprocess
import sys
from pathlib import Path

TOP = Path(__file__).resolve().parent.parent
NAME = "sd_bench"
PROGRAM = TOP / "crates" / NAME / "out" / NAME
# The sum of the sources that the program was built of.
BUILT = TOP / "out" / NAME


def below(name):
    """The crate, and those of the repository that it stands on."""
    lines = {}
    for line in (TOP / "crates.txt").read_text().splitlines():
        crate, _, others = line.split("#")[0].partition(":")
        if crate.strip():
            lines[crate.split()[0]] = others.split()
    found = {name}
    for crate in reversed(list(lines)):
        if crate in found:
            found.update(other for other in lines[crate] if other in lines)
    return sorted(found)


def content():
    """A sum of what the sources of the program say."""
    total = hashlib.sha256((TOP / "crates.txt").read_bytes())
    for crate in below(NAME):
        for part in ("src", "specs", "proofs"):
            for path in sorted((TOP / "crates" / crate / part).rglob("*")):
                if path.is_file():
                    data = path.read_bytes()
                    total.update(f"{path.relative_to(TOP)} {len(data)}\n".encode())
                    total.update(data)
    return total.hexdigest()


@functools.cache
def build():
    """Proves and builds the program, where it is missing or its sources have changed since."""
    told = content()
    if PROGRAM.exists() and BUILT.exists() and BUILT.read_text() == told:
        return
    print(f"building crates/{NAME}", file=sys.stderr)
    BUILT.unlink(missing_ok=True)
    subprocess.run(["rt", "run", "--", "devices", "0", "0"], cwd=TOP / "crates" / NAME, check=True, stdout=subprocess.DEVNULL)
    BUILT.parent.mkdir(exist_ok=True)
    BUILT.write_text(told)


def used(words, text=None):
    """What one run with this text as its input took of the machine."""
    child = subprocess.Popen(words, stdin=text, stdout=subprocess.DEVNULL)
    _, status, usage = os.wait4(child.pid, 0)
    child.returncode = os.waitstatus_to_exitcode(status)
    if child.returncode != 0:
        sys.exit(f"benches: {' '.join(map(str, words))} ended with {child.returncode}")
    return usage


def spent(words, text=None):
    """Processor seconds and the greatest resident set in MB of one run with this text as its input."""
    usage = used(words, text)
    return usage.ru_utime + usage.ru_stime, usage.ru_maxrss / 1024


@functools.cache
def best(*words, rounds=3):
    """Processor seconds of the best of some runs with these words."""
    build()
    return min(spent([PROGRAM, *map(str, words)])[0] for _ in range(rounds))
