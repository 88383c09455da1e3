"""What reading the same bytes and writing the same report takes a few lines of plain Rust, `floor.rs`: its time and its
memory. Where `rustc` isn't on the machine there is no floor."""

import os
import shutil
import subprocess

from large_inputs import best

HERE = os.path.dirname(os.path.abspath(__file__))


def built(folder):
    """The program, or None."""
    if shutil.which("rustc") is None:
        return None
    program = os.path.join(folder, "floor")
    done = subprocess.run(["rustc", "-O", "-o", program, os.path.join(HERE, "floor.rs")], stderr=subprocess.DEVNULL)
    return program if done.returncode == 0 else None


def floor(program, path, report, other):
    """Seconds and KiB of reading the file and writing the report, or None."""
    if program is None:
        return None
    _, seconds, memory = best([program, report], path, other)
    return seconds, memory


def ratio(found, seconds, memory):
    """How often the floor fits into the seconds and into the memory, in words."""
    if found is None:
        return "no rustc, no floor"
    return (f"floor {found[0]:.3f} s and {found[1] / 1024:.0f} MB, {seconds / max(found[0], 0.001):.1f} times the time, "
            f"{memory / max(found[1], 1):.1f} times the memory")
