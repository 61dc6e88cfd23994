"""The traces that `bench/trace_gen` makes, and the Rust programs of bench/: what the scripts that measure and compare share."""

import pathlib
import subprocess

BENCH = pathlib.Path(__file__).resolve().parent
# What the generator is asked for, by the name of the shape.
SHAPES = {
    "locking": ["locking"],
    "locking, long names": ["locking", "--long-names", "1"],
    **{name: [name] for name in ("private", "read-shared", "read-write", "lock-heavy", "sparse", "racy", "pool", "mixed", "chaos", "recorded")},
}


def built(name, folder):
    """A Rust program of bench/, built in a folder."""
    manifest = BENCH / name / "Cargo.toml"
    subprocess.run(["cargo", "build", "--release", "--quiet", "--offline", "--manifest-path", manifest, "--target-dir", folder / name], check=True)
    return folder / name / "release" / name


def generate(generator, shape, size, trace):
    """Writes a trace of a shape into a file, of this many bytes."""
    with open(trace, "wb") as sink:
        subprocess.run([generator, "--shape", *SHAPES[shape], "--bytes", str(size)], stdout=sink, stderr=subprocess.DEVNULL, check=True)
