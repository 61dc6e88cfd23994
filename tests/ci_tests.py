"""The commands of docs/CI.md, one block behind the other in one folder, beside what the page says they print."""

import os
import pathlib
import re
import subprocess
import sys
import tempfile

sys.dont_write_bytecode = True
from alone import program, run_alone

TOP = pathlib.Path(__file__).resolve().parent.parent
PROGRAM = program("eraser")
BLOCK = re.compile(r"^```(\w+)\n(.*?)^```$", re.M | re.S)


def tests(record):
    blocks = [block for block in BLOCK.findall((TOP / "docs/CI.md").read_text()) if block[0] in ("sh", "text")]
    record("docs/CI.md has an answer below each command", [kind for kind, _ in blocks] == ["sh", "text"] * (len(blocks) // 2) and len(blocks) >= 12, f"{[kind for kind, _ in blocks]}")
    with tempfile.TemporaryDirectory() as name:
        folder = pathlib.Path(name)
        (folder / "bin").mkdir()
        (folder / "bin/eraser").symlink_to(PROGRAM)
        env = {**os.environ, "PATH": f"{folder / 'bin'}:{os.environ['PATH']}"}
        for (_, commands), (_, wanted) in zip(blocks[::2], blocks[1::2]):
            done = subprocess.run(["sh", "-e", "-c", commands], cwd=folder, env=env, capture_output=True, text=True, timeout=60)
            record(f"docs/CI.md: {commands.splitlines()[-1][:60]}", (done.returncode, done.stdout, done.stderr) == (0, wanted, ""), f"{done}")


if __name__ == "__main__":
    run_alone(tests)
