"""The cases of tests/probe/*.txt: rows for the program `probe`, and beside each what it prints, worked out from docs/DEFINITIONS.md.

A case begins with a line `== NAME`. A line `ROW -> ANSWER` is a row and the line that answers it; a line without an arrow is a row that
prints nothing, which is the first of its case; `#` starts a comment line. A row with `~>` may find no memory: a case that has such rows is
also played with each of its allocations refused in turn. tests/README.md has the rows.
"""

import pathlib
from dataclasses import dataclass

FOLDER = pathlib.Path(__file__).parent / "probe"


@dataclass
class Case:
    name: str
    rows: list
    answers: list
    # The lines, from 1, of the rows that may find no memory.
    lacking: list

    @property
    def text(self):
        return "".join(f"{row}\n" for row in self.rows)

    @property
    def output(self):
        return "".join(f"{answer}\n" for answer in self.answers)


def cases():
    found = []
    for file in sorted(FOLDER.glob("*.txt")):
        for line in file.read_text().splitlines():
            if line.startswith("== "):
                found.append(Case(f"{file.stem}/{line.removeprefix('== ')}", [], [], []))
            elif line.strip() and not line.startswith("#"):
                arrow = next((arrow for arrow in (" -> ", " ~> ") if arrow in line), None)
                row, _, answer = line.partition(arrow) if arrow else (line, "", "")
                case = found[-1]
                case.rows.append(row.strip())
                if arrow:
                    case.answers.append(answer.strip())
                if arrow == " ~> ":
                    case.lacking.append(len(case.rows))
    names = [case.name for case in found]
    assert len(names) == len(set(names)), "two cases of one name"
    return found


CASES = cases()
