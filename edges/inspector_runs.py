# What `inspector_runs` prints: for each file its name and its screen.
from pathlib import Path

import paper

DATA = Path(__file__).resolve().parent.parent / "crates" / "inspector_runs" / "data"

# In the order in which the program reads them.
FILES = ["empty", "one", "most", "over", "long", "binary"]


def output():
    for name in FILES:
        yield name + "\n"
        yield paper.screen((DATA / name).read_bytes()).decode("ascii")
