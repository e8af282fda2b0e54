"""A row for each case of a bench, each found by a process of its own."""
import json
import subprocess
import sys

import pandas as pd
from debian_python import PYTHON


def rows_by_child(script, rows, cases, one, wanted):
    """Runs the cases that the command line names, and keeps their rows beside those of others.

    Each case is run by the script itself, with the words --child and its name, so that what one
    takes says nothing of another: `one` then prints its row as JSON, the last line.

    Parameters
    ----------
    script : str
        Of the bench.
    rows : Path
        The table that is kept, CSV.
    cases : sequence or mapping of str
        All there are, in the order of the table.
    one : function
        Runs a case by its name.
    wanted : list of str
        The cases where none is named.
    """
    names = sys.argv[1:] or wanted
    if names[0] == "--child":
        one(names[1])
        return
    kept = pd.read_csv(rows).to_dict("records") if rows.exists() else []
    found = {row["case"]: row for row in kept}
    for name in names:
        words = [PYTHON, script, "--child", name]
        ran = subprocess.run(words, stdout=subprocess.PIPE, text=True, check=True)
        found[name] = json.loads(ran.stdout.splitlines()[-1])
        print(found[name], flush=True)
        pd.DataFrame([found[name] for name in cases if name in found]).to_csv(rows, index=False)
