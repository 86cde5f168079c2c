"""The ledgers of mutants: which verdicts hold without another try.

A ledger is the file `verdicts` in a folder of mutants. It has a row for each mutant and each control with the right
verdict: its name, and its key. The key is a checksum of all that the verdict can depend on, so a row of a changed
mutant, or of a mutant of changed code, counts for nothing.

A commit cannot vouch for its own rows. So a row counts only if the ledger of an earlier commit has it too: the newest
commit on the first-parent line whose date is at least four hours before the date of HEAD. That commit has passed a
gate, since a gate passes before the next commits come. Without such a commit, as in a shallow clone, no row counts.
"""
import os
import re
import subprocess

TOP = os.path.dirname(os.path.dirname(os.path.abspath(__file__)))
HOURS = 4


def git(top, *words):
    """Returns the output of a git command, or nothing if git fails."""
    try:
        ran = subprocess.run(["git", "-C", top, *words], stdin=subprocess.DEVNULL, capture_output=True, text=True)
    except OSError:
        return ""
    return ran.stdout if ran.returncode == 0 else ""


def earlier_commit(top=TOP):
    """Returns the newest commit on the first-parent line that is at least four hours older than HEAD, or None."""
    commits = re.findall(r"(?m)^(\w+) (\d+)$", git(top, "log", "--first-parent", "--format=%H %ct", "HEAD"))
    return next((it for it, date in commits if int(date) <= int(commits[0][1]) - 3600 * HOURS), None)


def rows_of(text):
    return {it for it in text.split("\n") if it}


def rows_now(path):
    """Returns the rows of a ledger as it stands, or none if there is no such file."""
    if not os.path.isfile(path):
        return set()
    with open(path, encoding="utf-8") as file:
        return rows_of(file.read())


def rows_that_count(folder, since=None, top=TOP):
    """Returns the rows of the ledger in a folder of mutants that count. `since` is the earlier commit, if given."""
    commit = since or earlier_commit(top)
    now = rows_now(f"{top}/{folder}/verdicts")
    return now & rows_of(git(top, "show", f"{commit}:{folder}/verdicts")) if commit and now else set()


def write(folder, rows, top=TOP):
    """Writes the ledger in a folder of mutants. Returns true if it differs from the ledger before."""
    path, text = f"{top}/{folder}/verdicts", "".join(f"{it}\n" for it in sorted(rows))
    if rows_of(text) == rows_now(path):
        return False
    with open(path, "w", encoding="utf-8") as file:
        file.write(text)
    return True
