#!/usr/bin/env python3
"""Tries the recipes that read a table with other programs on fields of every byte that one may have.

usage: tests/documents/every_byte.py

The recipes of awk and SQLite are those of man/aprsbook-table.1, and that of pandas is the one of
docs/cookbook.md, each with a table in place of the program. What they read has to be the table.
Needs Python 3.9 and awk, and leaves out what isn't there of sqlite3 and pandas.
"""
import os
import re
import shutil
import sqlite3
import subprocess
import sys
import tempfile
from typing import Dict, List

COLUMNS = ["kind", "last", "source", "name", "latitude", "longitude", "text", "finer_longitude"]
# no field has a tab or an LF, and what isn't from 20 to 7E is shown by these
BYTES = [chr(byte) for byte in range(0x20, 0x7F)]


def rows() -> List[List[str]]:
    """Rows with each byte at the start, at the end, between others, alone, and after quotation marks
    and backslashes. The first field is never empty."""
    found = []
    for byte in BYTES:
        found.append(["raw", byte + "x", "N0CALL-9", "x" + byte, "1.5", "2.5", f"x{byte}y", ""])
        found.append(["raw", '"' + byte, "N0CALL-9", byte, "1.5", "", byte + '"', byte])
        found.append([byte, "'" + byte, "N0CALL-8", "", "1.5", "2.5", "\\" + byte, byte + byte])
        found.append([byte + '"', byte, "N0CALL-9", "", "", "", "", ""])
    return found


def text_of(path: str) -> str:
    """The text of a file of the repository."""
    with open(os.path.join(os.path.dirname(__file__), "../..", path), encoding="utf-8") as file:
        return file.read()


def manual_commands() -> List[str]:
    """The examples of the manual page as they are typed, those of a database by their last line."""
    examples = re.findall(r"^\.EX\n(.*?)^\.EE", text_of("man/aprsbook-table.1"), re.M | re.S)
    typed = [it.replace("\\(aq", "'").replace("\\-", "-").replace("\\e", "\\") for it in examples]
    return [it.replace("aprsbook-table net.book > rows.tsv\n", "").replace(
        "aprsbook-table net.book |", "cat rows.tsv |") for it in typed]


def run(command: str) -> str:
    """What the command prints; ends where it fails or says something."""
    done = subprocess.run(["sh", "-c", command], capture_output=True, text=True, check=False)
    if done.returncode or done.stderr:
        sys.exit(f"tests/documents/every_byte.py: {command}: {done.stderr[:500]}")
    return done.stdout


def expect(what: str, found: object, wanted: object) -> None:
    """Ends where something else was read than is wanted."""
    if found != wanted:
        sys.exit(f"tests/documents/every_byte.py: {what} reads another table")


def try_awk(command: str, table: List[List[str]]) -> None:
    """Tries the recipe that prints the track of N0CALL-9."""
    lines = [" ".join([it[1], it[4], it[5]]) for it in table if it[2] == "N0CALL-9" and it[4]]
    expect("awk", run(command), "".join(line + "\n" for line in lines))


def try_sqlite(command: str, table: List[List[str]]) -> None:
    """Tries the recipe that makes a database."""
    run(command)
    base = sqlite3.connect("net.db")
    names = [it[1] for it in base.execute("pragma table_info(rows)")]
    expect("sqlite3", names, COLUMNS)
    expect("sqlite3", [list(it) for it in base.execute("select * from rows")], table)


def try_pandas(table: List[List[str]]) -> None:
    """Tries the recipe that counts kinds, and then asks its table for each field."""
    script = re.search(r"<< 'end'\n(import csv\nimport pandas\n.*?)^end$", text_of("docs/cookbook.md"), re.M | re.S)
    if script is None:
        sys.exit("tests/documents/every_byte.py: docs/cookbook.md has no recipe with pandas")
    shutil.copy("rows.tsv", "net.tsv")
    asked = script[1] + "import json\nprint(json.dumps(table.fillna('').astype(str).values.tolist()))\n"
    with open("recipe.py", "w", encoding="utf-8") as file:
        file.write(asked.replace("keep_default_na=False", "dtype=str, keep_default_na=False"))
    *counts, fields = run("/usr/bin/python3 recipe.py").splitlines()
    kinds: Dict[str, int] = {}
    for row in table:
        kinds[row[0]] = kinds.get(row[0], 0) + 1
    expect("pandas", sorted(counts), sorted(f"{kind} {n}" for kind, n in kinds.items()))
    expect("pandas", __import__("json").loads(fields), table)


def main() -> None:
    """Tries each."""
    table = rows()
    by_awk, by_sqlite = manual_commands()
    has_pandas = subprocess.run(
        ["/usr/bin/python3", "-c", "import pandas"], capture_output=True, check=False
    ).returncode == 0
    with tempfile.TemporaryDirectory() as place:
        os.chdir(place)
        with open("rows.tsv", "w", encoding="utf-8") as file:
            file.writelines("\t".join(row) + "\n" for row in [COLUMNS] + table)
        try_awk(by_awk, table)
        if shutil.which("sqlite3"):
            try_sqlite(by_sqlite, table)
        else:
            print("left out: a table in a database (no sqlite3 is there)")
        if has_pandas:
            try_pandas(table)
        else:
            print("left out: a table in pandas (it isn't there)")
        os.chdir("/")
    print(f"other programs read {len(table)} rows with fields of every byte")


if __name__ == "__main__":
    os.chdir(os.path.dirname(os.path.abspath(__file__)))
    main()
