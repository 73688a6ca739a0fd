#!/usr/bin/env python3
"""Makes the command for Node, aprsbook.mjs, of the module and of what one can type.

usage: build/command.py MODULE.wasm FOLDER > aprsbook.mjs

FOLDER has the programs aprsbook, aprsbook-history and aprsbook-table, whose texts of help it says.
Needs Python 3.9 and esbuild.
"""
import base64
import json
import pathlib
import re
import subprocess
import sys
from typing import Dict, List, TypedDict

import page

HERE = pathlib.Path(__file__).resolve().parent

PROGRAMS = ["aprsbook", "aprsbook-history", "aprsbook-table"]
ENTRY = 'import { command } from "./main-node.js";\ncommand(PARTS);\n'


class Row(TypedDict):
    """A row of completions/programs.txt: its words, its options, those that have to be given, whether
    SECONDS comes first, whether it takes many inputs."""

    words: List[str]
    options: List[str]
    required: List[str]
    seconds: bool
    many: bool


def rows() -> Dict[str, List[Row]]:
    """What one can type, by programs."""
    found: Dict[str, List[Row]] = {program: [] for program in PROGRAMS}
    lines = (HERE.parent / "completions" / "programs.txt").read_text(encoding="ascii").splitlines()
    for line in lines:
        fields = [it.strip() for it in line.split("|")]
        if line.startswith(("#", "--")) or len(fields) != 3:
            continue
        program, *words = fields[0].split()
        # these rows have no run of their own: what help does, and what FORM stands for
        if program not in found or words == ["help"] or fields[1] == "FORM":
            continue
        if program == "aprsbook" and not words:
            continue
        options = re.findall(r"(\[?)--(\w+)", fields[1])
        found[program].append({
            "words": [it.strip("[]") for it in words],
            "options": [name for _, name in options],
            "required": [name for bracket, name in options if not bracket],
            "seconds": "SECONDS" in fields[1].split(), "many": ".." in fields[1]})
    return found


def said(program: pathlib.Path, *words: str) -> str:
    """What a program says."""
    return subprocess.run([str(program), *words], stdout=subprocess.PIPE, check=True).stdout.decode()


def helps(folder: pathlib.Path, typed: Dict[str, List[Row]]) -> Dict[str, Dict[str, str]]:
    """The texts of help, by the words that they are on."""
    found: Dict[str, Dict[str, str]] = {}
    for program, of in typed.items():
        commands = {it["words"][0] for it in of} if program == "aprsbook" else set()
        asked: List[List[str]] = [[], *([it] for it in sorted(commands))]
        for words in asked:
            found[" ".join([program, *words])] = {
                "short": said(folder / program, *words, "-h"),
                "long": said(folder / program, *words, "--help")}
    return found


def whole(module: bytes, folder: pathlib.Path) -> str:
    """The command."""
    typed = rows()
    version = said(HERE.parent / "packaging" / "version").strip()
    parts = {"rows": typed, "helps": helps(folder, typed), "version": version,
             "module": base64.b64encode(module).decode()}
    script = page.esbuild("--bundle", "--minify", "--format=esm", "--platform=node",
                          folder=page.PAGE / "src", given=ENTRY).decode()
    return ("#!/usr/bin/env node\n// aprsbook, aprsbook-history and aprsbook-table for Node 20 or "
            f"later: node aprsbook.mjs --help\nconst PARTS = {json.dumps(parts)};\n{script}")


if __name__ == "__main__":
    if len(sys.argv) != 3:
        sys.exit("usage: build/command.py MODULE.wasm FOLDER > aprsbook.mjs")
    made = whole(pathlib.Path(sys.argv[1]).read_bytes(), pathlib.Path(sys.argv[2]))
    sys.stdout.buffer.write(made.encode())
