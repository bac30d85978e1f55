#!/usr/bin/env python3
"""Runs the commands that the documents show, and compares what they print with what is shown. Outside the gate.

    bench/documents.py [--rt] [PROGRAM]

PROGRAM is a built pccrun, by default crates/pccrun/out/pccrun; where that file is there, it is the one that runs.

The pages are README.md, docs/MANUAL.md and examples/README.md. All their blocks marked `sh` run one after the other, from the repository's top, in one
shell. Where the next block is marked `output`, it is all that the commands print on the standard output. Two kinds of blocks are left out: `sh machine`
needs the tables of a machine and the tools that read them, and runs only where both are there; `sh gate` is the gate. `rt run -- WORDS` and
`rt try -- WORDS` run PROGRAM, and with --rt the toolchain.

Besides, what the gate keeps of the examples has to be theirs: each crates/NAME/data/FILE is examples/FILE, and the stored run of each program crate
(`args`, `stdin`, `stdout`, `status`) is what PROGRAM prints, with an example as its input or none. The links of all documents lead to files, and the files
of crates that they name are there.

The exit status is 0 where nothing differs.
"""

import argparse
import difflib
import os
import re
import shutil
import subprocess
import sys
import tempfile
from dataclasses import dataclass
from pathlib import Path

TOP = Path(__file__).resolve().parent.parent
BUILT = TOP / "crates" / "pccrun" / "out" / "pccrun"
PAGES = ["README.md", "docs/MANUAL.md", "examples/README.md"]
MACHINE_TABLE = Path("/sys/firmware/acpi/tables/PCCT")

# A link to a file, the path of a file of a crate, with or without the crate before it, and the heading of definitions.
LINK = re.compile(r"\]\(([^)#:]+)(?:#[^)]*)?\)")
FILE = re.compile(r"`(?:crates/)?(?:([a-z_]+)/)?((?:proofs|specs|src)/[A-Za-z_/]+\.(?:antt|rt))`")
DEFINITIONS = re.compile(r"`([a-z_]+)/([A-Z][A-Za-z]+)`")

# A block: the words after its fence, and its text.
FENCED = re.compile(r"^```([a-z ]+)\n(.*?)^```$", re.MULTILINE | re.DOTALL)

# `rt run -- WORDS` and `rt try -- WORDS` as the program with these words.
STAND_IN = 'rt() { shift 2; pccrun "$@"; }\n'


@dataclass
class Block:
    """Commands of a page, the line on which they begin, and what they print, if the page shows it."""

    page: str
    line: int
    commands: str
    shown: str | None

    def place(self) -> str:
        return f"{self.page}:{self.line}"


def can_run(mark: str) -> bool:
    """Whether a block of commands with this mark is run here."""
    if mark == "sh machine":
        return MACHINE_TABLE.exists() and shutil.which("acpidump") is not None
    return mark == "sh"


def blocks_of(page: str) -> tuple[list[Block], list[str]]:
    """The blocks of commands of a page that are run, and the places of those that are left out."""
    text = (TOP / page).read_text()
    found = [(text.count("\n", 0, m.start()) + 2, m.group(1).strip(), m.group(2)) for m in FENCED.finditer(text)]
    run, left_out = [], []
    for n, (line, mark, commands) in enumerate(found):
        if not mark.startswith("sh"):
            continue
        follows = found[n + 1][1:] if n + 1 < len(found) else ("", "")
        if can_run(mark):
            run.append(Block(page, line, commands, follows[1] if follows[0] == "output" else None))
        else:
            left_out.append(f"{page}:{line} ({mark})")
    return run, left_out


def run_all(blocks: list[Block], bin_dir: Path, stand_in: bool) -> list[tuple[str, str]]:
    """What each block writes to the standard output and to the standard error, all in one shell."""
    with tempfile.TemporaryDirectory() as folder:
        script = STAND_IN if stand_in else ""
        for n, block in enumerate(blocks):
            (Path(folder) / f"{n}.sh").write_text(block.commands)
            script += f"source {folder}/{n}.sh > {folder}/{n}.out 2> {folder}/{n}.err < /dev/null\n"
        path = {**os.environ, "PATH": f"{bin_dir}:{os.environ['PATH']}"}
        subprocess.run(["bash", "-c", script], cwd=TOP, env=path, check=False)
        return [((Path(folder) / f"{n}.out").read_text(), (Path(folder) / f"{n}.err").read_text()) for n in range(len(blocks))]


def differences(blocks: list[Block], written: list[tuple[str, str]], stand_in: bool) -> list[str]:
    """What a page shows and its commands do not print. Commands that show nothing must print no errors either."""
    wrong = []
    for block, (out, err) in zip(blocks, written):
        if block.shown is not None and out != block.shown:
            lines = difflib.unified_diff(block.shown.splitlines(), out.splitlines(), "shown", "printed", lineterm="")
            wrong.append("\n".join([block.place(), *lines]))
        if err and (stand_in or " rt " not in block.commands):
            wrong.append(f"{block.place()}: {err.strip()}")
    return wrong


def stored_runs(program: Path) -> list[str]:
    """The stored runs of program crates that are not what the program prints, or whose input is no example."""
    examples = {p.read_bytes() for p in (TOP / "examples").iterdir()}
    wrong = []
    for crate in sorted(p.parent.parent for p in TOP.glob("crates/*/src/main.rt")):
        kept = {name: (crate / name).read_bytes() if (crate / name).exists() else b"" for name in ("args", "stdin", "stdout", "status")}
        done = subprocess.run([program, *kept["args"].decode().split("\n")[:-1]], input=kept["stdin"], capture_output=True, check=False)
        if done.stdout != kept["stdout"] or done.returncode != int(kept["status"] or b"0"):
            wrong.append(f"{crate.name}: the stored run is not what the program prints")
        if kept["stdin"] and kept["stdin"] not in examples:
            wrong.append(f"{crate.name}: stdin is no file of examples/")
    return wrong


def copies() -> list[str]:
    """The files of crates/*/data that are not those of examples/."""
    def differs(copy: Path) -> bool:
        example = TOP / "examples" / copy.name
        return not example.exists() or example.read_bytes() != copy.read_bytes()

    return [f"{copy.relative_to(TOP)} is not examples/{copy.name}" for copy in sorted(TOP.glob("crates/*/data/*")) if differs(copy)]


def missing() -> list[str]:
    """The files that a document links to or names, and that are not there."""
    wrong = []
    for page in [*TOP.glob("*.md"), *TOP.glob("docs/*.md"), *TOP.glob("examples/*.md"), *TOP.glob("crates/*/*.md")]:
        text = page.read_text()
        named = [(link, (page.parent / link).exists()) for link in LINK.findall(text)]
        named += [(f"{crate}/{path}", any(TOP.glob(f"crates/{crate or '*'}/{path}"))) for crate, path in FILE.findall(text)]
        named += [(f"{crate}/{name}", (TOP / "crates" / crate / "specs" / f"{name}.antt").exists()) for crate, name in DEFINITIONS.findall(text)]
        wrong += [f"{page.relative_to(TOP)}: no {name}" for name, is_there in named if not is_there]
    return wrong


def unnamed() -> list[str]:
    """The examples that examples/README.md does not name."""
    text = (TOP / "examples" / "README.md").read_text()
    return [f"examples/README.md does not name {p.name}" for p in sorted((TOP / "examples").iterdir()) if p.name not in text]


def main() -> int:
    parser = argparse.ArgumentParser(description=__doc__.split("\n", maxsplit=1)[0])
    parser.add_argument("--rt", action="store_true", help="run rt itself")
    parser.add_argument("program", nargs="?", type=Path, default=BUILT, help="a built pccrun")
    options = parser.parse_args()
    program = BUILT if BUILT.exists() else options.program.resolve()
    if not program.exists():
        parser.error(f"{program} is not built")

    blocks, left_out = [], []
    for page in PAGES:
        run, out = blocks_of(page)
        blocks += run
        left_out += out
    with tempfile.TemporaryDirectory() as folder:
        (Path(folder) / "pccrun").symlink_to(program)
        written = run_all(blocks, Path(folder), not options.rt)
    wrong = differences(blocks, written, not options.rt) + stored_runs(program) + copies() + unnamed() + missing()
    for line in left_out:
        print(f"left out: {line}")
    for line in wrong:
        print(line)
    shown = sum(block.shown is not None for block in blocks)
    print(f"{len(blocks)} blocks of commands run, {shown} outputs compared, {len(wrong)} differences")
    return 1 if wrong else 0


if __name__ == "__main__":
    sys.exit(main())
