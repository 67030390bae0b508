"""The page docs/PYTHON.md: each of its blocks is run, in order, and what it prints is what the page says."""

from __future__ import annotations

import contextlib
import io
import os
import re
import shutil
import subprocess
import sys
from pathlib import Path
from typing import NamedTuple

import pytest
from common import TOP

import twarp

PAGE = TOP / "docs" / "PYTHON.md"


class Block(NamedTuple):
    line: int
    language: str
    text: str


def blocks(page: str) -> list[Block]:
    """The blocks of a page, without the blanks by which they are set in."""
    found: list[Block] = []
    lines = page.split("\n")
    at = 0
    while at < len(lines):
        begun = re.fullmatch(r"( *)```(\w*)", lines[at])
        if begun is None:
            at += 1
            continue
        inside = at + 1
        while lines[inside] != begun[1] + "```":
            assert lines[inside].startswith(begun[1]) or not lines[inside], f"line {inside + 1} stands out"
            inside += 1
        text = "".join(line[len(begun[1]) :] + "\n" for line in lines[at + 1 : inside])
        found.append(Block(at + 1, begun[2], text))
        at = inside + 1
    return found


def run_python(block: Block, names: dict[str, object]) -> str:
    told = io.StringIO()
    with contextlib.redirect_stdout(told):
        exec(compile("\n" * block.line + block.text, str(PAGE), "exec"), names)
    return told.getvalue()


def run_bash(block: Block, environment: dict[str, str]) -> str:
    """Runs a block in a shell, and keeps what it exports for those that follow."""
    text = f"set -eu\n{block.text}\nenv -0 >environment\n"
    called = subprocess.run(["bash", "-c", text], env=environment, stdout=subprocess.PIPE, stderr=subprocess.PIPE, check=False)
    assert called.returncode == 0, f"line {block.line}: {called.stderr.decode()}"
    for pair in Path("environment").read_bytes().split(b"\0"):
        name, _, value = pair.decode().partition("=")
        if name in ("TWARP", "PYTHONPATH"):
            environment[name] = value
    return called.stdout.decode()


def trim(text: str) -> str:
    return "\n".join(line.rstrip() for line in text.rstrip().split("\n"))


def test_each_block_of_the_page(tmp_path: Path, monkeypatch: pytest.MonkeyPatch) -> None:
    """They are run from a folder that looks like the top of the repository, with Debian's packages."""
    pytest.importorskip("matplotlib").use("svg")
    for name in ("examples", "docs"):
        (tmp_path / name).symlink_to(TOP / name)
    shutil.copytree(TOP / "python", tmp_path / "python", ignore=shutil.ignore_patterns("tests", "build", "*.egg-info"))
    out = tmp_path / "crates" / "twarp" / "out"
    out.mkdir(parents=True)
    (out / "twarp").symlink_to(os.environ["TWARP"])
    monkeypatch.chdir(tmp_path)
    home = tmp_path / "home"
    home.mkdir()
    environment = {name: value for name, value in os.environ.items() if name not in ("TWARP", "PYTHONPATH")}
    environment["HOME"] = str(home)
    environment["PATH"] = os.pathsep.join([os.path.dirname(sys.executable), environment["PATH"]])
    environment["PIP_NO_INDEX"] = environment["PIP_DISABLE_PIP_VERSION_CHECK"] = "1"
    names: dict[str, object] = {"__name__": "page"}
    said = None
    for block in blocks(PAGE.read_text()):
        if block.language == "python":
            said = run_python(block, names)
        elif block.language == "bash":
            said = run_bash(block, environment)
        else:
            assert block.language == "" and said is not None, f"line {block.line}: not known how to run this"
            assert trim(block.text) == trim(said), f"line {block.line}: other words"
            said = None
            continue
    assert environment["TWARP"] == str(out / "twarp")
    assert_installed(home / "twarp", environment)
    assert (tmp_path / "waiting.svg").read_text().rstrip().endswith("</svg>")


def assert_installed(folder: Path, environment: dict[str, str]) -> None:
    """What the page installs into an environment is the whole package, and works by itself."""
    text = "import twarp; print(twarp.__file__); print(len(twarp.library.names())); import scipy, twarp.experiments"
    alone = {name: value for name, value in environment.items() if name != "PYTHONPATH"}
    told = subprocess.check_output([folder / "bin" / "python", "-c", text], env=alone).decode().split()
    assert told[0].startswith(str(folder / "lib")) and int(told[1]) == len(twarp.library.names())
    assert list(folder.glob("lib/*/site-packages/twarp/py.typed"))


def test_the_first_block_is_short() -> None:
    first = [block for block in blocks(PAGE.read_text())][:2]
    assert [block.language for block in first] == ["bash", "python"]
    lines = [line for block in first for line in block.text.splitlines() if line]
    assert len(lines) <= 15
