"""The notebooks of python/examples run from their first cell to their last, and say what they say."""

from pathlib import Path

import pytest
from run_notebook import run, words

FOLDER = Path(__file__).resolve().parent.parent / "examples"
NOTEBOOKS = sorted(FOLDER.glob("*.ipynb"))


def test_there_is_a_notebook():
    assert NOTEBOOKS


@pytest.mark.parametrize("path", NOTEBOOKS, ids=lambda path: path.name)
def test_a_notebook_gives_what_it_shows(path, tmp_path, monkeypatch):
    pytest.importorskip("matplotlib")
    monkeypatch.chdir(tmp_path)
    notebook, found = run(path)
    code = [cell for cell in notebook["cells"] if cell["cell_type"] == "code"]
    for count, (cell, outputs) in enumerate(zip(code, found), 1):
        assert words(cell["outputs"]) == words(outputs), f"cell {count}"
    shown = [kind for outputs in found for output in outputs for kind in output.get("data", {})]
    assert shown.count("image/png") >= 3 and shown.count("image/svg+xml") >= 1
    assert not list(tmp_path.iterdir()), "a notebook leaves no file"
