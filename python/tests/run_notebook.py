"""Runs a notebook's code cells as a script, where no notebook runner is there.

    python3 python/tests/run_notebook.py python/examples/workshop.ipynb            runs it, and compares
    python3 python/tests/run_notebook.py --write python/examples/workshop.ipynb    and keeps what comes out

A cell gives what it prints, the value of its last expression where that is one, and the pictures that it
opened: what a notebook would show of it.
"""

from __future__ import annotations

import ast
import base64
import contextlib
import io
import json
import sys
from pathlib import Path
from typing import Any


def figures() -> list[dict[str, Any]]:
    """The open figures of matplotlib as pictures; they are closed."""
    if "matplotlib.pyplot" not in sys.modules:
        return []
    plt = sys.modules["matplotlib.pyplot"]
    shown = []
    for number in plt.get_fignums():
        told = io.BytesIO()
        plt.figure(number).savefig(told, format="png", dpi=72, bbox_inches="tight", metadata={"Software": None})
        png = base64.b64encode(told.getvalue()).decode()
        shown.append({"output_type": "display_data", "data": {"image/png": png + "\n"}, "metadata": {}})
    plt.close("all")
    return shown


def value(given: Any, count: int) -> list[dict[str, Any]]:
    """The value of a cell's last expression, as text or as a picture."""
    if given is None:
        return []
    data: dict[str, Any] = {"text/plain": lines(repr(given))}
    if hasattr(given, "_repr_svg_"):
        data["image/svg+xml"] = lines(given._repr_svg_())
        data["text/plain"] = [type(given).__name__]
    return [{"output_type": "execute_result", "execution_count": count, "data": data, "metadata": {}}]


def lines(text: str) -> list[str]:
    return text.rstrip("\n").splitlines(keepends=True)


def run_cell(source: str, names: dict[str, Any], count: int, place: str) -> list[dict[str, Any]]:
    tree = ast.parse(source, place)
    last = tree.body.pop() if tree.body and isinstance(tree.body[-1], ast.Expr) else None
    told = io.StringIO()
    with contextlib.redirect_stdout(told):
        exec(compile(tree, place, "exec"), names)
        given = eval(compile(ast.Expression(last.value), place, "eval"), names) if isinstance(last, ast.Expr) else None
    outputs: list[dict[str, Any]] = []
    if told.getvalue():
        outputs.append({"output_type": "stream", "name": "stdout", "text": lines(told.getvalue())})
    return outputs + value(given, count) + figures()


def run(path: Path) -> tuple[dict[str, Any], list[list[dict[str, Any]]]]:
    """The notebook, and what each of its code cells gives now."""
    import matplotlib

    matplotlib.use("agg")
    notebook: dict[str, Any] = json.loads(path.read_text(encoding="utf-8"))
    names: dict[str, Any] = {"__name__": "notebook"}
    found = []
    for cell in notebook["cells"]:
        if cell["cell_type"] == "code":
            place = f"{path.name}, cell {len(found) + 1}"
            found.append(run_cell("".join(cell["source"]), names, len(found) + 1, place))
    return notebook, found


def words(outputs: list[dict[str, Any]]) -> list[Any]:
    """What two runs of a cell must have in common: their texts, and of pictures their kind."""
    found: list[Any] = []
    for output in outputs:
        if output["output_type"] == "stream":
            found.append("".join(output["text"]).rstrip())
        else:
            found.append(sorted(output["data"]))
            if "image/svg+xml" not in output["data"] and "image/png" not in output["data"]:
                found.append("".join(output["data"]["text/plain"]).rstrip())
    return found


def write(path: Path, notebook: dict[str, Any], found: list[list[dict[str, Any]]]) -> None:
    code = [cell for cell in notebook["cells"] if cell["cell_type"] == "code"]
    for count, (cell, outputs) in enumerate(zip(code, found), 1):
        cell["outputs"] = outputs
        cell["execution_count"] = count
    path.write_text(json.dumps(notebook, indent=1, ensure_ascii=False) + "\n", encoding="utf-8")


def main(arguments: list[str]) -> int:
    keep = "--write" in arguments
    for name in arguments:
        if name == "--write":
            continue
        path = Path(name)
        notebook, found = run(path)
        code = [cell for cell in notebook["cells"] if cell["cell_type"] == "code"]
        for count, (cell, outputs) in enumerate(zip(code, found), 1):
            if not keep and words(cell["outputs"]) != words(outputs):
                print(f"{path}, cell {count}: it gives other words: {words(outputs)}")
                return 1
        if keep:
            write(path, notebook, found)
    return 0


if __name__ == "__main__":
    sys.exit(main(sys.argv[1:]))
