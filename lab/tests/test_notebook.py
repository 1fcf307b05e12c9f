"""The notebooks: each cell runs, and answers the text below it."""

import ast
import json
from pathlib import Path

import pytest

EXAMPLES = Path(__file__).resolve().parent.parent / "examples"


def answer_of(source, names):
    """What the last line of a cell answers; nothing where it is no expression."""
    *begin, last = ast.parse(source).body
    if not isinstance(last, ast.Expr):
        exec(source, names)
        return None
    exec(compile(ast.Module(begin, []), "cell", "exec"), names)
    return eval(compile(ast.Expression(last.value), "cell", "eval"), names)


def told_in(cell):
    """The text below a cell."""
    return "".join("".join(output["data"]["text/plain"]) for output in cell["outputs"])


@pytest.mark.filterwarnings("ignore")
@pytest.mark.parametrize("name, most", [("course", 40), ("compare", 4)])
def test_each_cell_answers_the_text_below_it(monkeypatch, name, most):
    monkeypatch.chdir(EXAMPLES)
    names = {}
    cells = [cell for cell in json.loads((EXAMPLES / f"{name}.ipynb").read_text())["cells"] if cell["cell_type"] == "code"]
    for cell in cells:
        answer = answer_of("".join(cell["source"]), names)
        if answer is not None and "picture of" not in repr(answer):
            assert repr(answer) == told_in(cell), cell["source"]
    assert most / 2 < len(cells) <= most
