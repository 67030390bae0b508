"""Pictures: they are SVG by themselves, can be saved, and say what they are asked for."""

from __future__ import annotations

import subprocess
import xml.etree.ElementTree as tree
from pathlib import Path

import pytest
from common import TOP, examples, network

import twarp
from twarp import Network, Picture, picture_of_time_warp, simulate


def is_svg(picture: Picture) -> bool:
    return tree.fromstring(picture.svg).tag == "{http://www.w3.org/2000/svg}svg"


@pytest.mark.parametrize("name, until", examples())
def test_a_picture_of_each_example(name: str, until: int, tmp_path: Path) -> None:
    until = min(until, 60)
    run = simulate(network(name), until)
    picture = run.picture(title=name[: -len(".json")])
    words = [twarp.program.find(), "draw", f"examples/{name}", "--until", str(until)]
    drawn = subprocess.run(words, stdout=subprocess.PIPE, stderr=subprocess.PIPE, check=False).stdout
    assert is_svg(picture) and picture._repr_svg_() == str(picture) == picture.svg == drawn.decode()
    picture.save(tmp_path / "run.svg")
    assert (tmp_path / "run.svg").read_bytes() == drawn
    assert run.picture().svg.replace(">network<", f">{name[: -len('.json')]}<") == picture.svg
    assert (run.fault is None) == (name != "relays-at-the-limit.json")


def test_what_a_picture_shows() -> None:
    run = simulate(network("pool.json"), 40)
    assert run.picture(only="desk").svg == run.picture(only=["desk"]).svg != run.picture().svg
    assert run.picture(only=("out", "desk")).svg == run.picture(only="out,desk").svg != run.picture(only="desk,out").svg
    assert "<title>a &lt; b</title>" in run.picture(title="a < b").svg
    assert run.picture(start=20).svg != run.picture().svg
    assert run.picture(figure="served").svg != run.picture().svg
    for options in ({"only": "dsk"}, {"figure": "sevred"}, {"only": ["out"], "figure": "served"}):
        with pytest.raises(twarp.RequestError, match="15 NoSuch"):
            run.picture(**options)  # type: ignore[arg-type]
    with pytest.raises(twarp.RequestError, match="23 BadLine"):
        run.picture(start=-1)


def test_a_figure_that_looks_like_an_option() -> None:
    machine = {"name": "m", "registers": {"a": 3}, "words": ["a", "-a"]}
    run = simulate(Network().use(machine).add("m", "m"), 5)
    assert run.stats().figures.loc[("m", "-a"), "last"] == -3
    assert is_svg(run.picture(figure="-a")) and run.course("m", "-a").to_dict() == {0: -3, 5: -3}


def test_pictures_of_time_warp(tmp_path: Path) -> None:
    row = network("a-row.json")
    path = TOP / "examples" / "straggler.txt"
    words = [twarp.program.find(), "draw", "examples/a-row.json", "--until", "10", "--script", str(path)]
    drawn = subprocess.run(words, stdout=subprocess.PIPE, check=True).stdout.decode()
    text = path.read_text()
    for script in (text, text.splitlines(), iter(text.splitlines()), path):
        assert picture_of_time_warp(row, script, until=10, title="a-row").svg == drawn
    assert picture_of_time_warp(row, script=text).svg[:4] == "<svg"
    assert is_svg(picture_of_time_warp(row, seed=2**64 - 1, steps=300))
    lazily = picture_of_time_warp(row, seed=7, steps=300, cancel="lazy")
    assert is_svg(lazily) and lazily.svg != picture_of_time_warp(row, seed=7, steps=300).svg


def test_long_texts_by_both_pipes() -> None:
    one = Network()
    for at in range(1000):
        one.add(f"queue-with-a-long-name-{at}", "queue", service=3)
    for at in range(5000):
        one.input(at, f"queue-with-a-long-name-{at % 1000}", at)
    script = ["# a line that says nothing, but is there"] * 30_000 + ["step queue-with-a-long-name-0"]
    assert len(one.to_json()) > 200_000
    assert is_svg(picture_of_time_warp(one, script))
    wrong = [*script, "stepp queue-with-a-long-name-0"]
    with pytest.raises(twarp.RequestError, match="22 BadScript: line 30002 of draw"):
        picture_of_time_warp(one, wrong)
    with pytest.raises(twarp.NetworkError, match="17 BadName"):
        picture_of_time_warp(one.add("a b", "tally"), wrong)


def test_drivers_of_time_warp() -> None:
    row = network("a-row.json")
    for options in ({}, {"script": "raise", "seed": 1, "steps": 2}, {"seed": 1}, {"steps": 2}, {"script": "raise", "steps": 2}):
        with pytest.raises(TypeError, match="either a script, or a seed and steps"):
            picture_of_time_warp(row, **options)  # type: ignore[arg-type]
    for options in ({"seed": -1, "steps": 2}, {"seed": 1, "steps": 10**7}, {"script": "", "cancel": "never"}):
        with pytest.raises(twarp.RequestError, match="23 BadLine"):
            picture_of_time_warp(row, **options)  # type: ignore[arg-type]
    with pytest.raises(twarp.TwarpError):
        picture_of_time_warp(row, Path("no/such/script.txt"))
