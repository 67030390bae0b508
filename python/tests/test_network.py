"""Networks: building, the text of their file, and what the program says of wrong ones."""

from __future__ import annotations

import copy
import json
import pickle
import subprocess
from fractions import Fraction
from pathlib import Path

import numpy as np
import pandas as pd
import pytest
from common import TOP, examples, network

import twarp
from twarp import Network, NetworkError, NetworkWarning

ADDER = {"name": "adder", "registers": {"sum": 0}, "external": "sum += value", "words": ["sum"]}


def seq(text: bytes, until: int) -> bytes:
    words = [twarp.program.find(), "seq", "/dev/stdin", "--until", str(until)]
    return subprocess.run(words, input=text, stdout=subprocess.PIPE, stderr=subprocess.PIPE, check=False).stdout


@pytest.mark.parametrize("name, until", examples())
def test_an_example_keeps_its_meaning(name: str, until: int) -> None:
    read = network(name)
    text = read.to_json()
    assert seq(text.encode(), until) == seq((TOP / "examples" / name).read_bytes(), until)
    assert Network.from_json(text).to_json() == text == network(name).to_json()
    assert json.loads(text)["format"] == json.loads((TOP / "examples" / name).read_text())["format"]


def test_the_least_format_that_serves() -> None:
    plain = Network().add("t", "tally")
    tree = Network().add("left", plain)
    machine = Network().use(ADDER)
    around = Network().add("inner", Network().use(ADDER).add("a", "adder"))
    standing = [json.loads(one.to_json())["format"] for one in (Network(), plain, tree, machine, around)]
    assert standing == ["tw-1", "tw-1", "tw-2", "tw-3", "tw-3"]
    for one in (Network(), plain, tree, machine, around):
        one.check()


def test_the_same_network_gives_the_same_bytes() -> None:
    def build() -> Network:
        line = Network().add("saw", "queue", service=3).couple("", "saw").couple("saw", "").input(4, "saw", 1)
        return Network().use(ADDER).add("left", line).add("right", line).add("a", "adder").couple("left", 0, "a", 3)

    assert build().to_json() == build().to_json()
    assert pickle.loads(pickle.dumps(build())).to_json() == build().to_json()
    assert copy.deepcopy(build()).to_json() == build().to_json()
    one = Network().add("h", "hop", seed=1, ports=2, spread=3)
    assert one.to_json() == Network().add("h", "hop", spread=3, seed=1, ports=2).to_json()


def test_a_graph() -> None:
    wanted = TOP / "tests" / "program" / "graph-of-gen-tally" / "stdout"
    assert network("gen-tally.json").dot() == wanted.read_text()
    with pytest.raises(NetworkError, match="17 BadName"):
        Network().add("a b", "tally").dot()


def test_what_is_odd_is_warned_of() -> None:
    limited = {"name": "m", "registers": {"x": 0, "limit": 5}, "first": 1, "internal": "x += limit  wait 1", "words": ["x"]}
    with pytest.warns(NetworkWarning) as told:
        assert Network().use(limited).add("a", "m").check() == (1, 0, 0)
    assert [str(warning.message) for warning in told] == ['models[0] "m", "limit": it is nowhere set']


def test_coupled_models_and_their_inputs() -> None:
    line = Network().add("saw", "queue", service=3).add("made", "tally")
    line.couple("", "saw").couple("saw", "made").couple("saw", 0, "", 2).input(1, "saw", 7)
    deep = Network().add("line", line).couple("", "line").couple("line", 2, "", 0)
    plant = Network().add("left", deep).add("right", line).add("store", "tally")
    plant.couple("left", "store").couple("right", 2, "store", 1)
    assert plant.names == ("left.line.saw", "left.line.made", "right.saw", "right.made", "store")
    assert plant.check() == (5, 4, 2)
    stats = twarp.simulate(plant, 10).stats()
    assert stats.figures.loc[("store", "sum"), "last"] == 14
    line.add("late", "tally")
    assert "right.late" in plant.names


def test_a_network_within_itself() -> None:
    one, other = Network(), Network()
    one.add("other", other)
    other.add("one", one)
    for call in (one.to_json, one.check, lambda: one.names, lambda: twarp.simulate(one, 5)):
        with pytest.raises(ValueError, match="part of itself"):
            call()


def test_machines_are_taken_once() -> None:
    inner = Network().use(ADDER).add("a", "adder")
    outer = Network().use(dict(ADDER)).use(ADDER).add("left", inner).add("right", inner).add("b", "adder")
    assert len(json.loads(outer.to_json())["models"]) == 1
    outer.use({**ADDER, "registers": {"sum": 1}})
    with pytest.raises(NetworkError, match='"adder"') as raised:
        outer.check()
    assert raised.value.number == 21


def test_fields_and_constants() -> None:
    one = Network().fields(size=6, to=4).fields(sent=np.int64(40)).constants(places=4, gap=np.int16(-3)).constants(places=5)
    one.use(ADDER).add("a", "adder")
    file = json.loads(one.to_json())
    assert (file["format"], file["fields"]) == ("tw-3", [["size", 6], ["to", 4], ["sent", 40]])
    assert file["constants"] == {"gap": -3, "places": 5}
    assert Network.from_json(one.to_json()).to_json() == one.to_json()
    again = Network().constants(gap=-3, places=5).fields(size=6, to=4, sent=40).use(ADDER).add("a", "adder")
    assert again.to_json() == one.to_json() == pickle.loads(pickle.dumps(one)).to_json()
    assert Network().fields(**{"from": 3}).item(**{"from": 11}) == 3
    assert json.loads(Network().fields(size=6).to_json())["models"] == []
    empty = json.dumps({**file, "fields": [], "constants": {}, "inputs": []})
    assert "fields" not in Network.from_json(empty).to_json() and "constants" not in Network.from_json(empty).to_json()
    for call in (lambda: one.fields(size=object()), lambda: one.constants(gap=1j)):  # type: ignore[arg-type]
        with pytest.raises(TypeError, match="size|gap"):
            call()


def test_values_by_their_fields() -> None:
    one = Network().fields(size=6, to=4, sent=53)
    assert one.item(to=3, size=5) == 5 + 3 * 64
    assert one.item() == 0 and one.item(size=-1) == 63 and one.item(to=np.int8(17)) == 64
    assert one.item(size=63, to=15, sent=-1) == 2**63 - 1
    with pytest.raises(ValueError, match="'weight': there are size, to, sent"):
        one.item(weight=3)
    with pytest.raises(TypeError):
        one.item(size=2.5)  # type: ignore[arg-type]


def test_fields_and_constants_of_a_tree() -> None:
    line = Network().fields(size=6).constants(places=4).add("t", "tally")
    plant = Network().constants(gap=3).add("left", line).add("right", Network().add("inner", line))
    file = json.loads(plant.to_json())
    assert (file["fields"], file["constants"]) == ([["size", 6]], {"gap": 3, "places": 4})
    line.constants(gap=3)
    plant.fields(size=6)
    assert json.loads(plant.to_json())["constants"] == {"gap": 3, "places": 4}
    line.constants(gap=4)
    with pytest.raises(ValueError, match="'gap' is 4 in one network and 3 in another"):
        plant.to_json()
    line.constants(gap=3)
    plant.fields(to=4)
    with pytest.raises(ValueError, match="other fields"):
        plant.to_json()


def test_a_machine_is_kept_as_it_was() -> None:
    machine = copy.deepcopy(ADDER)
    one = Network().use(machine).add("a", "adder")
    before = one.to_json()
    machine["words"].append("nothing")  # type: ignore[attr-defined]
    assert one.to_json() == before


def test_a_component_of_a_library() -> None:
    class Ready:
        machine = {**ADDER, "parameters": ["first"], "registers": {"sum": "first"}}
        parameters = {"first": 3}

    one = Network().add("a", Ready()).add("b", Ready(), first=4)
    assert twarp.simulate(one, 1).stats().figures["last"].tolist() == [3, 4]


@pytest.mark.parametrize("numbers", [[1, 2, 3], (1, 2, 3), range(1, 4), np.array([1, 2, 3]), pd.Series([1, 2, 3])])
def test_a_list_may_be_any_whole_numbers(numbers: object) -> None:
    machine = {"name": "m", "parameters": ["list"], "tables": {"t": "list"}, "words": ["t[2]"]}
    one = Network().use(machine).add("a", "m", list=numbers)  # type: ignore[arg-type]
    assert json.loads(one.to_json())["components"][0]["list"] == [1, 2, 3]
    one.check()


def test_numbers_of_numpy() -> None:
    one = Network(np.int64(5)).add("g", "gen", period=np.uint8(3), value=np.int32(-4))
    one.add("t", "tally").couple("g", np.int64(0), "t", np.int16(2)).input(np.int64(1), "t", np.int64(9), np.int8(1))
    same = Network(5).add("g", "gen", period=3, value=-4).add("t", "tally").couple("g", 0, "t", 2).input(1, "t", 9, 1)
    assert one.to_json() == same.to_json()


@pytest.mark.parametrize("value", [Fraction(1, 2), object(), float("nan"), float("inf"), 1j, {1: 2}])
def test_what_no_file_can_hold(value: object) -> None:
    with pytest.raises(TypeError, match="'q'"):
        Network().add("q", "queue", service=value)  # type: ignore[arg-type]


def test_arguments_of_another_kind() -> None:
    one = Network()
    for call in (
        lambda: one.add(3, "tally"),  # type: ignore[arg-type]
        lambda: one.add("t", 3),  # type: ignore[arg-type]
        lambda: one.add("t", Network(), period=3),
        lambda: one.couple("a"),  # type: ignore[call-overload]
        lambda: one.couple("a", 0, "b"),  # type: ignore[call-overload]
        lambda: one.couple("a", 3),  # type: ignore[call-overload]
        lambda: one.input(1, 2, 3),  # type: ignore[arg-type]
        lambda: one.use("adder"),  # type: ignore[arg-type]
    ):
        with pytest.raises(TypeError):
            call()
    assert one.to_json() == Network().to_json()


WRONG = [
    (21, Network().add("q", "quue"), 'components[0] "q"', "quue"),
    (21, Network().add("q", "queue", service=2.5), 'components[0] "q"', "2.5"),  # type: ignore[arg-type]
    (21, Network().add("q", "queue", service="two"), 'components[0] "q"', "service"),  # type: ignore[arg-type]
    (17, Network().add("a b", "tally"), "components[0]", "a b"),
    (17, Network().add("ä: \"\ud800", "tally"), "", ""),
    (18, Network().add("t", "tally").add("t", "tally"), 'components[1] "t"', ""),
    (5, Network().add("t", "tally").couple("u", "t"), "couplings[0]", '"u"'),
    (6, Network().add("a", "tally").add("b", "tally").couple("a", 16, "b", 0), "couplings[0]", "16"),
    (7, Network().add("t", "tally").couple("t", "t"), "couplings[0]", ""),
    (5, Network().input(1, "u", 2), "inputs[0]", '"u"'),
    (10, Network().add("g", "gen", period=0, value=1), 'components[0] "g"', "period"),
    (11, Network(0), "the file", "micro_limit"),
    (21, Network().fields(size=63), "", ""),
    (21, Network().fields(size=40, to=24), "", ""),
    (21, Network().fields(min=3), "", ""),
    (21, Network().constants(**{"if": 3}), "", ""),
    (21, Network().constants(gap=2**63), "", ""),
    (21, Network().use({"name": "m", "words": ["1 +"]}), 'models[0] "m": words[0], line 1, column 4', "expected"),
    (21, Network().use({"name": "m", "internal": "wait 1 +", "words": ["1"]}), 'models[0] "m": internal, line', ""),
    (9, Network().add("a", Network().add("b", "hop", seed=1, ports=1, spread=1).add("c", "tally")), "", ""),
]
for _ in range(1024):
    WRONG[-1][1].add(f"t{_}", "tally")


@pytest.mark.parametrize("number, wrong, place, word", WRONG)
def test_what_the_program_refuses(number: int, wrong: Network, place: str, word: str) -> None:
    if number == 17 and not place:
        number = 20  # half of a surrogate pair is no JSON
    for call in (
        wrong.check,
        twarp.simulate(wrong, 5).stats,
        twarp.simulate(wrong, 5).table,
        twarp.simulate(wrong, 5).picture,
        lambda: list(twarp.simulate(wrong, 5, workers=2).trace()),
        lambda: twarp.picture_of_time_warp(wrong, "raise"),
    ):
        with pytest.raises(NetworkError) as raised:
            call()
        told = raised.value
        assert told.number == number
        assert told.place.startswith(place) and word in told.reason and told.reason
        assert str(told) == f"{number} {told.name}: {told.place}: {told.reason}"
        again = pickle.loads(pickle.dumps(told))
        assert (again.number, again.place, str(again)) == (number, told.place, str(told))


@pytest.mark.parametrize("table", sorted((TOP / "tests" / "files").glob("*.txt")), ids=lambda path: path.stem)
def test_the_files_of_the_program(table: Path) -> None:
    """Each file is refused as `twarp check` refuses it, whether it is read or written again."""
    tried = 0
    lines = [line for line in table.read_bytes().splitlines() if line and not line.startswith(b"#")]
    for at, line in enumerate(lines):
        if line.startswith(b"> "):
            continue
        number, _, text = line.partition(b" ")
        words = lines[at + 1][2:].decode() if lines[at + 1 :] and lines[at + 1].startswith(b"> ") else None
        tried += 1
        try:
            Network.from_json(text).check()
            told = None
        except NetworkError as error:
            told = error
        assert (told.number if told else 0) == int(number), line
        if told:
            assert words in (None, f"{told.place}: {told.reason}"), line
    assert tried > 5


def test_load_and_save(tmp_path: Path) -> None:
    one = Network().use(ADDER).add("a", "adder").input(2, "a", 5)
    one.save(tmp_path / "one.json")
    assert (tmp_path / "one.json").read_text() == one.to_json() == Network.load(str(tmp_path / "one.json")).to_json()
    with pytest.raises(FileNotFoundError):
        Network.load(tmp_path / "other.json")
    with pytest.raises(OSError):
        one.save(tmp_path / "no" / "folder.json")


def test_a_network_of_the_greatest_size() -> None:
    one = Network()
    for at in range(1024):
        one.add(f"q{at}", "queue", service=3)
    for at in range(1024):
        for step in range(1, 9):
            one.couple(f"q{at}", f"q{(at + step) % 1024}")
    for at in range(65536):
        one.input(at % 7, f"q{at % 1024}", at)
    assert len(one.to_json()) > 2_000_000
    assert one.check() == (1024, 8192, 65536)
    assert twarp.simulate(one, 2).stats().records == 2048
