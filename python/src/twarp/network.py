"""Networks: what is simulated, built by code or read from a file."""

from __future__ import annotations

import json
import math
import operator
import os
import re
import warnings
from collections.abc import Iterable, Iterator, Mapping
from typing import Any, NamedTuple, Protocol, SupportsIndex, Union, overload

from .errors import NetworkWarning, ProgramFailed
from .program import answer

__all__ = ["Network", "Size"]

#: What a component gives for a parameter: a whole number, or whole numbers for a list.
Parameter = Union[SupportsIndex, Iterable[SupportsIndex]]


class Ready(Protocol):
    """A component ready to be added: a machine, and the parameters of a component of it. The functions of
    `twarp.library` give such.

    >>> from twarp import library
    >>> library.sink().machine["name"]
    'sink'
    """

    @property
    def machine(self) -> Mapping[str, Any]:
        """The machine, as `Network.use` takes it."""

    @property
    def parameters(self) -> Mapping[str, Any]:
        """The parameters, as `Network.add` takes them."""


class Size(NamedTuple):
    """What the flat network has: how many components, couplings and inputs.

    >>> Network().add("g", "gen", period=2, value=5).check()
    Size(components=1, couplings=0, inputs=0)
    """

    components: int
    couplings: int
    inputs: int


class Network:
    """A network of components that send one another values; with components that are networks, a tree.

    `micro_limit` is the greatest microstep of a tick, 1 to 8,388,607: where steps take no time, a run
    that would go past it ends with a `LimitFault`.

    Names, models, parameters and ports are not judged here: what is wrong is told by the program's own
    words, as `NetworkError`, by `check` or when the network is simulated. `TypeError` is raised for
    what no JSON file can hold. Each method that adds something gives the network back, so calls can
    be chained.

    >>> shop = Network()
    >>> shop.add("saw", "queue", service=3).add("press", "queue", service=5).add("sent", "tally")
    Network(3 components, 0 couplings, 0 inputs)
    >>> shop.couple("saw", "press").couple("press", 0, "sent", 0)
    Network(3 components, 2 couplings, 0 inputs)
    >>> shop.input(1, "saw", 7).input(1, "saw", 8)
    Network(3 components, 2 couplings, 2 inputs)
    >>> shop.check()
    Size(components=3, couplings=2, inputs=2)
    """

    def __init__(self, micro_limit: SupportsIndex = 1000) -> None:
        self.micro_limit: Any = _plain(micro_limit, "micro_limit")
        self._fields: dict[str, Any] = {}
        self._constants: dict[str, Any] = {}
        self._machines: list[Any] = []
        self._components: list[tuple[str, Union[Network, dict[str, Any]]]] = []
        self._couplings: list[tuple[str, int, str, int]] = []
        self._inputs: list[dict[str, Any]] = []

    def add(self, /, name: str, model: Union[str, Network, Ready], **parameters: Parameter) -> Network:
        """Adds a component: of one of the five models, of a machine, or a network.

        `gen` takes `period` (ticks) and `value`; `tally` nothing; `relay` `delay` (ticks); `queue`
        `service` (ticks); `hop` `seed`, `ports` and `spread`; a machine that `use` has its parameters, a
        list as any iterable of whole numbers. What a function of `twarp.library` gives brings its
        machine and its parameters.

        A network as `model` makes a coupled model: inside, the name `""` in a coupling is that model
        itself. It may be added under several names, and goes on growing where it is added to later; its
        inputs count for each of these.

        Raises `TypeError` for what no JSON file can hold, and for parameters of a network.

        >>> line = Network().add("saw", "queue", service=3).couple("", "saw").couple("saw", "")
        >>> Network().add("left", line).add("right", line).names
        ('left.saw', 'right.saw')
        """
        if not isinstance(name, str):
            raise TypeError(f"the name of a component is a str, not {name!r}")
        if isinstance(model, Network):
            if parameters:
                raise TypeError(f"{name!r} is a network, and takes no parameters: {', '.join(parameters)}")
            self._components.append((name, model))
            return self
        given: Mapping[str, Any] = parameters
        if isinstance(model, str):
            called = model
        elif hasattr(model, "machine") and hasattr(model, "parameters"):
            self.use(model.machine)
            called, given = str(model.machine.get("name")), {**model.parameters, **parameters}
        else:
            raise TypeError(f"the model of {name!r} is a str, a Network or of twarp.library, not {model!r}")
        numbers = {key: _plain(given[key], f"{key} of {name!r}") for key in sorted(given)}
        self._components.append((name, {"name": name, "model": called, **numbers}))
        return self

    @overload
    def couple(self, source: str, destination: str, /) -> Network: ...

    @overload
    def couple(self, source: str, port: SupportsIndex, destination: str, to: SupportsIndex, /) -> Network: ...

    def couple(self, source: str, *rest: Any) -> Network:
        """Couples an output port to an input port: `couple("saw", 0, "press", 0)`, or
        `couple("saw", "press")` for ports 0. Ports are 0 to 15.

        In a network that is part of another, `""` is this network itself: as a source its input
        port, as a destination its output port.

        Raises `TypeError` where what is given has neither form.

        >>> Network().couple("router", 3, "desk", 0).couple("desk", "out").to_json().splitlines()[2:5]
        [' "couplings": [', '  ["router", 3, "desk", 0],', '  ["desk", 0, "out", 0]],']
        """
        if len(rest) == 1:
            port, destination, to = 0, rest[0], 0
        elif len(rest) == 3:
            port, destination, to = rest
        else:
            raise TypeError('a coupling is couple("a", "b") or couple("a", 0, "b", 0)')
        if not (isinstance(source, str) and isinstance(destination, str)):
            raise TypeError(f"the ends of a coupling are names, not {source!r} and {destination!r}")
        self._couplings.append((source, _plain(port, "the port"), destination, _plain(to, "the port")))
        return self

    def input(self, tick: SupportsIndex, to: str, value: SupportsIndex, port: SupportsIndex = 0) -> Network:
        """Sends a value from outside at a tick to a component, which is named by its flat name
        (`"left.saw"` for a part of a coupled model).

        Raises `TypeError` where `to` is no text or one of the others no number.

        >>> Network().add("t", "tally").input(3, "t", 8).check()
        Size(components=1, couplings=0, inputs=1)
        """
        if not isinstance(to, str):
            raise TypeError(f"an input goes to a name, not to {to!r}")
        self._inputs.append(
            {"tick": _plain(tick, "tick"), "to": to, "port": _plain(port, "port"), "value": _plain(value, "value")}
        )
        return self

    def use(self, machine: Mapping[str, Any]) -> Network:
        """Takes a machine, a model of one's own, so that components can name it as their model.

        `machine` is the object that stands for it in a file of format tw-3 (docs/MACHINES.md). The
        same machine may be taken more than once; a network that is part of another brings its own.

        Raises `TypeError` for what is no object of JSON.

        >>> adder = {"name": "adder", "registers": {"sum": 0}, "external": "sum += value", "words": ["sum"]}
        >>> Network().use(adder).add("t", "adder").input(3, "t", 8).check()
        Size(components=1, couplings=0, inputs=1)
        """
        if not isinstance(machine, Mapping):
            raise TypeError(f"a machine is a dict, not {machine!r}")
        _take(self._machines, _plain(machine, "the machine"))
        return self

    def fields(self, /, **bits: SupportsIndex) -> Network:
        """Splits each value into fields, from the lowest bit on: of each its name and how many bits it has,
        1 to 62, and 63 together. Programs of machines read them by their names and make values by `item`
        (docs/MACHINES.md, "Fields"), and `Run.items` has a column for each.

        Those of a later call stand above those of an earlier one; a name that is given again keeps its
        place. The networks of a tree that have fields have the same ones.

        Raises `TypeError` for bits that are no whole number.

        >>> Network().fields(size=6, to=4).to_json().splitlines()[1]
        ' "fields": [["size", 6], ["to", 4]],'
        """
        self._fields.update((name, _plain(width, f"the field {name!r}")) for name, width in bits.items())
        return self

    def constants(self, /, **numbers: SupportsIndex) -> Network:
        """Gives numbers names that all machines know, where a number or a parameter may stand
        (docs/MACHINES.md, "Constants"). A name that is given again has the later number. In the networks
        of a tree a name has one number.

        Raises `TypeError` for what is no whole number.

        >>> Network().constants(places=4, gap=20).to_json().splitlines()[1]
        ' "constants": {"gap": 20, "places": 4},'
        """
        self._constants.update((name, _plain(number, f"the constant {name!r}")) for name, number in numbers.items())
        return self

    def item(self, /, **numbers: SupportsIndex) -> int:
        """The value with these numbers in its fields, each modulo what the field holds, and 0 in the others,
        as `item(..)` of a machine gives it: for `input`, and for parameters.

        Raises `ValueError` where this network itself has no such field, `TypeError` for what is no whole number.

        >>> Network().fields(size=6, to=4).item(to=3, size=5)
        197
        """
        unknown = [name for name in numbers if name not in self._fields]
        if unknown:
            raise ValueError(f"no field is named {unknown[0]!r}: there are {', '.join(self._fields) or 'none'}")
        value, low = 0, 0
        for name, bits in self._fields.items():
            value += operator.index(numbers.get(name, 0)) % 2**bits * 2**low
            low += bits
        return value

    @property
    def names(self) -> tuple[str, ...]:
        """The flat names of all components that have a model, in their order.

        >>> Network().add("a", "tally").add("b", Network().add("c", "tally")).names
        ('a', 'b.c')
        """
        return tuple(name for name, _ in self._atoms("", ()))

    def check(self) -> Size:
        """What the flat network has, as the program tells; nothing is simulated.

        Raises `NetworkError` with the place of the first fault and its reason. What is likely to be a mistake is
        warned of by a `NetworkWarning` each, in the order of the file.

        >>> Network().add("q", "queue", servise=3).check()
        Traceback (most recent call last):
        twarp.errors.NetworkError: 21 BadShape: components[0] "q": no member "servise" in a queue, which takes service
        """
        words = answer(["check", "/dev/stdin"], self._bytes()).out.decode(errors="replace")
        told = re.fullmatch(r"ok: (\d+) components, (\d+) couplings, (\d+) inputs\n((?:warning: .*\n)*)", words)
        if told is None:
            raise ProgramFailed(None, words)
        for line in told[4].splitlines():
            warnings.warn(line.removeprefix("warning: "), NetworkWarning, stacklevel=2)
        return Size(int(told[1]), int(told[2]), int(told[3]))

    def dot(self) -> str:
        """The network in the language of Graphviz: components as boxes, coupled models as frames, couplings
        from port to port. `graphviz.Source` of it is a picture in a notebook.

        Raises `NetworkError` where it is refused.

        >>> Network().add("t", "tally").dot().splitlines()[0]
        'digraph network {'
        """
        return answer(["dot", "/dev/stdin"], self._bytes()).out.decode()

    def to_json(self) -> str:
        """The text of the network's file, in the least format that serves: tw-3 where it has machines, fields
        or constants, else tw-2 where it has coupled models, else tw-1. The same network gives the same
        text, in whatever order parameters and constants were given.

        Raises `ValueError` where a network is a part of itself, and where networks of the tree have different
        fields, or different numbers for one constant.

        >>> print(Network(100).add("t", "tally").to_json(), end="")
        {"format": "tw-1", "micro_limit": 100,
         "components": [
          {"name": "t", "model": "tally"}],
         "couplings": [],
         "inputs": []}
        """
        machines: list[Any] = []
        inputs: list[Any] = []
        components = self._parts("", (), machines, inputs)
        fields, constants = _shared(self)
        coupled = any("components" in component for component in components)
        standing = "tw-3" if machines or fields or constants else "tw-2" if coupled else "tw-1"
        members = [f'{{"format": "{standing}", "micro_limit": {json.dumps(self.micro_limit)}']
        if fields:
            members.append(f' "fields": {json.dumps(list(fields.items()))}')
        if constants:
            members.append(f' "constants": {json.dumps(constants, sort_keys=True)}')
        if standing == "tw-3":
            members.append(f' "models": {_lines(machines)}')
        members.append(f' "components": {_lines(components)}')
        members.append(f' "couplings": {_lines(self._couplings)}')
        members.append(f' "inputs": {_lines(inputs)}}}')
        return ",\n".join(members) + "\n"

    @classmethod
    def from_json(cls, text: Union[str, bytes]) -> Network:
        """The network of the text of a file of format tw-1, tw-2 or tw-3.

        Raises `NetworkError` for a text of another shape. Names and ranges are judged by `check` and
        by a run.

        >>> Network.from_json(Network().add("t", "tally").to_json())
        Network(1 components, 0 couplings, 0 inputs)
        >>> Network.from_json("{")
        Traceback (most recent call last):
        twarp.errors.NetworkError: 20 NotJson: line 1, column 1: not JSON: the text ends too early
        """
        written = text.encode("utf-8", "surrogatepass") if isinstance(text, str) else bytes(text)
        try:
            return _network(json.loads(written.decode(), parse_int=_whole))
        except (ValueError, TypeError, RecursionError) as error:
            answer(["check", "/dev/stdin"], written)
            raise ValueError(f"the program takes this file, and this package does not: {error}") from error

    @classmethod
    def load(cls, path: Union[str, os.PathLike[str]]) -> Network:
        """The network of a file of format tw-1, tw-2 or tw-3.

        Raises `OSError` where the file cannot be read, and else what `from_json` raises.

        >>> Network.load("examples/gen-tally.json")
        Network(2 components, 1 couplings, 0 inputs)
        """
        with open(path, "rb") as file:
            return cls.from_json(file.read())

    def save(self, path: Union[str, os.PathLike[str]]) -> None:
        """Writes the network's file, the text of `to_json`.

        Raises `OSError` where it cannot be written.

        >>> import tempfile, os
        >>> with tempfile.TemporaryDirectory() as folder:
        ...     path = os.path.join(folder, "net.json")
        ...     Network().add("t", "tally").save(path)
        ...     Network.load(path)
        Network(1 components, 0 couplings, 0 inputs)
        """
        text = self.to_json()
        with open(path, "w", encoding="ascii", newline="\n") as file:
            file.write(text)

    def __repr__(self) -> str:
        parts, ways, given = len(self._components), len(self._couplings), len(self._inputs)
        return f"Network({parts} components, {ways} couplings, {given} inputs)"

    def _bytes(self) -> bytes:
        return self.to_json().encode("ascii")

    def _parts(self, way: str, around: tuple[Network, ...], machines: list[Any], inputs: list[Any]) -> list[Any]:
        """The components as they stand in the file; what only the root has is added to the lists."""
        _refuse_itself(self, around)
        for machine in self._machines:
            _take(machines, machine)
        inputs.extend({**given, "to": way + given["to"]} for given in self._inputs)
        parts: list[Any] = []
        for name, part in self._components:
            if isinstance(part, Network):
                inside = part._parts(f"{way}{name}.", (*around, self), machines, inputs)
                parts.append({"name": name, "components": inside, "couplings": part._couplings})
            else:
                parts.append(part)
        return parts

    def _atoms(self, way: str, around: tuple[Network, ...]) -> Iterator[tuple[str, str]]:
        """The flat name and the model of each component that has a model."""
        _refuse_itself(self, around)
        for name, part in self._components:
            if isinstance(part, Network):
                yield from part._atoms(f"{way}{name}.", (*around, self))
            else:
                yield way + name, part["model"]

    def _networks(self) -> Iterator[Network]:
        """The network and those that are parts of it, which no network is of itself."""
        yield self
        for _, part in self._components:
            if isinstance(part, Network):
                yield from part._networks()


def flat_models(network: Network) -> list[tuple[str, str, bool]]:
    """Of each component that has a model its flat name, the model's name, and whether the last of its
    figures counts the words from its place on (as the jobs of a queue do).

    >>> flat_models(Network().add("q", "queue", service=3).add("t", "tally"))
    [('q', 'queue', True), ('t', 'tally', False)]
    """
    counting = {"relay", "queue"}
    for part in network._networks():
        for machine in part._machines:
            if isinstance(machine.get("name"), str) and _shows_queue(machine):
                counting.add(machine["name"])
    return [(name, model, model in counting) for name, model in network._atoms("", ())]


def field_names(network: Network) -> list[str]:
    """The names of the fields of a network, from the lowest bit on.

    >>> field_names(Network().add("inner", Network().fields(size=6, to=4)))
    ['size', 'to']
    """
    return list(_shared(network)[0])


def _shared(network: Network) -> tuple[dict[str, Any], dict[str, Any]]:
    """The fields and the constants of a tree, which its networks say alike."""
    fields: dict[str, Any] = {}
    constants: dict[str, Any] = {}
    for part in network._networks():
        if part._fields:
            if fields and list(fields.items()) != list(part._fields.items()):
                raise ValueError(f"a network is a part of one with other fields: {part._fields} beside {fields}")
            fields = part._fields
        for name, number in part._constants.items():
            if constants.setdefault(name, number) != number:
                raise ValueError(f"the constant {name!r} is {number} in one network and {constants[name]} in another")
    return fields, constants


_SHOWN = re.compile(r"([A-Za-z_][A-Za-z0-9_]*)\s*(?:\[.*\])?", re.DOTALL)


def _shows_queue(machine: Mapping[str, Any]) -> bool:
    """Whether a queue stands among the words of a machine."""
    queues, words = machine.get("queues"), machine.get("words")
    if not isinstance(queues, dict) or not isinstance(words, list):
        return False
    shown = (_SHOWN.fullmatch(re.sub(r"#[^\n]*", "", word).strip()) for word in words if isinstance(word, str))
    return any(told is not None and told[1] in queues for told in shown)


def _refuse_itself(network: Network, around: tuple[Network, ...]) -> None:
    if any(network is outer for outer in around):
        raise ValueError("a network is a part of itself")


def _take(machines: list[Any], machine: Any) -> None:
    """Adds a machine unless the same one is there; two of one name are the program's to refuse."""
    if machine not in machines:
        machines.append(machine)


def _lines(entries: Iterable[Any]) -> str:
    lines = [f"  {json.dumps(entry)}" for entry in entries]
    return "[\n" + ",\n".join(lines) + "]" if lines else "[]"


def _whole(digits: str) -> Union[int, float]:
    """A whole number of a file; `-0` is none, and stays what the program refuses."""
    return -0.0 if digits == "-0" else int(digits)


def _plain(value: Any, what: str) -> Any:
    """A value as JSON has it; numbers and arrays of numpy and pandas become whole numbers and lists."""
    if type(value) is int or value is None or isinstance(value, (str, bool)):
        return value
    if isinstance(value, float):
        if not math.isfinite(value):
            raise TypeError(f"{what} is {value}, which is no number of JSON")
        return float(value)
    if isinstance(value, Mapping):
        return {_key(key, what): _plain(inner, what) for key, inner in value.items()}
    if hasattr(value, "tolist"):
        value = value.tolist()
    elif hasattr(value, "__index__"):
        return operator.index(value)
    if isinstance(value, (int, float)):
        return _plain(value, what)
    if isinstance(value, Iterable):
        return [inner if type(inner) is int else _plain(inner, what) for inner in value]
    raise TypeError(f"{what} is {value!r}, which no network file can hold")


def _key(key: Any, what: str) -> str:
    if not isinstance(key, str):
        raise TypeError(f"{what} has the member {key!r}, which is no text")
    return key


def _network(file: Any) -> Network:
    """The network of a file that was read as JSON; ValueError where it has another shape."""
    members = {"format", "micro_limit", "components", "couplings", "inputs"}
    _demand(isinstance(file, dict) and file.get("format") in ("tw-1", "tw-2", "tw-3"), "the format")
    standing = file["format"]
    more = file.keys() & {"fields", "constants"} | {"models"} if standing == "tw-3" else set()
    _demand(file.keys() == members | more, "the members of the file")
    network = _coupled(file["components"], file["couplings"], standing != "tw-1")
    _demand(type(file["micro_limit"]) is int, "micro_limit")
    network.micro_limit = file["micro_limit"]
    _demand(isinstance(file["inputs"], list) and isinstance(file.get("models", []), list), "a list")
    _say(network, file.get("fields", []), file.get("constants", {}))
    for machine in file.get("models", []):
        network.use(machine)
    _demand(len(network._machines) == len(file.get("models", [])), "a machine that stands twice")
    for given in file["inputs"]:
        _demand(isinstance(given, dict) and given.keys() == {"tick", "to", "port", "value"}, "an input")
        network.input(**given)
    return network


def _say(network: Network, fields: Any, constants: Any) -> None:
    """Gives a network the fields and the constants of a file."""
    _demand(isinstance(fields, list) and isinstance(constants, dict), "fields or constants")
    for field in fields:
        _demand(isinstance(field, list) and len(field) == 2 and isinstance(field[0], str), "a field")
        _demand(type(field[1]) is int and field[0] not in network._fields, "a field")
        network.fields(**{field[0]: field[1]})
    _demand(all(type(number) is int for number in constants.values()), "a constant")
    network.constants(**constants)


def _coupled(components: Any, couplings: Any, nested: bool) -> Network:
    network = Network()
    _demand(isinstance(components, list) and isinstance(couplings, list), "a list")
    for component in components:
        _demand(isinstance(component, dict) and isinstance(component.get("name"), str), "a component")
        if "model" in component:
            _demand(isinstance(component["model"], str) and "components" not in component, "a component")
            network.add(**component)
        else:
            _demand(nested and component.keys() == {"name", "components", "couplings"}, "a coupled model")
            network.add(component["name"], _coupled(component["components"], component["couplings"], True))
    for coupling in couplings:
        _demand(isinstance(coupling, list) and len(coupling) == 4, "a coupling")
        network.couple(*coupling)
    return network


def _demand(held: bool, what: str) -> None:
    if not held:
        raise ValueError(f"another shape: {what}")
