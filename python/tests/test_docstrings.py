"""Each public name says what it does, shows it, and says of which types it is. (The examples are run as doctests.)"""

from __future__ import annotations

import importlib
import inspect
import pkgutil
from typing import Iterator

import pytest

import twarp

MODULES = ["twarp", *(f"twarp.{module.name}" for module in pkgutil.iter_modules(twarp.__path__))]


def public(module: object) -> Iterator[tuple[str, object]]:
    """The names that a module gives, and of its classes the methods and properties of their own."""
    for name in module.__all__:  # type: ignore[attr-defined]
        thing = getattr(module, name)
        yield name, thing
        if inspect.isclass(thing) and not issubclass(thing, tuple):
            for inner, part in vars(thing).items():
                if not inner.startswith("_") and (inspect.isroutine(part) or isinstance(part, (property, classmethod))):
                    yield f"{name}.{inner}", getattr(part, "__func__", part)


@pytest.mark.parametrize("name", MODULES)
def test_each_public_name_is_explained_and_shown(name: str) -> None:
    module = importlib.import_module(name)
    assert inspect.getdoc(module)
    for called, thing in public(module):
        if not callable(thing) and not isinstance(thing, property):
            continue
        told = inspect.getdoc(thing) or ""
        assert told.strip(), f"{called} has no docstring"
        shown = issubclass(thing, Warning) if inspect.isclass(thing) else isinstance(thing, property)
        assert ">>> " in told or shown, f"{called} has no example"


@pytest.mark.parametrize("name", MODULES)
def test_each_public_function_has_types(name: str) -> None:
    for called, thing in public(importlib.import_module(name)):
        if isinstance(thing, property):
            thing = thing.fget
        if inspect.isfunction(thing):
            parameters = [one for one in inspect.signature(thing).parameters.values() if one.name != "self" and one.name != "cls"]
            assert inspect.signature(thing).return_annotation is not inspect.Signature.empty, called
            assert all(one.annotation is not inspect.Parameter.empty for one in parameters), called


def test_all_names_are_there() -> None:
    assert twarp.__all__ == sorted(twarp.__all__)
    for name in MODULES:
        module = importlib.import_module(name)
        assert len(set(module.__all__)) == len(module.__all__)
