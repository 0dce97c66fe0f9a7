"""Where the shared library is looked for."""
from pathlib import Path

import pytest

import butcherford
from butcherford import library


def test_the_variable_names_it_alone(monkeypatch):
    monkeypatch.setenv("BUTCHERFORD_LIBRARY", "/nowhere/libufs.so")
    assert list(library.places()) == [Path("/nowhere/libufs.so")]
    with pytest.raises(ImportError, match="/nowhere/libufs.so.*BUTCHERFORD_LIBRARY"):
        library.library.__wrapped__()


def test_without_the_variable_it_lies_beside_the_package(monkeypatch):
    monkeypatch.delenv("BUTCHERFORD_LIBRARY")
    assert next(library.places()) == Path(butcherford.__file__).resolve().parent / "libufs.so"


def test_each_fault_has_words():
    """The numbers of include/ufs.h, but for 0."""
    texts = [library.fault_text(number) for number in (*range(1, 14), *range(21, 30))]
    assert all(texts) and len(set(texts)) == len(texts)
