"""The bugs of plants.toml can be planted: a text that has changed would leave one untried."""

import sys

import plant
import pytest


def test_the_text_of_each_bug_stands_once() -> None:
    assert [
        it["name"]
        for it in plant.plants()
        if plant.planted(it, plant.TESTS.parent) is None
    ] == []


def test_no_two_bugs_have_one_name() -> None:
    names = [it["name"] for it in plant.plants()]
    assert sorted(set(names)) == sorted(names)


def test_tests_that_fail_without_a_bug_notice_none(
    monkeypatch: pytest.MonkeyPatch,
) -> None:
    asked = list[list[str]]()

    def is_noticed(_: object, words: list[str]) -> bool:
        asked.append(words)
        return words == ["tests/commands/test_robust.py"]

    monkeypatch.setattr(plant, "is_noticed", is_noticed)
    monkeypatch.setattr(
        sys, "argv", ["plant.py", "records: a last name", "records: a work number"]
    )
    with pytest.raises(
        SystemExit,
        match="without any bug these fail, so that they notice none: commands/test_robust.py",
    ):
        plant.main()
    assert asked == [
        ["tests/commands/test_robust.py"],
        ["tests/credits/test_statements.py"],
        ["tests/works/test_shares.py"],
    ]


def test_the_tests_that_are_likely_to_notice_one_are_there() -> None:
    named = {test for it in plant.plants() for test in it.get("first", "").split()}
    found = {it: (plant.TESTS / it.split("::")[0]) for it in named}
    assert [it for it, path in found.items() if not path.is_file()] == []
    assert [
        it
        for it, path in found.items()
        if "::" in it and f"\ndef {it.split('::')[1]}(" not in path.read_text()
    ] == []
