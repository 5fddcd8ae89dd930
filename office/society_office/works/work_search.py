"""Which works are found by what people type. This module is the definition: it reads and writes nothing, and all others keep to it.

    society-office works COPY 'first so' writer AT-ABC-26

A work is found where each thing that is asked for is found in it. One is found where its letters and digits, without all between them, are
how one of the work's numbers begins: the sender's key, the work number, an ISWC, an ISRC, an account of a holder. Else each of its parts
between blanks has to be found: as such a number too, or each word of it as how a word of a title or of a holder's name begins.

Accents, small or capital letters, points and hyphens make no difference. What has no letter, digit or sign asks for nothing. All that was
ever sent of a work counts: each version of it, whether it was accepted, was rejected or waits.
"""

import functools
import unicodedata
from collections.abc import Iterable, Set
from typing import NamedTuple

# Letters of which Unicode does not say that they are another one with an accent, and as what people type them.
OTHERS = dict(it.split("=") for it in "ø=o ł=l đ=d ð=d ħ=h ŧ=t ı=i ĸ=k ŋ=n æ=ae œ=oe þ=th ə=a".split())


@functools.cache
def told(character: str) -> str:
    """A character as it is looked for: small letters and digits without accents, a sign by itself between blanks, nothing of a mark.

    All else, as a point, parts words: it is a blank.
    """
    if character in OTHERS:
        return OTHERS[character]
    for plainer in (unicodedata.normalize("NFKD", character), character.casefold()):
        if plainer != character:
            return "".join(map(told, plainer))
    kind = unicodedata.category(character)
    if kind[0] in "LN":
        return character
    if kind[0] == "M" or kind == "Cf":
        return ""
    return f" {character} " if kind[0] == "S" else " "


def words_of(text: str) -> list[str]:
    """The words of a text, in their order; a sign is a word by itself."""
    return "".join(map(told, text)).split()


def number_of(text: str) -> str:
    """The letters and digits of a text, without all between them."""
    return "".join(it for it in "".join(map(told, text)) if it.isalnum())


class Facts(NamedTuple):
    """What a work is found by: the words of its titles and of its holders' names, and its numbers."""

    words: Set[str]
    numbers: Set[str]


class Part(NamedTuple):
    """What is asked for between two blanks: its letters and digits, and its words."""

    number: str
    words: tuple[str, ...]


class Thing(NamedTuple):
    """One thing that is asked for: its letters and digits, and its parts between blanks."""

    number: str
    parts: tuple[Part, ...]


def asked(given: Iterable[str]) -> list[Thing]:
    """What is asked for, each thing once; nothing of what has no letter, digit or sign."""
    found = dict[Thing, None]()
    for it in given:
        parts = (Part(number_of(part), tuple(words_of(part))) for part in it.split())
        if listed := tuple(dict.fromkeys(part for part in parts if part.words)):
            found[Thing(number_of(it), listed)] = None
    return list(found)


def begins(word: str, among: Iterable[str]) -> bool:
    """Whether a word is how one of others begins; the empty word is none."""
    return bool(word) and any(it.startswith(word) for it in among)


def is_found(things: Iterable[Thing], facts: Facts) -> bool:
    """Whether a work of these facts is found; where nothing is asked for, each one is."""
    return all(begins(it.number, facts.numbers) or all(has(facts, part) for part in it.parts) for it in things)


def has(facts: Facts, part: Part) -> bool:
    """Whether a part is one of the numbers, or each of its words one of the words."""
    return begins(part.number, facts.numbers) or all(begins(word, facts.words) for word in part.words)
