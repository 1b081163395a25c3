"""Values whose hashes collide, by the fixed functions of hashing of the program and its library.

A word is taken into the state by a folded multiplication: the two halves of the product are put together by exclusive or. So a second word
can be found for each first one that leads to a state that was chosen. Where words can't be chosen freely, some are looked for whose states
end alike, so that they share a place of a table. Where the program hashes otherwise, nothing collides."""
from collections.abc import Iterator
from itertools import count

WORD = 2**64 - 1
FACTOR, SEED = 0x9E3779B97F4A7C15, 0x243F6A8885A308D3
# codes of values, which an index hashes, are above it
OWN = 2**63
CHOSEN = 0x0123456789ABCDEF
LETTERS = b"abcdefghijklmnopqrstuvwxyz0123456789_"


def folded(one: int, other: int) -> int:
    product = (one & WORD) * (other & WORD)
    return (product ^ product >> 64) & WORD


def spelled(number: int, length: int, letters: bytes = LETTERS) -> bytes:
    """A number's own text of so many letters."""
    digits = []
    for _ in range(length):
        number, digit = divmod(number, len(letters))
        digits.append(letters[digit])
    return bytes(digits)


def pairs_of_a_key(size: int) -> Iterator[tuple[int, int]]:
    """Two integers that are a key of an index."""
    state, found = folded(SEED ^ 2, FACTOR), 0
    for first in count(1):
        if found == size:
            return
        second = folded(state ^ (OWN + first), FACTOR) ^ CHOSEN
        if second >= OWN:
            found += 1
            yield first, second - OWN


def pairs_of_a_step(size: int, step: int = 1) -> Iterator[tuple[int, int]]:
    """Two integers that are the key of a query's step, the second one unless it is named. Those of the first collided too as values by which
    the tuples of one key are joined, as long as these had a hash."""
    state, found = folded(step, FACTOR), 0
    for first in count(1):
        if found == size:
            return
        second = folded(state ^ first, FACTOR) ^ CHOSEN
        if second < OWN:
            found += 1
            yield first, second


def texts_of_32_bytes(size: int) -> Iterator[str]:
    """Texts of ASCII signs alone, the third eight of which lead to a chosen state."""
    tail, found, wanted = b"aaaaaaaa", 0, None
    for number in count():
        if found == size:
            return
        head = spelled(number, 16, LETTERS[:26])
        first, second = int.from_bytes(head[:8], "little"), int.from_bytes(head[8:], "little")
        state = folded(first ^ (SEED + 32), second ^ FACTOR)
        wanted = state ^ CHOSEN & 0x7F7F7F7F7F7F7F7F if wanted is None else wanted
        third = state ^ wanted
        if third & 0x8080808080808080 == 0 and 0 not in (text := third.to_bytes(8, "little")):
            found += 1
            yield (head + text + tail).decode("ascii")


def is_in_slot(state: int, size: int) -> bool:
    """Whether a hash leads to a slot that was chosen of a table with so many keys, of which each slot takes some."""
    mask = (1 << (size // 8).bit_length()) - 1
    return (state ^ state >> 32 ^ 7) & mask == 0


def names_in_one_slot(size: int) -> Iterator[str]:
    """Names that share a slot of a table of their number."""
    found = 0
    for number in count():
        if found == size:
            return
        name = b"q" + spelled(number, 7)
        if is_in_slot(folded(folded(SEED ^ int.from_bytes(name, "little"), FACTOR ^ 16) ^ 0xFFFFFF, FACTOR ^ 2), size):
            found += 1
            yield name.decode("ascii")


def codes_in_one_slot(size: int) -> Iterator[tuple[int, int]]:
    """Two codes that are a tuple, so that tuples share a slot of a table of their number. Codes are given from 0 on."""
    begun, found = folded(SEED ^ 2, FACTOR ^ 16), 0
    for first in count():
        state = folded(begun ^ first, FACTOR ^ 16)
        for second in range(size):
            if found == size:
                return
            if is_in_slot(folded(state ^ second, FACTOR ^ 16), size):
                found += 1
                yield first, second
