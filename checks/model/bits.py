"""Requests, acknowledgements, data phases and transactions, as bits."""

from __future__ import annotations

from dataclasses import dataclass
from typing import Iterable, Optional, Union

Bits = list[int]
WORD = 0xFFFFFFFF


def text_of_bits(bits: Iterable[int]) -> str:
    return "".join("1" if b else "0" for b in bits)


def odd(bits: Iterable[int]) -> int:
    return sum(bits) & 1


def bits_of_number(value: int, count: int) -> Bits:
    return [(value >> i) & 1 for i in range(count)]


@dataclass(frozen=True, slots=True)
class Request:
    ap: bool
    read: bool
    addr: int  # 0, 4, 8 or 12

    def list(self) -> Bits:
        """Its eight bits."""
        four = [int(self.ap), int(self.read), (self.addr >> 2) & 1, (self.addr >> 3) & 1]
        return [1, *four, odd(four), 0, 1]


OK, WAIT, FAULT = 1, 2, 4
SILENT = 7


def data_bits(word: int) -> int:
    """A word with its parity, as a number of 33 bits."""
    return word | ((bin(word).count("1") & 1) << 32)


def word_of(value: int) -> Optional[int]:
    word = value & WORD
    return word if data_bits(word) == value else None


@dataclass(frozen=True, slots=True)
class Moved:
    word: int
    parity_ok: bool = True


@dataclass(frozen=True, slots=True)
class TxWait:
    pass


@dataclass(frozen=True, slots=True)
class TxFault:
    pass


@dataclass(frozen=True, slots=True)
class NoAck:
    value: int


TxEnd = Union[Moved, TxWait, TxFault, NoAck]


@dataclass(frozen=True, slots=True)
class Tx:
    request: Request
    result: TxEnd


def tx_bits(tx: Tx, t: int = 1, t2: int = 1) -> Bits:
    """The bits of a transaction, with its turnarounds t and t2."""
    head = tx.request.list() + [t]
    r = tx.result
    if isinstance(r, Moved):
        word = bits_of_number(r.word, 32)
        parity = odd(word) if r.parity_ok else 1 - odd(word)
        if tx.request.read:
            return head + [1, 0, 0] + word + [parity, t2]
        return head + [1, 0, 0] + [t2] + word + [parity]
    if isinstance(r, TxWait):
        return head + [0, 1, 0, t2]
    if isinstance(r, TxFault):
        return head + [0, 0, 1, t2]
    return head + bits_of_number(r.value, 3)

