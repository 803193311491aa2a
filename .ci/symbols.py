"""Names in an object file (ELF, 64 bit, to be linked further): which of them other files see.

Of two archives whose objects keep their inner names to themselves a program can link both.
"""
import struct
from typing import Dict, Iterable, List, Sequence

HEADER, SECTION, SYMBOL, MOVED = struct.Struct("<16sHHIQQQIHHHHHH"), struct.Struct("<IIQQQQIIQQ"), struct.Struct("<IBBHQQ"), struct.Struct("<QQq")
SYMTAB, RELA, GROUP, WIDE_INDEX, ADDRESSED = 2, 4, 17, 18, 0x6FFF4C03
LOCAL, UNDEFINED = 0, 0


class Object:
    """An object file as its sections, each a list of its header's fields, and its bytes."""

    def __init__(self, text: bytes) -> None:
        self.text = bytearray(text)
        self.header = list(HEADER.unpack_from(self.text))
        if self.header[0][:6] != b"\x7fELF\2\1" or self.header[1] != 1:
            raise ValueError("no object file of 64 bits that is to be linked further")
        self.sections = [list(SECTION.unpack_from(self.text, self.header[6] + at * SECTION.size)) for at in range(self.header[12])]
        self.symtab = next(it for it in self.sections if it[1] == SYMTAB)
        self.strings = self.sections[self.symtab[6]]

    def symbols(self) -> List[List[int]]:
        first, size = self.symtab[4], self.symtab[5]
        return [list(SYMBOL.unpack_from(self.text, at)) for at in range(first, first + size, SYMBOL.size)]

    def name(self, symbol: Sequence[int]) -> str:
        start = self.strings[4] + symbol[0]
        return self.text[start : self.text.index(0, start)].decode()

    def add_strings(self, names: Iterable[str]) -> Dict[str, int]:
        """Puts names behind the names; answers where each stands among them."""
        old = self.text[self.strings[4] : self.strings[4] + self.strings[5]]
        places = {}
        for name in names:
            places[name] = len(old)
            old += name.encode() + b"\0"
        self.strings[4:6] = len(self.text), len(old)
        self.text += old
        return places

    def move(self, order: Sequence[int]) -> None:
        """Has relocations and groups name each symbol by its new place."""
        number = self.sections.index(self.symtab)
        to = {old: new for new, old in enumerate(order)}
        for it in self.sections:
            if it[1] == RELA and it[6] == number:
                for at in range(it[4], it[4] + it[5], MOVED.size):
                    place, info, more = MOVED.unpack_from(self.text, at)
                    MOVED.pack_into(self.text, at, place, to[info >> 32] << 32 | info & 0xFFFFFFFF, more)
            elif it[1] == GROUP and it[6] == number:
                it[7] = to[it[7]]
            elif it[1] == WIDE_INDEX and it[6] == number:
                raise ValueError("an object file of so many sections isn't handled")
            elif it[1] == ADDRESSED:
                it[1], it[6] = 1, 0

    def write(self) -> bytes:
        self.header[6] = len(self.text)
        HEADER.pack_into(self.text, 0, *self.header)
        return bytes(self.text) + b"".join(SECTION.pack(*it) for it in self.sections)


def kept(text: bytes, names: Dict[str, str]) -> bytes:
    """The object file in which other files see these names alone, each under its new one."""
    it = Object(text)
    symbols, places = it.symbols(), it.add_strings(names.values())
    for symbol in symbols:
        name = it.name(symbol)
        if symbol[3] != UNDEFINED and symbol[1] >> 4 != LOCAL:
            if name in names:
                symbol[0], symbol[2] = places[names[name]], 0
            else:
                symbol[1], symbol[2] = symbol[1] & 15, 0
    order = sorted(range(len(symbols)), key=lambda at: symbols[at][1] >> 4 != LOCAL)
    it.move(order)
    for new, old in enumerate(order):
        SYMBOL.pack_into(it.text, it.symtab[4] + new * SYMBOL.size, *symbols[old])
    it.symtab[7] = sum(symbol[1] >> 4 == LOCAL for symbol in symbols)
    return it.write()
