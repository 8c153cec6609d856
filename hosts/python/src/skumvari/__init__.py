"""Reads ICM 1.1 interconnect model files by the proved intake of skumvari.
Every number of a file is told exactly, as a Decimal; what is wrong with a refused file is told by the paper's number
and line.

    import skumvari

    file = skumvari.read("t.icm")
    file.entry("S", "L", 2, 1)               # Decimal('8E-10')
    file.section("S").matrix("L")            # all entries, a list of rows
    skumvari.double_of(file.entry("S", "L", 2, 1))    # 8e-10, the double to draw it by, or None
    for step in file.model("A").path:        # the steps as the file writes them
        print(step)

The proved code is a shared library, which stands beside this file once the package is installed. The environment
variable SKUMVARI_LIBRARY may name another. include/skumvari.h tells the functions and the layout of a table.
"""

from __future__ import annotations

import ctypes
import functools
import operator
import os
import struct
from dataclasses import dataclass, field
from decimal import Decimal
from pathlib import Path
from typing import Any, Callable, Iterator, NamedTuple, Optional, Sequence, SupportsIndex, Union

__all__ = ["read", "reads", "double_of", "pair_of", "File", "Model", "Step", "PinMap", "Section"]
__all__ += ["Refused", "NoSuch", "NoSuchModel", "NoSuchSection", "NoSuchEntry"]

TEXT_MOST = 1_048_576  # bytes; a longer text is refused whatever it holds

KINDS = "RLGC"
TYPES = ("SLM_general", "SLM_quiescent", "MLM")
ORDERS = ("Row_ordered", "Column_ordered", "Un_ordered")
METHODS = ("Lumped", "Distributed")
STEPS = ("end", "section", "fork", "endfork")

ZERO = 128  # the value word of zero
NO_VALUE = 0  # a word that is no value word
SIZE_DIGITS, EXPONENT_MOST = 15, 60  # of m, and of k either way

# The parts of a table in their order, with the words that a record has.
PARTS = (("models", 5), ("steps", 6), ("maps", 7), ("pins", 2), ("sections", 8), ("matrices", 5), ("values", 3))

# The paper's numbers of refusal: name and meaning.
NUMBERS = {
    1: ("SIZE", "text over 1,048,576 bytes"),
    2: ("BYTE", "byte other than 0x20 to 0x7E, TAB, LF, or CR right before LF"),
    3: ("LONG", "line over 120 characters without its terminator"),
    4: ("UNENDED", "last line has no LF"),
    5: ("HEADER", "no [Begin Header] line"),
    6: ("KEYWORD", "bad bracket"),
    7: ("UNKNOWN", "keyword that ICM 1.1 does not have"),
    8: ("LATER", "keyword that is not taken yet"),
    9: ("PLACE", "keyword misplaced, repeated, or a required part missing when its block closes"),
    10: ("END", "text stops before [End]"),
    11: ("ARGUMENT", "argument missing, surplus or not allowed"),
    12: ("LINE", "line that its place does not take"),
    13: ("NUMBER", "malformed number or integer"),
    14: ("RANGE", "number or integer out of bounds"),
    15: ("FORK", "fork nested deeper than 8, Endfork with none open, or path closed with one open"),
    16: ("SHAPE", "matrix of the wrong shape, or more pins than the grid has places"),
    17: ("LIMIT", "count above its bound"),
    18: ("ROOM", "table shorter than the words needed"),
    19: ("TWICE", "second of one name within models, maps, sections, list or one map's pins"),
    20: ("LIST", "model not listed, or listed without one"),
    21: ("NOMAP", "no pin map of that name on a later line"),
    22: ("SIDE", "two ends of a path on one map, with Side lacking at either or the same"),
    23: ("NOSECTION", "no such section"),
    24: ("METHOD", "Mult with a Distributed section, or Len with a Lumped one"),
    25: ("KIND", "step of an SLM model over a section with a form that is not Diagonal_matrix"),
    26: ("COUNT", "pins or conductors that differ from the pins of the path's first map"),
    27: ("UNUSED", "section that no step uses"),
    29: ("SGR", "SGR in a model that is not SLM_general"),
    30: ("TABLE", "question over an unsound table"),
    31: ("NOSUCH", "section, kind, row, column or walk place out of range"),
}


class Refused(Exception):
    """A text or a question was refused: the paper's number, its name, and the line to blame (0 for none)."""

    def __init__(self, number: int, line: int) -> None:
        self.number, self.line = number, line
        self.name, self.reason = NUMBERS.get(number, ("UNKNOWN NUMBER", "a number that this version does not know"))
        place = f", line {line}" if line else ""
        super().__init__(f"refused {number} {self.name}: {self.reason}{place}")

    def __reduce__(self) -> tuple[type[Refused], tuple[int, int]]:
        return Refused, (self.number, self.line)  # pickled with what it was made of, not with its message


class NoSuch(LookupError):
    """The file does not have what was asked for."""


class NoSuchModel(NoSuch):
    """The file has no model of this name."""


class NoSuchSection(NoSuch):
    """The file has no section of this name."""


class NoSuchEntry(NoSuch):
    """The section has no such kind, row or column."""


# --- The shared library -----------------------------------------------------------------------------------------------

ANSWER_WORDS = 4
PAIR_WORDS = 5
WALK_WORDS = 13

BYTES_A_WORD = 8  # of a listing, for each word of the table: how much room there is at first


@functools.lru_cache(maxsize=None)
def library() -> ctypes.CDLL:
    """The shared library with the header's functions; loaded when it is first needed."""
    path = os.environ.get("SKUMVARI_LIBRARY") or str(Path(__file__).with_name("libskumvari.so"))
    try:
        loaded = ctypes.CDLL(path)
    except OSError as error:
        raise OSError(f"{error}; install the package with pip, or name its library in SKUMVARI_LIBRARY") from error
    word, size = ctypes.c_uint64, ctypes.c_size_t
    text: list[type] = [ctypes.c_char_p, size]
    words: list[type] = [ctypes.POINTER(word), size]
    functions: dict[str, list[type]] = {
        "intake": text + words + words,
        "sound": text + words,
        "entry": text + words + [word] * 4 + words,
        "walk": text + words + [word] * 3 + words,
        "matrix": text + words + [word] * 2 + words + words,
        "double": [word] + words,
        "pair": [word] * 2 + words,
    }
    functions.update({f"{name}_unjudged": functions[name] for name in ("entry", "walk", "matrix")})
    for name, arguments in functions.items():
        function = getattr(loaded, "skumvari_" + name)
        function.argtypes, function.restype = arguments, ctypes.c_bool
    loaded.skumvari_list.argtypes = text + words + [size, ctypes.c_char_p, size]
    loaded.skumvari_table_words.argtypes = []
    loaded.skumvari_list.restype = loaded.skumvari_table_words.restype = size
    return loaded


def new_words(count: int) -> ctypes.Array[ctypes.c_uint64]:
    """So many words that a function of the library can be lent."""
    return (ctypes.c_uint64 * count)()


def _told(lent: bool, answer: ctypes.Array[ctypes.c_uint64]) -> tuple[list[int], list[int]]:
    """Whether something is given, the number and line of the refusal where not, and the words that are given."""
    assert lent, "the words lent for an answer are as many as the header asks for"
    words: list[int] = answer[:]
    return words[:3], words[3:]


def _given(lent: bool, answer: ctypes.Array[ctypes.c_uint64]) -> list[int]:
    """The words of an answer, or the refusal that it is."""
    (given, number, line), words = _told(lent, answer)
    if not given:
        raise Refused(number, line)
    return words


def _drawn(lent: bool, answer: ctypes.Array[ctypes.c_uint64]) -> Optional[tuple[float, ...]]:
    """The doubles whose bits are an answer, or None where it is outside."""
    (given, _, _), words = _told(lent, answer)
    return struct.unpack(f"{len(words)}d", struct.pack(f"{len(words)}Q", *words)) if given else None


# --- Values -----------------------------------------------------------------------------------------------------------


def value(word: int) -> Decimal:
    """The exact number of a value word; no context of the decimal module takes part."""
    sign, size, exponent = word % 2, word // 256, word % 256 // 2 - 64
    return Decimal((sign, tuple(map(int, str(size))), exponent))


def _word_of(number: Union[Decimal, int]) -> int:
    """The value word of an exact number, or a word that is none where no value word is that number."""
    if not isinstance(number, (Decimal, int)):
        raise TypeError(f"a value is a Decimal or an int, not {type(number).__name__}")
    sign, digits, exponent = Decimal(number).as_tuple()
    if not isinstance(exponent, int):  # a letter, of a NaN or an infinity
        return NO_VALUE
    if not any(digits):
        return ZERO
    written = "".join(map(str, digits)).lstrip("0")
    size = written.rstrip("0")  # m does not end in 0
    exponent += len(written) - len(size)
    if len(size) > SIZE_DIGITS or abs(exponent) > EXPONENT_MOST:
        return NO_VALUE
    return 256 * int(size) + 2 * (exponent + 64) + sign


def _double(word: int) -> Optional[float]:
    answer = new_words(ANSWER_WORDS)
    drawn = _drawn(library().skumvari_double(word, answer, ANSWER_WORDS), answer)
    return None if drawn is None else drawn[0]


def _pair(frequency: int, value: int) -> Optional[tuple[float, float]]:
    answer = new_words(PAIR_WORDS)
    drawn = _drawn(library().skumvari_pair(frequency, value, answer, PAIR_WORDS), answer)
    return None if drawn is None else (drawn[0], drawn[1])


def double_of(number: Union[Decimal, int]) -> Optional[float]:
    """The float to draw a value of a file by: the exact number rounded once.

    It is the number itself where that is whole and below two to the 53. A value is a Decimal or an int. None where
    nothing is drawn: it is not m times ten to a k from -22 to 22, with an m of at most 15 digits that does not end in
    0.
    """
    return _double(_word_of(number))


def pair_of(frequency: Union[Decimal, int], number: Union[Decimal, int]) -> Optional[tuple[float, float]]:
    """The floats of a frequency and a value, a point of a curve; None if either is not drawn."""
    return _pair(_word_of(frequency), _word_of(number))


# --- What a file holds ------------------------------------------------------------------------------------------------


class Step(NamedTuple):
    """A step of a path: end, section, fork or endfork."""

    kind: str
    line: int
    name: Optional[str] = None  # of an end's map or of a section
    amount: Union[int, Decimal, None] = None  # of a section: Mult as int (Lumped), Len as Decimal (Distributed)
    side: Optional[str] = None  # of an end that has one


class Model(NamedTuple):
    """A model: its type as in the file, how many steps its path has, and the path as a list of steps."""

    name: str
    type: str
    steps: int
    path: list[Step]


class PinMap(NamedTuple):
    """A pin map: its order as in the file, rows and columns (0 where it is Un_ordered), and the names of its pins.

    An ordered map has at least one pin and at most rows times columns: places of its grid may be missing, and the file
    does not say which.
    """

    name: str
    order: str
    rows: int
    columns: int
    pins: list[str]


@dataclass(frozen=True)
class Section:
    """A section: its method as in the file, its conductors, and the kinds that are given, in the order of the text."""

    name: str
    method: str
    conductors: int
    kinds: str
    _file: File = field(repr=False, compare=False)
    _index: int = field(repr=False, compare=False)

    def entry(self, kind: str, row: SupportsIndex, column: SupportsIndex) -> Decimal:
        """One entry of a matrix, exactly; rows and columns count from 1. What is not written is zero."""
        try:
            return value(self._file._entry(self._index, _kind(kind), _word(row), _word(column)))
        except Refused as refused:
            range_ = f"rows and columns are 1 to {self.conductors}"
            raise NoSuchEntry(f"no entry {kind} {row} {column} in section {self.name}: {range_}") from refused

    def matrix(self, kind: str) -> list[list[Decimal]]:
        """Every entry of a matrix as a list of rows. A kind that is not given has zeros."""
        count = self.conductors
        values = [value(word) for word in self._file._matrix(self._index, _kind(kind), count * count)]
        return [values[start : start + count] for start in range(0, count * count, count)]


def _kind(letter: str) -> int:
    if letter not in tuple(KINDS):
        raise NoSuchEntry(f"no kind {letter!r}: the kinds are R, L, G and C")
    return KINDS.index(letter)


def _word(number: SupportsIndex) -> int:
    """A number as a word; one that no word can hold becomes the greatest, out of range too, never another number."""
    whole = operator.index(number)
    return whole if 0 <= whole < 2**64 else 2**64 - 1


# --- Files ------------------------------------------------------------------------------------------------------------


def read(path: Union[str, os.PathLike[str]]) -> File:
    """Reads the file of a name; raises Refused where the intake refuses it."""
    with open(path, "rb") as file:
        return reads(file.read(TEXT_MOST + 1))  # one byte too many is enough to be refused


def reads(text: Union[bytes, bytearray, memoryview]) -> File:
    """Reads a text of bytes; raises Refused where the intake refuses it."""
    return File(text)


class _Kept(NamedTuple):
    """What can be done with a text and its table: look at the words, ask a function, walk along a model's path."""

    words: list[int]
    ask: Callable[..., Any]
    walk: Callable[[int], Iterator[tuple[list[int], int]]]


def _keep(text: bytes) -> _Kept:
    """The intake of a text.

    Questions are asked without judging the table: it is sound for the text while nobody changes it, which is proved. So
    it stays in here, where nobody else can reach it. The words that are handed out are a copy.
    """
    table, answer = new_words(library().skumvari_table_words()), new_words(ANSWER_WORDS)
    lent = library().skumvari_intake(text, len(text), table, len(table), answer, ANSWER_WORDS)
    (used,) = _given(lent, answer)
    kept = (ctypes.c_uint64 * used).from_buffer_copy(table)

    def ask(name: str, *rest: Any) -> Any:
        return getattr(library(), "skumvari_" + name)(text, len(text), kept, used, *rest)

    def walk(model: int) -> Iterator[tuple[list[int], int]]:
        """The words of each step, with the depth before it."""
        # No step judges its place either. It is in range: a model's start, and then what each step hands back.
        place, answer = [range(kept[0])[model], 0, 0], new_words(WALK_WORDS)
        while True:
            done, *words = _given(ask("walk_unjudged", *place, answer, WALK_WORDS), answer)
            if done:
                return
            yield words[:6], place[2]
            place = words[6:]

    return _Kept(kept[:], ask, walk)


class File:
    """An accepted file: its text and the table that the intake made of it, which nobody changes."""

    def __init__(self, text: Union[bytes, bytearray, memoryview]) -> None:
        self._text = bytes(memoryview(text))  # the view turns away a number, of which bytes would make so many zeros
        self._kept = _keep(self._text)
        self._records = _split(self._kept.words)

    def __reduce__(self) -> tuple[Callable[[bytes], File], tuple[bytes]]:
        return reads, (self._text,)  # copied and pickled as its text: the table is always the intake's

    @property
    def text(self) -> bytes:
        """The text that was read."""
        return self._text

    @property
    def words_used(self) -> int:
        """How many words of a table the file needs."""
        return len(self._kept.words)

    @functools.cached_property
    def models(self) -> list[Model]:
        """The models, in the order of the text."""
        return [
            Model(self._name(start, length), TYPES[type_], steps, self._path(first, steps))
            for start, length, type_, first, steps in self._records["models"]
        ]

    @functools.cached_property
    def maps(self) -> list[PinMap]:
        """The pin maps, in the order of the text."""
        return [
            PinMap(self._name(start, length), ORDERS[order], rows, columns, self._pins(first, pins))
            for start, length, order, rows, columns, first, pins in self._records["maps"]
        ]

    @functools.cached_property
    def sections(self) -> list[Section]:
        """The sections, in the order of the text."""
        return [
            Section(self._name(start, length), METHODS[method], conductors, _given_kinds(matrices), self, index)
            for index, (start, length, method, conductors, *matrices) in enumerate(self._records["sections"])
        ]

    def model(self, name: str) -> Model:
        """The model of a name."""
        return self.models[self._model_index(name)]

    def section(self, name: str) -> Section:
        """The section of a name."""
        for section in self.sections:
            if section.name == name:
                return section
        raise NoSuchSection(f"no section named {name}")

    def entry(self, section: str, kind: str, row: SupportsIndex, column: SupportsIndex) -> Decimal:
        """One entry of a section's matrix, exactly; rows and columns count from 1. What is not written is zero."""
        return self.section(section).entry(kind, row, column)

    def walk(self, model: str) -> Iterator[tuple[Step, int]]:
        """The steps of a model's path with the number of forks open before each, by the proved walk.

        A model's path tells the same steps.
        """
        return ((self._step(*words), depth) for words, depth in self._kept.walk(self._model_index(model)))

    def listing(self) -> str:
        """The listing of the whole file, as the proved function writes it."""
        room = BYTES_A_WORD * self.words_used
        while True:
            out = ctypes.create_string_buffer(room)
            length = self._kept.ask("list", self.words_used, out, room)
            if length < room:  # a listing that fills its room may go on
                return out.raw[:length].decode("ascii")
            room *= 2

    def _model_index(self, name: str) -> int:
        for index, (start, length, *_) in enumerate(self._records["models"]):
            if self._name(start, length) == name:
                return index
        raise NoSuchModel(f"no model named {name}")

    # The questions, by index.

    def _entry(self, section: int, kind: int, row: int, column: int) -> int:
        answer = new_words(ANSWER_WORDS)
        (word,) = _given(self._kept.ask("entry_unjudged", section, kind, row, column, answer, ANSWER_WORDS), answer)
        return word

    def _matrix(self, section: int, kind: int, count: int) -> list[int]:
        answer, values = new_words(ANSWER_WORDS), new_words(count)
        _given(self._kept.ask("matrix_unjudged", section, kind, values, count, answer, ANSWER_WORDS), answer)
        words: list[int] = values[:]
        return words

    # The records of the table.

    def _range(self, part: str, first: int, count: int) -> list[tuple[int, ...]]:
        return self._records[part][first : first + count]

    def _name(self, start: int, length: int) -> str:
        return self.text[start : start + length].decode("ascii")

    def _path(self, first: int, steps: int) -> list[Step]:
        return [self._step(*words) for words in self._range("steps", first, steps)]

    def _pins(self, first: int, pins: int) -> list[str]:
        return [self._name(start, length) for start, length in self._range("pins", first, pins)]

    def _step(self, kind: int, target: int, amount: int, side_start: int, side_length: int, line: int) -> Step:
        if STEPS[kind] == "end":
            start, length, *_ = self._records["maps"][target]
            side = self._name(side_start, side_length) if side_length else None
            return Step("end", line, self._name(start, length), side=side)
        if STEPS[kind] == "section":
            start, length, method, *_ = self._records["sections"][target]
            told: Union[int, Decimal] = amount if METHODS[method] == "Lumped" else value(amount)
            return Step("section", line, self._name(start, length), told)
        return Step(STEPS[kind], line)


def _given_kinds(matrices: Sequence[int]) -> str:
    """The letters of the kinds that are given, in the order of the text, which is the order of their matrices."""
    return "".join(kind for matrix, kind in sorted(zip(matrices, KINDS)) if matrix)


def _split(words: list[int]) -> dict[str, list[tuple[int, ...]]]:
    """The records of each part of a table: a part is its count and then so many records."""
    records: dict[str, list[tuple[int, ...]]] = {}
    start = 0
    for part, width in PARTS:
        count, start = words[start], start + 1
        records[part] = [tuple(words[place : place + width]) for place in range(start, start + count * width, width)]
        start += count * width
    return records
