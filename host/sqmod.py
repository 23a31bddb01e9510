"""Sessions of SQL-92 modules, from Python: libsqmod.so by ctypes, with the standard library alone.

    from sqmod import Session

    with Session(schemas=[schema], modules=[module]) as session:
        session.M.ADDROW(1, -2)             # Reply(sqlstate='00000', sqlcode=0, outputs={})
        session.M.OPX()
        session.M.NEXTROW(None, None)       # Reply(sqlstate='00000', sqlcode=0, outputs={'A': 1, 'B': -2})

A call takes a value for each parameter but SQLCODE and SQLSTATE, in the order in which they are declared: an int, a decimal.Decimal of
at most 18 digits, a str of at most 240 printable ASCII characters, or None, which starts the parameter at 0 or blanks. To hand in a
null, give its indicator parameter -1.

A reply has SQLSTATE, SQLCODE and a dict of the parameters that the call set, by their names: an int for a number of scale 0, else a
decimal.Decimal; a str; None for a null.

A status is no exception: 23000 is a reply like any other. Exceptions are for what could not be asked: Refused for a text that
is refused, ValueError for values that don't fit, AttributeError for a procedure that does not exist, MemoryError.

The library is looked for under the path in SQMOD_LIBRARY, then beside this file, in the two folders above it and in ../lib, then
where the system looks.
"""

import ctypes
import os
from ctypes import POINTER, byref, c_char_p, c_int, c_int32, c_int64, c_size_t, c_uint, c_uint64, c_void_p
from decimal import Decimal
from pathlib import Path
from typing import NamedTuple, Union

__all__ = ["Error", "Refused", "Reply", "Session", "version"]

Value = Union[int, Decimal, str, None]

DONE, REFUSED, NO_MEMORY, UNKNOWN, BAD_VALUE, BAD_ARGUMENTS, NO_ROOM, NO_ROW = 0, 3, 4, 5, 6, 7, 10, 12
NULL, NUMBER, TEXT = range(3)
MOST_ROWS = 1_000_000
NAME = "libsqmod.so.0"

FUNCTIONS = {
    "error_text": (c_int, c_char_p, c_size_t, POINTER(c_size_t)),
    "version": (c_char_p, c_size_t, POINTER(c_size_t)),
    "new": (POINTER(c_void_p),),
    "add_schema": (c_void_p, c_char_p, c_size_t),
    "add_module": (c_void_p, c_char_p, c_size_t),
    "open": (c_void_p, c_uint64),
    "refusal": (c_void_p, c_char_p, c_size_t, POINTER(c_size_t)),
    "procedure": (c_void_p, c_char_p, c_char_p, POINTER(c_size_t)),
    "why": (c_void_p, c_size_t, c_char_p, c_size_t, POINTER(c_size_t)),
    "cause": (c_void_p, c_char_p, c_size_t, POINTER(c_size_t)),
    "add_digits": (c_void_p, c_char_p, c_size_t),
    "add_text": (c_void_p, c_char_p, c_size_t),
    "add_start": (c_void_p,),
    "drop_values": (c_void_p,),
    "checked_values": (c_void_p, c_size_t, POINTER(c_size_t)),
    "call": (c_void_p, c_size_t),
    "status": (c_void_p, c_char_p, POINTER(c_int32)),
    "outputs": (c_void_p, POINTER(c_size_t)),
    "output_name": (c_void_p, c_size_t, c_char_p, c_size_t, POINTER(c_size_t)),
    "output_kind": (c_void_p, c_size_t, POINTER(c_int)),
    "output_number": (c_void_p, c_size_t, POINTER(c_int64), POINTER(c_uint)),
    "output_text": (c_void_p, c_size_t, c_char_p, c_size_t, POINTER(c_size_t)),
    "table": (c_void_p, c_char_p, c_char_p),
    "next_row": (c_void_p,),
    "close": (POINTER(c_void_p),),
}


class Error(Exception):
    """A function of the library answered a code that is no part of its use from here."""

    def __init__(self, code):
        super().__init__(f"{code}: {text_of('error_text', code)}")
        self.code = code


class Refused(Exception):
    """A schema or module text is refused; the message says which, where and why, as in `module 1:3:14: BadParameter`."""


class Reply(NamedTuple):
    """What a call answers: SQLSTATE, SQLCODE, and the parameters that it set, by their names."""

    sqlstate: str
    sqlcode: int
    outputs: dict


def load():
    """The library, with the types of its functions."""
    here = Path(__file__).resolve().parent
    places = [os.environ.get("SQMOD_LIBRARY"), here / NAME, *(folder / NAME for folder in here.parents[:2]), here.parent / "lib" / NAME]
    found = next((str(place) for place in places if place and Path(place).exists()), NAME)
    library = ctypes.CDLL(found)
    for name, types in FUNCTIONS.items():
        getattr(library, f"sqmod_{name}").argtypes = types
    return library


LIBRARY = load()


def ask(name, *words):
    """The code that a function of the library answers."""
    return getattr(LIBRARY, f"sqmod_{name}")(*words)


def must(name, *words):
    """Calls a function of the library, which is to do what it is asked."""
    accept(ask(name, *words))


def accept(code):
    """Raises the error of a code that is not DONE."""
    if code == NO_MEMORY:
        raise MemoryError("memory ran out; tables and cursors are as they were")
    if code != DONE:
        raise Error(code)


def text_of(name, *words):
    """The text that a function of the library puts into a room."""
    length, room = c_size_t(), ctypes.create_string_buffer(256)
    code = ask(name, *words, room, len(room), byref(length))
    if code == NO_ROOM:
        room = ctypes.create_string_buffer(length.value + 1)
        must(name, *words, room, len(room), byref(length))
    else:
        accept(code)
    return room.raw[: length.value].decode("ascii")


def version():
    """The version of the library, as "0.1.0"."""
    return text_of("version")


def bytes_of(text):
    return text if isinstance(text, bytes) else text.encode("utf-8")


class Session:
    """Tables, cursors and procedures of schema and module texts, each a str or bytes. `rows` bounds the row numbers of each table.

    `session.M.P(..)` calls procedure P of module M; case does not matter.
    """

    def __init__(self, schemas=(), modules=(), rows=MOST_ROWS):
        self._handle = c_void_p()
        must("new", byref(self._handle))
        for kind, texts in (("add_schema", schemas), ("add_module", modules)):
            for text in map(bytes_of, texts):
                must(kind, self._handle, text, len(text))
        code = ask("open", self._handle, rows)
        if code == REFUSED:
            line = text_of("refusal", self._handle)
            self.close()
            raise Refused(line)
        if code == BAD_VALUE:
            self.close()
            raise ValueError(f"rows: {rows} is not from 1 to 1000000000")
        if code != DONE:
            self.close()
            raise MemoryError("memory ran out") if code == NO_MEMORY else Error(code)

    def __getattr__(self, name):
        if name.startswith("_"):
            raise AttributeError(name)
        return Module(self, name)

    def call(self, module, procedure, *values: Value) -> Reply:
        """Calls a procedure by the names of its module and its own."""
        return self._call(self._number(module, procedure), values)

    def why(self, module, procedure):
        """Why each call of a procedure answers 42000, as `UnknownColumn PRIZE`, or None if it has no fault."""
        return text_of("why", self._handle, self._number(module, procedure)) or None

    def cause(self):
        """Why the last call did not end with 00000, in words, or None if it did."""
        return text_of("cause", self._handle) or None

    def table(self, user, name):
        """The rows of a base table as they are now, a tuple each."""
        code = ask("table", self._handle, user.encode("ascii"), name.encode("ascii"))
        if code == UNKNOWN:
            raise KeyError(f"{user}.{name} is no base table")
        if code != DONE:
            raise MemoryError("memory ran out") if code == NO_MEMORY else Error(code)
        rows = []
        while (code := ask("next_row", self._handle)) == DONE:
            rows.append(tuple(self._output(place) for place in range(self._output_count())))
        if code != NO_ROW:
            raise MemoryError("memory ran out") if code == NO_MEMORY else Error(code)
        return rows

    def close(self):
        """Ends the session. Its tables are gone."""
        if self._handle:
            ask("close", byref(self._handle))

    def __enter__(self):
        return self

    def __exit__(self, *_):
        self.close()

    def __del__(self):
        self.close()

    def _number(self, module, procedure):
        number = c_size_t()
        code = ask("procedure", self._handle, module.encode("ascii"), procedure.encode("ascii"), byref(number))
        if code == UNKNOWN:
            raise AttributeError(f"{module}.{procedure} is no procedure")
        if code != DONE:
            raise Error(code)
        return number.value

    def _call(self, procedure, values):
        must("drop_values", self._handle)
        for place, value in enumerate(values):
            self._add(place, value)
        place = c_size_t()
        if ask("checked_values", self._handle, procedure, byref(place)) == BAD_ARGUMENTS:
            if place.value < len(values):
                raise ValueError(f"value {place.value + 1}, {values[place.value]!r}, does not fit its parameter")
            raise ValueError(f"{len(values)} values are not as many as the procedure has parameters")
        must("call", self._handle, procedure)
        return self._reply()

    def _add(self, place, value):
        if value is None:
            code = ask("add_start", self._handle)
        elif isinstance(value, str):
            text = value.encode("utf-8")
            code = ask("add_text", self._handle, text, len(text))
        elif isinstance(value, (int, Decimal)) and not isinstance(value, bool):
            digits = f"{value:f}".encode("ascii") if isinstance(value, Decimal) else str(value).encode("ascii")
            code = ask("add_digits", self._handle, digits, len(digits))
        else:
            raise TypeError(f"value {place + 1} is an int, a Decimal, a str or None, and not {type(value).__name__}")
        if code == BAD_VALUE:
            raise ValueError(f"value {place + 1}, {value!r}, is none that a parameter can have")
        if code != DONE:
            raise MemoryError("memory ran out") if code == NO_MEMORY else Error(code)

    def _reply(self):
        state, code = ctypes.create_string_buffer(6), c_int32()
        must("status", self._handle, state, byref(code))
        places = range(self._output_count())
        outputs = {text_of("output_name", self._handle, place): self._output(place) for place in places}
        return Reply(state.value.decode("ascii"), code.value, outputs)

    def _output_count(self):
        count = c_size_t()
        must("outputs", self._handle, byref(count))
        return count.value

    def _output(self, place):
        kind = c_int()
        must("output_kind", self._handle, place, byref(kind))
        if kind.value == NULL:
            return None
        if kind.value == TEXT:
            return text_of("output_text", self._handle, place)
        unscaled, scale = c_int64(), c_uint()
        must("output_number", self._handle, place, byref(unscaled), byref(scale))
        return Decimal(unscaled.value).scaleb(-scale.value) if scale.value else unscaled.value


class Module:
    """A module of a session: its attributes are its procedures."""

    def __init__(self, session, name):
        self._session, self._name = session, name

    def __getattr__(self, procedure):
        number = self._session._number(self._name, procedure)
        return lambda *values: self._session._call(number, values)
