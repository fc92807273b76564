"""The twig finder for Python, over its library by ctypes. include/twigfinder.h says what each call does.

TWIGFINDER names the shared library; examples/python/run builds it.
"""
import ctypes
import os
from ctypes import POINTER, Structure, c_char_p, c_size_t, c_uint32

TEXT_BYTES = 16_777_216
SHEET_BYTES = 1_093_648
SPELLING_BYTES = 589
NODES = 16
MEMORY = 255
FEW_ROWS = 19


class Answer(Structure):
    _fields_ = [("number", c_uint32), ("place", c_size_t), ("count", c_size_t)]


class Place(Structure):
    _fields_ = [("starts", c_uint32 * NODES)]


class Refused(Exception):
    """A refusal: its number and its place."""

    def __init__(self, number, place):
        super().__init__(f"refused {number} at {place}")
        self.number = number
        self.place = place


_library = ctypes.CDLL(os.environ.get("TWIGFINDER", os.path.join(os.path.dirname(os.path.abspath(__file__)), "out", "libtwigfinder.so")))


def _declare(name, *arguments):
    call = getattr(_library, name)
    call.restype = Answer
    call.argtypes = arguments
    return call


_index = _declare("twigfinder_index", c_char_p, c_size_t, c_char_p, c_size_t)
_check = _declare("twigfinder_check", c_char_p, c_size_t)
_spell = _declare("twigfinder_spell", c_char_p, c_size_t, c_char_p, c_size_t)
_find = _declare("twigfinder_find", c_char_p, c_size_t, c_char_p, c_size_t, c_size_t, c_size_t, POINTER(Place), c_size_t)
_count = _declare("twigfinder_count", c_char_p, c_size_t, c_char_p, c_size_t, c_size_t)


def _granted(answer):
    if answer.number == MEMORY:
        raise MemoryError
    if answer.number:
        raise Refused(answer.number, answer.place)
    return answer.count


def index(text, room=SHEET_BYTES):
    """The sheet of a book text, in a buffer of `room` bytes."""
    sheet = ctypes.create_string_buffer(max(room, 1))
    length = _granted(_index(text, len(text), sheet, room))
    return ctypes.string_at(sheet, length)


def check(sheet):
    """Refuses bytes that are no lawful sheet."""
    _granted(_check(sheet, len(sheet)))


def spell(pattern, room=SPELLING_BYTES):
    """The standard spelling of a pattern, in a buffer of `room` bytes."""
    out = ctypes.create_string_buffer(max(room, 1))
    length = _granted(_spell(pattern, len(pattern), out, room))
    return ctypes.string_at(out, length)


def find(sheet, pattern, skip=0, room=65_536, rows=None):
    """The embeddings after the first `skip`, at most `room`, each as a tuple of starts. Without `rows`, as many rows as are needed."""
    places = (Place * max(room, 1))()
    answer = _find(sheet, len(sheet), pattern, len(pattern), 4096 if rows is None else rows, skip, places, room)
    if rows is None and answer.number == FEW_ROWS:
        answer = _find(sheet, len(sheet), pattern, len(pattern), answer.place, skip, places, room)
    found = []
    for place in places[: _granted(answer)]:
        starts = tuple(place.starts)
        found.append(starts[: starts.index(2**32 - 1)] if starts[-1] == 2**32 - 1 else starts)
    return found


def find_all(sheet, pattern, room=65_536):
    """All embeddings, one after the other."""
    skip = 0
    while True:
        found = find(sheet, pattern, skip, room)
        yield from found
        skip += len(found)
        if len(found) < room:
            return


def count(sheet, pattern, rows=None):
    """How many embeddings there are."""
    answer = _count(sheet, len(sheet), pattern, len(pattern), 4096 if rows is None else rows)
    if rows is None and answer.number == FEW_ROWS:
        answer = _count(sheet, len(sheet), pattern, len(pattern), answer.place)
    return _granted(answer)
