"""The proved library, called from Python: a split by its name, and the one in order. samples/build builds it."""
import ctypes
import pathlib

from tables import Fault

LIBRARY = pathlib.Path(__file__).resolve().parent.parent / "target/native/libmerotunki.so"
LAYOUT = 3  # of the structs below; the library says which one it has
WORDS = "none", "settled", "stopped", "quiet"  # an answer's word, by its number


class Answer(ctypes.Structure):
    _fields_ = [(name, ctypes.c_uint64)
                for name in ("number", "row", "column", "bad", "word", "passes", "sweeps", "drops", "range", "rotations")]


class Choice(ctypes.Structure):
    _fields_ = [("limit", ctypes.c_uint64), ("credit", ctypes.c_uint64), ("tolerance", ctypes.c_double),
                ("absolute", ctypes.c_double), ("floor", ctypes.c_double)]


def library():
    """The library and its default settings, as the last arguments of a call."""
    if not LIBRARY.exists():
        raise Fault("the library is not built yet: run samples/build")
    loaded, choice = ctypes.CDLL(str(LIBRARY)), Choice()
    loaded.merotunki_layout.restype = ctypes.c_uint64
    if loaded.merotunki_layout() != LAYOUT:
        raise Fault("the library is not of this version: run samples/build again")
    loaded.merotunki_defaults(ctypes.byref(choice))
    return loaded, [kind(getattr(choice, name)) for name, kind in Choice._fields_]


def lend(numbers):
    """A slice as the calls take it: a pointer and a length."""
    return (ctypes.c_double * len(numbers))(*numbers), ctypes.c_size_t(len(numbers))


def identity(loaded, size):
    """The library's own identity of that many rows; a size that it refuses the split refuses too, with its number."""
    lent = lend([0.0] * (size * size))
    loaded.merotunki_identity(*lent, ctypes.c_size_t(size))
    return lent


def by_rows(lent, width):
    return [list(lent[0][i:i + width]) for i in range(0, len(lent[0]), width)]


def call(name, slices, m, n, settings=()):
    """The split of that name on slices that are lent to it: its answer. Without settings, with the defaults."""
    answer, (loaded, defaults) = Answer(), library()
    lent = [part for pair in slices for part in pair]
    sizes = ctypes.c_size_t(m), ctypes.c_size_t(n)
    getattr(loaded, name)(ctypes.byref(answer), *lent, *sizes, *(settings or defaults))
    return answer


def split(rows):
    """The split in order, default settings, U and V from the identity: answer, values; matrix, U and V by rows. Where
    the number is not 0 there are no values: the call leaves the list as it was."""
    m, n, (loaded, _) = len(rows), len(rows[0]), library()
    matrix, u, v = lend([x for row in rows for x in row]), identity(loaded, m), identity(loaded, n)
    values = lend([0.0] * min(m, n))
    answer = call("merotunki_ordered_svd", (matrix, u, v, values), m, n)
    return answer, [] if answer.number else list(values[0]), by_rows(matrix, n), by_rows(u, m), by_rows(v, n)
