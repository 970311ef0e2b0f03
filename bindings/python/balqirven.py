"""Balqirven from Python: Smack labels, access rules and CIPSO mappings, for benches and service scripts.

This module calls the shared library libbalqirven.so.5, version 5.1 or a later 5. include/balqirven.h says what each call does and which refusals it can
give; here is what is different in Python. Text is bytes. A refusal is the exception Refused. A table and a loader own their memory.

>>> from balqirven import Table, Loader
>>> table, loader = Table.fresh(), Loader()
>>> loader.piece(table, b"Alarm Air_1 r\\nRecorder Arch")
>>> loader.piece(table, b"ive wa\\n")
>>> loader.end(table)
Report(lines=2, accepted=2, skipped=0, refused=0, first=None, reason=None, place=None, bringup=0)
>>> table.question(b"Alarm", b"Air_1", b"r")
Decision(kind='granted', rule=6)
>>> table.question("Alarm", b"Air_1", b"r")
Traceback (most recent call last):
...
TypeError: subject is a str, and text is bytes here: write b'...', or encode it, as in text.encode('ascii')

The header's three duties of a host are kept here:

- No pointer is NULL or another's: each points to memory of a table, of a loader or of a call, to a bytes object, or to the buffer that is lent as `out`.
- Nothing overlaps: text that is not a bytes object is copied first, and an `out` that is memory of ctypes, as every table's and loader's is, or that
  overlaps the call's table, is a ValueError before the call.
- Nobody else writes during a call: the library is loaded with ctypes.PyDLL, which keeps the interpreter's lock, since the calls are short and never wait,
  and a lock of each table would not cover the views of its parts and the lent buffers. (Code that writes a view without that lock, as readinto in another
  thread does, must not run during a call.)

A loader's call takes the state, calls the library and stores the new state in one step of the interpreter: so another thread, a signal handler (also one that
raises, as that of Ctrl-C does) and a fork come before it or after it, and nothing ever waits. Only code that the collector runs within that step, a __del__,
can find the loader in use: then a second use is a RuntimeError, and `report` and `kept` are those from before the step.

Text is bytes, a bytearray or a memoryview, and nothing else. An `out` is any object that lends writable memory in one run: a bytearray, a memoryview of one, an
array.array, an mmap.
"""
import ctypes
import ctypes.util
import enum
import itertools
import operator
import os
import sys
from ctypes import POINTER, Structure, c_bool, c_char_p, c_size_t, c_uint8, c_uint32, c_uint64
from typing import NamedTuple, Optional

__all__ = [
    "Table", "Loader", "Report", "Decision", "NewObject", "Mapping", "Record", "Set", "Refusal", "Refused", "Impossible",
    "lowest_in_run", "lowest_of", "record_to_line", "line_to_record", "LIBRARY",
    "VERSION_MAJOR", "VERSION_MINOR", "LABELS", "ENTRIES", "WORDS", "LINE", "LONGEST_LABEL", "LONGEST_RULE", "FIXED_RECORD", "FIXED_PLACE", "FIXED_LABEL",
    "LONGEST_FIXED_LINE", "LONGEST_MAPPING", "HIGHEST_CATEGORY", "OWN_LEVEL", "LONGEST_OWN_LABEL", "LONGEST_OPTION", "LONGEST_OPTION_READ",
]

# The sizes and numbers of the header, under its names without BQ_.
VERSION_MAJOR, VERSION_MINOR = 5, 1
LABELS, ENTRIES, WORDS, LINE = 16384, 840, 100, 600
LONGEST_LABEL = 255
LONGEST_RULE = 2 * LONGEST_LABEL + 2 + 5 + 1
FIXED_RECORD, FIXED_PLACE, FIXED_LABEL = 53, 24, 23
LONGEST_FIXED_LINE = 2 * FIXED_LABEL + 2 + 5 + 1
LONGEST_MAPPING = 1000
HIGHEST_CATEGORY = 184
OWN_LEVEL, LONGEST_OWN_LABEL, LONGEST_OPTION, LONGEST_OPTION_READ = 250, 23, 34, 40

# The kinds of an answer.
_MAPPED, _UNMAPPED, _LOOKUP_REFUSED = 0, 1, 2
_LABEL, _NO_LABEL, _SEARCH_REFUSED = 0, 1, 2
_GRANTED, _DENIED, _OVERRIDE, _REFUSED = 0, 1, 2, 3
_CREATOR_LABEL, _CREATION_DENIED, _FOLDER_LABEL, _CREATION_REFUSED = 0, 1, 2, 3


# ---- the header's structs, in its order, under its names with _ in front

class _bq_set(Structure):
    _fields_ = [("word", c_uint64 * 3)]


class _bq_report(Structure):
    _fields_ = [("lines", c_uint32), ("accepted", c_uint32), ("skipped", c_uint32), ("refused", c_uint32), ("first", c_uint32), ("reason", c_uint8),
                ("place", c_size_t), ("bringup", c_uint32)]


class _bq_loader(Structure):
    _fields_ = [("kept", c_size_t), ("report", _bq_report)]


class _bq_record(Structure):
    _fields_ = [("label", c_uint64), ("level", c_uint64), ("set", _bq_set)]


class _bq_written(Structure):
    _fields_ = [("refused", c_bool), ("number", c_uint8), ("place", c_size_t)]


class _bq_counted(Structure):
    _fields_ = [("refused", c_bool), ("number", c_uint8), ("count", c_size_t), ("place", c_size_t)]


class _bq_taken(Structure):
    _fields_ = [("refused", c_bool), ("number", c_uint8), ("loader", _bq_loader)]


class _bq_finished(Structure):
    _fields_ = [("refused", c_bool), ("number", c_uint8), ("report", _bq_report), ("loader", _bq_loader)]


class _bq_length(Structure):
    _fields_ = [("refused", c_bool), ("number", c_uint8), ("length", c_size_t)]


class _bq_mapped(Structure):
    _fields_ = [("kind", c_uint8), ("number", c_uint8), ("level", c_uint8), ("count", c_uint32), ("set", _bq_set), ("place", c_size_t)]


class _bq_lowest(Structure):
    _fields_ = [("kind", c_uint8), ("number", c_uint8), ("label", c_size_t)]


class _bq_decision(Structure):
    _fields_ = [("kind", c_uint8), ("number", c_uint8), ("place", c_size_t)]


class _bq_labelled(Structure):
    _fields_ = [("kind", c_uint8), ("number", c_uint8), ("transmutes", c_bool)]


class _bq_part(Structure):
    _fields_ = [("refused", c_bool), ("number", c_uint8), ("start", c_size_t), ("length", c_size_t)]


class _bq_peer(Structure):
    _fields_ = [("refused", c_bool), ("number", c_uint8), ("length", c_size_t), ("bytes", c_uint8 * LONGEST_LABEL)]


# ---- the header's functions: what each answers, and what it takes. Memory that a call may write is a POINTER; _TEXT is bytes, which no call writes.

_TABLE = (POINTER(c_uint8), c_size_t, POINTER(c_uint8), c_size_t, POINTER(c_uint64), c_size_t)
_BUFFER = (POINTER(c_uint8), c_size_t)
_NUMBERS = (POINTER(c_uint64), c_size_t)
_TEXT = (c_char_p, c_size_t)

_FUNCTIONS = {
    "bq_fresh_table": (_bq_written, *_TABLE),
    "bq_fresh_loader": (_bq_loader,),
    "bq_piece": (_bq_taken, *_TABLE, *_BUFFER, _bq_loader, *_TEXT),
    "bq_end": (_bq_finished, *_TABLE, *_BUFFER, _bq_loader),
    "bq_change": (_bq_written, *_TABLE, *_TEXT),
    "bq_revoke": (_bq_counted, *_TABLE, *_TEXT),
    "bq_onlycap": (_bq_written, *_TABLE, *_TEXT),
    "bq_mapping": (_bq_written, *_TABLE, *_TEXT),
    "bq_by_label": (_bq_mapped, *_TABLE, *_TEXT),
    "bq_by_level": (_bq_lowest, *_TABLE, c_uint64, _bq_set),
    "bq_lowest_in_run": (_bq_lowest, POINTER(_bq_record), c_size_t, c_uint64, _bq_set),
    "bq_lowest_of": (_bq_lowest, *_NUMBERS, *_NUMBERS, *_NUMBERS, c_uint64, _bq_set),
    "bq_question": (_bq_decision, *_TABLE, *_TEXT, *_TEXT, *_TEXT, c_bool),
    "bq_new_object": (_bq_labelled, *_TABLE, *_TEXT, *_TEXT, c_bool, c_bool),
    "bq_list_rule": (_bq_length, *_TABLE, c_size_t, *_BUFFER),
    "bq_label": (_bq_part, *_TABLE, c_size_t),
    "bq_label_check": (_bq_written, *_TABLE, c_size_t),
    "bq_record_to_line": (_bq_length, *_TEXT, *_BUFFER),
    "bq_line_to_record": (_bq_length, *_TEXT, *_BUFFER),
    "bq_write_option": (_bq_length, *_TABLE, *_TEXT, *_BUFFER),
    "bq_read_option": (_bq_peer, *_TABLE, *_TEXT),
}

_SONAME = f"libbalqirven.so.{VERSION_MAJOR}"


def _find():
    """The shared library's file, or the name that the system's loader knows it by: the first that is there, of

    1. the file that the environment variable BALQIRVEN_LIBRARY names; where it is set, nothing else is tried;
    2. libbalqirven.so.5 in this module's own folder, and in the folder lib of the two folders above it, as PREFIX/lib of PREFIX/lib/python;
    3. what ctypes.util.find_library finds, where that is libbalqirven.so.5.
    """
    named = os.environ.get("BALQIRVEN_LIBRARY")
    if named:
        return os.path.abspath(named)
    here = os.path.dirname(os.path.realpath(__file__))
    above = os.path.dirname(here)
    folders = here, os.path.join(above, "lib"), os.path.join(os.path.dirname(above), "lib")
    tried = [os.path.join(folder, _SONAME) for folder in folders]
    for path in tried:
        if os.path.exists(path):
            return path
    found = ctypes.util.find_library("balqirven")
    if found == _SONAME:
        return found
    raise ImportError(f"{_SONAME} is not there: BALQIRVEN_LIBRARY is not set; no {', no '.join(tried)}; ctypes.util.find_library found {found or 'none'}")


def _load(path):
    """The library with all its functions declared."""
    if not getattr(sys, "_is_gil_enabled", lambda: True)():
        raise ImportError("this Python runs without its interpreter lock, so other threads could write a table during a call: start it with PYTHON_GIL=1")
    try:
        library = ctypes.PyDLL(path)
        for name, (answer, *taken) in _FUNCTIONS.items():
            function = getattr(library, name)
            function.restype, function.argtypes = answer, taken
    except (OSError, AttributeError) as error:
        raise ImportError(f"{path} is not libbalqirven {VERSION_MAJOR}.{VERSION_MINOR} or cannot be loaded: {error}") from error
    return library


LIBRARY = _find()  # which one it is
_library = _load(LIBRARY)


# ---- refusals

class Refusal(enum.IntEnum):
    """Why a call, or a line of rule text, was refused: the header's numbers. 20 is none of them. `sentence` says it to a person.

    >>> Refusal(5)
    <Refusal.SAME_LABELS: 5>
    >>> Refusal.SAME_LABELS.sentence
    'subject and object are the same label'
    """
    DAMAGED = 0, "the state in memory is damaged"
    TOO_LONG = 1, "it is too long: a line or a write has at most 600 bytes, a mapping 1,000"
    WRONG_FIELDS = 2, "the number of fields is wrong: a line has 3, a change 4, a mapping 2 or more, an override list 1 or more"
    BAD_LABEL = 3, "a label is not well formed"
    BAD_ACCESS = 4, "an access byte is not allowed where it stands"
    SAME_LABELS = 5, "subject and object are the same label"
    LABELS_FULL = 6, "the table has no room for the new labels"
    RULES_FULL = 7, "the table has no room for one more rule"
    BAD_REQUEST = 8, "the request is empty or has something else than the letters r, w, x and a"
    BAD_LEVEL_OR_CATEGORY = 9, \
        "a level or a category is wrong: levels are 0 to 255 (in a mapping not 250), categories 1 to 184; in a write each has 1 to 3 digits"
    MAPPINGS_FULL = 10, "the table has no room for one more mapping"
    TOO_MANY_OVERRIDES = 11, "the override list has over 8 different labels"
    OUTPUT_TOO_SHORT = 12, "the buffer that was lent for the output is too short"
    NO_SUCH_NUMBER = 13, "the rules, or the labels, end before that number"
    BAD_RECORD = 14, "it does not have 53 bytes, or a label place is all spaces, has another byte after a space or does not end in a space"
    NOT_IN_A_RECORD = 15, "a label has over 23 bytes; no old record holds that, and a label is never cut"
    BAD_OPTION = 16, "it is not laid out as one packet option with one tag of type 1 and nothing behind it"
    OTHER_DOI = 17, "it has another DOI than 3"
    BAD_OPTION_CATEGORY = 18, "it has category 0 or one above 184"
    NOT_IN_AN_OPTION = 19, "a label without a mapping has over 23 bytes; no packet option holds that, and a label is never cut"
    NO_SUCH_MAPPING = 21, "no label has a mapping with its level and categories"

    def __new__(cls, number, sentence):
        member = int.__new__(cls, number)
        member._value_ = number
        member.sentence = sentence
        return member


class Refused(Exception):
    """A call was refused, and changed nothing. `refusal` says why. `place` is where the first bad byte of the first bad label stands, from 0: in a write of
    fields (change, override_list, mapping) counted from the first byte of the write, blanks too; where the label itself is given (revoke, by_label) from the
    label's first byte; in a question from the first byte of the subject or, where that is well formed, of the object. It is None beside every refusal but
    BAD_LABEL, and in the calls that tell no place: new_object, write_option, read_option, record_to_line and line_to_record.

    >>> try:
    ...     Table.fresh().change(b"Alarm Archive/2026 r -")
    ... except Refused as refused:
    ...     print(refused)
    ...     print(repr(refused.refusal), refused.place)
    refused 3: a label is not well formed, at byte 14 counted from 1
    <Refusal.BAD_LABEL: 3> 13
    """

    def __init__(self, refusal, place=None):
        super().__init__(refusal, place)
        self.refusal, self.place = Refusal(refusal), place

    def __str__(self):
        at = "" if self.place is None else f", at byte {self.place + 1} counted from 1"
        return f"refused {int(self.refusal)}: {self.refusal.sentence}{at}"


class Impossible(AssertionError):
    """The library answered something that its header does not have, so there is no answer. It is damaged, or another library than it should be.

    >>> raise Impossible("bq_question answered kind 9")
    Traceback (most recent call last):
    ...
    balqirven.Impossible: bq_question answered kind 9
    """


def _refusal(number):
    """The refusal of a number that the library gave."""
    try:
        return Refusal(number)
    except ValueError:
        raise Impossible(f"the library gave refusal {number}") from None


def _refused(answer):
    """The exception for an answer that is a refusal. Only the answers with a field `place` tell one, and only beside 3."""
    refusal = _refusal(answer.number)
    return Refused(refusal, answer.place if refusal is Refusal.BAD_LABEL and hasattr(answer, "place") else None)


def _done(answer):
    """The answer, where it is no refusal."""
    if answer.refused:
        raise _refused(answer)
    return answer


def _found(answer):
    """What a look-up by level and set found: a label number or None."""
    if answer.kind == _SEARCH_REFUSED:
        raise _refused(answer)
    if answer.kind not in (_LABEL, _NO_LABEL):
        raise Impossible(f"a look-up by level and set answered kind {answer.kind}")
    return answer.label if answer.kind == _LABEL else None


# ---- what a caller gives

def _bytes(value, name):
    """Text as a bytes object, which nobody can write. Anything else than one is copied, so that it overlaps nothing."""
    if type(value) is bytes:
        return value
    if isinstance(value, (bytes, bytearray, memoryview)):
        return memoryview(value).tobytes()
    if isinstance(value, str):
        raise TypeError(f"{name} is a str, and text is bytes here: write b'...', or encode it, as in text.encode('ascii')")
    raise TypeError(f"{name} is not bytes, a bytearray or a memoryview but {type(value).__name__}")


def _text(value, name):
    """Text as a call takes it: the bytes and their number. The pointer to an empty bytes object is not NULL."""
    text = _bytes(value, name)
    return text, len(text)


def _index(value, name):
    """An integer. True and False are none here: where one is given, an argument stands in the wrong place."""
    if isinstance(value, bool):
        raise TypeError(f"{name} is {value}, and not a number")
    return operator.index(value)


def _number(value, name):
    """A number that C holds in 64 bits without a sign. ctypes would cut any other to such a one."""
    number = _index(value, name)
    if not 0 <= number < 1 << 64:
        raise ValueError(f"{name} is {number}, and not 0 to {(1 << 64) - 1}")
    return number


def _flag(value, name):
    if not isinstance(value, bool):
        raise TypeError(f"{name} is not True or False but {value!r}")
    return value


def _of(kind, value, name):
    if not isinstance(value, kind):
        raise TypeError(f"{name} is not a {kind.__name__} but {type(value).__name__}")
    return value


def _numbers(values, name):
    """Numbers as a call takes them: an array and its length. Its memory is there also where the length is 0."""
    numbers = [_number(value, name) for value in values]
    return (c_uint64 * max(len(numbers), 1))(*numbers), len(numbers)


def _lend(out, parts):
    """A caller's buffer as a call takes it, for as long as the array lives: the array and its length."""
    with memoryview(out) as view:
        if isinstance(view.obj, _CTYPES_MEMORY):
            raise ValueError("out is memory of ctypes, as a table's and a loader's is: lend a bytearray")
        if view.readonly or not view.c_contiguous:
            raise TypeError("out cannot be written, or does not lie in one run: lend a bytearray")
        size = view.nbytes
    if size == 0:
        return (c_uint8 * 1)(), 0
    array = (c_uint8 * size).from_buffer(out)
    start = ctypes.addressof(array)
    for part in parts:
        if start < ctypes.addressof(part) + ctypes.sizeof(part) and ctypes.addressof(part) < start + size:
            raise ValueError("out overlaps the table: lend a bytearray")
    return array, size


_CTYPES_MEMORY = ctypes.Array.__base__  # the type of everything that ctypes makes


def _output(call, before, longest, out, parts=()):
    """Calls with an output behind the arguments `before`. Without `out` it is one of the longest size, and its text is returned; with it, the length."""
    array, size = (c_uint8 * longest)(), longest
    if out is not None:
        array, size = _lend(out, parts)
    try:
        length = _done(call(*before, array, size)).length
        if length > size:
            raise Impossible(f"the library wrote {length} bytes to an output of {size}")
        return ctypes.string_at(array, length) if out is None else length
    finally:
        del array  # where the call is refused, the traceback would keep it, and out could not be resized


# ---- sets, records, and what calls answer

class Set:
    """A set of categories, made of numbers from 1 to 184. It does not change. Iterating gives its categories, lowest first.

    >>> Set(63, 1, 1)
    Set(1, 63)
    >>> 63 in Set(1, 63), 2 in Set(1, 63), len(Set(1, 63)), list(Set(1, 63))
    (True, False, 2, [1, 63])
    >>> Set(185)
    Traceback (most recent call last):
    ...
    ValueError: 185 is no category: they are 1 to 184
    """
    __slots__ = ("_words",)

    def __init__(self, *categories):
        words = [0, 0, 0]
        for category in categories:
            category = _index(category, "a category")
            if not 1 <= category <= HIGHEST_CATEGORY:
                raise ValueError(f"{category} is no category: they are 1 to {HIGHEST_CATEGORY}")
            words[(category - 1) // 64] |= 1 << 63 - (category - 1) % 64
        self._words = tuple(words)

    @classmethod
    def from_words(cls, first, second, third):
        """The set of any three words. Category 1 is the top bit of the first. The eight lowest bits of the third are no categories, and a call that is to
        find a set with one of them is refused.

        >>> Set.from_words(1 << 63 | 2, 0, 0x100)
        Set(1, 63, 184)
        >>> Set.from_words(0, 0, 1)
        Set.from_words(0x0, 0x0, 0x1)
        >>> Table.fresh().by_level(9, Set.from_words(0, 0, 1))  # doctest: +ELLIPSIS
        Traceback (most recent call last):
        ...
        balqirven.Refused: refused 9: a level or a category is wrong: levels are 0 to 255 (in a mapping not 250), categories 1 to 184; ...
        """
        made = cls()
        made._words = tuple(_number(word, "a word of a set") for word in (first, second, third))
        return made

    @property
    def words(self):
        """Its three words.

        >>> Set(64, 184).words
        (1, 0, 256)
        """
        return self._words

    def __iter__(self):
        return (n for n in range(1, HIGHEST_CATEGORY + 1) if self._words[(n - 1) // 64] >> 63 - (n - 1) % 64 & 1)

    def __contains__(self, category):
        return any(category == n for n in self)

    def __len__(self):
        return sum(1 for _ in self)

    def __eq__(self, other):
        return self._words == other._words if isinstance(other, Set) else NotImplemented

    def __hash__(self):
        return hash(self._words)

    def __repr__(self):
        if self._words[2] & 0xFF:
            return "Set.from_words({:#x}, {:#x}, {:#x})".format(*self._words)
        return f"Set({', '.join(map(str, self))})"

    def _lent(self):
        return _bq_set((c_uint64 * 3)(*self._words))


class Record(NamedTuple):
    """A record of a run, for lowest_in_run: a label number, a level and a set, of any content.

    >>> Record(7, 9, Set(1))
    Record(label=7, level=9, set=Set(1))
    """
    label: int
    level: int
    set: Set


class Mapping(NamedTuple):
    """The mapping of a label: its level, its set, and how many categories are in the set.

    >>> table = Table.fresh()
    >>> table.mapping(b"Archive 9 1 63")
    >>> table.by_label(b"Archive")
    Mapping(level=9, set=Set(1, 63), count=2)
    """
    level: int
    set: Set
    count: int


class Decision(NamedTuple):
    """What a question answers: `kind` is 'granted', 'denied' or 'override', which is granted by override; `rule` is the number of the rule that granted or
    denied or, beside 'override', would have denied. A decision is true where access is granted, also by override.

    >>> granted, denied = Decision("granted", 6), Decision("denied", 7)
    >>> bool(granted), bool(Decision("override", 7)), bool(denied)
    (True, True, False)
    """
    kind: str
    rule: int

    def __bool__(self):
        return self.kind != "denied"


class NewObject(NamedTuple):
    """Which label a new object gets: `kind` is 'creator', 'folder' or 'denied', `label` that label's bytes (None where denied), `transmutes` whether the new
    object transmutes. It is true where the object may be made.

    >>> made = Table.fresh().new_object(b"Alarm", b"Alarm", folder_transmutes=False, is_folder=False)
    >>> made, bool(made)
    (NewObject(kind='creator', label=b'Alarm', transmutes=False), True)
    """
    kind: str
    label: Optional[bytes]
    transmutes: bool

    def __bool__(self):
        return self.kind != "denied"


class Report(NamedTuple):
    """What became of the lines of a rule text: how many were read, accepted, skipped and refused; the number (from 1) and the reason of the first refused
    line, None where none is; the place of its first bad byte, from 0, where the reason is BAD_LABEL, otherwise None; and how many accepted lines held b, the
    retired letter, which was dropped. Each number is the true one or 4294967295, whichever is smaller.

    >>> table, loader = Table.fresh(), Loader()
    >>> loader.piece(table, b"Alarm Air_1 rb\\n\\nAlarm Archive/2026 r\\n")
    >>> loader.end(table)
    Report(lines=3, accepted=1, skipped=1, refused=1, first=3, reason=<Refusal.BAD_LABEL: 3>, place=13, bringup=1)
    """
    lines: int
    accepted: int
    skipped: int
    refused: int
    first: Optional[int]
    reason: Optional[Refusal]
    place: Optional[int]
    bringup: int


def _report(c):
    reason = _refusal(c.reason) if c.refused else None
    place = c.place if reason is Refusal.BAD_LABEL else None
    return Report(c.lines, c.accepted, c.skipped, c.refused, c.first if c.refused else None, reason, place, c.bringup)


# ---- the table

class _Parts(Structure):
    """The three parts as one piece of memory, which can be copied in one step."""
    _fields_ = [("words", c_uint64 * WORDS), ("labels", c_uint8 * LABELS), ("entries", c_uint8 * ENTRIES)]


class Table:
    """Labels, rules, mappings and the override list, in three parts of memory that the table owns. A new one is fresh. A copy, by copy.copy or
    copy.deepcopy, is a table of its own with the same parts; so is what pickle reads.

    >>> table = Table()
    >>> table.change(b"Alarm Archive r -")
    >>> table.rules(), table.label(5)
    ([b'Alarm Archive r\\n'], b'Alarm')
    """
    __slots__ = ("_parts", "_labels", "_entries", "_words", "_lent", "__weakref__")

    def __init__(self):
        self._own(_Parts())
        self.make_fresh()

    def _own(self, parts):
        self._parts, self._labels, self._entries, self._words = parts, parts.labels, parts.entries, parts.words
        self._lent = self._labels, LABELS, self._entries, ENTRIES, self._words, WORDS

    def _at_once(self):
        """A copy, made in one step, for what takes more than one: nobody else has it."""
        copied = Table.__new__(Table)
        copied._own(_Parts.from_buffer_copy(self._parts))
        return copied

    def __getstate__(self):
        return self.parts(), getattr(self, "__dict__", None)

    def __setstate__(self, state):
        parts, more = state
        self._own(_Parts())
        self._fill(*parts)
        if more:
            self.__dict__.update(more)

    @classmethod
    def fresh(cls):
        """A fresh table: the labels _ ^ * ? @ alone. Of a subclass it is one of the subclass.

        >>> Table.fresh().stored_labels()
        [b'_', b'^', b'*', b'?', b'@']
        """
        return cls()

    def make_fresh(self):
        """Makes this table a fresh one again, also where it is damaged. Bytes that no entry holds stay as they were.

        Refusals: none.

        >>> table = Table.fresh()
        >>> table.words[1] = 257
        >>> table.make_fresh()
        >>> table.words[1]
        0
        """
        _done(_library.bq_fresh_table(*self._lent))

    # -- its memory

    @classmethod
    def from_parts(cls, labels, entries, words):
        """A table with these contents, which are copied: 16,384, 840 and 800 bytes. They may be damaged: then every call but make_fresh is refused with 0. Of a
        subclass it is one of the subclass. (Views of a table that another thread writes are copied one after another: take copy.copy, or its parts().)

        >>> table = Table.fresh()
        >>> table.change(b"Alarm Archive r -")
        >>> Table.from_parts(*table.parts()).rules()
        [b'Alarm Archive r\\n']
        >>> Table.from_parts(b"", b"", b"")
        Traceback (most recent call last):
        ...
        ValueError: labels has 0 bytes, and not 16384
        """
        made = cls()
        made._fill(labels, entries, words)
        return made

    def _fill(self, labels, entries, words):
        for name, value, part in ("labels", labels, self._labels), ("entries", entries, self._entries), ("words", words, self._words):
            content = _bytes(value, name)
            if len(content) != ctypes.sizeof(part):
                raise ValueError(f"{name} has {len(content)} bytes, and not {ctypes.sizeof(part)}")
            memoryview(part).cast("B")[:] = content

    def parts(self):
        """Copies of the three parts, of one moment: labels, entries and words, as bytes.

        >>> [len(part) for part in Table.fresh().parts()]
        [16384, 840, 800]
        """
        copied = _Parts.from_buffer_copy(self._parts)
        return bytes(copied.labels), bytes(copied.entries), bytes(copied.words)

    @property
    def labels(self):
        """The first part, as a memoryview of 16,384 bytes that can be written: so a bench can damage a table.

        >>> Table.fresh().labels[0:2].tobytes()
        b'\\x01_'
        """
        return memoryview(self._labels).cast("B")

    @property
    def entries(self):
        """The second part, as a memoryview of 840 bytes that can be written.

        >>> len(Table.fresh().entries)
        840
        """
        return memoryview(self._entries).cast("B")

    @property
    def words(self):
        """The third part, as a memoryview of 100 64-bit words that can be written.

        >>> table = Table.fresh()
        >>> table.words[1] = 257
        >>> table.change(b"Alarm Archive r -")
        Traceback (most recent call last):
        ...
        balqirven.Refused: refused 0: the state in memory is damaged
        >>> table.words[1] = -1
        Traceback (most recent call last):
        ...
        ValueError: memoryview: invalid value for format 'Q'
        """
        return memoryview(self._words).cast("B").cast("Q")

    # -- single writes

    def change(self, text):
        """Changes a rule: subject, object, modes to allow, modes to deny. Letters are r w x a t and the dash, either case.

        Refusals: 0 1 2 3 4 5 6 7.

        >>> table = Table.fresh()
        >>> table.change(b"Alarm Archive rw -")
        >>> table.change(b"Alarm Archive a w")
        >>> table.list_rule(0)
        b'Alarm Archive ra\\n'
        """
        _done(_library.bq_change(*self._lent, *_text(text, "text")))

    def revoke(self, label):
        """Takes all modes from each rule with this subject, and answers how many rules that are.

        Refusals: 0 1 3.

        >>> table = Table.fresh()
        >>> table.change(b"Alarm Archive r -")
        >>> table.revoke(b"Alarm"), table.revoke(b"Unknown")
        (1, 0)
        >>> table.list_rule(0)
        b'Alarm Archive -\\n'
        >>> table.revoke(b"Alarm ")
        Traceback (most recent call last):
        ...
        balqirven.Refused: refused 3: a label is not well formed, at byte 6 counted from 1
        """
        return _done(_library.bq_revoke(*self._lent, *_text(label, "label"))).count

    def override_list(self, text):
        """Sets the override list (onlycap) to 1 to 8 labels, or clears it by a lone dash.

        Refusals: 0 1 2 3 11 6.

        >>> table = Table.fresh()
        >>> table.override_list(b"Desk Alarm")
        >>> table.override_list(b"-")
        """
        _done(_library.bq_onlycap(*self._lent, *_text(text, "text")))

    def mapping(self, text):
        """Maps a label (CIPSO): label, level, no or more categories.

        Refusals: 0 1 2 3 9 6 10.

        >>> table = Table.fresh()
        >>> table.mapping(b"Archive 9 1 63")
        """
        _done(_library.bq_mapping(*self._lent, *_text(text, "text")))

    # -- look-ups of mappings

    def by_label(self, label):
        """The Mapping of a label, or None where it has none.

        Refusals: 0 3.

        >>> table = Table.fresh()
        >>> table.mapping(b"Archive 9 1 63")
        >>> table.by_label(b"Archive")
        Mapping(level=9, set=Set(1, 63), count=2)
        >>> print(table.by_label(b"Desk"))
        None
        """
        answer = _library.bq_by_label(*self._lent, *_text(label, "label"))
        if answer.kind == _LOOKUP_REFUSED:
            raise _refused(answer)
        if answer.kind not in (_MAPPED, _UNMAPPED):
            raise Impossible(f"a look-up by label answered kind {answer.kind}")
        return Mapping(answer.level, Set.from_words(*answer.set.word), answer.count) if answer.kind == _MAPPED else None

    def by_level(self, level, set):
        """The lowest number of a label that is mapped to this level and this set, or None. Number 0 is a label's too: compare with None.

        Refusals: 0 9.

        >>> table = Table.fresh()
        >>> table.mapping(b"Archive 9 1 63")
        >>> table.by_level(9, Set(1, 63)), table.by_level(9, Set(1))
        (5, None)
        """
        return _found(_library.bq_by_level(*self._lent, _number(level, "level"), _of(Set, set, "set")._lent()))

    # -- questions

    def question(self, subject, object, request, *, capable=False):
        """May subject have to object the access that request asks for, one or more of r w x a, either case? `capable`: the asker has the override capability.
        The place beside 3 is in the subject or, where that is well formed, in the object.

        Refusals: 0 3 8.

        >>> table = Table.fresh()
        >>> table.change(b"Alarm Archive r -")
        >>> table.question(b"Alarm", b"Archive", b"r")
        Decision(kind='granted', rule=6)
        >>> table.question(b"Alarm", b"Archive", b"w")
        Decision(kind='denied', rule=7)
        >>> table.question(b"Alarm", b"Archive", b"w", capable=True)
        Decision(kind='override', rule=7)
        """
        asked = *_text(subject, "subject"), *_text(object, "object"), *_text(request, "request")
        answer = _library.bq_question(*self._lent, *asked, _flag(capable, "capable"))
        if answer.kind == _REFUSED:
            raise _refused(answer)
        kind, rules = {_GRANTED: ("granted", range(2, 7)), _DENIED: ("denied", (1, 7)), _OVERRIDE: ("override", (1, 7))}.get(answer.kind, ("", ()))
        if answer.number not in rules:
            raise Impossible(f"a question was answered with kind {answer.kind} and rule {answer.number}")
        return Decision(kind, answer.number)

    def new_object(self, creator, folder, *, folder_transmutes, is_folder):
        """Which label does an object get that a process with the label `creator` makes in a folder with the label `folder`? Override is not considered.
        No place is told.

        Refusals: 0 3.

        >>> table = Table.fresh()
        >>> table.change(b"Alarm Records wt -")
        >>> table.new_object(b"Alarm", b"Records", folder_transmutes=True, is_folder=True)
        NewObject(kind='folder', label=b'Records', transmutes=True)
        >>> table.new_object(b"Alarm", b"Records", folder_transmutes=False, is_folder=True)
        NewObject(kind='creator', label=b'Alarm', transmutes=False)
        >>> table.new_object(b"Desk", b"Records", folder_transmutes=True, is_folder=True)
        NewObject(kind='denied', label=None, transmutes=False)
        """
        creator, folder = _bytes(creator, "creator"), _bytes(folder, "folder")
        flags = _flag(folder_transmutes, "folder_transmutes"), _flag(is_folder, "is_folder")
        answer = _library.bq_new_object(*self._lent, creator, len(creator), folder, len(folder), *flags)
        if answer.kind == _CREATION_REFUSED:
            raise _refused(answer)
        named = {_CREATOR_LABEL: ("creator", creator), _FOLDER_LABEL: ("folder", folder), _CREATION_DENIED: ("denied", None)}
        if answer.kind not in named:
            raise Impossible(f"a new object was answered with kind {answer.kind}")
        return NewObject(*named[answer.kind], answer.transmutes)

    # -- listing

    def list_rule(self, k, out=None):
        """Rule k, from 0, as a line with its newline. It is returned; or, where a writable buffer `out` is lent, written to its front, and its length is
        returned. The rest of `out` stays.

        Refusals: 0 13 12.

        >>> table = Table.fresh()
        >>> table.change(b"Alarm Archive r -")
        >>> table.list_rule(0)
        b'Alarm Archive r\\n'
        >>> out = bytearray(b"." * 20)
        >>> table.list_rule(0, out), out
        (16, bytearray(b'Alarm Archive r\\n....'))
        >>> table.list_rule(0, bytearray(15))
        Traceback (most recent call last):
        ...
        balqirven.Refused: refused 12: the buffer that was lent for the output is too short
        """
        return _output(_library.bq_list_rule, (*self._lent, _number(k, "k")), LONGEST_RULE, out, (self._labels, self._entries, self._words))

    def label(self, k):
        """Label k, from 0.

        Refusals: 0 13.

        >>> Table.fresh().label(4)
        b'@'
        >>> Table.fresh().label(5)
        Traceback (most recent call last):
        ...
        balqirven.Refused: refused 13: the rules, or the labels, end before that number
        """
        copied = self._at_once()  # so where the label stands and its bytes are of one moment
        answer = _done(_library.bq_label(*copied._lent, _number(k, "k")))
        if answer.start + answer.length > LABELS:
            raise Impossible(f"label {k} was said to stand at {answer.start} and to have {answer.length} bytes")
        return copied.labels[answer.start:answer.start + answer.length].tobytes()

    def label_check(self, k):
        """Refused where label(k) is, and nothing else.

        Refusals: 0 13.

        >>> Table.fresh().label_check(4)
        """
        _done(_library.bq_label_check(*self._lent, _number(k, "k")))

    def rules(self):
        """Every rule, as list_rule gives it: a list, of one moment.

        Refusals: 0.

        >>> table = Table.fresh()
        >>> table.change(b"Alarm Archive r -")
        >>> table.rules()
        [b'Alarm Archive r\\n']
        """
        return _each(self._at_once().list_rule)

    def stored_labels(self):
        """Every label, as label gives it: a list, of one moment.

        Refusals: 0.

        >>> b"".join(Table.fresh().stored_labels())
        b'_^*?@'
        """
        return _each(self._at_once().label)

    # -- the packet option

    def write_option(self, label, out=None):
        """The packet option of a label; `out` is as in list_rule. No place is told.

        Refusals: 0 3 19 12.

        >>> list(Table.fresh().write_option(b"A"))
        [134, 12, 0, 0, 0, 3, 1, 6, 0, 250, 32, 128]
        """
        before = *self._lent, *_text(label, "label")
        return _output(_library.bq_write_option, before, LONGEST_OPTION, out, (self._labels, self._entries, self._words))

    def read_option(self, option):
        """The label that a packet option says. `option` is the one option and nothing else. No place is told.

        Refusals: 0 16 17 18 3 21.

        >>> Table.fresh().read_option(bytes([134, 12, 0, 0, 0, 3, 1, 6, 0, 250, 32, 128]))
        b'A'
        """
        answer = _done(_library.bq_read_option(*self._lent, *_text(option, "option")))
        if answer.length > LONGEST_LABEL:
            raise Impossible(f"a packet option was said to have a label of {answer.length} bytes")
        return bytes(answer.bytes[:answer.length])


def _each(call):
    """What a call answers for 0, 1 and so on, up to the first number that is none."""
    answers = []
    while True:
        try:
            answers.append(call(len(answers)))
        except Refused as refused:
            if refused.refusal is Refusal.NO_SUCH_NUMBER:
                return answers
            raise


# ---- rule text

_STATE, _REPORT = operator.attrgetter("loader"), operator.attrgetter("report")


class Loader:
    """Takes a rule text in pieces, cut anywhere. It owns the line under way. A copy, by copy.copy or copy.deepcopy, is a loader of its own that stands where
    this one does; so is what pickle reads.

    >>> table, loader = Table.fresh(), Loader()
    >>> loader.piece(table, b"Alarm Air_1 r\\nAlarm A")
    >>> loader.report.lines, loader.kept, loader.line[:loader.kept].tobytes()
    (1, 7, b'Alarm A')
    >>> loader.piece(table, b"ir_2 r")
    >>> loader.end(table).accepted
    2
    """
    __slots__ = ("_line", "_state", "_mark", "__weakref__")

    def __init__(self):
        self._own(_library.bq_fresh_loader())

    def _own(self, state):
        # The state is never changed, but replaced by another: so whoever reads it has it whole. The mark is one item, which is out while the loader is in use.
        self._line, self._state, self._mark = (c_uint8 * LINE)(), state, [True]

    def _alone(self, *steps):
        """Takes the mark, one item of each of these iterators, one after another, and gives the mark back. That is one step of the interpreter: zip, map,
        repeat and tee are C and run no code of Python, so no other thread and no signal handler runs before `next` is over. Only the collector can begin
        within it, where it runs a __del__: that finds no mark. (Where memory runs out within the step, the mark does not come back.)"""
        try:
            return next(zip(map(self._mark.pop, (0,)), *steps, map(self._mark.append, (True,))))[1:-1]
        except IndexError:
            raise RuntimeError("this loader is in use: a call of it is under way, or was broken off (then make a new loader)") from None

    def _now(self):
        """Gives the state, as it is when it is asked for."""
        return map(getattr, (self,), ("_state",))

    def _store(self, states):
        """Stores the state that it is given, when it is asked to."""
        return map(setattr, (self,), ("_state",), states)

    def _call(self, function, table, *text):
        """One call: from the state now to the answer's state."""
        before = map(itertools.repeat, (*_of(Table, table, "table")._lent, self._line, LINE))
        answers, again = itertools.tee(map(function, *before, self._now(), *map(itertools.repeat, text)))
        self._alone(self._store(map(_STATE, answers)))
        return _done(next(again))

    def __getstate__(self):
        return *self._alone(map(bytes, (self._line,)), map(bytes, self._now())), getattr(self, "__dict__", None)

    def __setstate__(self, state):
        line, numbers, more = state
        if len(line) != LINE or len(numbers) != ctypes.sizeof(_bq_loader):
            raise ValueError("this is no loader's line and state")
        self._own(_bq_loader.from_buffer_copy(numbers))
        self.line[:] = line
        if more:
            self.__dict__.update(more)

    def piece(self, table, text):
        """Takes a piece of rule text. A line that is refused enters the report, and the piece is done all the same.

        Refusals: 0.

        >>> table, loader = Table.fresh(), Loader()
        >>> loader.piece(table, b"Alarm Archive r\\n")
        """
        self._call(_library.bq_piece, table, *_text(text, "text"))

    def end(self, table):
        """Ends the text: bytes after the last newline are one more line. Answers the Report; the loader is fresh again.

        Refusals: 0.

        >>> table, loader = Table.fresh(), Loader()
        >>> loader.piece(table, b"Alarm Archive")
        >>> loader.end(table)
        Report(lines=1, accepted=0, skipped=0, refused=1, first=1, reason=<Refusal.WRONG_FIELDS: 2>, place=None, bringup=0)
        >>> loader.report.lines
        0
        """
        return _report(self._call(_library.bq_end, table).report)

    @property
    def report(self):
        """The Report so far: of the lines that have ended.

        >>> Loader().report
        Report(lines=0, accepted=0, skipped=0, refused=0, first=None, reason=None, place=None, bringup=0)
        """
        return _report(self._state.report)

    @property
    def kept(self):
        """How many bytes of the line under way are kept; 601 where it has over 600. A bench can set it, also to a number that is damage.

        >>> table, loader = Table.fresh(), Loader()
        >>> loader.kept = 602
        >>> loader.end(table)
        Traceback (most recent call last):
        ...
        balqirven.Refused: refused 0: the state in memory is damaged
        """
        return self._state.kept

    @kept.setter
    def kept(self, number):
        self._alone(self._store(map(_bq_loader, (_number(number, "kept"),), map(_REPORT, self._now()))))

    @property
    def line(self):
        """The line under way, as a memoryview of 600 bytes that can be written.

        >>> len(Loader().line)
        600
        """
        return memoryview(self._line).cast("B")


# ---- calls without a table

def lowest_in_run(records, level, set):
    """The lowest label number of those records of a run whose level and set are these, or None.

    Refusals: 9.

    >>> run = [Record(7, 9, Set(1)), Record(5, 9, Set(1)), Record(3, 8, Set(1))]
    >>> lowest_in_run(run, 9, Set(1))
    5
    >>> print(lowest_in_run(run, 9, Set()))
    None
    """
    records = list(records)
    run = (_bq_record * max(len(records), 1))()
    for place, record in zip(run, records):
        label, its_level, its_set = record
        place.label, place.level = _number(label, "a record's label"), _number(its_level, "a record's level")
        place.set = _of(Set, its_set, "a record's set")._lent()
    return _found(_library.bq_lowest_in_run(run, len(records), _number(level, "level"), _of(Set, set, "set")._lent()))


def lowest_of(run_labels, run_levels, run_set_words, level, set):
    """The same with the labels, the levels and the words of the sets each by themselves, three words for a set. There are as many records as the shortest has
    room for.

    Refusals: 9.

    >>> lowest_of([7, 5, 3], [9, 9, 8], [*Set(1).words, *Set(1).words, *Set(1).words], 9, Set(1))
    5
    """
    run = *_numbers(run_labels, "a label of the run"), *_numbers(run_levels, "a level of the run"), *_numbers(run_set_words, "a set word of the run")
    return _found(_library.bq_lowest_of(*run, _number(level, "level"), _of(Set, set, "set")._lent()))


def record_to_line(record, out=None):
    """An old record of 53 bytes as a rule line with its newline; `out` is as in Table.list_rule. No place is told.

    Refusals: 14 3 4 5 12.

    >>> record_to_line(b"Alarm                   Archive                 R--a-")
    b'Alarm Archive ra\\n'
    """
    return _output(_library.bq_record_to_line, _text(record, "record"), LONGEST_FIXED_LINE, out)


def line_to_record(line, out=None):
    """A rule line, with or without a closing newline, as an old record; `out` is as in Table.list_rule. No place is told.

    Refusals: 1 2 3 4 5 15 12.

    >>> line_to_record(b"Alarm Archive ra")
    b'Alarm                   Archive                 r--a-'
    """
    return _output(_library.bq_line_to_record, _text(line, "line"), FIXED_RECORD, out)
