"""Tests of balqirven.py. bindings/python/check runs them. They want gcc, and the repository around them for include/balqirven.h and examples/."""
import copy
import ctypes
import doctest
import gc
import inspect
import os
import pathlib
import pickle
import re
import shutil
import signal
import subprocess
import sys
import tempfile
import threading
import time
import unittest
from unittest import mock

import balqirven
from balqirven import Decision, Impossible, Loader, Mapping, NewObject, Record, Refusal, Refused, Report, Set, Table
from balqirven import line_to_record, lowest_in_run, lowest_of, record_to_line

ROOT = pathlib.Path(__file__).resolve().parents[2]
HEADER = (ROOT / "include" / "balqirven.h").read_text()
BARE = re.sub(r"/\*.*?\*/", " ", HEADER, flags=re.DOTALL)  # without comments

C_TYPES = {"uint8_t": ctypes.c_uint8, "uint32_t": ctypes.c_uint32, "uint64_t": ctypes.c_uint64, "size_t": ctypes.c_size_t, "bool": ctypes.c_bool}


def ctype(name):
    return C_TYPES[name] if name in C_TYPES else getattr(balqirven, "_" + name)


def header_structs():
    """{struct: [(field, ctypes type)]}, read in the header."""
    structs = {}
    for body, name in re.findall(r"typedef struct \{(.*?)\} (bq_\w+);", BARE, re.DOTALL):
        structs[name] = []
        for kind, fields in re.findall(r"(\w+) ([^;]+);", body):
            for field, _, size in re.findall(r"(\w+)(\[(\w+)\])?", fields):
                number = getattr(balqirven, size[3:]) if size.startswith("BQ_") else int(size or 0)
                structs[name].append((field, ctype(kind) * number if size else ctype(kind)))
    return structs


def header_functions():
    """{function: (type of its answer, [(const, type, is a pointer, name)])}, read in the header."""
    functions = {}
    for answer, name, parameters in re.findall(r"^(bq_\w+) (bq_\w+)\(([^)]*)\);", BARE, re.MULTILINE):
        taken = [re.fullmatch(r"(const )?(\w+) (\*?)(\w+)", " ".join(p.split())).groups() for p in parameters.split(",") if p.strip() != "void"]
        functions[name] = answer, [(bool(const), kind, bool(star), called) for const, kind, star, called in taken]
    return functions


def run_c(lines):
    """What a C program prints: one line for each of these pairs of a format and arguments."""
    source = '#include "balqirven.h"\n#include <stdio.h>\nint main(void)\n{\n' + "".join(f'printf("{form}\\n", {values});\n' for form, values in lines) + "}\n"
    with tempfile.TemporaryDirectory() as folder:
        program = os.path.join(folder, "program")
        subprocess.run(["gcc", "-Wall", "-Werror", f"-I{ROOT / 'include'}", "-x", "c", "-", "-o", program], input=source, text=True, check=True)
        return subprocess.run([program], stdout=subprocess.PIPE, text=True, check=True).stdout.splitlines()


def full_labels():
    """A table with 64 labels."""
    table = Table.fresh()
    for k in range(59):
        table.change(b"L%d _ - -" % k)
    return table


def full_rules():
    """A table with 256 rules."""
    table = Table.fresh()
    for k in range(256):
        table.change(b"S%d O%d r -" % (k // 16, k % 16))
    return table


def full_mappings():
    """A table with 32 mappings."""
    table = Table.fresh()
    for k in range(32):
        table.mapping(b"M%d 9" % k)
    return table


def one_rule():
    table = Table.fresh()
    table.change(b"Alarm Archive r -")
    return table


def damaged():
    table = one_rule()
    table.words[1] = 257
    return table


def option(*tail, doi=3, level=250, total=None):
    total = 10 + len(tail) if total is None else total
    return bytes([134, total, 0, 0, 0, doi, 1, total - 6, 0, level, *tail])


LONG, LONGER = b"A" * 255, b"A" * 256
PLACE = b"Alarm".ljust(24)
STRAY = Set.from_words(0, 0, 0x80)

# Every call with a table: how to call it with good arguments.
ON_A_TABLE = {
    "bq_piece": lambda t: Loader().piece(t, b"A B r\n"),
    "bq_end": lambda t: Loader().end(t),
    "bq_change": lambda t: t.change(b"A B r -"),
    "bq_revoke": lambda t: t.revoke(b"Alarm"),
    "bq_onlycap": lambda t: t.override_list(b"A"),
    "bq_mapping": lambda t: t.mapping(b"A 9 1"),
    "bq_by_label": lambda t: t.by_label(b"A"),
    "bq_by_level": lambda t: t.by_level(9, Set(1)),
    "bq_question": lambda t: t.question(b"A", b"B", b"r"),
    "bq_new_object": lambda t: t.new_object(b"A", b"B", folder_transmutes=True, is_folder=True),
    "bq_list_rule": lambda t: t.list_rule(0),
    "bq_label": lambda t: t.label(0),
    "bq_label_check": lambda t: t.label_check(0),
    "bq_write_option": lambda t: t.write_option(b"A"),
    "bq_read_option": lambda t: t.read_option(option(32, 128)),
}

# Each call with each of its refusals: the call, the number, the place, the table, what is done.
REFUSALS = [
    *[(name, 0, None, damaged, call) for name, call in ON_A_TABLE.items()],
    ("bq_change", 1, None, Table, lambda t: t.change(b"A B r -".ljust(601))),
    ("bq_change", 2, None, Table, lambda t: t.change(b"A B r")),
    ("bq_change", 3, 2, Table, lambda t: t.change(b"A -B r -")),
    ("bq_change", 3, 256, Table, lambda t: t.change(b" " + LONGER + b" B r -")),
    ("bq_change", 4, None, Table, lambda t: t.change(b"A B rb -")),
    ("bq_change", 5, None, Table, lambda t: t.change(b"A A r -")),
    ("bq_change", 6, None, full_labels, lambda t: t.change(b"New _ r -")),
    ("bq_change", 7, None, full_rules, lambda t: t.change(b"S0 S1 r -")),
    ("bq_revoke", 1, None, Table, lambda t: t.revoke(b"A" * 601)),
    ("bq_revoke", 3, 0, Table, lambda t: t.revoke(b"")),
    ("bq_revoke", 3, 255, Table, lambda t: t.revoke(LONGER)),
    ("bq_onlycap", 1, None, Table, lambda t: t.override_list(b" " * 601)),
    ("bq_onlycap", 2, None, Table, lambda t: t.override_list(b" ")),
    ("bq_onlycap", 3, 2, Table, lambda t: t.override_list(b"A -")),
    ("bq_onlycap", 11, None, Table, lambda t: t.override_list(b"A B C D E F G H I")),
    ("bq_onlycap", 6, None, full_labels, lambda t: t.override_list(b"New")),
    ("bq_mapping", 1, None, Table, lambda t: t.mapping(b"A 9".ljust(1001))),
    ("bq_mapping", 2, None, Table, lambda t: t.mapping(b"A")),
    ("bq_mapping", 3, 1, Table, lambda t: t.mapping(b"A/ 9")),
    ("bq_mapping", 9, None, Table, lambda t: t.mapping(b"A 250")),
    ("bq_mapping", 9, None, Table, lambda t: t.mapping(b"A 0009")),
    ("bq_mapping", 9, None, Table, lambda t: t.mapping(b"A 9 185")),
    ("bq_mapping", 6, None, full_labels, lambda t: t.mapping(b"New 9")),
    ("bq_mapping", 10, None, full_mappings, lambda t: t.mapping(b"New 9")),
    ("bq_by_label", 3, 1, Table, lambda t: t.by_label(b"A ")),
    ("bq_by_level", 9, None, Table, lambda t: t.by_level(256, Set())),
    ("bq_by_level", 9, None, Table, lambda t: t.by_level(9, STRAY)),
    ("bq_lowest_in_run", 9, None, Table, lambda t: lowest_in_run([], 256, Set())),
    ("bq_lowest_in_run", 9, None, Table, lambda t: lowest_in_run([], 9, STRAY)),
    ("bq_lowest_of", 9, None, Table, lambda t: lowest_of([], [], [], 256, Set())),
    ("bq_lowest_of", 9, None, Table, lambda t: lowest_of([], [], [], 9, STRAY)),
    ("bq_question", 3, 2, Table, lambda t: t.question(b"Ab/", b"B/", b"r")),
    ("bq_question", 3, 1, Table, lambda t: t.question(b"A", b"B/", b"r")),
    ("bq_question", 8, None, Table, lambda t: t.question(b"A", b"B", b"")),
    ("bq_question", 8, None, Table, lambda t: t.question(b"A", b"B", b"rb")),
    ("bq_new_object", 3, None, Table, lambda t: t.new_object(b"A/", b"B", folder_transmutes=True, is_folder=True)),
    ("bq_new_object", 3, None, Table, lambda t: t.new_object(b"A", b"", folder_transmutes=False, is_folder=False)),
    ("bq_list_rule", 13, None, one_rule, lambda t: t.list_rule(1)),
    ("bq_list_rule", 12, None, one_rule, lambda t: t.list_rule(0, bytearray(15))),
    ("bq_label", 13, None, Table, lambda t: t.label(5)),
    ("bq_label_check", 13, None, Table, lambda t: t.label_check(5)),
    ("bq_record_to_line", 14, None, Table, lambda t: record_to_line(b"")),
    ("bq_record_to_line", 14, None, Table, lambda t: record_to_line(b" " * 24 + PLACE + b"-----")),
    ("bq_record_to_line", 3, None, Table, lambda t: record_to_line(b"A/".ljust(24) + PLACE + b"-----")),
    ("bq_record_to_line", 4, None, Table, lambda t: record_to_line(b"A".ljust(24) + PLACE + b"w----")),
    ("bq_record_to_line", 5, None, Table, lambda t: record_to_line(PLACE + PLACE + b"-----")),
    ("bq_record_to_line", 12, None, Table, lambda t: record_to_line(b"A".ljust(24) + PLACE + b"-----", bytearray(9))),
    ("bq_line_to_record", 1, None, Table, lambda t: line_to_record(b"A B r".ljust(601))),
    ("bq_line_to_record", 2, None, Table, lambda t: line_to_record(b"\n")),
    ("bq_line_to_record", 3, None, Table, lambda t: line_to_record(b"-A B r")),
    ("bq_line_to_record", 4, None, Table, lambda t: line_to_record(b"A B q")),
    ("bq_line_to_record", 5, None, Table, lambda t: line_to_record(b"A A r")),
    ("bq_line_to_record", 15, None, Table, lambda t: line_to_record(b"A" * 24 + b" B r")),
    ("bq_line_to_record", 12, None, Table, lambda t: line_to_record(b"A B r", bytearray(52))),
    ("bq_write_option", 3, None, Table, lambda t: t.write_option(b"A/")),
    ("bq_write_option", 19, None, Table, lambda t: t.write_option(b"A" * 24)),
    ("bq_write_option", 12, None, Table, lambda t: t.write_option(b"A", bytearray(11))),
    ("bq_read_option", 16, None, Table, lambda t: t.read_option(b"")),
    ("bq_read_option", 16, None, Table, lambda t: t.read_option(option(32, 128) + b"\0\0")),
    ("bq_read_option", 17, None, Table, lambda t: t.read_option(option(32, 128, doi=4))),
    ("bq_read_option", 18, None, Table, lambda t: t.read_option(option(128))),
    ("bq_read_option", 3, None, Table, lambda t: t.read_option(option())),
    ("bq_read_option", 21, None, Table, lambda t: t.read_option(option(64, level=9))),
]

# The first refused line of a rule text: its reason, its place, the table, the line.
REFUSED_LINES = [
    (1, None, Table, b"A B r".ljust(601)),
    (2, None, Table, b"A B"),
    (3, 4, Table, b"A  B/ r"),
    (4, None, Table, b"A B q"),
    (5, None, Table, b"A A r"),
    (6, None, full_labels, b"New _ r"),
    (7, None, full_rules, b"S0 S1 r"),
]


class AgainstTheHeader(unittest.TestCase):
    """Names, numbers, structs and functions are the header's."""

    def test_refusals(self):
        listed = re.search(r"enum bq_refusal \{(.*?)\}", BARE, re.DOTALL).group(1)
        numbers = {name: int(number) for name, number in re.findall(r"BQ_(\w+) = (\d+)", listed)}
        self.assertEqual({member.name: int(member) for member in Refusal}, numbers)
        self.assertEqual(sorted(numbers.values()), [*range(20), 21])
        told = dict(re.findall(r"^ \* {3,4}(\d+)  BQ_(\w+) ", HEADER, re.MULTILINE))
        self.assertEqual({int(number): name for number, name in told.items()}, {int(member): member.name for member in Refusal})

    def test_sentences(self):
        """A refusal says the same in Rust, and in the host in C."""
        source = (ROOT / "bindings" / "rust" / "src" / "refusal.rs").read_text(encoding="ascii")
        rust = dict(re.findall(r'^ {12}(\w+) => "(.*)",$', source, re.MULTILINE))
        self.assertEqual({member.name.title().replace("_", ""): member.sentence for member in Refusal}, rust)
        source = (ROOT / "examples" / "host.c").read_text(encoding="ascii")
        in_words = re.search(r"^static const char \*in_words\(uint8_t number\)\n\{\n(.*?)^\}", source, re.MULTILINE | re.DOTALL).group(1)
        c = re.findall(r'^    case BQ_(\w+):\n        return "(.*)";$', in_words, re.MULTILINE)
        self.assertEqual(c, [(member.name, member.sentence) for member in Refusal])

    def test_defines(self):
        names = [name for name in re.findall(r"^#define (BQ_\w+)\s", HEADER, re.MULTILINE)]
        self.assertGreaterEqual(len(names), 18)
        values = run_c([("%lld", f"(long long)({name})") for name in names])
        self.assertEqual({name: getattr(balqirven, name[3:], None) for name in names}, {name: int(value) for name, value in zip(names, values)})
        self.assertEqual({name[3:] for name in names} - set(balqirven.__all__), set(), "not in __all__")

    def test_kinds(self):
        kinds = re.findall(r"BQ_(\w+) = (\d+)", " ".join(re.findall(r"enum \{(.*?)\}", BARE)))
        self.assertEqual(len(kinds), 14)
        self.assertEqual({name: getattr(balqirven, "_" + name, None) for name, _ in kinds}, {name: int(number) for name, number in kinds})

    def test_structs(self):
        ours = {name[1:]: value for name, value in vars(balqirven).items() if name.startswith("_bq_")}
        self.assertEqual(set(ours), set(header_structs()))
        for name, fields in header_structs().items():
            self.assertEqual(ours[name]._fields_, fields, name)

    def test_layout(self):
        """sizeof and offsetof, as the C compiler says."""
        wanted, lines = [], []
        for name in header_structs():
            ours = getattr(balqirven, "_" + name)
            wanted.append(f"{name} {ctypes.sizeof(ours)} {ctypes.alignment(ours)}")
            lines.append((f"{name} %zu %zu", f"sizeof({name}), _Alignof({name})"))
            for field, _ in ours._fields_:
                place = getattr(ours, field)
                wanted.append(f"{name}.{field} {place.offset} {place.size}")
                lines.append((f"{name}.{field} %zu %zu", f"offsetof({name}, {field}), sizeof((({name} *)0)->{field})"))
        self.assertEqual(wanted, run_c(lines))

    def test_functions(self):
        declared = header_functions()
        self.assertEqual(len(declared), 21)
        self.assertEqual(set(declared), set(re.findall(r"\b(bq_\w+)\(", BARE)), "a declaration that was not read")
        self.assertEqual(set(balqirven._FUNCTIONS), set(declared))
        for name, (answer, taken) in declared.items():
            function = getattr(balqirven._library, name)
            self.assertIs(function.restype, ctype(answer), name)
            self.assertEqual(len(function.argtypes), len(taken), name)
            for ours, (const, kind, star, called) in zip(function.argtypes, taken):
                allowed = [ctypes.POINTER(ctype(kind))] if star else [ctype(kind)]
                if star and const and kind == "uint8_t":
                    allowed.append(ctypes.c_char_p)
                self.assertIn(ours, allowed, f"{name}, {called}")

    def test_categories(self):
        """Each category's word and bit are the header's macros'."""
        for n, line in enumerate(run_c([("%d %llu", f"BQ_CATEGORY_WORD({n}), (unsigned long long)BQ_CATEGORY_BIT({n})") for n in range(1, 185)]), 1):
            word, bit = map(int, line.split())
            words = [0, 0, 0]
            words[word] = bit
            self.assertEqual(Set(n).words, tuple(words))
            self.assertEqual(list(Set.from_words(*words)), [n])

    def test_listed_refusals(self):
        """REFUSALS has each refusal that the header lists for a call, and no other. Where it lists them in another way than by numbers alone, they are here."""
        listed = {"bq_fresh_table": set(), "bq_fresh_loader": set(), "bq_piece": {0}, "bq_end": {0}, "bq_by_level": {0, 9}, "bq_lowest_in_run": {9},
                  "bq_lowest_of": {9}, "bq_new_object": {0, 3}, "bq_label_check": {0, 13}, "bq_read_option": {0, 16, 17, 18, 3, 21}}
        plain = re.findall(r"Refusals:((?:\s\d+)+)\. \*/\s+bq_\w+ (bq_\w+)\(", HEADER)
        self.assertEqual(len(plain), 11)
        listed.update((name, set(map(int, numbers.split()))) for numbers, name in plain)
        self.assertEqual(set(listed), set(balqirven._FUNCTIONS))
        here = {name: {number for called, number, *_ in REFUSALS if called == name} for name in listed}
        self.assertEqual(here, listed)


    def test_told_refusals(self):
        """The line "Refusals: .." of each docstring has the numbers of the header's list for the call that is made there, in its order."""
        odd = {  # where the header lists them in another way than by numbers alone: its words, and the numbers here
            "bq_fresh_table": ("0, only for a part not of its full size", []),  # which no table here has
            "bq_fresh_loader": (None, None),  # no list, and no docstring's either
            "bq_piece": ("0, also for a line part that is not 600 bytes and for `kept` over 601", [0]),
            "bq_end": ("as bq_piece", [0]),
            "bq_by_level": ("0; 9 for a level over 255 or a bit in the set that is no category", [0, 9]),
            "bq_lowest_in_run": ("9, as bq_by_level", [9]),
            "bq_lowest_of": ("9, as bq_by_level", [9]),
            "bq_new_object": ("0; 3 for either label: bq_question for w with the same two labels is refused alike, and tells the place", [0, 3]),
            "bq_label_check": (None, [0, 13]),  # told with bq_label
            "bq_read_option": ("0 16 17 18, then 3 at level 250, 21 at any other", [0, 16, 17, 18, 3, 21]),
        }
        header = {}
        for comment, name in re.findall(r"/\*((?:(?!\*/).)*)\*/\s+bq_\w+ (bq_\w+)\(", HEADER, re.DOTALL):
            words = " ".join(re.sub(r"\n \*", " ", comment).split())
            header[name] = words.partition("Refusals: ")[2].rstrip(". ") or None
        header["bq_label_check"] = None
        self.assertIn("bq_label_check answers the same refusals alone. Refusals: 0 13. */", HEADER)
        self.assertEqual(set(header), set(balqirven._FUNCTIONS))
        self.assertEqual({name: header[name] for name in odd}, {name: words for name, (words, _) in odd.items()})
        wanted = {name: odd[name][1] if name in odd else [int(number) for number in header[name].split()] for name in header}

        told, nothing_called = {}, {"rules": [0], "stored_labels": [0]}  # these two call list_rule and label, up to 13
        public = [value for value in vars(balqirven).values() if inspect.isfunction(value) and value.__name__ in balqirven.__all__]
        for kind in (Table, Loader):
            public += [getattr(value, "__func__", value) for name, value in vars(kind).items() if inspect.isroutine(getattr(value, "__func__", value))]
        for function in public:
            calls = re.findall(r"_library\.(bq_\w+)", inspect.getsource(function))
            lines = re.findall(r"^ *Refusals:(.*)$", function.__doc__ or "", re.MULTILINE)
            self.assertEqual((function.__doc__ or "").count("Refusals"), len(lines), function.__name__)
            numbers = [[] if line == " none." else [int(number) for number in re.fullmatch(r"((?: \d+)+)\.", line).group(1).split()] for line in lines]
            if function.__name__ in nothing_called:
                self.assertEqual((calls, numbers), ([], [nothing_called.pop(function.__name__)]), function.__name__)
            elif calls:
                self.assertEqual(len(calls), 1, function.__name__)
                self.assertNotIn(calls[0], told)
                told[calls[0]] = numbers[0] if numbers else None
            else:
                self.assertEqual(numbers, [], function.__name__)
        self.assertEqual(told, wanted)
        self.assertEqual(nothing_called, {})


class Refusals(unittest.TestCase):
    """Every refusal is reached, with its place, and leaves everything as it was."""

    def test_each(self):
        for name, number, place, make, call in REFUSALS:
            with self.subTest(call=name, number=number):
                table = make()
                before = table.parts()
                with self.assertRaises(Refused) as caught:
                    call(table)
                self.assertIs(caught.exception.refusal, Refusal(number))
                self.assertEqual(caught.exception.place, place)
                self.assertEqual(table.parts(), before)
        self.assertEqual({number for _, number, *_ in REFUSALS}, {int(member) for member in Refusal})

    def test_lines(self):
        for number, place, make, line in REFUSED_LINES:
            with self.subTest(number=number):
                table, loader = make(), Loader()
                before = table.parts()
                loader.piece(table, line[:3])
                loader.piece(table, line[3:] + b"\n")
                wanted = Report(1, 0, 0, 1, 1, Refusal(number), place, 0)
                self.assertEqual(loader.report, wanted)
                self.assertEqual(loader.end(table), wanted)
                self.assertEqual(table.parts(), before)

    def test_damage(self):
        """Each kind of damage is refused by every call, and stays; and a lent output stays."""
        self.assertEqual(set(ON_A_TABLE), {name for name, (_, taken) in header_functions().items() if taken and taken[0][3] == "labels"} - {"bq_fresh_table"})
        damages = [("words", 0, 65), ("words", 1, 257), ("words", 2, 33), ("words", 3, 9), ("words", 1, 2**64 - 1)]  # counts
        damages += [("entries", 0, 7), ("entries", 256, 7), ("entries", 512, 64), ("entries", 512, 1)]  # a rule's subject, object and modes
        damages += [("entries", 768, 7), ("words", 68, 1), ("entries", 832, 7)]  # a mapping's label and set, an override label
        for part, place, value in damages:
            table = one_rule()
            table.mapping(b"Alarm 9 1")
            table.override_list(b"Alarm")
            table.label_check(6)  # not damaged yet, and 7 is the first number that is no label's
            getattr(table, part)[place] = value
            before = table.parts()
            for name, call in ON_A_TABLE.items():
                with self.subTest(call=name, part=part, place=place):
                    with self.assertRaises(Refused) as caught:
                        call(table)
                    self.assertEqual((caught.exception.refusal, caught.exception.place), (Refusal.DAMAGED, None))
                    self.assertEqual(table.parts(), before)
            for write in (lambda out: table.list_rule(0, out), lambda out: table.write_option(b"A", out)):
                out = bytearray(b"." * 600)
                self.assertRaises(Refused, write, out)
                self.assertEqual(out, b"." * 600)
            table.make_fresh()
            self.assertEqual(list(table.stored_labels()), list(Table.fresh().stored_labels()))

    def test_damaged_loader(self):
        table, loader = Table.fresh(), Loader()
        loader.piece(table, b"A B r\nA B")
        for kept in (602, 2**64 - 1):
            loader.kept = kept
            line, report = loader.line.tobytes(), loader.report
            for call in (lambda: loader.piece(table, b" w\n"), lambda: loader.end(table)):
                with self.assertRaises(Refused) as caught:
                    call()
                self.assertIs(caught.exception.refusal, Refusal.DAMAGED)
                self.assertEqual((loader.kept, loader.report, loader.line.tobytes()), (kept, report, line))
        loader.kept = 3
        loader.piece(table, b" w\n")
        self.assertEqual(loader.end(table).accepted, 2)
        self.assertEqual(list(table.rules()), [b"A B w\n"])

    def test_in_words(self):
        self.assertEqual(len({member.sentence for member in Refusal}), 21)
        self.assertEqual(str(Refused(Refusal.DAMAGED)), "refused 0: the state in memory is damaged")
        self.assertEqual(str(Refused(Refusal.BAD_LABEL, 0)), "refused 3: a label is not well formed, at byte 1 counted from 1")
        self.assertEqual(str(Refused(Refusal.BAD_LABEL)), "refused 3: a label is not well formed")
        for again in (pickle.loads(pickle.dumps(Refused(Refusal.BAD_LABEL, 7))), copy.copy(Refused(Refusal.BAD_LABEL, 7))):
            self.assertEqual((again.refusal, again.place), (Refusal.BAD_LABEL, 7))
        self.assertRaises(ValueError, Refusal, 20)


class Answers(unittest.TestCase):
    """What the calls answer."""

    def test_questions(self):
        table = one_rule()
        for subject, object_, request, answer in [
            (b"*", b"A", b"r", Decision("denied", 1)), (b"^", b"A", b"rx", Decision("granted", 2)), (b"A", b"_", b"r", Decision("granted", 3)),
            (b"A", b"*", b"w", Decision("granted", 4)), (b"A", b"A", b"w", Decision("granted", 5)), (b"Alarm", b"Archive", b"R", Decision("granted", 6)),
            (b"Archive", b"Alarm", b"r", Decision("denied", 7)),
        ]:
            self.assertEqual(table.question(subject, object_, request), answer)
            capable = Decision("override", answer.rule) if answer.kind == "denied" else answer
            self.assertEqual(table.question(subject, object_, request, capable=True), capable)
            self.assertEqual(bool(table.question(subject, object_, request)), answer.kind != "denied")
        table.override_list(b"Desk")
        self.assertEqual(table.question(b"Archive", b"Alarm", b"r", capable=True), Decision("denied", 7))

    def test_new_objects(self):
        table = Table.fresh()
        table.change(b"A F wt -")
        table.change(b"B F w -")
        answers = {(creator, here, new): table.new_object(creator, b"F", folder_transmutes=here, is_folder=new)
                   for creator in (b"A", b"B", b"C") for here in (False, True) for new in (False, True)}
        for (creator, here, new), answer in answers.items():
            if creator == b"C":
                self.assertEqual(answer, NewObject("denied", None, False))
            elif creator == b"A" and here:
                self.assertEqual(answer, NewObject("folder", b"F", new))
            else:
                self.assertEqual(answer, NewObject("creator", creator, False))
            self.assertEqual(bool(answer), creator != b"C")

    def test_mappings(self):
        table = Table.fresh()
        every = Set(*range(1, 185))
        table.mapping(b"A 0")
        table.mapping(b"B 255 " + b" ".join(b"%d" % n for n in every))
        table.mapping(b"_ 7 3")
        self.assertEqual(table.by_label(b"A"), Mapping(0, Set(), 0))
        self.assertEqual(table.by_label(b"B"), Mapping(255, every, 184))
        self.assertIsNone(table.by_label(b"C"))
        self.assertEqual([table.by_level(0, Set()), table.by_level(255, every), table.by_level(7, Set(3)), table.by_level(7, Set())], [5, 6, 0, None])

    def test_runs(self):
        top = 2**64 - 1
        run = [Record(top, top, STRAY), Record(8, 9, Set(1)), Record(6, 9, Set(184)), Record(4, 9, Set(184)), Record(2, 9, STRAY), Record(0, 300, Set())]
        parts = [r.label for r in run], [r.level for r in run], [word for r in run for word in r.set.words]
        for level, categories, wanted in [(9, Set(1), 8), (9, Set(184), 4), (9, Set(), None), (8, Set(1), None)]:
            self.assertEqual(lowest_in_run(run, level, categories), wanted)
            self.assertEqual(lowest_in_run(iter(run), level, categories), wanted)
            self.assertEqual(lowest_of(*parts, level, categories), wanted)
        self.assertEqual(lowest_in_run([Record(top, 9, Set())], 9, Set()), top)
        labels, levels, words = parts
        self.assertEqual(lowest_of(labels[:3], levels, words, 9, Set(184)), 6, "the shortest says how many records there are")
        self.assertEqual(lowest_of(labels, levels[:3], words, 9, Set(184)), 6)
        self.assertEqual(lowest_of(labels, levels, words[:11], 9, Set(184)), 6)

    def test_labels_and_rules(self):
        table = full_rules()
        rules, labels = list(table.rules()), list(table.stored_labels())
        self.assertEqual((len(rules), rules[0], rules[255]), (256, b"S0 O0 r\n", b"S15 O15 r\n"))
        self.assertEqual(labels[:7], [b"_", b"^", b"*", b"?", b"@", b"S0", b"O0"])
        again, loader = Table.fresh(), Loader()
        loader.piece(again, b"".join(rules))
        self.assertEqual(loader.end(again), Report(256, 256, 0, 0, None, None, None, 0))
        self.assertEqual(again.parts(), table.parts())
        for call in (damaged().rules, damaged().stored_labels):
            with self.assertRaises(Refused) as caught:
                call()
            self.assertIs(caught.exception.refusal, Refusal.DAMAGED)

    def test_longest(self):
        """The module's own outputs have room for the longest."""
        table = Table.fresh()
        other = b"B" * 255
        table.change(LONG + b" " + other + b" rwxat -")
        self.assertEqual(len(table.list_rule(0)), balqirven.LONGEST_RULE)
        self.assertEqual(table.label(5), LONG)
        full = [*Table.fresh().stored_labels(), *(b"L%d".ljust(255, b"l") % k for k in range(10, 69))]
        filled = Table.fresh()
        for label in full[5:]:
            filled.override_list(label)
        self.assertEqual((len(full), filled.label(63), filled.stored_labels()), (64, full[63], full), "the last one ends where the part ends")
        table.mapping(LONG + b" 9 184")
        self.assertEqual(len(table.write_option(LONG)), balqirven.LONGEST_OPTION)
        self.assertEqual(table.read_option(table.write_option(LONG)), LONG)
        record = b"A" * 23 + b" " + b"B" * 23 + b" rwxat"
        self.assertEqual(len(record_to_line(record)), balqirven.LONGEST_FIXED_LINE)
        self.assertEqual(line_to_record(record_to_line(record)), record)

    def test_cuttings(self):
        """However a text is cut, the report and the table are the same."""
        text = b"A B r\n\n  \nA B/ r\nA B wB\nC D -\nE"
        whole, loader = Table.fresh(), Loader()
        loader.piece(whole, text)
        report = loader.end(whole)
        self.assertEqual(report, Report(7, 3, 2, 2, 4, Refusal.BAD_LABEL, 3, 1))
        for size in range(1, len(text)):
            table = Table.fresh()
            for start in range(0, len(text), size):
                loader.piece(table, text[start:start + size])
            self.assertEqual((loader.end(table), table.parts()), (report, whole.parts()))
        loader.piece(whole, b"x" * 601)
        self.assertEqual(loader.kept, 601)

    def test_host(self):
        """The example host writes what the other hosts write."""
        example = ROOT / "examples"
        run = subprocess.run([sys.executable, example / "host.py", example / "store_north.rules", example / "old_logger.records"], stdout=subprocess.PIPE,
                             env={**os.environ, "BALQIRVEN_LIBRARY": balqirven.LIBRARY, "PYTHONPATH": os.path.dirname(balqirven.__file__)}, check=True)
        self.assertEqual(run.stdout, (example / "host.expected").read_bytes())

    def test_hosts_without_output(self):
        """The hosts in C and in Python say by their exit status that their output could not be written."""
        example = ROOT / "examples"
        with tempfile.TemporaryDirectory() as folder:
            host = os.path.join(folder, "host")
            built = ["gcc", "-Wall", "-Wextra", "-Werror", f"-I{ROOT / 'include'}", example / "host.c", balqirven.LIBRARY, f"-Wl,-rpath,{folder}", "-o", host]
            subprocess.run(built, check=True)
            os.symlink(balqirven.LIBRARY, os.path.join(folder, "libbalqirven.so.5"))
            for command in ([host], [sys.executable, example / "host.py"]):
                environment = {**os.environ, "BALQIRVEN_LIBRARY": balqirven.LIBRARY, "PYTHONPATH": os.path.dirname(balqirven.__file__)}
                command += [example / "store_north.rules", example / "old_logger.records"]
                with open("/dev/full", "wb") as full:
                    run = subprocess.run(command, stdout=full, stderr=subprocess.PIPE, env=environment)
                self.assertEqual(run.returncode, 1)
                self.assertIn(b"No space left on device", run.stderr)
                run = subprocess.run(command, stdout=subprocess.PIPE, env=environment, check=True)
                self.assertEqual(run.stdout, (example / "host.expected").read_bytes())


class Given(unittest.TestCase):
    """What a caller gives: text, numbers, outputs, parts."""

    TEXTS = [
        lambda t, x: t.change(x), lambda t, x: t.revoke(x), lambda t, x: t.override_list(x), lambda t, x: t.mapping(x), lambda t, x: t.by_label(x),
        lambda t, x: t.question(x, b"B", b"r"), lambda t, x: t.question(b"A", x, b"r"), lambda t, x: t.question(b"A", b"B", x),
        lambda t, x: t.new_object(x, b"B", folder_transmutes=True, is_folder=True), lambda t, x: t.new_object(b"A", x, folder_transmutes=True, is_folder=True),
        lambda t, x: t.write_option(x), lambda t, x: t.read_option(x), lambda t, x: Loader().piece(t, x), lambda t, x: record_to_line(x),
        lambda t, x: line_to_record(x), lambda t, x: Table.from_parts(x, *t.parts()[1:]), lambda t, x: Table.from_parts(*t.parts()[:2], x),
    ]
    OUTPUTS = [
        (16, lambda out: one_rule().list_rule(0, out)), (12, lambda out: Table.fresh().write_option(b"A", out)),
        (53, lambda out: line_to_record(b"A B r", out)), (10, lambda out: record_to_line(b"A".ljust(24) + PLACE + b"-----", out)),
    ]

    def test_text(self):
        table = one_rule()
        for call in self.TEXTS:
            with self.assertRaisesRegex(TypeError, "encode"):
                call(table, "A")
            for other in (None, 1, [65], ctypes.c_char_p(b"A"), ctypes.create_string_buffer(b"A")):
                self.assertRaises(TypeError, call, table, other)
        self.assertEqual(table.parts(), one_rule().parts())

    def test_kinds_of_text(self):
        table, text = Table.fresh(), b"Alarm Archive r -"
        spaced = bytearray(2 * len(text))
        spaced[::2] = text
        kept = type("Kept", (bytes,), {"__len__": lambda self: 1})(text)
        for same in (text, bytearray(text), memoryview(text), memoryview(bytearray(text)), memoryview(spaced)[::2], kept):
            table.make_fresh()
            table.change(same)
            self.assertEqual(list(table.rules()), [b"Alarm Archive r\n"])

    def test_text_of_the_table(self):
        """Text that lies in the table itself is copied before the call."""
        table = Table.fresh()
        table.labels[16000:16017] = b"Alarm Archive r -"
        table.change(table.labels[16000:16017])
        self.assertEqual(table.list_rule(0), b"Alarm Archive r\n")
        self.assertEqual(table.revoke(table.labels[5 * 256 + 1:5 * 256 + 6]), 1)
        loader = Loader()
        loader.piece(table, b"A B")
        loader.piece(table, loader.line[:3])
        self.assertEqual(loader.line[:6].tobytes(), b"A BA B")
        out = bytearray(b"A B r".ljust(60))
        self.assertEqual(line_to_record(memoryview(out)[:5], out), 53)
        self.assertEqual(out, b"A".ljust(24) + b"B".ljust(24) + b"r----" + b" " * 7)

    def test_numbers(self):
        table, loader = one_rule(), Loader()
        table.mapping(b"Alarm 9 1")
        calls = [
            table.list_rule, table.label, table.label_check, lambda n: table.by_level(n, Set(1)), lambda n: lowest_in_run([], n, Set()),
            lambda n: lowest_of([], [], [], n, Set()), lambda n: lowest_in_run([Record(n, 9, Set())], 9, Set()),
            lambda n: lowest_in_run([Record(1, n, Set())], 9, Set()), lambda n: lowest_of([n], [9], [0, 0, 0], 9, Set()),
            lambda n: lowest_of([1], [n], [0, 0, 0], 9, Set()), lambda n: lowest_of([1], [9], [0, n, 0], 9, Set()), lambda n: Set.from_words(n, 0, 0),
            lambda n: Set.from_words(0, 0, n), lambda n: setattr(loader, "kept", n), lambda n: table.words.__setitem__(0, n),
        ]
        for call in calls:
            for number in (-1, -2**64, -2**64 + 9, 2**64, 2**64 + 9, 2**128 + 9):
                self.assertRaises(ValueError, call, number)
            for number in (1.0, "1", None, b"1"):
                self.assertRaises(TypeError, call, number)
        for call in calls[:-1]:  # all but the write to a view, which is Python's own
            for number in (True, False):
                with self.assertRaisesRegex(TypeError, f" is {number}, and not a number"):
                    call(number)
        self.assertEqual(loader.kept, 0)
        for number in (256, 2**8 + 9, 2**32 + 9, 2**63 + 9, 2**64 - 1):
            with self.assertRaises(Refused) as caught:
                table.by_level(number, Set(1))
            self.assertIs(caught.exception.refusal, Refusal.BAD_LEVEL_OR_CATEGORY)
            with self.assertRaises(Refused) as caught:
                table.label(number)
            self.assertIs(caught.exception.refusal, Refusal.NO_SUCH_NUMBER)
        for part in (table.labels, table.entries, loader.line):
            for number in (-1, 256):
                self.assertRaises(ValueError, part.__setitem__, 0, number)

    def test_sets(self):
        for number in (0, -1, 185, 192, 2**64, 2**64 + 1):
            self.assertRaises(ValueError, Set, 1, number)
        for number in (1.0, "1", None, True):
            self.assertRaises(TypeError, Set, number)
        one, other = Set(1, 1, 2), Set(2, 1)  # both are there at once, so that they have two addresses
        self.assertEqual(one, other)
        self.assertEqual((hash(one), len({one, other}), {one: "it"}[other]), (hash(other), 1, "it"))
        self.assertNotEqual(Set(), STRAY)
        self.assertNotEqual(Set(1), (1 << 63, 0, 0))
        self.assertEqual((len(STRAY), list(STRAY), 185 in STRAY, 0 in STRAY), (0, [], False, False))
        self.assertEqual(Set.from_words(*Set(7, 70, 170).words), Set(7, 70, 170))
        with self.assertRaises(AttributeError):
            Set().words = (1, 2, 3)
        for other in ((1,), [1], {1}, 1, None):
            self.assertRaises(TypeError, Table.fresh().by_level, 9, other)
            self.assertRaises(TypeError, lowest_in_run, [], 9, other)
            self.assertRaises(TypeError, lowest_of, [], [], [], 9, other)
            self.assertRaises(TypeError, lowest_in_run, [Record(1, 9, other)], 9, Set())

    def test_flags(self):
        table = Table.fresh()
        for flag in (1, 0, None, "no", b""):
            self.assertRaises(TypeError, table.question, b"A", b"B", b"r", capable=flag)
            self.assertRaises(TypeError, table.new_object, b"A", b"B", folder_transmutes=flag, is_folder=True)
            self.assertRaises(TypeError, table.new_object, b"A", b"B", folder_transmutes=True, is_folder=flag)
        for other in (None, table.parts(), b""):
            self.assertRaises(TypeError, Loader().piece, other, b"")
            self.assertRaises(TypeError, Loader().end, other)

    def test_output(self):
        """It is written at its front alone; too short, it stays."""
        for length, call in self.OUTPUTS:
            text = call(None)
            self.assertEqual(len(text), length)
            for size in (length, length + 1, 600):
                for out in (bytearray(b"." * size), memoryview(bytearray(b"." * size))):
                    self.assertEqual(call(out), length)
                    self.assertEqual(bytes(out), text + b"." * (size - length))
            around = bytearray(b"." * 100)
            call(memoryview(around)[10:90])
            self.assertEqual(around, b"." * 10 + text + b"." * (90 - length))
            for size in (0, 1, length - 1):
                out = bytearray(b"." * size)
                try:
                    call(out)
                except Refused as refused:
                    self.assertIs(refused.refusal, Refusal.OUTPUT_TOO_SHORT)
                    self.assertEqual(out, b"." * size)
                    out.extend(b"it can be resized, while the exception is still there")
                else:
                    self.fail("not refused")
        array, size = balqirven._lend(bytearray(), ())
        self.assertEqual((len(array), size), (1, 0), "an empty output is memory of the module's own")

    def test_no_output(self):
        for _, call in self.OUTPUTS:
            for out in (b"." * 600, memoryview(b"." * 600), "." * 600, 600, memoryview(bytearray(1200))[::2], b""):
                with self.assertRaisesRegex(TypeError, "lend a bytearray|a bytes-like object is required"):
                    call(out)

    def test_overlap(self):
        table, other, loader = one_rule(), one_rule(), Loader()
        before = table.parts()
        views = [
            table.labels, table.labels[100:700], table.labels[16383:], table.labels[:0], table.entries, table.entries[600:], table.words, table.words[99:],
            memoryview(table._labels), memoryview(table._words), (ctypes.c_char * 600).from_buffer(table.labels), loader.line, loader.line[7:], other.labels,
            ctypes.create_string_buffer(600), ctypes.pointer(ctypes.create_string_buffer(600)), (ctypes.c_uint8 * 600).from_address(0),
        ]
        for out in views:
            for call in (lambda: table.list_rule(0, out), lambda: table.write_option(b"A", out), lambda: line_to_record(b"A B r", out),
                         lambda: record_to_line(b"A".ljust(24) + PLACE + b"-----", out)):
                self.assertRaises(ValueError, call)
        self.assertEqual(table.parts(), before)
        self.assertEqual(loader.line.tobytes(), bytes(600))

    def test_overlap_by_address(self):
        """Memory that comes by another way than ctypes is held to the addresses of the parts."""
        memory = bytearray(30)
        part = (ctypes.c_uint8 * 10).from_buffer(memory, 10)
        for first, last in ((0, 30), (0, 11), (10, 20), (12, 15), (19, 30), (19, 20), (10, 11)):
            with self.assertRaises(ValueError):
                balqirven._lend(memoryview(memory)[first:last], (part,))
        for first, last in ((0, 10), (20, 30), (9, 10), (20, 21)):
            array, size = balqirven._lend(memoryview(memory)[first:last], (part,))
            self.assertEqual((ctypes.addressof(array) - ctypes.addressof(part), size), (first - 10, last - first))
        table = one_rule()
        before = table.parts()
        with mock.patch.object(balqirven, "_CTYPES_MEMORY", ()):
            for view in (table.labels, table.labels[16383:], table.entries, table.entries[839:], table.words, table.words[99:]):
                self.assertRaises(ValueError, table.list_rule, 0, view)
                self.assertRaises(ValueError, table.write_option, b"A", view)
        self.assertEqual(table.parts(), before)

    @unittest.skipIf(sys.version_info < (3, 12), "a class of Python can lend a buffer since 3.12")
    def test_overlap_in_disguise(self):
        class Lender:
            def __init__(self, view):
                self.view = view

            def __buffer__(self, flags):
                return self.view

        table = one_rule()
        before = table.parts()
        for view in (table.labels, table.labels[16383:], table.entries[1:], table.words):
            self.assertRaises(ValueError, table.list_rule, 0, Lender(view))
            self.assertRaises(ValueError, table.write_option, b"A", Lender(view))
        self.assertEqual(table.parts(), before)
        out = bytearray(600)
        self.assertEqual(table.list_rule(0, Lender(memoryview(out))), 16)
        self.assertEqual(out[:16], b"Alarm Archive r\n")

    def test_parts(self):
        table = one_rule()
        parts = table.parts()
        self.assertEqual([type(part) for part in parts], [bytes] * 3)
        again = Table.from_parts(*parts)
        self.assertEqual(again.parts(), parts)
        again.change(b"C D r -")
        self.assertEqual(table.parts(), parts)
        self.assertEqual(Table.from_parts(table.labels, table.entries, table.words).parts(), parts)
        self.assertEqual(Table.from_parts(*map(bytearray, parts)).parts(), parts)
        for k in range(3):
            for wrong in (parts[k][:-1], parts[k] + b"\0", b""):
                self.assertRaises(ValueError, Table.from_parts, *parts[:k], wrong, *parts[k + 1:])
        self.assertEqual((len(table.labels), len(table.entries), len(table.words)), (16384, 840, 100))
        for name in ("labels", "entries", "words", "anything"):
            self.assertRaises(AttributeError, setattr, table, name, b"")
        broken = Table.from_parts(*damaged().parts())
        self.assertRaises(Refused, broken.label, 0)
        broken.make_fresh()
        self.assertEqual(broken.label(0), b"_")
        view = table.words
        del table
        self.assertEqual(view[1], 1, "a view keeps the memory")
        self.assertEqual(Table().parts(), Table.fresh().parts())


class Copies(unittest.TestCase):
    """Copies, pickles and subclasses."""

    WAYS = [copy.copy, copy.deepcopy, *(lambda thing, p=p: pickle.loads(pickle.dumps(thing, p)) for p in range(pickle.HIGHEST_PROTOCOL + 1))]

    def test_tables(self):
        for make in (one_rule, damaged, full_rules):
            for way in self.WAYS:
                table = make()
                before = table.parts()
                again = way(table)
                self.assertIs(type(again), Table)
                self.assertEqual(again.parts(), before)
                again.make_fresh()
                again.labels[16383] = again.entries[839] = again.words[99] = 7
                again.change(b"New Newer r -")
                self.assertEqual(table.parts(), before, "memory of its own")
                table.make_fresh()
                self.assertEqual(again.rules(), [b"New Newer r\n"])
        self.assertRaises(ValueError, Table.__new__(Table).__setstate__, ((b"", b"", b""), None))

    def test_loaders(self):
        for way in self.WAYS:
            table, loader = Table.fresh(), Loader()
            loader.piece(table, b"A B r\nA/ B r\nC ")
            again = way(loader)
            self.assertIs(type(again), Loader)
            self.assertEqual((again.kept, again.report, again.line.tobytes()), (2, loader.report, loader.line.tobytes()))
            other = copy.copy(table)
            again.piece(other, b"D w")
            self.assertEqual((loader.kept, loader.line[:6].tobytes() == again.line[:6].tobytes(), again.kept), (2, False, 5))
            loader.piece(table, b"E x\n")
            self.assertEqual(again.end(other), Report(3, 2, 0, 1, 2, Refusal.BAD_LABEL, 1, 0))
            self.assertEqual(loader.end(table), Report(3, 2, 0, 1, 2, Refusal.BAD_LABEL, 1, 0))
            self.assertEqual((table.rules(), other.rules()), ([b"A B r\n", b"C E x\n"], [b"A B r\n", b"C D w\n"]))
        for line, state in ((b"", bytes(ctypes.sizeof(balqirven._bq_loader))), (bytes(600), b"")):
            self.assertRaises(ValueError, Loader.__new__(Loader).__setstate__, (line, state, None))

    def test_subclasses(self):
        """A class method of a subclass gives the subclass, made by its __init__; a copy has what it was given."""
        for kind in (NamedTable, NamedLoader):
            thing = kind()
            self.assertEqual(thing.names, ["new"])
            thing.names.append("old")
            for way in self.WAYS:
                again = way(thing)
                self.assertIs(type(again), kind)
                self.assertEqual(again.names, ["new", "old"])
                self.assertEqual(again.names is thing.names, way is copy.copy)
        for made in (NamedTable.fresh(), NamedTable.from_parts(*one_rule().parts())):
            self.assertIs(type(made), NamedTable)
            self.assertEqual(made.names, ["new"])
        self.assertEqual(made.rules(), [b"Alarm Archive r\n"])
        made.change(b"C D r -")
        loader = NamedLoader()
        loader.piece(made, b"E F r\n")
        self.assertEqual((loader.end(made).accepted, len(made.rules())), (1, 3))


class NamedTable(Table):
    def __init__(self):
        super().__init__()
        self.names = ["new"]


class NamedLoader(Loader):
    def __init__(self):
        super().__init__()
        self.names = ["new"]


class Watched:
    """The library, with each call's pointers held to the header's duties."""

    def __init__(self, test):
        self.test, self.real, self.declared, self.called = test, balqirven._library, header_functions(), set()

    def __getattr__(self, name):
        def call(*arguments):
            test, taken, regions = self.test, self.declared[name][1], []
            test.assertEqual(len(arguments), len(taken))
            for (const, kind, star, called), value, size in zip(taken, arguments, (*arguments[1:], None)):
                if star:
                    start = ctypes.cast(ctypes.c_char_p(value), ctypes.c_void_p).value if type(value) is bytes else ctypes.addressof(value)
                    one = ctypes.sizeof(ctype(kind))
                    test.assertTrue(start, f"{name}: {called} is NULL")
                    test.assertLessEqual(size * one, len(value) * one if type(value) is bytes else ctypes.sizeof(value), f"{name}: {called}")
                    test.assertEqual(start % ctypes.alignment(ctype(kind)), 0)
                    test.assertTrue(const or type(value) is not bytes, f"{name} may write {called}")
                    regions.append((start, start + size * one, const, called))
            for k, (start, end, const, called) in enumerate(regions):
                for other_start, other_end, other_const, other in regions[:k]:
                    test.assertTrue(const and other_const or end <= other_start or other_end <= start, f"{name}: {called} overlaps {other}")
            self.called.add(name)
            return getattr(self.real, name)(*arguments)
        return call


class Duties(unittest.TestCase):
    """The three duties of a host."""

    def test_pointers(self):
        """Every call, with empty text, empty runs and an empty output too, and with text and outputs of every kind."""
        watched = Watched(self)
        with mock.patch.object(balqirven, "_library", watched):
            for _, _, _, make, call in REFUSALS:
                self.assertRaises(Refused, call, make())
            for call in Given.TEXTS:
                for empty in (b"", bytearray(), memoryview(b""), memoryview(bytearray(b"A"))[1:], memoryview(b"ABAB")[::2]):
                    try:
                        call(one_rule(), empty)
                    except (Refused, ValueError):
                        pass
            table = one_rule()
            table.change(table.labels[5 * 256 + 1:5 * 256 + 6].tobytes() + b" B r -")
            table.revoke(table.labels[5 * 256 + 1:5 * 256 + 6])
            loader = Loader()
            loader.piece(table, loader.line)
            loader.piece(table, table.labels)
            for _, call in Given.OUTPUTS:
                call(None)
                call(bytearray(600))
                call(memoryview(bytearray(600))[1:])
                self.assertRaises(Refused, call, bytearray())
            same = bytearray(b"A B r".ljust(60))
            line_to_record(same, same)
            self.assertIsNone(lowest_in_run([], 9, Set()))
            self.assertIsNone(lowest_of([], [], [], 9, Set()))
            self.assertEqual(lowest_in_run([Record(1, 9, Set())] * 5, 9, Set()), 1)
        self.assertEqual(watched.called, set(balqirven._FUNCTIONS))

    def test_nobody_runs_during_a_call(self):
        """Another thread that wants to run all the time does not during a long call."""
        table, turns, stop = Table.fresh(), [0], threading.Event()

        def spin():
            while not stop.is_set():
                turns[0] += 1
                time.sleep(0.0002)  # lets this thread go on

        interval = sys.getswitchinterval()
        sys.setswitchinterval(100)  # so that nothing but a call can let the other thread run
        thread = threading.Thread(target=spin)
        thread.start()
        try:
            while turns[0] == 0:
                time.sleep(0.001)
            text, taken = b"A B r\n" * 100_000, 0
            while taken < 0.002:  # a shorter call shows nothing
                text += text
                arguments = *table._lent, (ctypes.c_uint8 * 600)(), 600, balqirven._library.bq_fresh_loader(), text, len(text)
                begun, before = time.perf_counter(), turns[0]
                balqirven._library.bq_piece(*arguments)
                after, taken = turns[0], time.perf_counter() - begun
                self.assertEqual(before, after)
        finally:
            stop.set()
            thread.join()
            sys.setswitchinterval(interval)

    def test_threads(self):
        """Pieces of whole lines, changes, questions and pokes of several threads on one table and one loader all count."""
        table, loader, wrong = Table.fresh(), Loader(), []

        def work(k):
            try:
                for turn in range(400):
                    loader.piece(table, b"A%d B%d r\nA%d C r\n" % (k, turn % 8, k))
                    table.change(b"D%d E w -" % k)
                    table.labels[16383 - k] = turn % 256
                    if not table.question(b"D%d" % k, b"E", b"w") or loader.report.refused or loader.kept:
                        raise AssertionError("a wrong answer")
            except BaseException as error:  # so that the main thread sees it
                wrong.append(error)

        interval = sys.getswitchinterval()
        sys.setswitchinterval(1e-6)
        try:
            threads = [threading.Thread(target=work, args=(k,)) for k in range(4)]
            for thread in threads:
                thread.start()
            for thread in threads:
                thread.join()
        finally:
            sys.setswitchinterval(interval)
        self.assertEqual(wrong, [])
        self.assertEqual(loader.end(table), Report(3200, 3200, 0, 0, None, None, None, 0))
        rules = [b"A%d B%d r\n" % (k, n) for k in range(4) for n in range(8)] + [b"A%d C r\n" % k for k in range(4)] + [b"D%d E w\n" % k for k in range(4)]
        self.assertEqual(sorted(table.rules()), sorted(rules))

    def test_in_use(self):
        """What runs within a call of a loader, as a __del__ can, cannot use it and does not wait; the report is the one before."""
        table, loader, real, seen = Table.fresh(), Loader(), balqirven._library, []
        loader.piece(table, b"A B r\nC ")
        before, kept = loader.report, loader.kept
        uses = (lambda: loader.piece(table, b"E F r\n"), lambda: loader.end(table), lambda: setattr(loader, "kept", 0), lambda: copy.copy(loader),
                lambda: copy.deepcopy(loader), lambda: pickle.dumps(loader))

        def look():
            for use in uses:
                with self.assertRaisesRegex(RuntimeError, "^this loader is in use: "):
                    use()
            self.assertEqual((loader.report, loader.kept), (before, kept))
            seen.append(threading.current_thread())

        def piece(*arguments):
            look()
            answer = real.bq_piece(*arguments)
            thread = threading.Thread(target=look)  # the line is changed now, and the state not stored yet
            thread.start()
            thread.join()
            return answer

        with mock.patch.object(balqirven, "_library", mock.Mock(bq_piece=piece, bq_end=real.bq_end)):
            loader.piece(table, b"D r\n")
        self.assertEqual(len(set(seen)), 2)
        self.assertEqual(loader.end(table), Report(2, 2, 0, 0, None, None, None, 0))
        self.assertEqual(table.rules(), [b"A B r\n", b"C D r\n"])

    def test_broken_off(self):
        """A loader whose call was broken off within, which no handler can do, says so, and makes nothing up."""
        table, loader = Table.fresh(), Loader()
        loader.piece(table, b"A B r\n")
        before = loader.report

        def broken_off(*_):
            raise MemoryError

        with mock.patch.object(balqirven, "_library", mock.Mock(bq_piece=broken_off)):
            self.assertRaises(MemoryError, loader.piece, table, b"A B r\n")
        for call in (lambda: loader.piece(table, b""), lambda: loader.end(table), lambda: setattr(loader, "kept", 0), lambda: copy.copy(loader)):
            with self.assertRaisesRegex(RuntimeError, "make a new loader"):
                call()
        self.assertEqual((loader.report, loader.kept), (before, 0))

    def on_alarm(self, handler):
        """Sets the handler of the timer, for this test."""
        previous = signal.signal(signal.SIGALRM, lambda *_: handler())
        self.addCleanup(signal.signal, signal.SIGALRM, previous)
        self.addCleanup(signal.setitimer, signal.ITIMER_REAL, 0)

    def test_handler(self):
        """A signal handler that reads and uses the loader that it interrupts does not hang, and every line counts."""
        table, loader, handled = Table.fresh(), Loader(), []

        def handler():
            before = loader.report.lines
            loader.piece(table, b"C D r\n")
            handled.append((copy.copy(loader).report.lines - before, loader.kept))
            signal.setitimer(signal.ITIMER_REAL, 0.0002)

        self.on_alarm(handler)
        signal.setitimer(signal.ITIMER_REAL, 0.0002)
        pieces, until = 0, time.monotonic() + 0.2
        while time.monotonic() < until or len(handled) < 20:
            loader.piece(table, b"A B r\nA E w\n")
            pieces += 1
            loader.kept, loader.report
        signal.setitimer(signal.ITIMER_REAL, 0)
        lines = 2 * pieces + len(handled)
        self.assertEqual(set(handled), {(1, 0)})
        self.assertEqual(loader.end(table), Report(lines, lines, 0, 0, None, None, None, 0))

    def test_raising_handler(self):
        """Wherever a handler raises, as that of Ctrl-C does, a call of a loader is done or not, and the loader goes on."""
        class Raised(Exception):
            pass

        def handler():
            raise Raised

        self.on_alarm(handler)
        table = Table.fresh()
        for text, lines, turns in ((b"A B r\n", 1, 4000), (b"A B r\n" * 300, 300, 400)):
            loader, done, broken = Loader(), 0, 0
            turn = 0
            while turn < turns or not broken:
                turn += 1
                try:
                    signal.setitimer(signal.ITIMER_REAL, 1e-6 * (1 + turn % 40))
                    loader.piece(table, text)
                    done += 1
                    signal.setitimer(signal.ITIMER_REAL, 0)
                except Raised:
                    broken += 1
            report = loader.end(table)
            self.assertEqual((report.lines % lines, report.accepted, report.refused), (0, report.lines, 0))
            self.assertTrue(done <= report.lines // lines <= done + broken, (done, broken, report))

        text = b"A B r\n" * 400_000  # one call, so long that the handler is due in it
        for _ in range(2000):  # where this process had to wait before the call, the handler came too early
            loader = Loader()
            with self.assertRaises(Raised):
                signal.setitimer(signal.ITIMER_REAL, 0.001)
                loader.piece(table, text)
                time.sleep(1)
            if loader.report.lines:
                break
        self.assertEqual(loader.report.lines, 400_000, "the call was made, and its answer was lost")
        loader.piece(table, b"A B r\n")
        self.assertEqual(loader.end(table).accepted, 400_001)

    def test_collector(self):
        """A __del__ that the collector runs anywhere can use the loader or is told that it is in use; what was done counts."""
        table, loader, done, told = Table.fresh(), Loader(), [], []

        class Cycle:
            def __init__(self):
                self.own = self

            def __del__(self):
                try:
                    lines = loader.report.lines
                    loader.piece(table, b"C D r\n")
                    done.append(loader.report.lines - lines)
                except RuntimeError as error:
                    told.append(str(error)[:22])

        threshold = gc.get_threshold()
        self.addCleanup(gc.set_threshold, *threshold)
        pieces = 0
        for first in (1, 2, 3, 4, 5, 7, 11):
            gc.set_threshold(first, 1, 1)
            for _ in range(60):
                Cycle()
                loader.piece(table, b"A B r\n")
                pieces += 1
        gc.set_threshold(*threshold)
        gc.collect()
        self.assertEqual(len(done) + len(told), 420)
        self.assertEqual((set(done), set(told) - {"this loader is in use:"}), ({1}, set()))
        lines = pieces + len(done)
        self.assertEqual(loader.end(table), Report(lines, lines, 0, 0, None, None, None, 0))

    @unittest.skipIf(sys.version_info >= (3, 12), "since 3.12 the collector runs between two steps alone")
    def test_collector_within_a_call(self):
        """The mark is not for nothing: in this Python the collector does run within the step."""
        told = []
        gc.freeze()  # so that it has little to look at
        self.addCleanup(gc.unfreeze)
        for count in range(20, 100):
            loader, table = Loader(), Table.fresh()

            class Cycle:
                def __del__(self, loader=loader):
                    try:
                        loader.kept = 0
                    except RuntimeError:
                        told.append(count)

            threshold = gc.get_threshold()
            gc.collect()
            cycle = Cycle()
            cycle.own = cycle
            del cycle
            gc.set_threshold(count)
            try:
                loader.piece(table, b"A B r\n")
            finally:
                gc.set_threshold(*threshold)
            self.assertEqual(loader.end(table).accepted, 1)
            gc.collect()
        self.assertTrue(told)

    def test_fork(self):
        """A child that is forked while other threads use a loader can use it: it does not hang, and the loader is not torn."""
        table, loader, stop = Table.fresh(), Loader(), threading.Event()

        def work():
            while not stop.is_set():
                loader.piece(table, b"A B r\nA ")
                loader.piece(table, b"")
                loader.piece(table, b"B w\nC B r\n")

        def child():
            signal.signal(signal.SIGALRM, signal.SIG_DFL)
            signal.setitimer(signal.ITIMER_REAL, 10)  # ends it, where it hangs
            report, kept = loader.report, loader.kept
            loader.piece(table, b"B w\n" if kept else b"")
            again = copy.copy(loader)
            end = loader.end(table)
            return kept in (0, 2) and end.refused == 0 and end.accepted == end.lines == report.lines + (kept > 0) and again.report == end

        interval = sys.getswitchinterval()
        sys.setswitchinterval(1e-6)
        thread = threading.Thread(target=work)
        thread.start()
        try:
            for _ in range(40):
                pid = os.fork()
                if pid == 0:
                    status = 1
                    try:
                        status = 0 if child() else 2
                    finally:
                        os._exit(status)
                self.assertEqual(os.waitpid(pid, 0)[1], 0)
        finally:
            stop.set()
            thread.join()
            sys.setswitchinterval(interval)
        self.assertEqual(loader.end(table).refused, 0)

    def test_of_one_moment(self):
        """What takes more than one step is of one moment all the same: here a write comes right behind each call of the library."""
        real = balqirven._library

        class Written:
            def __getattr__(self, name):
                def call(*arguments):
                    answer = getattr(real, name)(*arguments)
                    real.bq_fresh_table(*table._lent)
                    for text in (b"N" * 255 + b" M - -", b"M O w -"):
                        real.bq_change(*table._lent, text, len(text))
                    return answer
                return call

        for call in (lambda t: t.label(5), Table.rules, Table.stored_labels, lambda t: t.list_rule(0), Table.parts, lambda t: copy.copy(t).parts()):
            table = one_rule()
            table.change(b"Alarm Other rw -")
            wanted = call(table)
            with mock.patch.object(balqirven, "_library", Written()):
                self.assertEqual(call(table), wanted)

        def bytes_before_a_write(part):
            content = bytes(part)
            table.make_fresh()
            return content

        table = one_rule()
        wanted = table.parts()
        with mock.patch.object(balqirven, "bytes", bytes_before_a_write, create=True):
            self.assertEqual(table.parts(), wanted)
        self.assertNotEqual(table.parts(), wanted)

    def test_of_one_moment_in_threads(self):
        """Two rules go from (-, -) to (r, -) to (r, r) and back, so never is (-, r); of another table label 5 is one of two, and the parts are of few kinds."""
        table, named, stop, wrong, kinds = Table.fresh(), Table.fresh(), threading.Event(), [], set()
        for text in (b"A B - -", b"C D - -"):
            table.change(text)
        steps = named.make_fresh, lambda: named.override_list(b"N" * 255), named.make_fresh, lambda: named.mapping(b"M 9 1")
        for step in 2 * steps:
            step()
            kinds.add(named.parts())

        def write():
            while not stop.is_set():
                for text in (b"A B r -", b"C D r -", b"C D - r", b"A B - r"):
                    table.change(text)
                for step in steps:
                    step()

        interval = sys.getswitchinterval()
        sys.setswitchinterval(1e-6)
        thread = threading.Thread(target=write)
        thread.start()
        try:
            until = time.monotonic() + 0.3
            while time.monotonic() < until:
                for rules in (table.rules(), Table.from_parts(*table.parts()).rules(), copy.copy(table).rules()):
                    if rules == [b"A B -\n", b"C D r\n"]:
                        wrong.append(rules)
                if named.parts() not in kinds:
                    wrong.append("parts of several moments")
                try:
                    labels = {named.label(5), *named.stored_labels()[5:]}
                except Refused as refused:
                    self.assertIs(refused.refusal, Refusal.NO_SUCH_NUMBER)
                else:
                    wrong.extend(labels - {b"N" * 255, b"M"})
        finally:
            stop.set()
            thread.join()
            sys.setswitchinterval(interval)
        self.assertEqual(wrong, [])

    def test_without_interpreter_lock(self):
        with mock.patch.object(sys, "_is_gil_enabled", lambda: False, create=True), self.assertRaisesRegex(ImportError, "PYTHON_GIL=1"):
            balqirven._load(balqirven.LIBRARY)


class Impossibles(unittest.TestCase):
    """Where the library answers what its header does not have, there is no answer."""

    def refuses(self, call, name, answer):
        with mock.patch.object(balqirven, "_library", mock.Mock(**{name: lambda *_: answer})):
            with self.assertRaises(Impossible) as caught:
                call()
        self.assertIsInstance(caught.exception, AssertionError)

    def test_kinds(self):
        table = one_rule()
        question, new = lambda: table.question(b"A", b"B", b"r"), lambda: table.new_object(b"A", b"B", folder_transmutes=True, is_folder=True)
        for kind in (3, 255):
            self.refuses(lambda: table.by_label(b"A"), "bq_by_label", balqirven._bq_mapped(kind=kind))
            self.refuses(lambda: table.by_level(9, Set()), "bq_by_level", balqirven._bq_lowest(kind=kind))
            self.refuses(lambda: lowest_in_run([], 9, Set()), "bq_lowest_in_run", balqirven._bq_lowest(kind=kind))
            self.refuses(lambda: lowest_of([], [], [], 9, Set()), "bq_lowest_of", balqirven._bq_lowest(kind=kind))
        for kind in (4, 255):
            for rule in range(9):
                self.refuses(question, "bq_question", balqirven._bq_decision(kind=kind, number=rule))
            self.refuses(new, "bq_new_object", balqirven._bq_labelled(kind=kind))
        for kind, rules in ((0, (0, 1, 7, 8)), (1, (0, 2, 6, 8)), (2, (0, 2, 6, 8))):
            for rule in rules:
                self.refuses(question, "bq_question", balqirven._bq_decision(kind=kind, number=rule))

    def test_refusals(self):
        calls = {**ON_A_TABLE, "bq_fresh_table": lambda t: t.make_fresh(), "bq_lowest_in_run": lambda t: lowest_in_run([], 9, Set()),
                 "bq_lowest_of": lambda t: lowest_of([], [], [], 9, Set()), "bq_record_to_line": lambda t: record_to_line(b""),
                 "bq_line_to_record": lambda t: line_to_record(b"")}
        calls["bq_piece"], calls["bq_end"] = lambda t: loader.piece(t, b""), lambda t: loader.end(t)
        self.assertEqual({*calls, "bq_fresh_loader"}, set(balqirven._FUNCTIONS))
        refused = {"bq_by_label": 2, "bq_by_level": 2, "bq_lowest_in_run": 2, "bq_lowest_of": 2, "bq_question": 3, "bq_new_object": 3}
        table, loader = one_rule(), Loader()
        for name, call in calls.items():
            for number in (20, 22, 255):
                mark = {"kind": refused[name]} if name in refused else {"refused": True}
                self.refuses(lambda: call(table), name, balqirven._FUNCTIONS[name][0](number=number, **mark))

    def test_lengths(self):
        table = one_rule()
        for length in (519, 2**64 - 1):
            self.refuses(lambda: table.list_rule(0), "bq_list_rule", balqirven._bq_length(length=length))
            self.refuses(lambda: table.list_rule(0, bytearray(518)), "bq_list_rule", balqirven._bq_length(length=length))
        for start, length in ((16384, 1), (0, 16385), (2**64 - 1, 1)):
            self.refuses(lambda: table.label(0), "bq_label", balqirven._bq_part(start=start, length=length))
        self.refuses(lambda: table.read_option(b""), "bq_read_option", balqirven._bq_peer(length=256))

    def test_reports(self):
        loader = Loader()
        table = one_rule()
        self.refuses(lambda: loader.end(table), "bq_end", balqirven._bq_finished(report=balqirven._bq_report(refused=1, reason=20)))


class Finding(unittest.TestCase):
    """Where the shared library is found, and what is said where it is not. Each import is a new Python's."""

    def setUp(self):
        self.folder = pathlib.Path(tempfile.mkdtemp()).resolve()
        self.addCleanup(shutil.rmtree, self.folder)

    def imported(self, folder, **environment):
        """The library that a copy of the module in this folder loads, or the ImportError's text."""
        folder.mkdir(parents=True, exist_ok=True)
        shutil.copy(balqirven.__file__, folder)
        clean = {name: value for name, value in os.environ.items() if name not in ("BALQIRVEN_LIBRARY", "PYTHONPATH", "LD_LIBRARY_PATH")}
        code = "try:\n import balqirven\n print(balqirven.LIBRARY)\nexcept ImportError as error:\n print('ImportError:', error)"
        return subprocess.run([sys.executable, "-B", "-c", code], env={**clean, "PYTHONPATH": str(folder), **environment}, cwd=self.folder, check=True,
                              stdout=subprocess.PIPE, text=True).stdout.strip()

    def library(self, folder, name="libbalqirven.so.5"):
        folder.mkdir(parents=True, exist_ok=True)
        shutil.copy(balqirven.LIBRARY, folder / name)
        return str(folder / name)

    def test_installed(self):
        path = self.library(self.folder / "prefix" / "lib")
        for place in ("lib/python", "share/balqirven", "lib"):
            self.assertEqual(self.imported(self.folder / "prefix" / place), path)
        own = self.library(self.folder / "prefix" / "lib" / "python")
        self.assertEqual(self.imported(self.folder / "prefix" / "lib" / "python"), own)
        (self.folder / "linked").mkdir()
        (self.folder / "linked" / "balqirven.py").symlink_to(self.folder / "prefix" / "share" / "balqirven" / "balqirven.py")
        code = "import balqirven; print(balqirven.LIBRARY)"
        run = subprocess.run([sys.executable, "-B", "-c", code], env={"PYTHONPATH": str(self.folder / "linked"), "PATH": os.environ["PATH"]}, check=True,
                             stdout=subprocess.PIPE, text=True)
        self.assertEqual(run.stdout.strip(), path)

    def test_named(self):
        self.library(self.folder / "prefix" / "lib")
        module, named = self.folder / "prefix" / "lib" / "python", self.library(self.folder, "any.so")
        self.assertEqual(self.imported(module, BALQIRVEN_LIBRARY=named), named)
        self.assertEqual(self.imported(module, BALQIRVEN_LIBRARY="any.so"), named)
        self.assertTrue(self.imported(module, BALQIRVEN_LIBRARY="").endswith("/prefix/lib/libbalqirven.so.5"))
        said = self.imported(module, BALQIRVEN_LIBRARY="other.so")
        self.assertRegex(said, "^ImportError: .*/other.so is not libbalqirven 5.1 or cannot be loaded: ")

    def test_known_to_the_system(self):
        self.library(self.folder / "system")
        (self.folder / "system" / "libbalqirven.so").symlink_to("libbalqirven.so.5")
        self.assertEqual(self.imported(self.folder / "a" / "b" / "c", LD_LIBRARY_PATH=str(self.folder / "system")), "libbalqirven.so.5")

    def test_other_major_known_to_the_system(self):
        """It has all the functions, and is not loaded."""
        (self.folder / "system").mkdir()
        source = "".join(f"int {name}(void) {{ return 0; }}\n" for name in balqirven._FUNCTIONS)
        subprocess.run(["gcc", "-shared", "-x", "c", "-", "-Wl,-soname,libbalqirven.so.6", "-o", self.folder / "system" / "libbalqirven.so.6"], input=source,
                       text=True, check=True)
        (self.folder / "system" / "libbalqirven.so").symlink_to("libbalqirven.so.6")
        said = self.imported(self.folder / "a" / "b" / "c", LD_LIBRARY_PATH=str(self.folder / "system"))
        self.assertRegex(said, r"^ImportError: libbalqirven\.so\.5 is not there: .* found libbalqirven\.so\.6$")

    def test_not_there(self):
        said = self.imported(self.folder / "a" / "b" / "c")
        self.assertTrue(said.startswith("ImportError: libbalqirven.so.5 is not there: BALQIRVEN_LIBRARY is not set; no "), said)
        for place in ("a/b/c", "a/b/lib", "a/lib"):
            self.assertIn(f"no {self.folder / place / 'libbalqirven.so.5'};" if place == "a/lib" else f"no {self.folder / place / 'libbalqirven.so.5'},", said)
        self.assertTrue(said.endswith("ctypes.util.find_library found none"), said)

    def test_another_library(self):
        other = str(self.folder / "other.so")
        subprocess.run(["gcc", "-shared", "-x", "c", "-", "-o", other], input="int bq_fresh_table(void) { return 0; }\n", text=True, check=True)
        self.assertRegex(self.imported(self.folder / "m", BALQIRVEN_LIBRARY=other), "^ImportError: .*bq_fresh_loader")


class Examples(unittest.TestCase):
    def test_each_has_one(self):
        """Every public class, function, method and property has an example in its docstring."""
        found = {test.name for test in doctest.DocTestFinder().find(balqirven) if test.examples}
        public = {"balqirven"}
        for name in balqirven.__all__:
            thing = getattr(balqirven, name)
            if isinstance(thing, (int, str)):
                continue
            public.add(f"balqirven.{name}")
            if isinstance(thing, type):
                public.update(f"balqirven.{name}.{member}" for member, value in vars(thing).items()
                              if not member.startswith("_") and isinstance(value, (property, classmethod, type(lambda: 0))))
        self.assertEqual(public - found, set())
        self.assertGreaterEqual(len(public), 40)


if __name__ == "__main__":
    unittest.main()
