#!/usr/bin/env python3
"""Writes the stored corpus, tests/corpus: inputs of the program (NAME.in) and call scripts over the library (NAME.calls, tests/second/FORMAT.md), and by
the second implementation the outputs that go with them (NAME.out, NAME.answers).

  tests/make_corpus.py

The order is that of 01, the scope paper; then come the old fixed records of 02, request One, how labels and pairs are found, request Two, the places of bad bytes, request Three, the
categories up to 184, request Four, the packet option, request Five, the letter b, which is retired, request Six, and the label of a new object, request Seven. What the paper says of a call stands before the call as a comment line that tests/corpus_check holds the answers to:

  # expect: ANSWER              the next call answers exactly this
  # expect: same NAME           the next call answers what the first call so marked in this script answered
  # expect: same tables NAME    of a dump: the same but for the kept line and the loader
  # expect from here: ANSWER    each call answers this, up to the line `# expect from here: any`

These lines are written here from the papers, not taken from a program. Where a call is expected to be refused with 3, the place beside it is worked out from its bytes by the short functions
below, which say what 02, Three, says; the scripts places_* give most places by hand. The packet options that a loop makes, and what is read of them, are worked out by short functions at the head of
that group, which say 02, Five, category by category; others stand as numbers. The label of a new object is worked out, where a loop asks for it, by a short function at the head of that group, which was written from 02, Seven; otherwise it stands as words. Where a single line is accepted, whether the report counts it as one that held b is told by its access field. What the program says to a small input is given here too, and tested as the corpus
is written. The scripts kernel_*.calls are made of recordings of a running kernel, from the folder named by KERNEL_VECTORS; without it those that are stored
stay as they are.
"""
import os
import random
import re
import subprocess
import sys

HERE = os.path.dirname(os.path.abspath(__file__))
CORPUS = os.path.join(HERE, "corpus")
SECOND = os.path.join(HERE, "second", "target", "release", "second")
MOST = 4294967295
HUGE = 18446744073709551615
FIVE = [b"_", b"^", b"*", b"?", b"@"]
written = []


def h(data):
    return data.hex() or "-"


def w(data):
    """The shorter and plainer way to write bytes in a call, where there is one."""
    return "=" + data.decode() if data and all(33 <= b <= 126 for b in data) else h(data)


def category(n):
    """A set is a number of 192 bits here, its first word the highest: category 1 is the top bit, 184 the bit 256. The eight bits below are no categories."""
    return 1 << (192 - n)


C62, C63 = category(62), category(63)
ALL = sum(category(n) for n in range(1, 185))
EVERY_BIT = (1 << 192) - 1


def words_of(set_):
    return [set_ >> 128, set_ >> 64 & HUGE, set_ & HUGE]


def said(set_):
    """A set in a call or an answer: its three words."""
    return "%d:%d:%d" % tuple(words_of(set_))


def mapped(level, set_, count):
    """The answer to a look-up by label."""
    return "mapping %d %s %d" % (level, said(set_), count)


def place_of(label):
    """The place of a label's first bad byte: 0 for an empty label and for a leading dash, 255 for a label that is too long with no earlier fault. None for a label that is well formed."""
    if label == b"" or label[:1] == b"-":
        return 0
    for at, byte in enumerate(label):
        if at == 255 or byte not in LABEL_BYTES:
            return at
    return None


def place_in(text, labels):
    """The place in a line or write of the first bad byte of the first bad label: `labels` of its fields are labels, those in front; None: all are."""
    for field in list(re.finditer(rb"[^ \t]+", text))[:labels]:
        if place_of(field.group()) is not None:
            return field.start() + place_of(field.group())
    return None


def place_said(call):
    """The place that a call, refused with 3, has beside the number; None for a call that has none."""
    name, *words = call.split(" ")
    if name not in ("change", "revoke", "override", "mapping", "bylabel", "question"):
        return None
    one, *others = [b"" if word == "-" else word[1:].encode() if word[0] == "=" else bytes.fromhex(word) for word in words[:2]]
    if name == "question":
        return place_of(others[0]) if place_of(one) is None else place_of(one)
    if name in ("revoke", "bylabel"):
        return place_of(one)
    return place_in(one, {"change": 2, "mapping": 1, "override": None}[name])


def output_says(expect, out):
    """The answer of a call that writes to the front of `out`: `expect` is what it writes, or the number of its refusal, which leaves all of `out`."""
    if isinstance(expect, bytes):
        return "length %d %s" % (len(expect), h(expect + out[len(expect):]))
    return "refused %d %s" % (expect, h(out))


class Script:
    def __init__(self, name, about, short=False):
        """`short`: as stored, calls in a row that expect the same stand under one line `# expect from here`; then from_here() is not to be used."""
        self.name, self.lines, self.short, self.buffer = name, ["# " + about], short, b"\xee" * (12 if short else 20)

    def say(self, text):
        self.lines.append("# " + text)

    def call(self, text, expect=None):
        """`expect` may be `refused 3` without the place: then it is worked out."""
        if expect == "refused 3" and place_said(text) is not None:
            expect += " %d" % place_said(text)
        if expect is not None:
            self.lines.append("# expect: " + expect)
        self.lines.append(text)

    def from_here(self, expect):
        assert not self.short
        self.lines.append("# expect from here: " + expect)

    def fresh(self):
        self.call("fresh", "done")
        self.call("freshloader", "done")

    def piece(self, text, expect="done"):
        self.call("piece " + h(text), expect)

    def end(self, expect=None, place=0, bringup=0):
        """`expect` is a report without its last two numbers, the place of the first refused line and how many accepted lines held b; or another answer."""
        self.call("end", "%s %d %d" % (expect, place, bringup) if (expect or "").startswith("report ") else expect)

    def line(self, text, reason, place=None):
        """One whole line. Reason None: accepted; "skipped"; else the number of its refusal. The place beside 3 is worked out where it is not given, and so is the count of lines with b."""
        self.piece(text + b"\n")
        if reason == 3 and place is None:
            place = place_in(text, 2)
        self.end("report 1 " + ("1 0 0 0 0" if reason is None else "0 1 0 0 0" if reason == "skipped" else "0 0 1 1 %d" % reason), place or 0, reason is None and b"b" in cut(text)[2].lower())

    def change(self, text, expect="done"):
        self.call("change " + h(text), expect)

    def revoke(self, text, expect):
        self.call("revoke " + w(text), expect)

    def override(self, text, expect="done"):
        self.call("override " + h(text), expect)

    def mapping(self, text, expect="done"):
        self.call("mapping " + h(text), expect)

    def bylabel(self, label, expect):
        self.call("bylabel " + w(label), expect)

    def bylevel(self, level, set_, expect):
        self.call("bylevel %d %s" % (level, said(set_)), expect)

    def run(self, level, set_, records, expect):
        self.call(" ".join(["run %d %s" % (level, said(set_))] + ["%d,%d,%s" % (label, of, said(record)) for label, of, record in records]), expect)

    def ask(self, subject, object_, request, expect, capable=0):
        self.call("question %s %s %s %d" % (w(subject), w(object_), w(request), capable), expect)

    def list(self, k, expect=None, buffer=None):
        """`expect` is the line that is listed, or the number of a refusal."""
        buffer = self.buffer if buffer is None else buffer
        self.call("list %d %s" % (k, h(buffer)), None if expect is None else output_says(expect, buffer))

    def to_line(self, record, expect, out=b"\xee" * 56):
        """`expect` is the line that is written, or the number of a refusal."""
        self.call("recordtoline %s %s" % (h(record), h(out)), output_says(expect, out))

    def to_record(self, line, expect, out=b"\xee" * 56):
        """`expect` is the record that is written, or the number of a refusal."""
        self.call("linetorecord %s %s" % (h(line), h(out)), output_says(expect, out))

    def write_option(self, label, expect, out=None):
        """`expect` is the option that is written, or the number of a refusal. The output is two bytes longer than the option, or of 40 bytes, where it is not given."""
        if out is None:
            out = b"\xee" * (len(expect) + 2 if isinstance(expect, bytes) else 40)
        self.call("writeoption %s %s" % (w(label), h(out)), output_says(expect, out))

    def read_option(self, option, expect):
        """`expect` is the label that is answered, or the number of a refusal, which has no place beside it."""
        self.call("readoption " + h(option), "peer " + h(expect) if isinstance(expect, bytes) else "refused %d" % expect)

    def newobject(self, creator, folder, transmutes, is_folder, expect):
        """`expect` is `creator`, `folder 0`, `folder 1` or `denied`, or the number of a refusal, which has no place beside it."""
        self.call("newobject %s %s %d %d" % (w(creator), w(folder), transmutes, is_folder), "refused %d" % expect if isinstance(expect, int) else expect)

    def label(self, k, expect):
        self.call("label %d" % k, "done " + h(expect) if isinstance(expect, bytes) else "refused %d -" % expect)

    def dump(self, name=None, tables=False):
        self.call("dump", None if name is None else "same " + ("tables " if tables else "") + name)

    def poke(self, part, at, value):
        self.call("poke %s %d %s" % (part, at, value if isinstance(value, str) else h(value) if isinstance(value, bytes) else value), "done")

    def poke_set(self, k, set_):
        """The three words of the set of mapping k."""
        for row, word in zip((4, 36, 68), words_of(set_)):
            self.poke("words", row + k, word)

    def shortened(self):
        made, here, expect, calls = [], None, None, []
        for line in self.lines:
            if line.startswith("# expect: "):
                expect = line[len("# expect: "):]
            elif line.startswith("# "):
                calls.append((None, line))
            else:
                calls.append((expect, line))
                expect = None
        for k, (expect, line) in enumerate(calls):
            if not line.startswith("# ") and expect != here:
                following = [e for e, other in calls[k + 1:k + 8] if not other.startswith("# ")]
                if expect is None or not expect.startswith("same ") and following.count(expect) > following.count(here):
                    here = expect
                    made.append("# expect from here: " + (here or "any"))
                else:
                    made.append("# expect: " + expect)
            made.append(line)
        return made

    def store(self):
        if self.short:
            self.lines = self.shortened()
        path = os.path.join(CORPUS, self.name + ".calls")
        text = ("\n".join(self.lines) + "\n").encode()
        with open(path, "wb") as f:
            f.write(text)
        made = subprocess.run([SECOND, "script"], input=text, capture_output=True, check=True).stdout
        with open(os.path.join(CORPUS, self.name + ".answers"), "wb") as f:
            f.write(made)
        written.append(self.name)


def program(name, text, expect=None):
    """An input of the program. `expect`: what it writes, one string a line."""
    made = subprocess.run([SECOND, "program"], input=text, capture_output=True, check=True).stdout
    if expect is not None and made.decode().splitlines() != expect:
        sys.exit("%s: expected %s, but the second implementation writes %s" % (name, expect, made))
    for end, data in ((".in", text), (".out", made)):
        with open(os.path.join(CORPUS, name + end), "wb") as f:
            f.write(data)
    written.append(name)


def name_of(k):
    return FIVE[k] if k < 5 else b"L%02d" % k


def labels_to(s, count, start=5):
    """Labels L05, L06, .. come in until there are `count`, by override lists of eight, and the list is cleared."""
    for k in range(start, count, 8):
        s.override(b" ".join(name_of(i) for i in range(k, min(k + 8, count))))
    s.override(b"-")


def pairs():
    """Different pairs of L05 to L24, in a fixed order: 380."""
    return [(name_of(a), name_of(b)) for a in range(5, 25) for b in range(5, 25) if a != b]


def rules_to(s, count):
    s.piece(b"".join(b"%s %s r\n" % (a, b) for a, b in pairs()[:count]))
    s.end("report %d %d 0 0 0 0" % (count, count))


def full(s, labels=64, rules=256, mappings=32):
    s.fresh()
    labels_to(s, labels)
    if rules:
        rules_to(s, rules)
    for k in range(mappings):
        s.mapping(name_of(k) + b" 9 1 63")


# ---------------------------------------------------------------------------------------------------------------------------------------------
# Either side of a limit
# ---------------------------------------------------------------------------------------------------------------------------------------------

def limits():
    s = Script("limits", "01, Either side of a limit: each line, the proved ones too.")
    for n, subject, object_, request, answer in ((1, b"*", b"_", b"r", "denied 1"), (2, b"^", b"Door", b"rx", "granted 2"),
                                                  (3, b"Door", b"_", b"rw", "denied 7"), (4, b"^", b"*", b"rw", "granted 4"),
                                                  (5, b"*", b"*", b"r", "denied 1"), (6, b"Door", b"Door", b"rwxa", "granted 5")):
        s.say("P%d" % n)
        s.ask(subject, object_, request, answer)
    s.say("After `Probe3 Air w`: P7, P8, P9")
    s.line(b"Probe3 Air w", None)
    s.ask(b"Probe3", b"Air", b"w", "granted 6")
    s.ask(b"Probe3", b"Air", b"rw", "denied 7")
    s.ask(b"Air", b"Probe3", b"w", "denied 7")
    s.say("P10")
    s.fresh()
    s.line(b"Probe3 Air rRb", None)
    s.ask(b"Probe3", b"Air", b"r", "granted 6")
    s.say("P11")
    s.fresh()
    s.line(b"A B r", None)
    s.change(b"A B wa w")
    s.list(0, b"A B ra\n")
    s.say("P12")
    s.mapping(b"Vault7 9 1 63")
    s.bylabel(b"Vault7", mapped(9, category(1) | category(63), 2))

    s.say("A 255-byte label is taken, 256 is refused 3, in every call that takes a label.")
    for length, taken in ((254, True), (255, True), (256, False)):
        long = b"L" * length
        s.fresh()
        s.line(long + b" B r", None if taken else 3)
        s.line(b"B " + long + b" r", None if taken else 3)
        s.change(long + b" C r -", "done" if taken else "refused 3")
        s.change(b"C " + long + b" r -", "done" if taken else "refused 3")
        s.override(b"C " + long, "done" if taken else "refused 3")
        s.mapping(long + b" 9", "done" if taken else "refused 3")
        s.bylabel(long, mapped(9, 0, 0) if taken else "refused 3")
        s.ask(long, b"B", b"r", "granted 6" if taken else "refused 3")
        s.ask(b"B", long, b"r", "granted 6" if taken else "refused 3")
        s.revoke(long, "revoked 2" if taken else "refused 3")
    s.say("Two labels that differ only in byte 255 are two labels.")
    s.fresh()
    one, two = b"L" * 254 + b"1", b"L" * 254 + b"2"
    s.line(one + b" B r", None)
    s.ask(one, b"B", b"r", "granted 6")
    s.ask(two, b"B", b"r", "denied 7")
    s.line(two + b" B w", None)
    s.ask(two, b"B", b"r", "denied 7")
    s.label(5, one)
    s.label(7, two)
    s.line(one + b" " + two + b" rwxatb", None)
    s.say("The longest line of a listing: 255, 255, five letters, two spaces, a newline: 518.")
    s.list(2, one + b" " + two + b" rwxat\n", b"\xee" * 518)
    s.list(2, one + b" " + two + b" rwxat\n", b"\xee" * 519)
    s.list(2, 12, b"\xee" * 517)

    s.say("600 blanks are skipped; 601 are refused 1. Also as the last line, without a newline.")
    for blank in (b" ", b"\t"):
        for length, reason in ((0, "skipped"), (1, "skipped"), (599, "skipped"), (600, "skipped"), (601, 1), (602, 1)):
            s.line(blank * length, reason)
        s.piece(blank * 600)
        s.end("report 1 0 1 0 0 0")
        s.piece(blank * 601)
        s.end("report 1 0 0 1 1 1")
    s.say("A line or write of 600 bytes is taken, of 601 refused 1.")
    for length in (599, 600, 601):
        n = length - 5
        s.fresh()
        s.line(b"A B r" + b" " * n, None if length < 601 else 1)
        s.line(b" " * n + b"A B r", None if length < 601 else 1)
        s.change((b"A B r -" + b" " * 600)[:length], "done" if length < 601 else "refused 1")
        s.override((b"A" + b" " * 600)[:length], "done" if length < 601 else "refused 1")
        s.mapping((b"A 9" + b" 1" * 299)[:length])
        s.revoke(b"A" * length, "refused 1" if length == 601 else "refused 3")
    s.say("A mapping write of 1,000 bytes is taken, of 1,001 refused 1.")
    for length in (999, 1000, 1001):
        s.mapping((b"A 9" + b" 1" * 499)[:length], "refused 1" if length == 1001 else "done")

    s.say("With 63 labels, a rule naming two new ones is refused 6 and neither enters.")
    s.fresh()
    labels_to(s, 63)
    s.dump("63", True)
    s.line(b"New1 New2 r", 6)
    s.dump("63", True)
    s.change(b"New1 New2 r -", "refused 6")
    s.dump("63", True)
    s.label(63, 13)
    s.say("One new label still enters; then none.")
    s.line(b"New1 L05 r", None)
    s.label(63, b"New1")
    s.line(b"New2 L05 r", 6)
    s.line(b"New1 L06 r", None)
    s.label(64, 13)
    s.say("With 256 rules, a new pair of known labels is refused 7; a known pair is set.")
    s.fresh()
    labels_to(s, 25)
    rules_to(s, 255)
    a, b = pairs()[255]
    s.line(a + b" " + b + b" r", None)
    s.list(255, a + b" " + b + b" r\n")
    s.dump("256", True)
    c, d = pairs()[256]
    s.line(c + b" " + d + b" r", 7)
    s.change(c + b" " + d + b" r -", "refused 7")
    s.dump("256", True)
    s.line(a + b" " + b + b" wx", None)
    s.list(255, a + b" " + b + b" wx\n")
    s.change(a + b" " + b + b" - x")
    s.list(255, a + b" " + b + b" w\n")
    s.list(256, 13)
    s.say("256 rules, and a label place free: 7, and the label does not enter.")
    s.line(b"Other L05 r", 7)
    s.change(b"Other L05 r -", "refused 7")
    s.label(25, 13)

    s.say("Category 0 and 185: refused 9. So is a level of 256.")
    s.fresh()
    for field, taken in ((b"0", False), (b"1", True), (b"63", True), (b"64", True), (b"184", True), (b"185", False), (b"000", False), (b"001", True), (b"063", True), (b"064", True),
                         (b"0001", False), (b"0184", False), (b"999", False), (b"+1", False), (b"1a", False), (b"-", False), (b"-1", False), (b"\xb2", False)):
        s.mapping(b"V 9 " + field, "done" if taken else "refused 9")
        s.mapping(b"V 9 1 " + field, "done" if taken else "refused 9")
        s.mapping(b"V 9 " + field + b" 1", "done" if taken else "refused 9")
    for n in range(1, 185):
        s.mapping(b"V 9 %d" % n)
        s.bylabel(b"V", mapped(9, category(n), 1))
    s.say("All 184; the first 63, as they were before; repeats count once.")
    s.mapping(b"V 0 " + b" ".join(b"%d" % n for n in range(1, 185)))
    s.bylabel(b"V", mapped(0, ALL, 184))
    s.mapping(b"V 0 " + b" ".join(b"%d" % n for n in range(1, 64)))
    s.bylabel(b"V", "mapping 0 %d:0:0 63" % (HUGE - 1))
    s.mapping(b"V 0 " + b" ".join([b"7"] * 100))
    s.bylabel(b"V", mapped(0, category(7), 1))
    for field, level in ((b"0", 0), (b"000", 0), (b"9", 9), (b"009", 9), (b"254", 254), (b"255", 255), (b"256", None), (b"999", None), (b"0000", None),
                         (b"0255", None), (b"1000", None), (b"x", None), (b"-", None), (b"2 5 ", 2)):
        s.mapping(b"V " + field, "refused 9" if level is None else "done")
        if level is not None and b" " not in field:
            s.bylabel(b"V", mapped(level, 0, 0))
            s.bylevel(level, 0, "label 5")
    s.say("A level over 255 and a bit that names no category: refused 9, in the table and in a run.")
    for level, set_, bad in ((255, 0, False), (256, 0, True), (HUGE, 0, True), (0, 1, True), (0, C63, False), (0, category(64), False), (0, EVERY_BIT, True), (0, ALL, False), (256, 1, True)):
        s.bylevel(level, set_, "refused 9" if bad else "none")
        s.run(level, set_, [], "refused 9" if bad else "none")
        s.run(level, set_, [(7, level, set_)], "refused 9" if bad else "label 7")

    s.say("32 mappings: the last one is taken, one more is refused 10, and a mapped label is replaced in its place.")
    s.fresh()
    labels_to(s, 40)
    for k in range(31):
        s.mapping(name_of(k) + b" 9")
    s.mapping(name_of(31) + b" 9")
    s.dump("32")
    s.mapping(name_of(32) + b" 9", "refused 10")
    s.mapping(b"Other 9", "refused 10")
    s.dump("32")
    s.label(40, 13)
    s.mapping(name_of(31) + b" 8 5")
    s.bylabel(name_of(31), mapped(8, category(5), 1))
    s.bylevel(8, category(5), "label 31")
    s.bylevel(9, 0, "label 0")
    s.say("8 different labels in an override list are taken, 9 are refused 11; repeats count once.")
    s.fresh()
    eight = b" ".join(b"P%d" % k for k in range(8))
    s.override(eight)
    s.dump("8")
    s.override(eight + b" P8", "refused 11")
    s.override(b"P8 " + eight, "refused 11")
    s.dump("8")
    s.override(eight + b" " + eight + b" P0")
    s.dump("8")
    s.override(b"P3 " * 200)
    s.override(b" ".join([eight] * 10))
    s.store()


# ---------------------------------------------------------------------------------------------------------------------------------------------
# Labels, modes, rule text
# ---------------------------------------------------------------------------------------------------------------------------------------------

def bytes_and_letters():
    s = Script("bytes", "01, Labels and Modes: every byte in a label, in an access field, in a request and as a field of its own.")
    good = [b for b in range(33, 127) if b not in b"/\\'\""]
    for b in range(256):
        one = bytes([b])
        alone, inside = b in good and b != 45, b in good
        s.bylabel(one, "none" if alone else "refused 3")
        s.bylabel(b"a" + one + b"b", "none" if inside else "refused 3")
        s.bylabel(b"ab" + one, "none" if inside else "refused 3")
        letter = one.lower() in (b"r", b"w", b"x", b"a")
        s.ask(b"A", b"A", one, "granted 5" if letter else "refused 8")
        s.ask(b"A", b"A", b"rw" + one, "granted 5" if letter else "refused 8")
    s.say("In an access field: the letters of a mode, either case, and the dash; in a line b too. A blank leaves the field as it is; a newline ends the line.")
    for b in range(256):
        one = bytes([b])
        if b == 10:
            continue
        blank = b in (32, 9)
        mode = one.lower() in (b"r", b"w", b"x", b"a", b"t", b"b", b"-")
        s.line(b"A B r" + one, None if mode or blank else 4)
        s.change(b"A B - r" + one, "done" if blank or mode and one.lower() != b"b" else "refused 4")
        s.change(b"A B " + one + b"r -", "done" if blank or mode and one.lower() != b"b" else "refused 4")
    s.say("Letters are written in the order r w x a t. A dash is a placeholder, and so is b.")
    for access, listed in ((b"-", b"-"), (b"---", b"-"), (b"a-r", b"ra"), (b"BTAXWR", b"rwxat"), (b"btaxwr", b"rwxat"), (b"rRrR", b"r"), (b"-r", b"r"), (b"r-", b"r"),
                           (b"b", b"-"), (b"tb", b"t"), (b"xw", b"wx")):
        s.line(b"A B " + access, None)
        s.list(0, b"A B " + listed + b"\n")
    for k in range(64):
        access = b"".join(letter for i, letter in enumerate((b"r", b"w", b"x", b"a", b"t", b"b")) if k >> i & 1) or b"-"
        s.line(b"A B " + access[::-1], None)
        s.list(0, b"A B " + (access.replace(b"b", b"") or b"-") + b"\n")
        s.ask(b"A", b"B", b"rwxa", "granted 6" if k & 15 == 15 else "denied 7")
        s.ask(b"A", b"B", b"w", "granted 6" if k & 2 else "denied 7")
        s.ask(b"A", b"B", b"A", "granted 6" if k & 8 else "denied 7")
    s.say("Of a line's b nothing is stored that a change could leave; a line sets the modes wholly.")
    s.line(b"A B rb", None)
    s.change(b"A B w r")
    s.list(0, b"A B w\n")
    s.change(b"A B rwxat rwxat")
    s.list(0, b"A B -\n")
    s.line(b"A B x", None)
    s.list(0, b"A B x\n")
    s.change(b"C D - -")
    s.list(1, b"C D -\n")
    s.store()

    s = Script("text", "01, Rule text and Listing.")
    s.say("The three lines of 01's listing.")
    s.piece(b"Probe3 Air w\nAlarm Air Rx\nDesk Alarm -\n")
    s.list(0, b"Probe3 Air w\n")
    s.list(1, b"Alarm Air rx\n")
    s.list(2, b"Desk Alarm -\n")
    s.list(3, 13)
    s.end("report 3 3 0 0 0 0")
    for k, label in enumerate(FIVE + [b"Probe3", b"Air", b"Alarm", b"Desk"]):
        s.label(k, label)
    s.label(9, 13)
    s.say("A buffer of exactly the length is enough; one byte less is 12; the rest stays.")
    s.list(0, b"Probe3 Air w\n", b"\xee" * 13)
    s.list(0, 12, b"\xee" * 12)
    s.list(0, 12, b"")
    s.list(0, b"Probe3 Air w\n", b"\xee" * 600)
    s.say("Blanks before, after and between; a tab is a blank; other control bytes are bytes of a field.")
    for line, reason in ((b"  A   B   r  ", None), (b"\tA\tB\tr\t", None), (b" \t A \t B \t r \t ", None), (b"A B r\r", 4), (b"A B r \r", 2), (b"\r", 2), (b"A\x00B C r", 3),
                         (b"A B\x0b r", 3), (b"A B r\x00", 4), (b"A\xffB C r", 3), (b"A B", 2), (b"A", 2), (b"A B r w", 2), (b"A B r w x", 2), (b"A/ B", 2), (b"A/ B q", 3),
                         (b"-A B r", 3), (b"A -B r", 3), (b"- - -", 3), (b"A B -", None), (b"A- B- r", None), (b"A A q", 4), (b"A A r", 5), (b"a A r", None),
                         (b"? ? r", 5), (b"* Air r", None), (b"Air * -", None), (b"^ _ w", None), (b"@ ? t", None), (b"** ^^ r", None), (b"A B rwxatbl", 4), (b"A B \xe4", 4)):
        s.line(line, reason)
    s.say("The end call: no further line after a newline; after a blank there is one; a second end call reports zeros.")
    s.piece(b"A B r\n")
    s.end("report 1 1 0 0 0 0")
    s.end("report 0 0 0 0 0 0")
    s.piece(b"A B r\n ")
    s.end("report 2 1 1 0 0 0")
    s.piece(b"A B r")
    s.end("report 1 1 0 0 0 0")
    s.piece(b"")
    s.end("report 0 0 0 0 0 0")
    s.say("The first refused line is reported, later ones only counted; blank lines count and are numbered.")
    s.piece(b"\n \nA B r\n\nA A r\nA\nA B q\nA B w\n")
    s.end("report 8 2 3 3 5 5")
    s.say("A question sees the tables without the line under way; a write acts at once, and the line is judged at its newline.")
    s.fresh()
    s.piece(b"S O r")
    s.ask(b"S", b"O", b"r", "denied 7")
    s.label(5, 13)
    s.piece(b"w")
    s.change(b"S O x -")
    s.ask(b"S", b"O", b"x", "granted 6")
    s.piece(b"\n")
    s.ask(b"S", b"O", b"x", "denied 7")
    s.ask(b"S", b"O", b"rw", "granted 6")
    s.end("report 1 1 0 0 0 0")
    s.say("63 labels and a line with two new ones under way: one of them comes in by a mapping, and the line is taken.")
    s.fresh()
    labels_to(s, 62)
    s.piece(b"New1 New2 r")
    s.mapping(b"Other 9")
    s.piece(b"\nNew1 New2 r")
    s.end("report 2 0 0 2 1 6")
    s.piece(b"New1 L05 r\nNew1 Other r\nNew2 Other r")
    s.end("report 3 2 0 1 3 6")
    s.say("The same with a rule: the line under way finds the tables full.")
    s.fresh()
    labels_to(s, 63)
    s.piece(b"New1 L05 r")
    s.override(b"Other")
    s.piece(b"\n")
    s.end("report 1 0 0 1 1 6")
    s.store()


# ---------------------------------------------------------------------------------------------------------------------------------------------
# Questions
# ---------------------------------------------------------------------------------------------------------------------------------------------

def questions():
    s = Script("questions", "01, Questions: the seven rules for the five labels and two more, each request, with and without the capability.")
    requests = [b"r", b"w", b"x", b"a", b"rx", b"rw", b"xa", b"RX", b"rrxx", b"rwxa"]
    rules = {(b"A", b"B"): "rx", (b"^", b"B"): "w", (b"B", b"_"): "a", (b"*", b"A"): "rwxa", (b"A", b"*"): "", (b"@", b"A"): "r", (b"A", b"@"): "wa"}
    s.piece(b"".join(b"%s %s %s\n" % (a, b, m.encode() or b"-") for (a, b), m in rules.items()))
    s.end("report 7 7 0 0 0 0")

    def decide(subject, object_, request):
        letters = set(request.decode().lower())
        small = letters <= set("rx")
        if subject == b"*":
            return "denied", 1
        if subject == b"^" and small:
            return "granted", 2
        if object_ == b"_" and small:
            return "granted", 3
        if object_ == b"*":
            return "granted", 4
        if subject == object_:
            return "granted", 5
        return ("granted", 6) if letters <= set(rules.get((subject, object_), "")) else ("denied", 7)
    names = FIVE + [b"A", b"B", b"Unseen"]
    for text, listed in ((b"-", None), (b"A *", (b"A", b"*")), (b"^ Later", (b"^", b"Later"))):
        s.override(text)
        for subject in names:
            for object_ in names:
                for request in requests if listed is None else [b"r", b"rw"]:
                    word, number = decide(subject, object_, request)
                    s.ask(subject, object_, request, "%s %d" % (word, number), 0)
                    if word == "denied" and (listed is None or subject in listed):
                        word = "override"
                    s.ask(subject, object_, request, "%s %d" % (word, number), 1)
    s.say("Equal labels that are not in the table: rule 5. Labels of any length and a request of any length: 3 and 8, never 1.")
    s.ask(b"Q" * 255, b"Q" * 255, b"w", "granted 5")
    s.ask(b"Q" * 700, b"Q" * 700, b"w", "refused 3")
    s.ask(b"Q", b"Q", b"rw" * 500, "granted 5")
    s.ask(b"Q", b"Q", b"rw" * 500 + b"q", "refused 8")
    s.say("Refusals come before rules, with the capability too.")
    s.ask(b"*", b"_", b"q", "refused 8", 1)
    s.ask(b"*", b"/", b"r", "refused 3", 1)
    s.ask(b"", b"_", b"r", "refused 3")
    s.ask(b"_", b"", b"r", "refused 3")
    for request in (b"", b"-", b"t", b"b", b"r-", b"rb", b"rt", b"r ", b" r", b"r\n", b"l"):
        s.ask(b"A", b"B", request, "refused 8")
    s.store()


# ---------------------------------------------------------------------------------------------------------------------------------------------
# The refusal numbers: each in every call that can give it, and each pair of neighbours in the order of refusals
# ---------------------------------------------------------------------------------------------------------------------------------------------

def refusals():
    s = Script("refusals_rule_change", "01, the refusal numbers: rule and change, 1 2 3 4 5 6 7. Each line deserves two neighbours and gets the first. Nothing changes.")
    pad = b" " * 600

    def both(name, line, change, number):
        """`name` says which numbers hold."""
        s.say(name)
        s.line(line, number)
        s.change(change, "refused %d" % number)
        s.dump("state", True)

    def section(labels, rules, text):
        s.say("--- " + text)
        full(s, labels, rules, 0)

    section(64, 256, "64 labels, 256 rules")
    s.dump("state", True)
    both("1 and 2", b"A B" + pad, b"A B r" + pad, 1)
    both("1 and 3 4", b"A/ B q" + pad, b"A/ B q q" + pad, 1)
    both("1 alone", b"L05 L06 r" + pad, b"L05 L06 r -" + pad, 1)
    both("2 and 3", b"A/ B", b"A/ B r", 2)
    both("2 and 3, too many", b"A/ B r x", b"A/ B r - x", 2)
    both("2 and 4 5", b"A A q q", b"A A q q q", 2)
    both("2 alone", b"L05 L06", b"L05 L06 r", 2)
    both("3 and 4", b"A/ B q", b"A/ B q -", 3)
    both("3 in the object, and 4", b"A B/ q", b"A B/ - q", 3)
    both("3 and 5", b"A/ A/ r", b"A/ A/ r -", 3)
    both("3 alone", b"L05 L06/ r", b"L05 L06/ r -", 3)
    both("4 and 5", b"L05 L05 q", b"L05 L05 q -", 4)
    both("4 and 5, the second access field", b"L05 L05 rl", b"L05 L05 r q", 4)
    both("4 and 6", b"New1 New2 q", b"New1 New2 r q", 4)
    both("4 alone", b"L05 L06 q", b"L05 L06 q -", 4)
    s.change(b"L05 L06 b -", "refused 4")
    s.change(b"L05 L06 - B", "refused 4")
    s.dump("state", True)
    both("5 and 6", b"New1 New1 r", b"New1 New1 r -", 5)
    both("5 and 7", b"L20 L20 r", b"L20 L20 r -", 5)
    both("6 and 7", b"New1 New2 r", b"New1 New2 r -", 6)
    both("6 and 7, one new label", b"New1 L05 r", b"New1 L05 r -", 6)
    a, b = pairs()[300]
    both("7 alone", a + b" " + b + b" r", a + b" " + b + b" r -", 7)
    s.say("--- 64 labels, 255 rules: 6 without 7")
    full(s, 64, 255, 0)
    s.line(b"New1 L05 r", 6)
    s.change(b"L05 New1 r -", "refused 6")
    s.line(a + b" " + b + b" r", None)
    s.say("--- 62 labels, 256 rules: 7 without 6, and the new labels do not enter")
    full(s, 62, 256, 0)
    s.line(b"New1 New2 r", 7)
    s.change(b"New1 New2 r -", "refused 7")
    s.label(62, 13)
    s.say("--- 63 labels: two new labels are 6, one enters")
    full(s, 63, 10, 0)
    s.line(b"New1 New2 r", 6)
    s.change(b"New1 L05 r -")
    s.line(b"New1 L06 r", None)
    s.say("--- a newline in a write is a byte of its field")
    s.change(b"L05 L06 r w\n", "refused 4")
    s.change(b"L05 L06\n r w", "refused 3")
    s.change(b"L05 L06 r w \n", "refused 2")
    s.change(b"L05\nL06 r w", "refused 2")
    s.change(b"", "refused 2")
    s.change(b"   ", "refused 2")
    s.store()

    s = Script("refusals_writes", "01, the refusal numbers: revoke 1 3; override list 1 2 3 11 6; mapping 1 2 3 9 6 10. Nothing changes.")
    full(s, 64, 256, 32)
    s.dump("state")
    s.say("revoke: 1 and 3; 3 alone in each way. The whole buffer is the label.")
    for text, number in ((b"/" * 601, 1), (b"A" * 601, 1), (b" " * 601, 1), (b"/" * 600, 3), (b"A" * 256, 3), (b"A" * 600, 3), (b"", 3), (b" ", 3), (b"L05 ", 3), (b" L05", 3),
                         (b"L05 L06", 3), (b"L05\n", 3), (b"-", 3), (b"-L", 3), (b"L\x00", 3)):
        s.revoke(text, "refused %d" % number)
    s.dump("state")
    s.revoke(b"Unseen", "revoked 0")
    s.revoke(b"A" * 255, "revoked 0")
    s.revoke(b"_", "revoked 0")
    s.dump("state")
    s.revoke(b"L05", "revoked 19")
    s.revoke(b"L05", "revoked 19")
    s.list(0, b"L05 L06 -\n")
    s.say("override list. 2 and 3 never hold both: 2 is a list without a field.")
    full(s, 64, 10, 32)
    s.override(b"L05 L06")
    s.dump("listed")
    nine_new = b" ".join(b"N%d" % k for k in range(9))
    nine_old = b" ".join(name_of(k) for k in range(9))
    for note, text, number in (("1 and 2", b" " * 601, 1), ("1 and 3", b"A/ " * 300, 1), ("1 and 11", nine_new + b" " * 600, 1), ("2", b"", 2), ("2", b" \t ", 2), ("2", b" " * 600, 2),
                               ("3 and 11", nine_new + b" A/", 3), ("3 and 11", b"A/ " + nine_old, 3), ("3 and 6", b"New1 A/", 3), ("3, a dash not alone", b"- -", 3),
                               ("3", b"L05 -", 3), ("3", b"--", 3), ("3", b"L05\n", 3), ("3", b"L05 \n", 3), ("11 and 6", nine_new, 11), ("11 and 6", nine_old + b" New1", 11),
                               ("11 alone", nine_old, 11), ("6", b"New1", 6), ("6", b"L05 New1 New1", 6), ("6", b" ".join(b"N%d" % k for k in range(8)), 6)):
        s.say(note)
        s.override(text, "refused %d" % number)
    s.dump("listed")
    s.ask(b"L06", b"L07", b"w", "override 7", 1)
    s.ask(b"L07", b"L06", b"w", "denied 7", 1)
    s.override(b" - ")
    s.ask(b"L07", b"L06", b"w", "override 7", 1)
    s.say("mapping")
    s.dump("mapped")
    for note, text, number in (("1 and 2", b"A" + b" " * 1000, 1), ("1 and 3", b"A/ 9" + b" " * 1000, 1), ("1 and 9", b"L05 9" + b" 185" * 250, 1), ("2 and 3", b"A/", 2), ("2 and 3", b"-", 2),
                               ("2", b"", 2), ("2", b"   ", 2), ("2", b"L05", 2), ("3 and 9", b"A/ 256", 3), ("3 and 9", b"A/ 9 0", 3), ("3", b"A/ 9 1", 3), ("9 and 6", b"New1 256", 9),
                               ("9 and 6", b"New1 9 185", 9), ("9 and 10", b"L40 256", 9), ("9 and 10", b"L40 9 1 0", 9), ("9 alone", b"L05 9 185", 9), ("9, a newline", b"L05 9\n", 9),
                               ("9, a newline", b"L05 9 \n", 9), ("3, a newline", b"L05\n 9", 3), ("6 and 10", b"New1 9", 6), ("10 alone", b"L40 9", 10), ("10 alone", b"L32 9 1 63", 10)):
        s.say(note)
        s.mapping(text, "refused %d" % number)
    s.dump("mapped")
    s.mapping(b"L31 8")
    s.say("6 without 10, 10 without 6")
    full(s, 64, 0, 31)
    s.mapping(b"New1 9", "refused 6")
    s.mapping(b"L40 9")
    s.mapping(b"L41 9", "refused 10")
    full(s, 63, 0, 32)
    s.mapping(b"New1 9", "refused 10")
    s.label(63, 13)
    s.store()

    s = Script("refusals_reads", "01, the refusal numbers: by label 3; by level and set 9; a run 9; question 3 8; listing 13 12; label 13. Nothing changes.")
    full(s, 30, 5, 5)
    s.dump("state")
    for label in (b"", b"-", b"-x", b"a/b", b"a b", b" a", b"a ", b"a\n", b"\x00", b"\x7f", b"\xff", b"a'", b'a"', b"a\\", b"A" * 256, b"A" * 601, b"A" * 5000):
        s.bylabel(label, "refused 3")
        s.ask(label, b"A", b"r", "refused 3")
        s.ask(b"A", label, b"r", "refused 3")
        s.ask(label, b"A", b"q", "refused 3")
        s.ask(b"A", label, b"", "refused 3")
    s.bylabel(b"Unseen", "none")
    s.bylabel(b"L20", "none")
    s.bylabel(b"_", mapped(9, category(1) | category(63), 2))
    s.say("listing: 13 and 12 both, then each alone")
    for k in (5, 255, 256, 999, 1 << 32, HUGE):
        s.list(k, 13, b"")
        s.list(k, 13)
    s.list(4, 12, b"")
    s.list(4, 12, b"\xee" * 9)
    s.list(4, b"L05 L10 r\n", b"\xee" * 10)
    for k in (30, 63, 64, 255, 256, 1 << 32, HUGE):
        s.label(k, 13)
    s.label(29, b"L29")
    s.say("A run has any length and content. The lowest label number whose level and set both match; numbers that name no label count too.")
    s.run(9, C63, [], "none")
    s.run(9, C63, [(7, 9, C63), (3, 9, C63), (1, 9, C62), (0, 8, C63)], "label 3")
    s.run(9, C63, [(HUGE, 9, C63)], "label %d" % HUGE)
    s.run(9, C63, [(HUGE, 9, C63), (1 << 32, 9, C63), (4294967297, 9, C63)], "label %d" % (1 << 32))
    s.run(9, C63, [(5, 265, C63), (6, 9, C63 | 1), (4, 9 + (1 << 32), C63)], "none")
    s.run(9, C63, [(5, HUGE, EVERY_BIT)], "none")
    s.run(0, 0, [(0, 0, 0)], "label 0")
    s.run(255, ALL, [(64, 255, ALL), (63, 255, ALL)], "label 63")
    s.run(9, C63, [(1000 - k, 9, C63 if k % 3 else C62) for k in range(600)], "label 401")
    s.run(256, C63, [(5, 256, C63)], "refused 9")
    s.run(9, C63 | 1, [(5, 9, C63 | 1)], "refused 9")
    s.say("A run never gets 0.")
    s.poke("words", 0, 65)
    s.run(9, C63, [(3, 9, C63)], "label 3")
    s.run(256, C63, [], "refused 9")
    s.poke("words", 0, 30)
    s.dump("state")
    s.say("Lowest is by label number, not by place.")
    s.fresh()
    s.override(b"A B C")
    for label in (b"C", b"A", b"B"):
        s.mapping(label + b" 9 1")
    s.bylevel(9, category(1), "label 5")
    s.mapping(b"A 9 2")
    s.bylevel(9, category(1), "label 6")
    s.bylevel(9, category(3), "none")
    s.store()


# ---------------------------------------------------------------------------------------------------------------------------------------------
# Damaged states: refusal 0 comes before every other, in each call
# ---------------------------------------------------------------------------------------------------------------------------------------------

# Each call twice: once with nothing else to refuse, once deserving another number.
TABLE_CALLS = ["piece " + h(b"A B w\n"), "piece -", "end", "change " + h(b"A B w -"), "change " + h(b"A B" + b" " * 600), "revoke " + h(b"A"), "revoke -", "override " + h(b"A"),
               "override -", "mapping " + h(b"A 9"), "mapping " + h(b"A"), "bylabel " + h(b"A"), "bylabel -", "bylevel 9 0:0:0", "bylevel 256 0:0:1",
               "question " + " ".join([h(b"A"), h(b"B"), h(b"r"), "0"]), "question - - - 1", "question " + " ".join([h(b"*"), h(b"*"), h(b"r"), "1"]),
               "writeoption " + h(b"A") + " " + "ee" * 20, "writeoption - -", "readoption 860c00000003010600fa2080", "readoption -",
               "newobject " + " ".join([h(b"B"), h(b"C"), "1", "0"]), "newobject - - 0 0", "newobject " + " ".join([h(b"*"), h(b"*"), "1", "1"])]


def under_damage(call):
    """What such a call answers in a damaged state. The output of a `writeoption` stays, and stands behind the number."""
    return "refused 0 " + call.split(" ")[2] if call.startswith("writeoption ") else "refused 0"


def small_state(s):
    """Labels 5 to 8 are A B C D; three rules, two mappings, two override labels; a line under way; of three accepted lines one held b."""
    s.fresh()
    s.piece(b"A B r\nB C wb\nA C x\nA A r\nA ")
    s.mapping(b"A 9 1 63")
    s.mapping(b"D 9 2")
    s.override(b"B D")


def damaged_by(s, kinds):
    """The small state with each of these damages, one after the other: a part, where, and what stands there; or a part of so many elements."""
    for number, (part, at, value) in enumerate(kinds):
        s.say("%s: %s" % (part, "%d of them" % value if at is None else "at %d stands %s" % (at, value if part == "words" else value[0])))
        small_state(s)
        if at is None:
            s.call("resize %s %d" % (part, value), "done")
        else:
            s.poke(part, at, value)
        s.dump("kind %d" % number)
        yield number


def refused_by_all(s):
    s.from_here("refused 0")
    for call in TABLE_CALLS:
        s.call(call, None if under_damage(call) == "refused 0" else under_damage(call))
    s.from_here("any")
    s.list(0, 0)
    s.list(999, 0, b"")
    s.label(5, 0)
    s.label(999, 0)
    s.run(9, C63, [(3, 9, C63)], "label 3")


def damage():
    s = Script("damage_sizes", "01, refusal 0: a part not of its full size. Each call, also where it deserves another number; then nothing has changed.")
    number = 0
    for part, size in (("labels", 16384), ("entries", 840), ("words", 100), ("line", 600)):
        for other in sorted({0, 1, size // 2, size - 1, size + 1, 2 * size} | ({36, 68} if part == "words" else set())):
            number += 1
            s.say("%s: %d" % (part, other))
            small_state(s)
            s.call("resize %s %d" % (part, other), "done")
            s.dump("size %d" % number)
            if part == "line":
                s.piece(b"A B w\n", "refused 0")
                s.piece(b"", "refused 0")
                s.end("refused 0")
                s.ask(b"A", b"B", b"r", "granted 6")
                s.label(5, b"A")
                s.bylabel(b"A", mapped(9, category(1) | category(63), 2))
                s.call("freshen", None)
            else:
                refused_by_all(s)
                s.call("freshen", "refused 0")
                s.dump("size %d" % number)
    s.say("Two parts at once, and sizes that add up to the same.")
    small_state(s)
    s.call("resize labels 16383", "done")
    s.call("resize entries 841", "done")
    refused_by_all(s)
    s.store()

    s = Script("damage_numbers", "01, refusal 0: a count over its limit, a number that names no stored label, an unknown mode or category bit. Each call under each.")
    kinds = []
    for index, old, limit in ((0, 9, 64), (1, 3, 256), (2, 2, 32), (3, 2, 8)):
        for value in (limit + 1, limit + 2, 1000, (1 << 32) + old, 1 << 63, HUGE):
            kinds.append(("count %d is %d" % (index, value), "words", index, value, old))
    for value in (8, 5, 0):
        kinds.append(("only %d labels, so numbers lose theirs" % value, "words", 0, value, 9))
    subjects, objects, modes = [5, 6, 5], [6, 7, 7], [32, 16, 8]
    for k in range(3):
        for value in (9, 64, 255):
            kinds.append(("subject %d is %d" % (k, value), "entries", k, value, subjects[k]))
            kinds.append(("object %d is %d" % (k, value), "entries", 256 + k, value, objects[k]))
        for value in (1, 64, 128, 192, 255, 1 | modes[k], 64 | modes[k]):
            kinds.append(("modes %d are %d" % (k, value), "entries", 512 + k, value, modes[k]))
    for k, old in ((0, 5), (1, 8)):
        for value in (9, 64, 255):
            kinds.append(("mapping label %d is %d" % (k, value), "entries", 768 + k, value, old))
    for k, old in ((0, 6), (1, 8)):
        for value in (9, 64, 255):
            kinds.append(("override label %d is %d" % (k, value), "entries", 832 + k, value, old))
    for k in (0, 1):
        for value in (1, 128, 257, HUGE):
            kinds.append(("the third word of set %d is %d" % (k, value), "words", 68 + k, value, 0))
    small_state(s)
    s.dump("sound")
    for number, (note, part, at, value, old) in enumerate(kinds):
        s.say(note)
        s.poke(part, at, value if part == "words" else bytes([value]))
        s.dump("kind %d" % number)
        refused_by_all(s)
        s.dump("kind %d" % number)
        s.poke(part, at, old if part == "words" else bytes([old]))
        s.dump("sound")
    s.say("Undamaged again, every call does its work.")
    s.piece(b"B r\n")
    s.end("report 5 4 0 1 4 5", 0, 1)
    s.say("A fresh table is made of memory of any contents: only the sizes count.")
    s.poke("words", 0, 65)
    s.poke("words", 99, HUGE)
    s.poke("entries", 0, b"\xff" * 840)
    s.call("freshen", "done")
    for k, label in enumerate(FIVE):
        s.label(k, label)
    s.label(5, 13)
    s.list(0, 13)
    s.dump()
    s.store()

    s = Script("damage_full", "01, refusal 0 on full tables: the last place of each run, and 64, the first number that no table has a label for.")
    full(s)
    s.override(b" ".join(name_of(k) for k in range(56, 64)))
    s.dump("sound")
    places = [("last subject", 255, 17), ("last object", 511, 0), ("last modes", 767, 32), ("last mapping label", 799, 31), ("last override label", 839, 63)]
    last = pairs()[255]
    places[0] = ("last subject", 255, int(last[0][1:]))
    places[1] = ("last object", 511, int(last[1][1:]))
    for number, (note, at, old) in enumerate(places + [("first subject", 0, 5), ("subject in the middle", 128, int(pairs()[128][0][1:])), ("object in the middle", 256 + 77, int(pairs()[77][1][1:]))]):
        for value in (1, 33, 63, 64, 128, 255) if note == "last modes" else (64, 128, 255):
            s.say("%s is %d" % (note, value))
            s.poke("entries", at, bytes([value]))
            refused_by_all(s)
            s.poke("entries", at, bytes([old]))
            s.dump("sound")
    s.say("last set")
    s.poke("words", 99, 1)
    refused_by_all(s)
    s.poke("words", 99, 0)
    s.dump("sound")
    s.say("0 comes before every other number: full tables, one mapping label without a label, and each call in the order of its refusals.")
    s.poke("entries", 799, b"\x40")
    s.dump("each")
    a, b = pairs()[300]
    nine = b" ".join(b"N%d" % k for k in range(9))
    for name, texts in (("change", (b" " * 601, b"A B r", b"A/ B r -", b"A B q -", b"A A r -", b"New1 New2 r -", a + b" " + b + b" r -")), ("revoke", (b"A" * 601, b"/")),
                        ("override", (b" " * 601, b"", b"A/", nine, b"New1", b"-")), ("mapping", (b" " * 1001, b"A", b"A/ 9", b"L05 256", b"New1 9", b"L40 9")),
                        ("bylabel", (b"/", b"A" * 256)), ("piece", (b"\n", b" " * 601 + b"\n", b"A A r\n", b"New1 New2 r\n"))):
        for text in texts:
            s.call(name + " " + h(text), "refused 0")
    s.bylevel(256, 0, "refused 0")
    s.bylevel(0, 1, "refused 0")
    s.ask(b"/", b"A", b"r", "refused 0")
    s.ask(b"A", b"A", b"q", "refused 0")
    s.list(256, 0)
    s.list(0, 0, b"")
    s.label(64, 0)
    s.run(256, 1, [], "refused 9")
    s.dump("each")
    s.poke("entries", 799, b"\x1f")
    s.dump("sound")
    s.say("A level is any byte; 63 is a label; every known mode bit: no damage.")
    s.poke("entries", 831, b"\xff")
    s.poke("entries", 767, b"\x3e")
    s.list(255, last[0] + b" " + last[1] + b" rwxat\n")
    s.bylevel(255, category(1) | category(63), "label 31")
    s.store()

    s = Script("damage_loader", "01, refusal 0 of the loader: kept over 601. 601 is a line of over 600 bytes. Numbers that do not add up are not damage.")
    for kept in (602, 603, 1000, MOST, 1 << 32, (1 << 32) + 5, 1 << 63, HUGE):
        s.say("kept %d" % kept)
        small_state(s)
        s.poke("loader", 0, kept)
        s.dump("kept %d" % kept)
        for text in (b"", b"\n", b"A B w\n", b"A B"):
            s.piece(text, "refused 0")
        s.end("refused 0")
        s.dump("kept %d" % kept)
        s.say("Calls without a loader do their work.")
        s.ask(b"A", b"B", b"r", "granted 6")
        s.change(b"A B w -")
        s.revoke(b"A", "revoked 2")
        s.override(b"A")
        s.mapping(b"B 3")
        s.label(5, b"A")
        s.list(0, b"A B -\n")
    for kept, text, report in ((601, b"", "1 0 0 1 1 1"), (601, b"\n", "1 0 0 1 1 1"), (601, b"x", "1 0 0 1 1 1"), (600, b"", "1 0 1 0 0 0"), (600, b"\n", "1 0 1 0 0 0"), (600, b" ", "1 0 0 1 1 1"),
                               (599, b" ", "1 0 1 0 0 0"), (599, b"  ", "1 0 0 1 1 1"), (1, b"\n", "1 0 1 0 0 0"), (0, b"", "0 0 0 0 0 0"), (601, b"\nA B r", "2 1 0 1 1 1")):
        s.say("kept %d, blanks in the line" % kept)
        s.fresh()
        s.poke("line", 0, b" " * 600)
        s.poke("loader", 0, kept)
        s.piece(text)
        s.dump()
        s.end("report " + report)
        s.dump()
    s.say("A newline byte in the kept line is a bad byte of its field.")
    for line, reason, where in ((b"A B r\n", 4, 0), (b"A B\n r", 3, 3), (b"A B r \n", 2, 0), (b"\n", 2, 0), (b"A\nB r w", 3, 1)):
        s.fresh()
        s.poke("line", 0, line)
        s.poke("loader", 0, len(line))
        s.end("report 1 0 0 1 1 %d" % reason, where)
    s.store()


# ---------------------------------------------------------------------------------------------------------------------------------------------
# Odd tables that are not damaged
# ---------------------------------------------------------------------------------------------------------------------------------------------

def place(label):
    return bytes([len(label)]) + label


def odd():
    s = Script("twice", "01: where a lent state holds a label, pair or mapping twice, the first counts, and a label means its first number.")
    s.say("A label twice: number 9 is A again. What stands under it is found by no label, and still listed.")
    s.fresh()
    s.piece(b"A B r\nC D w\n")
    s.poke("labels", 9 * 256, place(b"A"))
    s.poke("words", 0, 10)
    s.poke("entries", 1, b"\x09")
    s.poke("entries", 257, b"\x08")
    s.list(1, b"A D w\n")
    s.label(5, b"A")
    s.label(9, b"A")
    s.ask(b"A", b"B", b"r", "granted 6")
    s.ask(b"A", b"D", b"w", "denied 7")
    s.ask(b"C", b"D", b"w", "denied 7")
    s.revoke(b"A", "revoked 1")
    s.list(1, b"A D w\n")
    s.piece(b"A D x\n")
    s.end("report 3 3 0 0 0 0")
    s.list(2, b"A D x\n")
    s.ask(b"A", b"D", b"x", "granted 6")
    s.mapping(b"A 9 1")
    s.bylevel(9, category(1), "label 5")
    s.say("A mapping under the second number: no label has it, by level neither.")
    s.poke("entries", 768, b"\x09")
    s.bylabel(b"A", "none")
    s.bylevel(9, category(1), "none")
    s.mapping(b"A 3")
    s.bylabel(b"A", mapped(3, 0, 0))
    s.bylevel(3, 0, "label 5")
    s.say("An override list that holds the second number does not hold the subject.")
    s.override(b"A")
    s.ask(b"A", b"B", b"a", "override 7", 1)
    s.poke("entries", 832, b"\x09")
    s.ask(b"A", b"B", b"a", "denied 7", 1)
    s.say("A pair twice: questions, lines and changes use the first; revoke clears and counts each.")
    s.fresh()
    s.piece(b"A B r\nC D w\nA B x\nA C a\n")
    s.poke("entries", 1, b"\x05")
    s.poke("entries", 257, b"\x06")
    s.list(0, b"A B x\n")
    s.list(1, b"A B w\n")
    s.ask(b"A", b"B", b"x", "granted 6")
    s.ask(b"A", b"B", b"w", "denied 7")
    s.ask(b"A", b"B", b"xw", "denied 7")
    s.change(b"A B r x")
    s.list(0, b"A B r\n")
    s.list(1, b"A B w\n")
    s.piece(b"A B t\n")
    s.list(0, b"A B t\n")
    s.list(1, b"A B w\n")
    s.revoke(b"A", "revoked 3")
    for k, text in enumerate((b"A B -\n", b"A B -\n", b"A C -\n")):
        s.list(k, text)
    s.say("A label mapped twice: the first counts, by level too.")
    s.fresh()
    s.mapping(b"A 9 1")
    s.mapping(b"B 7 2")
    s.poke("entries", 769, b"\x05")
    s.bylabel(b"A", mapped(9, category(1), 1))
    s.bylabel(b"B", "none")
    s.bylevel(9, category(1), "label 5")
    s.bylevel(7, category(2), "none")
    s.mapping(b"A 8")
    s.bylevel(8, 0, "label 5")
    s.bylevel(7, category(2), "none")
    s.mapping(b"B 7 2")
    s.bylevel(7, category(2), "label 6")
    s.dump()
    s.say("An override label twice: no damage.")
    s.override(b"A B")
    s.poke("entries", 833, b"\x05")
    s.ask(b"A", b"B", b"r", "override 7", 1)
    s.ask(b"B", b"A", b"r", "denied 7", 1)
    s.store()

    s = Script("odd", "01: tables that are odd and not damaged: under five labels, other labels at 0 to 4, ill-formed labels, bad contents in unused places.")
    for count in range(5):
        s.say("%d labels" % count)
        s.fresh()
        s.poke("words", 0, count)
        s.ask(b"*", b"_", b"r", "denied 1")
        s.ask(b"^", b"Door", b"rx", "granted 2")
        s.ask(b"Door", b"_", b"r", "granted 3")
        s.ask(b"^", b"*", b"rw", "granted 4")
        s.ask(b"Door", b"Door", b"w", "granted 5")
        s.ask(b"Door", b"_", b"w", "override 7", 1)
        for k in range(5):
            s.label(k, FIVE[k] if k < count else 13)
        s.line(b"@ Door r", None)
        s.list(0, b"@ Door r\n")
        s.label(count, b"@")
        s.label(count + 1, b"Door")
        s.mapping(b"_ 9")
        s.override(b"? *")
        s.bylevel(9, 0, "label %d" % (0 if count else 2))
        s.dump()
    s.say("Memory of zeros: no label, no rule; not damaged.")
    s.fresh()
    s.poke("labels", 0, b"\x00" * 1282)
    s.poke("words", 0, 0)
    s.label(0, 13)
    s.line(b"A B r", None)
    s.label(0, b"A")
    s.say("Other labels at 0 to 4: the rules go by the labels' bytes.")
    s.fresh()
    for k, label in enumerate((b"*", b"_", b"^", b"@", b"?")):
        s.poke("labels", 256 * k, place(label))
    s.ask(b"*", b"_", b"r", "denied 1")
    s.ask(b"^", b"_", b"w", "denied 7")
    s.ask(b"A", b"*", b"w", "granted 4")
    s.line(b"_ ^ w", None)
    s.list(0, b"_ ^ w\n")
    s.ask(b"_", b"^", b"w", "granted 6")
    s.say("Stored labels that are not well formed: empty, with a blank, a newline, a leading dash, 255 bytes of 0. They are listed as they are; no label means them.")
    s.fresh()
    s.line(b"A B r", None)
    for label in (b"", b" ", b"\n", b"-", b"a b", b"\x00" * 255, b"\xff"):
        s.poke("labels", 256 * 5, place(label))
        s.label(5, label)
        s.list(0, label + b" B r\n", b"\xee" * 300)
        s.ask(b"A", b"B", b"r", "denied 7")
        s.bylabel(label, "refused 3")
        s.revoke(label, "refused 3")
        s.change(b"B _ r -")
        s.dump()
    s.say("A rule of a label with itself: listed; rule 5 decides before it.")
    s.fresh()
    s.line(b"A B -", None)
    s.poke("entries", 256, b"\x05")
    s.list(0, b"A A -\n")
    s.ask(b"A", b"A", b"w", "granted 5")
    s.revoke(b"A", "revoked 1")
    s.line(b"A A r", 5)
    s.say("Unused places with bad contents are not damage, and stay.")
    small_state(s)
    s.poke("entries", 3, b"\xff" * 253)
    s.poke("entries", 256 + 3, b"\xff" * 253)
    s.poke("entries", 512 + 3, b"\xff" * 253)
    s.poke("entries", 768 + 2, b"\xff" * 30)
    s.poke("entries", 800 + 2, b"\xff" * 30)
    s.poke("entries", 832 + 2, b"\xff" * 6)
    for k in range(2, 32):
        s.poke_set(k, EVERY_BIT)
    s.poke("labels", 9 * 256, b"\xff" * 600)
    s.poke("labels", 5 * 256 + 2, b"\xaa" * 254)
    s.dump()
    s.ask(b"A", b"B", b"r", "granted 6")
    s.ask(b"B", b"C", b"w", "granted 6")
    s.label(5, b"A")
    s.label(9, 13)
    s.bylevel(255, ALL, "none")
    s.piece(b"B r\nNew Other x\n")
    s.dump()
    s.change(b"New B r -")
    s.mapping(b"Other 1 1")
    s.override(b"New")
    s.revoke(b"New", "revoked 2")
    s.label(9, b"New")
    s.label(10, b"Other")
    s.dump()
    s.end("report 6 5 0 1 4 5", 0, 1)
    s.say("A shorter override list leaves the bytes behind its count; a label's place keeps the bytes behind the label.")
    s.override(b"A B C D")
    s.override(b"D")
    s.dump()
    s.override(b"-")
    s.dump()
    s.store()


def odd_counts():
    s = Script("odd_counts", "01: what is stored lies below the counts. Full tables, each count set to every number: the last entry below it is found, the next is not.")
    full(s)
    eight = [name_of(k) for k in range(56, 64)]
    s.override(b" ".join(eight))
    s.say("rules")
    for count in range(257):
        s.poke("words", 1, count)
        if count:
            s.ask(*pairs()[count - 1], b"r", "granted 6")
            s.list(count - 1, b"%s %s r\n" % pairs()[count - 1])
        if count < 256:
            s.ask(*pairs()[count], b"r", "denied 7")
            s.list(count, 13)
    s.say("mappings: each at a level of its own")
    for k in range(32):
        s.poke("entries", 800 + k, bytes([k]))
    both = category(1) | category(63)
    for count in range(33):
        s.poke("words", 2, count)
        if count:
            s.bylabel(name_of(count - 1), mapped(count - 1, both, 2))
            s.bylevel(count - 1, both, "label %d" % (count - 1))
        if count < 32:
            s.bylabel(name_of(count), "none")
            s.bylevel(count, both, "none")
    s.say("override labels: under a count of 0 every subject passes")
    for count in range(9):
        s.poke("words", 3, count)
        for k, label in enumerate(eight):
            s.ask(label, b"_", b"w", "override 7" if count == 0 or k < count else "denied 7", 1)
    s.say("labels: one behind the count is not stored; it enters there anew, at the same place")
    s.poke("words", 1, 0)
    s.poke("words", 2, 0)
    s.poke("words", 3, 0)
    for count in range(1, 64):
        s.poke("words", 0, count)
        s.label(count - 1, name_of(count - 1))
        s.label(count, 13)
        s.mapping(name_of(count - 1) + b" 7")
        s.bylevel(7, 0, "label %d" % (count - 1))
        s.mapping(name_of(count) + b" 6")
        s.bylevel(6, 0, "label %d" % count)
        s.label(count, name_of(count))
        s.label(count + 1, 13)
        s.dump()
        s.poke("words", 2, 0)
    s.say("labels told apart by one byte: the first, one in the middle, the last; and by their length alone")
    s.fresh()
    for length in (1, 2, 7, 8, 9, 15, 16, 17, 31, 32, 33, 63, 64, 65, 254, 255):
        s.call("fresh", "done")
        labels = [b"m" * length]
        for at in sorted({0, length // 2, max(0, length - 2), length - 1}):
            labels.append(b"m" * at + b"n" + b"m" * (length - at - 1))
        labels += [b"m" * (length - 1)] * (length > 1) + [b"m" * (length + 1)] * (length < 255)
        for k, label in enumerate(labels):
            s.mapping(label + b" %d" % k)
        for k, label in enumerate(labels):
            s.bylabel(label, mapped(k, 0, 0))
            s.label(5 + k, label)
    s.store()


# ---------------------------------------------------------------------------------------------------------------------------------------------
# The report's numbers at their limit
# ---------------------------------------------------------------------------------------------------------------------------------------------

def counters():
    s = Script("counters", "01: each number of the report is the true one or 4294967295, whichever is smaller.")
    text = {"accepted": b"A B r\n", "skipped": b"\n", "refused": b"A A r\n"}
    for index, kind in ((2, "accepted"), (3, "skipped"), (4, "refused")):
        for start in (0, MOST - 2, MOST - 1, MOST):
            for times in (1, 2, 3):
                s.fresh()
                s.poke("loader", index, start)
                if kind == "refused" and start:
                    s.poke("loader", 5, 7)
                    s.poke("loader", 6, 3)
                s.piece(text[kind] * times)
                counts = [0, 0, 0]
                counts[index - 2] = min(start + times, MOST)
                first = (7, 3) if kind == "refused" and start else (1, 5) if kind == "refused" else (0, 0)
                s.dump()
                s.end("report %d %d %d %d %d %d" % (times, *counts, *first))
    s.say("The number of the first refused line stops at the limit too; the reason is kept as it is.")
    for start in (MOST - 3, MOST - 2, MOST - 1, MOST):
        for before in (b"", b"\n", b"\n\n"):
            s.fresh()
            s.poke("loader", 1, start)
            s.piece(before + b"A A q\nA A r\n")
            lines = min(start + len(before) + 2, MOST)
            s.end("report %d 0 %d 2 %d 4" % (lines, len(before), min(start + len(before) + 1, MOST)))
    s.say("All at the limit.")
    s.fresh()
    for index in range(1, 6):
        s.poke("loader", index, MOST)
    s.poke("loader", 6, 7)
    s.piece(b"A B r\n\nA A r\nA B")
    s.dump()
    s.end("report %d %d %d %d %d 7" % ((MOST,) * 5))
    s.end("report 0 0 0 0 0 0")
    s.store()


# ---------------------------------------------------------------------------------------------------------------------------------------------
# Cuts: the same text in any pieces has the same report and leaves the same state
# ---------------------------------------------------------------------------------------------------------------------------------------------

def fed(s, text, cuts, asked=False):
    s.fresh()
    last = 0
    for cut in list(cuts) + [len(text)]:
        s.piece(text[last:cut])
        if asked:
            s.ask(b"A", b"Unseen", b"r", "denied 7")
        last = cut
    s.end("same report")
    s.dump("state")


def cuts():
    s = Script("cuts_short", "01, Piece: every cut of a short text into two pieces, into three, and byte by byte: the same report, the same state.")
    text = b"A B r\nC  D wb\n A A r\n\nE F q\n G\tH -x"
    s.piece(text)
    s.end("report 6 3 1 2 3 5", 0, 1)
    for k, listed in enumerate((b"A B r\n", b"C D w\n", b"G H x\n")):
        s.list(k, listed)
    fed(s, text, [])
    for cut in range(len(text) + 1):
        fed(s, text, [cut])
    fed(s, text, range(1, len(text)), True)
    s.store()
    s = Script("cuts_three", "01, Piece: every cut of a short text into three pieces, empty ones too.")
    text = b"A B r\n\nA A\tw\nC D -"
    for a in range(len(text) + 1):
        for b in range(a, len(text) + 1):
            fed(s, text, [a, b])
    s.store()
    rng = random.Random(20)
    lines = []
    for k in range(150):
        lines.append(rng.choice([b"A%d B%d r" % (k % 13, k % 7), b"  A%d\t\tB%d   rwxatb  " % (k % 11, k % 5), b"", b"   ", b"A A r", b"A/ B r", b"A B q", b"A B", b"\x00", b"A B r\r",
                                 b"?", b"L" * 255 + b" B x", b"L" * 256 + b" B x"]))
    lines += [b" " * 600, b" " * 601, b"A B r" + b" " * 595, b"A B r" + b" " * 596, b"M" * 255 + b" " + b"N" * 255 + b" rwxatb", b"x" * 1300]
    rng.shuffle(lines)
    text = b"\n".join(lines)
    s = Script("cuts_long", "01, Piece: random cuts of a long text with lines of 600, 601 and 1300 bytes: the same report, the same state.")
    s.say("%d bytes, %d lines" % (len(text), len(lines)))
    for count in (0, 1, 5, 100, 1000):
        fed(s, text, sorted(rng.randint(0, len(text)) for _ in range(count)), count in (5, 100))
    places = [i for i, b in enumerate(text) if b == 10]
    fed(s, text, places)
    fed(s, text, [i + 1 for i in places])
    s.store()


# ---------------------------------------------------------------------------------------------------------------------------------------------
# Rule files with thousands of lines
# ---------------------------------------------------------------------------------------------------------------------------------------------

def thousands():
    rng = random.Random(21)
    lines = [b"L%02d L%02d %s" % (rng.randrange(50), rng.randrange(50), rng.choice([b"r", b"w", b"-", b"rwxa", b"xb", b"q"])) for _ in range(4000)]
    text = b"\n".join(lines) + b"\n"
    s = Script("thousands", "A rule file of 4000 lines over 50 labels, in pieces of any size: tables that fill up, pairs set again and again.")
    at = 0
    while at < len(text):
        length = rng.choice([1, 7, 100, 1000, 4096])
        s.piece(text[at:at + length])
        at += length
        if rng.random() < 0.2:
            s.dump()
            s.ask(b"L%02d" % rng.randrange(50), b"L%02d" % rng.randrange(50), rng.choice([b"r", b"w", b"rw"]), None)
    s.dump()
    s.end()
    for k in range(0, 256, 5):
        s.list(k)
    s.list(256, 13)
    s.revoke(b"L07", None)
    s.dump()
    s.store()
    program("program_thousands", b"".join(line + b"\n" for line in lines[:2500]) + b"?\n" +
            b"".join(b"L%02d L%02d %s%s\n" % (rng.randrange(52), rng.randrange(52), rng.choice([b"r", b"w", b"rw", b"x", b"q"]), rng.choice([b"", b" o"])) for _ in range(2500)))
    program("program_many_rules", b"".join(b"%s %s rw\n" % pair for pair in pairs()) + b"?\n" + b"".join(b"%s %s w\n" % pair for pair in pairs()),
            ["380 256 0 124 257 7 0"] + ["granted 6"] * 256 + ["denied 7"] * 124)
    program("program_many_labels", b"".join(b"S%d O%d r\n" % (k, k) for k in range(40)) + b"?\n" + b"".join(b"S%d O%d r\n" % (k, k) for k in range(40)),
            ["40 29 0 11 30 6 0"] + ["granted 6"] * 29 + ["denied 7"] * 11)
    program("program_blank_lines", b"\n" * 3000 + b"A B r\n" + b" \n" * 2000, ["5001 1 5000 0 0 0 0"])


# ---------------------------------------------------------------------------------------------------------------------------------------------
# The program
# ---------------------------------------------------------------------------------------------------------------------------------------------

def programs():
    program("program_example", b"Probe3 Air w\n?\nProbe3 Air w\nAir Probe3 w o\n", ["1 1 0 0 0 0 0", "granted 6", "override 7"])
    program("program_no_newline", b"Probe3 Air w\n?\nProbe3 Air w\nAir Probe3 w o", ["1 1 0 0 0 0 0", "granted 6", "override 7"])
    program("program_empty", b"", ["0 0 0 0 0 0 0"])
    program("program_newline", b"\n", ["1 0 1 0 0 0 0"])
    # 6.1: skipping is a rule of rule text only.
    program("program_blank_questions", b"A B r\n\n \n?\n\n \n\t\nA B r\n" + b" " * 600 + b"\n" + b" " * 601 + b"\n",
            ["3 1 2 0 0 0 0", "refused 2", "refused 2", "refused 2", "granted 6", "refused 2", "refused 1"])
    # 6.2: the last line needs no newline.
    program("program_mark_last", b"A B r\n?", ["1 1 0 0 0 0 0"])
    program("program_mark_alone", b"?", ["0 0 0 0 0 0 0"])
    program("program_mark_alone_newline", b"?\n", ["0 0 0 0 0 0 0"])
    program("program_mark_first", b"?\nA A w\nA B w", ["0 0 0 0 0 0 0", "granted 5", "denied 7"])
    # 6.3: without the mark everything is rule text.
    program("program_no_mark", b"A B r\nC D w\nE F", ["3 2 0 1 3 2 0"])
    program("program_no_mark_newline", b"A B r\n", ["1 1 0 0 0 0 0"])
    program("program_one_line", b"A B r", ["1 1 0 0 0 0 0"])
    # 6.4: exactly `?`. A later one is a question line with other fields.
    program("program_near_marks", b"? \n ?\n?\r\n??\n?\t\n? ? r\n?\n?\n? \n? ? r\n", ["6 0 0 6 1 2 0", "refused 2", "refused 2", "granted 5"])
    # 6.5 and 6.6: the fourth field, the order 1 2 3 8.
    program("program_fields", b"A B r\n?\nA B r o\nA B w o\nA B w O\nA B w oo\nA B w 0\nA B w o o\nA B w o x\nA B o\nA B\nA\nA B w\tx\n  A\tB  w  o  \n"
            b"A/ B q x\nA/ B\nA/ B q\nA B/ q o\nA B q\nA B -\nA B t\nA B b\n* _ q\n* _ r\n* _ r o\n",
            ["1 1 0 0 0 0 0", "granted 6", "override 7", "refused 2", "refused 2", "refused 2", "refused 2", "refused 2", "refused 8", "refused 2", "refused 2", "refused 2", "override 7",
             "refused 2", "refused 2", "refused 3", "refused 3", "refused 8", "refused 8", "refused 8", "refused 8", "refused 8", "denied 1", "override 1"])
    # 6.6: lines after the mark never load; the mark is not counted.
    program("program_no_loading_later", b"A B r\n?\nA C w\nA C w\nA B r\n", ["1 1 0 0 0 0 0", "denied 7", "denied 7", "granted 6"])
    # 6.7
    program("program_marks_as_labels", b"? ? r\n? @ r\n?\n? ? r\n? @ r\n@ ? r\n", ["2 1 0 1 1 5 0", "granted 5", "granted 6", "denied 7"])
    # 6.8: 600 and 601 bytes, in rule text and in questions; long enough for any buffer.
    program("program_600", b"A B r" + b" " * 595 + b"\n" + b"A B w" + b" " * 596 + b"\n?\nA B r" + b" " * 595 + b"\nA B r" + b" " * 596 + b"\nA B w\n",
            ["2 1 0 1 2 1 0", "granted 6", "refused 1", "denied 7"])
    program("program_600_blanks", b" " * 600 + b"\n" + b" " * 601 + b"\n" + b" " * 601, ["3 0 1 2 2 1 0"])
    program("program_long_lines", b"x" * 66000 + b"\nA B r\n?\n" + b"y" * 9000 + b"\nA B r\n" + b"A B r" + b" " * 9000, ["2 1 0 1 1 1 0", "refused 1", "granted 6", "refused 1"])
    program("program_long_mark", b"?" * 601 + b"\n" + b"?" + b" " * 600 + b"\n?\nA A r", ["2 0 0 2 1 1 0", "granted 5"])
    program("program_labels_255", b"L" * 255 + b" " + b"M" * 255 + b" rwxatb\n" + b"L" * 256 + b" B r\n?\n" + b"L" * 255 + b" " + b"M" * 255 + b" rwxa\n" + b"L" * 254 + b" " + b"M" * 255 + b" r\n"
            + b"L" * 256 + b" B r\n", ["2 1 0 1 2 3 1", "granted 6", "denied 7", "refused 3"])
    program("program_nul", b"A\x00 B r\nA B\x00r\n\x00\nA B r\x00\nA B r\n?\nA B r\x00\nA\x00 B r\n\x00\n\x00?\nA B r", ["5 1 0 4 1 3 0", "refused 8", "refused 3", "refused 2", "refused 2", "granted 6"])
    program("program_byte_255", b"\xff B r\nA \xff r\nA B \xff\n\xff\n?\n\xff B r\nA \xff r\nA B \xff\n\xff\n", ["4 0 0 4 1 3 0", "refused 3", "refused 3", "refused 8", "refused 2"])
    program("program_carriage_returns", b"A B r\r\nA B r \r\n\r\n?\r\n?\nA B r\r\nA B r \r\n", ["4 0 0 4 1 4 0", "refused 8", "refused 2"])
    program("program_all_bytes", bytes(range(256)) + b"\n?\n" + bytes(range(255, -1, -1)), None)
    program("program_capability", b"A B r\n?\nA B w o\nA B r o\n* B r o\n^ B rx o\nB _ w o\nX Y a o\nX X a o\nX * a o\n",
            ["1 1 0 0 0 0 0", "override 7", "granted 6", "override 1", "granted 2", "override 7", "override 7", "granted 5", "granted 4"])
    program("program_modes", b"A B rRb\nC D RWXATB\nE F -\nG H a-r\n?\nA B r\nA B R\nC D rwxa\nE F r\nG H ar\nG H w\n",
            ["4 4 0 0 0 0 2", "granted 6", "granted 6", "granted 6", "denied 7", "granted 6", "denied 7"])
    program("program_every_reason", b"A B\nA/ B r\nA B q\nA A r\n" + b" " * 601 + b"\n?\n", ["5 0 0 5 1 2 0"])


# ---------------------------------------------------------------------------------------------------------------------------------------------
# Whole ranges: each length, each byte, each place, each bit. Where an input is made by a loop, what 01 says of it is worked out by the functions below.
# ---------------------------------------------------------------------------------------------------------------------------------------------

LABEL_BYTES = [b for b in range(33, 127) if b not in b"/\\'\""]


def cut(text):
    """The fields of a line or write."""
    return [f for f in text.replace(b"\t", b" ").split(b" ") if f]


def is_label(field):
    return 1 <= len(field) <= 255 and all(b in LABEL_BYTES for b in field) and field[:1] != b"-"


def is_access(field, letters):
    return all(b in letters.lower() + letters.upper() + b"-" for b in field)


def is_number(field, low, high):
    return 1 <= len(field) <= 3 and all(b in b"0123456789" for b in field) and low <= int(field) <= high


def says_change(text):
    f = cut(text)
    if len(text) > 600:
        return "refused 1"
    if len(f) != 4:
        return "refused 2"
    if not (is_label(f[0]) and is_label(f[1])):
        return "refused 3"
    if not (is_access(f[2], b"rwxat") and is_access(f[3], b"rwxat")):
        return "refused 4"
    return "refused 5" if f[0] == f[1] else "done"


def says_override(text):
    f = cut(text)
    if len(text) > 600:
        return "refused 1"
    if not f:
        return "refused 2"
    if f == [b"-"]:
        return "done"
    return "refused 3" if not all(is_label(x) for x in f) else "refused 11" if len(set(f)) > 8 else "done"


def says_mapping(text):
    f = cut(text)
    if len(text) > 1000:
        return "refused 1"
    if len(f) < 2:
        return "refused 2"
    if not is_label(f[0]):
        return "refused 3"
    return "done" if is_number(f[1], 0, 255) and int(f[1]) != 250 and all(is_number(c, 1, 184) for c in f[2:]) else "refused 9"


def says_revoke(text, rules):
    """`rules`: how many rules have which subject."""
    return "refused 1" if len(text) > 600 else "refused 3" if not is_label(text) else "revoked %d" % rules.get(text, 0)


def listed_modes(letters):
    return b"".join(bytes([c]) for c in b"rwxat" if c in letters.lower()) or b"-"


def ranges_access():
    s = Script("bytes_access", "01, Modes: access fields and requests of any length; each letter and a bad byte at each place; each change of modes.", True)
    s.fresh()
    s.line(b"A B -", None)
    s.say("Repeats allowed, so a field has any length: one letter, dashes, all letters.")
    for n in list(range(1, 21)) + [32, 33, 64, 65, 128, 129, 255, 256, 257, 512, 513]:
        for field in (b"r" * n, b"-" * n, (b"bTaXwR" * n)[:n]):
            s.line(b"A B " + field, None)
            s.list(0, b"A B " + listed_modes(field) + b"\n")
            field = field.replace(b"b", b"A")
            s.line(b"A B rwxatb", None)
            s.change(b"A B - " + field)
            s.list(0, b"A B " + listed_modes(bytes(c for c in b"rwxatb" if c not in field.lower())) + b"\n")
            s.line(b"A B -", None)
            s.change(b"A B " + field + b" -")
            s.list(0, b"A B " + listed_modes(field) + b"\n")
    for n in (590, 596):
        s.line(b"A B " + b"x" * n, None)
        s.change(b"A B " + b"x" * (n - 2) + b" -")
        s.change(b"A B - " + b"x" * (n - 2))
        s.list(0, b"A B -\n")
    s.say("The letter at each place of a field counts, and a bad byte at each place is seen.")
    for n, places in ((26, range(26)), (594, (255, 256, 593))):
        for p in places:
            before, behind = b"-" * p, b"-" * (n - p - 1)
            s.line(b"A B " + before + b"w" + behind, None)
            s.list(0, b"A B w\n")
            s.change(b"A B " + before + b"t" + behind + b" -")
            s.list(0, b"A B wt\n")
            s.change(b"A B - " + before + b"w" + behind)
            s.list(0, b"A B t\n")
            s.line(b"A B " + before + b"q" + behind, 4)
            s.change(b"A B " + before + b"b" + behind + b" -", "refused 4")
            s.change(b"A B - " + before + b"b" + behind, "refused 4")
            before, behind = b"r" * p, b"r" * (n - p - 1)
            s.line(b"A B " + before + b"l" + behind, 4)
            s.change(b"A B " + before + b"q" + behind + b" -", "refused 4")
            s.change(b"A B - " + before + b"q" + behind, "refused 4")
            s.list(0, b"A B t\n")
            s.ask(b"A", b"A", before + b"q" + behind, "refused 8")
            s.ask(b"A", b"A", before + b"-" + behind, "refused 8")
            s.ask(b"^", b"A", before + b"w" + behind, "denied 7")
    s.say("New modes are (old modes or allow) without deny: each letter allowed, each denied, from none, all and each letter alone; b in the line before is none.")
    for old in [b"-", b"rwxatb"] + [bytes([c]) for c in b"rwxatb"]:
        for allow in b"rwxat-":
            for deny in b"rwxat-":
                s.line(b"A B " + old, None)
                s.change(b"A B %c %c" % (allow, deny))
                s.list(0, b"A B " + listed_modes(bytes(c for c in b"rwxatb" if (c in old or c == allow) and c != deny)) + b"\n")
    for k in range(32):
        some = bytes(c for i, c in enumerate(b"rwxat") if k >> i & 1)
        s.call("fresh", "done")
        s.change(b"A B %s -" % (some or b"-").upper())
        s.list(0, b"A B " + listed_modes(some) + b"\n")
        s.line(b"A B rwxatb", None)
        s.change(b"A B - " + (some or b"-"))
        s.list(0, b"A B " + listed_modes(bytes(c for c in b"rwxatb" if c not in some)) + b"\n")
    s.store()


def ranges_writes():
    s = Script("bytes_writes", "01, Single writes: every byte before, after and inside a write and a number; numbers; each place of a bad category.", True)
    s.say("Every byte before and after a write, and before and after the blank at its end. A blank there changes nothing; no other byte is dropped.")
    for b in range(256):
        one = bytes([b])
        s.call("fresh", "done")
        s.line(b"A B rb", None)
        more = b < 128 or b in (160, 255)
        for text in (b"A B x -" + one, one + b"A B x -", b"A B x - " + one, b"A" + one + b"B x -", b"A " + one + b"B x -")[:5 if more else 2]:
            s.change(text, says_change(text))
        for text in (b"A" + one, one + b"A", b"A " + one, b"A B" + one + b"C")[:4 if more else 2]:
            s.override(text, says_override(text))
        for text in (b"A 9" + one, one + b"A 9", b"A 9 7" + one, b"A 9 " + one, b"A" + one + b"9", b"A" + one + b" 9", b"A 9 7 " + one)[:7 if more else 3]:
            s.mapping(text, says_mapping(text))
        s.revoke(b"A" + one, says_revoke(b"A" + one, {one + b"A": 1}))
        s.revoke(one + b"A", says_revoke(one + b"A", {one + b"A": 1}))
    s.say("Blanks before, after and between, in each write: as without them.")
    for blank in (b" ", b"\t", b" \t ", b"\t\t"):
        s.call("fresh", "done")
        s.change(blank + blank.join((b"A", b"B", b"rw", b"w")) + blank)
        s.override(blank + blank.join((b"B", b"C")) + blank)
        s.mapping(blank + blank.join((b"C", b"9", b"1", b"63")) + blank)
        s.dump("blanks", True)
        s.list(0, b"A B r\n")
        s.bylabel(b"C", mapped(9, category(1) | category(63), 2))
        s.override(blank + b"-" + blank)
        s.ask(b"A", b"B", b"w", "override 7", 1)
        for text in (blank + b"A", b"A" + blank, blank + b"A" + blank, b"A" + blank + b"B"):
            s.revoke(text, "refused 3")
        s.list(0, b"A B r\n")
    s.say("Every byte in a level and in a category.")
    s.fresh()
    for b in range(256):
        one = bytes([b])
        for text in (b"V 1" + one, b"V 9 " + one, b"V " + one, b"V " + one + b"1", b"V 1" + one + b"1", b"V 9 1" + one, b"V 9 " + one + b"1", b"V 9 0" + one + b"1",
                     b"V 9 1 2 3 " + one)[:9 if b < 128 else 2]:
            s.mapping(text, says_mapping(text))
    s.say("Each number up to 330, and others of three digits, as a level and as a category; with leading zeros; of four digits.")
    for n in list(range(331)) + list(range(331, 1000, 6)) + [511, 512, 513, 575, 576, 767, 768, 769, 999]:
        text = b"V %d" % n
        s.mapping(text, says_mapping(text))
        if n < 256:
            s.bylabel(b"V", mapped(249 if n == 250 else n, 0, 0))
        if n < 100 and n % 7 < 2:
            s.mapping(b"V %03d" % n)
            s.mapping(b"V %04d" % n, "refused 9")
            s.mapping(b"V 9 %04d" % n, "refused 9")
            s.mapping(b"V 9 %03d" % n, says_mapping(b"V 9 %03d" % n))
        text = b"V 9 %d" % n
        s.mapping(text, says_mapping(text))
        if 1 <= n <= 184:
            s.bylabel(b"V", mapped(9, category(n), 1))
    for n in (1001, 1009, 4096, 10000, 65536, 65537, 65545, 4294967296, 4294967297, 4294967305, 18446744073709551617):
        s.mapping(b"V %d" % n, "refused 9")
        s.mapping(b"V 9 %d" % n, "refused 9")
    s.say("Categories in any order and number; a bad one at each place.")
    for n in range(1, 64):
        s.mapping(b"V %d " % n + b" ".join(b"%d" % c for c in range(1, n + 1)))
        s.bylabel(b"V", mapped(n, sum(category(c) for c in range(1, n + 1)), n))
        s.mapping(b"V %d " % n + b" ".join(b"%d" % c for c in range(63, n - 1, -1)))
        s.bylabel(b"V", mapped(n, sum(category(c) for c in range(n, 64)), 64 - n))
    s.mapping(b"V 3 5 9 5 1 9 63 1")
    s.bylabel(b"V", mapped(3, sum(category(c) for c in (1, 5, 9, 63)), 4))
    for n in list(range(1, 13)) + [63, 190, 480]:
        for p in range(n) if n < 60 else (0, n - 1):
            for bad in (b"0", b"185", b"257", b"x"):
                s.mapping(b"V 9 " + b" ".join([b"7"] * p + [bad] + [b"8"] * (n - p - 1)), "refused 9")
            s.mapping(b"V 256 " + b" ".join([b"7"] * n), "refused 9")
    s.bylabel(b"V", mapped(3, sum(category(c) for c in (1, 5, 9, 63)), 4))
    s.store()


def ranges_labels():
    s = Script("bytes_labels", "01, Labels: lengths, a bad byte at each place, and two labels that differ in one byte alone, for each byte.", True)
    for n in list(range(1, 40)) + list(range(40, 256, 5)):
        s.bylabel(b"L" * n, "none")
    for n in (256, 257, 511, 512, 513):
        long = b"L" * n
        s.bylabel(long, "refused 3")
        s.revoke(long, "refused 3")
        s.ask(long, b"B", b"r", "refused 3")
        s.ask(b"B", long, b"r", "refused 3")
        s.ask(long, long, b"r", "refused 3")
        s.line(long + b" B r", 3)
        s.line(b"B " + long + b" r", 3)
        s.change(long + b" B r -", "refused 3")
        s.change(b"B " + long + b" r -", "refused 3")
        s.override(b"B " + long, "refused 3")
        s.mapping(long + b" 9", "refused 3")
    for n in (768, 1024, 65541):
        s.bylabel(b"L" * n, "refused 3")
    s.label(5, 13)
    for k in range(255):
        behind = min(k % 3, 254 - k)
        s.bylabel(b"m" * k + b"/" + b"m" * behind, "refused 3")
        if k % 16 < 2 or k == 254:
            s.bylabel(b"m" * k + b"-" + b"m" * behind, "none" if k else "refused 3")
    s.say("255 bytes, one of them another: looked up, asked about, revoked.")
    base = b"m" * 255
    s.fresh()
    s.line(base + b" B r", None)
    s.change(b"B " + base + b" r -")
    s.mapping(base + b" 9")
    s.override(base)
    for k in range(255):
        other = [b"m" * k + c + b"m" * (254 - k) for c in (b"M", b"n", b"l")]
        s.bylabel(other[k % 3], "none")
        length = min(k + 1 + k % 3, 255)
        s.ask(base[:length], other[k % 2 * 2][:length], b"r", "denied 7")
        if k % 15 == 0 or k > 252:
            s.revoke(other[k % 3], "revoked 0")
            s.ask(other[(k + 1) % 3], b"B", b"r", "denied 7", 1)
            s.ask(b"B", other[0], b"r", "denied 7", 1)
    s.ask(base, b"B", b"r", "granted 6")
    s.ask(b"B", base, b"r", "granted 6")
    s.revoke(base, "revoked 1")
    s.say("The same with labels of 26 bytes in each write: they are two labels, and each has its own rule, mapping and place in the list.")
    base = b"m" * 26
    for k in range(26):
        other = b"m" * k + (b"M" if k % 2 else b"n") + b"m" * (25 - k)
        s.call("fresh", "done")
        s.line(base + b" " + other + b" r", None)
        s.change(other + b" " + base + b" w -")
        s.list(1, other + b" " + base + b" w\n", b"\xee" * 90)
        s.override(base + b" " + other)
        s.mapping(base + b" 9")
        s.mapping(other + b" 8")
        s.bylabel(base, mapped(9, 0, 0))
        s.bylabel(other, mapped(8, 0, 0))
        s.ask(base, other, b"w", "override 7", 1)
        s.ask(other, base, b"r", "override 7", 1)
        s.ask(base[1:], base, b"r", "denied 7", 1)
        s.override(other)
        s.ask(base, other, b"w", "denied 7", 1)
        s.label(5, base)
        s.label(6, other)
        s.label(7, 13)
        s.revoke(base, "revoked 1")
        s.ask(other, base, b"w", "granted 6")
    s.say("Each letter in both cases: two labels.")
    for b in range(65, 91):
        one, two = bytes([b]), bytes([b + 32])
        s.call("fresh", "done")
        s.override(one + b" " + two)
        s.label(5, one)
        s.label(6, two)
        s.ask(one, two, b"r", "override 7", 1)
        s.line(one + b" " + two + b" r", None)
        s.change(two + b" " + one + b" w -")
        s.ask(one, two, b"w", "denied 7")
        s.ask(two, one, b"w", "granted 6")
        s.revoke(one, "revoked 1")
        s.bylabel(one, "none")
    s.say("Repeats in an override list: equal in all bytes, and only then.")
    for text in (b"a%db", b"%dab", b"ab%d", b"aaaaaaaaaaaaaaaaaaaaaaaa%dbbbbbbbbbbbbbbbbbbbbbbbb"):
        s.call("fresh", "done")
        eight = [text % k for k in range(8)]
        s.override(b" ".join(eight))
        for k, label in enumerate(eight):
            s.label(5 + k, label)
            s.ask(label, b"X", b"w", "override 7", 1)
        s.ask(text % 8, b"X", b"w", "denied 7", 1)
        s.override(b" ".join(eight + [text % 8]), "refused 11")
        s.override(b" ".join(eight + eight[:1]))
        s.override(b" ".join(reversed(eight)))
        s.label(13, 13)
    s.store()


def ranges_questions():
    s = Script("questions_more", "01, Questions: labels that begin or end as a special one; rules beside the rules before 6; a rule of a label with itself; lists of each length.", True)
    names = [b"**", b"^^", b"__", b"??", b"@@", b"*x", b"^x", b"_x", b"x*", b"x^", b"x_", b"*_", b"_*", b"^*", b"*^", b"_^", b"^_"]
    for first in range(2):
        for a in names:
            for b in names + [b"Air"]:
                for request in (b"r", b"w"):
                    s.ask(a, b, request, "granted 5" if a == b else "denied 7")
            s.ask(a, b"_", b"rx", "granted 3")
            s.ask(a, b"_", b"w", "denied 7")
            s.ask(b"^", a, b"rx", "granted 2")
            s.ask(b"^", a, b"w", "denied 7")
            s.ask(a, b"*", b"w", "granted 4")
            s.ask(b"*", a, b"r", "denied 1")
            s.ask(b"Air", a, b"r", "denied 7")
            s.ask(a, b"Air", b"r", "override 7", 1)
        if not first:
            s.say("The same with the labels stored.")
            for k in range(0, len(names), 8):
                s.override(b" ".join(names[k:k + 8]))
            s.override(b"-")
    s.say("Each of them has rules like any other.")
    for k, a in enumerate(names):
        s.line(a + b" Air rb", None)
        s.line(b"Air " + a + b" w", None)
        s.ask(a, b"Air", b"r", "granted 6")
        s.ask(a, b"Air", b"w", "denied 7")
        s.ask(b"Air", a, b"w", "granted 6")
        s.ask(b"Air", a, b"r", "denied 7")
        s.revoke(a, "revoked 1")
        s.ask(a, b"Air", b"r", "denied 7")
    s.say("Rules that would grant: the rules before 6 decide first.")
    s.fresh()
    s.piece(b"^ A rwxatb\nA _ rwxatb\nA * rwxatb\n* A rwxatb\n^ _ rwxatb\n^ * rwxatb\n* _ rwxatb\n_ ^ rwxatb\n")
    for capable in (0, 1):
        denied = "override" if capable else "denied"
        for a, b, request, answer in ((b"^", b"A", b"r", "granted 2"), (b"^", b"A", b"xr", "granted 2"), (b"^", b"A", b"rw", "granted 6"), (b"^", b"A", b"a", "granted 6"),
                                      (b"A", b"_", b"r", "granted 3"), (b"A", b"_", b"rxa", "granted 6"), (b"A", b"*", b"r", "granted 4"), (b"A", b"*", b"rwxa", "granted 4"),
                                      (b"*", b"A", b"r", denied + " 1"), (b"*", b"_", b"r", denied + " 1"), (b"*", b"_", b"w", denied + " 1"), (b"^", b"_", b"r", "granted 2"),
                                      (b"^", b"_", b"w", "granted 6"), (b"^", b"*", b"r", "granted 2"), (b"^", b"*", b"w", "granted 4"), (b"_", b"^", b"r", "granted 6"),
                                      (b"^", b"^", b"r", "granted 2"), (b"^", b"^", b"w", "granted 5"), (b"_", b"_", b"r", "granted 3"), (b"_", b"_", b"w", "granted 5")):
            s.ask(a, b, request, answer, capable)
    s.say("A lent rule of a label with itself: rule 5 decides before it, whatever its modes.")
    for number, label in enumerate(FIVE + [b"A"]):
        for modes in (0, 32, 60, 34, 62):
            s.fresh()
            s.line(b"A B r", None)
            s.poke("entries", 0, bytes([number]))
            s.poke("entries", 256, bytes([number]))
            s.poke("entries", 512, bytes([modes]))
            for request in (b"r", b"w", b"rwxa"):
                small = request == b"r"
                s.ask(label, label, request, "denied 1" if label == b"*" else "granted 2" if label == b"^" and small else "granted 3" if label == b"_" and small else "granted 5")
    s.say("Equal but for the case, or for the last byte: not equal.")
    for a, b in ((b"A", b"a"), (b"Door", b"door"), (b"Door", b"DOOR"), (b"Q" * 255, b"q" * 255), (b"Q" * 255, b"Q" * 254 + b"R"), (b"Q" * 255, b"Q" * 254), (b"Q" * 255, b"R" + b"Q" * 254)):
        s.ask(a, b, b"r", "denied 7")
        s.ask(b, a, b"r", "denied 7")
    s.say("Override counts only after a denial, under a list of each length, and for each place in the list.")
    s.fresh()
    eight = [b"P%d" % k for k in range(8)]
    s.piece(b"".join(b"%s Air rb\n" % p for p in eight))
    for n in range(9):
        s.override(b" ".join(eight[:n]) or b"-")
        for k, p in enumerate(eight):
            s.ask(p, b"Air", b"r", "granted 6", 1)
            s.ask(p, b"Air", b"w", "override 7" if n == 0 or k < n else "denied 7", 1)
            s.ask(p, b"Air", b"w", "denied 7")
            s.ask(p, p, b"w", "granted 5", 1)
        s.ask(b"*", b"Air", b"r", "denied 1" if n else "override 1", 1)
        s.ask(b"Air", b"P0", b"r", "denied 7" if n else "override 7", 1)
    s.store()


def ranges_refusals():
    s = Script("refusals_enter", "01: a refusal leaves the tables unchanged: no label enters by it. New labels in each write, with places free. And each mixture of what is wrong.", True)
    nine = b" ".join(b"N%d" % k for k in range(9))
    wrong = {"line": ((b"New1", 2), (b"New1 New2", 2), (b"New1 New2 r r", 2), (b"New1 A/ r", 3), (b"A/ New1 r", 3), (b"New1 -A r", 3), (b"-A New1 r", 3), (b"New1 A/ q", 3),
                      (b"New1 " + b"L" * 256 + b" r", 3), (b"New1 New2 q", 4), (b"New1 New2 rl", 4), (b"New1 New1 r", 5), (b"New1 New2 r" + b" " * 600, 1)),
             "change": ((b"New1", 2), (b"New1 New2", 2), (b"New1 New2 r", 2), (b"New1 New2 r r r", 2), (b"New1 A/ r -", 3), (b"A/ New1 r -", 3), (b"New1 -A r -", 3), (b"-A New1 r -", 3),
                        (b"New1 A/ q -", 3), (b"New1 A/ - q", 3), (b"New1 New2 q -", 4), (b"New1 New2 - q", 4), (b"New1 New2 b -", 4), (b"New1 New1 r -", 5), (b"New1 New2 r -" + b" " * 600, 1)),
             "override": ((b"New1 A/", 3), (b"A/ New1", 3), (b"New1 -", 3), (b"- New1", 3), (b"New1 New2 -A", 3), (b"-A New1", 3), (nine, 11), (b"_ " + nine, 11), (b"New1" + b" " * 600, 1)),
             "mapping": ((b"New1", 2), (b"-New1 9", 3), (b"New1/ 9", 3), (b"-New1 9 1", 3), (b"New1 256", 9), (b"New1 9 185", 9), (b"New1 9 1 0", 9), (b"New1 x", 9), (b"New1 9" + b" " * 1000, 1))}
    for free, note in ((59, "a fresh table"), (30, "34 labels"), (2, "62 labels"), (1, "63 labels")):
        s.say(note)
        s.fresh()
        labels_to(s, 64 - free)
        s.dump("free %d" % free, True)
        for name in wrong:
            for text, number in wrong[name]:
                if name == "line":
                    s.line(text, number)
                else:
                    s.call(name + " " + h(text), "refused %d" % number)
                s.label(64 - free, 13)
        s.dump("free %d" % free, True)
        s.say("A label that is only asked about does not enter.")
        s.ask(b"New1", b"New2", b"r", "denied 7")
        s.ask(b"New1", b"New1", b"r", "granted 5")
        s.bylabel(b"New1", "none")
        s.revoke(b"New1", "revoked 0")
        s.dump("free %d" % free, True)
    s.say("6 with places free, but too few: none enters, and the list stays.")
    for free in range(0, 8):
        s.fresh()
        labels_to(s, 64 - free)
        s.override(b"L05 _")
        s.dump("few %d" % free, True)
        s.override(b" ".join(b"N%d" % k for k in range(free + 1)), "refused 6")
        s.override(b" ".join([b"_", b"_"][:2 if free < 7 else 0] + [b"N%d" % k for k in range(free + 1)]), "refused 6")
        if free < 2:
            s.line(b"New1 New2 r", 6)
            s.change(b"New1 New2 r -", "refused 6")
        if free < 1:
            for a, b in ((b"New1", b"L05"), (b"L05", b"New1"), (b"_", b"New1"), (b"New1", b"*")):
                s.line(a + b" " + b + b" r", 6)
                s.change(a + b" " + b + b" r -", "refused 6")
            s.mapping(b"New1 9", "refused 6")
        s.label(64 - free, 13)
        s.dump("few %d" % free, True)
        if free:
            s.override(b" ".join([b"N0"] * 3 + [b"N%d" % k for k in range(free)]))
            s.label(63, b"N%d" % (free - 1))
    s.say("7 and 10 with label places free: no label enters.")
    full(s, 60, 256, 32)
    s.dump("sixty", True)
    for a, b in ((b"New1", b"New2"), (b"New1", b"L05"), (b"L05", b"New1"), (b"L40", b"L41")):
        s.line(a + b" " + b + b" r", 7)
        s.change(a + b" " + b + b" r -", "refused 7")
    s.mapping(b"New1 9", "refused 10")
    s.mapping(b"L59 9", "refused 10")
    s.label(60, 13)
    s.dump("sixty", True)
    s.say("Each mixture of bad labels, bad access fields, bad numbers and a bad request, in tables with room.")
    s.fresh()
    s.line(b"A B r", None)
    s.dump("mixtures", True)
    for bad in (b"A/", b"-A", b"A\x00"):
        for k in range(1, 16):
            a, b = bad if k & 1 else b"A", bad if k & 2 else b"B"
            c, d = b"q" if k & 4 else b"r", b"q" if k & 8 else b"w"
            s.change(b" ".join((a, b, c, d)), "refused 3" if k & 3 else "refused 4")
            s.change(b" ".join((a, b, c)), "refused 2")
            if k < 8:
                s.line(b" ".join((a, b, c)), 3 if k & 3 else 4)
                s.ask(a, b, c, "refused 3" if k & 3 else "refused 8", k & 1)
                s.mapping(b" ".join((a, b"256" if k & 2 else b"9", b"185" if k & 4 else b"1")), "refused 3" if k & 1 else "refused 9")
    s.dump("mixtures", True)
    s.say("A length counts whole: 65536 bytes and some more are over 600 and over 1,000.")
    for name in ("revoke", "change", "override", "mapping"):
        s.call(name + " =" + "A" * 65541, "refused 1")
    s.dump("mixtures", True)
    s.say("A line that ends leaves the kept bytes as they came, whatever the first one is.")
    for b in (0, 1, 8, 11, 13, 26, 27, 31, 33, 35, 45, 63, 65, 92, 126, 127, 128, 255):
        s.fresh()
        s.piece(bytes([b]) + b"\n")
        s.dump("first byte %d" % b)
        s.fresh()
        s.poke("line", 0, bytes([b]))
        for index, value in ((1, 1), (4, 1), (5, 1), (6, 2)):
            s.poke("loader", index, value)
        s.dump("first byte %d" % b)
    s.store()

    s = Script("refusals_revoke", "01, Revoke: every rule with that subject, at each place, gets no modes; the others keep theirs; the count is of all of them.", True)
    s.say("Each of the five, and every mode, by lines with b too.")
    s.fresh()
    for k, label in enumerate(FIVE):
        s.line(label + b" A rwxatb", None)
        s.revoke(label, "revoked 1")
        s.list(k, label + b" A -\n")
        s.revoke(label, "revoked 1")
    s.revoke(b"A", "revoked 0")
    s.call("fresh", "done")
    for k in range(64):
        access = bytes(c for i, c in enumerate(b"rwxatb") if k >> i & 1) or b"-"
        s.line(b"A B " + access, None)
        s.revoke(b"B", "revoked 0")
        s.list(0, b"A B " + listed_modes(access) + b"\n")
        s.revoke(b"A", "revoked 1")
        s.list(0, b"A B -\n")
    s.say("256 rules. At place k alone the subject is L30, for each k.")
    full(s, 64, 256, 0)
    s.dump("sound")
    for k, (a, b) in enumerate(pairs()[:256]):
        s.poke("entries", k, b"\x1e")
        s.poke("entries", 512 + k, b"\x3e")
        s.revoke(b"L30", "revoked 1")
        s.list(k, b"L30 " + b + b" -\n")
        s.poke("entries", k, bytes([int(a[1:])]))
        s.poke("entries", 512 + k, b"\x20")
        if k % 16 == 15:
            s.dump("sound")
    s.say("n rules of one subject among 256, from place 0 on and up to place 255.")
    for n in (1, 2, 127, 128, 129, 200, 254, 255, 256):
        for start in sorted({0, 256 - n}):
            s.poke("entries", 0, bytes(int(a[1:]) for a, b in pairs()[:256]))
            s.poke("entries", 512, b"\x3e" * 256)
            s.poke("entries", start, b"\x1e" * n)
            s.revoke(b"L31", "revoked 0")
            s.revoke(b"L30", "revoked %d" % n)
            for k in sorted({0, start, max(0, start - 1), start + n - 1, min(255, start + n), 255}):
                a, b = pairs()[k]
                inside = start <= k < start + n
                s.list(k, b"%s %s %s\n" % (b"L30" if inside else a, b, b"-" if inside else b"rwxat"), b"\xee" * 20)
            s.dump("revoked %d %d" % (n, start))
            s.poke("entries", 512 + start, b"\x00" * n)
            s.dump("revoked %d %d" % (n, start))
    s.store()


def ranges_look_ups():
    s = Script("limits_look_ups", "01: a mapping by level and set, in the table and in a run: both equal, in each bit of 1 to 63; each record counts; over 255 is refused 9.", True)
    s.say("An unmapped label has no level and no set.")
    s.fresh()
    labels_to(s, 12)
    s.bylevel(0, 0, "none")
    s.mapping(b"L08 1")
    s.bylevel(0, 0, "none")
    s.mapping(b"L10 0")
    s.bylevel(0, 0, "label 10")
    s.mapping(b"L10 0 7")
    s.bylevel(0, 0, "none")
    sets = [0, ALL - sum(category(c) for c in range(64, 185)), category(1), category(63), sum(category(c) for c in range(1, 64, 2)), sum(category(c) for c in range(2, 64, 3))]
    for n, set_ in enumerate(sets):
        s.say("stored: level %d, set %s; each other of the first 63 categories" % (9 + n, said(set_)))
        s.call("fresh", "done")
        s.mapping(b"A %d " % (9 + n) + b" ".join(b"%d" % c for c in range(1, 64) if set_ & category(c)))
        s.bylevel(9 + n, set_, "label 5")
        for c in range(1, 64):
            s.bylevel(9 + n, set_ ^ category(c), "none")
            if n not in (1, 4):
                continue
            s.run(9 + n, set_ ^ category(c), [(5, 9 + n, set_)], "none")
            s.run(9 + n, set_, [(5, 9 + n, set_ ^ category(c)), (6, 9 + n, set_)], "label 6")
        for other in sets:
            s.bylevel(9 + n, other, "label 5" if other == set_ else "none")
            s.run(9 + n, other, [(5, 9 + n, set_)], "label 5" if other == set_ else "none")
            s.bylevel(9 + n, other | 1, "refused 9")
        s.run(9 + n, set_, [(5, 9 + n, set_ | 1)], "none")
    s.say("Each other bit of the level.")
    for level in (0, 9, 128, 255):
        s.call("fresh", "done")
        s.mapping(b"A %d" % level)
        s.bylevel(level, 0, "label 5")
        s.run(level, 0, [(5, level, 0)], "label 5")
        for bit in range(64):
            other = level ^ (1 << bit)
            s.bylevel(other, 0, "none" if other < 256 else "refused 9")
            s.run(other, 0, [(5, level, 0)], "none" if other < 256 else "refused 9")
            s.run(other, 0, [(5, other, 0)], "label 5" if other < 256 else "refused 9")
            s.run(level, 0, [(5, other, 0), (6, other, 0)], "none")
    for level in range(256):
        if level == 250:
            s.say("A mapping write at level 250 is refused by 02, Five; a lent table may hold one, and the look-up finds it.")
            s.mapping(b"A 250", "refused 9")
            s.bylevel(250, 0, "none")
            s.poke("entries", 800, b"\xfa")
        else:
            s.mapping(b"A %d" % level)
        s.bylevel(level, 0, "label 5")
        s.bylevel(255 - level, 0, "none")
        s.bylevel(256 + level, 0, "refused 9")
    s.say("A run: the one record that matches, at each place; and the lowest label number at each place.")
    for n in (1, 2, 3, 4, 5, 8, 9, 16, 17, 33):
        for p in range(n):
            s.run(9, C63, [(7, 9, C63) if k == p else (k % 3, 9, C62) if k % 2 else (k % 3, 8, C63) for k in range(n)], "label 7")
            s.run(9, C63, [(3, 9, C63) if k == p else (40 + (k * 7) % 13, 9, C63) for k in range(n)], "label 3")
    for p in (64, 128, 255, 256, 257, 299):
        s.run(9, C63, [(7, 9, C63) if k == p else (1, 8, C63) for k in range(300)], "label 7")
    s.say("The lowest mapped label of those that match, at each place of 32.")
    s.fresh()
    labels_to(s, 40)
    for k in range(32):
        s.mapping(name_of(39 - k) + b" 9 1")
        s.bylevel(9, category(1), "label %d" % (39 - k))
    for k in range(8, 40):
        s.bylevel(9, category(1), "label %d" % k)
        s.mapping(name_of(k) + b" 9 2")
        s.bylevel(9, category(2), "label 8")
    s.bylevel(9, category(1), "none")
    s.store()


def ranges_damage():
    s = Script("damage_places", "01, refusal 0: each stored place damaged once, all places stored; each count with each bit.", True)
    calls = [c if len(c) < 100 else "change " + h(b"A B") for c in TABLE_CALLS] + ["list 0 " + "ee" * 20, "list 999 -", "label 5", "label 999"]
    answers = [under_damage(c) for c in TABLE_CALLS] + ["refused 0 " + "ee" * 20, "refused 0 -", "refused 0 -", "refused 0 -"]
    turn = 0

    def refused(times=1):
        nonlocal turn
        for _ in range(times):
            s.call(calls[turn % len(calls)], answers[turn % len(calls)])
            turn += 1

    def sound():
        full(s)
        s.override(b" ".join(name_of(k) for k in range(5, 13)))
        s.dump("sound", True)
    sound()
    numbers = [(k, int(pairs()[k][0][1:])) for k in range(256)] + [(256 + k, int(pairs()[k][1][1:])) for k in range(256)]
    numbers += [(768 + k, k) for k in range(32)] + [(832 + k, 5 + k) for k in range(8)]
    s.say("A number that names no stored label, at each place.")
    for at, old in numbers:
        for value in (64, 65 + at % 191)[:1 if at % 4 else 2]:
            s.call("poke entries %d %s" % (at, h(bytes([value]))), "done")
            refused()
        s.call("poke entries %d %s" % (at, h(bytes([old]))), "done")
        if at % 32 == 31:
            s.dump("sound", True)
    s.say("An unknown mode bit, at each place: each of the three.")
    for k in range(256):
        for value in (64 | 32, 128 | 62, 1 | 32):
            s.call("poke entries %d %s" % (512 + k, h(bytes([value]))), "done")
            refused()
        s.call("poke entries %d 20" % (512 + k), "done")
    s.say("An unknown category bit, at each place.")
    for k in range(32):
        for value in (1, 257):
            s.call("poke words %d %d" % (68 + k, value), "done")
            refused()
        s.call("poke words %d 0" % (68 + k), "done")
    s.dump("sound", True)
    s.say("40 labels: 39 names one, 40 does not.")
    s.poke("words", 0, 40)
    for at, old in numbers[::5] + numbers[-8:]:
        s.call("poke entries %d 27" % at, "done")
        s.label(39, b"L39")
        s.call("poke entries %d 28" % at, "done")
        refused()
        s.call("poke entries %d %s" % (at, h(bytes([old]))), "done")
    s.poke("words", 0, 64)
    s.dump("sound", True)
    s.say("A count over its limit by each bit. Every entry names a label and every set is sound, so nothing else is damaged; the levels too are under 64.")
    for index, limit in ((0, 64), (1, 256), (2, 32), (3, 8)):
        for bit in range(limit.bit_length() - 1, 64):
            for value in sorted({1 << bit, (1 << bit) + 1, (1 << bit) + limit - 1, (1 << bit) + limit}):
                if limit < value < 1 << 64:
                    s.call("poke words %d %d" % (index, value), "done")
                    refused()
        for value in (limit + 1, 1000, 65535, MOST, (1 << 63) - 1, HUGE - limit, HUGE):
            s.call("poke words %d %d" % (index, value), "done")
            refused(3)
        s.poke("words", index, limit)
        s.dump("sound", True)
    s.say("The same of the kept line's length.")
    s.call("freshloader", "done")
    for bit in range(10, 64):
        for value in (1 << bit, (1 << bit) + 5, (1 << bit) + 601):
            s.poke("loader", 0, value)
            s.piece(b"A B w\n" if bit % 2 else b"", "refused 0")
            s.end("refused 0")
    s.poke("loader", 0, 0)
    s.dump("sound", True)
    s.store()


def ranges_counters():
    s = Script("counters_end", "01: the report's numbers at 4294967295 where the end call itself ends the line.", True)
    for index, kind, text in ((2, "accepted", b"A B r"), (3, "skipped", b" "), (4, "refused", b"A A r")):
        for start in (0, MOST - 1, MOST):
            for before in (b"", b"\n"):
                s.fresh()
                s.poke("loader", index, start)
                if kind == "refused" and start:
                    s.poke("loader", 5, 7)
                    s.poke("loader", 6, 3)
                s.piece(before + text)
                counts = {2: 0, 3: 0, 4: 0}
                counts[3] += len(before)
                counts[index] += start + 1
                first = (0, 0) if kind != "refused" else (7, 3) if start else (1 + len(before), 5)
                s.end("report %d %d %d %d %d %d" % (1 + len(before), *(min(counts[i], MOST) for i in (2, 3, 4)), *first))
                s.end("report 0 0 0 0 0 0")
    s.say("lines, and the number of the first refused line")
    for start in (MOST - 2, MOST - 1, MOST):
        for before in (b"", b"\n"):
            s.fresh()
            s.poke("loader", 1, start)
            s.piece(before + b"A A q")
            line = min(start + len(before) + 1, MOST)
            s.end("report %d 0 %d 1 %d 4" % (line, len(before), line))
    s.say("all at once")
    for text, reason in ((b"A B r", 7), (b" ", 7), (b"A A r", 7)):
        s.fresh()
        for index in range(1, 6):
            s.poke("loader", index, MOST)
        s.poke("loader", 6, reason)
        s.piece(text)
        s.end("report %d %d %d %d %d %d" % ((MOST,) * 5 + (reason,)))
        s.end("report 0 0 0 0 0 0")
    s.store()


def ranges_programs():
    def says(line):
        """A question after `A B r`: what 01 says of this line. Only lines that begin `A B` or have other fields are asked."""
        f = cut(line)
        if len(line) > 600:
            return "refused 1"
        if not (len(f) == 3 or len(f) == 4 and f[3] == b"o"):
            return "refused 2"
        if not (is_label(f[0]) and is_label(f[1])):
            return "refused 3"
        if not all(b in b"rwxaRWXA" for b in f[2]):
            return "refused 8"
        if f[0] == f[1]:
            return "granted 5"
        return "granted 6" if f[:2] == [b"A", b"B"] and set(f[2].lower()) <= set(b"r") else "override 7" if len(f) == 4 else "denied 7"
    every = [bytes([b]) for b in range(256) if b != 10]
    lines = [b"A B w " + one for one in every] + [b"A B w o" + one for one in every] + [b"A B w " + one + b"o" for one in every]
    program("program_fourth_field", b"A B r\n?\n" + b"\n".join(lines), ["1 1 0 0 0 0 0"] + [says(line) for line in lines])
    lines = []
    for one in every:
        lines += [b"A B " + one, b"A B r"]
    program("program_no_loading_by_questions", b"A B r\n?\n" + b"\n".join(lines + [b"A B -", b"A B r", b"A B t", b"A B r", b"A B wt", b"A B w", b"A C r", b"A C r", b"C A r", b"C A r"]),
            ["1 1 0 0 0 0 0"] + [says(line) for line in lines] + ["refused 8", "granted 6", "refused 8", "granted 6", "refused 8", "denied 7", "denied 7", "denied 7", "denied 7", "denied 7"])
    near = [b"**", b"^^", b"__", b"_x", b"*x", b"^x", b"x_", b"x*", b"x^"]
    lines = [a + b" " + b + b" r" for a in near for b in near]
    program("program_near_special", b"A B r\n?\n" + b"\n".join(lines), ["1 1 0 0 0 0 0"] + [says(line) for line in lines])
    lines = [b"A B r" + b"r" * n for n in range(30)] + [b"A B " + b"-" * n + b"r" for n in range(30)] + [b"A B " + b"r" * n + b"q" for n in range(30)]
    program("program_long_access", b"".join(line + b"\n" for line in lines) + b"?\n" + b"\n".join(lines), ["90 60 0 30 61 4 0"] + [says(line) for line in lines])


def ranges():
    ranges_access()
    ranges_writes()
    ranges_labels()
    ranges_questions()
    ranges_refusals()
    ranges_look_ups()
    ranges_damage()
    ranges_counters()
    ranges_programs()


# ---------------------------------------------------------------------------------------------------------------------------------------------
# Near cases: what a program gets wrong that is right nearly everywhere
# ---------------------------------------------------------------------------------------------------------------------------------------------

def near_runs():
    s = Script("limits_runs", "01: a run of any length and content. Each is searched as records and as three slices. Label numbers, levels and sets count whole.", True)
    s.say("The last record of a long run is the only one that matches, or the lowest of all that match.")
    for n in (1001, 1024, 1025, 2049, 4097):
        s.run(9, C63, [(1, 8, C63)] * (n - 1) + [(7, 9, C63)], "label 7")
        s.run(9, C63, [(8, 9, C63)] * (n - 1) + [(7, 9, C63)], "label 7")
        s.run(9, C63, [(8, 9, C63)] * (n - 1) + [(7, 9, C62)], "label 8")
        s.run(9, C63, [(1, 8, C63)] * (n - 1) + [(7, 9, C62)], "none")
    s.run(9, C63, [(8, 9, C63)] + [(9, 9, C63)] * 4095 + [(7, 9, C63)] + [(9, 9, C63)] * 1000, "label 7")
    s.run(9, C63, [(8, 9, C63)] * 65536 + [(7, 9, C63)], "label 7")
    s.say("Label numbers are compared whole, each of the 64 bits; they have no sign.")
    for bit in range(3, 64):
        high = 1 << bit
        s.run(9, C63, [(5, 9, C63), (high, 9, C63)], "label 5")
        s.run(9, C63, [(high, 9, C63), (5, 9, C63)], "label 5")
        s.run(9, C63, [(high, 9, C63)], "label %d" % high)
        s.run(9, C63, [(high + 1, 9, C63), (high, 9, C63)], "label %d" % high)
        s.run(9, C63, [(high + 6, 9, C63), (2 * high - 1, 9, C63)], "label %d" % min(high + 6, 2 * high - 1))
        s.run(9, C63, [(high, 9, C63), (high - 1, 9, C63)], "label %d" % (high - 1))
        s.run(9, C63, [(high - 1, 9, C63), (high, 9, C63)], "label %d" % (high - 1))
    two = 1 << 32
    for some, lowest in (((two, 5), 5), ((two + 1, 2), 2), ((two, 1), 1), ((2 * two, two + 9), two + 9), ((HUGE, two), two), ((two - 1, two), two - 1), ((3 * two, 2 * two + 7), 2 * two + 7),
                         ((1 << 63, (1 << 63) - 1), (1 << 63) - 1), ((HUGE, 1 << 63), 1 << 63), ((HUGE, HUGE - 1), HUGE - 1), ((HUGE, HUGE), HUGE), ((HUGE, 0), 0), ((1 << 63, 0), 0)):
        s.run(9, C63, [(k, 9, C63) for k in some], "label %d" % lowest)
        s.run(9, C63, [(k, 9, C63) for k in reversed(some)], "label %d" % lowest)
    s.say("Levels side by side are told apart: in a run, then in the table.")
    for low in (0, 1, 2, 126, 127, 128, 253, 254):
        high = low + 1
        for set_ in (0, category(1), category(63)):
            for one, other in ((low, high), (high, low)):
                s.run(one, set_, [(3, other, set_)], "none")
                s.run(one, set_, [(3, other, set_), (4, one, set_)], "label 4")
                s.run(one, set_, [(4, one, set_), (3, other, set_)], "label 4")
            cats = b" 1" if set_ == category(1) else b" 63" if set_ else b""
            s.call("fresh", "done")
            s.mapping(b"A %d" % low + cats)
            s.bylevel(low, set_, "label 5")
            s.bylevel(high, set_, "none")
            s.mapping(b"B %d" % high + cats)
            s.bylevel(low, set_, "label 5")
            s.bylevel(high, set_, "label 6")
            s.bylabel(b"A", mapped(low, set_, len(cats) > 0))
            s.bylabel(b"B", mapped(high, set_, len(cats) > 0))
            s.mapping(b"A %d" % high + cats)
            s.bylevel(low, set_, "none")
            s.bylevel(high, set_, "label 5")
            s.mapping(b"B %d" % low + cats)
            s.bylevel(low, set_, "label 6")
    s.say("Both 254 and 255, 0 and 1, by each of 32 mappings.")
    for low in (0, 254):
        s.fresh()
        labels_to(s, 40)
        for k in range(32):
            s.mapping(name_of(39 - k) + b" %d" % (low + k % 2))
        s.bylevel(low, 0, "label 9")
        s.bylevel(low + 1, 0, "label 8")
    s.store()


def near_full():
    s = Script("limits_full", "01: the last free places. The order in which labels enter; what is still done with full tables.", True)
    s.say("62 labels: a rule's two new labels both enter, subject before object. 63: refused 6, and neither enters.")
    for first, second in ((b"New1", b"New2"), (b"New2", b"New1"), (b"z", b"a"), (b"a", b"z"), (b"L" * 255, b"x"), (b"x", b"L" * 255)):
        for write in ("line", "change"):
            for count in (61, 62, 63):
                s.fresh()
                labels_to(s, count)
                s.dump("%d labels" % count, True)
                if write == "line":
                    s.line(first + b" " + second + b" r", None if count < 63 else 6)
                else:
                    s.change(first + b" " + second + b" r -", "done" if count < 63 else "refused 6")
                if count < 63:
                    s.label(count, first)
                    s.label(count + 1, second)
                    s.label(count + 2, 13)
                    s.list(0, first + b" " + second + b" r\n", b"\xee" * 300)
                    s.ask(first, second, b"r", "granted 6")
                    s.ask(second, first, b"r", "denied 7")
                else:
                    s.label(63, 13)
                    s.list(0, 13)
                    s.dump("63 labels", True)
                    s.ask(first, second, b"r", "denied 7")
    s.say("63 labels: one new label enters, as subject or as object.")
    for text in (b"New1 L05 r", b"L05 New1 r"):
        s.fresh()
        labels_to(s, 63)
        s.line(text, None)
        s.label(63, b"New1")
        s.list(0, text + b"\n")
        s.line(b"New2 New1 r", 6)
        s.line(b"New1 New2 r", 6)
    s.say("64 labels and 256 rules: a known pair is set, at each place, by a line and by a change; it is not refused 7 or 6.")
    full(s, 64, 256, 0)
    for k in (0, 1, 31, 32, 127, 128, 254, 255):
        a, b = pairs()[k]
        s.line(a + b" " + b + b" wb", None)
        s.list(k, a + b" " + b + b" w\n")
        s.ask(a, b, b"w", "granted 6")
        s.change(a + b" " + b + b" xt w")
        s.list(k, a + b" " + b + b" xt\n")
        s.change(a + b" " + b + b" - -")
        s.list(k, a + b" " + b + b" xt\n")
        s.line(a + b" " + b + b" r", None)
        s.list(k, a + b" " + b + b" r\n")
        s.line(b + b" " + a + b" r" if (b, a) not in pairs()[:256] else b"L40 L41 r", 7)
    s.list(256, 13)
    s.say("The same tables: a label that is not stored is judged like any other.")
    for label in (b"Unseen", b"u", b"Q" * 255, b"New1", b"L64", b"**"):
        for request in (b"r", b"w", b"rwxa"):
            s.ask(label, label, request, "granted 5")
            s.ask(label, label, request, "granted 5", 1)
            s.ask(label, b"L05", request, "denied 7")
            s.ask(b"L05", label, request, "denied 7")
            s.ask(label, b"Other", request, "override 7", 1)
            s.ask(b"*", label, request, "denied 1")
            s.ask(label, b"*", request, "granted 4")
        s.ask(b"^", label, b"rx", "granted 2")
        s.ask(label, b"_", b"rx", "granted 3")
        s.ask(label, b"_", b"w", "denied 7")
        s.bylabel(label, "none")
        s.revoke(label, "revoked 0")
    s.override(b"L05")
    s.ask(b"Unseen", b"L05", b"r", "denied 7", 1)
    s.ask(b"Unseen", b"Unseen", b"r", "granted 5", 1)
    s.say("A new label enters by the 32nd mapping, at level 0 as at any other, with and without a category; by the first too.")
    for labels in (40, 63):
        for text, level, set_ in ((b"0", 0, 0), (b"000", 0, 0), (b"0 7", 0, category(7)), (b"00 63 1", 0, category(1) | category(63)), (b"1", 1, 0), (b"255", 255, 0), (b"255 7", 255, category(7))):
            full(s, labels, 0, 31)
            s.mapping(b"New1 " + text)
            s.label(labels, b"New1")
            s.label(labels + 1, 13)
            s.bylabel(b"New1", mapped(level, set_, bin(set_).count("1")))
            s.bylevel(level, set_, "label %d" % labels)
            s.mapping(b"L32 0", "refused 10")
            s.mapping(b"New2 0", "refused 10" if labels < 63 else "refused 6")
            s.label(labels + 1, 13)
            s.mapping(b"New1 3")
            s.bylabel(b"New1", mapped(3, 0, 0))
            s.bylevel(level, set_, "none")
            s.call("fresh", "done")
            s.mapping(b"New1 " + text)
            s.label(5, b"New1")
            s.bylevel(level, set_, "label 5")
    s.store()


def near_lengths():
    s = Script("limits_lengths", "01: a line or write of 600 bytes and any byte more is refused 1. A piece, a listing's buffer and a request have any length.", True)
    line, blanks = b"A B r" + b" " * 595, b" " * 600
    s.say("NUL as the 601st byte, in one piece and cut just before it, with a newline behind it and without; in the 600th place it is a byte of a field.")
    for kept in (line, blanks, b"A B" + b" " * 596 + b"r", b"x" * 600, b"\x00" * 600):
        for more in (b"\x00", b"\x00\x00", b" \x00", b"\x00 "):
            s.fresh()
            s.line(kept + more, 1)
            s.piece(kept)
            s.piece(more)
            s.end("report 1 0 0 1 1 1")
            s.piece(kept)
            s.piece(more[:1])
            s.piece(more[1:] + b"\nC D w\n")
            s.end("report 2 1 0 1 1 1")
            s.list(0, b"C D w\n")
            s.list(1, 13)
    for text, reason in ((line[:599] + b"\x00", 2), (blanks[:599] + b"\x00", 2), (b"A B" + b" " * 595 + b"r\x00", 4), (b"\x00" + blanks[:599], 2)):
        s.line(text, reason)
        s.piece(text[:599])
        s.piece(text[599:])
        s.end("report 1 0 0 1 1 %d" % reason)
    s.say("Each byte as the 601st behind 600 kept ones; a newline there ends the line.")
    for kept, newline in ((line, "report 1 1 0 0 0 0"), (blanks, "report 1 0 1 0 0 0")):
        s.fresh()
        s.poke("line", 0, kept)
        for b in range(256):
            s.poke("loader", 0, 600)
            s.piece(bytes([b]))
            s.end(newline if b == 10 else "report 1 0 0 1 1 1")
    s.say("The same in a write.")
    s.fresh()
    s.line(b"A B -", None)
    s.dump("before", True)
    for b in (0, 9, 10, 13, 32, 45, 65, 127, 128, 255):
        one = bytes([b])
        s.change((b"A B r -" + blanks)[:600] + one, "refused 1")
        s.change(blanks[:593] + b"A B r -" + one, "refused 1")
        s.override((b"A" + blanks)[:600] + one, "refused 1")
        s.override(b"-" + blanks[:599] + one, "refused 1")
        s.mapping((b"A 9" + b" " * 1000)[:1000] + one, "refused 1")
        s.mapping(b"A 9 " + b" 1" * 498 + one, "refused 1")
        s.revoke(b"A" * 600 + one, "refused 1")
        s.revoke(b"A" + b"\x00" * 599 + one, "refused 1")
    s.dump("before", True)
    s.say("A piece of over 65536 bytes.")
    s.fresh()
    s.piece(b"\n" * 65536 + b"A B r\n")
    s.end("report 65537 1 65536 0 0 0")
    s.piece(b"x" * 65541 + b"\nC D w\n")
    s.end("report 2 1 0 1 1 1")
    s.list(0, b"A B r\n")
    s.list(1, b"C D w\n")
    s.call("piece =" + "x" * 65536, "done")
    s.end("report 1 0 0 1 1 1")
    s.call("piece =" + "x" * 70000, "done")
    s.piece(b"\n")
    s.end("report 1 0 0 1 1 1")
    s.say("A buffer of over 65536 bytes: what is listed goes to its front, the rest stays.")
    s.call("list 0 =" + "x" * 65539, "length 6 " + h(b"A B r\n" + b"x" * 65533))
    s.say("A request of over 5000 bytes, and of over 65536: each letter counts, and a bad byte at the end is seen.")
    for n in (5000, 65536):
        s.ask(b"Q", b"Q", b"r" * n, "granted 5")
        s.ask(b"A", b"B", b"r" * n, "granted 6")
        s.ask(b"A", b"_", b"r" * n + b"w", "denied 7")
        s.ask(b"A", b"B", b"r" * n + b"x", "denied 7")
        s.ask(b"A", b"B", b"r" * n + b"q", "refused 8")
    s.ask(b"A", b"B", b"r" * 5001, "granted 6")
    s.ask(b"A", b"B", b"r" * 5000 + b"\x00", "refused 8")
    s.ask(b"A", b"B", b"R" * 5000 + b"-", "refused 8")
    s.ask(b"^", b"A", b"rx" * 2600, "granted 2")
    s.ask(b"^", b"A", b"rx" * 2600 + b"a", "denied 7")
    s.store()


def near_loader():
    s = Script("counters_first", "01: the end call answers the report and leaves the loader fresh. The first refused line is told by a refused count of 0.", True)
    s.fresh()
    s.dump("fresh")
    s.say("No line is refused, and yet a number or a reason stands there: reported as it is, and gone afterwards.")
    for first, reason in ((9, 0), (0, 3), (9, 3), (1, 0), (MOST, 255)):
        def held():
            s.poke("loader", 5, first)
            s.poke("loader", 6, reason)
        s.say("first %d, reason %d" % (first, reason))
        s.fresh()
        held()
        s.end("report 0 0 0 0 %d %d" % (first, reason))
        s.dump("fresh")
        s.end("report 0 0 0 0 0 0")
        s.dump("fresh")
        held()
        s.piece(b"")
        s.end("report 0 0 0 0 %d %d" % (first, reason))
        s.dump("fresh")
        s.say("An accepted and a skipped line leave them; a refused one is the first, whatever stands there.")
        for text, report in ((b"A B r\n", "1 1 0 0 %d %d" % (first, reason)), (b"A B r", "1 1 0 0 %d %d" % (first, reason)), (b"\n \n", "2 0 2 0 %d %d" % (first, reason)),
                             (b" ", "1 0 1 0 %d %d" % (first, reason)), (b"A A r\n", "1 0 0 1 1 5"), (b"A A r", "1 0 0 1 1 5"), (b"A B\n", "1 0 0 1 1 2"), (b"A/ B r", "1 0 0 1 1 3"),
                             (b"A B q\n", "1 0 0 1 1 4"), (b" " * 601, "1 0 0 1 1 1"), (b" " * 601 + b"\n", "1 0 0 1 1 1"), (b"\nA B r\nA B q\nA\n", "4 1 1 2 3 4"),
                             (b"A A r\nA B q\nA", "3 0 0 3 1 5")):
            held()
            s.piece(text)
            s.end("report " + report, 1 if text == b"A/ B r" else 0)
            s.end("report 0 0 0 0 0 0")
    s.say("Lines are refused, and no number stands there: it stays so.")
    for refused in (1, 7, MOST):
        for text, lines in ((b"", 0), (b"A A r\n", 1), (b"A A r", 1), (b"\nA B q\n", 2)):
            s.fresh()
            s.poke("loader", 4, refused)
            s.piece(text)
            s.end("report %d 0 %d %d 0 0" % (lines, lines == 2, min(refused + (lines > 0), MOST)))
            s.end("report 0 0 0 0 0 0")
    s.say("Whatever these seven numbers are, the end call leaves a fresh loader; the place is in places_report, the count of lines with b in bringup_limits.")
    for index in range(7):
        s.fresh()
        s.poke("loader", index, 1)
        s.end("report " + ("1 0 0 1 1 2" if index == 0 else " ".join("1" if k == index else "0" for k in range(1, 7))))
        s.dump("fresh")
    s.store()


def near_twice():
    s = Script("twice_modes", "01: where a lent state holds a pair twice, the first counts: its letters alone.", True)
    for one, other in ((b"rb", b"r"), (b"r", b"rb"), (b"rwb", b"rwxa"), (b"rw", b"rwxatb"), (b"b", b"r"), (b"-", b"rb"), (b"rb", b"-"), (b"r", b"b")):
        s.say("%s, then %s" % (one.decode(), other.decode()))
        s.fresh()
        s.piece(b"A B " + one + b"\nC D " + other + b"\nA C x\nB A " + other + b"\n")
        s.end("report 4 4 0 0 0 0", 0, (b"b" in one) + 2 * (b"b" in other))
        s.poke("entries", 1, b"\x05")
        s.poke("entries", 257, b"\x06")
        s.list(0, b"A B " + listed_modes(one) + b"\n")
        s.list(1, b"A B " + listed_modes(other) + b"\n")
        for request in (b"r", b"w", b"rw", b"rwxa"):
            for capable in (0, 1):
                s.ask(b"A", b"B", request, "granted 6" if set(request) <= set(one) else "override 7" if capable else "denied 7", capable)
        s.ask(b"B", b"A", b"r", "granted 6" if b"r" in other else "denied 7")
        s.change(b"A B r -")
        s.ask(b"A", b"B", b"r", "granted 6")
        s.line(b"A B x" + (b"" if b"b" in one else b"b"), None)
        s.ask(b"A", b"B", b"x", "granted 6")
        s.list(0, b"A B x\n")
        s.list(1, b"A B " + listed_modes(other) + b"\n")
    s.say("256 rules: the pair at two places, near and far; with t at one of them alone.")
    full(s, 64, 256, 0)
    for first, second in ((0, 1), (0, 31), (0, 32), (0, 255), (30, 33), (31, 32), (127, 128), (63, 200), (254, 255)):
        old = pairs()
        for place in (first, second):
            s.poke("entries", place, b"\x1e")
            s.poke("entries", 256 + place, b"\x1f")
        for modes, answer in ((b"\x22\x20", "granted 6"), (b"\x20\x22", "granted 6"), (b"\x20\x3e", "granted 6"), (b"\x22\x00", "granted 6"), (b"\x00\x22", "denied 7"), (b"\x02\x20", "denied 7")):
            s.poke("entries", 512 + first, modes[:1])
            s.poke("entries", 512 + second, modes[1:])
            s.ask(b"L30", b"L31", b"r", answer)
        for place in (first, second):
            s.poke("entries", place, bytes([int(old[place][0][1:])]))
            s.poke("entries", 256 + place, bytes([int(old[place][1][1:])]))
            s.poke("entries", 512 + place, b"\x20")
    s.store()


def near_override():
    s = Script("questions_override", "01, Questions: override after a denial by rule 1 answers rule 1; the list is empty, or holds *, at each place of one to eight.", True)

    def asked(word):
        for object_ in (b"*", b"_", b"^", b"A", b"Unseen"):
            for request in (b"r", b"w", b"rwxa"):
                s.ask(b"*", object_, request, word + " 1", 1)
                s.ask(b"*", object_, request, "denied 1")
    s.say("The list is empty; it is cleared; a rule of * does not count before rule 1.")
    s.fresh()
    asked("override")
    s.override(b"*")
    asked("override")
    s.override(b"A")
    asked("denied")
    s.override(b"-")
    asked("override")
    s.line(b"* A rwxatb", None)
    s.line(b"* _ r", None)
    asked("override")
    s.say("The list holds * at each place, alone and among others.")
    others = [b"P%d" % k for k in range(8)]
    for n in (1, 2, 7, 8):
        for at in range(n):
            s.override(b" ".join(others[:at] + [b"*"] + others[at:n - 1]))
            for object_ in (b"*", b"_", b"A"):
                s.ask(b"*", object_, b"r", "override 1", 1)
                s.ask(b"*", object_, b"r", "denied 1")
            s.ask(b"P7", b"A", b"r", "denied 7", 1)
            if n > 1:
                s.ask(b"P0", b"A", b"r", "override 7", 1)
                s.ask(b"P0", b"*", b"r", "granted 4", 1)
    s.say("Full lists without *: denied, by rule 1.")
    for n in range(1, 9):
        s.override(b" ".join(others[:n]))
        s.ask(b"*", b"_", b"r", "denied 1", 1)
        s.ask(b"*", b"*", b"w", "denied 1", 1)
        s.ask(b"P0", b"A", b"r", "override 7", 1)
    s.override(b"_ ^ ? @ ** P1 P2 P3")
    asked("denied")
    s.override(b"_ ^ ? @ ** P1 P2 *")
    asked("override")
    s.say("* is stored twice: it means its first number. * is not stored: it is on no list, and passes where the list is empty.")
    s.fresh()
    s.override(b"A B")
    s.poke("labels", 6 * 256, place(b"*"))
    asked("denied")
    s.poke("entries", 832, b"\x02")
    asked("override")
    s.poke("entries", 832, b"\x05\x06")
    asked("denied")
    s.poke("labels", 2 * 256, place(b"X"))
    asked("override")
    s.poke("labels", 6 * 256, place(b"Y"))
    asked("denied")
    s.override(b"-")
    asked("override")
    s.store()


def near_places():
    s = Script("odd_places", "01, Questions: _ ^ * are known by their bytes, never by the numbers 0 to 2. Lent states with other labels there.", True)

    def by_bytes(state, a, b, c):
        """The labels a, b, c stand at 0 to 2 and are ordinary ones."""
        s.say(state)
        s.label(0, a)
        s.label(1, b)
        s.label(2, c)
        for one in (a, b, c):
            for request in (b"r", b"x", b"rx", b"w", b"rwxa"):
                s.ask(one, b"Other", request, "denied 7")
                s.ask(b"Other", one, request, "denied 7")
                s.ask(one, one, request, "granted 5")
                s.ask(one, b"Other", request, "override 7", 1)
                s.ask(b"*", one, request, "denied 1")
                s.ask(one, b"*", request, "granted 4")
                s.ask(b"^", one, request, "granted 2" if set(request) <= set(b"rx") else "denied 7")
                s.ask(one, b"_", request, "granted 3" if set(request) <= set(b"rx") else "denied 7")
        for one, other in ((a, b), (b, a), (a, c), (c, a), (b, c), (c, b)):
            s.ask(one, other, b"r", "denied 7")
        s.ask(b"*", b"_", b"r", "denied 1")
        s.ask(b"*", b"*", b"r", "denied 1")
        s.ask(b"*", b"_", b"r", "override 1", 1)
        s.ask(b"^", b"_", b"rx", "granted 2")
        s.ask(b"^", b"*", b"w", "granted 4")
        s.ask(b"^", b"^", b"w", "granted 5")
        s.ask(b"_", b"_", b"r", "granted 3")
        s.ask(b"_", b"_", b"w", "granted 5")
        s.ask(b"_", b"^", b"r", "denied 7")
        s.ask(b"^", b"_", b"w", "denied 7")
    for a, b, c in ((b"A", b"B", b"C"), (b"__", b"^^", b"**"), (b"?", b"@", b"!")):
        s.fresh()
        for k, label in enumerate((a, b, c)):
            s.poke("labels", 256 * k, place(label))
        by_bytes("_ ^ * are not stored", a, b, c)
        s.override(b"^ _ *")
        s.override(b"-")
        for k, label in enumerate((b"^", b"_", b"*")):
            s.label(5 + k, label)
        by_bytes("^ stands at number 5, _ at 6, * at 7", a, b, c)
        s.say("and with rules: what rules 1 to 4 decide they decide all the same")
        s.piece(b"%s Other rwb\nOther %s x\n* Other rwxa\nOther * -\n^ Other w\nOther _ wb\n%s Other r\n" % (a, b, c))
        s.end("report 7 7 0 0 0 0", 0, 2)
        for one, other, request, answer in ((a, b"Other", b"rw", "granted 6"), (b"Other", b, b"x", "granted 6"), (b"Other", b, b"r", "denied 7"), (b"*", b"Other", b"r", "denied 1"),
                                            (b"Other", b"*", b"w", "granted 4"), (b"^", b"Other", b"w", "granted 6"), (b"^", b"Other", b"rx", "granted 2"), (b"^", b"Other", b"rw", "denied 7"),
                                            (b"Other", b"_", b"w", "granted 6"), (b"Other", b"_", b"r", "granted 3"), (c, b"Other", b"r", "granted 6"), (c, b"Other", b"w", "denied 7")):
            s.ask(one, other, request, answer)
        for k, listed in ((0, a + b" Other rw\n"), (2, b"* Other rwxa\n"), (4, b"^ Other w\n")):
            s.list(k, listed, b"\xee" * 20)
    s.say("^ at number 5 beside the one at number 1: it means its first number, and is ^ all the same.")
    s.fresh()
    s.line(b"A B w", None)
    s.poke("labels", 5 * 256, place(b"^"))
    s.list(0, b"^ B w\n")
    s.ask(b"^", b"B", b"rx", "granted 2")
    s.ask(b"^", b"B", b"w", "denied 7")
    s.poke("entries", 0, b"\x01")
    s.ask(b"^", b"B", b"w", "granted 6")
    s.poke("labels", 256, place(b"A"))
    s.ask(b"^", b"B", b"w", "denied 7")
    s.ask(b"^", b"B", b"rx", "granted 2")
    s.ask(b"A", b"B", b"w", "granted 6")
    s.ask(b"A", b"B", b"rx", "denied 7")
    s.store()


def near_damage():
    s = Script("damage_line", "01, refusal 0: a line part not of its full size, under a loader that keeps no byte. Nothing changes.", True)
    number = 0
    for size in (0, 1, 2, 599, 601, 602, 1200):
        for report in (False, True):
            number += 1
            s.say("a line of %d bytes%s" % (size, ", lines counted" if report else ""))
            s.fresh()
            if report:
                s.piece(b"A B r\n\nA A r\n")
            s.call("resize line %d" % size, "done")
            s.dump("line %d" % number)
            for text in (b"", b"\n", b"x", b" ", b"C D w\n", b"C D w"):
                s.piece(text, "refused 0")
                s.end("refused 0")
            s.dump("line %d" % number)
            s.label(5, b"A" if report else 13)
            s.label(7, 13)
            s.say("full size again, the loader goes on as it was")
            s.call("resize line 600", "done")
            s.end("report 3 1 1 1 3 5" if report else "report 0 0 0 0 0 0")
    s.store()

    s = Script("damage_wide", "01, refusal 0: a count over its limit that is within it in its low 8, 16 or 32 bits. Each call under each, on a fresh table and on a small one.")
    for build, counts in ((Script.fresh, (5, 0, 0, 0)), (small_state, (9, 3, 2, 2))):
        build(s)
        s.dump("sound %d" % counts[0])
        for index, limit in enumerate((64, 256, 32, 8)):
            low = sorted({0, counts[index], limit})
            values = [(1 << bit) + k for bit in (16, 32, 33, 48, 63) for k in low] + [(1 << 32) - (1 << 16) + counts[index], HUGE - (1 << 32) + 1 + counts[index]]
            values += [256 + k for k in low if 256 + k > limit] + [512 + k for k in low]
            for value in values:
                s.say("count %d is %d" % (index, value))
                s.poke("words", index, value)
                refused_by_all(s)
            s.dump("wide %d %d" % (counts[0], index))
            s.poke("words", index, counts[index])
            s.dump("sound %d" % counts[0])
        s.say("A fresh table is made all the same.")
        for index in range(4):
            s.poke("words", index, (1 << 32) + counts[index])
            s.label(0, 0)
            s.call("freshen", "done")
            s.label(4, b"@")
            s.label(5, 13)
            s.list(0, 13)
    s.store()


def near_programs():
    line = b"A B r" + b" " * 595
    program("program_601st_byte", line + b"\n" + line + b"\x00\n" + b" " * 600 + b"\x00\n?\n" + line[:599] + b"\x00\nA B r\n" + line + b"\x00\nA B r\n" + line + b"\x00",
            ["3 1 0 2 2 1 0", "refused 2", "granted 6", "refused 1", "granted 6", "refused 1"])


def near():
    near_runs()
    near_full()
    near_lengths()
    near_loader()
    near_twice()
    near_override()
    near_places()
    near_damage()
    near_programs()


# ---------------------------------------------------------------------------------------------------------------------------------------------
# Old fixed records: 02, request One
# ---------------------------------------------------------------------------------------------------------------------------------------------

PLACES = (b"rR-", b"wW-", b"xX-", b"aA-", b"tT-")
LONG = b"L2345678901234567890123456789"


def fixed(subject, object_, access):
    """A record: two places of 24 bytes, filled with spaces, and the access bytes."""
    return subject.ljust(24, b" ") + object_.ljust(24, b" ") + access


def says_record(record):
    """The line that a record is turned into, or the number of its refusal. Where the record is made by a loop."""
    places = record[:24], record[24:48]
    labels = [p.rstrip(b" ") for p in places]
    if len(record) != 53 or any(p[-1:] != b" " for p in places) or any(not l or b" " in l for l in labels):
        return 14
    if not all(is_label(l) for l in labels):
        return 3
    if any(b not in own for b, own in zip(record[48:], PLACES)):
        return 4
    return 5 if labels[0] == labels[1] else b"%s %s %s\n" % (labels[0], labels[1], listed_modes(record[48:]))


def says_line(line):
    """The record that a line is turned into, or the number of its refusal."""
    text = line[:-1] if line[-1:] == b"\n" else line
    f = cut(text)
    if len(text) > 600:
        return 1
    if len(f) != 3:
        return 2
    if not (is_label(f[0]) and is_label(f[1])):
        return 3
    if not is_access(f[2], b"rwxatb"):
        return 4
    if f[0] == f[1]:
        return 5
    if len(f[0]) > 23 or len(f[1]) > 23:
        return 15
    return fixed(f[0], f[1], bytes(c if c in f[2].lower() else 45 for c in b"rwxat"))


def records_bytes():
    good = fixed(b"Do1", b"Do2", b"rwxat")
    for name, first, last, text in (("subject", 0, 24, "the subject's place"), ("object", 24, 48, "the object's place"), ("access", 48, 53, "the five access bytes")):
        s = Script("records_bytes_" + name, "02, One: every byte in every place of a good record: %s." % text, True)
        for at in range(first, last):
            s.say("byte %d of the record" % at)
            for b in range(256):
                record = good[:at] + bytes([b]) + good[at + 1:]
                s.to_line(record, says_record(record), b"\xee" * 16)
        if first < 48:
            s.say("A label of 23 bytes: every byte as its last one, and as the one that closes the place.")
            other = b"B".ljust(24)
            for at in (22, 23):
                for b in range(256):
                    place = (LONG[:23] + b" ")[:at] + bytes([b]) + (LONG[:23] + b" ")[at + 1:]
                    record = (place + other if first == 0 else other + place) + b"r----"
                    s.to_line(record, says_record(record), b"\xee" * 28)
        s.store()

    s = Script("records_bytes_line", "02, One: every byte in every place of a good line, and behind it.", True)
    for at in range(8):
        s.say("byte %d of the line" % at)
        for b in range(256):
            line = b"A1 A2 r\n"
            line = line[:at] + bytes([b]) + line[at + 1:]
            s.to_record(line, says_line(line), b"\xee" * 53)
    s.say("behind the line, where it has no newline, and behind its newline; before it")
    for b in range(256):
        for line in (b"A1 A2 r" + bytes([b]), b"A1 A2 r\n" + bytes([b]), bytes([b]) + b"A1 A2 r"):
            s.to_record(line, says_line(line), b"\xee" * 53)
    s.store()


def records_access():
    s = Script("records_access", "02, One: each of the 243 patterns of the five access bytes, small, capital or dash: the line, the record back, the line again.", True)
    for number in range(243):
        access = bytes(own[number // 3 ** k % 3] for k, own in enumerate(PLACES))
        letters = access.lower().replace(b"-", b"") or b"-"
        line, back = b"Alarm Air " + letters + b"\n", fixed(b"Alarm", b"Air", access.lower())
        s.to_line(fixed(b"Alarm", b"Air", access), line, b"\xee" * 17)
        s.to_record(line, back, b"\xee" * 54)
        s.to_line(back, line, b"\xee" * len(line))
    s.say("In a line letters stand in any order, either case, repeats and dashes allowed; a dash between is a placeholder. The record has each at its place.")
    for access, back in ((b"-", b"-----"), (b"---", b"-----"), (b"-----", b"-----"), (b"------", b"-----"), (b"taxwr", b"rwxat"), (b"TAXWR", b"rwxat"), (b"a-r", b"r--a-"),
                         (b"-r", b"r----"), (b"t-", b"----t"), (b"rRrR", b"r----"), (b"x", b"--x--"), (b"X", b"--x--"), (b"wW-wW", b"-w---"), (b"rwxatrwxat", b"rwxat")):
        s.to_record(b"Alarm Air " + access, fixed(b"Alarm", b"Air", back), b"\xee" * 53)
        s.to_record(b"Alarm Air " + access + b"\n", fixed(b"Alarm", b"Air", back), b"\xee" * 53)
    s.say("A letter in another's place is 4, and so is b in any place.")
    for at in range(5):
        for letter in b"rwxatb":
            if letter == b"rwxat"[at]:
                continue
            for one in (bytes([letter]), bytes([letter]).upper()):
                for rest in (b"-----", b"rwxat"):
                    s.to_line(fixed(b"Alarm", b"Air", rest[:at] + one + rest[at + 1:]), 4, b"\xee" * 17)
    s.store()


def records_refusals():
    s = Script("records_refusals", "02, One: record 14 3 4 5 12; line 1 2 3 4 5 15 12. Each refusal, and each two neighbours where an input deserves both. All of the output stays.")
    outs = [b"", b"\xee", b"\xee" * 53, b"\xee" * 100]

    def record(name, data, number):
        """`name` says which numbers hold. 12 holds too where the output is short."""
        s.say("record: " + name)
        s.to_line(data, number)
        for out in outs:
            s.to_line(data, number, out)

    def line(name, data, number):
        s.say("line: " + name)
        s.to_record(data, number)
        for out in outs:
            s.to_record(data, number, out)

    good = fixed(b"Alarm", b"Air", b"rwxat")
    record("14, no byte", b"", 14)
    record("14, one byte less", good[:52], 14)
    record("14, one byte more", good + b"-", 14)
    record("14, a space more", good + b" ", 14)
    record("14, a newline more", good + b"\n", 14)
    record("14, two records", good + good, 14)
    record("14, the subject's place is all spaces", fixed(b"", b"Air", b"rwxat"), 14)
    record("14, the object's place is all spaces", fixed(b"Alarm", b"", b"rwxat"), 14)
    record("14, both places are all spaces", b" " * 48 + b"rwxat", 14)
    record("14, the record is all spaces", b" " * 53, 14)
    record("14, a space within the subject", fixed(b"Al rm", b"Air", b"rwxat"), 14)
    record("14, a space within the object", fixed(b"Alarm", b"A r", b"rwxat"), 14)
    record("14, a space before the subject", fixed(b" Alarm", b"Air", b"rwxat"), 14)
    record("14, a space before the object", fixed(b"Alarm", b" Air", b"rwxat"), 14)
    record("14, the subject stands at the right", b"Alarm".rjust(24) + good[24:], 14)
    record("14, the object stands at the right", good[:24] + b"Air".rjust(24) + b"rwxat", 14)
    record("14, a tab after a space", fixed(b"Alarm \t", b"Air", b"rwxat"), 14)
    record("14, a NUL after a space", fixed(b"Alarm", b"Air \x00", b"rwxat"), 14)
    record("14, the subject's place does not end in a space", fixed(LONG[:24], b"Air", b"rwxat"), 14)
    record("14, the object's place does not end in a space", fixed(b"Alarm", LONG[:24], b"rwxat"), 14)
    record("14, the subject's place has a letter at its end alone", fixed(b"Alarm".ljust(23) + b"x", b"Air", b"rwxat"), 14)
    record("14, the object's place has a letter at its end alone", fixed(b"Alarm", b"Air".ljust(23) + b"x", b"rwxat"), 14)
    record("14, filled with NUL", (b"Alarm".ljust(24, b"\x00") + b"Air".ljust(24, b"\x00") + b"rwxat"), 14)
    record("14, filled with tabs", (b"Alarm".ljust(24, b"\t") + b"Air".ljust(24, b"\t") + b"rwxat"), 14)
    record("14 and 3, of the subject", fixed(b"/ Alarm", b"Air", b"rwxat"), 14)
    record("14 of the object and 3 of the subject", fixed(b"Al/rm", b"", b"rwxat"), 14)
    record("14 of the object's end and 3 of the subject", fixed(b"-Alarm", LONG[:24], b"rwxat"), 14)
    record("14 of the subject and 3 of the object", fixed(b"", b"Air/", b"rwxat"), 14)
    record("14 of the length and 3", fixed(b"Al/rm", b"Air", b"rwxa"), 14)
    record("14 of the length and 3, one more", fixed(b"Al/rm", b"Air", b"rwxat-"), 14)
    record("14 and 4", fixed(b"Alarm", b"A r", b"q----"), 14)
    record("14 and 5", fixed(b"A r", b"A r", b"rwxat"), 14)
    record("14 and 3 4 5, all of it wrong", fixed(b"/ /", b"/ /", b"qqqqq"), 14)
    record("3, of the subject", fixed(b"Al/rm", b"Air", b"rwxat"), 3)
    record("3, of the object", fixed(b"Alarm", b"Ai\\r", b"rwxat"), 3)
    record("3, the subject begins with a dash", fixed(b"-Alarm", b"Air", b"rwxat"), 3)
    record("3, the object is a dash", fixed(b"Alarm", b"-", b"rwxat"), 3)
    for b in b"\x00\t\n\r\x1f\"'/\\\x7f\x80\xa0\xff":
        record("3, byte %d in the subject" % b, fixed(b"Al" + bytes([b]) + b"rm", b"Air", b"rwxat"), 3)
        record("3, byte %d ends the object" % b, fixed(b"Alarm", b"Air" + bytes([b]), b"rwxat"), 3)
    record("3 and 4", fixed(b"Al/rm", b"Air", b"q----"), 3)
    record("3 of the object and 4", fixed(b"Alarm", b"-Air", b"----b"), 3)
    record("3 and 5", fixed(b"-", b"-", b"rwxat"), 3)
    record("3 and 4 5", fixed(b"A/", b"A/", b"wwwww"), 3)
    record("4, a letter that is none", fixed(b"Alarm", b"Air", b"q----"), 4)
    record("4, w in the place of r", fixed(b"Alarm", b"Air", b"w----"), 4)
    record("4, b", fixed(b"Alarm", b"Air", b"rwxab"), 4)
    record("4, spaces for dashes", fixed(b"Alarm", b"Air", b"r    "), 4)
    record("4, letters at the left", fixed(b"Alarm", b"Air", b"rx---"), 4)
    record("4, NUL at the end", fixed(b"Alarm", b"Air", b"rwxa\x00"), 4)
    record("4, a newline at the end", fixed(b"Alarm", b"Air", b"rwxa\n"), 4)
    record("4 and 5", fixed(b"Alarm", b"Alarm", b"w----"), 4)
    record("4 and 5, the last byte", fixed(b"Alarm", b"Alarm", b"rwxab"), 4)
    record("5", fixed(b"Alarm", b"Alarm", b"rwxat"), 5)
    record("5, no letter", fixed(b"_", b"_", b"-----"), 5)
    record("5, labels of 23 bytes", fixed(LONG[:23], LONG[:23], b"RWXAT"), 5)
    s.say("record: 12 alone; nothing before it holds")
    line_text = b"Alarm Air rwxat\n"
    for length in (0, 1, 15):
        s.to_line(good, 12, b"\xee" * length)
    s.to_line(good, line_text, b"\xee" * 16)

    pad = b" " * 600
    line("1", b"Alarm Air r" + pad, 1)
    line("1 and 2", b"Alarm Air" + pad, 1)
    line("1 and 2, blanks alone", pad + b" ", 1)
    line("1 and 3 4 5", b"/ / q" + pad, 1)
    line("1 and 15", b"%s Air b" % LONG[:24] + pad + b"\n", 1)
    line("2, one field", b"Alarm", 2)
    line("2, two fields", b"Alarm Air", 2)
    line("2, four fields", b"Alarm Air r w", 2)
    line("2, five fields", b"Alarm Air r w x", 2)
    line("2 and 3", b"Al/rm Air", 2)
    line("2 and 3, too many", b"Al/rm Air r x", 2)
    line("2 and 4 5", b"Alarm Alarm q q", 2)
    line("2 and 15", b"%s Air b b" % LONG[:24], 2)
    line("3, of the subject", b"Al/rm Air r", 3)
    line("3, of the object", b"Alarm -Air r", 3)
    line("3, 256 bytes and not 15", b"%s Air r" % (b"L" * 256), 3)
    line("3, 256 bytes in the object", b"Alarm %s r" % (b"L" * 256), 3)
    line("3 and 4", b"Al/rm Air q", 3)
    line("3 of the object and 4", b"Alarm Air' q", 3)
    line("3 and 5", b"- - -", 3)
    line("3 and 15", b"Al/rm %s b" % LONG[:24], 3)
    line("4", b"Alarm Air q", 4)
    line("4, the last byte", b"Alarm Air rwxatl", 4)
    line("4 and 5", b"Alarm Alarm q", 4)
    line("4, b beside it", b"Alarm Air bq", 4)
    line("4 and 15, a long label", b"%s Air q" % LONG[:24], 4)
    line("5", b"Alarm Alarm r", 5)
    line("5, no letter", b"_ _ -\n", 5)
    line("5, b", b"Alarm Alarm b", 5)
    line("5 and 15, labels of 24 bytes", b"%s %s r" % (LONG[:24], LONG[:24]), 5)
    line("5 and 15, labels of 255 bytes", b"%s %s r" % (b"L" * 255, b"L" * 255), 5)
    line("15, the subject", b"%s Air r" % LONG[:24], 15)
    line("15, the object", b"Alarm %s r" % LONG[:24], 15)
    line("15, the subject, and b", b"%s Air b" % LONG[:24], 15)
    line("15, the object, and b", b"Alarm %s rB" % LONG[:24], 15)
    for access, back in ((b"b", b"-----"), (b"B", b"-----"), (b"rwxatb", b"rwxat"), (b"RWXATB", b"rwxat"), (b"-b", b"-----"), (b"b-", b"-----"), (b"br", b"r----"), (b"bb", b"-----"),
                         (b"r-B-r", b"r----")):
        s.say("line: b is dropped, access %s; 12 where the output is short" % access.decode())
        s.to_record(b"Alarm Air " + access, fixed(b"Alarm", b"Air", back))
        for out in outs:
            s.to_record(b"Alarm Air " + access, 12 if len(out) < 53 else fixed(b"Alarm", b"Air", back), out)
    s.say("line: 12 alone; nothing before it holds")
    for length in (0, 1, 52):
        s.to_record(b"Alarm Air rwxat\n", 12, b"\xee" * length)
    s.to_record(b"Alarm Air rwxat\n", good, b"\xee" * 53)
    s.store()


def records_labels():
    s = Script("records_labels", "02, One: labels of 1 to 24 bytes and more as subject and as object, both ways. A label is never cut.")
    for length in (1, 2, 22, 23):
        label = LONG[:length]
        s.say("a label of %d bytes" % length)
        for subject, object_ in ((label, b"Air"), (b"Air", label), (label, b"M" * length), (b"M" * length, label)):
            line = b"%s %s rx\n" % (subject, object_)
            s.to_line(fixed(subject, object_, b"R-X--"), line)
            s.to_record(line, fixed(subject, object_, b"r-x--"))
            s.to_record(line[:-1], fixed(subject, object_, b"r-x--"))
            s.to_line(fixed(subject, object_, b"r-x--"), line)
    s.say("The longest line of a record: 23, 23, five letters, two spaces, a newline: 54. The shortest: 6.")
    line = b"%s %s rwxat\n" % (LONG[:23], b"M" * 23)
    s.to_line(fixed(LONG[:23], b"M" * 23, b"rwxat"), line, b"\xee" * 54)
    s.to_line(fixed(LONG[:23], b"M" * 23, b"rwxat"), 12, b"\xee" * 53)
    s.to_line(fixed(b"A", b"B", b"-----"), b"A B -\n", b"\xee" * 6)
    s.say("24 bytes fill a place: the record is 14. In a line they are 15.")
    for length in (24, 25, 47, 48, 254, 255):
        label = (LONG * 10)[:length]
        if length == 24:
            s.to_line(fixed(label, b"Air", b"r-x--"), 14)
            s.to_line(fixed(b"Air", label, b"r-x--"), 14)
            s.to_line(fixed(label, b"M" * 24, b"r-x--"), 14)
        for line in (b"%s Air rx" % label, b"Air %s rx" % label, b"%s %s rx" % (label, b"M" * length), b"%s %s rx" % (b"M" * 23, label)):
            s.to_record(line, 15)
            s.to_record(line + b"\n", 15)
    s.say("Two labels that agree in their first 23 bytes: 15, as if nothing were equal.")
    for one, two in ((LONG[:23] + b"1", LONG[:23] + b"2"), (LONG[:24], LONG[:23]), (LONG[:23], LONG[:24]), (LONG[:25], LONG[:24]), (b"L" * 254 + b"1", b"L" * 254 + b"2")):
        s.to_record(b"%s %s r" % (one, two), 15)
        s.to_record(b"%s %s -\n" % (one, two), 15)
    s.say("Two labels that differ only in byte 23, or only in case, are two labels.")
    for one, two in ((LONG[:22] + b"1", LONG[:22] + b"2"), (LONG[:22], LONG[:23]), (b"air", b"Air"), (b"A", b"AA"), (b"A", b"A-")):
        for subject, object_ in ((one, two), (two, one)):
            line = b"%s %s wt\n" % (subject, object_)
            s.to_line(fixed(subject, object_, b"-w--T"), line)
            s.to_record(line, fixed(subject, object_, b"-w--t"))
    s.say("The five labels, marks, a dash behind the first byte.")
    for subject, object_ in ((b"_", b"^"), (b"*", b"?"), (b"@", b"_"), (b"!", b"#"), (b"a-", b"a--"), (b"r", b"rw"), (b"~", b"."), (b"=", b"%")):
        line = b"%s %s a\n" % (subject, object_)
        s.to_line(fixed(subject, object_, b"---A-"), line)
        s.to_record(line, fixed(subject, object_, b"---a-"))
    s.store()


def records_lines():
    s = Script("records_lines", "02, One: the line is read with or without one closing newline; another is a bad byte. Blanks and lengths are those of a line of 01.")
    good, out = fixed(b"A", b"B", b"r----"), b"\xee" * 54
    s.say("600 bytes before the newline are taken, 601 are 1; a second newline is a byte of the line.")
    for line in (b"A B r" + b" " * 595, b" " * 595 + b"A B r", b"A" + b" " * 297 + b"B" + b" " * 300 + b"r", b"\t" * 595 + b"A B r", b"A B " + b"r" * 596):
        assert len(line) == 600
        s.to_record(line, good, out)
        s.to_record(line + b"\n", good, out)
        s.to_record(line + b"\n\n", 1, out)
        for more in (b" ", b"r", b"\x00", b"\r"):
            for newlines in (b"", b"\n", b"\n\n"):
                s.to_record(line + more + newlines, 1, out)
    s.say("599 bytes, and a second newline: it is the 600th byte.")
    s.to_record(b"A B r" + b" " * 594 + b"\n\n", 2, out)
    s.to_record(b" " * 594 + b"A B r\n\n", 4, out)
    s.to_record(b"A B " + b"r" * 595 + b"\n\n", 4, out)
    s.to_record(b"A B r" + b" " * 594 + b"\n", good, out)
    s.say("Longer lines.")
    for length in (602, 1000, 65541):
        s.to_record((b"A B r" + b" " * length)[:length], 1, out)
    s.say("One newline at the end is taken off; each other is a byte of its field.")
    for line, expect in ((b"A B r", good), (b"A B r\n", good), (b"A B r \n", good), (b"A B r\t\n", good), (b"A B r\n\n", 4), (b"A B r\n\n\n", 4), (b"A B r \n\n", 2), (b"A B r\t\n\n", 2),
                         (b"A B r\n ", 4), (b"A B r\n \n", 4), (b"A B r \n ", 2), (b"A B \nr", 4), (b"A B r\nw", 4), (b"A B \n\n", 4), (b"A B \n", 2), (b"\nA B r", 3), (b"\nA B r\n", 3),
                         (b"\n A B r", 2), (b"A\n B r", 3), (b"A \nB r\n", 3), (b"A B\n r\n", 3), (b"A\nB r", 2), (b"A\nB C r", 3), (b"A B\nr", 2), (b"A B C\nr", 4), (b"A B r\nC D w\n", 2),
                         (b"A B r\nC", 4), (b"A\n\nB r\n", 2), (b"\n\n\n", 2), (b"\n \n \n\n", 3), (b"A \n r", 3), (b"A A\n r", 3), (b"A A r\n\n", 4), (b"A A r\n", 5), (b"A B b\n", fixed(b"A", b"B", b"-----")), (b"A B b\n\n", 4)):
        s.to_record(line, expect, out)
    s.say("A newline alone, an empty line, a blank line: 2, nothing is skipped.")
    for line in (b"", b"\n", b"\n\n", b" ", b"\t", b"  ", b" \t ", b" \n", b"\t\n", b" \t \n", b"A\n", b"A B\n", b" " * 600, b" " * 600 + b"\n", b"\t" * 600):
        s.to_record(line, 2, out)
    s.to_record(b" " * 601, 1, out)
    s.to_record(b" " * 601 + b"\n", 1, out)
    s.to_record(b" " * 600 + b"\n\n", 1, out)
    s.say("Blanks before, after and between; a tab is a blank; other control bytes are bytes of a field.")
    for line, expect in ((b"  A   B   r  ", good), (b"\tA\tB\tr\t", good), (b" \t A \t B \t r \t ", good), (b" A B r", good), (b"A B r ", good), (b"A  B\t\tr\n", good), (b"\tA B r\n", good),
                         (b"A B r\r", 4), (b"A B r\r\n", 4), (b"A B r \r\n", 2), (b"A\r B r\n", 3), (b"A B\r r\n", 3), (b"\rA B r\n", 3), (b"\r A B r\n", 2), (b"\r\n", 2), (b"\r", 2),
                         (b"A B\x0b r", 3), (b"A\x0cB r", 2), (b"A\x00B C r", 3), (b"A B r\x00", 4), (b"A B r\n\x00", 4), (b"A B r \x00", 2), (b"A\xa0B C r", 3), (b"A\xffB C r", 3), (b"A B \xe4", 4)):
        s.to_record(line, expect, out)
    s.say("Turned there and back, a line is in the listing's form.")
    for line, record, listed in ((b"A B r", good, b"A B r\n"), (b"\t Probe3   Air\tW ", fixed(b"Probe3", b"Air", b"-w---"), b"Probe3 Air w\n"),
                                 (b"Alarm Air Rx", fixed(b"Alarm", b"Air", b"r-x--"), b"Alarm Air rx\n"), (b"Desk Alarm -\n", fixed(b"Desk", b"Alarm", b"-----"), b"Desk Alarm -\n"),
                                 (b"Desk Alarm -----", fixed(b"Desk", b"Alarm", b"-----"), b"Desk Alarm -\n"), (b"S O t-A-x-W-r \n", fixed(b"S", b"O", b"rwxat"), b"S O rwxat\n"),
                                 (b" a- " + LONG[:23] + b" Tt\n", fixed(b"a-", LONG[:23], b"----t"), b"a- " + LONG[:23] + b" t\n")):
        s.to_record(line, record, out)
        s.to_line(record, listed, out)
        s.to_record(listed, record, out)
    s.store()


def records_outputs():
    s = Script("records_outputs", "02, One: the length written is answered, the text goes to the front of the output, the rest stays; too short is 12 and all of it stays.")
    filled = bytes((7 * k + 13) % 256 for k in range(700))
    for record, line in ((fixed(b"A", b"B", b"-----"), b"A B -\n"), (fixed(b"Probe3", b"Air", b"-w---"), b"Probe3 Air w\n"),
                         (fixed(LONG[:23], b"M" * 23, b"rwxat"), b"%s %s rwxat\n" % (LONG[:23], b"M" * 23))):
        s.say("each length of the output up to a few bytes more than is written")
        for length in range(len(line) + 4):
            s.to_line(record, 12 if length < len(line) else line, filled[:length])
        for length in range(57):
            s.to_record(line, 12 if length < 53 else record, filled[:length])
        for length in (100, 255, 256, 257, 600, 601, 700):
            s.to_line(record, line, filled[:length])
            s.to_record(line, record, filled[:length])
    s.say("What stood in the output before is not read: the text itself, spaces, newlines, zeros.")
    record, line = fixed(b"Probe3", b"Air", b"-w---"), b"Probe3 Air w\n"
    for out in (record + line, line + record, b" " * 60, b"\n" * 60, b"\x00" * 60, b"\xff" * 60):
        s.to_line(record, line, out)
        s.to_record(line, record, out)
        s.to_line(record[:52], 14, out)
        s.to_record(line + b"\n", 4, out)
    s.say("An output of over 65536 bytes.")
    s.call("recordtoline %s =%s" % (h(record), "x" * 65541), "length 13 " + h(line + b"x" * 65528))
    s.call("linetorecord %s =%s" % (h(line), "x" * 65541), "length 53 " + h(record + b"x" * 65488))
    s.store()


def records_listing():
    s = Script("records_listing", "02, One: a record's line loaded into a fresh table is listed as it is. The two calls are lent no table and no loader, and are never refused 0.")
    for record, line in ((fixed(b"Probe3", b"Air", b"-W---"), b"Probe3 Air w\n"), (fixed(b"Alarm", b"Air", b"R-x--"), b"Alarm Air rx\n"), (fixed(b"Desk", b"Alarm", b"-----"), b"Desk Alarm -\n"),
                         (fixed(b"_", b"^", b"rwxat"), b"_ ^ rwxat\n"), (fixed(b"*", b"a-", b"---AT"), b"* a- at\n"), (fixed(LONG[:23], LONG[:22], b"RWXAT"), b"%s %s rwxat\n" % (LONG[:23], LONG[:22])),
                         (fixed(LONG[:22] + b"a", LONG[:22] + b"b", b"----t"), b"%sa %sb t\n" % (LONG[:22], LONG[:22])), (fixed(b"Q", LONG[:23], b"--x--"), b"Q %s x\n" % LONG[:23])):
        s.fresh()
        s.to_line(record, line)
        s.piece(line)
        s.list(0, line, b"\xee" * 56)
        s.list(1, 13)
        s.end("report 1 1 0 0 0 0")
        s.to_record(line, record[:48] + record[48:].lower())
    s.say("The three lines of 01's listing, from records and back.")
    s.fresh()
    three = ((b"Probe3", b"Air", b"-w---", b"Probe3 Air w\n"), (b"Alarm", b"Air", b"r-x--", b"Alarm Air rx\n"), (b"Desk", b"Alarm", b"-----", b"Desk Alarm -\n"))
    for subject, object_, access, line in three:
        s.to_line(fixed(subject, object_, access), line, b"\xee" * len(line))
        s.piece(line)
    for k, (subject, object_, access, line) in enumerate(three):
        s.list(k, line)
        s.to_record(line, fixed(subject, object_, access), b"\xee" * 53)
    s.end("report 3 3 0 0 0 0")

    def both():
        s.to_line(fixed(b"New1", b"New2", b"RW---"), b"New1 New2 rw\n")
        s.to_line(fixed(b"New1", b"New1", b"RW---"), 5)
        s.to_line(b"New1 New2 rw", 14)
        s.to_record(b"New1 New2 rw\n", fixed(b"New1", b"New2", b"rw---"))
        s.to_record(b"New1 New2 rwb", fixed(b"New1", b"New2", b"rw---"))
        s.to_record(b"New1 New2\n", 2)
        s.to_record(b"\n", 2)
    s.say("Neither table nor loader changes, with a line under way; no label enters.")
    s.piece(b"A A r\nKept under w")
    s.dump("under way")
    both()
    s.dump("under way")
    s.label(9, 13)
    s.piece(b"ay\n")
    s.end("report 2 0 0 2 1 5")
    s.say("64 labels and 256 rules: neither 6 nor 7.")
    full(s, 64, 256, 0)
    s.dump("full")
    both()
    s.dump("full")
    s.say("Damaged tables and a damaged loader: not 0.")
    for part, at, value in (("words", 0, 65), ("words", 1, 257), ("entries", 512, b"\xff"), ("loader", 0, 602)):
        full(s, 64, 256, 0)
        s.poke(part, at, value)
        s.piece(b"", "refused 0")
        s.dump("damaged %s %d" % (part, at))
        both()
        s.dump("damaged %s %d" % (part, at))
    for part in ("labels", "entries", "words", "line"):
        s.call("resize %s 0" % part, "done")
        s.piece(b"", "refused 0")
        both()
        s.fresh()
    s.store()


def records():
    records_bytes()
    records_access()
    records_refusals()
    records_labels()
    records_lines()
    records_outputs()
    records_listing()


# ---------------------------------------------------------------------------------------------------------------------------------------------
# How labels and pairs are found: 02, request Two
# ---------------------------------------------------------------------------------------------------------------------------------------------

def modes_of(k):
    """Modes for rule k: 30 different ones in a row, each with one of r w x a at least."""
    return bytes(c for j, c in enumerate(b"rwxa") if (k % 15 + 1) >> j & 1) + b"t" * (k // 15 % 2)


def bits_of(modes):
    return sum(32 >> b"rwxat".index(c) for c in modes)


def by_rule(modes, request, capable=0):
    """What rules 6 and 7 say, and override under an empty list. No rule: no modes."""
    if set(request) <= set(modes):
        return "granted 6"
    return "override 7" if capable else "denied 7"


def ask_modes(s, subject, object_, modes):
    """The pair's modes, letter by letter."""
    for letter in (b"r", b"w", b"x", b"a"):
        s.ask(subject, object_, letter, by_rule(modes, letter))


def lend(s, labels, rules, count=None, overrides=b""):
    """Lends a table that may not have been grown: `rules` are subject number, object number, modes; of the labels `count` are counted."""
    s.fresh()
    for k, label in enumerate(labels):
        if k >= 5 or label != FIVE[k]:
            s.poke("labels", 256 * k, place(label))
    s.poke("words", 0, len(labels) if count is None else count)
    for at, row in ((0, bytes(r[0] for r in rules)), (256, bytes(r[1] for r in rules)), (512, bytes(bits_of(r[2]) for r in rules)), (832, overrides)):
        if row:
            s.poke("entries", at, row)
    s.poke("words", 1, len(rules))
    s.poke("words", 3, len(overrides))


def searches_same():
    s = Script("searches_same", "02, Two: rule 5, both labels known, one, none. It goes by the bytes of the labels, whatever is stored.", True)
    long = b"L" * 250
    known = [b"Door", b"Gate", b"d", b"Doo", b"Door1", b"ADoor", long + b"1234", long + b"12345", b"?", b"@"]
    unknown = [b"door", b"Dook", b"Eoor", b"e", b"Do", b"Door2", b"Door11", b"BDoor", long + b"1235", long + b"1", b"!"]
    for rules, say in (([], "no rules"), ([(0, 0, b"rwxat")], "a rule of number 0 with itself"),
                       ([(k, k, b"rwxat") for k in range(13)], "rules of every label with itself, lent: rule 5 comes first"),
                       ([(5, 6, b"r"), (0, 5, b"rwxa"), (5, 0, b"rwxa")], "rules of number 0, and of Door for Gate")):
        for override in (b"", b"\x00", b"\x05"):
            s.say(say + ", " + {b"": "no override list", b"\x00": "_ on the override list", b"\x05": "Door on the override list"}[override])
            lend(s, FIVE + known[:8], rules, None, override)
            for subject in known + unknown:
                for object_ in known + unknown:
                    alike = subject[:2] == object_[:2] or subject[1:] == object_[1:] or subject == object_
                    if not alike and (subject, object_) not in ((b"Door", b"Gate"), (b"Door", b"e"), (b"e", b"Door"), (b"e", b"!")):
                        continue
                    stored = (subject, object_) == (b"Door", b"Gate") and (5, 6, b"r") in rules
                    for request, capable in ((b"r", 0), (b"rwxa", 0), (b"w", 1)):
                        if subject == object_:
                            answer = "granted 5"
                        elif stored and request == b"r":
                            answer = "granted 6"
                        else:
                            counts = capable and (not override or override == b"\x05" and subject == b"Door")
                            answer = "override 7" if counts else "denied 7"
                        s.ask(subject, object_, request, answer, capable)
            s.say("what is equal and has a rule of its own")
            for label, answers in ((b"_", ("granted 3", "granted 5")), (b"^", ("granted 2", "granted 5")), (b"*", ("denied 1", "denied 1"))):
                for request, answer in zip((b"r", b"w"), answers):
                    s.ask(label, label, request, answer)
    s.store()

    s = Script("searches_same_twice", "01, 02 Two: a label stored twice means its first number. Asked by one spelling it is the same label; by another it is another.", True)
    for one, other in ((5, 6), (5, 9), (6, 5), (8, 63), (0, 5), (3, 4)):
        labels = FIVE + [b"L%02d" % k for k in range(5, 64)]
        labels[one] = labels[other] = b"Twice"
        first, second, third = min(one, other), max(one, other), 20
        s.say("Twice stands at %d and at %d; rules of both numbers, with each other and with L20" % (first, second))
        lend(s, labels, [(second, third, b"rwxa"), (first, third, b"r"), (third, second, b"rwxa"), (third, first, b"w"), (first, second, b"a"), (second, first, b"a")])
        ask_modes(s, b"Twice", b"L20", b"r")
        ask_modes(s, b"L20", b"Twice", b"w")
        for request in (b"r", b"w", b"a", b"rwxa"):
            s.ask(b"Twice", b"Twice", request, "granted 5")
            s.ask(b"Twice", b"Twice", request, "granted 5", 1)
            for near in (b"twice", b"Twicf", b"Twic", b"Twice1", b"1Twice"):
                s.ask(b"Twice", near, request, "denied 7")
                s.ask(near, b"Twice", request, "denied 7")
                s.ask(near, near, request, "granted 5")
                s.ask(near, b"L20", request, "denied 7")
        s.say("The override list holds its second number: it does not hold the label. Then its first.")
        s.poke("words", 3, 1)
        s.poke("entries", 832, bytes([second]))
        s.ask(b"Twice", b"L20", b"w", "denied 7", 1)
        s.ask(b"twice", b"L20", b"w", "denied 7", 1)
        s.poke("entries", 832, bytes([first]))
        s.ask(b"Twice", b"L20", b"w", "override 7", 1)
        s.ask(b"twice", b"L20", b"w", "denied 7", 1)
        s.say("Writes go to the first number too: the rule of first and L20 stands at 1, that of L20 and first at 3.")
        s.change(b"Twice L20 x r")
        s.list(1, b"Twice L20 x\n")
        s.list(0, b"Twice L20 rwxa\n", b"\xee" * 24)
        s.line(b"L20 Twice rb", None)
        s.list(3, b"L20 Twice r\n", b"\xee" * 24)
        s.list(2, b"L20 Twice rwxa\n", b"\xee" * 24)
        s.line(b"Twice Twice r", 5)
        s.line(b"Twice L21 r", None)
        s.list(6, b"Twice L21 r\n")
        s.poke("labels", 256 * first, place(b"Once"))
        s.ask(b"Twice", b"L20", b"rwxa", "granted 6")
        s.ask(b"Twice", b"L21", b"r", "denied 7")
        s.ask(b"Once", b"L21", b"r", "granted 6")
        s.ask(b"Once", b"Twice", b"a", "granted 6")
    s.store()


def searches_unknown():
    s = Script("searches_unknown", "02, Two: the rule search is not begun where either label is unknown. Rules of number 0, and of every number, are no rules of theirs.", True)
    every = [(a, b, b"rwxat") for a in range(7) for b in range(7)]
    for say, rules in (("rules of _ with all", [(0, k, b"rwxat") for k in range(7)] + [(k, 0, b"rwxat") for k in range(7)]), ("a rule of _ with itself alone", [(0, 0, b"rwxat")]),
                       ("rules of all with all", every), ("the last label with itself", [(6, 6, b"rwxat")]), ("256 rules of _", [(0, k % 7, b"rwxat") for k in range(256)])):
        for override in (b"", b"\x00", b"\x00\x01\x02\x03\x04\x05\x06"):
            s.say(say + "; %d labels on the override list" % len(override))
            lend(s, FIVE + [b"Known", b"Other"], rules, None, override)
            for subject, object_ in ((b"New", b"Known"), (b"New", b"Other"), (b"Known", b"New"), (b"Other", b"New"), (b"New", b"New2"), (b"N", b"M"), (b"New", b"^"), (b"New", b"?"), (b"?", b"New"), (b"_", b"New")):
                for request in (b"r", b"w", b"rwxa"):
                    s.ask(subject, object_, request, "denied 7")
                    listed = subject in (FIVE + [b"Known", b"Other"])[:len(override)]
                    s.ask(subject, object_, request, "override 7" if not override or listed else "denied 7", 1)
            for object_, request, answer in ((b"_", b"r", "granted 3"), (b"_", b"w", "denied 7"), (b"*", b"w", "granted 4"), (b"New", b"w", "granted 5")):
                s.ask(b"New", object_, request, answer)
            s.ask(b"^", b"New", b"rx", "granted 2")
            s.ask(b"^", b"New", b"w", "denied 7")
            s.ask(b"*", b"New", b"r", "denied 1")
            s.ask(b"*", b"New", b"r", "override 1" if len(override) != 1 else "denied 1", 1)
            s.ask(b"Known", b"Other", b"r", "granted 6" if (5, 6, b"rwxat") in rules else "denied 7")
    s.say("No labels at all: every label is unknown, and none is on a list.")
    lend(s, [], [], 0)
    for subject, object_ in ((b"A", b"B"), (b"_", b"A"), (b"?", b"@")):
        s.ask(subject, object_, b"r", "denied 7")
        s.ask(subject, object_, b"r", "override 7", 1)
        s.ask(subject, subject, b"w", "granted 5")
    s.say("* as subject, with rules of its number and of others")
    for override, word in ((b"", "override 1"), (b"\x02", "override 1"), (b"\x00\x02", "override 1"), (b"\x05\x06\x00\x01\x03\x04\x05\x02", "override 1"), (b"\x00", "denied 1"), (b"\x05\x06", "denied 1")):
        lend(s, FIVE + [b"Known", b"Other"], every, None, override)
        for object_ in (b"_", b"^", b"*", b"Known", b"New"):
            for request in (b"r", b"w"):
                s.ask(b"*", object_, request, "denied 1")
                s.ask(b"*", object_, request, word, 1)
    s.say("* at number 5 alone, and at 5 and 6: it goes by that number, and by the first")
    for labels in ([b"_", b"^", b"X", b"?", b"@", b"*", b"Other"], [b"_", b"^", b"X", b"?", b"@", b"*", b"*"]):
        for override, word in ((b"\x02", "denied 1"), (b"\x05", "override 1"), (b"\x06", "denied 1"), (b"\x06\x05", "override 1")):
            lend(s, labels, every, None, override)
            for object_ in (b"_", b"*", b"X", b"New"):
                s.ask(b"*", object_, b"r", "denied 1")
                s.ask(b"*", object_, b"r", word, 1)
    s.store()


def searches_pairs():
    s = Script("searches_pairs", "02, Two: the rule of a pair at each place where a search in blocks might go wrong, once and twice. The first counts.", True)
    labels = FIVE + [b"L%02d" % k for k in range(5, 64)]

    def others(count):
        """Other pairs: of the subject, of the object, and of neither."""
        return [((30, k % 29, b"rwxa"), (k % 29, 31, b"rwxa"), (31, 30, b"rwxa"), (k % 29, k % 28, b"rwxa"))[k % 4] for k in range(count)]
    for count in (0, 1, 31, 32, 33, 63, 64, 65, 128, 129, 255, 256):
        places = sorted({p for p in (0, 1, 31, 32, 63, 64, 65, 127, 128, 191, 192, 224, count - 2, count - 1) if 0 <= p < count})
        s.say("%d rules, none of the pair; the pair lies behind the last" % count)
        lend(s, labels, others(count))
        if count < 256:
            s.poke("entries", count, b"\x1e")
            s.poke("entries", 256 + count, b"\x1f")
            s.poke("entries", 512 + count, b"\x3f")
        ask_modes(s, b"L30", b"L31", b"")
        s.ask(b"L30", b"L31", b"r", "override 7", 1)
        for at in places:
            s.say("%d rules, the pair at place %d" % (count, at))
            rules = others(count)
            rules[at] = (30, 31, b"rt")
            s.poke("entries", 0, bytes(r[0] for r in rules))
            s.poke("entries", 256, bytes(r[1] for r in rules))
            s.poke("entries", 512, bytes(bits_of(r[2]) for r in rules))
            ask_modes(s, b"L30", b"L31", b"rt")
            s.ask(b"L30", b"L31", b"rw", "override 7", 1)
            s.ask(b"L30", b"L32", b"r", "denied 7")
            s.ask(b"L32", b"L31", b"r", "denied 7")
            for again in places:
                if again > at:
                    s.poke("entries", again, b"\x1e")
                    s.poke("entries", 256 + again, b"\x1f")
                    s.poke("entries", 512 + again, b"\x10")
                    s.ask(b"L30", b"L31", b"r", "granted 6")
                    s.ask(b"L30", b"L31", b"w", "denied 7")
                    s.poke("entries", again, bytes([rules[again][0]]))
                    s.poke("entries", 256 + again, bytes([rules[again][1]]))
                    s.poke("entries", 512 + again, bytes([bits_of(rules[again][2])]))
            s.say("a change and a line set it in its place")
            s.change(b"L30 L31 x -")
            s.list(at, b"L30 L31 rxt\n", b"\xee" * 24)
            s.line(b"L30 L31 wt", None)
            s.list(at, b"L30 L31 wt\n", b"\xee" * 24)
            ask_modes(s, b"L30", b"L31", b"w")
        s.say("%d rules: a new pair goes last, or is refused with 7" % count)
        for subject, object_, modes in ((40, 41, b"r"), (41, 40, b"w")):
            name = b"L%02d L%02d" % (subject, object_)
            s.line(name + b" " + modes, None if count < 256 else 7)
            if count < 256:
                s.list(count, name + b" " + modes + b"\n")
            ask_modes(s, b"L%02d" % subject, b"L%02d" % object_, modes if count < 256 else b"")
            count += 1
    s.store()


def searches_places():
    s = Script("searches_places", "02, Two: a label at each place of a table of each length. Each has a rule of its own, so that another number would show.", True)
    shapes = {"one or two bytes": lambda k: bytes([65 + k]) if k < 26 else b"%c%c" % (97 + k % 26, 48 + k // 26), "three bytes": lambda k: b"%02dx" % k,
              "four bytes": lambda k: b"Q%02d%c" % (k, 97 + k % 20), "the last four the same": lambda k: b"%02dRoom" % k, "the first and last four the same": lambda k: b"Unit%02d_Log" % k,
              "a length of its own": lambda k: b"Z" * (k + 1), "eight and eight more": lambda k: b"ClimateP%02dStoreNor" % k}
    for shape, name in shapes.items():
        for count in (1, 7, 8, 9, 63, 64):
            s.say("%s; %d labels" % (shape, count))
            labels = [name(k) for k in range(min(64, count + 1))]
            rules = [(k, (k + 1) % count, modes_of(k)) for k in range(count) if count > 1]
            lend(s, labels, rules, count)
            for k in range(count):
                subject, object_ = name(k), name((k + 1) % count)
                if count == 1:
                    s.ask(subject, object_, b"w", "granted 5")
                else:
                    ask_modes(s, subject, object_, modes_of(k))
                if count > 1 and k % 8 in (0, 7):
                    s.ask(object_, subject, b"r", "denied 7" if count > 2 else by_rule(modes_of((k + 1) % count), b"r"))
            s.say("the label behind the last, which is not stored, and one that was never there")
            for stranger in (name(count), name(64)):
                s.ask(stranger, name(0), b"r", "denied 7")
                s.ask(name(0), stranger, b"r", "denied 7")
                s.ask(stranger, stranger, b"r", "granted 5")
            s.revoke(name(count - 1), "revoked %d" % (count > 1))
            s.revoke(name(64), "revoked 0")
            s.line(b"%s %s x" % (name(count - 1), name(0)), 5 if count == 1 else None)
            s.say("it comes in by a line, at its place, which is the next; then another, by a change, while there is room")
            s.line(b"%s %s x" % (name(0), name(count)), 6 if count == 64 else None)
            s.label(count, 13 if count == 64 else name(count))
            s.ask(name(0), name(count), b"x", "denied 7" if count == 64 else "granted 6")
            s.change(b"%s %s w -" % (name(70), name(0)), "refused 6" if count >= 63 else "done")
            s.label(count + 1, 13 if count >= 63 else name(70))
            s.ask(name(70), name(0), b"w", "denied 7" if count >= 63 else "granted 6")
    s.store()


def other_byte(byte, turn=1):
    return b"ABCDEFGHIJKLMNOPQRSTUVWXYZabcdefghijklmnopqrstuvwxyz"[(byte + 7 * turn) % 52]


def in_table(s, labels, strangers):
    """The labels come in by rule text, some by a change, each with rules of its own to Air and from Air; all are found, and the strangers are not. Then each
    rule is set once more: nothing new comes in."""
    s.fresh()
    text = b"".join(b"%s Air %s\n" % (label, modes_of(k)) for k, label in enumerate(labels))
    s.piece(text[:len(text) // 2])
    s.piece(text[len(text) // 2:])
    s.end("report %d %d 0 0 0 0" % (len(labels), len(labels)))
    for k, label in enumerate(labels):
        s.change(b"Air %s %s -" % (label, modes_of(k + 4)))
        s.label(5 if k == 0 else 6 + k, label)
    s.label(6 + len(labels), 13)
    for k, label in enumerate(labels):
        ask_modes(s, label, b"Air", modes_of(k))
        s.ask(b"Air", label, b"r", by_rule(modes_of(k + 4), b"r"))
        s.ask(label, label, b"w", "granted 5")
        s.ask(label, labels[k - 1], b"r", "granted 5" if len(labels) == 1 else "denied 7")
    for stranger in strangers:
        s.ask(stranger, b"Air", b"r", "denied 7")
        s.ask(b"Air", stranger, b"r", "denied 7")
        s.ask(stranger, labels[0], b"r", "denied 7")
    s.piece(b"".join(b"%s Air %s\n" % (label, modes_of(k + 1)) for k, label in enumerate(labels)))
    s.end("report %d %d 0 0 0 0" % (len(labels), len(labels)))
    s.label(6 + len(labels), 13)
    for k in {0, len(labels) // 2, len(labels) - 1}:
        line = labels[k] + b" Air " + listed_modes(modes_of(k + 1)) + b"\n"
        s.list(k, line, b"\xee" * (len(line) + 2))
        s.line(labels[k] + b" " + labels[k] + b" r", 5)
    if len(labels) > 1:
        s.line(labels[0] + b" " + labels[-1] + b" r", None)
        s.ask(labels[0], labels[-1], b"r", "granted 6")
        s.ask(labels[-1], labels[0], b"r", "denied 7")
    s.revoke(labels[-1], "revoked 1")


def searches_bytes():
    s = Script("searches_bytes", "02, Two: labels that differ in a single byte, at each place, of each length from 1 to 20: all known, and others that are not.", True)
    for length in range(1, 21):
        base = b"ClimateProbe_Store_N"[:length]
        s.say("%d bytes" % length)
        labels = [base] + [base[:at] + bytes([other_byte(base[at])]) + base[at + 1:] for at in range(length)]
        strangers = [base[:at] + bytes([other_byte(base[at], 2)]) + base[at + 1:] for at in range(length)]
        assert len(set(labels + strangers)) == 2 * length + 1
        in_table(s, labels, strangers)
    s.store()

    s = Script("searches_bytes_between", "02, Two: labels of 32 to 129 bytes that differ in a single byte: one is known, and each other is not.", True)
    for length in (32, 33, 40, 48, 64, 65, 128, 129):
        base = (b"ClimateProbe_StoreNorth_" * 11)[:length]
        s.say("%d bytes" % length)
        s.fresh()
        s.line(base + b" Air r", None)
        s.line(b"Air " + base + b" w", None)
        s.ask(base, b"Air", b"r", "granted 6")
        for at in range(length):
            stranger = base[:at] + bytes([other_byte(base[at], 2)]) + base[at + 1:]
            s.ask(stranger, b"Air", b"r", "denied 7")
            s.ask(b"Air", stranger, b"w", "denied 7")
    s.say("A stored label that is no label: it differs from the one that is asked for by 128 in one byte.")
    for length in (4, 8, 16, 17):
        base = b"ClimateProbe_Stor"[:length]
        s.fresh()
        s.line(base + b" Air r", None)
        for at in range(length):
            s.poke("labels", 5 * 256 + 1 + at, bytes([base[at] + 128]))
            s.ask(base, b"Air", b"r", "denied 7")
            s.poke("labels", 5 * 256 + 1 + at, base[at:at + 1])
        s.ask(base, b"Air", b"r", "granted 6")
    s.store()

    s = Script("searches_bytes_long", "02, Two: the same with 254 and 255 bytes: each single byte in a label that is not known, and some in labels that are.", True)
    for length in (254, 255):
        base = (b"ClimateProbe_StoreNorth_" * 11)[:length]
        s.say("%d bytes" % length)
        places = [0, 1, 3, 4, 15, 16, 31, 32, 127, 128, length - 33, length - 17, length - 9, length - 8, length - 5, length - 4, length - 3, length - 2, length - 1]
        in_table(s, [base] + [base[:at] + bytes([other_byte(base[at])]) + base[at + 1:] for at in places], [])
        for at in range(length):
            stranger = base[:at] + bytes([other_byte(base[at], 2)]) + base[at + 1:]
            s.ask(stranger, b"Air", b"r", "denied 7")
            if at in places:
                s.ask(b"Air", stranger, b"r", "denied 7")
                s.ask(stranger, base, b"r", "denied 7")
                s.ask(base, stranger, b"r", "denied 7")
    s.store()


def searches_lengths():
    s = Script("searches_lengths", "02, Two: labels that differ only in length: each begins, or ends, like the others.", True)
    whole = b"abcdefghijklmnopqrstuvwxyz"
    s.say("beginnings of one label, and not the lengths between")
    in_table(s, [whole[:n] for n in range(1, 26, 2)], [whole[:n] for n in range(2, 27, 2)])
    in_table(s, [whole[:n] for n in range(25, 0, -1)], [whole, whole + b"a"])
    s.say("ends of one label")
    in_table(s, [whole[-n:] for n in range(1, 26, 2)], [whole[-n:] for n in range(2, 27, 2)])
    in_table(s, [whole[-n:] for n in range(25, 0, -1)], [whole, b"a" + whole])
    s.say("one byte, again and again")
    in_table(s, [b"A" * n for n in list(range(1, 21)) + [31, 32, 33, 63, 64, 65, 127, 128, 253, 255]], [b"A" * n for n in (21, 30, 34, 62, 66, 129, 252, 254)])
    s.say("both: beginnings and ends")
    in_table(s, [whole[:n] for n in range(1, 21)] + [whole[-n:] for n in range(1, 21)], [whole[:21], whole[-21:], whole[1:20], whole])
    s.say("What lies in a place behind its label does not count: a longer label lies there, then a shorter one is counted.")
    for n in (1, 2, 3, 4, 5, 8, 16, 25):
        s.fresh()
        s.line(whole + b" Air rw", None)
        s.poke("labels", 5 * 256, bytes([n]))
        for length in range(1, 27):
            s.ask(whole[:length], b"Air", b"rw", "granted 6" if length == n else "denied 7")
        s.line(whole + b" Air x", None)
        s.label(7, whole)
        s.ask(whole, b"Air", b"x", "granted 6")
        s.ask(whole[:n], b"Air", b"x", "denied 7")
    s.say("A length that is a byte of a label too: 65 bytes, and labels with an A before them.")
    body = b"B" * 61 + b"tail"
    in_table(s, [body, b"A" + body, b"A" + body[:-1], body[1:], b"Atail", b"tail", b"Atai"], [b"AA" + body, body[:-1], b"ail", b"Btail"])
    s.store()


def searches_formed():
    s = Script("searches_formed", "The label check of a question: one byte that is no label byte, at each place of labels of many lengths; and each byte at some places.", True)
    bad = [34, 39, 47, 92, 127, 128, 255, 32, 9, 10, 0, 31, 162, 167, 175, 220, 173]
    s.fresh()
    for length in list(range(1, 37)) + [48, 63, 64, 65, 96, 97, 128, 129, 192, 225, 254, 255]:
        whole = (b"ClimateProbe_StoreNorth_" * 11)[:length]
        s.say("%d bytes" % length)
        s.ask(whole, b"_", b"r", "granted 3")
        s.ask(b"^", whole, b"r", "granted 2")
        for at in range(length):
            label = whole[:at] + bytes([bad[(at + length) % len(bad)]]) + whole[at + 1:]
            s.ask(label, b"_", b"r", "refused 3")
            if at % 3 == length % 3:
                s.ask(b"^", label, b"r", "refused 3")
        s.ask(b"-" + whole[1:], b"_", b"r", "refused 3")
    for length, at in ((1, 0), (3, 1), (4, 3), (8, 4), (12, 7), (16, 9), (17, 16), (31, 15), (33, 32), (100, 70), (255, 254)):
        whole = (b"ClimateProbe_StoreNorth_" * 11)[:length]
        s.say("each byte at place %d of %d" % (at, length))
        for byte in range(256):
            fine = 33 <= byte <= 126 and byte not in (34, 39, 47, 92) and not (at == 0 and byte == 45)
            # alone it may be * or ^, which have a rule of their own
            answer = {b"*": "denied 1", b"^": "granted 2"}.get(bytes([byte]) if length == 1 else b"", "granted 3") if fine else "refused 3"
            s.ask(whole[:at] + bytes([byte]) + whole[at + 1:], b"_", b"r", answer)
    s.store()


def searches():
    searches_formed()
    searches_same()
    searches_unknown()
    searches_pairs()
    searches_places()
    searches_bytes()
    searches_lengths()


# ---------------------------------------------------------------------------------------------------------------------------------------------
# 02, Three: where the first bad byte is. The places are written by hand; where every byte value is tried, place_of and place_in above work them out.
# ---------------------------------------------------------------------------------------------------------------------------------------------

def bad(where):
    return "refused 3 %d" % where


def spoilt(length, *others):
    """A label of that many bytes, with other bytes at some places."""
    label = bytearray((b"ClimateProbe_StoreNorth_" * 50)[:length])
    for at, byte in others:
        label[at] = byte[0]
    return bytes(label)


# Labels and the places of their first bad bytes; None: the label is well formed.
SPOILT = [(b"", 0), (b"-", 0), (b"--", 0), (b"-Air", 0), (b"-A/r", 0), (b"-/", 0), (b"/", 0), (b"/Air", 0), (b"A/r", 1), (b"Ai/", 2), (b"A//", 1), (b"A/r/", 1), (b"Air", None),
          (b"A-r", None), (b"Air-", None), (b"A--/", 3), (b"'", 0), (b'A"', 1), (b"A\\", 1), (b"A\x00", 1), (b"\x00A", 0), (b"A\x7f", 1), (b"A\x80r", 1), (b"\xffA", 0), (b"A\xff", 1),
          (b"A\x1f\x1f", 1), (b"A\r", 1), (b"\n", 0), (b"A\n", 1), (b"\nA", 0), (b"A\x0bB", 1), (b"A\x0cB", 1), (b"A\xa0B", 1), (b"!~", None), (b"A", None),
          (b" ", 0), (b" A", 0), (b"A ", 1), (b"\tA", 0), (b"A\t", 1), (b"A B", 1), (b"Air B/", 3), (b"Air\t-B", 3),
          (spoilt(22), None), (spoilt(23), None), (spoilt(24), None), (spoilt(22, (21, b"/")), 21), (spoilt(23, (21, b"/")), 21), (spoilt(23, (22, b"/")), 22), (spoilt(24, (22, b"/")), 22),
          (spoilt(24, (23, b"/")), 23), (spoilt(25, (23, b"/")), 23), (spoilt(25, (24, b"/")), 24), (spoilt(24, (23, b"/"), (22, b"'")), 22), (spoilt(24, (0, b"-"), (23, b"/")), 0),
          (spoilt(254), None), (spoilt(254, (253, b"/")), 253), (spoilt(254, (252, b"/")), 252), (spoilt(254, (0, b"/")), 0), (spoilt(254, (0, b"-")), 0),
          (spoilt(255), None), (spoilt(255, (253, b"/")), 253), (spoilt(255, (254, b"/")), 254), (spoilt(255, (254, b"\xff"), (253, b"\x00")), 253), (spoilt(255, (254, b"-")), None),
          (spoilt(256), 255), (spoilt(256, (254, b"/")), 254), (spoilt(256, (255, b"/")), 255), (spoilt(256, (255, b"-")), 255), (spoilt(256, (0, b"-")), 0), (spoilt(256, (1, b"-")), 255),
          (spoilt(256, (254, b"/"), (255, b"/")), 254), (spoilt(257), 255), (spoilt(257, (256, b"/")), 255), (spoilt(257, (255, b" "), (256, b"/")), 255),
          (spoilt(300), 255), (spoilt(300, (100, b"/")), 100), (spoilt(300, (280, b"/")), 255), (spoilt(300, (280, b"/"), (100, b"'")), 100), (spoilt(300, (253, b"/")), 253),
          (spoilt(300, (254, b"/")), 254), (spoilt(300, (255, b"/")), 255), (spoilt(300, (256, b"/")), 255), (spoilt(300, (299, b"/")), 255), (spoilt(300, (0, b"-")), 0),
          (spoilt(300, (0, b"-"), (1, b"/")), 0), (spoilt(300, (1, b"/"), (280, b"/")), 1), (spoilt(511), 255), (spoilt(512, (511, b"/")), 255), (spoilt(513, (256, b"/")), 255),
          (spoilt(594), 255), (spoilt(596), 255), (spoilt(596, (595, b"/")), 255), (spoilt(596, (200, b"/")), 200), (spoilt(598), 255), (spoilt(598, (254, b"\x00")), 254), (spoilt(599), 255),
          (spoilt(600), 255), (spoilt(600, (599, b"/")), 255), (spoilt(600, (0, b"/")), 0), (spoilt(600, (1, b"/")), 1), (spoilt(600, (0, b"-")), 0), (spoilt(600, (255, b" ")), 255),
          (spoilt(600, (254, b" ")), 254)]


def places_labels():
    s = Script("places_labels", "02, Three: the place of a label's first bad byte, in every call that takes a label: empty, a leading dash, too long, and each limit from both sides.", True)
    s.fresh()
    s.dump("fresh", True)
    s.say("Lent labels. A revoke of over 600 bytes is 1; the others take any length.")
    for label, where in SPOILT:
        s.revoke(label, "revoked 0" if where is None else bad(where))
        s.bylabel(label, "none" if where is None else bad(where))
        s.ask(label, b"_", b"r", "granted 3" if where is None else bad(where))
        s.ask(b"^", label, b"r", "granted 2" if where is None else bad(where))
        s.ask(label, label, b"w", "granted 5" if where is None else bad(where), 1)
    for label, where in ((spoilt(601), 255), (spoilt(601, (9, b"/")), 9), (spoilt(700, (699, b"/")), 255), (spoilt(700, (0, b"-")), 0), (b"L" * 5000, 255), (b"L" * 5000 + b"/", 255),
                         (b"/" * 5000, 0), (b"L" * 254 + b"/" * 5000, 254), (b"L" * 255 + b"/" * 5000, 255), (b"L" * 65791, 255), (b"L" * 300 + b"/" + b"L" * 65536, 255)):
        s.revoke(label, "refused 1")
        s.bylabel(label, bad(where))
        s.ask(label, b"_", b"r", bad(where))
        s.ask(b"^", label, b"r", bad(where))
    s.say("A question: the subject's place where the subject is bad, otherwise the object's; whatever the request and the capability.")
    for subject, object_, where in ((b"Al/rm", b"Air", 2), (b"Alarm", b"Ai/", 2), (b"Alar/", b"A/r", 4), (b"/", b"Air/", 0), (b"Alarm", b"", 0), (b"", b"Air/", 0), (b"Alarm/", b"", 5),
                                    (b"", b"", 0), (b"-Alarm", b"Air/", 0), (b"Alarm/", b"-Air", 5), (b"*", b"Ai/", 2), (b"^", b"Air/", 3), (b"A/", b"_", 1), (b"A/", b"*", 1),
                                    (b"A/", b"A/", 1), (spoilt(256), b"A/", 255), (b"A/", spoilt(256), 1), (spoilt(255), spoilt(256), 255), (spoilt(300, (254, b"/")), spoilt(600), 254),
                                    (spoilt(255), spoilt(255, (254, b"/")), 254)):
        for request in (b"r", b"", b"q", b"rwxa"):
            for capable in (0, 1):
                s.ask(subject, object_, request, bad(where), capable)
    s.say("The same labels in lines and writes, where they are no more than a field of one that is not over 600 bytes. None enters.")
    for label, where in SPOILT:
        if where is None or label == b"" or b" " in label or b"\t" in label:
            continue
        n = len(label)
        if n <= 594:
            s.change(label + b" B r -", bad(where))
            s.change(b"A\t" + label + b" - r", bad(2 + where))
        if n <= 596 and b"\n" not in label:
            s.line(label + b" B r", 3, where)
            s.line(b"A " + label + b" r", 3, 2 + where)
        if n <= 598:
            s.mapping(label + b" 9", bad(where))
            s.override(b"A " + label, bad(2 + where))
        if label != b"-":
            s.override(label, bad(where))
    s.say("A lone dash clears the override list, blanks or not; a dash among others is refused, at its place.")
    for text in (b"-", b" -", b"\t-  ", b"  \t - "):
        s.override(text, "done")
    for text, where in ((b"A -", 2), (b"- A", 0), (b"- -", 0), (b" - -", 1), (b"A - -", 2), (b"A B\t-", 4), (b"--", 0), (b"-\n", 0), (b"A \n", 2), (b"\n -", 0)):
        s.override(text, bad(where))
    s.say("The label of 600 bytes in a line or write is a single field, or the text is too long: 2 or 1, without a place. A single field is a list.")
    for label, where in ((spoilt(600), 255), (spoilt(600, (0, b"/")), 0), (spoilt(600, (255, b"/")), 255), (spoilt(600, (254, b"/")), 254)):
        s.line(label, 2)
        s.change(label, "refused 2")
        s.mapping(label, "refused 2")
        s.mapping(label + b" 9", bad(where))
        s.override(label, bad(where))
        s.line(label + b" B r", 1)
        s.line(b"A " + label + b" r", 1)
        s.change(label + b" B r -", "refused 1")
        s.mapping(label + b" 9" + b" " * 399, "refused 1")
        s.override(label + b" ", "refused 1")
        s.override(b"A " + label, "refused 1")
    s.say("A newline in a write is a bad byte of its field, or a field of its own.")
    for text, where in ((b"A\nB C r -", 1), (b"A B\n r -", 3), (b"A \n r -", 2), (b"\n A r -", 0), (b"\nA B r -", 0), (b"A \nB r -", 2), (b"  A\n B\n r -", 3)):
        s.change(text, bad(where))
    for text, where in ((b"V\n 9", 1), (b"\n 9", 0), (b" \nV 9", 1), (b"V\n9 9", 1)):
        s.mapping(text, bad(where))
    s.dump("fresh", True)
    s.store()


def blanks_before():
    """Every row of up to three blanks."""
    return [bytes(32 if k >> i & 1 else 9 for i in range(n)) for n in range(4) for k in range(1 << n)]


def places_calls():
    s = Script("places_calls", "02, Three: the place counts from the first byte of the line or write, blanks too; in a lent label a blank is itself a bad byte. Bad subject, bad object, both.", True)
    s.fresh()
    s.dump("fresh", True)
    for before in blanks_before():
        n = len(before)
        s.say("before: %s" % (" ".join("tab" if b == 9 else "space" for b in before) or "nothing"))
        for between in (b" ", b"\t", b"\t ", b"  \t"):
            m = len(between)
            # Alarm has 5 bytes, so the object begins at n + 5 + m; the places in the labels are counted by hand.
            second = n + 5 + m
            for subject, object_, where in ((b"Al/rm", b"Air", n + 2), (b"Alarm", b"A'r", second + 1), (b"Al/rm", b"A'r", n + 2), (b"Alar\x00", b"/Air", n + 4), (b"/Alarm", b"Air", n),
                                            (b"Alarm", b"Air\x7f", second + 3), (b"-Alarm", b"Air", n), (b"Alarm", b"-Air", second), (b"-", b"Air", n), (b"Alarm", b"-", second), (b"-", b"-", n),
                                            (b"Al\\rm", b"-", n + 2)):
                s.line(before + subject + between + object_ + between + b"r", 3, where)
                s.change(before + subject + between + object_ + between + b"r -", bad(where))
                s.override(before + subject + between + object_, bad(where))
            s.override(before + b"Alarm" + between + b"Air" + between + b"Do/r", bad(second + 3 + m + 2))
            s.override(before + b"Alarm" + between + b"Air" + between + b"-", bad(second + 3 + m))
            s.override(before + b"Alarm" + between + b"Ai/" + between + b"/Door", bad(second + 2))
            for label, where in ((b"Al/rm", n + 2), (b"-Alarm", n), (b"-", n), (b"/", n), (b"Alarm\xff", n + 5)):
                s.mapping(before + label + between + b"9", bad(where))
                s.mapping(before + label + between + b"9" + between + b"1 63" + between, bad(where))
        for label, where in ((b"Al/rm", 2), (b"-Alarm", 0), (b"Alarm\xff", 5), (b"", 0)):
            where = 0 if n else where
            s.revoke(before + label, bad(where))
            s.bylabel(before + label, bad(where))
            s.ask(before + label, b"Air", b"r", bad(where))
            s.ask(b"Alarm", before + label, b"r", bad(where))
            s.ask(before + label, b"A/", b"r", bad(where))
            s.ask(b"Alar/", before + label, b"r", bad(4))
        s.revoke(b"Alarm" + before, bad(5) if n else "revoked 0")
        s.bylabel(b"Alarm" + before, bad(5) if n else "none")
        s.ask(b"Alarm" + before, b"_", b"r", bad(5) if n else "granted 3")
        s.ask(b"^", b"Alarm" + before, b"r", bad(5) if n else "granted 2")
    s.say("The last places of a line and of writes of 600 bytes; with one blank more it is 1, and without a place.")
    wide = b" " * 600
    for text, where in ((wide[:595] + b"/ B r", 595), (b"A" + wide[:596] + b"/ r", 597), (b"A" + wide[:594] + b"B2/ r", 597), (b"\t" * 592 + b"A B/ r--", 595), (wide[:590] + b"ABCDE/ B r", 595)):
        assert len(text) == 600
        s.line(text, 3, where)
        s.line(b" " + text, 1)
        if text[:1] in b" \t":
            s.line(text[1:], 3, where - 1)
    for text, where in ((wide[:593] + b"/ B r -", 593), (b"A" + wide[:594] + b"/ r -", 595), (wide[:592] + b"A -B r -", 594)):
        assert len(text) == 600
        s.change(text, bad(where))
        s.change(b" " + text, "refused 1")
    for text, where in ((wide[:599] + b"/", 599), (b"A" + wide[:598] + b"-", 599), (b"A " * 299 + b"A/", 599), (wide[:344] + spoilt(256), 599), (wide[:345] + spoilt(255, (254, b"/")), 599)):
        assert len(text) == 600
        s.override(text, bad(where))
        s.override(b" " + text, "refused 1")
    for text, where in ((wide[:597] + b"/ 9", 597), (wide[:342] + spoilt(256) + b" 9", 597), (b"/" + wide[:598] + b"9", 0), (b"A/ 9" + b" 1" * 298, 1)):
        assert len(text) == 600
        s.mapping(text, bad(where))
        s.mapping(b" " + text, bad(1 + where))
        s.mapping(b" " * 400 + text, bad(400 + where))
        s.mapping(b" " * 401 + text, "refused 1")
    s.dump("fresh", True)
    s.store()


def says_rule(text):
    """What 01 says of a line with labels that do not fill the table: the reason, or None."""
    f = cut(text)
    if len(text) > 600:
        return 1
    if len(f) != 3:
        return 2
    if not (is_label(f[0]) and is_label(f[1])):
        return 3
    if not is_access(f[2], b"rwxatb"):
        return 4
    return 5 if f[0] == f[1] else None


def places_bytes():
    """Every byte value at the places 0, 1, 254, 255 and 256 of labels of 1, 255, 256, 300 and 600 bytes. A label of one byte goes to every call; with the others the calls take turns, so that each
    call meets each value, and each value at each place of each length goes to some call."""
    turn = 0
    for length in (1, 255, 256, 300, 600):
        s = Script("places_bytes_%d" % length, "02, Three: every byte value at the places 0, 1, 254, 255, 256 of a label of %d bytes." % length, True)
        s.fresh()

        def write(name, text, answer):
            s.call(name + " " + h(text), answer)
            if answer == "done":
                s.call("fresh", "done")

        def line(text):
            if b"\n" not in text:
                s.line(text, says_rule(text))
                if says_rule(text) is None:
                    s.call("fresh", "done")
        lent = [lambda label: s.revoke(label, "revoked 0" if is_label(label) else "refused 3"),
                lambda label: s.bylabel(label, "none" if is_label(label) else "refused 3"),
                lambda label: s.ask(label, b"_", b"r", {b"*": "denied 1", b"^": "granted 2"}.get(label, "granted 3") if is_label(label) else "refused 3"),
                lambda label: s.ask(b"^", label, b"r", "granted 2" if is_label(label) else "refused 3")]
        fields = [lambda label: line(label + b" Air r"), lambda label: line(b"\tAir " + label + b"\tr"),
                  lambda label: write("change", label + b" Air r -", says_change(label + b" Air r -")), lambda label: write("change", b"Air  " + label + b" r -", says_change(b"Air  " + label + b" r -")),
                  lambda label: write("override", b"Air " + label, says_override(b"Air " + label)), lambda label: write("mapping", b" " + label + b" 9", says_mapping(b" " + label + b" 9"))]
        if length == 600:
            # A line or a change has no room for it: see places_labels; for a mapping see categories_places.
            fields = [lambda label: write("override", label, says_override(label))]
        calls = lent + fields
        for at in (0, 1, 254, 255, 256):
            if at >= length:
                continue
            s.say("place %d" % at)
            for byte in range(256):
                label = spoilt(length, (at, bytes([byte])))
                for call in calls if length == 1 else [calls[(byte + turn) % len(calls)]]:
                    call(label)
            turn += 1
        s.store()


def places_cuts():
    s = Script("places_cuts", "02, Three: the place of the first refused line is the same however its text was cut, and whatever is asked or written between the pieces.", True)
    text = b"A B r\n \t Al/rm Air r\n\nAir -B r\nA"
    first = ("report 5 1 1 3 2 3", 5)

    def feed(pieces, between=None):
        s.fresh()
        for piece in pieces:
            s.piece(piece)
            if between is not None:
                between()
        s.end(*first)
    feed([text])
    s.dump("state")
    s.say("every cut into two pieces")
    for cut_ in range(len(text) + 1):
        feed([text[:cut_], text[cut_:]])
        s.dump("state")
    s.say("every cut into three pieces of the lines that are refused")
    for one in range(6, 33):
        for two in range(one, 33):
            feed([text[:one], text[one:two], text[two:]])
    s.dump("state")
    s.say("byte by byte, with questions, look-ups and single writes between, refused at other places or not at all")

    def asked():
        s.ask(b"A", b"Unseen/", b"r", bad(6))
        s.ask(b"A", b"Unseen", b"r", "denied 7")

    def written():
        s.change(b"   A/ B r -", bad(4))
        s.override(b"A B -", bad(4))
        s.mapping(spoilt(256) + b" 9", bad(255))
        s.revoke(b"", bad(0))
        s.bylabel(b"Al/", bad(2))
    feed([text[k:k + 1] for k in range(len(text))], asked)
    s.dump("state")
    feed([text[k:k + 1] for k in range(len(text))], written)
    s.dump("state")

    def acted():
        s.change(b"A B w -")
        s.mapping(b"B 9")
    feed([text[k:k + 3] for k in range(0, len(text), 3)], acted)
    feed([text[:12], text[12:]], acted)
    s.say("A label that is too long, cut at every byte.")
    long = b"\t" + spoilt(256) + b" B r"
    for cut_ in range(len(long) + 1):
        s.piece(long[:cut_])
        s.piece(long[cut_:] + b"\n")
        s.end("report 1 0 0 1 1 3", 256)
    s.say("A line of 600 bytes with its bad byte at 597; one of 601 has none; cut around its limits.")
    wide = b"A" + b" " * 596 + b"/ r"
    for cut_ in (0, 1, 2, 254, 255, 256, 257, 511, 512, 513, 595, 596, 597, 598, 599, 600):
        s.piece(wide[:cut_])
        s.piece(wide[cut_:])
        s.end("report 1 0 0 1 1 3", 597)
        s.piece(wide[:cut_])
        s.piece(wide[cut_:] + b"\nA/ B r\n")
        s.end("report 2 0 0 2 1 3", 597)
        s.piece(wide[:cut_] + b" ")
        s.piece(wide[cut_:] + b"\nA/ B r\n")
        s.end("report 2 0 0 2 1 1")
    s.say("A line that was kept before the call: its bytes are judged with those that come.")
    s.fresh()
    for line, where in ((b" Al/rm Air r", 3), (b"Alarm  -Air r", 7), (b"\t\tAlarm Air\xff r", 11)):
        for kept in range(len(line) + 1):
            s.poke("line", 0, line[:kept] + b"/" * (600 - kept))
            s.poke("loader", 0, kept)
            s.piece(line[kept:])
            s.end("report 1 0 0 1 1 3", where)
    s.store()


def places_report():
    s = Script("places_report", "02, Three: the report keeps the place of the first refused line, 0 if that is not a 3.", True)
    s.fresh()
    s.dump("fresh")
    texts = ((b"A B\nA B/ r\n", "2 0 0 2 1 2", 0), (b"A B/ r\nA B\n", "2 0 0 2 1 3", 3), (b"A B\nA B/ r", "2 0 0 2 1 2", 0), (b"A B/ r\nA B", "2 0 0 2 1 3", 3),
             (b"-A B r\nA B/ r\n", "2 0 0 2 1 3", 0), (b"/ B r\nA B/ r\n", "2 0 0 2 1 3", 0), (b"- B r\n  A/ B r\nA B/ r\n", "3 0 0 3 1 3", 0), (b"A B/ r\n-A B r\n", "2 0 0 2 1 3", 3),
             (b"A B/ r\nA/ B r\nABC/ B r\n", "3 0 0 3 1 3", 3), (b"A/ B r\nABCDE/ B r\n", "2 0 0 2 1 3", 1), (b"A B q\nA/ B r", "2 0 0 2 1 4", 0), (b"A/ B q\nA B q", "2 0 0 2 1 3", 1),
             (b"A A r\nA/ B r\n", "2 0 0 2 1 5", 0), (b"A/ A/ r\nA A r\n", "2 0 0 2 1 3", 1), (b" " * 601 + b"\nA/ B r\n", "2 0 0 2 1 1", 0), (b"A/" + b" " * 600 + b"\nA/ B r\n", "2 0 0 2 1 1", 0),
             (b" A/ B r\n" + b" " * 601, "2 0 0 2 1 3", 2), (b"A B r\n\n \n  A/ B r\nA B r\n A B/ r\n", "6 2 2 2 4 3", 3), (b"A/ B r\nA B r\n", "2 1 0 1 1 3", 1), (b"A B r\nAl/rm B r", "2 1 0 1 2 3", 2),
             (b"A B r\nA B w\n", "2 2 0 0 0 0", 0), (b"\n\n", "2 0 2 0 0 0", 0), (b"", "0 0 0 0 0 0", 0), (b"A/", "1 0 0 1 1 2", 0), (b"/", "1 0 0 1 1 2", 0), (b"A/ B r w\n", "1 0 0 1 1 2", 0),
             (b"A B/ r", "1 0 0 1 1 3", 3), (b"\n A B r\nA B " + b"r" * 50 + b"\n\t" + spoilt(300) + b" B r\n", "4 2 1 1 4 3", 256), (b"A B r\n" + spoilt(596, (300, b"/")) + b" B r", "2 1 0 1 2 3", 255))
    s.say("The text alone; the same after a text with a place, one with another reason and one without a refusal; and a report of zeros behind each.")
    for text, report, where in texts:
        s.piece(text)
        s.end("report " + report, where)
        s.end("report 0 0 0 0 0 0")
    for text, report, where in texts:
        for before, first, at in ((b"Alarm Air/ r\n", "1 0 0 1 1 3", 9), (b"Alarm Air q\n", "1 0 0 1 1 4", 0), (b"Alarm Air r\n", "1 1 0 0 0 0", 0)):
            s.piece(before)
            s.end("report " + first, at)
            s.piece(text)
            s.end("report " + report, where)
    s.say("A fresh loader in place of an end call: the place is gone.")
    s.piece(b"Alarm Air/ r\n")
    s.call("freshloader", "done")
    s.end("report 0 0 0 0 0 0")
    s.piece(b"Alarm Air/ r\n")
    s.call("freshloader", "done")
    s.piece(b"A B\n")
    s.end("report 1 0 0 1 1 2")
    s.say("A fresh table leaves the loader: its place stays.")
    s.piece(b"Alarm Air/ r\n")
    s.call("fresh", "done")
    s.piece(b"A B\n")
    s.call("freshen", "done")
    s.end("report 2 0 0 2 1 3", 9)
    s.say("Refused calls leave the place; so do questions and writes.")
    s.piece(b"Alarm Air/ r\nA B")
    s.dump("held")
    s.poke("words", 0, 65)
    s.piece(b"/ r\n-A B r\n", "refused 0")
    s.end("refused 0")
    s.poke("words", 0, 5)
    s.dump("held")
    s.ask(b"A", b"Bcd/", b"r", bad(3))
    s.change(b"A", "refused 2")
    s.revoke(b"A/", bad(1))
    s.dump("held")
    s.piece(b"\n")
    s.end("report 2 0 0 2 1 3", 9)
    s.say("Full tables: a first line that is refused with 6 or with 7 has no place; a bad label in them has.")
    full(s, 64, 256, 0)
    for text, report, where in ((b"New1 New2 r\nA/ B r\n", "2 0 0 2 1 6", 0), (b"L20 L19 r\nA/ B r\n", "2 0 0 2 1 7", 0), (b"New1 New2/ r\nNew1 New2 r\n", "2 0 0 2 1 3", 9),
                                (b"L20 L19/ r\nL20 L19 r\n", "2 0 0 2 1 3", 7), (b"L05 L06 w\nL20/ L19 r", "2 1 0 1 2 3", 3)):
        s.piece(text)
        s.end("report " + report, where)

    s.say("A place that a host has put there: while lines are refused it is kept as it is; a first refused line brings its own, 0 if it is no 3; other lines leave it.")
    for where in (0, 1, 2, 255, 600, 601, 65536, MOST, MOST + 1, MOST + 2, HUGE - 1, HUGE):
        s.fresh()
        s.poke("loader", 7, where)
        s.end("report 0 0 0 0 0 0", where)
        s.dump("fresh")
        s.poke("loader", 7, where)
        s.piece(b"A B r\n\n")
        s.end("report 2 1 1 0 0 0", where)
        for text, report, own in ((b"A B/ r\n", "1 0 0 1 1 3", 3), (b"A B/ r", "1 0 0 1 1 3", 3), (b"-A B r\n", "1 0 0 1 1 3", 0), (b"A A r\n", "1 0 0 1 1 5", 0), (b"A", "1 0 0 1 1 2", 0),
                                  (b" " * 601, "1 0 0 1 1 1", 0), (b"\nA B q\nA B/ r\n", "3 0 1 2 2 4", 0)):
            s.poke("loader", 7, where)
            s.piece(text)
            s.end("report " + report, own)
        for refused in (1, 2, MOST - 1, MOST):
            for reason in (3, 4, 0, 255):
                for text, lines in ((b"", 0), (b"A B/ r\n", 1), (b"A B/ r", 1), (b"A A r\n", 1)):
                    if refused > 1 and (reason != 3 or lines == 0):
                        continue
                    s.poke("loader", 4, refused)
                    s.poke("loader", 5, 7)
                    s.poke("loader", 6, reason)
                    s.poke("loader", 7, where)
                    s.piece(text)
                    s.end("report %d 0 0 %d 7 %d" % (lines, min(refused + lines, MOST), reason), where)
    s.say("The counts stop at 4294967295; the place is the true one beside them.")
    for start in (MOST - 2, MOST - 1, MOST):
        for text, where in ((b"A B/ r\n", 3), (b"\n  A/ B r", 3), (b"A" + b" " * 595 + b"/ r", 596), (b"A B q\nA/ B r\n", 0)):
            s.fresh()
            s.poke("loader", 1, start)
            s.piece(text)
            lines = text.count(b"\n") + (text[-1:] != b"\n")
            first = 2 if text[:1] == b"\n" else 1
            s.end("report %d 0 %d %d %d %d" % (min(start + lines, MOST), first - 1, lines - first + 1, min(start + first, MOST), 4 if b"q" in text else 3), where)
    s.say("Every line of a long text but one is fine; then every line but one is refused, each at another place.")
    s.fresh()
    s.piece(b"A B r\n" * 500 + b"   Al/rm B r\n" + b"A B r\n" * 500)
    s.end("report 1001 1000 0 1 501 3", 5)
    s.piece(b"".join(b" " * k + b"A/ B r\n" for k in range(40, 0, -1)) + b"A B r")
    s.end("report 41 1 0 40 1 3", 41)
    s.store()


def places_beside():
    s = Script("places_beside", "02, Three: a place goes with 3 alone. Each call where 3 meets the other numbers, in each order; and answers behind a 3, which have none.", True)
    s.say("0 comes before 3 and has no place: each kind of damage.")
    for part, at, value, sound in (("words", 0, 65, 9), ("words", 1, 257, 3), ("words", 2, 33, 2), ("words", 3, 9, 2), ("entries", 0, b"\x09", b"\x05"), ("entries", 512, b"\x40", b"\x20"),
                                   ("entries", 512, b"\x21", b"\x20"), ("words", 68, 1, 0)):
        small_state(s)
        s.poke(part, at, value)
        s.change(b"A/ B r -", "refused 0")
        s.change(b"  A -B r -", "refused 0")
        s.override(b"A/ B", "refused 0")
        s.mapping(b"A/ 9", "refused 0")
        for label in (b"A/", b"-A", b"", spoilt(256), spoilt(601)):
            s.revoke(label, "refused 0")
            s.bylabel(label, "refused 0")
            s.ask(label, b"B", b"r", "refused 0")
            s.ask(b"B", label, b"r", "refused 0", 1)
        s.piece(b"/ B r\nA/ B r\n", "refused 0")
        s.end("refused 0")
        s.poke(part, at, sound)
        s.change(b"A/ B r -", bad(1))
        s.override(b"A/ B", bad(1))
        s.mapping(b"A/ 9", bad(1))
        s.revoke(b"A/", bad(1))
        s.bylabel(b"A/", bad(1))
        s.ask(b"A/", b"B", b"r", bad(1))
        s.ask(b"B", b"A/", b"r", bad(1), 1)
        s.say("`A ` is kept, and A A r was refused before: 5 stays the reason, and there is no place")
        s.piece(b"B/ r\n")
        s.end("report 5 3 0 2 4 5", 0, 1)
    for part, size in (("labels", 16383), ("entries", 841), ("words", 99), ("line", 599)):
        s.fresh()
        s.call("resize %s %d" % (part, size), "done")
        s.piece(b"A/ B r\n", "refused 0")
        s.end("refused 0")
        s.change(b"A/ B r -", bad(1) if part == "line" else "refused 0")
        s.revoke(b"A/", bad(1) if part == "line" else "refused 0")
        s.override(b"A/ B", bad(1) if part == "line" else "refused 0")
        s.mapping(b"A/ 9", bad(1) if part == "line" else "refused 0")
        s.bylabel(b"A/", bad(1) if part == "line" else "refused 0")
        s.ask(b"A/", b"B", b"r", bad(1) if part == "line" else "refused 0")
    s.say("1 and 2 come before 3 and have no place.")
    s.fresh()
    pad = b" " * 600
    for text in (b"A/ B r" + pad, pad + b"A/ B r", b"/" * 601, b"-A B r" + pad, spoilt(601), spoilt(300) + b" " + spoilt(300) + b" r"):
        s.line(text, 1)
        s.change(text, "refused 1")
        s.override(text, "refused 1")
        s.mapping(text + b" " * (1001 - len(text)), "refused 1")
        s.revoke(text, "refused 1")
    for text in (b"A/", b"-", b"A/ B", b"A B/", b"A/ B/ r w", b"- - - -", spoilt(256), b"A " + spoilt(256), b"/ / / / /"):
        s.line(text, 2)
    for text in (b"A/", b"A/ B", b"A B/ r", b"A/ B/ r r r", spoilt(256), b"- - -", b"- - - - -"):
        s.change(text, "refused 2")
    for text in (b"A/", b"-", b" \t-A ", spoilt(256), spoilt(600)):
        s.mapping(text, "refused 2")
    s.say("3 comes before 4 5 8 9 and 11, with its place; each of these alone has none.")
    for line, change, where in ((b"A/ B q", b"A/ B q -", 1), (b"A B/ q", b"A B/ - q", 3), (b"A/ A/ r", b"A/ A/ r -", 1), (b"A/ A/ q", b"A/ A/ b b", 1), (b" A A/ q", b" A A/ q q", 4)):
        s.line(line, 3, where)
        s.change(change, bad(where))
    for line, change, number in ((b"A B q", b"A B q -", 4), (b"A B r/", b"A B - r/", 4), (b"A A r", b"A A r -", 5), (b"A A q", b"A A q -", 4)):
        s.line(line, number)
        s.change(change, "refused %d" % number)
    for request in (b"", b"q", b"rt", b"/"):
        s.ask(b"A/", b"B", request, bad(1))
        s.ask(b"A", b"Bc/", request, bad(2))
        s.ask(b"A", b"B", request, "refused 8")
    for text, answer in ((b"A/ 256", bad(1)), (b"A/ x", bad(1)), (b"A/ 9 185", bad(1)), (b" -A 9 0", bad(1)), (b"A 256", "refused 9"), (b"A 9 0", "refused 9"), (b"A /", "refused 9"), (b"A 9 /", "refused 9")):
        s.mapping(text, answer)
    nine = b" ".join(b"N%d" % k for k in range(9))
    for text, answer in ((nine, "refused 11"), (nine + b" A/", bad(28)), (b"A/ " + nine, bad(1)), (nine + b" -", bad(27)), (nine[:14] + b" - " + nine[15:], bad(15))):
        s.override(text, answer)
    s.say("3 comes before 6, 7 and 10, in full tables.")
    full(s, 64, 256, 32)
    s.dump("full", True)
    for line, change, where in ((b"New1/ L05 r", b"New1/ L05 r -", 4), (b"New1 New2/ r", b"New1 New2/ r -", 9), (b"L20/ L19 r", b"L20/ L19 r -", 3), (b"L20 L19\x00 r", b"L20 L19\x00 r -", 7)):
        s.line(line, 3, where)
        s.change(change, bad(where))
    for line, change, number in ((b"New1 L05 r", b"New1 L05 r -", 6), (b"New1 New2 r", b"New1 New2 r -", 6), (b"L20 L19 r", b"L20 L19 r -", 7)):
        s.line(line, number)
        s.change(change, "refused %d" % number)
    for text, answer in ((b"New1 New2/", bad(9)), (b"New1", "refused 6"), (b"L05 New1 -", bad(9)), (b"L05 New1", "refused 6")):
        s.override(text, answer)
    for text, answer in ((b"New1/ 9", bad(4)), (b"New1 9", "refused 6"), (b"L40/ 9", bad(3)), (b"L40 9", "refused 10"), (b"-L40 9", bad(0))):
        s.mapping(text, answer)
    s.dump("full", True)
    s.say("Behind a 3 with a place far on, each answer that is no 3 has none; and a 3 at place 0 says 0.")
    s.fresh()
    s.line(b"A B rb", None)
    far = b" " * 300 + b"A B" + b" " * 200 + b"/"
    other = [("change", b"A B w -", "done"), ("change", b"A B q -", "refused 4"), ("change", b"A B", "refused 2"), ("change", b"-A B r -", bad(0)), ("override", b"A B", "done"),
             ("override", b"-", "done"), ("override", b"", "refused 2"), ("override", b"- A", bad(0)), ("mapping", b"A 9 1", "done"), ("mapping", b"A 256", "refused 9"), ("mapping", b"- 9", bad(0)),
             ("revoke", b"A", "revoked 1"), ("revoke", b"Unseen", "revoked 0"), ("revoke", b"A" * 601, "refused 1"), ("revoke", b"", bad(0)), ("bylabel", b"A", mapped(9, category(1), 1)),
             ("bylabel", b"B", "none"), ("bylabel", b"", bad(0)), ("freshen", None, "done")]
    for name, text, answer in other:
        for spoil in (0, 1):
            if spoil:
                s.override(far, bad(503))
            else:
                s.bylabel(spoilt(300), bad(255))
            s.call(name if text is None else name + " " + h(text), answer)
    s.line(b"A B rb", None)
    for subject, object_, request, answer in ((b"A", b"B", b"r", "granted 6"), (b"A", b"B", b"w", "denied 7"), (b"*", b"B", b"w", "denied 1"), (b"A", b"A", b"w", "granted 5"), (b"A", b"B", b"q", "refused 8"),
                                              (b"", b"B", b"r", bad(0)), (b"A", b"-", b"r", bad(0))):
        for capable in (0, 1):
            s.ask(spoilt(300), b"B", b"r", bad(255))
            s.ask(subject, object_, request, "override" + answer[6:] if capable and answer.startswith("denied") else answer, capable)
    s.say("Labels of 23 and 24 bytes: what an old record has no place for is a label all the same.")
    s.fresh()
    s.line(spoilt(23) + b" " + spoilt(24) + b" r", None)
    s.line(spoilt(23, (22, b"/")) + b" " + spoilt(24) + b" r", 3, 22)
    s.line(spoilt(23) + b" " + spoilt(24, (23, b"/")) + b" r", 3, 47)
    s.line(spoilt(24, (23, b"/")) + b" " + spoilt(23, (22, b"/")) + b" r", 3, 23)
    s.change(spoilt(24) + b" " + spoilt(23, (22, b"/")) + b" r -", bad(47))
    s.say("The two calls for old records tell no place.")
    for text in (b"A/ B r", b"  A B/ r\n", b"-A B r", spoilt(256) + b" B r"):
        s.to_record(text, 3)
    s.to_line(fixed(b"Al/rm", b"Air", b"rwxat"), 3)
    s.to_line(fixed(b"Alarm", b"-Air", b"rwxat"), 3)
    s.store()


def places_two():
    s = Script("places_two", "02, Three: two bad bytes in a label, the first counts whatever the two are; a bad label beside other fields, in full tables, and beside calls that tell no place.", True)
    s.fresh()
    s.dump("fresh", True)

    def every_call(label, where):
        """The label in each call and at each place of a label there; `where` is the place of its first bad byte."""
        s.revoke(label, bad(where))
        s.bylabel(label, bad(where))
        s.ask(label, b"Air", b"r", bad(where))
        s.ask(b"Air", label, b"r", bad(where))
        if b" " in label or b"\t" in label:
            return
        s.change(b" " + label + b" Air r -", bad(1 + where))
        s.change(b"Air  " + label + b" r -", bad(5 + where))
        s.override(b"\t" + label, bad(1 + where))
        s.override(b"Air Door " + label, bad(9 + where))
        s.mapping(b"  " + label + b" 9 1", bad(2 + where))
        if b"\n" not in label:
            s.line(b"\t" + label + b" Air r", 3, 1 + where)
            s.line(b"Air\t " + label + b" r", 3, 5 + where)
    s.say("Every byte that no label may have, at place 3 before a slash, and behind one.")
    for byte in range(256):
        if byte not in LABEL_BYTES:
            every_call(b"Air%cDo/r" % byte, 3)
            every_call(b"Ai/r%cDoor" % byte, 2)
    s.say("Bytes of each kind before each other kind, side by side and apart; a dash is none of them but in front.")
    kinds = b"\x00\x1f\x7f\x80\xff/\\'\""
    for one in kinds:
        for other in kinds:
            if one != other:
                every_call(b"Alarm%c%cAir" % (one, other), 5)
                every_call(b"A-%cDoor-North%c" % (one, other), 2)
    s.dump("fresh", True)
    s.say("The fields behind the labels have no place, whatever they hold.")
    for other in (b"/", b"-/", b"r/", b"-", b"--r", b"q", b"\x00", b"\xff", spoilt(256), b"rwxatb"):
        s.line(b"A/ B " + other, 3, 1)
        s.line(b"A B/ " + other, 3, 3)
        for more in (b"-", b"/", b"r"):
            for text, where in ((b"A/ B ", 1), (b"A B/ ", 3)):
                s.change(text + other + b" " + more, bad(where))
                s.change(text + more + b" " + other, bad(where))
        s.mapping(b"A/ " + other, bad(1))
        s.mapping(b"A/ 9 1 " + other, bad(1))
        s.mapping(b" -A 9 " + other + b" 1", bad(1))
    s.say("A good label before a bad one, of each mark; a lone dash before a bad label counts, in a list of labels too.")
    for mark in (b"_", b"^", b"*", b"?", b"@", b"Air", b"-A"):
        first, where = len(mark) + 1, 0 if mark == b"-A" else len(mark) + 3
        s.line(mark + b" Do/r r", 3, where)
        s.change(mark + b" Do/r - r", bad(where))
        s.override(mark + b" Do/r", bad(where))
        s.override(mark + b" - Do/r", bad(0 if mark == b"-A" else first))
        s.override(mark + b" -D Do/r", bad(0 if mark == b"-A" else first))
        s.ask(mark, b"Do/r", b"r", bad(0 if mark == b"-A" else 2))
        s.ask(b"Do/r", mark, b"r", bad(2))
    for text, where in ((b"- A/", 0), (b" - A/", 1), (b"A - B/", 2), (b"-- A/", 0), (b"A -B C/", 2), (b"A/ -", 1), (b"A/ - -", 1), (b"A B/ -", 3)):
        s.override(text, bad(where))
    for text, where in ((b"- A/ r", 0), (b"A/ - r", 1), (b"- - r", 0), (b"- - -", 0), (b"A - -", 2)):
        s.line(text, 3, where)
        s.change(text + b" -", bad(where))
    s.dump("fresh", True)
    s.say("Writes of 598 to 600 bytes, their blanks before, between and behind.")
    for length in (598, 599, 600):
        for text, where in ((b"A/ B r -", 1), (b"A B/ r -", 3)):
            wide = b" " * (length - len(text))
            s.change(text + wide, bad(where))
            s.change(wide + text, bad(len(wide) + where))
            s.change(text[:2] + wide + text[2:], bad(where if where == 1 else len(wide) + where))
        wide = b"\t" * (length - 4)
        s.mapping(b"A/ 9" + wide, bad(1))
        s.mapping(wide + b"A/ 9", bad(len(wide) + 1))
        s.override(b"A -B" + wide, bad(2))
        s.override(wide + b"A -B", bad(len(wide) + 2))
        s.override(b"A " + wide + b"-B", bad(len(wide) + 2))
    s.say("In full tables, and with an override list.")
    full(s, 64, 256, 32)
    s.override(b"L05 L06")
    for subject, object_, where in ((b"L0/", b"L06", 2), (b"L05", b"L0/", 2), (b"L05", b"-", 0), (b"L05/", b"L0/", 3), (b"Unseen", b"L0/", 2), (b"*", b"", 0)):
        for capable in (0, 1):
            s.ask(subject, object_, b"r", bad(where), capable)
    s.revoke(b"L0/", bad(2))
    s.bylabel(b"L0/", bad(2))
    s.mapping(b"\tL0/ 9", bad(3))
    s.override(b"L05 L0/", bad(6))
    s.change(b"L05  L0/ r -", bad(7))
    s.line(b"L05 \t L0/ r", 3, 8)
    s.say("A place that is kept stays through every call, done or refused, that tells none.")
    s.fresh()
    s.line(b"A B r", None)
    s.mapping(b"A 9 1")
    s.piece(b"Alarm Air/ r\nA B")
    s.dump("held")
    s.list(0, b"A B r\n")
    s.list(1, 13)
    s.list(0, 12, b"\xee" * 5)
    s.label(5, b"A")
    s.label(7, 13)
    s.bylevel(9, category(1), "label 5")
    s.bylevel(256, 0, "refused 9")
    s.run(9, 0, ((3, 9, 0),), "label 3")
    s.to_line(fixed(b"A/", b"B", b"-----"), 3)
    s.to_line(fixed(b"A", b"B", b"-----"), b"A B -\n")
    s.to_record(b"A B/ r", 3)
    s.to_record(b"A B r", fixed(b"A", b"B", b"r----"))
    s.bylabel(b"A", mapped(9, category(1), 1))
    s.ask(b"A", b"B", b"r", "granted 6")
    s.dump("held")
    s.piece(b"", "done")
    s.dump("held")
    s.say("A piece and an end call that are refused for the line part or for the loader leave it too.")
    s.call("resize line 599", "done")
    s.piece(b"/ r\n", "refused 0")
    s.end("refused 0")
    s.call("resize line 600", "done")
    s.poke("loader", 0, 602)
    s.piece(b"/ r\n", "refused 0")
    s.end("refused 0")
    s.poke("loader", 0, 3)
    s.dump("held")
    s.piece(b" r\n")
    s.end("report 2 1 0 1 1 3", 9)
    s.say("So many lines refused before, and 300 in a row: the first one's place stays.")
    for refused in (2, 127, 128, 255, 256, 257, 32768, 65535, 65536, 16777216, 2147483648):
        s.poke("loader", 4, refused)
        s.poke("loader", 5, 1)
        s.poke("loader", 6, 3)
        s.poke("loader", 7, 9)
        s.piece(b"A B/ r\n-A B r\nA B\n")
        s.end("report 3 0 0 %d 1 3" % (refused + 3), 9)
    s.piece(b"Alarm Air/ r\n" + b"A B/ r\n" * 299 + b"Ala/rm Air r")
    s.end("report 301 0 0 301 1 3", 9)
    s.piece(b"A\n" + b"A B/ r\n" * 300)
    s.end("report 301 0 0 301 1 2")
    s.store()


def places_program():
    lines = [b"A/ B r", b"   A B/ r", b"-A B r", b"A - r", spoilt(256) + b" B r", b"A " + spoilt(300, (100, b"/")) + b" r", b"A/ B", b"A/ B r" + b" " * 600, b"A/ B/ q", b"A B r"]
    program("program_places", b"".join(line + b"\n" for line in lines) + b"?\n" + b"".join(line + b"\n" for line in lines),
            ["10 1 0 9 1 3 0"] + ["refused 3"] * 6 + ["refused 2", "refused 1", "refused 3", "granted 6"])


def places():
    places_labels()
    places_calls()
    places_bytes()
    places_cuts()
    places_report()
    places_beside()
    places_two()
    places_program()


# ---------------------------------------------------------------------------------------------------------------------------------------------
# Categories 1 to 184: request Four of 02
# ---------------------------------------------------------------------------------------------------------------------------------------------

# The words of some sets, worked out by hand: category n is the bit 63 - (n-1) mod 64 of the word (n-1)/64.
TOP = 9223372036854775808
BY_HAND = [((), "0:0:0"), ((1,), "9223372036854775808:0:0"), ((2,), "4611686018427387904:0:0"), ((32,), "4294967296:0:0"), ((33,), "2147483648:0:0"), ((57,), "128:0:0"), ((63,), "2:0:0"),
           ((64,), "1:0:0"), ((65,), "0:9223372036854775808:0"), ((66,), "0:4611686018427387904:0"), ((79,), "0:562949953421312:0"), ((80,), "0:281474976710656:0"), ((96,), "0:4294967296:0"),
           ((97,), "0:2147483648:0"), ((100,), "0:268435456:0"), ((127,), "0:2:0"), ((128,), "0:1:0"), ((129,), "0:0:9223372036854775808"), ((130,), "0:0:4611686018427387904"),
           ((160,), "0:0:4294967296"), ((161,), "0:0:2147483648"), ((176,), "0:0:65536"), ((183,), "0:0:512"), ((184,), "0:0:256"),
           ((1, 63), "9223372036854775810:0:0"), ((63, 64), "3:0:0"), ((64, 65), "1:9223372036854775808:0"), ((63, 65), "2:9223372036854775808:0"), ((64, 66), "1:4611686018427387904:0"),
           ((1, 65), "9223372036854775808:9223372036854775808:0"), ((64, 128), "1:1:0"), ((65, 128), "0:9223372036854775809:0"), ((127, 128), "0:3:0"), ((128, 129), "0:1:9223372036854775808"),
           ((127, 129), "0:2:9223372036854775808"), ((128, 130), "0:1:4611686018427387904"), ((65, 129), "0:9223372036854775808:9223372036854775808"), ((1, 129), "9223372036854775808:0:9223372036854775808"),
           ((1, 184), "9223372036854775808:0:256"), ((64, 184), "1:0:256"), ((128, 184), "0:1:256"), ((183, 184), "0:0:768"), ((129, 184), "0:0:9223372036854776064"), ((100, 184), "0:268435456:256"),
           ((1, 65, 129), "9223372036854775808:9223372036854775808:9223372036854775808"), ((64, 128, 184), "1:1:256"), ((1, 64, 65, 128, 129, 184), "9223372036854775809:9223372036854775809:9223372036854776064"),
           ((63, 64, 65, 127, 128, 129, 183, 184), "3:9223372036854775811:9223372036854776576"), (tuple(range(1, 65)), "18446744073709551615:0:0"), (tuple(range(65, 129)), "0:18446744073709551615:0"),
           (tuple(range(129, 185)), "0:0:18446744073709551360"), (tuple(range(1, 129)), "18446744073709551615:18446744073709551615:0"), (tuple(range(65, 185)), "0:18446744073709551615:18446744073709551360"),
           (tuple(range(1, 185)), "18446744073709551615:18446744073709551615:18446744073709551360")]
STRAYS = [1 << bit for bit in range(8)]


def sum_of(categories):
    return sum(category(n) for n in set(categories))


def listed(categories, form=b"%d"):
    return b" ".join(form % n for n in categories)


def to_length(text, length, fill=b" "):
    """The write with blanks behind it, to that many bytes."""
    assert len(text) <= length
    return text + fill * (length - len(text))


def categories_each():
    s = Script("categories_each", "02, Four: every category from 1 to 184 is written, read back by label, found by its set and in a run, and told from the others.", True)
    for n in range(1, 185):
        one, before, after = category(n), category(n - 1) if n > 1 else 0, category(n + 1) if n < 184 else 0
        s.mapping(b"V 9 %d" % n)
        s.bylabel(b"V", mapped(9, one, 1))
        s.bylevel(9, one, "label 5")
        s.run(9, one, [(3, 9, before), (4, 9, after), (7, 9, one)], "label 7")
    s.say("Some with leading zeros; and all others, without this one.")
    for n in range(1, 185, 6):
        s.mapping(b"V 9 %03d" % n)
        s.bylevel(9, category(n), "label 5")
    for n in (1, 64, 65, 128, 184):
        others = [c for c in range(1, 185) if c != n]
        s.mapping(b"V 9 " + listed(others))
        s.bylabel(b"V", mapped(9, ALL - category(n), 183))
        s.bylevel(9, ALL - category(n), "label 5")
        s.bylevel(9, ALL, "none")
    s.store()


def categories_sets():
    s = Script("categories_sets", "02, Four: sets over the words' borders, their words by hand; counts over all 184; any order, repeats, and all 184 in one write.", True)
    s.say("P12 stays")
    s.mapping(b"Vault7 9 1 63")
    s.bylabel(b"Vault7", "mapping 9 9223372036854775810:0:0 2")
    s.call("fresh", "done")
    for members, words in BY_HAND:
        for order in (members, members[::-1] + members[:1]) if len(members) < 10 else (members,):
            s.mapping(b"V 9 " + listed(order))
            s.bylabel(b"V", "mapping 9 %s %d" % (words, len(members)))
        s.call("bylevel 9 " + words, "label 5")
        s.call("run 9 %s 9,9,%s 7,9,%s" % (words, words, words), "label 7")
    s.say("Each set beside the others, in one run: its own records alone match.")
    run = " ".join("%d,9,%s" % (10 + k, words) for k, (members, words) in enumerate(BY_HAND))
    for k, (members, words) in list(enumerate(BY_HAND))[::9]:
        s.call("run 9 %s %s" % (words, run), "label %d" % (10 + k))
    s.say("Counts: the first n, and the last.")
    for n in (63, 64, 65, 128, 129, 183):
        s.mapping(b"V 7 " + listed(range(1, n + 1)))
        s.bylabel(b"V", mapped(7, sum_of(range(1, n + 1)), n))
        s.mapping(b"V 7 " + listed(range(n, 185)))
        s.bylabel(b"V", mapped(7, sum_of(range(n, 185)), 185 - n))
    s.say("All 184, with a label of 255 bytes and a level of three digits: 887 bytes, and every other order.")
    long = spoilt(255)
    every = list(range(1, 185))
    text = long + b" 255 " + listed(every)
    assert len(text) == 887
    s.mapping(text)
    s.bylabel(long, mapped(255, ALL, 184))
    s.bylevel(255, ALL, "label 6")
    for order in (every[::-1], every[1::2] + every[::2]):
        s.mapping(long + b" 0")
        s.bylabel(long, mapped(0, 0, 0))
        s.mapping(long + b" 255 " + listed(order))
        s.bylabel(long, mapped(255, ALL, 184))
    s.say("With leading zeros and the longest label it has 993. Repeats count once.")
    text = long + b" 9 " + listed(every, b"%03d")
    assert len(text) == 993
    s.mapping(text)
    s.bylabel(long, mapped(9, ALL, 184))
    s.mapping(b"V 9 " + listed(every + [184] * 60 + [1] * 20))
    s.bylabel(b"V", mapped(9, ALL, 184))
    for members in ((184,), (129,), (128,), (65,), (64,), (1, 184), (64, 65), (128, 129)):
        s.mapping(b"V 9 " + listed(members * (60 // len(members))))
        s.bylabel(b"V", mapped(9, sum_of(members), len(members)))
    s.store()


def categories_lengths():
    s = Script("categories_lengths", "02, Four: a mapping write has up to 1,000 bytes, and 1 above. Lines and the other writes stay at 600.", True)
    s.fresh()
    for length in (600, 601, 999, 1000, 1001):
        answer = "done" if length <= 1000 else "refused 1"
        s.say("%d bytes: blanks before and between, repeats, leading zeros" % length)
        s.mapping(b"\t" * (length - 7) + b"V 9 184", answer)
        s.bylabel(b"V", mapped(9, category(184), 1) if length <= 1000 else mapped(7, category(184), 1))
        s.mapping(b"V 8" + b" " * (length - 5) + b"65", answer)
        s.bylabel(b"V", mapped(8, category(65), 1) if length <= 1000 else mapped(7, category(184), 1))
        s.mapping(to_length(b"V 7" + b" 1" * ((length - 3) // 2), length), answer)
        s.bylabel(b"V", mapped(7, category(1) if length <= 1000 else category(184), 1))
        if length != 999:
            s.mapping(to_length(b"V 7" + b" 064" * ((length - 3) // 4), length), answer)
            s.bylabel(b"V", mapped(7, category(64) if length <= 1000 else category(184), 1))
        if length <= 1000:
            s.mapping(b"V 7 184")
    s.say("The last category of a write of 1,000 bytes counts; cut by one byte it is another.")
    text = b"V 9" + b" 001" * 249
    assert len(text) == 999
    s.mapping(b" " + text[:-3] + b"184")
    s.bylabel(b"V", mapped(9, category(1) | category(184), 2))
    s.say("498 fields, the last of them the only one of its kind")
    s.mapping(b"V 9" + b" 2" * 495 + b" 184")
    s.bylabel(b"V", mapped(9, category(2) | category(184), 2))
    s.mapping(b"  " + text[:-4] + b" 18")
    s.bylabel(b"V", mapped(9, category(1) | category(18), 2))
    s.mapping(b"  " + text[:-3] + b"184", "refused 1")
    s.mapping(text[:-3] + b"184 4", "refused 1")
    s.bylabel(b"V", mapped(9, category(1) | category(18), 2))
    s.say("A NUL, a newline and a digit as the 1,001st byte, and as the 1,000th.")
    s.mapping(b"V 3 77")
    s.dump("before", True)
    for byte in b"\x00\n1":
        s.mapping(to_length(b"V 9 1", 1000) + bytes([byte]), "refused 1")
        text = to_length(b"V 3 77", 998) + b" " + bytes([byte])
        s.mapping(text, says_mapping(text))
        s.mapping(b"V 3 77")
    s.dump("before", True)
    s.say("Lines and the other writes: 600 and 601 bytes, as before.")
    for length in (600, 601):
        taken = length == 600
        s.fresh()
        s.line(to_length(b"A B r", length), None if taken else 1)
        s.change(to_length(b"A B w -", length), "done" if taken else "refused 1")
        s.override(to_length(b"A", length), "done" if taken else "refused 1")
        s.revoke(b"A" * length, bad(255) if taken else "refused 1")
        s.mapping(to_length(b"A 9", length))
        s.to_record(to_length(b"A B r", length), fixed(b"A", b"B", b"r----") if taken else 1)
    s.say("1 comes before 2, 3, 9, 6 and 10, at the new limit; each of these alone in a write of 1,000 bytes.")
    full(s, 64, 0, 32)
    s.dump("full", True)
    for text, number in ((b"A/", 2), (b"A/ 9 185", 3), (b"New1 9 185", 9), (b"New1 9 184", 6), (b"L40 9 184", 10)):
        s.mapping(text, "refused %d" % number)
        s.mapping(to_length(text, 1000), "refused %d" % number)
        s.mapping(to_length(text, 1001), "refused 1")
    s.dump("full", True)
    s.mapping(to_length(b"L05 9 184", 1001), "refused 1")
    s.mapping(to_length(b"L05 9 184", 1000))
    s.bylabel(b"L05", mapped(9, category(184), 1))
    s.say("Lengths that are short in their low bits.")
    for length in (1024, 1280):
        s.call("mapping =" + "A" * length, "refused 1")
    s.store()


def categories_numbers():
    s = Script("categories_numbers", "02, Four: 9 for category 0 and above 184, of 1 to 3 digits; at each place among others. The level is as before.", True)
    s.fresh()
    s.mapping(b"V 9 2 100 184")
    s.dump("before", True)
    for field in (b"0", b"00", b"000", b"185", b"186", b"191", b"192", b"193", b"199", b"200", b"248", b"255", b"256", b"257", b"300", b"319", b"320", b"321", b"440", b"512", b"999", b"1000", b"0184", b"0001", b"0000",
                  b"1840", b"00184", b"18446744073709551800", b"+1", b"-1", b"1-", b"1,2", b"1.", b"0x1", b"1_", b"c1", b"\xb2"):
        for text in (field, field + b" 1", b"64 65 " + field + b" 128 129", field + b" " + field, b"184 " + field):
            s.mapping(b"V 9 " + text, "refused 9")
        s.mapping(b"New 9 " + field, "refused 9")
        if field in (b"0", b"185", b"999", b"0184"):
            s.mapping(b"V 9 " + listed(range(1, 185)) + b" " + field, "refused 9")
            s.mapping(to_length(b"V 9 " + field, 1000), "refused 9")
    s.dump("before", True)
    s.label(6, 13)
    for field, n in ((b"1", 1), (b"01", 1), (b"001", 1), (b"9", 9), (b"10", 10), (b"010", 10), (b"63", 63), (b"063", 63), (b"64", 64), (b"064", 64), (b"65", 65), (b"065", 65), (b"99", 99), (b"100", 100), (b"127", 127),
                     (b"128", 128), (b"129", 129), (b"179", 179), (b"180", 180), (b"183", 183), (b"184", 184)):
        s.mapping(b"V 9 " + field)
        s.bylabel(b"V", mapped(9, category(n), 1))
    s.say("Numbers of up to three digits: every fifth, and all about the limits.")
    for n in range(1000):
        if n % 5 == 0 or n < 12 or 180 <= n <= 260:
            s.mapping(b"V 9 %d" % n, "done" if 1 <= n <= 184 else "refused 9")
    s.say("A level is 0 to 255, whatever the categories; 184 is no limit of it. 250 is none in a write, by 02, Five.")
    for field, level in ((b"0", 0), (b"63", 63), (b"64", 64), (b"184", 184), (b"185", 185), (b"249", 249), (b"250", None), (b"251", 251), (b"255", 255), (b"256", None), (b"440", None), (b"999", None)):
        s.mapping(b"V " + field + b" 184", "refused 9" if level is None else "done")
        if level is not None:
            s.bylabel(b"V", mapped(level, category(184), 1))
            s.bylevel(level, category(184), "label 5")
    for level in (256, 257, 440, 1 << 32, HUGE):
        for set_ in (0, category(184), ALL, 1):
            s.bylevel(level, set_, "refused 9")
            s.run(level, set_, [(5, level, set_)], "refused 9")
    s.store()


def categories_unknown():
    s = Script("categories_unknown", "02, Four: the eight bits that are no categories. Stored: 0, under each call, at the first, a middle and the last mapping; past the count they do not matter.")
    full(s, 40, 20, 32)
    s.dump("sound")
    for k in (0, 15, 31):
        for bit in STRAYS:
            s.say("bit %d of the third word of mapping %d" % (bit, k))
            s.poke("words", 68 + k, bit)
            s.dump("mapping %d bit %d" % (k, bit))
            s.from_here("refused 0")
            for call in TABLE_CALLS if bit == 1 else [c for c in TABLE_CALLS if len(c) < 100]:
                s.call(call, None if under_damage(call) == "refused 0" else under_damage(call))
            s.from_here("any")
            s.list(0, 0, b"\xee" * 8)
            s.label(5, 0)
            s.run(9, category(184), [(3, 9, category(184) | bit), (4, 9, category(184))], "label 4")
            s.dump("mapping %d bit %d" % (k, bit))
        for word in (255, 257, HUGE, HUGE - 254, TOP + 1):
            s.poke("words", 68 + k, word)
            s.bylevel(9, category(1), "refused 0")
            s.mapping(b"_ 9", "refused 0")
            s.label(0, 0)
            s.piece(b"", "refused 0")
        s.poke("words", 68 + k, 0)
        s.dump("sound")
    s.say("A write that would replace the mapping with such a bit is refused all the same.")
    for k in (0, 31):
        s.poke("words", 68 + k, 64)
        s.mapping(name_of(k) + b" 9 1 63", "refused 0")
        s.poke("words", 68 + k, 0)
    s.dump("sound")
    s.say("All other bits are categories: of the first word, of the second, and the 56 of the third.")
    for k in (0, 15, 31):
        label = name_of(k)
        for set_, count in ((sum_of(range(57, 65)), 8), (sum_of(range(121, 129)), 8), (sum_of(range(177, 185)), 8), (sum_of(range(1, 65)), 64), (sum_of(range(65, 129)), 64), (sum_of(range(129, 185)), 56), (ALL, 184)):
            s.poke_set(k, set_)
            s.bylabel(label, mapped(9, set_, count))
            s.bylevel(9, set_, "label %d" % k)
        s.poke_set(k, category(1) | C63)
    for bit in STRAYS:
        for row in (4, 36):
            s.poke("words", row + 3, bit)
            s.label(5, b"L05")
            s.poke("words", row + 3, 0)
    s.poke_set(3, category(1) | C63)
    s.dump("sound")
    s.say("Past the count nothing matters: every bit in the places behind it. With one mapping more, it does.")
    for count in (0, 1, 2, 16, 31):
        s.poke("words", 2, count)
        for k in sorted({count, min(count + 1, 31), 31}):
            s.poke_set(k, EVERY_BIT)
        s.dump("count %d" % count)
        s.bylabel(name_of(count), "none")
        s.bylevel(9, ALL, "none")
        s.bylevel(9, category(1) | C63, "label 0" if count else "none")
        s.ask(b"L05", b"L06", b"r", "granted 6")
        s.label(39, b"L39")
        s.list(0, b"L05 L06 r\n")
        s.revoke(b"Unseen", "revoked 0")
        s.dump("count %d" % count)
        s.poke("words", 2, count + 1)
        s.bylabel(name_of(0), "refused 0")
        s.mapping(name_of(count) + b" 9", "refused 0")
        s.poke("words", 2, count)
        s.say("a new mapping sets all three words of its place")
        s.mapping(name_of(count) + b" 9 100")
        s.bylabel(name_of(count), mapped(9, category(100), 1))
        s.bylevel(9, category(100), "label %d" % count)
        for k in range(32):
            s.poke_set(k, category(1) | C63)
    s.poke("words", 2, 32)
    s.dump("sound")
    s.store()

    s = Script("categories_sought", "02, Four: the eight bits that are no categories. Sought: 9, and 0 before it; in a record of a run: no match.", True)
    s.fresh()
    sets = [0, category(64), category(128), category(184), ALL]
    labels_to(s, 15)
    for k, set_ in enumerate(sets):
        s.mapping(name_of(5 + k) + b" 9 " + listed(n for n in range(1, 185) if set_ & category(n)))
    for k, set_ in enumerate(sets):
        s.bylevel(9, set_, "label %d" % (5 + k))
        s.run(9, set_, [(8, 9, set_)], "label 8")
        for bit in STRAYS + [255, 3, 129]:
            s.bylevel(9, set_ | bit, "refused 9")
            s.bylevel(8, set_ | bit, "refused 9")
            s.run(9, set_ | bit, [], "refused 9")
            s.run(9, set_ | bit, [(8, 9, set_ | bit), (7, 9, set_)], "refused 9")
            s.run(9, set_, [(3, 9, set_ | bit)], "none")
            s.run(9, set_, [(3, 9, set_ | bit), (8, 9, set_)], "label 8")
            s.run(9, set_, [(8, 9, set_), (3, 9, set_ | bit)], "label 8")
    s.bylevel(9, EVERY_BIT, "refused 9")
    s.run(9, ALL, [(3, 9, EVERY_BIT), (4, 9, EVERY_BIT - 1)], "none")
    s.say("The same bits of the first and the second word are categories 57 to 64 and 121 to 128.")
    for bit in STRAYS:
        for shift in (64, 128):
            s.bylevel(7, bit << shift, "none")
            s.run(9, bit << shift, [(3, 9, bit), (6, 9, bit << shift)], "label 6")
            s.run(9, bit << shift, [(3, 9, bit << 192 - shift)], "none")
    s.say("0 comes before 9 in a look-up; a run never gets 0.")
    s.poke("words", 68, 1)
    for bit in STRAYS:
        s.bylevel(9, bit, "refused 0")
        s.bylevel(256, bit, "refused 0")
        s.run(9, bit, [], "refused 9")
        s.run(9, category(184), [(3, 9, category(184) | bit), (4, 9, category(184))], "label 4")
    s.poke("words", 68, 0)
    for bit in STRAYS:
        s.bylevel(9, bit, "refused 9")
        s.bylevel(256, bit, "refused 9")
    s.store()


def categories_near():
    s = Script("categories_near", "02, Four: equality over all three words: sets that differ in one bit, in the order of their words, or in one word alone.", True)
    bases = [sum_of((1, 65, 129)), sum_of(range(1, 185, 3))]
    for k, base in enumerate(bases):
        s.say("stored and sought: each other bit")
        s.call("fresh", "done")
        s.mapping(b"V 9 " + listed(n for n in range(1, 185) if base & category(n)))
        s.bylevel(9, base, "label 5")
        for n in range(1, 185):
            if k == 0 or n % 3 == 2:
                s.bylevel(9, base ^ category(n), "none")
            if n % 8 == k or n in (1, 63, 64, 65, 127, 128, 129, 183, 184):
                s.run(9, base, [(3, 9, base ^ category(n)), (6, 9, base)], "label 6")
    s.say("Three different words in each order, each a mapping of its own: each is found as itself.")
    orders = [(x, y, z) for x in (0, 1, 2) for y in (0, 1, 2) for z in (0, 1, 2) if len({x, y, z}) == 3]
    tops = [(1, 9), (2, 20), (3, 56)]
    s.call("fresh", "done")
    sets = []
    for k, order in enumerate(orders):
        members = [64 * word + n for word, which in enumerate(order) for n in tops[which]]
        sets.append(sum_of(members))
        s.mapping(b"P%d 9 " % k + listed(members))
    for k, set_ in enumerate(sets):
        s.bylabel(b"P%d" % k, mapped(9, set_, 6))
        s.bylevel(9, set_, "label %d" % (5 + k))
        s.run(9, set_, [(20 + i, 9, other) for i, other in enumerate(sets)], "label %d" % (20 + k))
        s.run(9, set_, [(20 + i, 9, other) for i, other in enumerate(sets) if i != k], "none")
    s.say("Two words alike and the third different, for each word; one word alone, at each place.")
    for word in range(3):
        s.call("fresh", "done")
        same = [64 * other + 5 for other in range(3) if other != word]
        for k, n in enumerate((1, 2, 55, 56)):
            s.mapping(b"Q%d 9 " % k + listed(same + [64 * word + n]))
        for k, n in enumerate((1, 2, 55, 56)):
            set_ = sum_of(same + [64 * word + n])
            s.bylevel(9, set_, "label %d" % (5 + k))
            s.bylabel(b"Q%d" % k, mapped(9, set_, 3))
            s.run(9, set_, [(40 + i, 9, sum_of(same + [64 * word + m])) for i, m in enumerate((56, 55, 2, 1))], "label %d" % (43 - k))
        s.bylevel(9, sum_of(same), "none")
        s.bylevel(9, sum_of(same + [64 * word + 3]), "none")
        s.bylevel(9, sum_of([64 * word + 1]), "none")
    for n in (1, 5, 55, 56):
        s.call("fresh", "done")
        for word in range(3):
            s.mapping(b"R%d 9 %d" % (word, 64 * word + n))
        for word in range(3):
            s.bylevel(9, category(64 * word + n), "label %d" % (5 + word))
            s.bylabel(b"R%d" % word, mapped(9, category(64 * word + n), 1))
        s.bylevel(9, sum_of((n, 64 + n)), "none")
        s.bylevel(9, sum_of((n, 64 + n, 128 + n)), "none")
        s.bylevel(9, 0, "none")
    s.say("Two labels alike in all words: the lower number, whichever was mapped first; alike but for one bit: each its own.")
    for members in ((184,), (65,), (1, 65, 129), (64, 128, 184), tuple(range(1, 185))):
        for n in (1, 64, 65, 128, 129, 184) if len(members) == 1 else (64, 65, 184):
            set_ = sum_of(members)
            other = sorted(set(members) ^ {n})
            s.call("fresh", "done")
            s.override(b"A B")
            s.mapping(b"B 9 " + listed(members))
            s.bylevel(9, set_, "label 6")
            s.mapping(b"A 9 " + listed(members))
            s.bylevel(9, set_, "label 5")
            s.run(9, set_, [(6, 9, set_), (5, 9, set_)], "label 5")
            s.mapping(b"A 9 " + listed(other))
            s.bylevel(9, set_, "label 6")
            s.bylevel(9, set_ ^ category(n), "label 5")
            s.run(9, set_, [(6, 9, set_), (5, 9, set_ ^ category(n))], "label 6")
    s.say("The same count and other members.")
    s.call("fresh", "done")
    some = [(1, 64), (1, 65), (64, 65), (2, 63), (65, 128), (66, 127), (128, 129), (129, 184), (130, 183), (1, 184), (64, 129), (63, 184)]
    for k, members in enumerate(some):
        s.mapping(b"S%02d 9 " % k + listed(members))
    for k, members in enumerate(some):
        s.bylevel(9, sum_of(members), "label %d" % (5 + k))
        s.bylabel(b"S%02d" % k, mapped(9, sum_of(members), 2))
        if k % 3 == 0:
            s.run(9, sum_of(members), [(30 - i, 9, sum_of(m)) for i, m in enumerate(some)], "label %d" % (30 - k))
    s.store()


def categories_words():
    s = Script("categories_words", "02, Four: where the words stand: the first of mapping k at 4 + k, the second at 36 + k, the third at 68 + k. Replaced mappings, neighbours, and 32 different sets.", True)
    s.say("A mapping that is replaced by one without the second or third word's bits: the old bits are gone.")
    s.call("fresh", "done")
    for first in ((1, 65, 129), (64, 128, 184), tuple(range(1, 185))):
        for then in ((), (1,), (65,), (129,), (1, 65), (1, 129), (65, 129), (2,), (66,), (184,), (64, 128)):
            if len(first) > 100 and len(then) > 1:
                continue
            s.mapping(b"V 9 " + listed(first))
            s.mapping(b"V 9 " + listed(then))
            s.bylabel(b"V", mapped(9, sum_of(then), len(then)))
            s.bylevel(9, sum_of(then), "label 5")
            s.bylevel(9, sum_of(first + then), "none")
            s.dump("then %s" % "_".join("%d" % n for n in then), True)
    s.say("The same where nothing was before: the words are the same.")
    for then in ((), (1,), (65,), (129,), (1, 65), (1, 129), (65, 129), (2,), (66,), (184,), (64, 128)):
        s.call("fresh", "done")
        s.mapping(b"V 9 " + listed(then))
        s.dump("then %s" % "_".join("%d" % n for n in then), True)
    s.say("32 mappings with different sets, written; and the same put there word by word.")
    members = [(1 + k, 65 + (k * 5) % 64, 129 + (k * 11) % 56) for k in range(32)]
    s.fresh()
    labels_to(s, 40)
    for k in range(32):
        s.mapping(name_of(k) + b" 9 " + listed(members[k]))
    s.dump("written", True)

    def each(more):
        for k in range(32):
            s.bylabel(name_of(k), mapped(9, sum_of(members[k]), 3))
            s.bylevel(9, sum_of(members[k]), "label %d" % k)
            if not more:
                continue
            s.bylevel(9, sum_of(members[k][:2] + members[(k + 1) % 32][2:]), "none")
            s.bylevel(9, sum_of(members[k][:1] + members[(k + 1) % 32][1:]), "none")
            s.bylevel(9, sum_of(members[(k + 1) % 32][:1] + members[k][1:]), "none")
    each(True)
    s.fresh()
    labels_to(s, 40)
    s.poke("words", 2, 32)
    s.poke("entries", 768, bytes(range(32)))
    s.poke("entries", 800, b"\x09" * 32)
    for row, word in ((4, 0), (36, 1), (68, 2)):
        for k in range(32):
            s.poke("words", row + k, 1 << 63 - (members[k][word] - 1) % 64)
    s.dump("written", True)
    each(False)
    s.say("One mapping is written anew, at each place: no other changes.")
    for k in range(32):
        s.mapping(name_of(k) + b" 9")
        for other in sorted({max(k - 1, 0), min(k + 1, 31)} - {k}):
            s.bylabel(name_of(other), mapped(9, sum_of(members[other]), 3))
        s.bylabel(name_of(k), mapped(9, 0, 0))
        s.bylevel(9, 0, "label %d" % k)
        s.mapping(name_of(k) + b" 9 " + listed(members[k]))
        if k % 8 == 7:
            s.dump("written", True)
    s.say("One word alone is poked, at each place: that mapping alone has it.")
    for k in (0, 1, 2, 15, 30, 31):
        for row, n in ((4, 64), (36, 128), (68, 184)):
            old = 1 << 63 - (members[k][(row - 4) // 32] - 1) % 64
            word = 256 if row == 68 else 1
            s.poke("words", row + k, word)
            rest = [c for c in members[k] if (c - 1) // 64 != (row - 4) // 32]
            s.bylabel(name_of(k), mapped(9, sum_of(rest + [n]), 3))
            s.bylevel(9, sum_of(rest + [n]), "label %d" % k)
            for other in sorted({0, 31, max(k - 1, 0), min(k + 1, 31)} - {k}):
                s.bylabel(name_of(other), mapped(9, sum_of(members[other]), 3))
            s.poke("words", row + k, old)
    s.dump("written", True)
    s.say("Mappings come one by one: a count under 32 reads no word of the next.")
    for count in range(33):
        s.poke("words", 2, count)
        if count:
            s.bylabel(name_of(count - 1), mapped(9, sum_of(members[count - 1]), 3))
        if count < 32:
            s.bylevel(9, sum_of(members[count]), "none")
    s.say("The counts and the sets have nothing to do with each other: every word of the sets at its most.")
    s.fresh()
    labels_to(s, 40)
    for k in range(32):
        s.mapping(name_of(k) + b" 9 " + listed(range(1, 185)) if k in (0, 31) else name_of(k) + b" 9 64 128 184")
    s.bylevel(9, ALL, "label 0")
    s.bylevel(9, sum_of((64, 128, 184)), "label 1")
    s.label(39, b"L39")
    s.label(40, 13)
    s.list(0, 13)
    s.ask(b"L05", b"L06", b"r", "override 7", 1)
    s.mapping(b"L32 9 184", "refused 10")
    s.say("36 words are no full size any more, and no other number of them is but 100.")
    for size in (4, 35, 36, 37, 67, 68, 96, 99, 101, 128, 200):
        s.call("fresh", "done")
        s.mapping(b"V 9 184")
        s.call("resize words %d" % size, "done")
        s.bylabel(b"V", "refused 0")
        s.bylevel(9, category(184), "refused 0")
        s.mapping(b"V 9 1", "refused 0")
        s.call("freshen", "refused 0")
    s.store()


def categories_places():
    s = Script("categories_places", "02, Three and Four: the place beside 3 in mapping writes of over 600 bytes, up to 1,000.", True)
    s.fresh()
    s.dump("fresh", True)
    for length in (601, 1000):
        wide = b" " * length
        for text, where in ((b"A/ 9", 1), (b"-A 9", 0))[:2 if length == 601 else 1]:
            n = length - len(text)
            s.mapping(text + wide[:n], bad(where))
            s.mapping(wide[:n] + text, bad(n + where))
            s.mapping(wide[:n // 2] + text + wide[:n - n // 2], bad(n // 2 + where))
        s.mapping(b"V/ 9" + b" 184" * ((length - 4) // 4), bad(1))
        s.mapping(spoilt(length - 2) + b" 9", bad(255))
        s.mapping(spoilt(length - 2, (254, b"/")) + b" 9", bad(254))
        s.mapping(spoilt(length - 2, (length - 3, b"/")) + b" 9", bad(255))
        s.mapping(wide[:length - 258] + spoilt(256) + b" 9", bad(length - 3))
        s.mapping(wide[:length - 257] + spoilt(255, (254, b"/")) + b" 9", bad(length - 3))
        s.mapping(wide[:length - 3] + b"/ 9", bad(length - 3))
    s.mapping(to_length(b"A/ 9", 1001), "refused 1")
    s.mapping(b" " * 997 + b"A/ 9", "refused 1")
    s.mapping(spoilt(999) + b" 9", "refused 1")
    s.say("3 before 9, and 2 before 3, at these lengths; 9 has no place.")
    for text, answer in ((b"A/ 9 185", bad(1)), (b" -A 256", bad(1)), (b"A/", "refused 2"), (b"A 9 /", "refused 9"), (spoilt(256) + b" 9 185", bad(255))):
        s.mapping(to_length(text, 1000), answer)
    s.mapping(spoilt(1000), "refused 2")
    s.say("A newline, a slash and a tilde in a label of 600 bytes, at the places 0, 254 and 255.")
    for byte in b"\n/~":
        for at in (0, 254, 255):
            text = spoilt(600, (at, bytes([byte]))) + b" 9"
            s.mapping(text, "refused 3")
    s.dump("fresh", True)
    s.store()


def categories_alone():
    s = Script("categories_alone", "02, Four: each category alone beside the empty set, in a run of one record, each way; and found where both have it.", True)
    for n in range(1, 185):
        s.run(9, category(n), [(7, 9, 0)], "none")
        s.run(9, 0, [(7, 9, category(n))], "none")
    for n in range(1, 185):
        s.run(9, category(n), [(7, 9, category(n))], "label 7")
    s.run(9, 0, [(7, 9, 0)], "label 7")
    s.store()


def categories_counts():
    s = Script("categories_counts", "02, Four: sets of every size from 0 to 184, two of each size but the empty and the full one, and their counts. Each category twice in a write counts once.", True)
    for order in (sorted(range(1, 185), key=lambda n: (-n % 64 // 4, n * 7 % 13)), range(184, 0, -1)):
        s.call("fresh", "done")
        s.mapping(b"A 9")
        s.bylabel(b"A", mapped(9, 0, 0))
        for size in range(1, 185):
            set_, word = sum_of(order[:size]), (order[size - 1] - 1) // 64
            s.poke("words", (4, 36, 68)[word], words_of(set_)[word])
            s.bylabel(b"A", mapped(9, set_, size))
    s.say("Each category twice in one write.")
    for n in range(1, 185):
        s.mapping(b"A 9 %d %d" % (n, n))
        s.bylabel(b"A", mapped(9, category(n), 1))
    s.store()


def laid(s):
    """32 mappings, of the labels 0 to 31, at level 9, with empty sets."""
    s.fresh()
    labels_to(s, 32)
    s.poke("words", 2, 32)
    s.poke("entries", 768, bytes(range(32)))
    s.poke("entries", 800, b"\x09" * 32)


def categories_full():
    s = Script("categories_full", "02, Four: by level and set in a full table: at each place a set that is not the sought one by one category of the second or the third word, and the same set.", True)
    laid(s)
    base = sum_of((64, 128, 184))
    s.say("All 32 are one set: none for one that is another by one category.")
    for k in range(32):
        s.poke_set(k, base)
    s.bylevel(9, base, "label 0")
    for n in [*range(1, 65, 9), *range(65, 185)]:
        s.bylevel(9, base ^ category(n), "none")
    for row, first, many in ((36, 65, 63), (68, 129, 55)):
        s.say("All 32 are other sets by one category, at %d on; then each in turn is the sought one." % row)
        word = (row - 4) // 32
        others = [base ^ category(first + (k * 5 + 3) % many) for k in range(32)]
        for k in range(32):
            s.poke("words", row + k, words_of(others[k])[word])
        s.bylevel(9, base, "none")
        for k in range(32):
            s.poke("words", row + k, words_of(base)[word])
            s.bylevel(9, base, "label %d" % k)
            s.poke("words", row + k, words_of(others[k])[word])
        s.bylevel(9, base, "none")
        for k in range(32):
            s.poke("words", row + k, words_of(base)[word])
    s.say("The sought set at levels of each kind, one place each; all others have it at the level beside.")
    for place, level in ((0, 0), (3, 1), (7, 9), (8, 100), (15, 127), (16, 128), (23, 200), (24, 250), (30, 254), (31, 255)):
        s.poke("entries", 800, bytes([level ^ 1]) * 32)
        s.bylevel(level, base, "none")
        s.poke("entries", 800 + place, bytes([level]))
        s.bylevel(level ^ 1, base, "label %d" % (place == 0))
        for row, change in ((36, category(100)), (68, category(150))):
            word = (row - 4) // 32
            s.poke("words", row + place, words_of(base ^ change)[word])
            s.bylevel(level, base, "none")
            s.bylevel(level, base ^ change, "label %d" % place)
            s.poke("words", row + place, words_of(base)[word])
            s.bylevel(level, base, "label %d" % place)
    s.say("Big sets that are not the sought one by one member, at the first, a middle and the last place.")
    s.poke("entries", 800, b"\x09" * 32)
    for at, size in enumerate((20, 40, 63, 64, 65, 100, 128, 129, 150)):
        members = [(k * 75 + at * 7) % 184 + 1 for k in range(size)]
        set_, place = sum_of(members), (0, 15, 31)[at % 3]
        assert len(set(members)) == size
        s.poke_set(place, set_)
        s.bylevel(9, set_, "label %d" % place)
        s.bylabel(name_of(place), mapped(9, set_, size))
        for n in (1 + 7 * at, 65 + 7 * at, 121 + at, 129 + 5 * at, 176 + at):
            s.bylevel(9, set_ ^ category(n), "none")
        s.run(9, set_ ^ category((66, 130)[at % 2] + 6 * at), [(3, 9, set_)], "none")
        s.poke_set(place, base)
    s.store()


def categories_strays():
    s = Script("categories_strays", "02, Four: every value of the eight bits that are no categories, sought, in a record and stored; one such bit at every place of a table of every size.", True)
    s.fresh()
    s.mapping(b"A 9")
    for value in range(1, 256):
        s.bylevel(9, value | 256 * (value % 2), "refused 9")
        s.run(9, value | 256 * (value % 2), [(7, 9, value)], "refused 9")
    s.say("in a record")
    for value in range(1, 256):
        s.run(9, category(184) if value % 2 else 0, [(7, 9, (category(184) if value % 2 else 0) | value)], "none")
    s.say("stored")
    for value in range(1, 256):
        s.poke("words", 68, value if value % 3 else value | 256)
        if value % 2:
            s.bylabel(b"A", "refused 0")
        else:
            s.bylevel(9, 0, "refused 0")
    s.say("Tables of 1 to 32 mappings: a bit at the last place that is stored, and at the next.")
    laid(s)
    s.dump("sound", True)
    for count in range(1, 33):
        bit = STRAYS[count % 8]
        s.poke("words", 2, count)
        s.poke("words", 67 + count, bit)
        s.bylevel(9, 0, "refused 0")
        s.bylabel(b"_", "refused 0")
        s.poke("words", 67 + count, 0)
        if count < 32:
            s.poke("words", 68 + count, bit)
            s.bylevel(9, 0, "label 0")
            s.bylabel(name_of(count - 1), mapped(9, 0, 0))
            s.poke("words", 68 + count, 0)
    s.dump("sound", True)
    s.say("Each of the eight bits at each of 32 places, under a call of each kind in turn.")
    calls = ["bylevel 9 0:0:0", "bylabel =_", "question =_ =_ =r 0", "piece -", "mapping " + h(b"_ 9"), "end", "change =_", "revoke =_", "override =_"]
    for k in range(32):
        for at, bit in enumerate(STRAYS):
            s.poke("words", 68 + k, bit)
            s.call(calls[(k + at) % len(calls)], "refused 0")
        s.poke("words", 68 + k, 0)
    s.dump("sound", True)
    s.store()


def categories_long():
    s = Script("categories_long", "02, Four: more lengths of a mapping write about 600 and over 1,000; blanks alone; bytes over 127 in a write of 1,000 bytes.", True)
    s.fresh()
    s.mapping(b"V 7 64")
    s.dump("before", True)
    for length in (1002, 1003, 1100):
        s.mapping(to_length(b"V 9 184", length), "refused 1")
        s.bylabel(b"V", mapped(7, category(64), 1))
    for length in (1024, 2000, 4096):
        s.call("mapping =" + "A" * length, "refused 1")
    s.mapping(b" \t" * 500, "refused 2")
    s.mapping(b" \t" * 500 + b" ", "refused 1")
    s.say("A byte of 128 and one of 255: in the label, in the level, in a category.")
    for byte in (b"\x80", b"\xff"):
        s.mapping(to_length(b"V" + byte + b" 9 1", 1000), bad(1))
        s.mapping(to_length(b"V 9" + byte + b" 1", 1000), "refused 9")
        s.mapping(to_length(b"V 9 1" + byte, 1000), "refused 9")
    s.dump("before", True)
    for at, length in enumerate((603, 700, 800, 900, 998)):
        n = 120 + at
        s.mapping(b"V %d" % at + b" " * (length - 6) + b"%d" % n)
        s.bylabel(b"V", mapped(at, category(n), 1))
    s.say("A label of 255 bytes.")
    long = spoilt(255)
    s.mapping(long + b" 9" + b" " * 740 + b"184")
    s.bylabel(long, mapped(9, category(184), 1))
    s.mapping(long + b" 8" + b" " * 741 + b"183", "refused 1")
    s.bylabel(long, mapped(9, category(184), 1))
    s.bylevel(8, category(183), "none")
    s.store()


def categories_kept():
    s = Script("categories_kept", "02, Four: what is no mapping write, and a mapping write that is refused, changes no set: looked up and dumped after each call, accepted or refused.", True)
    members = [(64 - k, 128 - (k * 5) % 64, 184 - (k * 11) % 56) for k in range(32)]
    s.fresh()
    labels_to(s, 64)
    for text in (b"L05 L06 r", b"L07 L08 -", b"L63 L05 r"):
        s.line(text, None)
    s.override(b"L05 L63")
    for k in range(31):
        s.mapping(name_of(k) + b" 9 " + listed(members[k]))
    s.mapping(b"L63 9 " + listed(members[31]))
    s.dump("full", True)

    def kept(looked=True):
        s.dump("full", True)
        if not looked:
            return
        for label, number, k in ((b"_", 0, 0), (b"L63", 63, 31)):
            s.bylabel(label, mapped(9, sum_of(members[k]), 3))
            s.bylevel(9, sum_of(members[k]), "label %d" % number)
    kept()
    s.say("Mapping writes that are refused: 1, 2, 3, 9, 6 and 10, of the first mapping's label, of the last one's and of others.")
    for text, number in ((to_length(b"_ 8 2", 1001), 1), (b"_", 2), (b"L63", 2), (b"", 2), (b"_/ 8 2", 3), (b"-L63 8 2", 3), (b"_ 8 2 66 130 185", 9), (b"L63 8 2 66 130 0", 9), (b"_ 256 2", 9), (b"New 8 2 66 130", 6),
                         (b"L40 8 2 66 130", 10)):
        s.mapping(text, "refused %d" % number)
        kept()
    s.say("The same mappings once more; and lines, changes, revokes and override lists that change nothing.")
    s.mapping(b"_ 9 " + listed(members[0]))
    kept(False)
    s.mapping(b"L63 9 " + listed(members[31]))
    kept()
    s.line(b"L05 L06 r", None)
    kept()
    s.piece(b"L05 L06 ")
    s.dump("full", True)
    s.piece(b"R")
    s.end("report 1 1 0 0 0 0")
    kept()
    s.change(b"L05 L06 r w")
    kept()
    s.revoke(b"L07", "revoked 1")
    kept(False)
    s.revoke(b"Unseen", "revoked 0")
    kept()
    s.override(b"L05 L63")
    kept()
    s.say("Refused: lines, changes, revokes, override lists.")
    for text, number in ((b"L05 L06", 2), (b"L05/ L06 r", 3), (b"L05 L06 q", 4), (b"L05 L05 r", 5), (b"New L05 r", 6)):
        s.line(text, number)
        kept(False)
    for text, number in ((b"L05 L06 r", 2), (b"-L05 L06 r -", 3), (b"L05 L06 b -", 4), (b"L05 L05 r -", 5), (b"New L05 r -", 6)):
        s.change(text, "refused %d" % number)
        kept(False)
    s.revoke(b"A" * 601, "refused 1")
    s.revoke(b"L05/", "refused 3")
    kept()
    for text, number in ((b"", 2), (b"L05 L/", 3), (b"L05 New", 6)):
        s.override(text, "refused %d" % number)
        kept(False)
    kept()
    s.say("Under damage: refused 0.")
    third = words_of(sum_of(members[0]))[2]
    s.poke("words", 68, third | 1)
    for call in ("piece " + h(b"L05 L06 w\n"), "end", "change " + h(b"L05 L06 w -"), "revoke =L05", "override " + h(b"L06"), "mapping " + h(b"_ 9 1"), "mapping " + h(b"L63 9 1")):
        s.call(call, "refused 0")
    s.poke("words", 68, third)
    kept()
    s.say("A change, a revoke and a shorter override list that do something, and back.")
    s.change(b"L05 L06 w r")
    s.change(b"L05 L06 r w")
    kept()
    s.revoke(b"L05", "revoked 1")
    s.line(b"L05 L06 r", None)
    kept()
    s.override(b"L63")
    s.override(b"L05 L63")
    kept()
    s.say("The 64th label, the third rule and the last mapping enter anew, by each write that can: the state is the same.")
    for call, sets in (("piece " + h(b"L63 L05 r\n"), {0, 1}), ("change " + h(b"L63 L05 r -"), {0, 1}), ("override " + h(b"L05 L63"), {0, 3}), ("mapping " + h(b"L63 9 " + listed(members[31])), {0, 2})):
        for at, low in enumerate((63, 2, 31, 1)):
            s.poke("words", at, low)
        s.call(call, "done")
        for at, high in enumerate((64, 3, 32, 2)):
            if at not in sets:
                s.poke("words", at, high)
        kept()
    s.end("report 1 1 0 0 0 0")
    s.say("A fresh table in this memory: with the old counts all is as it was, refused or not.")
    s.call("freshen", "done")
    s.bylevel(9, sum_of(members[0]), "none")
    s.bylabel(b"_", "none")
    for at, high in enumerate((64, 3, 32, 2)):
        s.poke("words", at, high)
    kept()
    s.call("resize labels 16383", "done")
    s.call("freshen", "refused 0")
    s.call("resize labels 16384", "done")
    kept()
    s.store()


def categories_far():
    s = Script("categories_far", "02, Three and Four: bad bytes at places of about 600, about 744 and up to 997 in a mapping write; tabs before the label.", True)
    s.fresh()
    s.dump("fresh", True)
    for where in (599, 600, 601, 743, 744, 745, 800, 996, 997):
        if where in (599, 601, 744, 800, 997):
            s.mapping(b"\t" * (where - 1) + b"A/ 9", bad(where))
            if where != 800:
                s.mapping((b" \t" * 500)[:where - 1] + b"A\n 9", bad(where))
        else:
            s.mapping(b"\t" * where + b"- 9", bad(where))
            s.mapping(b" " * (where - 2) + b"Ab\xc8 9", bad(where))
    s.dump("fresh", True)
    s.store()


def categories_runs():
    s = Script("categories_runs", "02, Four: runs of 0 to 24 records of sets that are not the sought one by the second or the third word alone; label numbers of 64 bits.", True)
    set_ = sum_of((64, 128, 184))
    near = [set_ ^ category(127), set_ ^ category(183), set_ ^ category(128), set_ ^ category(184)]
    numbers = [0, 1 << 32, 1 << 63, HUGE]
    s.run(9, set_, [], "none")
    for count in range(1, 25):
        others = [(k, 9, near[(k + count) % 4]) for k in range(1, count)]
        number = numbers[count % 4]
        s.run(9, set_, others, "none")
        s.run(9, set_, others + [(number, 9, set_)], "label %d" % number)
        s.run(9, set_, [(number, 9, set_)] + others, "label %d" % number)
        s.run(9, set_, [(100 - k, 9, set_) for k in range(count)], "label %d" % (101 - count))
    s.say("Each label number alone, before and behind the others.")
    for number in numbers:
        s.run(9, set_, [(number, 9, set_)], "label %d" % number)
        s.run(9, set_, [(number, 9, near[0])], "none")
        s.run(9, set_, [(number, 9, near[1])], "none")
        for other in numbers:
            s.run(9, set_, [(number, 9, set_), (other, 9, set_)], "label %d" % min(number, other))
            s.run(9, set_, [(number, 9, set_), (other, 9, near[0])], "label %d" % number)
            s.run(9, set_, [(number, 9, near[1]), (other, 9, set_)], "label %d" % other)
    s.store()


def categories_replaced():
    s = Script("categories_replaced", "02, Four: mappings at the first, a middle and the last place replaced by sets with fewer words; labels of high numbers; more numbers that are categories or not.", True)
    s.fresh()
    labels_to(s, 64)
    order = list(range(6, 32)) + [33, 34]
    for place, number in ((0, 32), (7, 5), (15, 40), (31, 63)):
        order.insert(place, number)
    assert len(set(order)) == 32 and [order[k] for k in (0, 7, 15, 31)] == [32, 5, 40, 63]
    for number in order:
        s.mapping(name_of(number) + b" 9 %d" % (number + 1))
    s.dump("before", True)
    for place in (0, 7, 15, 31):
        number, name = order[place], name_of(order[place])
        first = (64, 128, 184)
        for then in ((), (100,), (150,), (64,), (128,), (184,), (64, 128), (128, 184), (64, 184))[:4 if place == 7 else 9]:
            s.mapping(name + b" 9 " + listed(first))
            s.bylevel(9, sum_of(first), "label %d" % number)
            s.mapping(name + b" 9 " + listed(then))
            s.bylabel(name, mapped(9, sum_of(then), len(then)))
            s.bylevel(9, sum_of(then), "label %d" % number)
            s.bylevel(9, sum_of(first), "none")
        s.mapping(name + b" 9 %d" % (number + 1))
        s.dump("before", True)
    s.say("Numbers with zeros before them, and numbers that are categories in their low bits alone.")
    s.mapping(b"L63 9 9")
    for field, n in ((b"09", 9), (b"009", 9), (b"0184", None), (b"441", None), (b"448", None), (b"255", None), (b"256", None)):
        s.mapping(b"L32 9 8")
        s.mapping(b"L32 7 " + field, "done" if n else "refused 9")
        s.bylabel(b"L32", mapped(7, category(n), 1) if n else mapped(9, category(8), 1))
        s.mapping(b"L32 7 1 " + field + b" 184", "done" if n else "refused 9")
        s.bylabel(b"L32", mapped(7, category(1) | category(n) | category(184), 3) if n else mapped(9, category(8), 1))
    s.store()


def categories_deep():
    s = Script("categories_deep", "02, Four: runs of up to 604 records: at each of some places past 23, counted from 0, a record that is nearly the sought one, and the sought one.", True)
    set_ = sum_of((64, 128, 184))
    near = [("a bit that is no category", set_ | 1), ("another third word", set_ ^ category(184)), ("another second word", set_ ^ category(128)), ("another first word", set_ ^ category(64))]
    for where in (24, 25, 31, 32, 33, 63, 64, 65, 127, 128, 255, 256, 257, 600):
        s.say("The last record of %d has %s: none. It is the sought one: found." % (where + 1, ", or ".join(kind for kind, _ in near)))
        before = [(1, 0, 0)] * where
        for _, record in near:
            s.run(9, set_, before + [(7, 9, record)], "none")
        s.run(9, set_, before + [(7, 9, set_)], "label 7")
    s.say("604 records, each of them nearly the sought one in one of these ways in turn, so that over four runs each place has each of them: none.")
    runs = [[(k, 9, near[(k + turn) % 4][1]) for k in range(604)] for turn in range(4)]
    for run in runs:
        s.run(9, set_, run, "none")
    s.say("The same with the sought one among them, at two places: the lower number, though it stands behind.")
    s.run(9, set_, runs[0][:100] + [(9000, 9, set_)] + runs[0][101:600] + [(8000, 9, set_)] + runs[0][601:], "label 8000")
    s.store()


def categories_lent():
    s = Script("categories_lent", "02, Four: a bit that is no category, stored at each of the 32 places: 0 from every call that is lent the tables, listing and label by number too.", True)
    laid(s)
    s.line(b"L05 L06 r", None)
    s.dump("sound", True)
    for k in range(32):
        for bit in STRAYS if k == 5 else [STRAYS[k % 8]]:
            s.say("bit %d of the third word of mapping %d, of 32" % (bit, k))
            s.poke("words", 68 + k, bit)
            s.dump("mapping %d bit %d" % (k, bit), True)
            for call in TABLE_CALLS:
                if len(call) < 100:
                    s.call(call, under_damage(call))
            for number, buffer in ((0, s.buffer), (0, b""), (1, s.buffer)):
                s.list(number, 0, buffer)
            for number in (0, 5, 31, 32, 999):
                s.label(number, 0)
            s.dump("mapping %d bit %d" % (k, bit), True)
        s.say("the last of %d mappings; and past the last of %d, where it does not matter" % (k + 1, k))
        for count in (k + 1, k):
            s.poke("words", 2, count)
            s.list(0, 0 if count > k else b"L05 L06 r\n")
            s.label(5, 0 if count > k else b"L05")
            s.label(32, 0 if count > k else 13)
            s.ask(b"L05", b"L06", b"r", "refused 0" if count > k else "granted 6")
        s.poke("words", 2, 32)
        s.poke("words", 68 + k, 0)
    s.dump("sound", True)
    s.store()


def categories_damaged():
    s = Script("categories_damaged", "01, refusal 0, and 02, Four: a damaged state and a mapping write of over 600 bytes, or over 1,000: always 0, whatever else the write deserves.", True)
    kinds = [("words", 0, 65), ("words", 1, 257), ("words", 2, 33), ("words", 3, 9), ("words", 0, 8), ("entries", 0, b"\x09"), ("entries", 257, b"\xff"), ("entries", 514, b"\x40"),
             ("entries", 769, b"\x09"), ("entries", 833, b"\x40"), ("words", 68, 1), ("words", 69, HUGE), ("labels", None, 16383), ("entries", None, 841), ("words", None, 36), ("words", None, 99)]
    for number in damaged_by(s, kinds):
        s.mapping(to_length(b"A 9 184", 601), "refused 0")
        s.call("mapping =" + "A" * 601, "refused 0")
        s.mapping(b"\t" * 990 + b"A 9 65 184", "refused 0")
        s.call("mapping =" + "A" * 1001, "refused 0")
        s.dump("kind %d" % number)
    s.say("One bit that is no category, and writes that deserve 1, 2, 3, 9 or nothing, from 600 bytes to 1,002.")
    small_state(s)
    s.poke("words", 69, 128)
    s.dump("lengths")
    for length, text in ((600, b"D 9 184"), (602, b"A/ 9"), (700, b"A 9 185"), (800, b"New 9 64"), (900, b"D 256"), (999, b"D 9 128"), (1000, b"D 9 129"), (1001, b"D 9 129"), (1002, b"A/")):
        s.mapping(to_length(text, length), "refused 0")
    s.dump("lengths")
    s.say("Without the bit each gets what it deserves.")
    s.poke("words", 69, 0)
    for length, text, answer in ((602, b"A/ 9", bad(1)), (700, b"A 9 185", "refused 9"), (1001, b"D 9 129", "refused 1"), (1000, b"D 9 129", "done")):
        s.mapping(to_length(text, length), answer)
    s.bylabel(b"D", mapped(9, category(129), 1))
    s.store()


def categories_empty():
    s = Script("categories_empty", "02, Four: sought in a table without mappings, and in a run without records: none; 9 for a bit that is no category and for a level over 255.", True)
    sets = [0, category(1), category(64), category(65), category(128), category(129), category(184), ALL]
    s.say("A fresh table, and one with labels and rules but no mappings; the run has no records.")
    for more in (False, True):
        s.fresh()
        if more:
            labels_to(s, 25)
            rules_to(s, 3)
        s.dump("%d" % more, True)
        for level in (0, 1, 9, 250, 255):
            for set_ in sets:
                s.bylevel(level, set_, "none")
                s.run(level, set_, [], "none")
        for at, bit in enumerate(STRAYS + [255]):
            for level in (0, 9, 255, 256):
                for set_ in (0, sets[1 + at % 6], ALL):
                    s.bylevel(level, set_ | bit, "refused 9")
                    s.run(level, set_ | bit, [], "refused 9")
        for level in (256, 257, 511, 1 << 32, 1 << 63, HUGE):
            for set_ in (0, category(184), ALL):
                s.bylevel(level, set_, "refused 9")
                s.run(level, set_, [], "refused 9")
        s.dump("%d" % more, True)
    s.say("The first place past the count holds just what is sought: level 0 and the empty set, level 255 and all, level 9 and such a bit.")
    for level, set_, answer in ((0, 0, "none"), (255, ALL, "none"), (9, 1, "refused 9"), (0, 128, "refused 9"), (255, EVERY_BIT, "refused 9")):
        s.poke("entries", 800, bytes([level]))
        s.poke_set(0, set_)
        s.bylevel(level, set_, answer)
    s.say("0 comes before 9.")
    s.poke("words", 3, 9)
    s.bylevel(9, 0, "refused 0")
    s.bylevel(9, 1, "refused 0")
    s.bylevel(256, 0, "refused 0")
    s.say("One record, of label 0, level 0 and the empty set; and the same at 255.")
    for level in (0, 255):
        s.run(level, 0, [(0, level, 0)], "label 0")
        s.run(255 - level, 0, [(0, level, 0)], "none")
        s.run(level, 0, [(0, level, 1)], "none")
        s.run(level, category(184), [(0, level, 0)], "none")
    s.store()


def categories_unused():
    s = Script("categories_unused", "02, Four: a new mapping goes to a place whose three words held other bits, any: all three are written, and those of the next places stay.", True)
    laid(s)
    labels_to(s, 40, 32)
    for k in range(32):
        s.poke_set(k, sum_of((2, 66, 130)))
    for count in (31, 12, 5, 0):
        s.say("The mapping after %d, beside a place that held zeros; the places behind it have every bit." % count)
        for k in range(count + 1, 32):
            if count == 12 or k <= 12:
                s.poke_set(k, EVERY_BIT)
        for members in ((), (1,), (64,), (65, 128), (129,), (184,), (64, 184)):
            name = "after %d %s" % (count, "_".join("%d" % n for n in members))
            for held in (0, EVERY_BIT, ALL ^ sum_of(members)):
                s.poke("words", 2, count)
                s.poke_set(count, held)
                s.poke("entries", 768 + count, b"\xff" if held else b"\0")
                s.poke("entries", 800 + count, b"\x4d" if held else b"\0")
                s.mapping(b"L39 9 " + listed(members))
                s.dump(name, True)
                s.bylabel(b"L39", mapped(9, sum_of(members), len(members)))
                s.bylevel(9, sum_of(members), "label 39")
                s.bylevel(9, ALL ^ sum_of(members), "none")
    s.store()


def categories_refused():
    s = Script("categories_refused", "02, Four: a mapping write that is refused, with each of its numbers, leaves every word: also those of unused places, which hold other bits.", True)
    laid(s)
    labels_to(s, 64, 32)
    for k in range(32):
        s.poke_set(k, sum_of((64 - k, 128 - k * 5 % 64, 184 - k * 11 % 56)))
    writes = [(b"L40 8 2 66 130" + b" " * 987, 1), (b"A" * 1001, 1), (b"L40", 2), (b"", 2), (b"L40/ 8 2 66 130", 3), (b"-L40 8 2 66 130", 3), (b"L40 8 2 66 130 185", 9),
              (b"L40 8 2 66 130 0", 9), (b"L40 256 2 66 130", 9), (b"New 8 2 66 130 185", 9), (b"New 8 2 66 130", 6), (b"New 8", 6)]
    for count in (32, 31, 16, 5, 1, 0):
        s.say("%d mappings, every bit in the words behind them: 1, 2, 3, 9 and 6%s" % (count, "" if count < 32 else ", and 10"))
        s.poke("words", 2, count)
        for k in range(count, 32):
            if k == count or count == 16 or k < 16:
                s.poke_set(k, EVERY_BIT)
        s.dump("count %d" % count, True)
        for text, number in writes + ([] if count < 32 else [(b"L40 8 2 66 130", 10), (b"L40 8", 10)]):
            s.call("mapping " + (w(text) if len(text) > 600 else h(text)), "refused %d" % number)
            s.dump("count %d" % count, True)
        if count:
            s.mapping(b"_ 8 2 66 130 185", "refused 9")
            s.dump("count %d" % count, True)
        s.say("and damaged: 0")
        damages = [("words", 0, 65, 64), ("words", 1, 257, 0), ("words", 3, 9, 0)]
        if count:
            damages += [("entries", 768, b"\x40", b"\0"), ("words", 68, words_of(category(184))[2] | 1, words_of(category(184))[2])]
        for at, (part, where, value, old) in enumerate(damages):
            s.poke(part, where, value)
            s.dump("count %d damage %d" % (count, at), True)
            for text in (b"L40 8 2 66 130", b"_ 8", b"L40 8 185"):
                s.mapping(text, "refused 0")
                s.dump("count %d damage %d" % (count, at), True)
            s.poke(part, where, old)
        s.dump("count %d" % count, True)
    s.store()


def categories_orders():
    s = Script("categories_orders", "02, Four: the words of a stored set, or of a record's, in another order are another set: sought where it is not, none.", True)
    one, two, three = TOP + 256, TOP // 2 + 512, 3 << 40
    for words in ((one, two, three), (one, two, 0), (one, one, two), (one, one, 0), (one, 0, 0), (256, 512, 1024), (HUGE - 255, 0, 0)):
        orders = sorted({tuple(words[k] for k in order) for order in ((0, 1, 2), (0, 2, 1), (1, 0, 2), (1, 2, 0), (2, 0, 1), (2, 1, 0))})
        s.say("The words %d, %d and %d in %d orders: one of them is stored, and each is sought." % (*words, len(orders)))
        for stored in orders:
            s.call("fresh", "done")
            s.mapping(b"V 9")
            for row, word in zip((4, 36, 68), stored):
                s.poke("words", row, word)
            for sought in orders:
                s.call("bylevel 9 %d:%d:%d" % sought, "label 5" if sought == stored else "none")
                s.call("run 9 %d:%d:%d 5,9,%d:%d:%d" % (sought + stored), "label 5" if sought == stored else "none")
        for sought in orders:
            others = " ".join("%d,9,%d:%d:%d" % (k, *order) for k, order in enumerate(orders) if order != sought)
            s.call("run 9 %d:%d:%d %s" % (*sought, others), "none")
    s.say("In a full table, all of one order but for the last: at levels 0 and 255.")
    orders = [(one, two, three), (one, three, two), (two, one, three), (two, three, one), (three, one, two), (three, two, one)]
    for turn, (most, last) in enumerate(zip(orders, orders[1:] + orders[:1])):
        laid(s)
        level = 255 * (turn % 2)
        s.poke("entries", 800, bytes([level]) * 32)
        for k in range(32):
            for row, word in zip((4, 36, 68), last if k == 31 else most):
                s.poke("words", row + k, word)
        for sought in orders:
            s.call("bylevel %d %d:%d:%d" % (level, *sought), "label 31" if sought == last else "label 0" if sought == most else "none")
    s.store()


def categories_controls():
    s = Script("categories_controls", "01 and 02, Four: past byte 600 of a mapping write too, blanks are space and tab alone. Every other byte belongs to its field: 9 in a level or category.", True)
    s.fresh()
    s.mapping(b"V 7 64")
    s.dump("before", True)
    for byte in (0, 10, 11, 12, 13, 28, 31, 127, 133, 160):
        other = bytes([byte])
        s.say("byte %d: alone at the end, and in a category%s; in a label it is a bad byte, 3" % (byte, ", before one, between two, in a level" if byte in (0, 11, 12, 13) else ""))
        s.mapping(to_length(b"V 9 1", 600) + other, "refused 9")
        texts = [b"V 9 1" + other]
        if byte in (0, 11, 12, 13):
            s.mapping(to_length(b"V 9 1", 999) + other, "refused 9")
            texts += [b"V 9 " + other + b"1", b"V 9 1" + other + b"2", b"V 9" + other, b"V 9" + other + b" 1", b"V 9 1 " + other + b" 2"]
        for text in texts:
            s.mapping(b" " * 600 + text, "refused 9")
        s.mapping(b" " * 600 + b"V" + other + b" 9 1", bad(601))
        s.mapping(b" " * 600 + other + b" 9 1", bad(600))
        s.say("behind the label, where it leaves too few fields: 2")
        s.mapping(b" " * 600 + b"V" + other + b"9", "refused 2")
        s.dump("before", True)
    s.say("In writes of 1,000 bytes: categories from byte 600 on, and behind the last of them the byte.")
    for byte in (0, 11, 12, 13):
        text = b"V 9 " + b"\t" * 595 + b" 001" * 100
        assert len(text) == 999
        s.mapping(text + bytes([byte]), "refused 9")
    s.dump("before", True)
    s.say("Spaces and tabs at the same places part fields, and end the write.")
    for number, blank in ((9, b" "), (8, b"\t")):
        s.mapping(to_length(b"V %d 1" % number, 600) + blank)
        s.bylabel(b"V", mapped(number, category(1), 1))
        s.mapping(b" " * 600 + b"V" + blank + b"%d" % number + blank + b"1" + blank + b"184" + blank)
        s.bylabel(b"V", mapped(number, sum_of((1, 184)), 2))
    s.store()


def categories_records():
    s = Script("categories_records", "02, Four: a record with a bit that is no category matches nothing, whatever its label number and its level are; beside it, a record that matches is found.", True)
    sets = [0, category(64), category(128), category(184), ALL]
    turn = 0
    for number in (0, 1, 63, MOST, MOST + 1, 1 << 63, HUGE):
        for level in (0, 1, 9, 255):
            s.say("label number %d, level %d" % (number, level))
            for at, bit in enumerate(STRAYS):
                turn += 1
                set_ = sets[(turn + at) % 5]
                s.run(level, set_, [(number, level, set_ | bit)], "none")
            s.run(level, set_, [(number, level, set_ | 255)], "none")
            s.run(level, set_, [(number, level, set_ | 1), (7, level, set_)], "label 7")
            s.run(level, set_, [(HUGE, level, set_), (number, level, set_ | 128)], "label %d" % HUGE)
            s.run(level, set_, [(number, level, set_)], "label %d" % number)
    s.store()


def categories():
    categories_each()
    categories_sets()
    categories_lengths()
    categories_numbers()
    categories_unknown()
    categories_near()
    categories_words()
    categories_places()
    categories_alone()
    categories_counts()
    categories_full()
    categories_strays()
    categories_long()
    categories_kept()
    categories_far()
    categories_runs()
    categories_replaced()
    categories_deep()
    categories_lent()
    categories_damaged()
    categories_empty()
    categories_unused()
    categories_refused()
    categories_orders()
    categories_controls()
    categories_records()


# ---------------------------------------------------------------------------------------------------------------------------------------------
# The packet option: request Five of 02
# ---------------------------------------------------------------------------------------------------------------------------------------------

# Bitmaps worked out by hand: category n is bit 0x80 shifted right by n mod 8, in bitmap byte n/8 rounded down; no trailing zero bytes.
BITMAPS = [((), ""), ((1,), "40"), ((2,), "20"), ((3,), "10"), ((4,), "08"), ((5,), "04"), ((6,), "02"), ((7,), "01"), ((8,), "0080"), ((9,), "0040"), ((14,), "0002"), ((15,), "0001"),
           ((16,), "000080"), ((17,), "000040"), ((23,), "000001"), ((24,), "00000080"), ((63,), "0000000000000001"), ((64,), "000000000000000080"), ((65,), "000000000000000040"),
           ((71,), "000000000000000001"), ((72,), "00000000000000000080"), ((100,), "00000000000000000000000008"), ((127,), "00000000000000000000000000000001"),
           ((128,), "0000000000000000000000000000000080"), ((175,), "00000000000000000000000000000000000000000001"), ((176,), "0000000000000000000000000000000000000000000080"),
           ((177,), "0000000000000000000000000000000000000000000040"), ((183,), "0000000000000000000000000000000000000000000001"), ((184,), "000000000000000000000000000000000000000000000080"),
           ((1, 63), "4000000000000001"), ((2, 4, 6), "2a"), ((2, 8), "2080"), ((1, 2, 3), "70"), ((7, 8), "0180"), ((7, 8, 9), "01c0"), ((15, 16), "000180"), ((1, 184), "400000000000000000000000000000000000000000000080"),
           ((183, 184), "000000000000000000000000000000000000000000000180"), ((100, 184), "000000000000000000000000080000000000000000000080"), (tuple(range(1, 8)), "7f"), (tuple(range(1, 9)), "7f80"),
           (tuple(range(8, 16)), "00ff"), (tuple(range(1, 25)), "7fffff80"), (tuple(range(1, 184)), "7fffffffffffffffffffffffffffffffffffffffffffff"),
           (tuple(range(1, 185)), "7fffffffffffffffffffffffffffffffffffffffffffff80")]
LONGEST = b"Label_of_just_23_bytes+"  # its last bit is category 184
SHORTER = b"Label_of_just_23_bytes*"  # its last bit is category 183
# Labels as their own bits, by hand: category 8i+j+1 is one place behind bit j of byte i, so the label's bits stand one place to the right.
OWN = [(b"A", "2080"), (b"B", "21"), (b"a", "3080"), (b"0", "18"), (b"~", "3f"), (b"!", "1080"), (b"#", "1180"), (b"_", "2f80"), (b"^", "2f"), (b"*", "15"), (b"?", "1f80"), (b"@", "20"), (b"`", "30"), (b"p", "38"),
       (b"AB", "20a1"), (b"BA", "212080"), (b"@@", "2020"), (b"Aa", "20b080"), (b"Air", "20b4b9"), (b"a-r", "3096b9"), (b"A--", "20969680"), (b"AAA", "20a0a080"), (b"BBB", "212121"), (b"Probe3", "283937b1329980"),
       (b"~" * 23, "3f" * 23), (b"p" * 23, "38" * 23), (b"A" * 22, "20" + "a0" * 21 + "80"), (b"A" * 23, "20" + "a0" * 22 + "80"), (b"A" * 22 + b"B", "20" + "a0" * 21 + "a1"), (b"B" * 22 + b"A", "21" * 22 + "2080"),
       (LONGEST, "2630b132b62fb7b32fb53ab9ba2f9919afb13cba32b99580"), (SHORTER, "2630b132b62fb7b32fb53ab9ba2f9919afb13cba32b995")]


def in_option(level, bitmap):
    """02: byte 134, total length, four bytes of DOI (always 3, high byte first), 1, tag length, 0, level, bitmap. Both lengths are of a whole slice: 10 and 4, and the bitmap."""
    return bytes([134, (10 + len(bitmap)) % 256, 0, 0, 0, 3, 1, (4 + len(bitmap)) % 256, 0, level]) + bitmap


def bitmap_of(categories):
    """02: category n is bit 0x80 shifted right by n mod 8, in bitmap byte n/8 rounded down. No trailing zero bytes."""
    bitmap = bytearray(max(categories) // 8 + 1 if categories else 0)
    for n in categories:
        bitmap[n // 8] |= 0x80 >> n % 8
    return bytes(bitmap)


def bits_in(bitmap):
    """The numbers of a bitmap's bits; the same sentence, read."""
    return [n for n in range(8 * len(bitmap)) if bitmap[n // 8] & 0x80 >> n % 8]


def own_categories(label):
    """02: bit j, from the top, of byte i is category 8i+j+1."""
    return [8 * i + j + 1 for i, byte in enumerate(label) for j in range(8) if byte & 0x80 >> j]


def rebuilt(categories):
    """The same sentence, read: 23 bytes, of which trailing zero bytes are dropped."""
    label = bytearray(23)
    for i in range(23):
        for j in range(8):
            if 8 * i + j + 1 in categories:
                label[i] |= 0x80 >> j
    return bytes(label).rstrip(b"\0")


def option_of(level, categories):
    return in_option(level, bitmap_of(categories))


def own_option(label):
    return option_of(250, own_categories(label))


def says_option(option, stored=None):
    """What the reader answers to an option that a loop made: a label, or the number of a refusal. `stored`: the label of each level and set, by their numbers."""
    if not 10 <= len(option) <= 40 or option[0] != 134 or option[1] != len(option) or option[6] != 1 or option[7] != len(option) - 6 or option[8] != 0:
        return 16
    if option[2:6] != bytes([0, 0, 0, 3]):
        return 17
    bits = bits_in(option[10:])
    if any(n < 1 or n > 184 for n in bits):
        return 18
    if option[9] == 250:
        return rebuilt(bits) if is_label(rebuilt(bits)) else 3
    return (stored or {}).get((option[9], tuple(bits)), 21)


def there_and_back(s, label, option):
    """A label is written, and what was written is read."""
    s.write_option(label, option)
    s.read_option(option, label)


def options_sentences():
    s = Script("options_sentences", "02, Five: sentence by sentence, in numbers by hand.")
    s.say("So A is 134 12 0 0 0 3 1 6 0 250 32 128.")
    example = bytes([134, 12, 0, 0, 0, 3, 1, 6, 0, 250, 32, 128])
    s.call("writeoption =A eeeeeeeeeeeeeeeeeeeeeeee", "length 12 860c00000003010600fa2080")
    s.call("writeoption 41 eeeeeeeeeeeeeeeeeeeeeeeeeeee", "length 12 860c00000003010600fa2080eeee")
    s.call("readoption 860c00000003010600fa2080", "peer 41")
    there_and_back(s, b"A", example)
    s.say("It stores nothing: A is in no table, and neither is a label that was read.")
    s.label(5, 13)
    s.bylabel(b"A", "none")
    s.say("Category n is bit 0x80 shifted right by n mod 8, in bitmap byte n/8 rounded down. We write no trailing zero bytes; the total is 10 and the bitmap's bytes, the tag length 4 and these.")
    for members, bitmap in BITMAPS:
        bytes_ = bytes.fromhex(bitmap)
        s.mapping(b"V 9 " + listed(members))
        there_and_back(s, b"V", bytes([134, 10 + len(bytes_), 0, 0, 0, 3, 1, 4 + len(bytes_), 0, 9]) + bytes_)
        s.write_option(b"V", 12, b"\xee" * (9 + len(bytes_)))
    s.say("Each level but 250, without a category: 10 bytes.")
    for level in (0, 1, 2, 9, 127, 128, 249, 251, 254, 255):
        s.mapping(b"V %d" % level)
        there_and_back(s, b"V", bytes([134, 10, 0, 0, 0, 3, 1, 4, 0, level]))
        s.read_option(bytes([134, 10, 0, 0, 0, 3, 1, 4, 0, level ^ 8]), 21)
    s.say("The reader takes trailing zero bytes, up to 30 bitmap bytes.")
    for more in range(31):
        s.read_option(bytes([134, 10 + more, 0, 0, 0, 3, 1, 4 + more, 0, 255]) + b"\0" * more, b"V")
    s.read_option(bytes([134, 41, 0, 0, 0, 3, 1, 35, 0, 255]) + b"\0" * 31, 16)
    s.say("An unmapped label of at most 23 bytes goes at level 250 as its own bits: bit j, from the top, of byte i is category 8i+j+1. At level 250 the reader rebuilds the label.")
    for label, bitmap in OWN:
        bytes_ = bytes.fromhex(bitmap)
        there_and_back(s, label, bytes([134, 10 + len(bytes_), 0, 0, 0, 3, 1, 4 + len(bytes_), 0, 250]) + bytes_)
    s.say("dropping trailing zero bytes")
    for zeros in (1, 2, 20, 28):
        s.read_option(bytes([134, 12 + zeros, 0, 0, 0, 3, 1, 6 + zeros, 0, 250, 32, 128]) + b"\0" * zeros, b"A")
    s.read_option(bytes([134, 41, 0, 0, 0, 3, 1, 35, 0, 250, 32, 128]) + b"\0" * 29, 16)
    s.say("A mapped label uses its mapping, whatever its length; in the table and unmapped it goes as its own bits, and 24 bytes are 19.")
    for label in (b"A", b"_", b"*", LONGEST, LONGEST + b"4", b"L" * 254, b"L" * 255):
        s.fresh()
        s.override(label)
        if len(label) < 24:
            bytes_ = bytes.fromhex(dict(OWN)[label])
            s.write_option(label, bytes([134, 10 + len(bytes_), 0, 0, 0, 3, 1, 4 + len(bytes_), 0, 250]) + bytes_)
        else:
            s.write_option(label, 19)
        s.mapping(label + b" 7 3 184")
        there_and_back(s, label, bytes([134, 34, 0, 0, 0, 3, 1, 28, 0, 7, 16]) + b"\0" * 22 + b"\x80")
        s.mapping(label + b" 7 3")
        there_and_back(s, label, bytes([134, 11, 0, 0, 0, 3, 1, 5, 0, 7, 16]))
        s.read_option(bytes([134, 34, 0, 0, 0, 3, 1, 28, 0, 7, 16]) + b"\0" * 22 + b"\x80", 21)
    s.say("Reading what was written gives the label back, unless a lower-numbered label has the same mapping.")
    s.fresh()
    s.override(b"Low High")
    s.mapping(b"High 9 1")
    option = bytes([134, 11, 0, 0, 0, 3, 1, 5, 0, 9, 64])
    there_and_back(s, b"High", option)
    s.mapping(b"Low 9 1")
    there_and_back(s, b"Low", option)
    s.write_option(b"High", option)
    s.say("A mapping write at level 250 gets 9.")
    s.mapping(b"Low 250", "refused 9")
    s.mapping(b"New 250 1", "refused 9")
    there_and_back(s, b"Low", option)
    s.label(7, 13)
    s.say("The reader: 16 for any other layout, then 17 for another DOI, then 18 for category 0 or above 184, then 3 where level 250 doesn't rebuild a label, else 21 where no mapping matches.")
    s.read_option(bytes([133, 12, 0, 0, 0, 3, 1, 6, 0, 250, 32, 128]), 16)
    s.read_option(bytes([134, 12, 0, 0, 0, 4, 1, 6, 0, 250, 32, 128]), 17)
    s.read_option(bytes([134, 12, 0, 0, 0, 3, 1, 6, 0, 250, 160, 128]), 18)
    s.read_option(bytes([134, 34, 0, 0, 0, 3, 1, 28, 0, 250, 32, 128]) + b"\0" * 21 + b"\x40", 18)
    s.read_option(bytes([134, 12, 0, 0, 0, 3, 1, 6, 0, 250, 64, 128]), 3)
    s.read_option(bytes([134, 12, 0, 0, 0, 3, 1, 6, 0, 249, 32, 128]), 21)
    s.read_option(bytes([134, 11, 0, 0, 0, 3, 1, 5, 0, 8, 64]), 21)
    s.say("The writer: 3, then 19 for an unmapped label over 23 bytes, then 12. On a refusal all of the output stays.")
    s.write_option(b"A/", 3)
    s.write_option(b"", 3)
    s.write_option(b"L" * 24, 19)
    s.write_option(b"A", 12, b"\xee" * 11)
    s.store()


def options_bytes():
    for name, label, categories, writes, text in (
            ("own", b"A", None, ((b"M", 9, (2, 8)), (b"N", 0, (2, 8)), (b"O", 255, (2, 8)), (b"P", 249, (2, 8)), (b"Q", 251, (2, 8))), "one of level 250, of the label A"),
            ("mapped", b"V", (1, 15), ((b"V", 9, (1, 15)), (b"M", 8, (1, 15)), (b"N", 9, (1, 14)), (b"O", 9, (15,)), (b"P", 9, (2, 15)), (b"Q", 9, (1,)), (b"R", 9, (1, 2, 3, 4, 5, 6, 7, 15))), "one of a mapped label")):
        s = Script("options_bytes_" + name, "02, Five: every byte of a good option set to every value: %s. All that else is mapped is near it." % text, True)
        stored = {}
        for other, level, members in writes:
            s.mapping(b"%s %d " % (other, level) + listed(members))
            stored[level, members] = other
        good = own_option(label) if categories is None else option_of(9, categories)
        assert len(good) == 12
        there_and_back(s, label, good)
        s.dump("before")
        for at in range(len(good)):
            s.say("byte %d of the option" % at)
            for b in range(256):
                option = good[:at] + bytes([b]) + good[at + 1:]
                s.read_option(option, says_option(option, stored))
        s.dump("before")
        s.store()


def options_lengths():
    s = Script("options_lengths", "02, Five: options of every length from 0 to 60, cut and extended, with the total and the tag length as they were and made to fit, both or one; and longer.", True)
    s.mapping(b"V 9 1 15")
    s.mapping(b"W 9 1")
    s.mapping(b"X 9")
    s.mapping(b"Y 9 1 15 23")
    stored = {(9, (1, 15)): b"V", (9, (1,)): b"W", (9, ()): b"X", (9, (1, 15, 23)): b"Y"}
    for good, fills in ((own_option(b"A"), (b"\0", b"\x01", b"\xff")), (option_of(9, (1, 15)), (b"\0", b"\x01")), (own_option(LONGEST), (b"\0", b"\x80"))):
        for fill in fills:
            s.say("an option of %d bytes, cut; and extended by bytes of %d" % (len(good), fill[0]))
            for length in range(61):
                if fill != b"\0" and length <= len(good):
                    continue
                for total, tag in ((False, False), (True, True), (True, False), (False, True))[:4 if fill == b"\0" else 2]:
                    option = bytearray((good + fill * 60)[:length])
                    if total and length > 1:
                        option[1] = length
                    if tag and length > 7:
                        option[7] = length - 6
                    s.read_option(bytes(option), says_option(bytes(option), stored))
    s.say("By hand: made to fit, A is read from 12 bytes to 40; of 11 its first byte is left, @; of 10 there is no label; shorter or longer is no option.")
    for length in range(61):
        option = (bytes([134, length, 0, 0, 0, 3, 1, max(0, length - 6), 0, 250, 32, 128]) + b"\0" * 60)[:length]
        s.read_option(option, 16 if length < 10 or length > 40 else 3 if length == 10 else b"@" if length == 11 else b"A")
    s.say("By hand: the same of a mapped label; with no byte of its bitmap it is another mapping, and so it is with one.")
    for length in range(61):
        option = (bytes([134, length, 0, 0, 0, 3, 1, max(0, length - 6), 0, 9, 64, 1]) + b"\0" * 60)[:length]
        s.read_option(option, 16 if length < 10 or length > 40 else b"X" if length == 10 else b"W" if length == 11 else b"V")
    s.say("One length by one too small or too large, the other one right: 16.")
    for good in (own_option(b"A"), option_of(9, ()), option_of(9, (1, 15)), own_option(LONGEST)):
        for at in (1, 7):
            for other in (-12, -6, -2, -1, 1, 2, 6):
                s.read_option(good[:at] + bytes([(good[at] + other) % 256]) + good[at + 1:], 16)
        s.say("both too small or too large alike")
        for other in (-1, 1, 2):
            s.read_option(good[:1] + bytes([good[1] + other]) + good[2:7] + bytes([good[7] + other]) + good[8:], 16)
    s.say("Padding is no part of the option: zero bytes, an end byte, a no-operation byte behind it, or before it.")
    for good in (own_option(b"A"), own_option(b"B"), option_of(9, (1, 15))):
        for more in (b"\0", b"\0\0", b"\0\0\0", b"\x01", b"\x01\0", b"\0" * 28):
            s.read_option(good + more, 16)
            s.read_option(more + good, 16)
    s.say("A second tag, of either option, and of another type: 16, also where the total is made to fit.")
    for good in (own_option(b"A"), option_of(9, (1, 15)), option_of(9, ())):
        for tag in (good[6:], b"\x02\x04\0\x09", b"\x05\x04\0\x09", b"\x01\x04\0\x09"):
            both = good + tag
            s.read_option(both, 16)
            s.read_option(both[:1] + bytes([len(both)]) + both[2:], 16)
    s.say("No tag at all; a tag without its level; and two options.")
    for option in (b"", b"\x86", b"\x86\x02", b"\x86\x06\0\0\0\x03", b"\x86\x08\0\0\0\x03\x01\x02", b"\x86\x09\0\0\0\x03\x01\x03\0", own_option(b"A") * 2, own_option(b"A") + own_option(b"B"), own_option(b"A") * 3):
        s.read_option(option, 16)
    s.say("Lengths that fit in their low bits only.")
    for length in (255, 256, 257, 262, 266, 267, 268, 289, 296, 512, 522, 524, 552):
        for level in (250, 9):
            s.read_option(in_option(level, (b"\x20\x80" if level == 250 else b"\x40\x01") + b"\0" * (length - 12)), 16)
    for good in (own_option(b"A"), option_of(9, (1, 15))):
        s.read_option(good + b"\0" * 256, 16)
        s.read_option(good + b"\0" * 512, 16)
    s.call("readoption " + h(own_option(b"A") + b"\0" * 65536), "refused 16")
    s.store()


def options_bits():
    s = Script("options_bits", "02, Five: each of the 240 bits of 30 bitmap bytes, alone and beside others, at level 250 and at a mapped level. Bit 0 and those from 185 on are 18.", True)
    zeros = bytes(30)

    def with_bit(bitmap, n):
        return bitmap[:n // 8] + bytes([bitmap[n // 8] ^ 0x80 >> n % 8]) + bitmap[n // 8 + 1:]
    s.say("Level 250, the bit alone: bit 2 is @, which is 64; every other is no label.")
    for n in range(240):
        s.read_option(in_option(250, with_bit(zeros, n)), 18 if n == 0 or n > 184 else b"@" if n == 2 else 3)
    s.say("A mapped level, the bit alone, in 30 bytes and in as few as hold it; the same without the bit matches nothing.")
    for n in range(240):
        option = in_option(9, with_bit(zeros, n))
        if 1 <= n <= 184:
            s.mapping(b"V 9 %d" % n)
            s.read_option(option, b"V")
            s.read_option(option_of(9, (n,)), b"V")
            if n % 8 < 2:
                s.read_option(in_option(9, with_bit(zeros, n - 1)), 18 if n == 1 else 21)
                s.read_option(in_option(9, with_bit(zeros, n + 1)), 18 if n == 184 else 21)
                s.read_option(in_option(9, zeros), 21)
        else:
            s.read_option(option, 18)
            s.read_option(option[:1] + bytes([11 + n // 8]) + option[2:7] + bytes([5 + n // 8]) + option[8:11 + n // 8], 18)
    s.say("Level 250, a label of 23 bytes, each bit turned: another label, or none.")
    base = bitmap_of(own_categories(LONGEST)) + bytes(6)
    for n in range(240):
        bitmap = with_bit(base, n)
        s.read_option(in_option(250, bitmap), says_option(in_option(250, bitmap)))
    s.say("All 184 but one; all and one more.")
    s.mapping(b"V 9 " + listed(range(1, 185)))
    full_map = bitmap_of(range(1, 185)) + bytes(6)
    s.read_option(in_option(9, full_map), b"V")
    for n in range(240):
        s.read_option(in_option(9, with_bit(full_map, n)), 21 if 1 <= n <= 184 else 18)
    s.say("18 beside a set that is mapped, and beside a good label: each of the 56 bits, and every value of each byte that has them.")
    s.mapping(b"V 9 1")
    good = bitmap_of(own_categories(b"A")) + bytes(28)
    for n in [0, *range(185, 240)]:
        s.read_option(in_option(250, with_bit(good, n)), 18)
        s.read_option(in_option(9, with_bit(with_bit(zeros, 1), n)), 18)
    for at in (23, 24, 29):
        for b in range(0, 256, 1 if at == 23 else 17):
            bitmap = b"\x20\x80" + bytes(at - 2) + bytes([b])
            s.read_option(in_option(250, bitmap), says_option(in_option(250, bitmap)))
            if b % 4 == 0 or b % 17 == 0:
                bitmap = b"\x40" + bytes(at - 1) + bytes([b])
                s.read_option(in_option(9, bitmap), says_option(in_option(9, bitmap), {(9, (1,)): b"V"}))
    s.say("Every bit set, in bitmaps of 0 to 31 bytes.")
    for count in range(32):
        for level in (9, 250):
            s.read_option(in_option(level, b"\xff" * count), 16 if count == 31 else 18 if count else (3 if level == 250 else 21))
    s.store()


def options_zeros():
    s = Script("options_zeros", "02, Five: trailing zero bytes are taken, up to 30 bitmap bytes; 31 are 16. Zero bytes that are not at a label's end are 3, never a shorter label.", True)
    s.say("Level 250: labels whose own bits take 1, 2, 3, 22, 23 and 24 bytes.")
    for label in (b"B", b"A", b"BA", SHORTER[1:], SHORTER, LONGEST):
        bitmap = bitmap_of(own_categories(label))
        for count in range(len(bitmap), 32):
            s.read_option(in_option(250, bitmap.ljust(count, b"\0")), label if count < 31 else 16)
    s.say("Mapped: sets whose bitmaps take 0, 1, 2, 23 and 24 bytes.")
    for members, fewest in (((), 0), ((7,), 1), ((8,), 2), ((1, 183), 23), ((184,), 24), (tuple(range(1, 185)), 24)):
        s.mapping(b"V 9 " + listed(members))
        bitmap = bitmap_of(members)
        assert len(bitmap) == fewest
        for count in range(fewest, 32):
            s.read_option(in_option(9, bitmap.ljust(count, b"\0")), b"V" if count < 31 else 16)
        s.write_option(b"V", in_option(9, bitmap))
    s.say("Level 250 and no bit: no label, in 0 to 30 bytes.")
    for count in range(32):
        s.read_option(in_option(250, bytes(count)), 3 if count < 31 else 16)
    s.say("One byte of a label is zero, at each place of labels of 1 to 23 bytes: at the end it is dropped; any other is 3.")
    for length in range(1, 24):
        for at in range(length):
            label = LONGEST[:at] + b"\0" + LONGEST[at + 1:length]
            s.read_option(own_option(label), LONGEST[:at] if at == length - 1 and at else 3)
    s.say("The front of a label, and zeros up to 23 bytes; and with one letter more at the end: 3.")
    for length in range(1, 23):
        front = LONGEST[:length]
        s.read_option(in_option(250, bitmap_of(own_categories(front)).ljust(24, b"\0")), front)
        if length < 22:
            s.read_option(own_option(front + bytes(22 - length) + b"A"), 3)
            s.read_option(own_option(front + bytes(22 - length) + b"B"), 3)
    s.say("Zeros before the label, and between its letters.")
    for label in (b"\0A", b"\0\0A", b"\0" * 22 + b"A", b"A\0A", b"A\0\0A", b"A\0B\0C", b"\0A\0", b"A\0A\0"):
        s.read_option(own_option(label), 3)
        s.read_option(in_option(250, bitmap_of(own_categories(label)).ljust(30, b"\0")), 3)
    s.say("A last letter of 64 has its one bit in the byte of its place; one of 33 has another in the next. Cut there, another letter is left.")
    for label, cut_label in ((b"A", b"@"), (b"!", b" "), (b"c", b"b"), (b"AA", b"A@"), (b"AC", b"AB"), (LONGEST, SHORTER)):
        bitmap = bitmap_of(own_categories(label))
        assert bitmap[-1] == 0x80 and len(bitmap) == len(label) + 1
        s.read_option(in_option(250, bitmap), label)
        s.read_option(in_option(250, bitmap[:-1]), cut_label if cut_label != b" " else 3)
        s.write_option(label, in_option(250, bitmap))
        if cut_label != b" ":
            s.write_option(cut_label, in_option(250, bitmap[:-1]))
    s.store()


def options_labels():
    s = Script("options_labels", "02, Five: labels of 1 to 24 bytes and more, unmapped and mapped, in the table and not; one of each allowed byte, written and read back.", True)
    s.say("Unmapped, not in the table and then in it.")
    for length in range(1, 28):
        for label in ((b"B" * 30)[:length], (LONGEST * 2)[:length], (b"A" * 30)[:length])[:2 if length % 2 else 3]:
            s.call("fresh", "done")
            for known in (False, True):
                if known:
                    s.override(label)
                if length < 24:
                    there_and_back(s, label, own_option(label))
                else:
                    s.write_option(label, 19)
    s.say("The own bits of B, BB, .. take as many bytes as the label has, those of A, AA, .. one more: the longest options have 33 and 34 bytes.")
    for length in range(1, 24):
        s.call("writeoption =%s %s" % ("B" * length, "ee" * 34), "length %d %s" % (10 + length, "86%02x0000000301%02x00fa" % (10 + length, 4 + length) + "21" * length + "ee" * (24 - length)))
        s.call("writeoption =%s %s" % ("A" * length, "ee" * 34), "length %d %s" % (11 + length, "86%02x0000000301%02x00fa20" % (11 + length, 5 + length) + "a0" * (length - 1) + "80" + "ee" * (23 - length)))
    s.say("24 bytes and more, unmapped: 19, up to 255; 256 and more: 3.")
    for known in (False, True):
        for length in (24, 25, 31, 32, 33, 46, 47, 48, 100, 127, 128, 200, 253, 254, 255, 256, 257, 258, 279, 280, 300, 512, 535, 600):
            if known and length < 256:
                s.call("fresh", "done")
                s.override(spoilt(length))
            s.write_option(spoilt(length), 19 if length < 256 else 3, b"\xee" * (34 if known else 40))
    for length in (601, 1000, 1001, 65536 + 23):
        s.write_option(b"L" * length, 3)
    s.say("Mapped, of any length: the mapping goes, at each level.")
    for length in (1, 2, 22, 23, 24, 25, 64, 128, 254, 255):
        s.call("fresh", "done")
        label = spoilt(length)
        for level, members in ((9, ()), (0, (1,)), (255, (184,)), (249, (2, 8)), (251, tuple(range(1, 185, 9)))):
            s.mapping(b"%s %d " % (label, level) + listed(members))
            there_and_back(s, label, option_of(level, members))
        s.write_option(label[:-1] + b"+", own_option(label[:-1] + b"+") if length < 24 else 19)
        s.write_option(label, option_of(251, range(1, 185, 9)), b"\xee" * 34)
        s.write_option(label + b"+", own_option(label + b"+") if length < 23 else 19 if length < 255 else 3)
    s.say("Two labels of 255 bytes that differ in the last one: one is mapped.")
    s.call("fresh", "done")
    s.mapping(b"L" * 254 + b"1 9 1")
    there_and_back(s, b"L" * 254 + b"1", option_of(9, (1,)))
    s.write_option(b"L" * 254 + b"2", 19)
    s.mapping(b"L" * 254 + b"2 9 2")
    there_and_back(s, b"L" * 254 + b"2", option_of(9, (2,)))
    there_and_back(s, b"L" * 254 + b"1", option_of(9, (1,)))
    s.say("Case counts.")
    s.mapping(b"air 9 3")
    there_and_back(s, b"air", option_of(9, (3,)))
    there_and_back(s, b"Air", bytes([134, 13, 0, 0, 0, 3, 1, 7, 0, 250, 0x20, 0xb4, 0xb9]))
    s.say("A label of one byte, of each allowed value but the dash, which may not be the first; behind a letter; some behind a letter 22 times.")
    s.call("fresh", "done")
    for b in LABEL_BYTES:
        if b != 45:
            there_and_back(s, bytes([b]), in_option(250, bytes([b >> 1, 0x80]) if b % 2 else bytes([b >> 1])))
        there_and_back(s, b"B" + bytes([b]), in_option(250, bytes([0x21, b >> 1, 0x80]) if b % 2 else bytes([0x21, b >> 1])))
        if b % 3 == 0:
            there_and_back(s, b"K" + bytes([b]) * 22, own_option(b"K" + bytes([b]) * 22))
    s.say("Fronts and ends of one label: none is taken for another.")
    s.call("fresh", "done")
    for length in range(1, 24):
        if length % 2:
            s.override(LONGEST[:length])
        there_and_back(s, LONGEST[:length], own_option(LONGEST[:length]))
    s.store()


def options_rebuilt():
    s = Script("options_rebuilt", "02, Five: at level 250 every byte value at each place of a label: the reader's 3, or the label, which is in no table.", True)
    borders = b"\0\x01\t\n \x1f!\"#&'(,-./0[\\]~\x7f\x80\xa0\xc1\xff"
    for length in (8, 23):
        for at in range(length):
            s.say("byte %d of a label of %d bytes" % (at, length))
            for b in range(256) if length == 8 or at in (0, 11, 22) else borders:
                label = LONGEST[:at] + bytes([b]) + LONGEST[at + 1:length]
                s.read_option(own_option(label), label if is_label(label) else label[:at] if b == 0 and at == length - 1 else 3)
    s.store()

    s = Script("options_short", "02, Five: at level 250 every byte value as the label, as the first and the second of two, and behind a dash; leading dashes.", True)
    for b in range(256):
        one = bytes([b])
        good = b in LABEL_BYTES
        s.read_option(own_option(one), one if good and b != 45 else 3)
        s.read_option(own_option(one + b"A"), one + b"A" if good and b != 45 else 3)
        s.read_option(own_option(b"A" + one), b"A" + one if good else b"A" if b == 0 else 3)
        if b % 8 == 1:
            s.read_option(own_option(b"-" + one), 3)
    for length in range(1, 24):
        s.read_option(own_option(b"-" * length), 3)
        s.read_option(own_option((b"-" + LONGEST)[:length]), 3)
        if length > 1:
            s.read_option(own_option(b"A" + b"-" * (length - 1)), b"A" + b"-" * (length - 1))
    s.say("A bad byte at each place of labels of 1 to 23 bytes: a slash, a blank, a newline, 127, 128, 255.")
    for length in range(1, 24):
        for at in range(length):
            b = b"/ \n\x7f\x80\xff"[(length + at) % 6]
            s.read_option(own_option(LONGEST[:at] + bytes([b]) + LONGEST[at + 1:length]), 3)
    s.store()


def options_formed():
    s = Script("options_formed", "02, Five: the writer's label has to be well formed, whatever its length: 3, without a place. Then 19 and 12. The label is not stored.", True)
    s.dump("fresh")
    s.say("Every byte value: alone and behind a letter; many before one, and as the last of 23, of 24, of 255 and of 256 bytes.")
    for b in range(256):
        one = bytes([b])
        good = b in LABEL_BYTES
        s.write_option(one, own_option(one) if good and b != 45 else 3, b"\xee" * 12)
        s.write_option(b"A" + one, own_option(b"A" + one) if good else 3, b"\xee" * 13)
        if b % 2 or b < 64:
            s.write_option(one + b"A", own_option(one + b"A") if good and b != 45 else 3, b"\xee" * 13)
        if b < 128 or b % 8 == 0:
            s.write_option(LONGEST[:22] + one, own_option(LONGEST[:22] + one) if good else 3, b"\xee" * 34)
            s.write_option(LONGEST + one, 19 if good else 3, b"")
    for b in list(range(0, 256, 16)) + list(b" /'\"\\-~\x7f"):
        one = bytes([b])
        s.write_option(spoilt(254) + one, 19 if b in LABEL_BYTES else 3, b"\xee")
        s.write_option(spoilt(255) + one, 3, b"\xee")
    s.say("Labels and their faults.")
    for label, where in SPOILT:
        s.write_option(label, (own_option(label) if len(label) < 24 else 19) if where is None else 3)
    s.say("A bad byte at each place of 23 bytes, and at some of 24 to 300: 3 before 19.")
    for at in range(23):
        b = b"/ \n\x00\x7f\xff"[at % 6]
        s.write_option(LONGEST[:at] + bytes([b]) + LONGEST[at + 1:], 3)
    for length in (24, 25, 100, 255, 256, 300):
        for at in sorted({0, 1, 22, 23, length // 2, length - 1}):
            s.write_option(spoilt(length, (at, b"/")), 3)
            s.write_option(spoilt(length, (at, b" ")), 3, b"")
        s.write_option(b"-" * length, 3)
    s.say("A label with a blank or a newline about it is no label; the whole of what is lent is the label.")
    for label in (b" A", b"A ", b"A\n", b"\nA", b"A\t", b"A B", b"A\0", b"\0A", b"A\r\n"):
        s.write_option(label, 3)
    s.dump("fresh")
    s.store()


def options_mapped():
    s = Script("options_mapped", "02, Five: labels mapped alike, in both orders of entry and of mapping; mappings replaced; whom the reader answers.", True)
    for level, members in ((9, ()), (9, (1,)), (0, (184,)), (255, (7, 8, 63, 64, 65)), (249, tuple(range(1, 185)))):
        option, text = option_of(level, members), b" %d " % level + listed(members)
        for order in ((b"A", b"B"), (b"B", b"A")):
            for entered in (b"A B", b"B A"):
                s.call("fresh", "done")
                s.override(entered)
                low, high = entered.split(b" ")
                s.mapping(order[0] + text)
                there_and_back(s, order[0], option)
                s.mapping(order[1] + text)
                s.write_option(low, option)
                s.write_option(high, option)
                s.read_option(option, low)
                s.say("the lower one is mapped to something else, and back")
                s.mapping(low + b" 3 2")
                s.read_option(option, high)
                there_and_back(s, low, option_of(3, (2,)))
                s.mapping(low + text)
                s.read_option(option, low)
                s.mapping(high + b" 3 2")
                s.read_option(option, low)
                there_and_back(s, high, option_of(3, (2,)))
    s.say("The order of entry is that of the mapping writes themselves.")
    for one, two in ((b"A", b"B"), (b"B", b"A"), (b"A", b"_"), (b"_", b"A"), (b"@", b"*")):
        s.call("fresh", "done")
        s.mapping(one + b" 9 5")
        s.mapping(two + b" 9 5")
        s.write_option(one, option_of(9, (5,)))
        s.write_option(two, option_of(9, (5,)))
        s.read_option(option_of(9, (5,)), {b"AB": b"A", b"BA": b"B", b"A_": b"_", b"_A": b"_", b"@*": b"*"}[one + two])
    s.say("Three labels, in each order of mapping.")
    for order in ((0, 1, 2), (0, 2, 1), (1, 0, 2), (1, 2, 0), (2, 0, 1), (2, 1, 0)):
        s.call("fresh", "done")
        s.override(b"X Y Z")
        names = (b"X", b"Y", b"Z")
        for count in range(3):
            s.mapping(names[order[count]] + b" 9 100")
            s.read_option(option_of(9, (100,)), names[min(order[:count + 1])])
        for name in names:
            s.write_option(name, option_of(9, (100,)))
        s.mapping(names[0] + b" 9 101")
        s.read_option(option_of(9, (100,)), b"Y")
        s.mapping(names[1] + b" 8 100")
        s.read_option(option_of(9, (100,)), b"Z")
        s.mapping(names[2] + b" 9")
        s.read_option(option_of(9, (100,)), 21)
        for name, level, members in ((b"X", 9, (101,)), (b"Y", 8, (100,)), (b"Z", 9, ())):
            there_and_back(s, name, option_of(level, members))
    s.say("Nearly alike: another level, one category more, one less, one other.")
    s.call("fresh", "done")
    near = [(9, (1, 15)), (8, (1, 15)), (9, (1,)), (9, (1, 14)), (9, (1, 16)), (9, (2, 15)), (9, (1, 15, 184)), (9, ()), (251, (1, 15)), (0, ()), (255, ()), (9, (7,)), (9, (8,)), (9, (9,))]
    for k, (level, members) in enumerate(near):
        s.mapping(b"N%02d %d " % (k, level) + listed(members))
    for k, (level, members) in enumerate(near):
        there_and_back(s, b"N%02d" % k, option_of(level, members))
    for level, members in ((10, (1, 15)), (9, (15,)), (9, (1, 15, 16)), (0, (1,)), (255, (184,)), (249, ())):
        s.read_option(option_of(level, members), 21)
    s.say("A mapping replaced many times: what was written before matches no more.")
    s.call("fresh", "done")
    before = option_of(10, ())
    for level, members in ((9, ()), (9, (1,)), (8, (1,)), (8, (1, 2)), (8, (2,)), (255, tuple(range(1, 185))), (255, tuple(range(2, 185))), (255, tuple(range(1, 184))), (0, ()), (249, (2, 8)), (9, (9, 10))):
        s.mapping(b"V %d " % level + listed(members))
        there_and_back(s, b"V", option_of(level, members))
        s.read_option(before, 21)
        before = option_of(level, members)
    s.say("The same mapping once more; repeats and leading zeros; any order.")
    for text in (b"V 9 9 10", b"V 009 010 009", b"V 9 10 9 10 9 10", b"V\t09  10\t9 "):
        s.mapping(text)
        there_and_back(s, b"V", option_of(9, (9, 10)))
    s.say("A mapping whose set is a label's own bits, at another level: it is no such label.")
    s.mapping(b"V 249 2 8")
    there_and_back(s, b"V", bytes([134, 12, 0, 0, 0, 3, 1, 6, 0, 249, 32, 128]))
    there_and_back(s, b"A", bytes([134, 12, 0, 0, 0, 3, 1, 6, 0, 250, 32, 128]))
    s.mapping(b"V 251 2 8")
    there_and_back(s, b"V", bytes([134, 12, 0, 0, 0, 3, 1, 6, 0, 251, 32, 128]))
    there_and_back(s, b"A", bytes([134, 12, 0, 0, 0, 3, 1, 6, 0, 250, 32, 128]))
    s.say("A mapped label read at level 250 by its own bits is that label all the same: the mapping is not asked.")
    s.mapping(b"A 9 3")
    there_and_back(s, b"A", bytes([134, 11, 0, 0, 0, 3, 1, 5, 0, 9, 16]))
    s.read_option(bytes([134, 12, 0, 0, 0, 3, 1, 6, 0, 250, 32, 128]), b"A")
    s.store()


def options_level():
    s = Script("options_level", "02, Five: a mapping write at level 250 gets 9, in the place that 9 has: 0 1 2 3 9 6 10. It changes nothing. Look-ups and runs at 250 are not refused.")
    s.fresh()
    s.mapping(b"V 9 1")
    s.dump("one")
    option = bytes([134, 11, 0, 0, 0, 3, 1, 5, 0, 9, 64])
    for text in (b"V 250", b"V 250 1", b"V 250 184", b"V 250 1 2 3", b"V 250 " + listed(range(1, 185)), b"V 250 0", b"V 250 185", b"V 250 x", b"V 250 1 0", b"V 250 250", b"\tV\t250\t", b" V  250  1 ", b"New 250", b"New 250 1",
                 b"New 250 185", b"_ 250", b"* 250 8", to_length(b"V 250", 600), to_length(b"V 250 1", 601), to_length(b"V 250 1", 1000), b"V 0250", b"V +250", b"V 250.", b"V 9 250", b"V 250\n", LONGEST + b" 250",
                 b"L" * 255 + b" 250 1"):
        s.mapping(text, "refused 9")
        s.dump("one")
        there_and_back(s, b"V", option)
        s.bylabel(b"V", mapped(9, category(1), 1))
    s.label(6, 13)
    s.write_option(b"New", own_option(b"New"))
    s.say("Before 9: 1, 2 and 3.")
    s.mapping(to_length(b"V 250", 1001), "refused 1")
    s.mapping(b"250", "refused 2")
    s.mapping(b"V250", "refused 2")
    s.mapping(b"V/ 250", "refused 3")
    s.mapping(b"-V 250 185", "refused 3")
    s.mapping(b"  V\x00 250", "refused 3")
    s.dump("one")
    s.say("The levels beside it, and numbers that are near it by their digits.")
    for text, level in ((b"249", 249), (b"251", 251), (b"25", 25), (b"025", 25), (b"050", 50), (b"50", 50), (b"205", 205), (b"52", 52), (b"052", 52), (b"240", 240), (b"150", 150), (b"122", 122), (b"200", 200), (b"2", 2), (b"248", 248), (b"252", 252),
                        (b"254", 254), (b"255", 255), (b"000", 0), (b"5", 5), (b"186", 186), (b"218", 218), (b"234", 234), (b"242", 242)):
        s.mapping(b"V " + text + b" 2 8")
        s.bylabel(b"V", mapped(level, category(2) | category(8), 2))
        there_and_back(s, b"V", bytes([134, 12, 0, 0, 0, 3, 1, 6, 0, level, 32, 128]))
        s.mapping(b"V 250 2 8", "refused 9")
        s.bylabel(b"V", mapped(level, category(2) | category(8), 2))
    for text in (b"256", b"506", b"350", b"260", b"2500", b"0250", b"0xfa", b"fa", b"-250", b"250-"):
        s.mapping(b"V " + text, "refused 9")
    s.say("250 may be a label.")
    s.mapping(b"250 9 25")
    there_and_back(s, b"250", bytes([134, 14, 0, 0, 0, 3, 1, 8, 0, 9, 0, 0, 0, 64]))
    s.mapping(b"250 250", "refused 9")
    s.say("9 comes before 6 and before 10: full tables, one of both, and both.")
    full(s, 64, 0, 32)
    s.dump("full")
    for text, number in ((b"New 250", 9), (b"New 250 1", 9), (b"New 9", 6), (b"L40 250", 9), (b"L40 250 1", 9), (b"L40 9", 10), (b"L05 250", 9), (b"L05 250 1 63", 9), (b"_ 250", 9)):
        s.mapping(text, "refused %d" % number)
        s.dump("full")
    full(s, 63, 0, 32)
    s.dump("63")
    s.mapping(b"New 250", "refused 9")
    s.mapping(b"New 249", "refused 10")
    s.label(63, 13)
    s.dump("63")
    full(s, 64, 0, 31)
    s.dump("31")
    s.mapping(b"New 250", "refused 9")
    s.mapping(b"New 251", "refused 6")
    s.mapping(b"L40 250", "refused 9")
    s.dump("31")
    s.mapping(b"L40 251")
    there_and_back(s, b"L40", bytes([134, 10, 0, 0, 0, 3, 1, 4, 0, 251]))
    s.say("0 comes before 9.")
    s.poke("words", 1, 257)
    s.mapping(b"L40 250", "refused 0")
    s.poke("words", 1, 0)
    s.say("Look-ups and runs at level 250 are not refused: none, or a match.")
    s.fresh()
    for set_ in (0, category(1), category(2) | category(8), ALL):
        s.bylevel(250, set_, "none")
        s.run(250, set_, [], "none")
        s.run(250, set_, [(7, 250, set_), (3, 250, set_)], "label 3")
        s.run(250, set_, [(7, 249, set_), (6, 251, set_)], "none")
    s.bylevel(250, 1, "refused 9")
    s.run(250, 1, [], "refused 9")
    s.mapping(b"V 9 1")
    s.bylevel(250, category(1), "none")
    s.poke("entries", 800, b"\xfa")
    s.bylevel(250, category(1), "label 5")
    s.bylabel(b"V", mapped(250, category(1), 1))
    s.say("In a lent table that holds one at 250, it can be replaced, and not written again.")
    s.mapping(b"V 250 1", "refused 9")
    s.bylabel(b"V", mapped(250, category(1), 1))
    s.mapping(b"V 8 1")
    s.bylabel(b"V", mapped(8, category(1), 1))
    s.bylevel(250, category(1), "none")
    s.store()


def options_lent():
    s = Script("options_lent", "02, Five, over lent tables that hold a mapping at level 250, which no grown one does: no damage. The writer writes it as any mapping; at level 250 the reader asks no table.", True)
    for number, (members, back) in enumerate((((2, 8), b"A"), ((), 3), ((1,), 3), ((2,), b"@"), ((184,), 3), (tuple(range(1, 185)), 3), (tuple(own_categories(b"Air")), b"Air"), (tuple(own_categories(LONGEST)), LONGEST), (tuple(own_categories(b"V")), b"V"),
                                              (tuple(own_categories(b"-")), 3), (tuple(own_categories(b"A/")), 3), (tuple(own_categories(b"A\0B")), 3))):
        s.say("V is mapped at level 250 to %s; A is in the table and unmapped" % (" ".join("%d" % n for n in members) if len(members) < 20 else "%d categories" % len(members) if members else "no category"))
        s.fresh()
        s.override(b"A V")
        s.mapping(b"V 9 " + listed(members))
        there_and_back(s, b"V", option_of(9, members))
        s.poke("entries", 800, b"\xfa")
        s.dump("lent %d" % number)
        s.write_option(b"V", option_of(250, members))
        s.read_option(option_of(250, members), back)
        there_and_back(s, b"A", bytes([134, 12, 0, 0, 0, 3, 1, 6, 0, 250, 32, 128]))
        s.read_option(option_of(9, members), 21)
        s.read_option(own_option(b"V"), b"V")
        s.bylevel(250, sum_of(members), "label 6")
        s.dump("lent %d" % number)
    s.say("A label mapped to the very bits of another: both are written alike, and the bits are read.")
    s.fresh()
    s.override(b"A V W")
    for label, members in ((b"V", (2, 8)), (b"W", (2, 8)), (b"A", (2, 7))):
        s.mapping(label + b" 9 " + listed(members))
    s.poke("entries", 800, b"\xfa\xfa\xfa")
    for label in (b"V", b"W"):
        s.write_option(label, bytes([134, 12, 0, 0, 0, 3, 1, 6, 0, 250, 32, 128]))
    s.write_option(b"A", bytes([134, 11, 0, 0, 0, 3, 1, 5, 0, 250, 33]))
    s.write_option(b"B", bytes([134, 11, 0, 0, 0, 3, 1, 5, 0, 250, 33]))
    s.read_option(bytes([134, 12, 0, 0, 0, 3, 1, 6, 0, 250, 32, 128]), b"A")
    s.read_option(bytes([134, 11, 0, 0, 0, 3, 1, 5, 0, 250, 33]), b"B")
    s.say("A label of 24 or 255 bytes mapped at 250: it is mapped, so not 19.")
    for length in (24, 255):
        s.fresh()
        label = spoilt(length)
        s.mapping(label + b" 9 2 8 184")
        s.poke("entries", 800, b"\xfa")
        option = bytes([134, 34, 0, 0, 0, 3, 1, 28, 0, 250, 32, 128]) + bytes(21) + b"\x80"
        s.write_option(label, option)
        s.read_option(option, 3)
        s.write_option(label, 12, b"\xee" * 33)
    s.say("Levels of every kind in a lent table.")
    s.fresh()
    s.mapping(b"V 9 2 8")
    for level in [*range(0, 244, 4), *range(244, 256)]:
        s.poke("entries", 800, bytes([level]))
        s.write_option(b"V", bytes([134, 12, 0, 0, 0, 3, 1, 6, 0, level, 32, 128]))
        s.read_option(bytes([134, 12, 0, 0, 0, 3, 1, 6, 0, level, 32, 128]), b"A" if level == 250 else b"V")
        if level % 4 == 0 or level > 248:
            s.read_option(bytes([134, 12, 0, 0, 0, 3, 1, 6, 0, level ^ 1, 32, 128]), b"A" if level == 251 else 21)
    s.store()


def options_outputs():
    s = Script("options_outputs", "02, Five: outputs of every length from 0 to 40, for options of 10, 12, 33 and 34 bytes. The option goes to the front, the rest stays; too short is 12 and all of it stays.", True)
    filled = bytes((7 * k + 13) % 256 for k in range(700))
    s.mapping(b"V 9")
    s.mapping(b"W 0 184")
    s.dump("tables")
    for label, option in ((b"V", bytes([134, 10, 0, 0, 0, 3, 1, 4, 0, 9])), (b"A", bytes([134, 12, 0, 0, 0, 3, 1, 6, 0, 250, 32, 128])), (SHORTER, own_option(SHORTER)), (LONGEST, own_option(LONGEST)),
                          (b"W", bytes([134, 34, 0, 0, 0, 3, 1, 28, 0, 0]) + bytes(23) + b"\x80")):
        s.say("an option of %d bytes" % len(option))
        for length in range(41):
            s.write_option(label, 12 if length < len(option) else option, filled[:length])
        for length in (42, 100, 255, 256, 257, 600):
            s.write_option(label, option, filled[:length])
        s.say("what stood in the output before is not read")
        for out in (option + option[:6], b"\0" * 40, b"\xff" * 40, option[::-1] + b"\x86" * 6):
            s.write_option(label, option, out)
    s.say("Refused with 3 or 19: all of the output stays, of each length.")
    for length in [*range(12), 33, 34, 35, 40, 256]:
        s.write_option(b"A/", 3, filled[:length])
        s.write_option(spoilt(24), 19, filled[:length])
        s.write_option(spoilt(255), 19, filled[:length])
        s.write_option(spoilt(256), 3, filled[:length])
        s.write_option(b"", 3, filled[:length])
    s.dump("tables")
    s.say("An output of over 65536 bytes; one whose length is too short in its low bits only.")
    s.call("writeoption =V =%s" % ("x" * 65541), "length 10 " + h(bytes([134, 10, 0, 0, 0, 3, 1, 4, 0, 9]) + b"x" * 65531))
    s.write_option(b"V", bytes([134, 10, 0, 0, 0, 3, 1, 4, 0, 9]), b"\xee" * 261)
    s.store()


def options_twice():
    s = Script("options_twice", "01 and 02, Five: lent tables that hold a label or a mapping twice: the first counts, and a label means its first number. Both calls go by the look-ups.", True)

    def lent(labels, mappings):
        """The labels from number 5 on; of each mapping the label's number, level and categories."""
        s.fresh()
        for k, label in enumerate(labels):
            s.poke("labels", 256 * (5 + k), place(label))
        s.poke("words", 0, 5 + len(labels))
        s.poke("words", 2, len(mappings))
        if mappings:
            s.poke("entries", 768, bytes(m[0] for m in mappings))
            s.poke("entries", 800, bytes(m[1] for m in mappings))
        for k, m in enumerate(mappings):
            for row, word in zip((4, 36, 68), words_of(sum_of(m[2]))):
                if word:
                    s.poke("words", row + k, word)
    long = spoilt(30)
    s.say("A label twice, its second number mapped: it is unmapped, and nothing has that mapping.")
    lent([b"A", b"B", b"A"], [(7, 9, (1,))])
    there_and_back(s, b"A", own_option(b"A"))
    s.read_option(option_of(9, (1,)), 21)
    s.say("a mapping of the first number behind it")
    lent([b"A", b"B", b"A"], [(7, 9, (1,)), (5, 8, (2,))])
    there_and_back(s, b"A", option_of(8, (2,)))
    s.read_option(option_of(9, (1,)), 21)
    s.say("the second number and another label mapped alike: the other label")
    lent([b"A", b"A", b"B"], [(6, 9, (1,)), (7, 9, (1,))])
    there_and_back(s, b"B", option_of(9, (1,)))
    s.write_option(b"A", own_option(b"A"))
    lent([b"A", b"A", b"B"], [(6, 9, (1,)), (7, 9, (1,)), (5, 9, (1,))])
    there_and_back(s, b"A", option_of(9, (1,)))
    s.write_option(b"B", option_of(9, (1,)))
    s.say("A label of 30 bytes twice, its second number mapped: 19.")
    lent([long, b"B", long], [(7, 9, (1,))])
    s.write_option(long, 19)
    s.write_option(long, 19, b"")
    s.read_option(option_of(9, (1,)), 21)
    lent([long, b"B", long], [(7, 9, (1,)), (5, 9, (1,))])
    there_and_back(s, long, option_of(9, (1,)))
    s.say("One of the five stored again.")
    lent([b"_", b"*"], [(5, 9, (1,)), (6, 9, (2,))])
    there_and_back(s, b"_", own_option(b"_"))
    there_and_back(s, b"*", own_option(b"*"))
    s.read_option(option_of(9, (1,)), 21)
    s.read_option(option_of(9, (2,)), 21)
    s.say("A mapping twice: the first counts, both ways.")
    lent([b"A", b"B"], [(5, 9, (1,)), (5, 8, (2,))])
    there_and_back(s, b"A", option_of(9, (1,)))
    s.read_option(option_of(8, (2,)), 21)
    s.say("the second mapping is another label's too")
    lent([b"A", b"B"], [(5, 9, (1,)), (5, 8, (2,)), (6, 8, (2,))])
    there_and_back(s, b"A", option_of(9, (1,)))
    there_and_back(s, b"B", option_of(8, (2,)))
    lent([b"A", b"B"], [(6, 8, (2,)), (5, 9, (1,)), (5, 8, (2,))])
    there_and_back(s, b"B", option_of(8, (2,)))
    there_and_back(s, b"A", option_of(9, (1,)))
    s.say("twice the same; and the same set at two levels")
    lent([b"A", b"B"], [(5, 9, (1,)), (5, 9, (1,)), (6, 9, (1,))])
    there_and_back(s, b"A", option_of(9, (1,)))
    s.write_option(b"B", option_of(9, (1,)))
    lent([b"A"], [(5, 9, (1,)), (5, 8, (1,))])
    there_and_back(s, b"A", option_of(9, (1,)))
    s.read_option(option_of(8, (1,)), 21)
    s.say("the first at level 250, the second not; and the other way")
    lent([b"V"], [(5, 250, (2, 8)), (5, 9, (2, 8))])
    s.write_option(b"V", option_of(250, (2, 8)))
    s.read_option(option_of(250, (2, 8)), b"A")
    s.read_option(option_of(9, (2, 8)), 21)
    lent([b"V"], [(5, 9, (2, 8)), (5, 250, (2, 8))])
    there_and_back(s, b"V", option_of(9, (2, 8)))
    s.say("A label of 30 bytes mapped twice.")
    lent([long], [(5, 9, (1,)), (5, 8, (184,))])
    there_and_back(s, long, option_of(9, (1,)))
    s.read_option(option_of(8, (184,)), 21)
    s.say("A mapping write after it replaces the first; the second still counts for nothing.")
    s.mapping(long + b" 7 3")
    there_and_back(s, long, option_of(7, (3,)))
    s.read_option(option_of(8, (184,)), 21)
    s.say("The mapping at each place of 32, of the same label: the first of them.")
    for at in range(0, 32, 5):
        lent([b"A", b"B"], [(6, 9, (1,)) if k < at else (5, 9, (k + 1,)) for k in range(32)])
        there_and_back(s, b"A", option_of(9, (at + 1,)))
        if at:
            s.write_option(b"B", option_of(9, (1,)))
            s.read_option(option_of(9, (1,)), b"B")
        s.read_option(option_of(9, (32,)), 21)
    s.say("The label at two places of 64: its number is the lower one, wherever the mapping stands.")
    for first, second in ((0, 1), (4, 5), (5, 6), (5, 63), (30, 31), (31, 32), (62, 63)):
        for number, expect in ((first, option_of(9, (4,))), (second, own_option(b"Double"))):
            s.fresh()
            labels_to(s, 64)
            s.mapping(name_of(number) + b" 9 4")
            for where in (first, second):
                s.poke("labels", 256 * where, place(b"Double"))
            s.write_option(b"Double", expect)
            s.read_option(option_of(9, (4,)), b"Double" if number == first else 21)
    s.store()

    s = Script("options_odd", "01 and 02, Five: odd lent tables that are not damaged: ill-formed and empty stored labels that are mapped, under five labels, other labels at 0 to 4, what stands past the counts.", True)
    s.say("The reader answers a stored label's bytes as they are; the writer cannot be asked for them: 3.")
    for label in (b"", b" ", b"\n", b"-", b"-A", b"a b", b"A/", b"A\0", b"\0", b"\0\0A", b"\xff", b"\x7f" * 23, b"/" * 24, b"\0" * 255, b"\xff" * 255, bytes(range(255))):
        lent([label], [(5, 9, (1,))])
        s.read_option(option_of(9, (1,)), label)
        s.read_option(in_option(9, b"\x40" + bytes(29)), label)
        s.read_option(option_of(8, (1,)), 21)
        s.write_option(label, 3)
        s.write_option(b"A", own_option(b"A"))
        s.label(5, label)
    s.say("An ill-formed label below a good one, mapped alike: the lower one. Behind it: the good one.")
    for label in (b"", b"-", b"A/", b"\0" * 255):
        lent([label, b"V"], [(5, 9, (1,)), (6, 9, (1,))])
        s.write_option(b"V", option_of(9, (1,)))
        s.read_option(option_of(9, (1,)), label)
        lent([b"V", label], [(6, 9, (1,)), (5, 9, (1,))])
        there_and_back(s, b"V", option_of(9, (1,)))
    s.say("An ill-formed label twice: its first number counts.")
    for label in (b"", b"a b", b"\0" * 255):
        lent([label, label], [(6, 9, (1,))])
        s.read_option(option_of(9, (1,)), 21)
        lent([label, label], [(6, 9, (1,)), (5, 9, (1,))])
        s.read_option(option_of(9, (1,)), label)
    s.say("An ill-formed label at level 250 is not asked for.")
    lent([b"A/"], [(5, 250, own_categories(b"A/"))])
    s.read_option(own_option(b"A/"), 3)
    lent([b""], [(5, 250, ())])
    s.read_option(option_of(250, ()), 3)
    s.say("What stands behind a label in its place is no part of it.")
    lent([b"Air"], [(5, 9, (1,))])
    s.poke("labels", 256 * 5 + 4, b"\xaa" * 252)
    there_and_back(s, b"Air", option_of(9, (1,)))
    s.write_option(b"Air\xaa", 3)
    s.write_option(b"Ai", own_option(b"Ai"))
    s.say("Cut to two bytes by its length, it is another label.")
    s.poke("labels", 256 * 5, b"\x02")
    there_and_back(s, b"Ai", option_of(9, (1,)))
    s.write_option(b"Air", own_option(b"Air"))
    s.say("Stored labels of each length from 0 to 255, read back by their mapping.")
    for length in [*range(27), 31, 32, 33, 63, 64, 65, 127, 128, 129, 253, 254, 255]:
        lent([spoilt(length)], [(5, 9, (1,))])
        s.read_option(option_of(9, (1,)), spoilt(length))
        s.write_option(spoilt(length), option_of(9, (1,)) if length else 3)
    s.say("0 to 4 labels: a label that is not stored goes as its own bits; no mapping matches.")
    for count in range(5):
        s.fresh()
        s.poke("words", 0, count)
        s.dump("%d labels" % count)
        for label in (*FIVE, b"A", LONGEST):
            there_and_back(s, label, own_option(label))
        s.write_option(spoilt(24), 19)
        s.read_option(option_of(9, ()), 21)
        s.read_option(option_of(0, ()), 21)
        s.dump("%d labels" % count)
        if count:
            s.mapping(FIVE[count - 1] + b" 9")
            there_and_back(s, FIVE[count - 1], option_of(9, ()))
    s.say("Memory of zeros: no label.")
    s.fresh()
    s.poke("labels", 0, b"\0" * 1282)
    s.poke("words", 0, 0)
    there_and_back(s, b"_", own_option(b"_"))
    s.read_option(option_of(0, ()), 21)
    s.mapping(b"_ 0")
    there_and_back(s, b"_", option_of(0, ()))
    s.say("Other labels at 0 to 4.")
    s.fresh()
    for k, label in enumerate((b"*", b"_", b"Air", LONGEST, spoilt(255))):
        s.poke("labels", 256 * k, place(label))
        s.mapping(label + b" 9 %d" % (k + 1))
    for k, label in enumerate((b"*", b"_", b"Air", LONGEST, spoilt(255))):
        there_and_back(s, label, option_of(9, (k + 1,)))
    s.write_option(b"^", own_option(b"^"))
    s.say("Labels and mappings past the counts are not stored.")
    lent([b"A", b"B", spoilt(30)], [(5, 9, (1,)), (6, 9, (2,)), (7, 9, (3,))])
    for count in (3, 2, 1, 0):
        s.poke("words", 2, count)
        for k, label in enumerate((b"A", b"B", spoilt(30))):
            s.write_option(label, option_of(9, (k + 1,)) if k < count else own_option(label) if k < 2 else 19)
            s.read_option(option_of(9, (k + 1,)), label if k < count else 21)
    s.poke("words", 0, 5)
    for label in (b"A", b"B"):
        there_and_back(s, label, own_option(label))
    s.write_option(spoilt(30), 19)
    s.say("Bad contents in unused places are no damage.")
    small_state(s)
    for at, count in ((3, 253), (259, 253), (515, 253), (770, 30), (802, 30), (834, 6)):
        s.poke("entries", at, b"\xff" * count)
    for k in (2, 3, 31):
        s.poke_set(k, EVERY_BIT)
    there_and_back(s, b"A", option_of(9, (1, 63)))
    there_and_back(s, b"D", option_of(9, (2,)))
    there_and_back(s, b"B", own_option(b"B"))
    s.read_option(option_of(255, range(1, 185)), 21)
    s.store()


def options_full():
    s = Script("options_full", "02, Five: tables of 64 labels and 32 mappings: each label written and read, the mapped ones by mappings of their own, then alike.", True)
    full(s, 64, 256, 0)
    for k in range(64):
        there_and_back(s, name_of(k), own_option(name_of(k)))
    s.say("32 different mappings, of the labels 0 to 31.")
    members = [tuple(sorted({184 - 5 * k, 1 + 3 * k, 64 + k % 5})) for k in range(32)]
    for k in range(32):
        s.mapping(name_of(k) + b" %d " % (k * 8 + 1) + listed(members[k]))
    s.dump("different", True)
    for k in range(64):
        there_and_back(s, name_of(k), option_of(k * 8 + 1, members[k]) if k < 32 else own_option(name_of(k)))
    for k in range(31):
        s.read_option(option_of(k * 8 + 9, members[k]), 21)
    s.write_option(b"New", own_option(b"New"))
    s.write_option(spoilt(24), 19)
    s.dump("different", True)
    s.say("All 32 alike: each is written, and the lowest is read; then each is taken away from below.")
    for k in range(32):
        s.mapping(name_of(31 - k) + b" 9 1 63")
        s.read_option(option_of(9, (1, 63)), name_of(31 - k))
    for k in range(32):
        s.write_option(name_of(k), option_of(9, (1, 63)))
    for k in range(32):
        s.read_option(option_of(9, (1, 63)), name_of(k))
        s.mapping(name_of(k) + b" 8 %d" % (k + 1))
        there_and_back(s, name_of(k), option_of(8, (k + 1,)))
    s.read_option(option_of(9, (1, 63)), 21)
    s.say("The last label, of 255 bytes, with the last mapping.")
    s.fresh()
    labels_to(s, 63)
    for k in range(31):
        s.mapping(name_of(k) + b" 9 %d" % (k + 1))
    s.mapping(spoilt(255) + b" 9 32")
    s.label(63, spoilt(255))
    there_and_back(s, spoilt(255), option_of(9, (32,)))
    s.write_option(spoilt(254), 19)
    s.say("The mapping at each place of 32, sought alone, at levels 0 and 255.")
    laid(s)
    for level in (0, 255):
        s.poke("entries", 800, bytes([level ^ 1]) * 32)
        for k in range(0, 32) if level else (0, 1, 15, 16, 30, 31):
            s.read_option(option_of(level, ()), 21)
            s.poke("entries", 800 + k, bytes([level]))
            there_and_back(s, name_of(k), option_of(level, ()))
            s.poke("entries", 800 + k, bytes([level ^ 1]))
    s.say("64 labels that are nearly alike, of 23 bytes and of 255; the last 32 are mapped.")
    for length in (23, 255):
        s.fresh()
        names = [spoilt(length, (length - 1, bytes([65 + k % 26])), (length - 2, bytes([97 + k // 26]))) for k in range(59)]
        for k in range(0, 59, 2):
            s.override(b" ".join(names[k:k + 2]))
        for k in range(27, 59):
            s.mapping(names[k] + b" 9 %d" % (k + 1))
        for k in range(0, 59, 1 if length == 23 else 4):
            if k >= 27:
                there_and_back(s, names[k], option_of(9, (k + 1,)))
            elif length == 23:
                there_and_back(s, names[k], own_option(names[k]))
            else:
                s.write_option(names[k], 19)
    s.store()


def options_sets():
    s = Script("options_sets", "02, Five: every category from 1 to 184 alone, its bitmap byte by hand; sets of every size, none and all; written and read.", True)
    s.say("Alone: n mod 8 gives the bit, n/8 rounded down the byte; as many bitmap bytes as the byte's place, and one.")
    for n in range(1, 185):
        s.mapping(b"V 9 %d" % n)
        bitmap = "00" * (n // 8) + ("80", "40", "20", "10", "08", "04", "02", "01")[n % 8]
        s.call("writeoption =V " + "ee" * 34, "length %d 86%02x0000000301%02x0009%s%s" % (11 + n // 8, 11 + n // 8, 5 + n // 8, bitmap, "ee" * (23 - n // 8)))
        s.call("readoption 86%02x0000000301%02x0009%s" % (11 + n // 8, 5 + n // 8, bitmap), "peer 56")
    s.say("None, and all 184.")
    s.mapping(b"V 9")
    s.call("writeoption =V " + "ee" * 12, "length 10 860a000000030104" + "0009" + "eeee")
    s.call("readoption 860a0000000301040009", "peer 56")
    s.mapping(b"V 9 " + listed(range(1, 185)))
    s.call("writeoption =V " + "ee" * 36, "length 34 862200000003011c00097f" + "ff" * 22 + "80eeee")
    s.call("readoption 862200000003011c00097f" + "ff" * 22 + "80", "peer 56")
    s.call("readoption 862100000003011b00097f" + "ff" * 22, "refused 21")
    s.say("Sets of every size, one category more each time; every second one is written too.")
    order = sorted(range(1, 185), key=lambda n: n * 37 % 185)
    s.mapping(b"V 9")
    for size in range(1, 185):
        members, word = sorted(order[:size]), (order[size - 1] - 1) // 64
        s.poke("words", (4, 36, 68)[word], words_of(sum_of(members))[word])
        if size % 2:
            s.write_option(b"V", option_of(9, members))
        s.read_option(option_of(9, members), b"V")
    s.say("Sets of any kind.")
    rng = random.Random("options")
    for turn in range(60):
        members = sorted(rng.sample(range(1, 185), rng.choice((1, 2, 3, 5, 8, 20, 92, 150, 180))))
        level = rng.choice((0, 1, 9, 100, 249, 251, 255))
        s.mapping(b"V %d " % level + listed(members))
        there_and_back(s, b"V", option_of(level, members))
        s.read_option(option_of(level, sorted(set(members) ^ {rng.randrange(1, 185)})), 21)
    s.store()


def options_refusals():
    s = Script("options_refusals", "02, Five: the reader 0 16 17 18 and 3 or 21; the writer 0 3 19 12. Each refusal, and each two neighbours where an input deserves both. Nothing changes.")
    s.fresh()
    s.mapping(b"V 9 1")
    s.dump("state")

    def reads(name, data, number):
        """`name` says which numbers hold."""
        s.say("reader: " + name)
        s.read_option(bytes(data), number)
        s.dump("state")

    def writes(name, label, number, outs=(b"", b"\xee", b"\xee" * 9, b"\xee" * 40)):
        s.say("writer: " + name)
        for out in outs:
            s.write_option(label, number, out)
        s.dump("state")
    reads("16, no byte", b"", 16)
    reads("16, nine bytes", [134, 9, 0, 0, 0, 3, 1, 3, 0], 16)
    reads("16, byte 0", [135, 11, 0, 0, 0, 3, 1, 5, 0, 9, 64], 16)
    reads("16, byte 0 without its top bit", [6, 11, 0, 0, 0, 3, 1, 5, 0, 9, 64], 16)
    reads("16, the total", [134, 10, 0, 0, 0, 3, 1, 5, 0, 9, 64], 16)
    reads("16, the tag's type", [134, 11, 0, 0, 0, 3, 2, 5, 0, 9, 64], 16)
    reads("16, a tag of type 5, the ranges", [134, 14, 0, 0, 0, 3, 5, 8, 0, 9, 0, 2, 0, 1], 16)
    reads("16, the tag length", [134, 11, 0, 0, 0, 3, 1, 4, 0, 9, 64], 16)
    reads("16, the tag length is the total", [134, 11, 0, 0, 0, 3, 1, 11, 0, 9, 64], 16)
    reads("16, byte 8", [134, 11, 0, 0, 0, 3, 1, 5, 1, 9, 64], 16)
    reads("16, 31 bitmap bytes", [134, 41, 0, 0, 0, 3, 1, 35, 0, 9, 64] + [0] * 30, 16)
    reads("16, one byte more than the total says", [134, 11, 0, 0, 0, 3, 1, 5, 0, 9, 64, 0], 16)
    reads("16, one byte less", [134, 11, 0, 0, 0, 3, 1, 5, 0, 9], 16)
    reads("16 and 17", [135, 11, 0, 0, 0, 4, 1, 5, 0, 9, 64], 16)
    reads("16 and 17, under ten bytes", [134, 6, 0, 0, 0, 4], 16)
    reads("16 and 17, the total", [134, 12, 0, 0, 0, 4, 1, 5, 0, 9, 64], 16)
    reads("16 and 17, the tag's type", [134, 11, 3, 0, 0, 0, 0, 5, 0, 9, 64], 16)
    reads("16 and 17, the tag length", [134, 11, 0, 0, 1, 3, 1, 6, 0, 9, 64], 16)
    reads("16 and 17, byte 8", [134, 11, 0, 1, 0, 3, 1, 5, 255, 9, 64], 16)
    reads("16 and 17, 31 bitmap bytes", [134, 41, 0, 0, 0, 17, 1, 35, 0, 9] + [0] * 31, 16)
    reads("16 and 18", [134, 11, 0, 0, 0, 3, 1, 5, 1, 9, 192], 16)
    reads("16 and 18, category 240 and above, in 31 bitmap bytes", [134, 41, 0, 0, 0, 3, 1, 35, 0, 9, 64] + [0] * 29 + [1], 16)
    reads("16 and 18, category 0 in 31 bitmap bytes", [134, 41, 0, 0, 0, 3, 1, 35, 0, 9, 192] + [0] * 30, 16)
    reads("16 and 3", [134, 10, 0, 0, 0, 3, 1, 4, 1, 250], 16)
    reads("16 and 3, 31 zero bytes", [134, 41, 0, 0, 0, 3, 1, 35, 0, 250] + [0] * 31, 16)
    reads("16 and 21", [134, 11, 0, 0, 0, 3, 0, 5, 0, 8, 64], 16)
    reads("16 and 17 18 21, all of it wrong", [0, 0, 9, 9, 9, 9, 9, 0, 9, 9, 255, 255], 16)
    for doi in ([0, 0, 0, 0], [0, 0, 0, 1], [0, 0, 0, 2], [0, 0, 0, 4], [0, 0, 0, 17], [0, 0, 0, 131], [0, 0, 1, 3], [0, 1, 0, 3], [1, 0, 0, 3], [3, 0, 0, 0], [0, 3, 0, 0], [0, 0, 3, 0], [128, 0, 0, 3], [255, 255, 255, 255], [0, 0, 3, 3], [3, 3, 3, 3]):
        reads("17, DOI %s" % " ".join("%d" % b for b in doi), [134, 11] + doi + [1, 5, 0, 9, 64], 17)
        s.read_option(bytes([134, 12] + doi + [1, 6, 0, 250, 32, 128]), 17)
    reads("17 and 18, category 0", [134, 11, 0, 0, 0, 4, 1, 5, 0, 9, 192], 17)
    reads("17 and 18, category 185", [134, 34, 0, 0, 0, 4, 1, 28, 0, 9, 64] + [0] * 22 + [64], 17)
    reads("17 and 18, level 250", [134, 12, 3, 0, 0, 0, 1, 6, 0, 250, 160, 128], 17)
    reads("17 and 3", [134, 10, 0, 0, 0, 0, 1, 4, 0, 250], 17)
    reads("17 and 21", [134, 11, 0, 0, 0, 0, 1, 5, 0, 8, 64], 17)
    reads("17 in the longest option, 30 bitmap bytes", [134, 40, 0, 0, 0, 0, 1, 34, 0, 9, 64] + [0] * 29, 17)
    reads("18, category 0 alone", [134, 11, 0, 0, 0, 3, 1, 5, 0, 9, 128], 18)
    reads("18, category 0 beside a mapped set", [134, 11, 0, 0, 0, 3, 1, 5, 0, 9, 192], 18)
    reads("18, category 185 beside it", [134, 34, 0, 0, 0, 3, 1, 28, 0, 9, 64] + [0] * 22 + [64], 18)
    reads("18, category 191", [134, 34, 0, 0, 0, 3, 1, 28, 0, 9, 64] + [0] * 22 + [1], 18)
    reads("18, category 192", [134, 35, 0, 0, 0, 3, 1, 29, 0, 9, 64] + [0] * 23 + [128], 18)
    reads("18, category 239, the last of 30 bytes", [134, 40, 0, 0, 0, 3, 1, 34, 0, 9, 64] + [0] * 28 + [1], 18)
    reads("18 and 3, category 0 and no label", [134, 11, 0, 0, 0, 3, 1, 5, 0, 250, 128], 18)
    reads("18 and 3, category 0 and a blank", [134, 11, 0, 0, 0, 3, 1, 5, 0, 250, 144], 18)
    reads("18 and 3, category 185 and no label", [134, 34, 0, 0, 0, 3, 1, 28, 0, 250] + [0] * 23 + [64], 18)
    reads("18 and 3, category 200 and an inner zero byte", [134, 36, 0, 0, 0, 3, 1, 30, 0, 250, 32, 128, 32] + [0] * 22 + [128], 18)
    reads("18 at level 250, category 0 beside A", [134, 12, 0, 0, 0, 3, 1, 6, 0, 250, 160, 128], 18)
    reads("18 and 21, category 0 and another set", [134, 11, 0, 0, 0, 3, 1, 5, 0, 9, 160], 18)
    reads("18 and 21, category 0 and another level", [134, 11, 0, 0, 0, 3, 1, 5, 0, 8, 192], 18)
    reads("18 and 21, category 185", [134, 34, 0, 0, 0, 3, 1, 28, 0, 8] + [0] * 23 + [64], 18)
    reads("3, no bitmap byte", [134, 10, 0, 0, 0, 3, 1, 4, 0, 250], 3)
    reads("3, a zero byte", [134, 11, 0, 0, 0, 3, 1, 5, 0, 250, 0], 3)
    reads("3, a dash", [134, 12, 0, 0, 0, 3, 1, 6, 0, 250, 22, 128], 3)
    reads("3, a leading dash", [134, 13, 0, 0, 0, 3, 1, 7, 0, 250, 22, 160, 128], 3)
    reads("3, a slash", [134, 12, 0, 0, 0, 3, 1, 6, 0, 250, 23, 128], 3)
    reads("3, a blank behind A", [134, 12, 0, 0, 0, 3, 1, 6, 0, 250, 32, 144], 3)
    reads("3, an inner zero byte", [134, 14, 0, 0, 0, 3, 1, 8, 0, 250, 32, 128, 32, 128], 3)
    reads("3, a byte of 193", [134, 12, 0, 0, 0, 3, 1, 6, 0, 250, 96, 128], 3)
    reads("3 and never 21: no label has level 250 and this set", [134, 11, 0, 0, 0, 3, 1, 5, 0, 250, 64], 3)
    reads("21, the level", [134, 11, 0, 0, 0, 3, 1, 5, 0, 8, 64], 21)
    reads("21, the set", [134, 11, 0, 0, 0, 3, 1, 5, 0, 9, 32], 21)
    reads("21, a category more", [134, 11, 0, 0, 0, 3, 1, 5, 0, 9, 96], 21)
    reads("21, no category", [134, 10, 0, 0, 0, 3, 1, 4, 0, 9], 21)
    reads("21 and never 3: a set that is no label, at level 249", [134, 10, 0, 0, 0, 3, 1, 4, 0, 249], 21)
    reads("21 and never 3: the bits of A at level 251", [134, 12, 0, 0, 0, 3, 1, 6, 0, 251, 32, 128], 21)
    s.say("Nothing of it: the label.")
    s.read_option(bytes([134, 11, 0, 0, 0, 3, 1, 5, 0, 9, 64]), b"V")

    writes("3, no byte", b"", 3)
    writes("3, a slash", b"A/", 3)
    writes("3, a leading dash", b"-A", 3)
    writes("3, 256 bytes, and never 1 or 19", b"L" * 256, 3)
    writes("3, 1,001 bytes, and never 1", b"L" * 1001, 3)
    writes("3, 24 bytes, and not 19", b"L" * 23 + b"/", 3)
    writes("3, 255 bytes, and not 19", b"-" + b"L" * 254, 3)
    writes("3, beside a mapped label", b"V/", 3)
    writes("19, 24 bytes", b"L" * 24, 19)
    writes("19, 255 bytes", b"L" * 255, 19)
    writes("12", b"A", 12, [b"\xee" * k for k in range(12)])
    writes("12, a mapped label", b"V", 12, [b"\xee" * k for k in range(11)])
    writes("12, a label of 23 bytes", LONGEST, 12, (b"", b"\xee" * 33))
    s.say("19 and 12, with a label in the table; mapped it is 12 alone, and then neither.")
    s.override(b"L" * 24)
    s.write_option(b"L" * 24, 19, b"")
    s.write_option(b"L" * 24, 19, b"\xee" * 9)
    s.mapping(b"L" * 24 + b" 9 2")
    s.write_option(b"L" * 24, 12, b"")
    s.write_option(b"L" * 24, 12, b"\xee" * 10)
    there_and_back(s, b"L" * 24, bytes([134, 11, 0, 0, 0, 3, 1, 5, 0, 9, 32]))
    s.store()


def options_pairs():
    s = Script("options_pairs", "02, Five: each two faults of an option at once: the first in the order is told. In a damaged state each of these, and each fault alone, is 0. And own bits of labels that are mapped.", True)

    def with_byte(option, at, value):
        return option[:at] + bytes([value]) + option[at + 1:]
    layouts = [(0, 135), (1, 0), (6, 2), (7, 0), (7, 255), (8, 1), (8, 255)]
    dois = [(at, value) for at in (2, 3, 4, 5) for value in ((1, 128, 255) if at < 5 else (0, 2, 4, 131))]
    strays = [0] + list(range(185, 240))
    for level in (250, 9, 10):
        s.fresh()
        s.mapping(b"V 9 2 8")
        stored = {(9, (2, 8)): b"V"}
        base = in_option(level, bitmap_of((2, 8)).ljust(30, b"\0"))
        faulty = [base]
        s.say("level %d: a byte of the layout, and one of the DOI" % level)
        for at, value in layouts:
            faulty.append(with_byte(base, at, value))
            for where, other in dois:
                faulty.append(with_byte(with_byte(base, at, value), where, other))
        s_count = len(faulty)
        for n in strays:
            one = with_byte(base, 10 + n // 8, base[10 + n // 8] | 0x80 >> n % 8)
            faulty.append(one)
            for at, value in (layouts[n % len(layouts)], dois[n % len(dois)], dois[(n + 5) % len(dois)]):
                faulty.append(with_byte(one, at, value))
        for number, option in enumerate(faulty):
            if number == s_count:
                s.say("level %d: a bit that is no category, alone and with another fault" % level)
            s.read_option(option, says_option(option, stored))
        s.say("level %d: the same in a state with an unknown bit" % level)
        s.poke("words", 68, 1)
        for option in faulty:
            s.read_option(option, 0)
    s.say("Labels mapped alike, and one that is mapped to its own bits at another level: at level 250 the label is made of the bits, whoever is mapped.")
    for order in ((b"A", b"B", b"C"), (b"C", b"B", b"A")):
        s.fresh()
        for label in order:
            s.mapping(label + b" 9 2 8")
        for label in order:
            s.read_option(own_option(label), label)
            s.write_option(label, option_of(9, (2, 8)))
        s.read_option(option_of(9, (2, 8)), order[0])
        s.mapping(b"D 9 " + listed(own_categories(b"D")))
        s.read_option(own_option(b"D"), b"D")
        s.read_option(option_of(9, own_categories(b"D")), b"D")
        s.write_option(b"D", option_of(9, own_categories(b"D")))
        s.read_option(own_option(b"E"), b"E")
        s.poke("entries", 800 + 3, bytes([250]))
        for label in order + (b"D", b"E"):
            s.read_option(own_option(label), label)
        s.write_option(b"D", own_option(b"D"))
    s.store()


def options_damaged():
    s = Script("options_damaged", "01, refusal 0, and 02, Five: a damaged state: 0 before each other number of both calls, and where nothing else is wrong. The loader is not lent to them.", True)
    kinds = [("words", 0, 65), ("words", 0, HUGE), ("words", 1, 257), ("words", 2, 33), ("words", 2, (1 << 32) + 2), ("words", 3, 9), ("words", 0, 8), ("words", 0, 0), ("entries", 0, b"\x09"), ("entries", 257, b"\xff"),
             ("entries", 514, b"\x40"), ("entries", 769, b"\x09"), ("entries", 768, b"\xff"), ("entries", 833, b"\x40"), ("words", 68, 1), ("words", 69, 128), ("words", 69, HUGE), ("labels", None, 16383), ("labels", None, 16385),
             ("labels", None, 0), ("entries", None, 839), ("entries", None, 841), ("words", None, 99), ("words", None, 101), ("words", None, 36)]
    good = [b"A", b"D", b"New", b"_"]
    for number in damaged_by(s, kinds):
        for label in good + [b"A/", b"", b"L" * 24, b"L" * 256]:
            s.write_option(label, 0, b"\xee" * 34)
        s.write_option(b"A", 0, b"")
        s.write_option(b"L" * 24, 0, b"\xee")
        s.write_option(b"-", 0, b"")
        for option in (own_option(b"A"), option_of(9, (1, 63)), own_option(LONGEST), b"", own_option(b"A") + b"\0", b"\x85" + own_option(b"A")[1:], own_option(b"A")[:5] + b"\x04" + own_option(b"A")[6:], in_option(9, b"\x80"),
                       in_option(9, bytes(23) + b"\x40"), in_option(250, b""), in_option(9, b"\x01"), in_option(9, bytes(31))):
            s.read_option(option, 0)
        s.dump("kind %d" % number)
    s.say("Not damaged: the loader's numbers, the line's size and its bytes are not lent to these calls.")
    for kept in (602, 1 << 32, HUGE):
        small_state(s)
        s.poke("loader", 0, kept)
        s.end("refused 0")
        there_and_back(s, b"A", option_of(9, (1, 63)))
        there_and_back(s, b"B", own_option(b"B"))
    for size in (0, 599, 601):
        small_state(s)
        s.call("resize line %d" % size, "done")
        s.end("refused 0")
        there_and_back(s, b"D", option_of(9, (2,)))
        s.write_option(b"A/", 3)
        s.read_option(option_of(9, (3,)), 21)
    s.say("Sound again, each answers what it deserves.")
    small_state(s)
    for label, expect in ((b"A", option_of(9, (1, 63))), (b"D", option_of(9, (2,))), (b"New", own_option(b"New")), (b"A/", 3), (b"L" * 24, 19)):
        s.write_option(label, expect)
    s.store()


def options_kept():
    s = Script("options_kept", "02, Five: the reader stores nothing, and the writer neither: tables, override list, kept line and loader are the same after each call, accepted or refused.", True)
    for build in (Script.fresh, small_state, full):
        s.say("a table and a loader: %s" % {"fresh": "fresh", "small_state": "a line under way", "full": "full tables"}[build.__name__])
        build(s)
        if build is full:
            s.piece(b"A A r\nL05 L06")
        name = build.__name__
        s.dump(name)
        for label in (b"A", b"B", b"_", b"New", b"L05", b"L40", LONGEST):
            taken = {"fresh": {}, "small_state": {b"A": (1, 63)}, "full": {b"_": (1, 63), b"L05": (1, 63)}}[name].get(label)
            s.write_option(label, own_option(label) if taken is None else option_of(9, taken))
            s.dump(name)
        for label, number in ((b"A/", 3), (b"", 3), (b"L" * 24, 19), (b"L" * 256, 3)):
            s.write_option(label, number)
            s.dump(name)
        s.write_option(b"Other", 12, b"\xee" * 9)
        s.dump(name)
        for option, expect in ((own_option(b"A"), b"A"), (own_option(b"Unseen"), b"Unseen"), (own_option(LONGEST), LONGEST), (b"", 16), (own_option(b"A") + b"\0", 16), (b"\x86\x0a\0\0\0\x04\x01\x04\0\x09", 17), (in_option(9, b"\x80"), 18),
                               (in_option(250, b""), 3), (in_option(8, b""), 21), (option_of(9, (1, 63)), {"fresh": 21, "small_state": b"A", "full": b"_"}[name])):
            s.read_option(option, expect)
            s.dump(name)
        s.label(64 if build is full else 9, 13)
    s.piece(b" r\n")
    s.end("report 2 1 0 1 1 5")
    s.store()


def options_after():
    s = Script("options_after", "02, Five, with the calls of 01: after loads, changes, revokes, override lists and mappings replaced, a label is written by its mapping as it then is, and read back.", True)
    s.fresh()

    def mapped_as(label, level, *members):
        there_and_back(s, label, option_of(level, members))
    s.say("A label that enters by a line stays unmapped; a revoke, a change and an override list map nothing.")
    there_and_back(s, b"Probe3", own_option(b"Probe3"))
    s.line(b"Probe3 Air w", None)
    there_and_back(s, b"Probe3", own_option(b"Probe3"))
    there_and_back(s, b"Air", own_option(b"Air"))
    s.change(b"Probe3 Desk rx w")
    s.revoke(b"Probe3", "revoked 2")
    s.override(b"Air Probe3 Alarm")
    for label in (b"Probe3", b"Air", b"Desk", b"Alarm", b"Unseen"):
        there_and_back(s, label, own_option(label))
    s.say("A mapping write maps it; what comes after leaves the mapping.")
    s.mapping(b"Air 9 1 63")
    mapped_as(b"Air", 9, 1, 63)
    s.line(b"Air Probe3 rwxatb", None)
    mapped_as(b"Air", 9, 1, 63)
    s.change(b"Air Probe3 - r")
    s.revoke(b"Air", "revoked 1")
    s.override(b"-")
    mapped_as(b"Air", 9, 1, 63)
    s.read_option(own_option(b"Air"), b"Air")
    s.mapping(b"Probe3 9 1 63")
    s.write_option(b"Air", option_of(9, (1, 63)))
    s.read_option(option_of(9, (1, 63)), b"Probe3")
    s.mapping(b"Probe3 9 1 63 100")
    mapped_as(b"Air", 9, 1, 63)
    mapped_as(b"Probe3", 9, 1, 63, 100)
    s.say("Refused writes change nothing of it.")
    for text, number in ((b"Air 250", 9), (b"Air 256", 9), (b"Air 9 185", 9), (b"Air 9 0", 9), (b"Air", 2), (b"Air/ 8", 3), (to_length(b"Air 8", 1001), 1)):
        s.mapping(text, "refused %d" % number)
        mapped_as(b"Air", 9, 1, 63)
    s.line(b"Air Air r", 5)
    s.change(b"Air Desk b -", "refused 4")
    s.revoke(b"Air ", "refused 3")
    mapped_as(b"Air", 9, 1, 63)
    s.say("With a line under way: a write made between acts at once, and the line is judged at its newline.")
    s.piece(b"Late Ai")
    there_and_back(s, b"Late", own_option(b"Late"))
    s.mapping(b"Late 7 184")
    mapped_as(b"Late", 7, 184)
    s.piece(b"r r\nMore")
    mapped_as(b"Late", 7, 184)
    there_and_back(s, b"More", own_option(b"More"))
    s.end("report 2 1 0 1 2 2")
    s.list(3, b"Late Air r\n")
    s.ask(b"Late", b"Air", b"r", "granted 6")
    s.say("A label of 24 bytes: not in the table, in it by a line, mapped, mapped anew.")
    long = spoilt(24)
    s.write_option(long, 19)
    s.line(long + b" Air r", None)
    s.write_option(long, 19)
    s.mapping(long + b" 0")
    mapped_as(long, 0)
    s.mapping(long + b" 255 184")
    mapped_as(long, 255, 184)
    s.read_option(option_of(0, ()), 21)
    s.revoke(long, "revoked 1")
    mapped_as(long, 255, 184)
    s.say("Look-ups and questions between the two.")
    s.write_option(long, option_of(255, (184,)))
    s.bylabel(long, mapped(255, category(184), 1))
    s.bylevel(255, category(184), "label 10")
    s.ask(long, b"Air", b"r", "denied 7")
    s.run(255, category(184), [(3, 255, category(184))], "label 3")
    s.read_option(option_of(255, (184,)), long)
    s.say("A record's line loaded, its labels of 23 bytes.")
    s.to_line(fixed(LONGEST, b"Air", b"r----"), LONGEST + b" Air r\n")
    s.line(LONGEST + b" Air r", None)
    there_and_back(s, LONGEST, own_option(LONGEST))
    s.say("A fresh table in the same memory: nothing is mapped.")
    s.call("freshen", "done")
    there_and_back(s, b"Air", own_option(b"Air"))
    s.read_option(option_of(9, (1, 63)), 21)
    s.write_option(long, 19)
    s.say("Grown tables of many kinds: each label written and read, the lowest number where two are mapped alike.")
    rng = random.Random("options after")
    for turn in range(9):
        s.fresh()
        labels, maps = list(FIVE), {}
        pool = [b"A", b"B", b"C", b"AB", b"Air", b"air", b"@@", LONGEST, SHORTER, spoilt(24), spoilt(25), b"250", b"Z" * 40, *FIVE]
        for step in range(30):
            one, two = rng.sample(pool, 2)
            kind = rng.randrange(6)
            if kind == 0:
                s.line(b"%s %s r" % (one, two), None)
                entered = [one, two]
            elif kind == 1:
                s.change(b"%s %s w r" % (one, two))
                entered = [one, two]
            elif kind == 2:
                s.override(one + b" " + two)
                entered = [one, two]
            else:
                level = rng.choice((0, 9, 249, 250, 251, 255))
                members = rng.choice(((), (1,), (2, 8), (184,), (1, 184), tuple(own_categories(b"Air"))))
                s.mapping(b"%s %d " % (one, level) + listed(members), "refused 9" if level == 250 else "done")
                entered = [] if level == 250 else [one]
                if level != 250:
                    maps[one] = (level, members)
            labels += [label for label in entered if label not in labels]
        for label in pool[:13] + [b"_"]:
            if label not in maps:
                if len(label) < 24:
                    there_and_back(s, label, own_option(label))
                else:
                    s.write_option(label, 19)
            else:
                s.write_option(label, option_of(*maps[label]))
                s.read_option(option_of(*maps[label]), next(x for x in labels if maps.get(x) == maps[label]))
    s.store()


def options():
    options_sentences()
    options_bytes()
    options_lengths()
    options_bits()
    options_zeros()
    options_labels()
    options_rebuilt()
    options_formed()
    options_mapped()
    options_level()
    options_lent()
    options_outputs()
    options_twice()
    options_full()
    options_sets()
    options_refusals()
    options_pairs()
    options_damaged()
    options_kept()
    options_after()


# ---------------------------------------------------------------------------------------------------------------------------------------------
# The letter b is retired: 02, request Six
# ---------------------------------------------------------------------------------------------------------------------------------------------

REQUESTS = [bytes(c for j, c in enumerate(b"rwxa") if k >> j & 1) for k in range(1, 16)]


def ask_all(s, subject, object_, modes):
    """Every request of r w x a, with and without the capability, under an empty override list."""
    for request in REQUESTS:
        for capable in (0, 1):
            s.ask(subject, object_, request, by_rule(modes, request, capable), capable)


def loaded(s, text, numbers):
    """A text to its end, and the eight numbers of its report."""
    s.piece(text)
    s.call("end", "report " + numbers)


def bringup_lines():
    s = Script("bringup_lines", "02, Six: b or B in a line's access field is a placeholder, as a dash is. The line is accepted and counted, its rule has the other letters, listed and asked about.", True)
    s.say("P10: after `Probe3 Air rRb` Probe3 asks r of Air: granted 6. 01's example, `Probe3 Air w`, held no b.")
    loaded(s, b"Probe3 Air rRb\n", "1 1 0 0 0 0 0 1")
    s.ask(b"Probe3", b"Air", b"r", "granted 6")
    s.list(0, b"Probe3 Air r\n", b"\xee" * 14)
    loaded(s, b"Probe3 Air w\n", "1 1 0 0 0 0 0 0")
    s.ask(b"Probe3", b"Air", b"w", "granted 6")
    s.ask(b"Probe3", b"Air", b"r", "denied 7")
    s.say("Fields by hand. Every request of r w x a is asked; b alone grants none.")
    for access, listed in ((b"b", b"-"), (b"B", b"-"), (b"bb", b"-"), (b"bB", b"-"), (b"Bb", b"-"), (b"BB", b"-"), (b"-b-", b"-"), (b"-b", b"-"), (b"b-", b"-"), (b"-b-B", b"-"), (b"b--b", b"-"), (b"bbbbbb", b"-"),
                           (b"rb", b"r"), (b"Rb", b"r"), (b"bR", b"r"), (b"br", b"r"), (b"BR", b"r"), (b"RB", b"r"), (b"rRb", b"r"), (b"r-b", b"r"), (b"wb", b"w"), (b"Bx", b"x"), (b"ab", b"a"), (b"tb", b"t"), (b"bT", b"t"),
                           (b"rwxatb", b"rwxat"), (b"RWXATB", b"rwxat"), (b"btaxwr", b"rwxat"), (b"BTAXWR", b"rwxat"), (b"rbwbxbabtb", b"rwxat"), (b"xbw", b"wx"), (b"a-b-r", b"ra"), (b"rwxab", b"rwxa"), (b"tbr", b"rt")):
        s.call("fresh", "done")
        loaded(s, b"A B " + access + b"\n", "1 1 0 0 0 0 0 1")
        s.list(0, b"A B " + listed + b"\n")
        ask_all(s, b"A", b"B", listed)
    s.say("In the place of each letter, by hand.")
    for access, listed in ((b"bwxat", b"wxat"), (b"rbxat", b"rxat"), (b"rwbat", b"rwat"), (b"rwxbt", b"rwxt"), (b"rwxab", b"rwxa"), (b"BWXAT", b"wxat"), (b"RBXAT", b"rxat"), (b"RWBAT", b"rwat"), (b"RWXBT", b"rwxt"), (b"RWXAB", b"rwxa")):
        loaded(s, b"A B " + access, "1 1 0 0 0 0 0 1")
        s.list(0, b"A B " + listed + b"\n")
    s.say("b in each place of a field of six, beside letters and dashes.")
    for base in (b"rwxat", b"RWXAT", b"taxwr", b"-----", b"rrrrr", b"w-x-a", b"bbbbb"):
        for at in range(6):
            for one in (b"b", b"B"):
                loaded(s, b"A B " + base[:at] + one + base[at:] + b"\n", "1 1 0 0 0 0 0 1")
                s.list(0, b"A B " + listed_modes(base) + b"\n")
    s.say("Every byte before b, behind it and between two: a letter, a dash and another b are accepted; every other byte is 4. A blank leaves the field, a newline ends the line: below.")
    modes = b""
    s.line(b"A B -", None)
    for byte in range(256):
        if byte in b"\t\n ":
            continue
        one = bytes([byte])
        taken = byte in b"rwxatbRWXATB-"
        for access in (b"b" + one, one + b"b", b"B" + one, one + b"B", b"b" + one + b"B"):
            loaded(s, b"A B " + access + b"\n", "1 1 0 0 0 0 0 1" if taken else "1 0 0 1 1 4 0 0")
        modes = one if taken else modes
        s.list(0, b"A B " + listed_modes(modes) + b"\n")
    for access in (b"bq", b"qb", b"bbq", b"bqb", b"Bl", b"lb", b"b/", b"b\r", b"\rb", b"b\x00", b"b\xe2", b"rwxatbq", b"brwxatl", b"-b-_"):
        loaded(s, b"A B " + access + b"\n", "1 0 0 1 1 4 0 0")
    for text, numbers in ((b"A B b \n", "1 1 0 0 0 0 0 1"), (b"A B b\t\n", "1 1 0 0 0 0 0 1"), (b"A B  b\n", "1 1 0 0 0 0 0 1"), (b"A B \tb\n", "1 1 0 0 0 0 0 1"), (b"\tA\tB\tB\t\n", "1 1 0 0 0 0 0 1"), (b"A B b b\n", "1 0 0 1 1 2 0 0"),
                          (b"A B b\tB\n", "1 0 0 1 1 2 0 0"), (b"A B b r\n", "1 0 0 1 1 2 0 0"), (b"A B b\nb\n", "2 1 0 1 2 2 0 1"), (b"A B \nb\n", "2 0 0 2 1 2 0 0"), (b"A B b\n\nb", "3 1 1 1 3 2 0 1")):
        loaded(s, text, numbers)
    s.say("A field has any length: b alone, b at its front, in its middle and at its end.")
    for n in list(range(1, 21)) + [31, 32, 33, 63, 64, 65, 127, 128, 129, 255, 256, 257, 511, 512, 513, 594, 595, 596]:
        loaded(s, b"A B " + b"b" * n + b"\n", "1 1 0 0 0 0 0 1")
        s.list(0, b"A B -\n")
        for at in sorted({0, n // 2, n - 1}):
            loaded(s, b"A B " + b"-" * at + b"B" + b"w" * (n - at - 1) + b"\n", "1 1 0 0 0 0 0 1")
            s.list(0, b"A B w\n" if at < n - 1 else b"A B -\n")
        loaded(s, b"A B " + b"r" * n + b"\n", "1 1 0 0 0 0 0 0")
    for n, places in ((26, range(26)), (596, (254, 255, 256, 594, 595))):
        for at in places:
            loaded(s, b"A B " + b"x" * at + b"b" + b"x" * (n - at - 1) + b"\n", "1 1 0 0 0 0 0 1")
            s.list(0, b"A B x\n")
            loaded(s, b"A B " + b"b" * at + b"q" + b"b" * (n - at - 1) + b"\n", "1 0 0 1 1 4 0 0")
            s.list(0, b"A B x\n")
    s.store()


def bringup_count():
    s = Script("bringup_count", "02, Six: the report's last number, how many accepted lines held b or B in their access field: once a line; a refused or a skipped line does not count.", True)
    s.say("Once a line, however many it has; other lines do not count.")
    for text, numbers in ((b"", "0 0 0 0 0 0 0 0"), (b"A B r\n", "1 1 0 0 0 0 0 0"), (b"A B -\n", "1 1 0 0 0 0 0 0"), (b"A B b\n", "1 1 0 0 0 0 0 1"), (b"A B B\n", "1 1 0 0 0 0 0 1"), (b"A B bb\n", "1 1 0 0 0 0 0 1"),
                          (b"A B bBbB\n", "1 1 0 0 0 0 0 1"), (b"A B b-b-b\n", "1 1 0 0 0 0 0 1"), (b"A B rbwbxbabtb\n", "1 1 0 0 0 0 0 1"), (b"A B " + b"b" * 596 + b"\n", "1 1 0 0 0 0 0 1"),
                          (b"A B b\nA B b\n", "2 2 0 0 0 0 0 2"), (b"A B rb\nA B r\nA B wb\n", "3 3 0 0 0 0 0 2"), (b"A B r\nA B w\n", "2 2 0 0 0 0 0 0"), (b"A B r\nA B B\n", "2 2 0 0 0 0 0 1"), (b"A B b\nA B r\n", "2 2 0 0 0 0 0 1"),
                          (b"\n \n\t\n", "3 0 3 0 0 0 0 0"), (b"\nA B b\n\nA B r\n \nC D Bw\n", "6 3 3 0 0 0 0 2"), (b"A B b", "1 1 0 0 0 0 0 1"), (b"A B r", "1 1 0 0 0 0 0 0"), (b"A B b\nC D", "2 1 0 1 2 2 0 1"), (b"A B r\nC D b", "2 2 0 0 0 0 0 1"),
                          (b"A B b\nC D B", "2 2 0 0 0 0 0 2"), (b"A B b\n ", "2 1 1 0 0 0 0 1"), (b" " * 600 + b"\nA B b\n", "2 1 1 0 0 0 0 1"), (b"A B b\n" + b" " * 601, "2 1 0 1 2 1 0 1"), (b"A B b\n" * 40, "40 40 0 0 0 0 0 40"),
                          (b"A B rb\nA B r\n" * 300, "600 600 0 0 0 0 0 300"), (b"A B rb\nA A rb\n\n" * 300, "900 300 300 300 2 5 0 300")):
        loaded(s, text, numbers)
    s.say("Refused lines that hold a b: alone, and between two lines that count. 1 2 3 4 5 in a table with room.")
    wrong = [(b"A B b" + b" " * 596, 1, 0), (b" " * 596 + b"A B b", 1, 0), (b"A B " + b"b" * 597, 1, 0), (b"A B" + b" " * 597 + b"b", 1, 0), (b"b" * 601, 1, 0), (b"A b", 2, 0), (b"b", 2, 0), (b"B", 2, 0), (b"b b", 2, 0),
             (b"A B b b", 2, 0), (b"A B r b", 2, 0), (b"A B b r", 2, 0), (b"A B b b b", 2, 0), (b"A B - b", 2, 0), (b"A/ B b", 3, 1), (b"A B/ b", 3, 3), (b"-A B B", 3, 0), (b"A -B rb", 3, 2), (b"- b b", 3, 0), (b"b - b", 3, 2),
             (b"b/ b/ b", 3, 1), (b"L" * 256 + b" B b", 3, 255), (b"A B bq", 4, 0), (b"A B qb", 4, 0), (b"A B rbl", 4, 0), (b"A B b\r", 4, 0), (b"A A bq", 4, 0), (b"A A b", 5, 0), (b"A A rb", 5, 0), (b"b b b", 5, 0),
             (b"B B b", 5, 0), (b"_ _ B", 5, 0)]
    for text, reason, where in wrong:
        s.fresh()
        loaded(s, text + b"\n", "1 0 0 1 1 %d %d 0" % (reason, where))
        loaded(s, text, "1 0 0 1 1 %d %d 0" % (reason, where))
        s.label(5, 13)
        loaded(s, b"A B b\n" + text + b"\nA B rb\n", "3 2 0 1 2 %d %d 2" % (reason, where))
        s.list(0, b"A B r\n")
        s.list(1, 13)
    s.say("6 and 7: full tables. A pair that is there is set, and counts.")
    for labels, texts in ((64, (b"New1 L05 b", b"L05 New1 rb", b"New1 New2 B")), (63, (b"New1 New2 b", b"New1 New2 rwxatB"))):
        full(s, labels, 3, 0)
        s.dump("%d labels" % labels, True)
        for text in texts:
            loaded(s, text + b"\n", "1 0 0 1 1 6 0 0")
            loaded(s, b"L05 L06 rb\n" + text + b"\nL05 L06 r", "3 2 0 1 2 6 0 1")
            s.dump("%d labels" % labels, True)
    for labels, texts in ((64, (b"L40 L41 b", b"L41 L40 rB")), (62, (b"New1 L05 b", b"L05 New1 b", b"New1 New2 rb"))):
        full(s, labels, 256, 0)
        s.dump("%d full" % labels, True)
        for text in texts:
            loaded(s, text + b"\n", "1 0 0 1 1 7 0 0")
            loaded(s, b"L05 L06 rb\n" + text + b"\nL05 L06 r", "3 2 0 1 2 7 0 1")
            s.dump("%d full" % labels, True)
    s.say("Every reason in one text, each with a b, and three lines that count among twelve.")
    full(s, 64, 256, 0)
    loaded(s, b"L05 L06 rb\nL05 b\n\nL05/ L06 b\nL05 L06 bq\nL05 L05 b\nL05 L06 B\nNew1 L05 b\nL40 L41 b\n" + b" " * 600 + b"b\nL05 L06 r\nL05 L06 bb", "12 4 1 7 2 2 0 3")
    s.list(0, b"L05 L06 -\n")
    s.say("b is a label too, and stands in labels: only the access field counts.")
    for text, numbers in ((b"b B r\n", "1 1 0 0 0 0 0 0"), (b"B b b\n", "1 1 0 0 0 0 0 1"), (b"b B b\n", "1 1 0 0 0 0 0 1"), (b"B b r\n", "1 1 0 0 0 0 0 0"), (b"b B -\n", "1 1 0 0 0 0 0 0"), (b"Bb bB w\n", "1 1 0 0 0 0 0 0"),
                          (b"bbb b rx\n", "1 1 0 0 0 0 0 0"), (b"A b -\n", "1 1 0 0 0 0 0 0"), (b"b A B\n", "1 1 0 0 0 0 0 1"), (b"bring-up Bob r\n", "1 1 0 0 0 0 0 0"), (b"bring-up Bob rb\n", "1 1 0 0 0 0 0 1"),
                          (b"b B r\nB b r\nb A b\nA b t\n", "4 4 0 0 0 0 0 1"), (b"b b r\n", "1 0 0 1 1 5 0 0"), (b"b B r b\n", "1 0 0 1 1 2 0 0"), (b"b B\n", "1 0 0 1 1 2 0 0"), (b"b B q\n", "1 0 0 1 1 4 0 0")):
        s.call("fresh", "done")
        loaded(s, text, numbers)
    s.call("fresh", "done")
    s.piece(b"b B rw\nB b xb\n")
    s.call("end", "report 2 2 0 0 0 0 0 1")
    s.label(5, b"b")
    s.label(6, b"B")
    s.list(0, b"b B rw\n")
    s.list(1, b"B b x\n")
    ask_all(s, b"b", b"B", b"rw")
    ask_all(s, b"B", b"b", b"x")
    s.say("600 bytes and b at the end: accepted, and counts; 601: refused with 1.")
    for text, numbers in ((b" " * 595 + b"A B b", "1 1 0 0 0 0 0 1"), (b" " * 596 + b"A B b", "1 0 0 1 1 1 0 0"), (b"A B" + b" " * 596 + b"b", "1 1 0 0 0 0 0 1"), (b"A B" + b" " * 597 + b"b", "1 0 0 1 1 1 0 0"),
                          (b"A B " + b"-" * 595 + b"b", "1 1 0 0 0 0 0 1"), (b"A B " + b"-" * 596 + b"b", "1 0 0 1 1 1 0 0"), (b"A B " + b"r" * 595 + b"B", "1 1 0 0 0 0 0 1"), (b"A B " + b"r" * 596 + b"B", "1 0 0 1 1 1 0 0"),
                          (b"A B b" + b"-" * 595, "1 1 0 0 0 0 0 1"), (b"A B b" + b"-" * 596, "1 0 0 1 1 1 0 0"), (b"A B b" + b" " * 595, "1 1 0 0 0 0 0 1"), (b"A B b" + b" " * 596, "1 0 0 1 1 1 0 0"),
                          (b"L" * 255 + b" " + b"M" * 255 + b" " + b"b" * 88, "1 1 0 0 0 0 0 1"), (b"L" * 255 + b" " + b"M" * 255 + b" " + b"b" * 89, "1 0 0 1 1 1 0 0")):
        assert len(text) in (600, 601)
        loaded(s, text + b"\n", numbers)
        loaded(s, text, numbers)
        s.piece(text[:599])
        s.piece(text[599:600])
        s.piece(text[600:])
        s.call("end", "report " + numbers)
    s.say("Several loads into one table: each report has its own count.")
    s.fresh()
    for text, numbers in ((b"A B rb\nC D b\n", "2 2 0 0 0 0 0 2"), (b"", "0 0 0 0 0 0 0 0"), (b"A B r\n", "1 1 0 0 0 0 0 0"), (b"E F B", "1 1 0 0 0 0 0 1"), (b"", "0 0 0 0 0 0 0 0"), (b"A A b\n", "1 0 0 1 1 5 0 0"), (b"\n", "1 0 1 0 0 0 0 0")):
        loaded(s, text, numbers)
    for k, text in enumerate((b"A B r\n", b"C D -\n", b"E F -\n")):
        s.list(k, text)
    s.say("Another loader, without an end call: its count begins at 0, and the rules of the first stay. A fresh table leaves the loader and its count.")
    s.fresh()
    s.piece(b"A B rb\nC D b\nE F")
    s.call("freshloader", "done")
    s.call("end", "report 0 0 0 0 0 0 0 0")
    s.list(1, b"C D -\n")
    s.list(2, 13)
    s.piece(b"A B rb\nC D b\n")
    s.call("freshloader", "done")
    loaded(s, b"A B wB\nC D t\n", "2 2 0 0 0 0 0 1")
    s.piece(b"A B rb\nC D b\n")
    s.call("fresh", "done")
    s.piece(b"A B r\n")
    s.call("freshen", "done")
    loaded(s, b"A B xB", "4 4 0 0 0 0 0 3")
    s.list(0, b"A B x\n")
    s.list(1, 13)
    s.say("A piece and an end call that are refused with 0 leave the count, and so do questions, writes and the calls for old records, with b in them.")
    s.fresh()
    s.piece(b"A B rb\nC D b\nA B ")
    s.dump("held")
    for part, at, value, sound in (("words", 0, 65, 9), ("words", 1, 257, 2), ("entries", 512, b"\x21", b"\x20"), ("loader", 0, 602, 4)):
        s.poke(part, at, value)
        s.piece(b"b\nA B b\n", "refused 0")
        s.call("end", "refused 0")
        s.poke(part, at, sound)
        s.dump("held")
    s.change(b"A B b -", "refused 4")
    s.change(b"A B - B", "refused 4")
    s.ask(b"A", b"B", b"b", "refused 8")
    s.ask(b"A", b"B", b"r", "granted 6")
    s.bylabel(b"b", "none")
    s.revoke(b"b", "revoked 0")
    s.to_record(b"A B b\n", fixed(b"A", b"B", b"-----"))
    s.to_line(fixed(b"A", b"B", b"b----"), 4)
    s.write_option(b"b", in_option(250, b"\x31"))
    s.dump("held")
    s.override(b"b B")
    s.mapping(b"b 9")
    loaded(s, b"b\n", "3 3 0 0 0 0 0 3")
    s.say("What b leaves in the tables is what a dash leaves: the same labels, rules and counts.")
    for access, other in ((b"b", b"-"), (b"B", b"-"), (b"rb", b"r"), (b"bR", b"-r"), (b"rwxatb", b"rwxat"), (b"-b-", b"---"), (b"bx", b"x"), (b"xbt", b"x-t")):
        for text in (access, other):
            s.fresh()
            s.piece(b"A B " + text + b"\nC D r\nb A " + text + b"\n")
            s.call("end", "report 3 3 0 0 0 0 0 %d" % (2 if text is access else 0))
            s.dump("tables of " + access.decode(), True)
    s.store()


def bringup_limits():
    s = Script("bringup_limits", "02, Six: the count of lines with b is the true one or 4294967295, whichever is smaller, whatever the other counts are. It begins at 0, and the end call leaves 0.", True)
    s.say("An access field of every length, with b as its last byte alone.")
    for length in range(1, 597):
        s.fresh()
        loaded(s, b"A B " + b"-" * (length - 1) + b"b\n", "1 1 0 0 0 0 0 1")
    s.fresh()
    s.dump("fresh")
    for start in (0, 1, 2, 126, 127, 128, 254, 255, 256, 32767, 32768, 65534, 65535, 65536, 16777215, 2147483646, 2147483647, 2147483648, MOST - 3, MOST - 2, MOST - 1, MOST):
        s.say("%d lines with b so far" % start)
        for times in (0, 1, 2, 3):
            s.fresh()
            s.poke("loader", 8, start)
            s.piece(b"A B rb\n" * times)
            s.call("end", "report %d %d 0 0 0 0 0 %d" % (times, times, min(start + times, MOST)))
            s.call("end", "report 0 0 0 0 0 0 0 0")
        s.poke("loader", 8, start)
        loaded(s, b"A B B", "1 1 0 0 0 0 0 %d" % min(start + 1, MOST))
        s.poke("loader", 8, start)
        loaded(s, b"A B r\n\nA A b\nA B bq\nb\n", "5 1 1 3 3 5 0 %d" % start)
        s.poke("loader", 8, start)
        loaded(s, b"A B rb\nA B r\nA A rb\n\nA B bb\nA B x", "6 4 1 1 3 5 0 %d" % min(start + 2, MOST))
        s.poke("loader", 8, start)
        s.call("end", "report 0 0 0 0 0 0 0 %d" % start)
        s.call("fresh", "done")
        s.call("end", "report 0 0 0 0 0 0 0 0")
    s.say("The count at its limit while accepted is below it, and the other way round; lines too. Each stops by itself.")
    for accepted, held in ((MOST - 2, 0), (MOST - 1, 0), (MOST, 0), (MOST - 1, 5), (MOST, 7), (0, MOST - 2), (0, MOST - 1), (0, MOST), (5, MOST - 1), (7, MOST), (MOST - 1, MOST - 1), (MOST, MOST - 1), (MOST - 1, MOST), (MOST, MOST),
                           (MOST - 1, MOST - 3), (MOST - 3, MOST - 1)):
        for text, more, b in ((b"A B b\n", 1, 1), (b"A B r\n", 1, 0), (b"A B rb\nA B B\nA B x\n", 3, 2), (b"A B wB", 1, 1), (b"A B b\nA B w", 2, 1)):
            s.fresh()
            s.poke("loader", 2, accepted)
            s.poke("loader", 8, held)
            loaded(s, text, "%d %d 0 0 0 0 0 %d" % (more, min(accepted + more, MOST), min(held + b, MOST)))
    for lines in (MOST - 1, MOST):
        for held in (0, 9, MOST - 1, MOST):
            s.fresh()
            s.poke("loader", 1, lines)
            s.poke("loader", 8, held)
            loaded(s, b"A B b\n\nA A b\nA B bw", "%d 2 1 1 %d 5 0 %d" % (MOST, MOST, min(held + 2, MOST)))
    s.say("Skipped lines, or refused ones, at the limit: lines with b are counted all the same.")
    for index, said in ((3, "1 1 %d 0 0 0 0 1" % MOST), (4, "1 1 0 %d 0 0 0 1" % MOST)):
        s.fresh()
        s.poke("loader", index, MOST)
        loaded(s, b"A B rb\n", said)
    s.say("A count that does not add up is no damage: more lines with b than lines. It stays until a line counts, and is gone after the end call.")
    for held in (1, 1000, MOST):
        s.fresh()
        s.poke("loader", 8, held)
        s.dump("held %d" % held)
        s.piece(b"")
        s.ask(b"A", b"B", b"r", "denied 7")
        s.change(b"A B b -", "refused 4")
        s.dump("held %d" % held)
        s.call("end", "report 0 0 0 0 0 0 0 %d" % held)
        s.dump("fresh")
    s.say("All nine numbers poked: a kept line of five bytes, which a b ends.")
    for number, reported in ((1, 2), (7, 8), (MOST - 1, MOST), (MOST, MOST)):
        for access, held in ((b"b\n", reported), (b"w\n", number), (b"b", reported)):
            s.fresh()
            s.poke("line", 0, b"A B r")
            s.poke("loader", 0, 5)
            for index in range(1, 6):
                s.poke("loader", index, number)
            s.poke("loader", 6, 7)
            s.poke("loader", 7, HUGE)
            s.poke("loader", 8, number)
            loaded(s, access, "%d %d %d %d %d 7 %d %d" % (reported, reported, number, number, number, HUGE, held))
            s.list(0, b"A B rw\n" if access == b"w\n" else b"A B r\n")
            s.call("end", "report 0 0 0 0 0 0 0 0")
    s.say("Each of the nine alone is 1: the report has it, and the end call leaves a fresh loader. A kept byte, NUL, is a line of one field.")
    for index, numbers in enumerate(("1 0 0 1 1 2 0 0", "1 0 0 0 0 0 0 0", "0 1 0 0 0 0 0 0", "0 0 1 0 0 0 0 0", "0 0 0 1 0 0 0 0", "0 0 0 0 1 0 0 0", "0 0 0 0 0 1 0 0", "0 0 0 0 0 0 1 0", "0 0 0 0 0 0 0 1")):
        s.fresh()
        s.poke("loader", index, 1)
        s.call("end", "report " + numbers)
        s.dump("fresh")
    s.say("A kept line with a b that a host has put there: judged by the end call or at its newline.")
    for line, numbers in ((b"A B b", "1 1 0 0 0 0 0 1"), (b"A B -b-", "1 1 0 0 0 0 0 1"), (b"A A b", "1 0 0 1 1 5 0 0"), (b"A B bq", "1 0 0 1 1 4 0 0"), (b"A B b\n", "1 0 0 1 1 4 0 0"), (b"A B \nb", "1 0 0 1 1 4 0 0"), (b"A B b \n", "1 0 0 1 1 2 0 0")):
        for text in (b"", b"\n"):
            s.fresh()
            s.poke("line", 0, line)
            s.poke("loader", 0, len(line))
            loaded(s, text, numbers)
    for kept, numbers in ((599, "1 1 0 0 0 0 0 1"), (600, "1 1 0 0 0 0 0 1"), (601, "1 0 0 1 1 1 0 0")):
        s.fresh()
        s.poke("line", 0, b"A B b" + b" " * 595)
        s.poke("loader", 0, kept)
        loaded(s, b"\n", numbers)
    s.store()


def bringup_cuts():
    s = Script("bringup_cuts", "02, Six, in demand 3: a text with lines that hold b, cut at every byte: the same report, the count too, and the same state.", True)
    text = b"A B rb\n\nC D B\nA A b\nE F bq\nb B -b-\nG H r\nB b xB"

    def feed(pieces, numbers, between=False):
        s.fresh()
        for piece in pieces:
            s.piece(piece)
            if between:
                s.ask(b"G", b"H", b"w", "denied 7")
                s.ask(b"A", b"B", b"b", "refused 8")
                s.change(b"A B b -", "refused 4")
        s.call("end", "report " + numbers)
    whole = "8 5 1 2 4 5 0 4"
    feed([text], whole)
    for k, listed in enumerate((b"A B r\n", b"C D -\n", b"b B -\n", b"G H r\n", b"B b x\n")):
        s.list(k, listed)
    s.list(5, 13)
    s.dump("state")
    s.say("every cut into two pieces")
    for at in range(len(text) + 1):
        feed([text[:at], text[at:]], whole)
        s.dump("state")
    s.say("byte by byte, and in pieces of two to five bytes; with questions and refused changes between")
    for length in range(1, 6):
        for between in (False, True):
            feed([text[k:k + length] for k in range(0, len(text), length)], whole, between)
            s.dump("state")
    s.say("a line cut into three pieces at every two bytes, in its access field too")
    line = b" A B -bB-r \n"
    for one in range(len(line) + 1):
        for two in range(one, len(line) + 1):
            feed([line[:one], line[one:two], line[two:]], "1 1 0 0 0 0 0 1")
            s.dump("line")
    s.list(0, b"A B r\n")
    s.say("a newline before b and behind it, blanks about it; each at every cut")
    for text, numbers in ((b"A B r\nb\n", "2 1 0 1 2 2 0 0"), (b"A B rb\n", "1 1 0 0 0 0 0 1"), (b"A B r\n b\n", "2 1 0 1 2 2 0 0"), (b"A B \nb", "2 0 0 2 1 2 0 0"), (b"A B\nb", "2 0 0 2 1 2 0 0"), (b"A B b\n\n", "2 1 1 0 0 0 0 1"),
                          (b"\nA B b", "2 1 1 0 0 0 0 1"), (b"A B b\nb B b\n", "2 2 0 0 0 0 0 2"), (b"A B r b\n", "1 0 0 1 1 2 0 0"), (b"A B r\tb", "1 0 0 1 1 2 0 0"), (b"A B b\nA B b\nA B b", "3 3 0 0 0 0 0 3"), (b"b\nA B b\nb", "3 1 0 2 1 2 0 1"),
                          (b"A B b\r\nA B b", "2 1 0 1 1 4 0 1"), (b"A\nB b b\n", "2 1 0 1 1 2 0 1"), (b"A B b\nb b\n", "2 1 0 1 2 2 0 1")):
        for at in range(len(text) + 1):
            feed([text[:at], text[at:]], numbers)
    s.say("An end call between two pieces ends the line before its b, or before what is behind it.")
    s.fresh()
    loaded(s, b"A B r", "1 1 0 0 0 0 0 0")
    loaded(s, b"b\n", "1 0 0 1 1 2 0 0")
    loaded(s, b"A B b", "1 1 0 0 0 0 0 1")
    loaded(s, b"q\n", "1 0 0 1 1 2 0 0")
    s.say("A change while the line is under way acts at once; the line sets the modes wholly at its newline.")
    s.fresh()
    s.piece(b"A B r")
    s.change(b"A B wt -")
    s.piece(b"b")
    s.ask(b"A", b"B", b"w", "granted 6")
    s.ask(b"A", b"B", b"r", "denied 7")
    s.piece(b"\n")
    s.ask(b"A", b"B", b"w", "denied 7")
    s.ask(b"A", b"B", b"r", "granted 6")
    s.list(0, b"A B r\n")
    s.piece(b"A B b")
    s.ask(b"A", b"B", b"r", "granted 6")
    s.call("end", "report 2 2 0 0 0 0 0 2")
    s.ask(b"A", b"B", b"r", "denied 7")
    s.say("600 and 601 bytes with b at the end, cut about it.")
    for text, numbers in ((b" " * 595 + b"A B b\nA B B", "2 2 0 0 0 0 0 2"), (b" " * 596 + b"A B b\nA B B", "2 1 0 1 1 1 0 1"), (b"A B " + b"b" * 596 + b"\nA B B", "2 2 0 0 0 0 0 2"), (b"A B " + b"b" * 597 + b"\nA B B", "2 1 0 1 1 1 0 1")):
        for at in (0, 1, 4, 5, 594, 595, 596, 597, 598, 599, 600, 601, 602, 603, 607):
            feed([text[:at], text[at:]], numbers)
    s.store()


def bringup_rules():
    s = Script("bringup_rules", "02, Six: rules that came by lines with b. The modes are set wholly; changes, revokes and questions find the other letters and nothing of b.", True)
    s.say("Loaded with b and then without, and the other way: each line sets the pair's modes wholly, in its place.")
    for first, then in ((b"rb", b"r"), (b"r", b"rb"), (b"rb", b"w"), (b"w", b"rb"), (b"b", b"rwxat"), (b"rwxat", b"b"), (b"rwxatB", b"-"), (b"-", b"b"), (b"b", b"-"), (b"B", b"b"), (b"xb", b"Bx"), (b"tb", b"r"), (b"rt", b"B")):
        s.fresh()
        s.piece(b"C D w\nA B " + first + b"\nE F r\n")
        s.call("end", "report 3 3 0 0 0 0 0 %d" % (b"b" in first.lower()))
        s.list(1, b"A B " + listed_modes(first) + b"\n")
        ask_all(s, b"A", b"B", first.lower())
        loaded(s, b"A B " + then + b"\n", "1 1 0 0 0 0 0 %d" % (b"b" in then.lower()))
        s.list(1, b"A B " + listed_modes(then) + b"\n")
        ask_all(s, b"A", b"B", then.lower())
        s.list(0, b"C D w\n")
        s.list(2, b"E F r\n")
        s.list(3, 13)
    s.say("Every set of letters with a b: listed, asked about, and the same tables as without it.")
    for k in range(32):
        some = bytes(c for j, c in enumerate(b"rwxat") if k >> j & 1)
        for text, b in ((some + b"b", 1), (b"B" + some[::-1].upper(), 1), (some or b"-", 0)):
            s.fresh()
            loaded(s, b"A B " + text + b"\n", "1 1 0 0 0 0 0 %d" % b)
            s.list(0, b"A B " + (some or b"-") + b"\n")
            s.dump("letters " + (some.decode() or "none"), True)
        ask_all(s, b"A", b"B", some)
        s.ask(b"B", b"A", b"r", "denied 7")
    s.say("b alone: denied 7 to every request; with the capability override 7 under an empty list and for a subject on the list.")
    s.fresh()
    loaded(s, b"A B b\nC B B\n", "2 2 0 0 0 0 0 2")
    for request in REQUESTS:
        s.ask(b"A", b"B", request, "denied 7")
    for listed, answers in ((b"A", ("override 7", "denied 7")), (b"C B", ("denied 7", "override 7")), (b"b", ("denied 7", "denied 7")), (b"-", ("override 7", "override 7"))):
        s.override(listed)
        for subject, answer in zip((b"A", b"C"), answers):
            for request in REQUESTS:
                s.ask(subject, b"B", request, answer, 1)
                s.ask(subject, b"B", request, "denied 7")
    s.say("Changes on a pair that came by a line with b: (old modes or allow) without deny, of the letters alone.")
    for old in (b"b", b"rb", b"rwxatb", b"wB", b"-b-t"):
        for allow, deny in ((b"-", b"-"), (b"w", b"r"), (b"rwxat", b"-"), (b"-", b"rwxat"), (b"rwxat", b"rwxat"), (b"t", b"-"), (b"-", b"t"), (b"x", b"x"), (b"wa", b"w")):
            s.line(b"A B " + old, None)
            s.change(b"A B %s %s" % (allow, deny))
            s.list(0, b"A B " + listed_modes(bytes(c for c in b"rwxat" if (c in old.lower() or c in allow) and c not in deny)) + b"\n")
    s.say("A pair that a change made, then a line with b, then a change again.")
    s.fresh()
    s.change(b"A B rw -")
    loaded(s, b"A B xb\n", "1 1 0 0 0 0 0 1")
    s.list(0, b"A B x\n")
    s.change(b"A B t -")
    s.list(0, b"A B xt\n")
    s.change(b"A B b -", "refused 4")
    s.list(0, b"A B xt\n")
    s.say("Revoke: every rule with that subject is counted, those by lines with b too, and has no modes.")
    s.fresh()
    loaded(s, b"A B rb\nA C b\nA D r\nB A rwxatb\nA E B\n", "5 5 0 0 0 0 0 4")
    s.revoke(b"b", "revoked 0")
    s.revoke(b"A", "revoked 4")
    for k, text in enumerate((b"A B -\n", b"A C -\n", b"A D -\n", b"B A rwxat\n", b"A E -\n")):
        s.list(k, text)
    s.revoke(b"A", "revoked 4")
    s.revoke(b"B", "revoked 1")
    s.list(3, b"B A -\n")
    loaded(s, b"A C bw\nB A b\n", "2 2 0 0 0 0 0 2")
    s.list(1, b"A C w\n")
    s.list(3, b"B A -\n")
    s.revoke(b"A", "revoked 4")
    s.list(1, b"A C -\n")
    s.say("Rules 1 to 5 decide before rules that came by lines with b.")
    s.fresh()
    loaded(s, b"* A rwxatb\n^ A rwb\nA _ wB\nA * b\n^ _ b\n? A rwxab\nA ? b\n", "7 7 0 0 0 0 0 7")
    for subject, object_, request, answer in ((b"*", b"A", b"r", "denied 1"), (b"*", b"A", b"rwxa", "denied 1"), (b"^", b"A", b"r", "granted 2"), (b"^", b"A", b"rx", "granted 2"), (b"^", b"A", b"rw", "granted 6"), (b"^", b"A", b"a", "denied 7"),
                                              (b"A", b"_", b"rx", "granted 3"), (b"A", b"_", b"w", "granted 6"), (b"A", b"_", b"wr", "denied 7"), (b"A", b"*", b"rwxa", "granted 4"), (b"^", b"_", b"w", "denied 7"), (b"^", b"_", b"x", "granted 2"),
                                              (b"?", b"A", b"rwxa", "granted 6"), (b"A", b"?", b"r", "denied 7"), (b"A", b"A", b"w", "granted 5"), (b"b", b"b", b"w", "granted 5"), (b"b", b"A", b"r", "denied 7")):
        s.ask(subject, object_, request, answer)
        s.ask(subject, object_, request, answer.replace("denied", "override"), 1)
    s.say("256 rules that came by lines with b, in tables of 64 labels: each is found, set, and listed.")
    s.fresh()
    labels_to(s, 64)
    s.piece(b"".join(b"%s %s %s\n" % (a, b, (b"rb", b"b", b"Bw", b"xbt")[k % 4]) for k, (a, b) in enumerate(pairs()[:256])))
    s.call("end", "report 256 256 0 0 0 0 0 256")
    for k, (a, b) in enumerate(pairs()[:256]):
        s.list(k, b"%s %s %s\n" % (a, b, (b"r", b"-", b"w", b"xt")[k % 4]))
        s.ask(a, b, b"w", "granted 6" if k % 4 == 2 else "denied 7")
    a, b = pairs()[256]
    loaded(s, b"%s %s b\n%s %s wB\n" % (a, b, *pairs()[255]), "2 1 0 1 1 7 0 1")
    s.list(255, b"%s %s w\n" % pairs()[255])
    s.store()


def bringup_refused():
    s = Script("bringup_refused", "02, Six: a change refuses b with 4, in either access field, and a request with 8, as before. Each beside its neighbours in the order of refusals. Nothing changes.", True)
    changes = [(b"A B b -", 4), (b"A B B -", 4), (b"A B - b", 4), (b"A B - B", 4), (b"A B b b", 4), (b"A B B B", 4), (b"A B rb -", 4), (b"A B br -", 4), (b"A B - wB", 4), (b"A B - Bw", 4), (b"A B bb -", 4), (b"A B -b- r", 4), (b"A B r --b", 4),
               (b"A B rwxatb -", 4), (b"A B - rwxatb", 4), (b"A B RWXATB rwxat", 4), (b"A B bq -", 4), (b"A B q b", 4), (b"A B b q", 4), (b" A\tB  b - ", 4), (b"A B b -\n", 4), (b"C D b -", 4), (b"C D - b", 4), (b"b B b -", 4), (b"B b - b", 4),
               (b"A/ B b -", 3), (b"A B/ - b", 3), (b"A -B - B", 3), (b"- - b b", 3), (b"b/ b b b", 3), (b"b b/ b b", 3), (b"L" * 256 + b" B b -", 3), (b"A\nB C b -", 3), (b"A A b -", 4), (b"A A - B", 4), (b"A A rb w", 4), (b"b b b b", 4), (b"B B - b", 4),
               (b"A A r -", 5), (b"b b r -", 5), (b"b b - -", 5), (b"A B b", 2), (b"A b", 2), (b"b", 2), (b"A B b - -", 2), (b"A B - - b", 2), (b"b b b", 2), (b"A B b - b", 2), (b"A/ B b", 2), (b"A B b -" + b" " * 594, 1),
               (b" " * 594 + b"A B b -", 1), (b"A B " + b"b" * 595 + b" -", 1), (b"b" * 601, 1), (b"A B b -" + b" " * 593, 4), (b"A B - " + b"b" * 594, 4), (b"A B - " + b"b" * 595, 1)]
    s.fresh()
    loaded(s, b"A B rb\n", "1 1 0 0 0 0 0 1")
    s.dump("small")
    for text, number in changes:
        s.change(text, "refused %d" % number)
        s.list(0, b"A B r\n")
        s.label(7, 13)
    s.dump("small")
    s.say("b at each place of an access field, among letters and among dashes; every letter beside it.")
    for n in (1, 2, 3, 6, 26):
        for at in range(n):
            for fill in (b"-", b"w"):
                field = fill * at + (b"b" if at % 2 else b"B") + fill * (n - at - 1)
                s.change(b"A B " + field + b" -", "refused 4")
                s.change(b"A B - " + field, "refused 4")
    for letter in b"rwxatRWXAT-":
        for field in (b"b%c" % letter, b"%cb" % letter, b"B%c" % letter, b"%cB" % letter):
            s.change(b"A B " + field + b" -", "refused 4")
            s.change(b"A B %c " % letter + field, "refused 4")
    s.dump("small")
    s.say("As labels b and B are as any other, in each write.")
    s.change(b"b B r -")
    s.change(b"B b - r")
    s.list(1, b"b B r\n")
    s.list(2, b"B b -\n")
    s.override(b"b B bb")
    s.mapping(b"b 9 1")
    s.bylabel(b"b", mapped(9, category(1), 1))
    s.revoke(b"b", "revoked 1")
    s.mapping(b"A b", "refused 9")
    s.mapping(b"A 9 b", "refused 9")
    s.say("Full tables: 4 before 6 and before 7, and alone.")
    for labels in (64, 62):
        full(s, labels, 256, 0)
        s.dump("%d full" % labels, True)
        for text, number in ((b"New1 New2 b -", 4), (b"New1 New2 - b", 4), (b"New1 L05 r B", 4), (b"L05 New1 B r", 4), (b"L40 L41 b -", 4), (b"L40 L41 - B", 4), (b"L05 L06 b -", 4), (b"L05 L06 - b", 4), (b"New1 New1 b -", 4), (b"New1/ New2 b -", 3),
                             (b"New1 New2 r -", 6 if labels == 64 else 7), (b"L40 L41 r -", 7), (b"New1 New1 r -", 5), (b"L40 L40 - b", 4)):
            s.change(text, "refused %d" % number)
        s.dump("%d full" % labels, True)
    s.say("Lines in the same tables: b is none of their refusals, so the next number is told.")
    full(s, 64, 256, 0)
    s.dump("64 full", True)
    for text, number, where in ((b"New1 New2 b", 6, 0), (b"New1 L05 rB", 6, 0), (b"L40 L41 b", 7, 0), (b"L40 L40 b", 5, 0), (b"New1 New1 B", 5, 0), (b"New1/ New2 b", 3, 4), (b"New1 New2 bq", 4, 0), (b"L40 L40 qb", 4, 0), (b"L40 L41 b b", 2, 0)):
        loaded(s, text + b"\n", "1 0 0 1 1 %d %d 0" % (number, where))
    s.dump("64 full", True)
    s.say("Requests: 8 for b and B wherever they stand, whatever the rules say, with and without the capability; 3 before 8.")
    bad_requests = [b"b", b"B", b"bb", b"bB", b"rb", b"br", b"Rb", b"bR", b"rB", b"wb", b"xb", b"ab", b"tb", b"-b", b"b-", b"rwxab", b"brwxa", b"rwbxa", b"RWXAB", b"rwxatb", b"b ", b" b", b"b\n", b"bq"]
    for text in (b"", b"A B rb\n* _ b\n^ _ b\nA _ b\nA * b\nb B b\n", b"A B b\n", b"A B rwxatb\n"):
        s.fresh()
        s.piece(text)
        s.dump("asked %d" % len(text))
        for request in bad_requests:
            for subject, object_ in ((b"A", b"B"), (b"A", b"A"), (b"*", b"_"), (b"^", b"_"), (b"A", b"_"), (b"A", b"*"), (b"b", b"b"), (b"b", b"B"), (b"Unseen", b"B")):
                s.ask(subject, object_, request, "refused 8", len(request) % 2)
            s.ask(b"A", b"B", request, "refused 8", 1 - len(request) % 2)
        for subject, object_, where in ((b"A/", b"B", 1), (b"A", b"B/", 1), (b"-A", b"B", 0), (b"A", b"-b", 0), (b"", b"b", 0), (b"b", b"", 0), (b"b ", b"b", 1), (b"L" * 256, b"b", 255)):
            for request in (b"b", b"B", b"rb"):
                s.ask(subject, object_, request, "refused 3 %d" % where)
                s.ask(subject, object_, request, "refused 3 %d" % where, 1)
        s.dump("asked %d" % len(text))
    for n in (1, 2, 26, 300):
        for at in range(n) if n < 50 else (0, 1, 254, 255, 256, 299):
            s.ask(b"A", b"A", b"r" * at + b"b" + b"r" * (n - at - 1), "refused 8")
            s.ask(b"A", b"A", b"x" * at + b"B" + b"x" * (n - at - 1), "refused 8", 1)
    s.say("b in an override list and in a revoke is a label; nothing else of them changed.")
    s.fresh()
    s.override(b"b B b b")
    s.label(5, b"b")
    s.label(6, b"B")
    s.label(7, 13)
    s.ask(b"b", b"A", b"r", "override 7", 1)
    s.ask(b"A", b"b", b"r", "denied 7", 1)
    s.revoke(b"b", "revoked 0")
    s.store()


def bringup_listing():
    s = Script("bringup_listing", "02, Six: listings have no b. A listing of rules that came by lines with b, loaded into a fresh table, gives the same listing and the same tables, and a count of 0.", True)
    rules = [(b"Probe3 Air wb", b"Probe3 Air w\n"), (b"Alarm Air RxB", b"Alarm Air rx\n"), (b"Desk Alarm b", b"Desk Alarm -\n"), (b"b B rwxatb", b"b B rwxat\n"), (b"B b B", b"B b -\n"), (b"bb b -b-t", b"bb b t\n"), (b"Air Desk BTAXWR", b"Air Desk rwxat\n"),
             (b"Probe3 Desk r", b"Probe3 Desk r\n"), (b"_ ^ bab", b"_ ^ a\n"), (b"* Air -", b"* Air -\n")]
    s.piece(b"".join(line + b"\n" for line, _ in rules))
    s.call("end", "report 10 10 0 0 0 0 0 8")
    for round_ in range(3):
        for k, (_, listed) in enumerate(rules):
            s.list(k, listed, b"\xee" * 20)
        s.list(10, 13)
        s.dump("ten rules", True)
        s.say("the listing, loaded into a fresh table")
        s.fresh()
        s.piece(b"".join(listed for _, listed in rules))
        s.call("end", "report 10 10 0 0 0 0 0 0")
    s.say("Buffers of every length about the text's; too short is 12 and all of it stays. What stood in the buffer is not read.")
    s.fresh()
    loaded(s, b"".join(line + b"\n" for line, _ in rules), "10 10 0 0 0 0 0 8")
    for k, (_, listed) in enumerate(rules):
        for length in range(len(listed) + 4):
            s.list(k, listed if length >= len(listed) else 12, bytes((7 * j + 13) % 256 for j in range(length)))
        s.list(k, listed, b"b" * 20)
        s.list(k, listed, b"A B rwxatb\n" * 3)
    s.say("A rule with every letter: `rwxat` and a newline fit where there are just so many bytes; a b, which is not written, has no place.")
    for access, listed in ((b"b", b"-"), (b"rb", b"r"), (b"rwb", b"rw"), (b"rwxb", b"rwx"), (b"rwxab", b"rwxa"), (b"rwxatb", b"rwxat"), (b"tB", b"t")):
        s.line(b"A B " + access, None)
        text = b"A B " + listed + b"\n"
        for length in range(len(text) - 2, len(text) + 3):
            s.list(10, text if length >= len(text) else 12, b"\xee" * length)
    s.say("The longest rule: 255, 255, five letters, two spaces, a newline: 518 bytes, by a line with b and by one without.")
    one, two = b"L" * 255, b"M" * 255
    for access in (b"rwxatb", b"BTAXWR", b"rwxat"):
        s.fresh()
        s.line(one + b" " + two + b" " + access, None)
        for length in (0, 1, 511, 512, 513, 514, 515, 516, 517):
            s.list(0, 12, b"\xee" * length)
        for length in (518, 519, 520, 600):
            s.list(0, one + b" " + two + b" rwxat\n", b"\xee" * length)
    s.line(one + b" " + two + b" b", None)
    s.list(0, 12, b"\xee" * 513)
    s.list(0, one + b" " + two + b" -\n", b"\xee" * 514)
    s.say("256 rules with b, each listed; then the listing as text: the same tables.")
    for access, listed, count in ((lambda k: (b"rb", b"b", b"Bw", b"xbt", b"rwxatb")[k % 5], lambda k: (b"r", b"-", b"w", b"xt", b"rwxat")[k % 5], 256), (lambda k: (b"r", b"-", b"w", b"xt", b"rwxat")[k % 5], lambda k: (b"r", b"-", b"w", b"xt", b"rwxat")[k % 5], 0)):
        s.fresh()
        s.piece(b"".join(b"%s %s %s\n" % (a, b, access(k)) for k, (a, b) in enumerate(pairs()[:256])))
        s.call("end", "report 256 256 0 0 0 0 0 %d" % count)
        s.dump("256 rules", True)
        for k, (a, b) in enumerate(pairs()[:256]):
            s.list(k, b"%s %s %s\n" % (a, b, listed(k)), b"\xee" * 16)
    s.say("Every set of letters that can be stored is listed in the order r w x a t.")
    s.fresh()
    s.line(b"A B -", None)
    for k in range(0, 64, 2):
        s.poke("entries", 512, bytes([k]))
        s.list(0, b"A B " + (b"".join(c for c, bit in ((b"r", 32), (b"w", 16), (b"x", 8), (b"a", 4), (b"t", 2)) if k & bit) or b"-") + b"\n")
    s.store()


def bringup_records():
    s = Script("bringup_records", "02, Six: a line's b is dropped where the line is turned into an old record; 15 is for a label over 23 bytes alone. In a record b is 4, as before.", True)
    s.say("by hand")
    for access, back in ((b"b", b"-----"), (b"B", b"-----"), (b"bb", b"-----"), (b"bB", b"-----"), (b"-b-", b"-----"), (b"-b-B", b"-----"), (b"rb", b"r----"), (b"Rb", b"r----"), (b"bR", b"r----"), (b"rwxatb", b"rwxat"), (b"RWXATB", b"rwxat"),
                         (b"BTAXWR", b"rwxat"), (b"bwxat", b"-wxat"), (b"rbxat", b"r-xat"), (b"rwbat", b"rw-at"), (b"rwxbt", b"rwx-t"), (b"rwxab", b"rwxa-"), (b"tb", b"----t"), (b"b-t", b"----t"), (b"abr", b"r--a-"), (b"b" * 500, b"-----")):
        for end in (b"", b"\n", b" \n", b"\t"):
            s.to_record(b"Alarm Air " + access + end, fixed(b"Alarm", b"Air", back), b"\xee" * 54)
    s.say("b in every place of a field of six: the record of the line without it, and the line of that record.")
    for base in (b"rwxat", b"TAXWR", b"-----", b"w-x-a", b"bbbbb"):
        record = fixed(b"A", b"B", bytes(c if c in base.lower() else 45 for c in b"rwxat"))
        for at in range(6):
            for one in (b"b", b"B"):
                s.to_record(b"A B " + base[:at] + one + base[at:] + b"\n", record, b"\xee" * 53)
        s.to_line(record, b"A B " + listed_modes(base) + b"\n", b"\xee" * 12)
    for k in range(32):
        some = bytes(c for j, c in enumerate(b"rwxat") if k >> j & 1)
        record = fixed(b"A", b"B", bytes(c if c in some else 45 for c in b"rwxat"))
        for line in (b"A B " + some + b"b\n", b"A B B" + some, b"A B " + (some or b"-")):
            s.to_record(line, record, b"\xee" * 53)
        s.to_line(record, b"A B " + (some or b"-") + b"\n", b"\xee" * 12)
    s.say("Labels of 23 bytes and b: a record. Of 24: 15, with b and without.")
    for subject, object_, long in ((LONG[:23], b"Air", False), (b"Air", LONG[:23], False), (LONG[:23], b"M" * 23, False), (LONG[:24], b"Air", True), (b"Air", LONG[:24], True), (LONG[:24], b"M" * 24, True), (LONG[:23], b"M" * 24, True),
                                   (b"b" * 23, b"B" * 23, False), (b"b" * 24, b"B", True), (b"L" * 255, b"b", True), (b"b", b"L" * 255, True), (b"b", b"B", False)):
        for access, back in ((b"b", b"-----"), (b"B", b"-----"), (b"rb", b"r----"), (b"r", b"r----"), (b"-", b"-----"), (b"RWXATB", b"rwxat")):
            line = b"%s %s %s" % (subject, object_, access)
            s.to_record(line, 15 if long else fixed(subject, object_, back))
            s.to_record(line + b"\n", 15 if long else fixed(subject, object_, back))
        if not long:
            s.to_line(fixed(subject, object_, b"r----"), b"%s %s r\n" % (subject, object_))
    s.say("The order 1 2 3 4 5 15 12 with a b in the line.")
    for line, number in ((b"A B b" + b" " * 596, 1), (b"A B " + b"b" * 597, 1), (b"A B b" + b" " * 596 + b"\n", 1), (LONG[:24] + b" B b" + b" " * 600, 1), (b"b", 2), (b"A b", 2), (b"b b\n", 2), (b"A B b b", 2), (LONG[:24] + b" B b b", 2), (b"A/ b", 2), (b"A/ B b", 3),
                         (b"A B/ b", 3), (b"- b b", 3), (b"b/ b/ b", 3), (b"L" * 256 + b" B b", 3), (b"A/ B bq", 3), (b"A B bq", 4), (b"A B qb", 4), (b"A B bl", 4), (b"A B lb", 4), (b"A A bq", 4), (b"A B b\n\n", 4), (b"A B b\r\n", 4), (LONG[:24] + b" B bq", 4),
                         (b"A A b", 5), (b"A A rb\n", 5), (b"b b b", 5), (LONG[:24] + b" " + LONG[:24] + b" b", 5), (LONG[:24] + b" B b", 15), (b"A " + LONG[:24] + b" B\n", 15), (b"A B b \n\n", 2)):
        for out in (b"", b"\xee" * 52, b"\xee" * 53, b"\xee" * 60):
            s.to_record(line, number, out)
    s.say("600 bytes, with a closing newline and without, and b at the end, or nothing but b: taken. The output of every length: 12 below 53.")
    for line, back in ((b" " * 595 + b"A B b", b"-----"), (b"A B" + b" " * 595 + b"rb", b"r----"), (b"A B " + b"b" * 596, b"-----"), (b"A B " + b"-" * 595 + b"B", b"-----"), (b"A B w" + b"b" * 595, b"-w---")):
        assert len(line) == 600
        s.to_record(line, fixed(b"A", b"B", back))
        s.to_record(line + b"\n", fixed(b"A", b"B", back))
        s.to_record(line + b" ", 1)
    for length in range(58):
        out = bytes((7 * j + 13) % 256 for j in range(length))
        s.to_record(b"Alarm Air rwxatb\n", 12 if length < 53 else fixed(b"Alarm", b"Air", b"rwxat"), out)
        s.to_record(b"Alarm Air b", 12 if length < 53 else fixed(b"Alarm", b"Air", b"-----"), out)
    s.say("Every byte beside b.")
    for byte in range(256):
        for line in (b"A B b" + bytes([byte]), b"A B " + bytes([byte]) + b"b", b"A B B" + bytes([byte]) + b"b\n"):
            s.to_record(line, says_line(line), b"\xee" * 53)
    s.say("A record: b or B in each of the five access bytes, beside dashes and beside letters: 4; 14 and 3 come before, 5 and 12 after.")
    for at in range(5):
        for one in (b"b", b"B"):
            for rest in (b"-----", b"rwxat", b"RWXAT"):
                access = rest[:at] + one + rest[at + 1:]
                for subject, object_, number in ((b"Alarm", b"Air", 4), (b"Alarm", b"Alarm", 4), (b"b", b"B", 4), (b"Al/rm", b"Air", 3), (b"Alarm", b"-b", 3), (b"Al rm", b"Air", 14), (b"", b"Air", 14)):
                    s.to_line(fixed(subject, object_, access), number, b"\xee" * 17)
                s.to_line(fixed(b"Alarm", b"Air", access), 4, b"")
    s.to_line(fixed(b"Alarm", b"Air", b"bbbbb"), 4)
    s.to_line(fixed(b"Alarm", b"Air", b"rwxatb"), 14)
    s.say("A line with b loaded, and its record's line loaded: the same tables; the count is of the first alone.")
    for line, record, listed in ((b"Probe3 Air wb\n", fixed(b"Probe3", b"Air", b"-w---"), b"Probe3 Air w\n"), (b"Alarm Air b\n", fixed(b"Alarm", b"Air", b"-----"), b"Alarm Air -\n"), (b"b B BTb\n", fixed(b"b", b"B", b"----t"), b"b B t\n")):
        s.fresh()
        loaded(s, line, "1 1 0 0 0 0 0 1")
        s.list(0, listed, b"\xee" * 16)
        s.dump("of " + listed.decode().strip(), True)
        s.to_record(line, record)
        s.to_line(record, listed)
        s.fresh()
        loaded(s, listed, "1 1 0 0 0 0 0 0")
        s.dump("of " + listed.decode().strip(), True)
        s.to_record(listed, record)
    s.say("Neither table nor loader changes, and a state with the old bit is not lent to these calls: never 0.")
    s.fresh()
    s.piece(b"A B rb\nC D b")
    s.dump("under way")
    for poked in (False, True):
        if poked:
            s.poke("entries", 512, b"\x21")
            s.piece(b"", "refused 0")
            s.dump("old bit")
        s.to_record(b"A B b\n", fixed(b"A", b"B", b"-----"))
        s.to_record(b"New1 New2 rwb", fixed(b"New1", b"New2", b"rw---"))
        s.to_record(LONG[:24] + b" B b", 15)
        s.to_line(fixed(b"A", b"B", b"b----"), 4)
        s.to_line(fixed(b"A", b"B", b"r----"), b"A B r\n")
        s.dump("old bit" if poked else "under way")
    s.store()


def lent_calls():
    """Each call that is lent the tables, with its answer in a damaged state."""
    calls = [(c if len(c) < 100 else "change " + h(b"A B"), under_damage(c)) for c in TABLE_CALLS]
    return calls + [("list 0 " + "ee" * 12, "refused 0 " + "ee" * 12), ("list 999 -", "refused 0 -"), ("label 5", "refused 0 -"), ("label 999", "refused 0 -")]


def bringup_damage():
    s = Script("bringup_damage", "02, Six: known modes are r 32, w 16, x 8, a 4, t 2. The bit 1, which was b's, 64 and 128 are none: a stored rule with one of them gets 0 from every call that is lent the tables.", True)
    calls = lent_calls()
    s.say("A rule that was stored with b: every call, and nothing changes. A question that rules 1 to 5 decide is no exception.")
    small_state(s)
    s.dump("sound")
    for k, old in ((0, 32), (1, 16), (2, 8)):
        for bits in (1, 64, 128, 65, 129, 192, 193):
            for modes in (bits, old | bits):
                s.poke("entries", 512 + k, bytes([modes]))
                s.dump("place %d modes %d" % (k, modes))
                for call, answer in calls if bits == 1 else calls[(bits + k) % 5::5]:
                    s.call(call, answer)
                s.ask(b"A", b"A", b"r", "refused 0")
                s.run(9, C63, [(3, 9, C63)], "label 3")
                s.dump("place %d modes %d" % (k, modes))
        s.poke("entries", 512 + k, bytes([old]))
        s.dump("sound")
    loaded(s, b"B rb\n", "5 4 0 1 4 5 0 2")
    s.say("Every value of a modes byte, at the places 0, 31, 32 and 255 of a full table: 0, or the rule is listed with its letters.")
    full(s)
    s.dump("full", True)
    turn = 0
    for at in (0, 31, 32, 255):
        a, b = pairs()[at]
        for modes in range(256):
            s.poke("entries", 512 + at, bytes([modes]))
            if modes in range(0, 64, 2):
                s.list(at, b"%s %s %s\n" % (a, b, b"".join(c for c, bit in ((b"r", 32), (b"w", 16), (b"x", 8), (b"a", 4), (b"t", 2)) if modes & bit) or b"-"), b"\xee" * 14)
                s.ask(a, b, b"r", "granted 6" if modes & 32 else "denied 7")
                s.ask(a, b, b"wxa", "granted 6" if modes & 28 == 28 else "denied 7")
            else:
                s.list(at, 0)
                s.ask(a, b, b"r", "refused 0")
                s.call(*calls[turn % len(calls)])
                turn += 1
        s.poke("entries", 512 + at, b"\x20")
        s.dump("full", True)
    s.say("0 comes before every other number: full tables, the bit at the last place, and each call in the order of its refusals.")
    s.poke("entries", 767, b"\x21")
    s.dump("each")
    a, b = pairs()[300]
    nine = b" ".join(b"N%d" % k for k in range(9))
    for name, texts in (("change", (b" " * 601, b"A B r", b"A/ B r -", b"A B b -", b"A B - B", b"A A r -", b"A A b -", b"New1 New2 r -", a + b" " + b + b" r -", b"L05 L06 r -")), ("revoke", (b"A" * 601, b"/", b"L05", b"b")),
                        ("override", (b" " * 601, b"", b"A/", nine, b"New1", b"-", b"L05")), ("mapping", (b" " * 1001, b"A", b"A/ 9", b"L05 256", b"New1 9", b"L40 9", b"L05 9")), ("bylabel", (b"/", b"A" * 256, b"L05", b"Unseen")),
                        ("piece", (b"", b"\n", b"b", b" " * 601 + b"\n", b"L05 L06\n", b"A/ B b\n", b"L05 L06 bq\n", b"A A b\n", b"New1 New2 b\n", a + b" " + b + b" b\n", b"L05 L06 rb\n"))):
        for text in texts:
            s.call(name + " " + h(text), "refused 0")
    s.call("end", "refused 0")
    s.bylevel(256, 0, "refused 0")
    s.bylevel(0, 1, "refused 0")
    s.bylevel(9, category(1) | category(63), "refused 0")
    for subject, object_, request in ((b"/", b"A", b"r"), (b"A", b"/", b"b"), (b"A", b"A", b"b"), (b"A", b"A", b"q"), (b"A", b"A", b""), (b"*", b"_", b"r"), (b"^", b"_", b"r"), (b"A", b"*", b"w"), (b"A", b"A", b"r"), (b"L05", b"L06", b"r"), (b"Unseen", b"L06", b"r")):
        s.ask(subject, object_, request, "refused 0")
        s.ask(subject, object_, request, "refused 0", 1)
    for k, out in ((0, b"\xee" * 12), (255, b"\xee" * 14), (256, b"\xee" * 12), (HUGE, b""), (0, b"")):
        s.list(k, 0, out)
    for k in (0, 5, 63, 64, HUGE):
        s.label(k, 0)
    for label, out in ((b"A", b"\xee" * 20), (b"/", b""), (b"L" * 24, b"\xee" * 20), (b"L05", b"")):
        s.write_option(label, 0, out)
    for option in (own_option(b"A"), option_of(9, (1, 63)), b"", own_option(b"A") + b"\0"):
        s.read_option(option, 0)
    s.run(256, 1, [], "refused 9")
    s.dump("each")
    s.poke("entries", 767, b"\x20")
    s.dump("full", True)
    s.store()

    s = Script("bringup_damage_places", "02, Six: the bit 1 in the modes of each of 256 rules: below the count it is damage, behind the count it is not looked at.", True)
    s.say("A number behind the count that could be no stored one, in each run, so that a test of whole blocks tells nothing: each unknown bit in each stored rule, and in two.")
    for run in (0, 256, 512):
        for at in (3, 31):
            small_state(s)
            s.poke("entries", run + at, b"\xff")
            s.ask(b"A", b"B", b"r", "granted 6")
            for k, modes in ((0, 32), (1, 16), (2, 8)):
                for bit in (1, 64, 128):
                    s.poke("entries", 512 + k, bytes([modes | bit]))
                    s.ask(b"A", b"B", b"r", "refused 0")
                    s.label(5, 0)
                s.poke("entries", 512 + k, bytes([modes]))
            s.ask(b"A", b"B", b"r", "granted 6")
            s.poke("entries", 512, b"\x21\x11\x08")
            s.ask(b"A", b"B", b"r", "refused 0")
    small_state(s)
    for bit in (1, 64, 128):
        s.poke("entries", 512, bytes([32 | bit, 16 | bit]))
        s.ask(b"A", b"B", b"r", "refused 0")
        s.label(5, 0)
    s.say("A full table: the bit at each place beside r, under every call; alone and beside all letters, the calls taking turns.")
    full(s)
    s.override(b" ".join(name_of(k) for k in range(5, 13)))
    s.dump("full", True)
    turn = 0
    for at in range(256):
        for modes in (1 | 32, 1, 63):
            s.poke("entries", 512 + at, bytes([modes]))
            for call, answer in calls if modes == 33 else [calls[turn % len(calls)]]:
                s.call(call, answer)
            turn += 1
        s.poke("entries", 512 + at, b"\x20")
        if at % 32 == 31:
            s.dump("full", True)
    s.say("64 and 128 at each place, and all three.")
    for at in range(256):
        for modes in (64 | 32, 128 | 62, 193):
            s.poke("entries", 512 + at, bytes([modes]))
            s.call(*calls[turn % len(calls)])
            turn += 1
        s.poke("entries", 512 + at, b"\x20")
    s.dump("full", True)
    s.say("The bit in the place just behind the count, for every count: no damage; with the count one more it is.")
    for count in range(256):
        s.poke("words", 1, count)
        s.poke("entries", 512 + count, b"\x21")
        s.ask(*pairs()[count], b"r", "denied 7")
        s.label(63, b"L63")
        if count:
            s.list(count - 1, b"%s %s r\n" % pairs()[count - 1])
        s.list(count, 13)
        s.poke("words", 1, count + 1)
        s.list(count, 0)
        s.ask(*pairs()[count], b"r", "refused 0")
        s.call(*calls[turn % len(calls)])
        turn += 1
        s.poke("entries", 512 + count, b"\x20")
        s.ask(*pairs()[count], b"r", "granted 6")
    s.dump("full", True)
    s.say("Every place behind the count has the bit, or every bit: each call answers as it does without, here in tables of 64 labels, 32 mappings and a list of eight.")
    sound = ["done", "done", "report 1 0 0 1 1 6 0 0", "refused 6", "refused 2", "revoked 0", "refused 3 0", "refused 6", "refused 2", "refused 6", "refused 2", "none", "refused 3 0", "none", "refused 9", "denied 7", "refused 3 0", "denied 1",
             "length 12 860c00000003010600fa2080" + "ee" * 8, "refused 3 -", "peer 41", "refused 16", "denied", "refused 3", "denied", None, "refused 13 -", "done 4c3035", "refused 13 -"]
    for count in (0, 1, 2, 31, 32, 33, 64, 128, 254, 255):
        for bits in (b"\x01", b"\xff"):
            s.poke("words", 1, count)
            s.poke("entries", 512 + count, bits * (256 - count))
            s.dump("%d rules, bits %d" % (count, bits[0]), True)
            for (call, _), answer in zip(calls, sound, strict=True):
                s.call(call, answer or (output_says(b"L05 L06 r\n" if count else 13, b"\xee" * 12)))
            s.dump("%d rules, bits %d" % (count, bits[0]), True)
            s.poke("entries", 512 + count, b"\x20" * (256 - count))
            s.poke("words", 1, 256)
            s.dump("full", True)
    s.say("These bytes stay. A new rule's modes are written wholly there, by a line with b, by one without and by a change.")
    small_state(s)
    s.poke("entries", 512 + 3, b"\xff" * 253)
    s.dump("behind")
    s.ask(b"A", b"B", b"r", "granted 6")
    s.ask(b"B", b"C", b"w", "granted 6")
    s.label(5, b"A")
    s.change(b"C D b -", "refused 4")
    s.list(3, 13)
    s.dump("behind")
    s.piece(b"D rb\nC D r\n")
    s.change(b"D C xt -")
    s.piece(b"C A b\n")
    s.change(b"D A - -")
    for k, listed in ((3, b"A D r\n"), (4, b"C D r\n"), (5, b"D C xt\n"), (6, b"C A -\n"), (7, b"D A -\n")):
        s.list(k, listed)
    s.list(8, 13)
    s.call("end", "report 7 6 0 1 4 5 0 3")
    s.dump("five more", True)
    s.poke("entries", 512 + 3, b"\x20\x20\x0a\x00\x00" + b"\xff" * 248)
    s.dump("five more", True)
    s.say("A fresh table made in memory whose rules have the bit, and in one whose every byte has every bit: sound, and rules come in.")
    for bits in (b"\x01", b"\x21", b"\xff"):
        small_state(s)
        s.poke("entries", 512, bits * 256)
        s.label(5, 0)
        s.call("freshen", "done")
        s.label(4, b"@")
        s.label(5, 13)
        s.list(0, 13)
        s.call("freshloader", "done")
        loaded(s, b"A B rb\nB A b\n", "2 2 0 0 0 0 0 2")
        s.list(0, b"A B r\n")
        s.list(1, b"B A -\n")
        s.list(2, 13)
    s.say("Revoke clears the modes of rules; in a state with the bit it is refused, and the bit stays.")
    small_state(s)
    s.poke("entries", 512, b"\x21")
    s.revoke(b"A", "refused 0")
    s.change(b"A B - rwxat", "refused 0")
    s.piece(b"B r\nA B -\n", "refused 0")
    s.list(0, 0)
    s.poke("entries", 512, b"\x20")
    s.revoke(b"A", "revoked 2")
    s.list(0, b"A B -\n")
    s.store()


def old_file():
    """A rule file of an older unit: its lines, and what is told of each: accepted, skipped or the number of its refusal; and the same file without the letter b."""
    rng, old, new, told = random.Random(6), [], [], []
    for k in range(400):
        a, b = rng.sample(range(30), 2)
        access = rng.choice([b"b", b"rb", b"Rb", b"rwxab", b"rwxatb", b"B", b"-b-", b"xB", b"wb", b"r", b"w", b"-", b"rwxa", b"t", b"bb", b"bRb"])
        without = access.replace(b"b", b"").replace(b"B", b"") or b"-"
        kind = rng.choice(["accepted"] * 9 + ["skipped", 2, 3, 4, 5])
        subject, object_ = b"L%02d" % a, b"L%02d" % b
        form = {"accepted": b"%s %s %s", 2: b"%s %s %s r", 3: b"%s/ %s %s", 4: b"%s %s %sq", 5: b"%s %s %s"}.get(kind)
        for lines, field in ((old, access), (new, without)):
            lines.append(b" " * (k % 3) if kind == "skipped" else form % (subject, subject if kind == 5 else object_, field))
        told.append(kind)
    return old, new, told


def bringup_old():
    old, new, told = old_file()
    s = Script("bringup_old", "02, Six: old files must still load. A rule file of 400 lines, many with b, and the same file without the letter: the same counts but for the last, the same listing, the same tables, the same questions.", True)
    taken = [k for k, kind in enumerate(told) if kind == "accepted"]
    bad = [k for k, kind in enumerate(told) if kind not in ("accepted", "skipped")]
    place_ = 3 if told[bad[0]] == 3 else 0
    held = sum(b"b" in old[k].split(b" ")[-1].lower() for k in taken)
    pairs_in = list(dict.fromkeys(tuple(new[k].split(b" ")[:2]) for k in taken))
    assert len(pairs_in) < 256 and 100 < held < len(taken)
    rng = random.Random(66)
    asked = [(b"L%02d" % rng.randrange(31), b"L%02d" % rng.randrange(31), rng.choice(REQUESTS), rng.randrange(2)) for _ in range(300)]
    for lines, count in ((old, held), (new, 0)):
        s.say("with b: %d of the accepted lines have one" % held if count else "without b")
        s.fresh()
        s.piece(b"".join(line + b"\n" for line in lines))
        s.call("end", "report 400 %d %d %d %d %d %d %d" % (len(taken), told.count("skipped"), len(bad), bad[0] + 1, told[bad[0]], place_, count))
        s.dump("tables", True)
        modes = {}
        for k in taken:
            subject, object_, access = new[k].split(b" ")
            modes[subject, object_] = access.lower()
        for k, pair in enumerate(pairs_in):
            s.list(k, b"%s %s %s\n" % (*pair, listed_modes(modes[pair])), b"\xee" * 16)
        s.list(len(pairs_in), 13)
        for subject, object_, request, capable in asked:
            s.ask(subject, object_, request, "granted 5" if subject == object_ else by_rule(modes.get((subject, object_), b""), request, capable), capable)
    s.say("The two files into one table, in both orders: the second leaves it as it is.")
    for first, second, one, two in ((old, new, held, 0), (new, old, 0, held)):
        s.fresh()
        for lines, count in ((first, one), (second, two)):
            s.piece(b"".join(line + b"\n" for line in lines))
            s.call("end", "report 400 %d %d %d %d %d %d %d" % (len(taken), told.count("skipped"), len(bad), bad[0] + 1, told[bad[0]], place_, count))
            s.dump("tables", True)
    s.say("Old files that fill the tables: 6 and 7 come at the same lines. 40 pairs of new labels; 300 pairs of 20.")
    for lines, numbers, count in (([b"S%d O%d %%s" % (k, k) for k in range(40)], "40 29 0 11 30 6 0", 29), ([b"%s %s %%s" % pair for pair in pairs()[:300]], "300 256 0 44 257 7 0", 256)):
        for access in (b"rb", b"r"):
            s.fresh()
            s.piece(b"".join(line % access + b"\n" for line in lines))
            s.call("end", "report %s %d" % (numbers, count if access == b"rb" else 0))
            s.dump("filled %d" % count, True)
    s.store()


def bringup_programs():
    program("program_bringup", b"Probe3 Air rRb\n?\nProbe3 Air r\nProbe3 Air w\nProbe3 Air w o\n", ["1 1 0 0 0 0 1", "granted 6", "denied 7", "override 7"])
    program("program_bringup_alone", b"A B b\nC D B\nE F -b-\n?\nA B r\nC D w\nE F x o\nA A a\n", ["3 3 0 0 0 0 3", "denied 7", "denied 7", "override 7", "granted 5"])
    program("program_bringup_once", b"A B bb\nA B bBbB\nA B rbwb\nA B rw\n?\nA B rw\n", ["4 4 0 0 0 0 3", "granted 6"])
    program("program_bringup_no_mark", b"A B rb\nC D b", ["2 2 0 0 0 0 2"])
    program("program_bringup_mark_last", b"A B rb\nC D r\n?", ["2 2 0 0 0 0 1"])
    # Lines refused by 1 to 5 that hold a b do not count; the place beside 3 is not printed.
    program("program_bringup_refused", b" Al/rm B b\nA b\nA B bq\nA A b\n" + b" " * 600 + b"b\nA B b b\n\nA B rb\n?\nA B r\nA B b\n", ["8 1 1 6 1 3 1", "granted 6", "refused 8"])
    program("program_bringup_labels", b"b B r\nB b b\nbb BB w\n?\nb B r\nB b r\nbb BB w\nb b b\nb b r\n", ["3 3 0 0 0 0 1", "granted 6", "denied 7", "granted 6", "refused 8", "granted 5"])
    program("program_bringup_questions", b"A B rwxatb\n?\nA B b\nA B B\nA B rb\nA B br\nA B rwxab\nA B b o\nA/ B b\nA B b b\nA B r b\nA B rwxa\nA B RWXA o\n",
            ["1 1 0 0 0 0 1", "refused 8", "refused 8", "refused 8", "refused 8", "refused 8", "refused 8", "refused 3", "refused 2", "refused 2", "granted 6", "granted 6"])
    program("program_bringup_600", b" " * 595 + b"A B b\n" + b" " * 596 + b"A B b\nA B " + b"b" * 596 + b"\nA B " + b"b" * 597 + b"\n?\nA B r\n", ["4 2 0 2 2 1 2", "denied 7"])
    program("program_bringup_set_wholly", b"A B rb\nA B w\nC D w\nC D rB\n?\nA B r\nA B w\nC D r\nC D w\n", ["4 4 0 0 0 0 2", "denied 7", "granted 6", "granted 6", "denied 7"])
    program("program_bringup_many", b"A B rb\nA B wB\nA B x\n\nA A b\n" * 1000 + b"?\nA B x\nA B r\n", ["5000 3000 1000 1000 5 5 2000", "granted 6", "denied 7"])
    program("program_bringup_full", b"".join(b"%s %s xb\n" % pair for pair in pairs()) + b"?\n" + b"".join(b"%s %s x\n" % pair for pair in pairs()), ["380 256 0 124 257 7 256"] + ["granted 6"] * 256 + ["denied 7"] * 124)
    # An old file, and the same file without the letter: only the last number of the report differs.
    old, new, told = old_file()
    rng, modes = random.Random(67), {}
    for k, kind in enumerate(told):
        if kind == "accepted":
            subject, object_, access = new[k].split(b" ")
            modes[subject, object_] = access.lower()
    lines, answers = [], []
    for _ in range(400):
        subject, object_, request, capable = b"L%02d" % rng.randrange(31), b"L%02d" % rng.randrange(31), rng.choice(REQUESTS), rng.randrange(2)
        lines.append(b"%s %s %s%s\n" % (subject, object_, request, b" o" * capable))
        answers.append("granted 5" if subject == object_ else by_rule(modes.get((subject, object_), b""), request, capable))
    bad = [k for k, kind in enumerate(told) if kind not in ("accepted", "skipped")]
    held = sum(kind == "accepted" and b"b" in line.split(b" ")[-1].lower() for line, kind in zip(old, told))
    for name, text, count in (("program_bringup_old_file", old, held), ("program_bringup_old_file_without", new, 0)):
        program(name, b"".join(line + b"\n" for line in text) + b"?\n" + b"".join(lines),
                ["400 %d %d %d %d %d %d" % (told.count("accepted"), told.count("skipped"), len(bad), bad[0] + 1, told[bad[0]], count)] + answers)


def bringup():
    bringup_lines()
    bringup_count()
    bringup_limits()
    bringup_cuts()
    bringup_rules()
    bringup_refused()
    bringup_listing()
    bringup_records()
    bringup_damage()
    bringup_old()
    bringup_programs()


# ---------------------------------------------------------------------------------------------------------------------------------------------
# The label of a new object: 02, request Seven
# ---------------------------------------------------------------------------------------------------------------------------------------------

ALL_MODES = [bytes(c for j, c in enumerate(b"rwxat") if k >> j & 1) for k in range(32)]
FOUR = ((0, 0), (0, 1), (1, 0), (1, 1))  # whether the folder transmutes, and whether the new object is a folder


def says_new(creator, folder, modes, transmutes, is_folder):
    """Written from 02, Seven, and from rules 1 to 7 of 01 for the request w, of which rules 2 and 3 say nothing. `modes` are those of the pair's rule, of the first where it is stored twice;
    None where it has none. Both labels are well formed."""
    if creator == b"*":
        return "denied"  # rule 1
    if folder == b"*" or creator == folder:
        return "creator"  # rule 4 or 5 granted it, not rule 6
    if b"w" not in (modes or b""):
        return "denied"  # rule 7
    return "folder %d" % is_folder if transmutes and b"t" in modes else "creator"


def says_write(creator, folder, modes):
    """The same of the question for w: which of the seven rules decides."""
    rule = 1 if creator == b"*" else 4 if folder == b"*" else 5 if creator == folder else 6 if b"w" in (modes or b"") else 7
    return "%s %d" % ("denied" if rule in (1, 7) else "granted", rule)


def made(s, creator, folder, modes=None, override=True):
    """A file and a folder, in a folder that does not transmute and in one that does; then the question for w, without the capability and with it. `override`: the list is empty or holds the creator."""
    for transmutes, is_folder in FOUR:
        s.newobject(creator, folder, transmutes, is_folder, says_new(creator, folder, modes, transmutes, is_folder))
    said_ = says_write(creator, folder, modes)
    s.ask(creator, folder, b"w", said_)
    s.ask(creator, folder, b"w", said_.replace("denied", "override") if override else said_, 1)


def four(s, creator, folder, *answers):
    """The same four, with what is answered given as words or numbers."""
    for (transmutes, is_folder), answer in zip(FOUR, answers * 4 if len(answers) == 1 else answers, strict=True):
        s.newobject(creator, folder, transmutes, is_folder, answer)


TRANSMUTED = ("creator", "creator", "folder 0", "folder 1")


def newobjects_sentences():
    s = Script("newobjects_sentences", "02, Seven: each sentence by itself.")
    s.say("The recorder and the alarm both make files in one folder. By a rule with w and t each file gets the folder's label, by one with w alone its creator's.")
    s.piece(b"Recorder Records rwxt\nAlarm Records wt\nDesk Records w\nDoor Records rx\nProbe3 Records t\nVault7 Records rxat\n")
    s.end("report 6 6 0 0 0 0")
    s.newobject(b"Recorder", b"Records", 1, 0, "folder 0")
    s.newobject(b"Alarm", b"Records", 1, 0, "folder 0")
    s.newobject(b"Desk", b"Records", 1, 0, "creator")
    s.say("Given creator, folder label, whether the folder transmutes, and whether the new object is a folder: each of the four decides.")
    s.newobject(b"Recorder", b"Records", 1, 1, "folder 1")
    s.newobject(b"Recorder", b"Records", 0, 1, "creator")
    s.newobject(b"Recorder", b"Records", 0, 0, "creator")
    s.newobject(b"Door", b"Records", 1, 1, "denied")
    s.newobject(b"Recorder", b"Alarm", 1, 1, "denied")
    s.say("If the creator may not write to the folder by rules 1 to 7, say denied. Rule 1; then rule 7, with another rule, with none, and with the rule of the other direction.")
    for creator, folder in ((b"*", b"Records"), (b"*", b"*"), (b"*", b"_"), (b"*", b"Unseen"), (b"Door", b"Records"), (b"Air", b"Records"), (b"Records", b"Recorder"), (b"Recorder", b"Air"), (b"Unseen", b"Records")):
        four(s, creator, folder, "denied")
        s.ask(creator, folder, b"w", "denied 1" if creator == b"*" else "denied 7")
    s.say("Rules 2 and 3 are for r and x alone.")
    four(s, b"^", b"Records", "denied")
    four(s, b"Recorder", b"_", "denied")
    four(s, b"^", b"_", "denied")
    s.say("A rule with t and without w, a rule with a and without w: denied.")
    four(s, b"Probe3", b"Records", "denied")
    four(s, b"Vault7", b"Records", "denied")
    s.say("Override isn't considered here: the list is empty, then holds the creator, then another label.")
    s.ask(b"Door", b"Records", b"w", "override 7", 1)
    four(s, b"Door", b"Records", "denied")
    s.override(b"Door *")
    s.ask(b"Door", b"Records", b"w", "override 7", 1)
    four(s, b"Door", b"Records", "denied")
    four(s, b"*", b"Records", "denied")
    four(s, b"Recorder", b"Records", *TRANSMUTED)
    s.override(b"Air")
    four(s, b"Door", b"Records", "denied")
    four(s, b"Recorder", b"Records", *TRANSMUTED)
    four(s, b"Desk", b"Records", "creator")
    s.override(b"-")
    s.say("The folder's label is given when the folder transmutes and rule 6 granted the write by a rule with t; a new folder then transmutes too.")
    four(s, b"Recorder", b"Records", "creator", "creator", "folder 0", "folder 1")
    four(s, b"Alarm", b"Records", "creator", "creator", "folder 0", "folder 1")
    s.say("Otherwise it's the creator's label, and it doesn't transmute: a rule without t; rule 5; rule 4, also beside a rule with t for that pair.")
    four(s, b"Desk", b"Records", "creator")
    four(s, b"Records", b"Records", "creator")
    four(s, b"Unseen", b"Unseen", "creator")
    four(s, b"Recorder", b"*", "creator")
    s.line(b"Recorder * rwxat", None)
    four(s, b"Recorder", b"*", "creator")
    four(s, b"^", b"*", "creator")
    four(s, b"_", b"_", "creator")
    s.say("Refusals: 3, and no place beside it.")
    four(s, b"", b"Records", 3)
    four(s, b"Recorder", b"", 3)
    four(s, b"Recorder/", b"Records", 3)
    four(s, b"Recorder", b"-Records", 3)
    four(s, b"*", b"Re cords", 3)
    four(s, b"L" * 256, b"*", 3)
    four(s, b"L" * 255, b"*", "creator")
    s.store()


def newobjects_modes():
    s = Script("newobjects_modes", "02, Seven: each of the 32 sets of modes of a rule, loaded by a line, set by a change and put into the lent state; a file and a folder in folders that transmute and not.", True)
    s.say("By a line: the letters in their order, in the other order and case, and with placeholders.")
    for modes in ALL_MODES:
        for access in (modes or b"-", modes[::-1].upper() + b"-", b"-".join(modes[k:k + 1] for k in range(len(modes))) + b"B"):
            s.fresh()
            s.line(b"Alarm Records " + access, None)
            made(s, b"Alarm", b"Records", modes)
        made(s, b"Records", b"Alarm")
    s.say("By a change: of a pair with no rule; of one that has every letter, the others taken; of one that has the other letters.")
    for modes in ALL_MODES:
        others = bytes(c for c in b"rwxat" if c not in modes) or b"-"
        for before, allow, deny in ((None, modes or b"-", b"-"), (b"rwxat", b"-", others), (others, modes or b"-", others), (None, b"RWXAT", others), (b"-", modes.upper() + b"-", b"-")):
            s.fresh()
            if before is not None:
                s.line(b"Alarm Records " + before, None)
            s.change(b"Alarm Records %s %s" % (allow, deny))
            made(s, b"Alarm", b"Records", modes)
    s.say("In the lent state: the modes byte of the rule, and another rule of each of the two labels with every letter.")
    lend(s, FIVE + [b"Alarm", b"Records", b"Air"], [(5, 7, b"rwxat"), (5, 6, b""), (7, 6, b"rwxat"), (6, 5, b"rwxat")])
    for modes in ALL_MODES:
        s.poke("entries", 513, bytes([bits_of(modes)]))
        made(s, b"Alarm", b"Records", modes)
    s.say("From each set of modes to each other by a line: only the last counts.")
    s.fresh()
    for k, first in enumerate(ALL_MODES):
        for then in (ALL_MODES[31 - k], ALL_MODES[k ^ 2], ALL_MODES[k ^ 16]):
            s.piece(b"Alarm Records %s\nAlarm Records %s\n" % (first or b"-", then or b"-"))
            made(s, b"Alarm", b"Records", then)
    s.store()


def newobjects_marks():
    s = Script("newobjects_marks", "02, Seven: every pair of the five labels and two others, with a rule of each set of modes for that pair in the lent state, also of a label with itself. Rules 1, 4 and 5 decide before it.", True)
    names = FIVE + [b"Alarm", b"Records"]
    lend(s, names, [(5, 6, b"")])
    for a, creator in enumerate(names):
        for b, folder in enumerate(names):
            s.say("%s in %s" % (creator.decode(), folder.decode()))
            s.poke("entries", 0, bytes([a]))
            s.poke("entries", 256, bytes([b]))
            for modes in ALL_MODES:
                s.poke("entries", 512, bytes([bits_of(modes)]))
                for transmutes, is_folder in FOUR:
                    s.newobject(creator, folder, transmutes, is_folder, says_new(creator, folder, modes, transmutes, is_folder))
                if modes in (b"", b"w", b"t", b"wt", b"rxa"):
                    s.ask(creator, folder, b"w", says_write(creator, folder, modes))
    s.say("Without any rule.")
    s.poke("words", 1, 0)
    for creator in names:
        for folder in names:
            made(s, creator, folder)
    s.store()

    s = Script("newobjects_marks_loaded", "02, Seven: rules of the five labels that came by lines and changes, with each set of modes.", True)
    asked = [(b"Alarm", b"*"), (b"Alarm", b"_"), (b"Alarm", b"^"), (b"Alarm", b"?"), (b"Alarm", b"@"), (b"*", b"Alarm"), (b"_", b"Alarm"), (b"^", b"Alarm"), (b"?", b"Alarm"), (b"@", b"Alarm"), (b"^", b"_"), (b"^", b"*"), (b"*", b"_"), (b"_", b"*"), (b"?", b"@"), (b"@", b"?"),
             (b"_", b"^")]
    for k, modes in enumerate(ALL_MODES):
        s.say("modes " + (modes.decode() or "-"))
        s.fresh()
        for j, (creator, folder) in enumerate(asked):
            if (j + k) % 2:
                s.change(b"%s %s %s -" % (creator, folder, modes or b"-"))
            else:
                s.piece(b"%s %s %s\n" % (creator, folder, modes or b"-"))
        for creator, folder in asked:
            for transmutes, is_folder in FOUR:
                s.newobject(creator, folder, transmutes, is_folder, says_new(creator, folder, modes, transmutes, is_folder))
            if k % 4 == 2:
                s.ask(creator, folder, b"w", says_write(creator, folder, modes))
        for label in FIVE + [b"Alarm", b"Unseen"]:
            s.newobject(label, label, 1, k % 2, "denied" if label == b"*" else "creator")
    s.store()


def newobjects_same():
    s = Script("newobjects_same", "02, Seven: creator and folder with one label. Rule 5 granted the write, so it is the creator's label and nothing transmutes, also where the lent state has a rule of the label with itself.", True)
    names = [b"Alarm", b"Records", b"?", b"@", b"_", b"^", b"L" * 23, b"L" * 24, b"L" * 255, b"a", b"**", b"__"]
    unseen = [b"Unseen", b"U", b"U" * 255, b"!"]
    labels = FIVE + [name for name in names if name not in FIVE]
    for say, rules in (("no rules", []), ("rules of each label with itself, with every letter", [(k, k, b"rwxat") for k in range(len(labels))]), ("rules of each label with itself, with w and t", [(k, k, b"wt") for k in range(len(labels))]),
                       ("with t alone", [(k, k, b"t") for k in range(len(labels))]), ("with no letter", [(k, k, b"") for k in range(len(labels))]),
                       ("rules of each label with the next and the one before", [(k, (k + 1) % len(labels), b"wt") for k in range(len(labels))] + [((k + 1) % len(labels), k, b"wt") for k in range(len(labels))])):
        for override in (b"", b"\x05", b"\x06\x07"):
            s.say(say + "; %d labels on the override list" % len(override))
            lend(s, labels, rules, None, override)
            for label in names + unseen:
                four(s, label, label, "creator")
                s.ask(label, label, b"w", "granted 5")
            four(s, b"*", b"*", "denied")
    s.store()


def newobjects_unknown():
    s = Script("newobjects_unknown", "02, Seven, and 01, Questions: a well-formed label that is not in the table is judged like any other; it has no rules. Rules of other pairs, of the other direction and of number 0 are none of theirs.", True)
    known = FIVE + [b"Alarm", b"Records"]
    every = [(a, b, b"rwxat") for a in range(7) for b in range(7)]
    for say, rules in (("no rules", []), ("a rule of _ with itself", [(0, 0, b"wt")]), ("rules of _ with all", [(0, k, b"wt") for k in range(7)] + [(k, 0, b"wt") for k in range(7)]), ("rules of all with all", every), ("the last label with itself", [(6, 6, b"wt")]),
                       ("Alarm in Records alone", [(5, 6, b"wt")]), ("Records in Alarm alone", [(6, 5, b"wt")])):
        s.say(say)
        lend(s, known, rules)
        modes = {(known[a], known[b]): m for a, b, m in rules}
        for creator in known + [b"New", b"alarm"]:
            for folder in known + [b"New", b"alarm", b"Record"]:
                if creator in known and folder in known and creator in FIVE and folder in FIVE:
                    continue
                made(s, creator, folder, modes.get((creator, folder)))
    s.say("The rule in the other direction; the rule of another creator; the rule of another folder; and each beside the pair's own.")
    for rules in ([(6, 5, b"wt")], [(7, 6, b"wt")], [(5, 7, b"wt")], [(6, 5, b"wt"), (7, 6, b"wt"), (5, 7, b"wt")]):
        for own in (None, b"w", b"t", b"wt", b"", b"rxa"):
            for first in (0, 1):
                mine = [] if own is None else [(5, 6, own)]
                lend(s, FIVE + [b"Alarm", b"Records", b"Air"], mine + rules if first else rules + mine)
                made(s, b"Alarm", b"Records", own)
    s.say("No labels at all, and only some of the five.")
    for count in range(6):
        lend(s, FIVE, [], count)
        for creator in (b"*", b"^", b"_", b"?", b"@", b"Alarm"):
            for folder in (b"*", b"^", b"_", b"?", b"@", b"Alarm"):
                made(s, creator, folder)
    s.say("A creator and a folder whose label was counted and is no more: with it their rule is gone, and the state is sound.")
    lend(s, FIVE + [b"Alarm", b"Records"], [], 5)
    made(s, b"Alarm", b"Records")
    made(s, b"Alarm", b"Alarm")
    s.poke("words", 0, 6)
    made(s, b"Alarm", b"Records")
    s.poke("words", 0, 7)
    s.change(b"Alarm Records wt -")
    made(s, b"Alarm", b"Records", b"wt")
    s.store()


def newobjects_near():
    s = Script("newobjects_near", "02, Seven: labels that are hard to tell apart, with one rule with t: labels that agree in their first characters, and that differ in one byte or in length.", True)
    whole = (b"ClimateProbe_StoreNorth_" * 11)
    for length in (1, 2, 3, 4, 7, 8, 15, 16, 22, 23, 24, 31, 32, 63, 64, 127, 128, 253, 254):
        base = whole[:length]
        one, two = base + b"1", base + b"2"
        s.say("labels that agree in their first %d characters" % length)
        for first, second in (((one, b"wt"), None), ((one, b"wt"), (two, b"w")), ((two, b"w"), (one, b"wt")), ((one, b"wt"), (two, b"t")), ((two, b"-"), (one, b"wt")))[:5 if length in (8, 22, 23, 24, 253, 254) else 3]:
            rules = dict([first] + ([second] if second else []))
            s.fresh()
            s.piece(b"".join(b"%s Records %s\nRecords %s %s\n" % (label, modes, label, modes) for label, modes in rules.items()))
            for label in (one, two, base):
                for transmutes, is_folder in FOUR:
                    s.newobject(label, b"Records", transmutes, is_folder, says_new(label, b"Records", rules.get(label), transmutes, is_folder))
                    s.newobject(b"Records", label, transmutes, is_folder, says_new(b"Records", label, rules.get(label), transmutes, is_folder))
            made(s, one, two)
            made(s, one, one)
            s.newobject(two, one, 1, 1, "denied")
            s.newobject(base, one, 1, 1, "denied")
        s.say("and have a rule between them")
        s.fresh()
        s.line(b"%s %s wt" % (one, two), None)
        made(s, one, two, b"wt")
        made(s, two, one)
        made(s, one, one)
        made(s, two, two)
    s.say("One byte is another, at each place: that label has no rule.")
    for length in (1, 5, 8, 23, 24, 40, 255):
        base = whole[:length]
        s.fresh()
        s.piece(b"%s Air wt\nAir %s wt\n" % (base, base))
        four(s, base, b"Air", *TRANSMUTED)
        four(s, b"Air", base, *TRANSMUTED)
        for at in range(length):
            stranger = base[:at] + bytes([other_byte(base[at], 2)]) + base[at + 1:]
            s.newobject(stranger, b"Air", 1, at % 2, "denied")
            s.newobject(b"Air", stranger, 1, at % 2, "denied")
            if at in (0, 22, 23, length - 1):
                s.newobject(stranger, base, 1, 1, "denied")
                s.newobject(stranger, stranger, 1, 1, "creator")
    s.say("Lengths: beginnings and ends of one label, each with modes of its own.")
    for label_of in (lambda n: whole[:n], lambda n: whole[30 - n:30], lambda n: b"A" * n):
        modes = {label_of(n): ALL_MODES[n * 7 % 32] for n in range(1, 25, 2)}
        s.fresh()
        s.piece(b"".join(b"%s Records %s\n" % (label, m or b"-") for label, m in modes.items()))
        for n in range(1, 26):
            label = label_of(n)
            for transmutes, is_folder in FOUR:
                s.newobject(label, b"Records", transmutes, is_folder, says_new(label, b"Records", modes.get(label), transmutes, is_folder))
    s.say("The case of a letter counts.")
    s.fresh()
    s.piece(b"Alarm Records wt\nalarm Records w\nALARM records wt\n")
    for creator, folder, modes in ((b"Alarm", b"Records", b"wt"), (b"alarm", b"Records", b"w"), (b"ALARM", b"records", b"wt"), (b"ALARM", b"Records", None), (b"Alarm", b"records", None), (b"alarm", b"records", None), (b"Records", b"records", None), (b"alarm", b"ALARM", None)):
        made(s, creator, folder, modes)
    s.store()


def newobjects_twice():
    s = Script("newobjects_twice", "01: where a lent state holds a label or a pair twice, the first counts, and a label means its first number. So for w and for t alike. _ ^ and * are known by their bytes.", True)
    s.say("A pair twice, each two sets of modes of five; the first counts: first wt, second w: the folder's label. First w, second wt: the creator's. First t, second w: denied. First none, second wt: denied.")
    for first, second, answers in ((b"wt", b"w", TRANSMUTED), (b"w", b"wt", ("creator",)), (b"t", b"w", ("denied",)), (b"", b"wt", ("denied",))):
        lend(s, FIVE + [b"Alarm", b"Records"], [(5, 6, first), (5, 6, second)])
        four(s, b"Alarm", b"Records", *answers)
    some = [b"", b"w", b"t", b"wt", b"a", b"at", b"rx", b"rwxat", b"wa", b"rxat"]
    for first in some:
        for second in some:
            lend(s, FIVE + [b"Alarm", b"Records"], [(5, 6, first), (6, 5, b"wt"), (5, 6, second)])
            made(s, b"Alarm", b"Records", first)
    s.say("Three times, at the ends and in the middle of many other rules.")
    for count in (3, 33, 64, 65, 256):
        for at in sorted({(0, 1, 2), (0, count // 2, count - 1), (count - 3, count - 2, count - 1)}):
            for three in ((b"wt", b"w", b"t"), (b"w", b"t", b"wt"), (b"t", b"wt", b"w"), (b"", b"w", b"wt"), (b"wt", b"", b"")):
                rules = [(6 + k % 2, 5 + k % 3, b"rwxat") for k in range(count)]
                for place_, modes in zip(at, three):
                    rules[place_] = (5, 6, modes)
                lend(s, FIVE + [b"Alarm", b"Records", b"Air"], rules)
                made(s, b"Alarm", b"Records", three[0])
    s.say("A label twice: what stands under its second number is found by no label.")
    for one, other in ((5, 6), (5, 9), (8, 63), (0, 5), (3, 4), (4, 63)):
        labels = FIVE + [b"L%02d" % k for k in range(5, 64)]
        labels[one] = labels[other] = b"Twice"
        lend(s, labels, [])
        for rules, there, back in (([(other, 20, b"wt")], None, None), ([(20, other, b"wt")], None, None), ([(one, 20, b"wt"), (20, one, b"w")], b"wt", b"w"), ([(other, 20, b"wt"), (one, 20, b"w"), (20, other, b"w"), (20, one, b"wt")], b"w", b"wt"),
                                   ([(other, 20, b"w"), (one, 20, b"wt")], b"wt", None), ([(one, 20, b"t"), (other, 20, b"w"), (other, 20, b"wt")], b"t", None), ([(one, other, b"wt"), (other, one, b"wt")], None, None)):
            for at, row in ((0, bytes(r[0] for r in rules)), (256, bytes(r[1] for r in rules)), (512, bytes(bits_of(r[2]) for r in rules))):
                s.poke("entries", at, row)
            s.poke("words", 1, len(rules))
            made(s, b"Twice", b"L20", there)
            made(s, b"L20", b"Twice", back)
            four(s, b"Twice", b"Twice", "creator")
    s.say("Both labels twice.")
    labels = FIVE + [b"Alarm", b"Records", b"Alarm", b"Records"]
    for a in (5, 7):
        for b in (6, 8):
            lend(s, labels, [(a, b, b"wt")])
            made(s, b"Alarm", b"Records", b"wt" if (a, b) == (5, 6) else None)
            lend(s, labels, [(a, b, b"wt"), (5, 6, b"w")])
            made(s, b"Alarm", b"Records", b"wt" if (a, b) == (5, 6) else b"w")
            lend(s, labels, [(a, b, b"w"), (5, 6, b"wt")])
            made(s, b"Alarm", b"Records", b"w" if (a, b) == (5, 6) else b"wt")
    s.say("The second number becomes the first: another label stands at the first.")
    lend(s, labels, [(7, 8, b"wt"), (5, 6, b"w")])
    made(s, b"Alarm", b"Records", b"w")
    s.poke("labels", 256 * 5, place(b"Other"))
    made(s, b"Alarm", b"Records")
    made(s, b"Other", b"Records", b"w")
    s.poke("labels", 256 * 6, place(b"Folder"))
    made(s, b"Alarm", b"Records", b"wt")
    made(s, b"Other", b"Folder", b"w")
    s.say("Writes go to the first rule of the pair, and the answer goes by it.")
    lend(s, FIVE + [b"Alarm", b"Records"], [(5, 6, b"r"), (5, 6, b"wt")])
    made(s, b"Alarm", b"Records", b"r")
    s.change(b"Alarm Records w -")
    made(s, b"Alarm", b"Records", b"rw")
    s.change(b"Alarm Records t r")
    made(s, b"Alarm", b"Records", b"wt")
    s.list(1, b"Alarm Records wt\n", b"\xee" * 24)
    s.line(b"Alarm Records t", None)
    made(s, b"Alarm", b"Records", b"t")
    s.list(1, b"Alarm Records wt\n", b"\xee" * 24)
    s.say("Other labels at the places of _ ^ and *: they are as any other, and the marks are known by their bytes, wherever they stand or not.")
    for labels in ([b"X", b"Y", b"Z", b"?", b"@", b"_", b"^", b"*", b"Alarm"], [b"*", b"_", b"^", b"@", b"?", b"X", b"Y", b"Z", b"Alarm"], [b"^", b"*", b"_", b"X", b"Y", b"Z", b"A", b"B", b"Alarm"], [b"X", b"Y", b"Z", b"A", b"B", b"C", b"D", b"E", b"Alarm"]):
        every = [(a, b, b"wt") for a in range(9) for b in range(9)]
        for rules in (every, [(a, b, b"w") for a, b, _ in every], []):
            lend(s, labels, rules)
            for creator in (b"X", b"Y", b"Z", b"*", b"^", b"_", b"?", b"Alarm"):
                for folder in (b"X", b"Z", b"*", b"^", b"_", b"@", b"Alarm"):
                    stored = creator in labels and folder in labels and rules
                    for transmutes, is_folder in FOUR[2:]:
                        s.newobject(creator, folder, transmutes, is_folder, says_new(creator, folder, rules[0][2] if stored else None, transmutes, is_folder))
    s.say("Stored labels that are not well formed: no label means them, and they are no damage.")
    lend(s, FIVE + [b"Alarm", b"Records"], [(5, 6, b"wt")])
    for stored in (b"", b" ", b"-", b"Alarm/", b"\0" * 255, b"Alarm\n", b"\xc1larm"):
        s.poke("labels", 256 * 5, place(stored))
        made(s, b"Alarm", b"Records")
        s.newobject(stored, b"Records", 1, 1, 3)
        s.newobject(b"Records", stored, 1, 1, 3)
        s.newobject(stored, stored, 1, 1, 3)
    s.poke("labels", 256 * 5, place(b"Alarm"))
    made(s, b"Alarm", b"Records", b"wt")
    s.say("What lies behind a label in its place does not count, nor does a rule behind the count.")
    s.poke("labels", 256 * 5 + 6, b"Alarm" * 10)
    made(s, b"Alarm", b"Records", b"wt")
    made(s, b"AlarmAlarm", b"Records")
    s.poke("entries", 1, b"\x06")
    s.poke("entries", 257, b"\x05")
    s.poke("entries", 513, b"\x12")
    made(s, b"Records", b"Alarm")
    s.poke("words", 1, 2)
    made(s, b"Records", b"Alarm", b"wt")
    s.poke("words", 1, 0)
    made(s, b"Alarm", b"Records")
    s.store()


def newobjects_after():
    s = Script("newobjects_after", "02, Seven: after a revoke, after changes that take or give w or t, after lines that replace the modes, and after writes that do not reach the rule.", True)
    s.say("One pair, write by write.")
    s.fresh()
    made(s, b"Alarm", b"Records")
    for write, modes in ((b"change Alarm Records w -", b"w"), (b"change Alarm Records t -", b"wt"), (b"change Alarm Records - w", b"t"), (b"change Alarm Records W -", b"wt"), (b"change Alarm Records - T", b"w"), (b"change Alarm Records t t", b"w"), (b"change Alarm Records t w", b"t"),
                         (b"change Alarm Records w t", b"w"), (b"change Alarm Records rxat -", b"rwxat"), (b"change Alarm Records - rxa", b"wt"), (b"change Alarm Records - -", b"wt"), (b"change Alarm Records - wt", b""), (b"change Alarm Records wt -", b"wt"), (b"change Alarm Records wt w", b"t"),
                         (b"line Alarm Records wt", b"wt"), (b"line Alarm Records w", b"w"), (b"line Alarm Records t", b"t"), (b"line Alarm Records TW", b"wt"), (b"line Alarm Records -", b""), (b"line Alarm Records rwxatb", b"rwxat"), (b"line Alarm Records rxat", b"rxat"), (b"line Alarm Records a", b"a"),
                         (b"line Alarm Records wtb", b"wt"), (b"line Alarm Records b", b""), (b"line Alarm Records w-t", b"wt"), (b"revoke Alarm", b""), (b"change Alarm Records t -", b"t"), (b"change Alarm Records w -", b"wt"), (b"revoke Alarm", b""), (b"line Alarm Records wt", b"wt")):
        name, rest = write.split(b" ", 1)
        if name == b"line":
            s.line(rest, None)
        elif name == b"change":
            s.change(rest)
        else:
            s.revoke(rest, "revoked 1")
        made(s, b"Alarm", b"Records", modes)
    s.say("Writes that do not reach the rule: revoke of the folder's label, of another, of an unknown one; rules of other pairs; mappings and override lists.")
    s.revoke(b"Records", "revoked 0")
    s.revoke(b"Air", "revoked 0")
    s.revoke(b"*", "revoked 0")
    made(s, b"Alarm", b"Records", b"wt")
    s.line(b"Records Alarm -", None)
    s.line(b"Alarm Air w", None)
    s.line(b"Air Records t", None)
    s.mapping(b"Alarm 9 1")
    s.mapping(b"Records 9 1")
    made(s, b"Alarm", b"Records", b"wt")
    made(s, b"Alarm", b"Air", b"w")
    made(s, b"Air", b"Records", b"t")
    s.say("Refused writes change nothing of it.")
    for text, number in ((b"Alarm Records w", 2), (b"Alarm Records - q", 4), (b"Alarm Records - b", 4), (b"Alarm/ Records - w", 3), (b"Alarm Alarm wt -", 5), (b"Alarm Records - t" + b" " * 600, 1)):
        s.change(text, "refused %d" % number)
        four(s, b"Alarm", b"Records", *TRANSMUTED)
    for text, number in ((b"Alarm Records", 2), (b"Alarm Records q", 4), (b"Alarm Records l", 4), (b"Alarm -Records r", 3), (b"Records Records wt", 5), (b"Alarm Records r" + b" " * 600, 1)):
        s.line(text, number)
        four(s, b"Alarm", b"Records", *TRANSMUTED)
    s.say("Revoke takes the rules of every folder from one creator, and of no other.")
    s.fresh()
    s.piece(b"".join(b"%s %s wt\n" % (a, b) for a in (b"Alarm", b"Recorder", b"Desk") for b in (b"Records", b"Air", b"_", b"^")))
    for revoked in (b"Recorder", b"Alarm", b"Desk"):
        for creator in (b"Alarm", b"Recorder", b"Desk"):
            for folder in (b"Records", b"Air", b"_", b"^"):
                gone = (b"Recorder", b"Alarm", b"Desk").index(creator) < (b"Recorder", b"Alarm", b"Desk").index(revoked)
                made(s, creator, folder, b"" if gone else b"wt")
        s.revoke(revoked, "revoked 4")
        made(s, revoked, b"Records", b"")
        made(s, revoked, b"*", b"")
        made(s, revoked, revoked, b"")
    s.store()


def newobjects_override():
    s = Script("newobjects_override", "02, Seven: override isn't considered here. The same answers under an empty list, under one that holds the creator and under one that does not, and after each.", True)
    names = FIVE + [b"Alarm", b"Records", b"Desk", b"Unseen"]
    rules = {(b"Alarm", b"Records"): b"wt", (b"Desk", b"Records"): b"w", (b"Records", b"Alarm"): b"t", (b"Alarm", b"Desk"): b"rxa", (b"*", b"Records"): b"rwxat", (b"Alarm", b"*"): b"wt", (b"^", b"Records"): b"wt", (b"_", b"Alarm"): b"at", (b"Alarm", b"_"): b"wt", (b"?", b"@"): b"wt"}
    for text in (b"-", b"Alarm", b"Desk", b"Records", b"* _ ^ ? @", b"*", b"Alarm Desk Records", b"Later", b"_", b"A1 A2 A3 A4 A5 A6 A7 A8", b"A1 A2 A3 A4 A5 A6 A7 Alarm", b"- "):
        s.say("the list is " + text.decode())
        s.fresh()
        s.piece(b"".join(b"%s %s %s\n" % (a, b, m) for (a, b), m in rules.items()))
        s.override(text)
        listed = text.split()
        for creator in names:
            for folder in (b"Records", b"Alarm", b"Desk", b"*", b"_", b"@", b"Unseen"):
                modes = rules.get((creator, folder))
                for transmutes, is_folder in FOUR[2:]:
                    s.newobject(creator, folder, transmutes, is_folder, says_new(creator, folder, modes, transmutes, is_folder))
                said_ = says_write(creator, folder, modes)
                s.ask(creator, folder, b"w", said_.replace("denied", "override") if listed == [b"-"] or creator in listed else said_, 1)
        made(s, b"Alarm", b"Records", b"wt")
        made(s, b"Desk", b"Records", b"w")
    s.say("A lent list that holds a label's second number, or a label twice.")
    for override in (b"\x05", b"\x07", b"\x05\x05", b"\x07\x07\x07\x07\x07\x07\x07\x07"):
        lend(s, FIVE + [b"Alarm", b"Records", b"Alarm"], [(6, 5, b"wt"), (5, 6, b"t")], None, override)
        made(s, b"Alarm", b"Records", b"t", b"\x05" in override)
        made(s, b"Records", b"Alarm", b"wt")
        made(s, b"Records", b"*")
        four(s, b"*", b"Alarm", "denied")
    s.store()


def newobjects_refusals():
    s = Script("newobjects_refusals", "02, Seven: refusal 3 exactly where the creator or the folder's label is not well formed, whatever rules there are and whatever the other two say; no place beside it. Nothing changes.", True)
    ill = [b"", b"-", b"--", b"-A", b"-Alarm", b"/", b"Alarm/", b"/Alarm", b"Al/arm", b"Alarm ", b" Alarm", b"Al arm", b"Alarm\t", b"Alarm\n", b"\nAlarm", b"Alarm\0", b"\0", b"Al'arm", b"Al\"arm", b"Al\\arm", b"\x7f", b"Alarm\x7f", b"\x80", b"\xff", b"Al\xe4rm", b"*\n", b"* ", b"* *", b"_/", b"^-/", b"-*",
           b"L" * 256, b"L" * 257, b"L" * 300, b"L" * 511, b"L" * 512, b"L" * 600, b"L" * 601, b"*" * 256, b"L" * 254 + b"/", b"L" * 255 + b"/", b"/" + b"L" * 255, b"L" * 65537]
    good = [b"Alarm", b"Records", b"*", b"_", b"^", b"Unseen", b"A-", b"L" * 255]
    for text in (b"", b"Alarm Records wt\n* Records wt\nAlarm * wt\n"):
        s.fresh()
        s.piece(text)
        s.dump("rules %d" % len(text))
        for k, label in enumerate(ill):
            long = len(label) > 1000
            for j, other in enumerate(good[:1] if long else good):
                transmutes, is_folder = FOUR[(j + k) % 4]
                s.newobject(label, other, transmutes, is_folder, 3)
                s.newobject(other, label, is_folder, transmutes, 3)
            four(s, label, label, 3)
            if not long:
                s.newobject(label, ill[k - 1] if len(ill[k - 1]) < 1000 else b"-", 1, 1, 3)
        s.dump("rules %d" % len(text))
    s.say("Either side: labels of 1 to 255 bytes, a dash that is not the first.")
    for label in (b"A", b"A-", b"A--", b"!", b"~", b"L" * 254, b"L" * 255, b"LL-" * 85, b"#", b"@@"):
        four(s, label, label, "creator")
        four(s, label, b"*", "creator")
        four(s, b"*", label, "denied")
        four(s, b"Alarm", label, "denied")
        four(s, label, b"Records", "denied")
    s.store()

    s = Script("newobjects_bytes", "02, Seven, and 01, Labels: every byte value in the creator and in the folder's label: alone, first, in the middle and last.", True)
    s.fresh()
    s.piece(b"A Records wt\nRecords A wt\n_ Records wt\nRecords ^ w\nLa Records wt\naL Records w\nLaL Records wt\nRecords LaL wt\n")
    rules = {(b"A", b"Records"): b"wt", (b"Records", b"A"): b"wt", (b"_", b"Records"): b"wt", (b"Records", b"^"): b"w", (b"La", b"Records"): b"wt", (b"aL", b"Records"): b"w", (b"LaL", b"Records"): b"wt", (b"Records", b"LaL"): b"wt"}
    for byte in range(256):
        one = bytes([byte])
        for label in (one, one + b"L", b"L" + one, b"L" + one + b"L", b"L" * 254 + one, b"L" * 255 + one):
            is_folder = (byte + len(label)) % 2
            s.newobject(label, b"Records", 1, is_folder, says_new(label, b"Records", rules.get((label, b"Records")), 1, is_folder) if is_label(label) else 3)
            s.newobject(b"Records", label, 1, is_folder, says_new(b"Records", label, rules.get((b"Records", label)), 1, is_folder) if is_label(label) else 3)
        for label in (one, b"L" + one):
            s.newobject(label, label, 1, 1, says_new(label, label, None, 1, 1) if is_label(label) else 3)
            s.newobject(b"Records/", label, 1, 1, 3)
            s.newobject(label, b"", 1, 1, 3)
    s.store()


def newobjects_damage():
    s = Script("newobjects_damage", "01, refusal 0, and 02, Seven: in a damaged state the answer is 0, before 3 and before every rule of the seven, and nothing changes.", True)
    kinds = [("words", index, value) for index, limit, old in ((0, 64, 9), (1, 256, 3), (2, 32, 2), (3, 8, 2)) for value in (limit + 1, 1000, (1 << 32) + old, 1 << 63, HUGE)] + [("words", 0, value) for value in (8, 5, 0)]
    kinds += [("entries", at, bytes([value])) for at in (0, 1, 2, 256, 257, 258, 768, 769, 832, 833) for value in (9, 64, 255)]
    kinds += [("entries", at, bytes([value])) for at in (512, 513, 514) for value in (1, 64, 128, 19, 82, 146, 255)] + [("words", at, value) for at in (68, 69) for value in (1, 128, HUGE)]
    kinds += [(part, None, size) for part, size_ in (("labels", 16384), ("entries", 840), ("words", 100)) for size in (0, 1, size_ // 2, size_ - 1, size_ + 1, 2 * size_)]
    asked = [(b"B", b"C"), (b"A", b"B"), (b"A", b"A"), (b"*", b"*"), (b"A", b"*"), (b"*", b"A"), (b"^", b"_"), (b"Unseen", b"Unseen"), (b"Unseen", b"A"), (b"", b""), (b"/", b"C"), (b"B", b"-"), (b"L" * 256, b"C")]
    for number in damaged_by(s, kinds):
        for k, (creator, folder) in enumerate(asked):
            s.newobject(creator, folder, *FOUR[(k + number) % 4], 0)
        four(s, b"B", b"C", 0)
        s.dump("kind %d" % number)
    s.say("Sound again, and what is no damage: numbers and bits behind the counts; the loader and the line, which this call is not lent.")
    small_state(s)
    four(s, b"B", b"C", "creator")
    s.poke("entries", 513, b"\x12")
    four(s, b"B", b"C", *TRANSMUTED)
    for at, byte in ((3, b"\xff"), (259, b"\x40"), (515, b"\xff"), (770, b"\xff"), (834, b"\xff")):
        s.poke("entries", at, byte)
        four(s, b"B", b"C", *TRANSMUTED)
    s.poke("words", 70, HUGE)
    four(s, b"B", b"C", *TRANSMUTED)
    for kept in (601, 602, 1000, HUGE):
        s.poke("loader", 0, kept)
        four(s, b"B", b"C", *TRANSMUTED)
    for size in (0, 599, 601):
        s.call("resize line %d" % size, "done")
        four(s, b"B", b"C", *TRANSMUTED)
        four(s, b"C", b"B", "denied")
        four(s, b"", b"B", 3)
    s.say("A full table: an unknown mode bit, and a number without a label, at each place of the rules.")
    full(s)
    s.override(b" ".join(name_of(k) for k in range(5, 13)))
    s.dump("full", True)
    for k in range(256):
        a, b = pairs()[k]
        for at, value, old in ((512 + k, (1 | 32, 64 | 18, 128 | 62)[k % 3], 32), (k, 64 + k % 192, int(a[1:])), (256 + k, 255 - k % 192, int(b[1:]))):
            s.poke("entries", at, bytes([value]))
            s.newobject(*asked[(k + at) % len(asked)], *FOUR[k % 4], 0)
            s.poke("entries", at, bytes([old]))
        s.newobject(a, b, 1, 1, "denied")
    s.dump("full", True)
    s.store()


def newobjects_kept():
    s = Script("newobjects_kept", "02, Seven: nothing enters and nothing changes, whatever is answered, also while a line is under way; that line is judged as if nothing had been asked.", True)
    asked = [(b"Alarm", b"Records", b"wt"), (b"Desk", b"Records", b"w"), (b"Door", b"Records", b"rx"), (b"Unseen1", b"Records", None), (b"Alarm", b"Unseen2", None), (b"Unseen3", b"Unseen4", None), (b"Unseen5", b"Unseen5", None), (b"Unseen6", b"*", None), (b"*", b"Unseen7", None), (b"^", b"_", None),
             (b"U" * 255, b"V" * 255, None)]
    text = b"Alarm Records wt\nDesk Records w\nDoor Records rx\n"

    def all_asked():
        for creator, folder, modes in asked:
            made(s, creator, folder, modes)
        for creator, folder in ((b"", b"Records"), (b"Alarm", b"Rec/ords"), (b"Unseen8/", b"Unseen9")):
            four(s, creator, folder, 3)
    for name, line in (("no line", b""), ("a line", b"Alarm Air w"), ("a line that will be refused", b"Alarm Air/ wt"), ("a line of over 600 bytes", b"A" * 700), ("blanks", b"   "), ("a line of the pair", b"Alarm Records r")):
        s.say(name + " under way")
        s.fresh()
        s.piece(text + line)
        s.mapping(b"Alarm 9 1")
        s.dump("under way " + name)
        all_asked()
        s.dump("under way " + name)
    s.say("The line of the pair is judged at its newline: until then the rule is as it was.")
    four(s, b"Alarm", b"Records", *TRANSMUTED)
    s.piece(b"\n")
    four(s, b"Alarm", b"Records", "denied")
    s.end("report 4 4 0 0 0 0")
    s.say("Each byte of a text, one by one, and the answer between.")
    s.fresh()
    whole, modes = b"Alarm Records w\nAlarm Records wt\nAlarm Records t\n\nAlarm Records tw b\nAlarm Alarm wt\nAlarm Records WbT", b""
    judged = {15: b"w", 32: b"wt", 48: b"t"}
    for at in range(len(whole)):
        s.piece(whole[at:at + 1])
        modes = judged.get(at, modes)
        transmutes, is_folder = FOUR[at % 2 + 2]
        s.newobject(b"Alarm", b"Records", transmutes, is_folder, says_new(b"Alarm", b"Records", modes, transmutes, is_folder))
    s.end("report 7 4 1 2 5 2", 0, 1)
    four(s, b"Alarm", b"Records", *TRANSMUTED)
    s.say("Full tables: 64 labels and 256 rules, and unknown labels that have no place to enter.")
    full(s)
    s.dump("full", True)
    for creator, folder in ((b"Unseen1", b"L05"), (b"L05", b"Unseen1"), (b"Unseen1", b"Unseen2"), (b"Unseen1", b"Unseen1"), (b"Unseen1", b"*"), (b"L40", b"L41"), (b"L05", b"L06")):
        made(s, creator, folder, b"r" if folder == b"L06" else None)
    s.dump("full", True)
    s.label(64, 13)
    s.say("Unknown labels do not enter: the next number is free, and the next write takes it.")
    s.fresh()
    four(s, b"Unseen1", b"Unseen2", "denied")
    four(s, b"Unseen1", b"Unseen1", "creator")
    s.label(5, 13)
    s.line(b"Unseen2 Unseen1 wt", None)
    s.label(5, b"Unseen2")
    s.label(6, b"Unseen1")
    s.label(7, 13)
    four(s, b"Unseen2", b"Unseen1", *TRANSMUTED)
    four(s, b"Unseen1", b"Unseen2", "denied")
    s.say("A label that a mapping or an override list brought in has no rules.")
    s.mapping(b"Mapped 9")
    s.override(b"Listed")
    for creator, folder in ((b"Mapped", b"Listed"), (b"Listed", b"Mapped"), (b"Mapped", b"Unseen1"), (b"Unseen2", b"Mapped"), (b"Mapped", b"Mapped"), (b"Listed", b"Unseen1")):
        made(s, creator, folder, None, creator == b"Listed")
    s.store()


def newobjects_full():
    s = Script("newobjects_full", "02, Seven: full tables, 64 labels and 256 rules, the pair at each place from 0 to 255; and each of 64 labels as creator and as folder.", True)
    full(s)
    s.dump("full", True)
    for k in range(256):
        a, b = pairs()[k]
        for modes in (b"wt", b"w", b"t") if k % 8 in (0, 7) else (b"wt",):
            s.poke("entries", 512 + k, bytes([bits_of(modes)]))
            for transmutes, is_folder in FOUR:
                s.newobject(a, b, transmutes, is_folder, says_new(a, b, modes, transmutes, is_folder))
        s.newobject(b, a, 1, 1, "denied")
        s.newobject(*pairs()[(k + 1) % 256], 1, 1, "denied")
        s.poke("entries", 512 + k, b"\x20")
    s.dump("full", True)
    s.say("Only one rule is with w and t, then all but one: at each place.")
    for k in range(256):
        a, b = pairs()[k]
        s.poke("entries", 512, b"\x10" * k + b"\x12" + b"\x10" * (255 - k))
        four(s, a, b, *TRANSMUTED)
        s.newobject(*pairs()[(k - 1) % 256], 1, 1, "creator")
        s.newobject(*pairs()[(k + 1) % 256], 1, 1, "creator")
        s.poke("entries", 512, b"\x12" * k + b"\x02" + b"\x12" * (255 - k))
        s.newobject(a, b, 1, 1, "denied")
        s.newobject(*pairs()[(k - 1) % 256], 1, 0, "folder 0")
        s.newobject(*pairs()[(k + 1) % 256], 1, 1, "folder 1")
    s.say("Every count of rules: the last below it is found, the next is not.")
    s.poke("entries", 512, b"\x12" * 256)
    for count in range(257):
        s.poke("words", 1, count)
        if count:
            s.newobject(*pairs()[count - 1], 1, 1, "folder 1")
        if count < 256:
            s.newobject(*pairs()[count], 1, 1, "denied")
    s.say("Each label as creator and as folder, in a table of 64 labels with one rule.")
    labels = FIVE + [b"L%02d" % k for k in range(5, 64)]
    lend(s, labels, [(5, 6, b"wt")])
    for k in range(64):
        for j in ((k + 1) % 64, (k + 40) % 64, 63 - k):
            s.poke("entries", 0, bytes([k]))
            s.poke("entries", 256, bytes([j]))
            for transmutes, is_folder in FOUR[1:]:
                s.newobject(labels[k], labels[j], transmutes, is_folder, says_new(labels[k], labels[j], b"wt", transmutes, is_folder))
            s.newobject(labels[j], labels[k], 1, 1, says_new(labels[j], labels[k], b"wt" if j == k else None, 1, 1))
            s.newobject(labels[k], labels[j - 1], 1, 1, says_new(labels[k], labels[j - 1], None, 1, 1))
    s.store()


def newobjects_walk():
    s = Script("newobjects_walk", "02, Seven: a long list of lines, changes, revokes and override lists about ten labels, and the labels of new objects between.", True)
    rng, modes = random.Random(7), {}
    names = FIVE + [b"Alarm", b"Recorder", b"Records", b"Air", b"Desk"]
    s.fresh()
    for step in range(400):
        creator, folder = rng.sample(names, 2)
        kind = rng.choice(["line"] * 4 + ["change"] * 4 + ["revoke", "override"])
        if kind == "line":
            access = rng.choice(ALL_MODES + [b"wt", b"rwt", b"wat"] * 5)
            s.piece(b"%s %s %s\n" % (creator, folder, access or b"-"))
            modes[creator, folder] = access
        elif kind == "change":
            allow, deny = rng.choice([b"w", b"t", b"wt", b"", b"rxa"]), rng.choice([b"w", b"t", b"", b"", b"a", b"wt"])
            s.change(b"%s %s %s %s" % (creator, folder, allow or b"-", deny or b"-"))
            old = modes.get((creator, folder), b"")
            modes[creator, folder] = bytes(c for c in b"rwxat" if (c in old or c in allow) and c not in deny)
        elif kind == "revoke" and step % 3 == 0:
            s.revoke(creator, "revoked %d" % sum(a == creator for a, _ in modes))
            modes.update({pair: b"" for pair in modes if pair[0] == creator})
        elif kind == "override":
            s.override(rng.choice([b"-", creator, folder, creator + b" " + folder]))
        for ask in range(4):
            a, b = (creator, folder) if ask == 0 else (folder, creator) if ask == 1 else (rng.choice(names), rng.choice(names)) if ask == 2 or not modes else rng.choice(sorted(modes))
            transmutes, is_folder = rng.choice(FOUR[1:])
            s.newobject(a, b, transmutes, is_folder, says_new(a, b, modes.get((a, b)), transmutes, is_folder))
            if step % 5 == 0:
                s.ask(a, b, b"w", says_write(a, b, modes.get((a, b))))
    for k, (a, b) in enumerate(modes):
        line = b"%s %s %s\n" % (a, b, modes[a, b] or b"-")
        s.list(k, line, b"\xee" * (len(line) + 2))
    s.store()


def newobjects_lengths():
    s = Script("newobjects_lengths", "02, Seven: labels of every length, and labels that differ in one byte or only in length: whole labels are compared, as creator and as folder.", True)
    s.say("A creator and a folder of each length from 1 to 255 bytes by rule 6; one label for both; and a label that is another one in each of its last eight bytes.")
    for n in range(1, 256):
        label = b"L" * n
        s.fresh()
        s.change(label + b" Records wt -")
        four(s, label, b"Records", *TRANSMUTED)
        s.change(b"Recorder " + label + b" wt -")
        four(s, b"Recorder", label, *TRANSMUTED)
        s.newobject(label, label, 1, 1, "creator")
        for k in range(max(0, n - 8), n):
            near = label[:k] + b"M" + label[k + 1:]
            s.newobject(near, b"Records", 1, 1, "denied")
            s.newobject(b"Recorder", near, 1, 1, "denied")
    s.say("The same of labels that are not stored: equal to themselves alone.")
    s.fresh()
    for n in range(1, 256):
        label = b"U" * n
        s.newobject(label, label, 1, 1, "creator")
        s.newobject(label, label[:-1] + b"V", 1, 1, "denied")
    s.say("A stored label of 64 and of 128 bytes more.")
    for more in (64, 128):
        for n in range(1, 256 - more):
            s.fresh()
            s.change(b"L" * (n + more) + b" Records wt -")
            s.change(b"Recorder " + b"L" * (n + more) + b" wt -")
            s.newobject(b"L" * n, b"Records", 1, 1, "denied")
            s.newobject(b"Recorder", b"L" * n, 1, 1, "denied")
    s.say("Two labels of 255 bytes that differ in one byte, at each place, with and without a rule.")
    whole = b"L" * 255
    for k in range(255):
        near = whole[:k] + b"M" + whole[k + 1:]
        s.fresh()
        s.newobject(whole, near, 1, 1, "denied")
        s.newobject(near, near, 1, 1, "creator")
        s.change(whole + b" " + near + b" wt -")
        s.newobject(whole, near, 1, 1, "folder 1")
        s.newobject(near, whole, 1, 1, "denied")
    s.say("One bad byte at each place of a label of 255 bytes, and at the end of a shorter one.")
    s.fresh()
    for k in range(255):
        for bad in (b"/", b" ", b"\xff"):
            label = whole[:k] + bad + whole[k + 1:]
            for one in (label, label[:k + 1]):
                s.newobject(one, b"Records", 1, 1, 3)
                s.newobject(b"Records", one, 1, 1, 3)
    s.store()


def newobjects_places():
    s = Script("newobjects_places", "02, Seven, and 01, refusal 0: tables of every number of labels, mappings and override labels; label numbers and rules at each place; damage at each.", True)
    s.say("Each number of stored labels.")
    for n in range(6, 65):
        labels = FIVE + [b"F%d" % k for k in range(5, n)]
        lend(s, labels, [(n - 1, 0, b"wt"), (0, n - 1, b"w")])
        four(s, labels[n - 1], b"_", *TRANSMUTED)
        four(s, b"_", labels[n - 1], "creator")
    s.say("64 labels: a rule of two numbers is not that of a number 32 or 16 further on or back.")
    labels = FIVE + [b"F%d" % k for k in range(5, 64)]
    for i, j in ((5, 6), (5, 38), (37, 6), (31, 32), (32, 31), (63, 5), (6, 62), (21, 22)):
        lend(s, labels, [(i, j, b"wt")])
        s.newobject(labels[i], labels[j], 1, 1, "folder 1")
        for x, y in ((i, j ^ 32), (i ^ 32, j), (i ^ 32, j ^ 32), (i ^ 16, j), (i, j ^ 16), (j, i)):
            if (x, y) != (i, j) and 5 <= min(x, y) and x != y:
                s.newobject(labels[x], labels[y], 1, 1, "denied")
                for other, said_ in ((b"w", "creator"), (b"rt", "denied")):
                    lend(s, labels, [(x, y, other), (i, j, b"wt")])
                    s.newobject(labels[i], labels[j], 1, 1, "folder 1")
                    s.newobject(labels[x], labels[y], 1, 1, said_)
                lend(s, labels, [(i, j, b"wt")])
    s.say("The pair at two places of 256 rules: the first counts, also where the two are neighbours.")
    for i, j in ((0, 1), (1, 2), (31, 32), (63, 64), (127, 128), (128, 129), (191, 192), (253, 254), (254, 255), (0, 255), (100, 200)):
        for first, later in ((b"wt", b"w"), (b"w", b"wt"), (b"t", b"wt"), (b"", b"wt")):
            rules = [(5 + k % 40, 50, b"wt") for k in range(256)]
            rules[i], rules[j] = (60, 61, first), (60, 61, later)
            lend(s, labels, rules)
            four(s, b"F60", b"F61", *(says_new(b"F60", b"F61", first, *flags) for flags in FOUR))
    s.say("The rule at each place whose creator's number is one more than its folder's.")
    for k in range(256):
        rules = [(5 + j % 40, 50, b"w") for j in range(256)]
        rules[k] = (61, 60, b"wt")
        lend(s, labels, rules)
        s.newobject(b"F61", b"F60", 1, 1, "folder 1")
        s.newobject(b"F60", b"F61", 1, 1, "denied")
    s.say("The last two of 64 labels have 255 bytes, and the last of 256 rules is theirs.")
    long = labels[:62] + [b"X" * 255, b"Y" * 255]
    for i, j in ((62, 63), (63, 62), (63, 5), (5, 63)):
        lend(s, long, [(6 + k % 50, 60, b"w") for k in range(255)] + [(i, j, b"wt")])
        four(s, long[i], long[j], *TRANSMUTED)
        s.newobject(long[j], long[i], 1, 1, "denied")
    s.say("Each number of mappings, which are not looked at; also of the creator, at level 250 in a lent state.")
    s.fresh()
    s.change(b"Recorder Records wt -")
    for k in range(33):
        four(s, b"Recorder", b"Records", *TRANSMUTED)
        if k < 32:
            s.mapping(b"Recorder 9 1" if k == 0 else b"M%d 9 1" % k)
    s.poke("entries", 800, b"\xfa")
    four(s, b"Recorder", b"Records", *TRANSMUTED)
    kinds = ((b"Recorder", b"Records"), (b"*", b"*"), (b"Recorder", b"*"), (b"Recorder", b"Recorder"), (b"-", b"Records"), (b"Recorder", b"Rec/ords"), (b"", b""))

    def damaged():
        for creator, folder in kinds:
            s.newobject(creator, folder, 1, 1, 0)

    s.say("Damage: a mapping's label number at each place, a bit that is no category, counts over 2^32, an override label at each place; beside labels that would be refused with 3.")
    for k in range(32):
        s.poke("entries", 768 + k, b"\xff")
        damaged()
        s.poke("entries", 768 + k, b"\x05")
        s.poke("words", 68 + k, 1)
        damaged()
        s.poke("words", 68 + k, 0)
    for index in range(4):
        for value in (2 ** 32, 2 ** 32 + 1, 2 ** 32 + 5, 2 ** 40 + 1, 2 ** 56 + 1):
            s.fresh()
            s.change(b"Recorder Records wt -")
            s.poke("words", index, value)
            damaged()
    for k in range(8):
        s.fresh()
        s.poke("entries", 832, bytes(k) + b"\xff")
        s.poke("words", 3, k + 1)
        damaged()
    s.say("A mapping's label number alone is bad: no rule, no override label.")
    s.fresh()
    s.mapping(b"M 9 1")
    s.poke("entries", 768, b"\xff")
    damaged()
    s.say("No label, and a rule.")
    lend(s, FIVE, [(0, 0, b"wt")])
    s.poke("words", 0, 0)
    damaged()
    s.store()


def newobjects_kernel():
    s = Script("newobjects_kernel", "What a running kernel does with the label of a new object, sentence by sentence, and what 02, Seven, decides otherwise. P is the creating process's label, D the directory's.", True)
    s.say("Normally the creating process's label.")
    s.fresh()
    s.line(b"P D rwx", None)
    four(s, b"P", b"D", "creator")
    s.say("The directory's label is taken when both the directory carries the mark and an explicit rule contains t.")
    s.line(b"P D rwxt", None)
    four(s, b"P", b"D", "creator", "creator", "folder 0", "folder 1")
    s.say("A sub-directory so made inherits the mark; a file gets only the label.")
    s.newobject(b"P", b"D", 1, 1, "folder 1")
    s.newobject(b"P", b"D", 1, 0, "folder 0")
    s.say("Without t: process label, no mark.")
    s.line(b"P D rwxa", None)
    s.newobject(b"P", b"D", 1, 1, "creator")
    s.newobject(b"P", b"D", 1, 0, "creator")
    s.say("Same label without a rule: keeps that label, but a new sub-directory does not get the mark. The creator's label, and it does not transmute.")
    four(s, b"D", b"D", "creator")
    four(s, b"P", b"P", "creator")
    s.say("02 decides otherwise: only the rule list is looked at by the kernel, so that a rule of a label with itself would give the mark there. Here rule 5 granted the write, and not rule 6.")
    lend(s, FIVE + [b"P", b"D"], [(5, 5, b"rwxat"), (6, 6, b"rwxat")])
    four(s, b"D", b"D", "creator")
    four(s, b"P", b"P", "creator")
    s.say("t alone does not give the right to create: w on the directory is still needed.")
    s.fresh()
    s.line(b"P D t", None)
    four(s, b"P", b"D", "denied")
    s.line(b"P D rxat", None)
    four(s, b"P", b"D", "denied")
    s.say("02 decides otherwise: with capabilities and a rule t the kernel takes the directory's label. Override isn't considered here: denied, though the question for w is granted by override.")
    s.line(b"P D t", None)
    s.ask(b"P", b"D", b"w", "override 7", 1)
    four(s, b"P", b"D", "denied")
    s.override(b"P")
    s.ask(b"P", b"D", b"w", "override 7", 1)
    four(s, b"P", b"D", "denied")
    s.say("Directory labelled * without a rule: the process label.")
    four(s, b"P", b"*", "creator")
    s.say("02 decides otherwise: with a rule P * rwxat the kernel gives files labelled *. Here rule 4 granted the write, and not rule 6.")
    s.line(b"P * rwxat", None)
    four(s, b"P", b"*", "creator")
    s.ask(b"P", b"*", b"w", "granted 4")
    s.say("Directories labelled _ and ^, and processes with these labels: what is written there goes by the rule list, in the kernel and here.")
    for creator, folder in ((b"P", b"_"), (b"P", b"^"), (b"_", b"D"), (b"^", b"D"), (b"^", b"_"), (b"?", b"D"), (b"P", b"?")):
        four(s, creator, folder, "denied")
        s.line(creator + b" " + folder + b" rwx", None)
        four(s, creator, folder, "creator")
        s.line(creator + b" " + folder + b" rwxt", None)
        four(s, creator, folder, *TRANSMUTED)
    s.say("01 decides otherwise: the kernel allows whatever has @ as subject or object. Here @ has no special rule.")
    for creator, folder in ((b"P", b"@"), (b"@", b"D"), (b"@", b"_")):
        four(s, creator, folder, "denied")
        s.line(creator + b" " + folder + b" wt", None)
        four(s, creator, folder, *TRANSMUTED)
    s.say("A process labelled * is refused whatever the object.")
    for folder in (b"D", b"*", b"@", b"_"):
        if folder != b"*":
            s.line(b"* " + folder + b" rwxat", None)
        four(s, b"*", folder, "denied")
    s.store()


def newobjects_odd():
    s = Script("newobjects_odd", "02, Seven, and 01, refusal 0: lent tables where a search or the damage test could end too early, and what is no damage; nothing is written, whatever is answered.", True)
    two = FIVE + [b"Alarm", b"Records"]

    def unchanged(name, creator, folder, *answers):
        """The four answers between two dumps, which are the same."""
        s.dump(name)
        four(s, creator, folder, *answers)
        s.dump(name)

    s.say("A stored label that is empty or ill formed ends no search for a label.")
    for odd in (b"", b" ", b"-", b"\xff"):
        lend(s, FIVE + [odd, b"Alarm", b"Records"], [(6, 7, b"wt")])
        four(s, b"Alarm", b"Records", *TRANSMUTED)
    s.say("A rule of zeros, or without modes, ends no search for a rule.")
    for before in ((0, 0, b""), (5, 5, b""), (6, 6, b""), (6, 5, b"")):
        lend(s, two, [before, (5, 6, b"wt")])
        four(s, b"Alarm", b"Records", *TRANSMUTED)
    s.say("The t of another rule does not count: of the creator with itself, of the folder with itself, of the turned pair, behind the count.")
    for other in ((5, 5, b"wt"), (6, 6, b"wt"), (6, 5, b"wt")):
        for rules in ([other, (5, 6, b"w")], [(5, 6, b"w"), other]):
            lend(s, two, rules)
            four(s, b"Alarm", b"Records", "creator")
    for modes, answers in ((b"w", ("creator",)), (b"", ("denied",))):
        lend(s, two, [(5, 6, modes), (5, 6, b"wt")])
        s.poke("words", 1, 1)
        four(s, b"Alarm", b"Records", *answers)
    s.say("The pair at places of tables with other numbers of rules; then there twice, the second last.")
    for count in (2, 3, 31, 32, 33, 63, 64, 65, 126, 127, 128, 129, 130, 191, 192, 193, 253, 254, 255, 256):
        for k in sorted({0, 1, 31, 32, 63, 64, 100, 127, 128, 191, 192, count // 2, count - 2, count - 1}):
            if k >= count:
                continue
            rules = [(6, 5, b"r")] * count
            rules[k] = (5, 6, b"wt")
            lend(s, two, rules)
            s.newobject(b"Alarm", b"Records", 1, 1, "folder 1")
            s.newobject(b"Records", b"Alarm", 1, 1, "denied")
            if k < count - 1:
                rules[-1] = (5, 6, b"w")
                lend(s, two, rules)
                s.newobject(b"Alarm", b"Records", 1, 1, "folder 1")
    s.say("The turned pair beside it.")
    for k in (0, 1, 30, 62, 126, 127, 253, 254):
        lend(s, two, [(5, 5, b"")] * k + [(6, 5, b"r"), (5, 6, b"wt")])
        four(s, b"Alarm", b"Records", *TRANSMUTED)
    s.say("Under five labels the rules count as in any table.")
    for count in (1, 2, 3, 4):
        lend(s, FIVE, [(count - 1, 0, b"wt"), (0, count - 1, b"w")], count)
        unchanged("under five: %d" % count, FIVE[count - 1], b"_", *([says_new(FIVE[count - 1], b"_", b"wt", *flags) for flags in FOUR]))
    s.say("No label at all: a mapping's number, an override label's or a rule's names none, 0 too; without them nothing is damaged.")
    for index in (1, 2, 3):
        s.fresh()
        s.poke("words", 0, 0)
        four(s, b"A", b"A", "creator")
        s.poke("words", index, 1)
        for creator, folder in ((b"A", b"A"), (b"A", b"*"), (b"*", b"A"), (b"_", b"A"), (b"", b"A")):
            four(s, creator, folder, 0)
    s.say("A number just too high, of a mapping or an override label: with rules or none, in tables of each kind of size.")
    for labels in (5, 6, 7, 31, 32, 63):
        names = two + [b"F%d" % k for k in range(7, 64)]
        for rules in ([], [(0, 1, b"wt")], [(0, 1, b"wt")] * 256):
            for index, at in ((2, 768), (3, 832)):
                for count in (1, 8, 32 if index == 2 else 8):
                    lend(s, names[:labels], rules)
                    s.poke("words", index, count)
                    s.poke("entries", at + count - 1, bytes([labels]))
                    s.newobject(b"_", b"^", 1, 1, 0)
                    s.newobject(b"A", b"A", 1, 1, 0)
                    s.poke("entries", at + count - 1, bytes([labels - 1]))
                    s.newobject(b"_", b"^", 1, 1, "folder 1" if rules else "denied")
    s.say("Full mappings and an override label that names none; a full list and a mapping that names none.")
    for full_, at, one, other in ((2, 32, 3, 832), (3, 8, 2, 768)):
        s.fresh()
        s.poke("words", full_, at)
        s.poke("words", one, 1)
        four(s, b"A", b"A", "creator")
        s.poke("entries", other, b"\x05")
        four(s, b"A", b"A", 0)
    s.say("No damage: a mapping or an override label twice; the highest and lowest bits of a set that are categories; bytes behind the labels that are counted.")
    lend(s, two, [(5, 6, b"wt")])
    s.poke("words", 2, 2)
    s.poke("entries", 768, b"\x05\x05")
    unchanged("a mapping twice", b"Alarm", b"Records", *TRANSMUTED)
    s.poke("words", 3, 2)
    s.poke("entries", 832, b"\x05\x05")
    unchanged("an override label twice", b"Alarm", b"Records", *TRANSMUTED)
    for n in (1, 63, 64, 65, 127, 128, 129, 183, 184):
        s.poke_set(0, category(n))
        four(s, b"Alarm", b"Records", *TRANSMUTED)
    s.fresh()
    s.poke("labels", 1280, b"\xff")
    four(s, b"_", b"_", "creator")
    four(s, b"_", b"^", "denied")
    s.say("Nothing is written: with a label or a pair twice, with lists of each kind, and in tables of each kind of size.")
    for labels in (two, two + [b"Alarm"], two + [b"Records", b"Alarm"], two + [b"F%d" % k for k in range(7, 63)], two + [b"F%d" % k for k in range(7, 64)]):
        for rules in ([(5, 6, b"wt")], [(5, 6, b"wt"), (5, 6, b"w")], [(5, 6, b"wt")] + [(6, 5, b"r")] * 254, [(5, 6, b"wt")] + [(6, 5, b"r")] * 255):
            for overrides in (b"", b"\x05", b"\x06", b"\x05\x06" * 4):
                for mappings in (0, 1, 31, 32):
                    lend(s, labels, rules, None, overrides)
                    s.poke("words", 2, mappings)
                    name = "%d labels, %d rules, %d listed, %d mapped, %s" % (len(labels), len(rules), len(overrides), mappings, h(labels[-1] + overrides))
                    s.dump(name)
                    s.newobject(b"Alarm", b"Records", 1, 1, "folder 1")
                    s.newobject(b"Alarm", b"Records", 1, 0, "folder 0")
                    s.newobject(b"Alarm", b"Records", 0, 1, "creator")
                    s.newobject(b"Records", b"Alarm", 1, 1, "denied")
                    s.newobject(b"Unseen", b"Unseen2", 1, 1, "denied")
                    s.newobject(b"Unseen", b"*", 1, 1, "creator")
                    s.newobject(b"Unseen", b"", 1, 1, 3)
                    s.dump(name)
    s.store()


def newobjects():
    newobjects_sentences()
    newobjects_modes()
    newobjects_marks()
    newobjects_same()
    newobjects_unknown()
    newobjects_near()
    newobjects_twice()
    newobjects_after()
    newobjects_override()
    newobjects_refusals()
    newobjects_damage()
    newobjects_kept()
    newobjects_full()
    newobjects_walk()
    newobjects_lengths()
    newobjects_places()
    newobjects_odd()
    newobjects_kernel()


# ---------------------------------------------------------------------------------------------------------------------------------------------
# Recordings of a running kernel, where 01 does not decide otherwise
# ---------------------------------------------------------------------------------------------------------------------------------------------

def rows(folder, name):
    with open(os.path.join(folder, name), encoding="latin-1") as f:
        for row in f.read().splitlines():
            # A comment begins with a word, or with a space; a label may begin with #.
            if row and not row.startswith(("# ", "#subject", "#place", "#label\t")):
                yield row.split("\t")


def kernel(folder):
    """Letters are taken out as 01 has none: l everywhere, b in a change. A rule of equal labels: 01 says 5. `@` has no special rule in 01. The number of
    the rule is by 01's seven rules; that it is granted or denied is the kernel's answer."""
    writes = [row for row in rows(folder, "rules.txt")]
    rules = {}

    def without(field, letters):
        return "".join(c for c in field if c not in letters) or "-"

    def decide(subject, object_, request):
        letters = set(request)
        if subject == "*":
            return "denied 1"
        if subject == "^" and letters <= set("rx"):
            return "granted 2"
        if object_ == "_" and letters <= set("rx"):
            return "granted 3"
        if object_ == "*":
            return "granted 4"
        if subject == object_:
            return "granted 5"
        modes = rules.get((subject, object_), set())
        return "granted 6" if letters <= modes else "denied 7"

    def make(s, file, text):
        fields = text.split(" ")
        if file == "load2":
            access = without(fields[2], "l")
            if fields[0] == fields[1]:
                s.say("the kernel keeps such a rule and never uses it; 01 says 5")
                s.line(text.encode(), 5)
            else:
                s.line(" ".join([fields[0], fields[1], access]).encode(), None)
                rules[fields[0], fields[1]] = set(access.lower()) - {"-"}
        elif file == "change-rule":
            allow, deny = without(fields[2], "lb"), without(fields[3], "lb")
            s.change(" ".join([fields[0], fields[1], allow, deny]).encode())
            rules[fields[0], fields[1]] = (rules.get((fields[0], fields[1]), set()) | set(allow.lower())) - set(deny.lower()) - {"-"}
        else:
            had = [pair for pair in rules if pair[0] == text]
            s.revoke(text.encode(), "revoked %d" % len(had))
            for pair in had:
                rules[pair] = set()

    compared = 0
    for stage, name in (("S0", "questions_s0_norules.tsv"), ("S1", "questions_s1.tsv"), ("S2", "questions_s2.tsv"), ("S3", "questions.tsv")):
        s = Script("kernel_questions_" + stage.lower(), "The kernel's questions after its writes up to %s. Granted or denied is the kernel's answer, but for pairs with @." % stage)
        done = {"S0": ["S0"], "S1": ["S1"], "S2": ["S1", "S2"], "S3": ["S1", "S2", "S3"]}[stage]
        rules.clear()
        for row in writes:
            if row[0] in done:
                make(s, row[1], row[2])
        s.dump()
        groups = {}
        for subject, object_, request, answer in rows(folder, name):
            expect = decide(subject, object_, request)
            if subject == "*" or "@" not in (subject, object_):
                compared += 1
                if expect.startswith("granted") != (answer == "1"):
                    sys.exit("%s: %s %s %s: the kernel says %s, 01 %s" % (name, subject, object_, request, answer, expect))
            groups.setdefault(expect, []).append("question %s %s %s 0" % (w(subject.encode()), w(object_.encode()), w(request.encode())))
        for expect in sorted(groups):
            s.from_here(expect)
            for call in groups[expect]:
                s.call(call)
        s.from_here("any")
        s.dump()
        s.store()
    print(compared, "answers of the kernel")

    s = Script("kernel_bringup", "The kernel's questions after all its writes, with a b put into every rule line: in a kernel b alters no answer, and by 02, Six, it is not even stored.", True)
    rules.clear()
    for k, row in enumerate(row for row in writes if row[1] != "load2" or len(set(row[2].split(" ")[:2])) == 2):
        file, text = row[1:3]
        if file == "load2":
            subject, object_, access = text.split(" ")
            text = " ".join([subject, object_, (access + "b", "b" + access, "B" + access + "B")[k % 3]])
        make(s, file, text)
    groups = {}
    for subject, object_, request, answer in rows(folder, "questions.tsv"):
        expect = decide(subject, object_, request)
        if (subject == "*" or "@" not in (subject, object_)) and expect.startswith("granted") != (answer == "1"):
            sys.exit("questions.tsv, with b: %s %s %s: the kernel says %s, 02 %s" % (subject, object_, request, answer, expect))
        groups.setdefault(expect, []).append("question %s %s %s 0" % (w(subject.encode()), w(object_.encode()), w(request.encode())))
    for expect in sorted(groups):
        for call in groups[expect]:
            s.call(call, expect)
    s.store()

    s = Script("kernel_labels", "The kernel's labels: those that it kept whole are labels; those that it cut, split or refused are refused with 3.")
    count = 0
    for row in rows(folder, "labels.tsv"):
        label, at = b"", 0
        while at < len(row[2]):
            if row[2][at] == "%":
                label += bytes([int(row[2][at + 1:at + 3], 16)])
                at += 3
            else:
                label += row[2][at].encode("latin-1")
                at += 1
        count += 1
        whole = row[-1] == "whole"
        s.bylabel(label, "none" if whole else "refused 3")
        blank = any(b in label for b in b" \t\n")
        if blank:
            continue
        s.call("fresh")
        reason = None if whole else 3
        s.line(label[:500] + b" Object r", reason)
        s.line(b"Subject " + label[:500] + b" r", reason)
    print(count, "labels of the kernel")
    s.store()

    s = Script("kernel_cipso", "The kernel's mappings: level and categories as it put them on packets. Category 0, which it takes and ignores, is refused with 9 here, and so is level 250, by 02, Five.")
    for row in rows(folder, "cipso.tsv"):
        if not row[1].startswith("cipso2 level "):
            continue
        level, listed = row[1][len("cipso2 level "):].split(" cats ")
        categories = [] if listed == "none" else listed.split(",")
        write = " ".join([row[0], level] + categories).encode()
        if "0" in categories or level == "250":
            s.mapping(write, "refused 9")
        else:
            option = bytes.fromhex(row[2])
            bits = [8 * k + j for k, byte in enumerate(option[10:option[1]]) for j in range(8) if byte & (0x80 >> j)]
            set_ = sum(category(n) for n in bits)
            s.mapping(write)
            s.bylabel(row[0].encode(), mapped(option[9], set_, len(bits)))
    s.dump()
    s.store()

    s = Script("kernel_options", "The kernel's options: the bytes that it put on packets, without its padding, are what is written for the label, and are read back as the label that its receiver saw.")
    left, taken = {}, []
    for label, how, local, remote, seen, *_ in rows(folder, "cipso.tsv"):
        words = how.split(" ")
        cause = None
        if local == "(no option)":
            cause = "no option was sent"
        elif how.startswith("mapped(secid)"):
            cause = "an unmapped label of over 23 bytes, at level 251"
        elif "smackfs/direct := 100" in how:
            cause = "another level than 250 for a label's own bits"
        elif "smackfs/doi := 17" in how:
            cause = "another DOI"
        elif words[0] == "cipso2" and words[2] == "250":
            cause = "a mapping at level 250"
        elif words[0] == "cipso2" and "0" in words[4].split(","):
            cause = "category 0 in a mapping write"
        if cause:
            left[cause] = left.get(cause, 0) + 1
            continue
        option = bytes.fromhex(local)
        option, padding = option[:option[1]], option[option[1]:]
        if any(padding) or seen != label or remote not in (local, "(no option)", "nothing sent SENDERR 13"):
            sys.exit("cipso.tsv: %s: %s" % (label, how))
        s.say(how)
        if words[0] == "cipso2":
            s.mapping(" ".join([label, words[2]] + ([] if words[4] == "none" else words[4].split(","))).encode())
        taken.append((label.encode(), option))
        there_and_back(s, *taken[-1])
    s.say("All of them once more, with every mapping in the table.")
    for label, option in taken:
        there_and_back(s, label, option)
    s.dump()
    print(len(taken), "options of the kernel; left out:", "; ".join("%d: %s" % (left[cause], cause) for cause in sorted(left)))
    s.store()


def main():
    if not os.path.exists(SECOND):
        sys.exit("no %s: cargo build --release --offline in tests/second" % SECOND)
    os.makedirs(CORPUS, exist_ok=True)
    limits()
    bytes_and_letters()
    questions()
    refusals()
    damage()
    odd()
    odd_counts()
    counters()
    cuts()
    thousands()
    programs()
    ranges()
    near()
    records()
    searches()
    places()
    categories()
    options()
    bringup()
    newobjects()
    folder = os.environ.get("KERNEL_VECTORS")
    if folder:
        kernel(folder)
    else:
        print("KERNEL_VECTORS is not set: kernel_* stay as they are")
    kept = [f for f in os.listdir(CORPUS) if f.startswith("kernel_") and not folder]
    for f in sorted(os.listdir(CORPUS)):
        if f not in kept and f.rsplit(".", 1)[0] not in written:
            os.remove(os.path.join(CORPUS, f))
            print("removed", f)
    print(len(written), "inputs and scripts; now run tests/corpus_check second")


if __name__ == "__main__":
    main()
