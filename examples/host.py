"""A host of the library in Python, over the module bindings/python/balqirven.py: the same as examples/host.c and examples/host.rs. It loads an old rule file
in pieces, asks, changes, revokes, maps and lists, turns a file of old records into rules and back, labels packets that another side reads, and labels the
files that the recorder and the alarm make in one folder. It writes examples/host.expected. From the root of the repository, with the library installed:

  PYTHONPATH=PREFIX/lib/python python3 examples/host.py examples/store_north.rules examples/old_logger.records

or without:

  mkdir -p target/python
  gcc -shared -Wl,--whole-archive target/staticlib/libbalqirven.a -Wl,--no-whole-archive -Wl,-soname,libbalqirven.so.5 -o target/python/libbalqirven.so.5
  export BALQIRVEN_LIBRARY=target/python/libbalqirven.so.5 PYTHONPATH=bindings/python
  python3 examples/host.py examples/store_north.rules examples/old_logger.records
"""
import os
import sys

from balqirven import FIXED_PLACE, FIXED_RECORD, HIGHEST_CATEGORY, OWN_LEVEL, Loader, Record, Refusal, Refused, Set, Table
from balqirven import line_to_record, lowest_in_run, record_to_line


def say(form, *values):
    """Writes bytes as they are: labels are bytes."""
    sys.stdout.buffer.write(form % values)


def sentence(refusal):
    return refusal.sentence.encode()


def bad_byte(place, of):
    """Where the first bad label goes wrong. The library counts bytes from 0; a reader counts them from 1, as lines are counted."""
    return b"a label goes wrong at byte %d of %s, counted from 1: by that byte, by a dash in front or by its length" % (place + 1, of)


def why(refused, of=b""):
    """A refusal's number; beside 9 what it can be for; and beside 3 the place, where the call tells one. `of` is what the place is counted in."""
    if refused.refusal is Refusal.BAD_LEVEL_OR_CATEGORY:
        reason = b": a level is not 0 to 255 or is %d in a write, a category not 1 to %d, or a bit of the set is no category" % (OWN_LEVEL, HIGHEST_CATEGORY)
    else:
        reason = b"" if refused.place is None else b": " + bad_byte(refused.place, of)
    return b"refused %d%s" % (refused.refusal, reason)


def write(name, call, text, more=b""):
    """A write of fields, and whether it was done or refused."""
    try:
        call(text)
        say(b"%s '%s'%s: done\n", name, text, more)
    except Refused as refused:
        say(b"%s '%s'%s: %s\n", name, text, more, why(refused, b"the write"))


def finish(loader, table):
    """Ends the text and says its report."""
    report = loader.end(table)
    say(b"load: %d lines, %d accepted, %d skipped, %d refused\n", report.lines, report.accepted, report.skipped, report.refused)
    if report.refused:
        reason = sentence(report.reason) if report.place is None else bad_byte(report.place, b"the line")
        say(b"line %d is the first refused, with %d: %s\n", report.first, report.reason, reason)
    if report.bringup:
        say(b"%d accepted lines held the retired letter b, which was dropped\n", report.bringup)


def load(table, path):
    """Loads a file in pieces of a size that has nothing to do with its lines."""
    loader = Loader()
    with open(path, "rb") as file:
        while piece := file.read(37):
            loader.piece(table, piece)
    finish(loader, table)


def ask(table, subject, object, request, capable=False):
    say(b"may %s have %s to %s%s: ", subject, request, object, b" (override capability)" if capable else b"")
    try:
        decision = table.question(subject, object, request, capable=capable)
        say(b"%s %d\n", decision.kind.encode(), decision.rule)
    except Refused as refused:
        say(b"%s\n", why(refused, b"the subject or, where that is well formed, of the object"))


def revoke(table, subject):
    say(b"revoke '%s': ", subject)
    try:
        say(b"%d rules\n", table.revoke(subject))
    except Refused as refused:
        say(b"%s\n", why(refused, b"that label"))


def numbers(categories):
    return b"".join(b" %d" % category for category in categories)


def show_mapping(table, label):
    say(b"mapping of '%s': ", label)
    try:
        mapping = table.by_label(label)
    except Refused as refused:
        say(b"%s\n", why(refused, b"that label"))
    else:
        say(b"%s\n", b"none" if mapping is None else b"level %d, %d categories:%s" % (mapping.level, mapping.count, numbers(mapping.set)))


def show_label_of(table, level, categories):
    try:
        k = table.by_level(level, categories)
        found = b"no label" if k is None else b"label %d, %s" % (k, table.label(k))
        say(b"level %d, categories%s: %s\n", level, numbers(categories), found)
    except Refused as refused:
        say(b"mapping by level and set: %s\n", why(refused))


def show_lowest(run, level, categories):
    try:
        k = lowest_in_run(run, level, categories)
        found = b"none of the run" if k is None else b"lowest of the run is label %d" % k
        say(b"level %d, categories%s: %s\n", level, numbers(categories), found)
    except Refused as refused:
        say(b"search of a run: %s\n", why(refused))


def list_rules(table):
    for k, rule in enumerate(table.rules()):
        say(b"rule %d: %s", k, rule)


def old_records(table, path):
    """Old records to rules in a fresh table, and back: whether each rule is a record of the file again. A refused record gives no line, and the others load all
    the same; so the report counts lines, not records."""
    with open(path, "rb") as file:
        content = file.read()
    records = [content[start:start + FIXED_RECORD] for start in range(0, len(content), FIXED_RECORD)]
    loader = Loader()
    for k, record in enumerate(records, 1):
        try:
            line = record_to_line(record)  # of a file cut short, the rest is refused with BAD_RECORD
        except Refused as refused:
            say(b"record %d is refused with %d: %s\n", k, refused.refusal, sentence(refused.refusal))
        else:
            loader.piece(table, line)
    finish(loader, table)
    list_rules(table)

    access = 2 * FIXED_PLACE  # capital letters count in labels, but not in the access bytes behind them
    known = {record[:access] + record[access:].lower() for record in records}
    back = 0
    rules = list(table.rules())
    for k, rule in enumerate(rules):
        try:
            if line_to_record(rule) in known:
                back += 1
            else:
                say(b"rule %d came back as a record that the file does not have\n", k)
        except Refused as refused:
            say(b"rule %d is refused with %d: %s\n", k, refused.refusal, sentence(refused.refusal))
    say(b"%d of %d rules came back as records of the file, but for the case of access letters\n", back, len(rules))
    return back == len(rules)


def show_record(rule):
    try:
        say(b"'%s' as a record: '%s'\n", rule, line_to_record(rule))
    except Refused as refused:
        say(b"'%s' is refused with %d: %s\n", rule, refused.refusal, sentence(refused.refusal))


def label_packet(table, label):
    """The options of a packet: the label's option, filled up with zero bytes to a multiple of four. Where it is refused there are none, and the packet is not
    to be sent."""
    say(b"packet of '%s': ", label)
    try:
        option = table.write_option(label)
    except Refused as refused:
        say(b"refused %d: %s\n", refused.refusal, sentence(refused.refusal))
        return b""
    say(b"%s\n", b" ".join(b"%d" % byte for byte in option))
    return option + bytes(-len(option) % 4)


def read_packet(table, options):
    """The option has as many bytes as its byte 1 says; where these are not there, all that there are go to the call, which refuses them."""
    say(b"the other side reads: ")
    try:
        say(b"'%s'\n", table.read_option(options[:options[1]] if len(options) > 1 else options))
    except Refused as refused:
        say(b"refused %d: %s\n", refused.refusal, sentence(refused.refusal))


def send_packet(table, other, label):
    options = label_packet(table, label)
    if options:
        read_packet(other, options)


def packets():
    """Labels on packets. A label without a mapping goes as its own bits, which any side reads; one with a mapping is read where the other side has the same
    mapping. The numbers that labels have need not agree."""
    table, other = Table.fresh(), Table.fresh()
    say(b"fresh table: done\nfresh table of the other side: done\n")
    probe = b"ClimateProbe_StoreNorth_01_Temp"
    write(b"mapping", table.mapping, b"Desk 250 1")  # BAD_LEVEL_OR_CATEGORY: level 250 is for labels without a mapping
    send_packet(table, other, b"Recorder")
    send_packet(table, other, probe)  # NOT_IN_AN_OPTION: 31 bytes, and no mapping yet
    write(b"mapping", table.mapping, probe + b" 9 1 100 184")
    send_packet(table, other, probe)  # NO_SUCH_MAPPING: the other side does not have it yet
    write(b"mapping", other.mapping, probe + b" 9 1 100 184", b" of the other side")
    send_packet(table, other, probe)
    send_packet(table, other, b"Archive/2026")  # BAD_LABEL: of a packet no place is told

    options = bytearray(label_packet(table, b"Alarm"))
    if options:
        options[5] = 4  # OTHER_DOI: 4 in place of 3
        say(b"with DOI 4, ")
        read_packet(other, options)


def create(table, creator, folder, folder_transmutes, is_folder):
    """A file or a folder that a creator wants to make in a folder."""
    kind, mark = b"folder" if is_folder else b"file", b" (transmutes)"
    say(b"%s makes a %s in %s%s: ", creator, kind, folder, mark if folder_transmutes else b"")
    try:
        made = table.new_object(creator, folder, folder_transmutes=folder_transmutes, is_folder=is_folder)
        say(b"%s\n", b"label %s%s" % (made.label, mark if made.transmutes else b"") if made else b"denied")
    except Refused as refused:
        say(b"refused %d: %s\n", refused.refusal, sentence(refused.refusal))


def shared_folder():
    """The recorder and the alarm make record files in one folder, Records, which transmutes. The recorder can read a file that the alarm made only where it has
    the folder's label; for that the alarm's rule needs t."""
    table = Table.fresh()
    say(b"fresh table: done\n")
    write(b"change", table.change, b"Recorder Records rwxt -")
    write(b"change", table.change, b"Alarm Records rwx -")
    create(table, b"Recorder", b"Records", True, False)
    create(table, b"Alarm", b"Records", True, False)  # no t: the file has the alarm's own label,
    ask(table, b"Recorder", b"Alarm", b"r")  # and the recorder can't read it
    write(b"change", table.change, b"Alarm Records t -")
    create(table, b"Alarm", b"Records", True, False)
    ask(table, b"Recorder", b"Records", b"r")
    create(table, b"Alarm", b"Records", True, True)  # a folder in it transmutes too,
    create(table, b"Alarm", b"Records", False, True)  # but not in a folder that does not
    create(table, b"Records", b"Records", True, True)  # one label: rule 5 grants, and no rule with t
    create(table, b"Desk", b"Records", True, False)  # may not write there; override is not considered
    create(table, b"Alarm/2", b"Records", True, False)  # BAD_LABEL: no place is told here


def main(rule_file, record_file):
    table = Table.fresh()
    say(b"fresh table: done\n")
    load(table, rule_file)
    ask(table, b"ClimateProbe_StoreNorth_01_Temp", b"Air_StoreNorth_01", b"w")
    ask(table, b"ClimateProbe_StoreNorth_01_Temp", b"Air_StoreNorth_02", b"w")
    ask(table, b"Alarm", b"Air_StoreNorth_02", b"r")  # its line is an old one, with rB: r counts
    ask(table, b"Alarm", b"Air_StoreNorth_02", b"rb")  # BAD_REQUEST: b is no letter of a request, nor is t below
    ask(table, b"Desk", b"Air_StoreNorth_01", b"r")
    ask(table, b"Desk", b"Air_StoreNorth_01", b"r", True)
    ask(table, b"Desk", b"Air_StoreNorth_01", b"rt", True)
    ask(table, b"Desk", b"Archive/2026", b"r", True)  # BAD_LABEL: with the place of the slash

    write(b"change", table.change, b"Alarm Archive r -")
    write(b"change", table.change, b"Alarm Archive rb -")  # BAD_ACCESS: only lines may still have b
    write(b"change", table.change, b"Alarm Alarm r -")  # SAME_LABELS
    write(b"change", table.change, b"Alarm Archive/2026 r -")  # BAD_LABEL, as three more below
    ask(table, b"Alarm", b"Archive", b"r")

    revoke(table, b"Recorder ")  # the blank is a byte of the label here
    revoke(table, b"Recorder")
    ask(table, b"Recorder", b"Archive", b"a")

    write(b"override list", table.override_list, b"Desk -")  # only a dash alone clears the list
    write(b"override list", table.override_list, b"Desk Alarm")
    ask(table, b"Recorder", b"Archive", b"a", True)
    ask(table, b"Desk", b"Archive", b"a", True)

    write(b"mapping", table.mapping, b"Archive 9 1 63")
    show_mapping(table, b"Archive")
    show_mapping(table, b"Archive/2026")
    show_label_of(table, 9, Set(1, 63))
    show_lowest([Record(7, 9, Set(1)), Record(5, 9, Set(1)), Record(3, 8, Set(1))], 9, Set(1))

    write(b"mapping", table.mapping, b"Desk 9 100 184")
    write(b"mapping", table.mapping, b"Desk 9 100 185")  # BAD_LEVEL_OR_CATEGORY, as three more below
    show_mapping(table, b"Desk")
    desk = Set(100, 184)
    desk_run = [Record(8, 9, desk), Record(6, 9, desk), Record(2, 9, Set(100))]
    show_label_of(table, 9, desk)
    show_lowest(desk_run, 9, desk)
    first, second, third = desk.words
    stray = Set.from_words(first, second, third | 1)  # the lowest bit of the last word is no category
    show_label_of(table, 9, stray)
    show_lowest(desk_run, 9, stray)
    list_rules(table)  # no rule has b

    table.words[1] = 257  # a damaged state: every call refuses it with DAMAGED, and leaves it as it is
    try:
        table.change(b"Alarm Archive r -")
    except Refused as refused:
        say(b"change on 257 rules: %s\n", why(refused))

    table.make_fresh()  # of a damaged table too
    say(b"fresh table: done\n")
    if not old_records(table, record_file):
        return 1
    show_record(b"Alarm Archive ra")
    show_record(b"Alarm Archive rab")  # the same record
    show_record(b"ClimateProbe_StoreNorth_01_Temp Air_StoreNorth_01 w")  # NOT_IN_A_RECORD
    packets()
    shared_folder()
    return 0


if __name__ == "__main__":
    if len(sys.argv) != 3:
        print("usage: host.py RULEFILE RECORDFILE", file=sys.stderr)
        sys.exit(2)
    try:
        status = main(*sys.argv[1:])
        sys.stdout.flush()
    except (OSError, Refused) as error:  # a file or an output that cannot be read or written, or a refusal that no part of this host expects
        try:
            sys.stdout.flush()
        except OSError:  # Python would try once more at its end, and exit with 120
            os.dup2(os.open(os.devnull, os.O_WRONLY), sys.stdout.fileno())
        sys.exit(f"host.py: {error}")
    sys.exit(status)
