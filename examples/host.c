/* A host of the library in C: it loads an old rule file in pieces, asks, changes, revokes, maps and lists, says where a bad label goes wrong and how many
 * lines still have the retired letter b, turns a file of old records into rules and back, labels packets that another side reads, and labels the files that
 * the recorder and the alarm make in one folder. (examples/packet.c sends a packet.)
 *
 *   gcc -O2 -Iinclude examples/host.c target/staticlib/libbalqirven.a -o host && ./host examples/store_north.rules examples/old_logger.records
 *
 * examples/host.rs is the same in Rust, examples/host.py in Python; all three write examples/host.expected, and say a refusal in the same words. */
#include "balqirven.h"

#include <ctype.h>
#include <stdio.h>
#include <string.h>

/* The state is the host's own memory; the library keeps nothing. */
static uint8_t labels[BQ_LABELS], entries[BQ_ENTRIES], line[BQ_LINE];
static uint64_t words[BQ_WORDS];

/* The three parts of the tables, as every call takes them; and text as a pointer and a length. */
#define TABLES labels, BQ_LABELS, entries, BQ_ENTRIES, words, BQ_WORDS
#define TEXT(s) (const uint8_t *)(s), strlen(s)

/* Where the first bad label goes wrong: at a byte that no label may have, at a dash that begins it, at the first byte too many, or, of an empty
 * label, where its first byte would be. The library counts bytes from 0; a reader counts them from 1, as lines are counted. */
static void print_place(size_t place, const char *of)
{
    printf("a label goes wrong at byte %zu of %s, counted from 1: by that byte, by a dash in front or by its length", place + 1, of);
}

/* A refusal's number, and beside 9 what it can be for. */
static void print_number(uint8_t number)
{
    printf("refused %d", number);
    if (number == BQ_BAD_LEVEL_OR_CATEGORY)
        printf(": a level is not 0 to 255 or is %d in a write, a category not 1 to %d, or a bit of the set is no category", BQ_OWN_LEVEL,
               BQ_HIGHEST_CATEGORY);
}

/* A refusal, and beside 3 the place, which no other number has. `of` is what the place is counted in. */
static void print_refused(uint8_t number, size_t place, const char *of)
{
    print_number(number);
    if (number == BQ_BAD_LABEL) {
        printf(": ");
        print_place(place, of);
    }
    printf("\n");
}

/* Every answer says whether its call was refused. Where it was, this prints which call and with which number, and is true. It is for the calls
 * that have no label to refuse. */
static bool refused(const char *call, bool was, uint8_t number)
{
    if (was) {
        printf("%s: ", call);
        print_number(number);
        printf("\n");
    }
    return was;
}

/* The same for a write of fields. */
static bool done(const char *call, bq_written w)
{
    printf("%s: ", call);
    if (w.refused)
        print_refused(w.number, w.place, "the write");
    else
        printf("done\n");
    return !w.refused;
}

/* What a call, or a line of rule text, is refused for, in words. */
static const char *in_words(uint8_t number)
{
    switch (number) {
    case BQ_DAMAGED:
        return "the state in memory is damaged";
    case BQ_TOO_LONG:
        return "it is too long: a line or a write has at most 600 bytes, a mapping 1,000";
    case BQ_WRONG_FIELDS:
        return "the number of fields is wrong: a line has 3, a change 4, a mapping 2 or more, an override list 1 or more";
    case BQ_BAD_LABEL:
        return "a label is not well formed";
    case BQ_BAD_ACCESS:
        return "an access byte is not allowed where it stands";
    case BQ_SAME_LABELS:
        return "subject and object are the same label";
    case BQ_LABELS_FULL:
        return "the table has no room for the new labels";
    case BQ_RULES_FULL:
        return "the table has no room for one more rule";
    case BQ_BAD_REQUEST:
        return "the request is empty or has something else than the letters r, w, x and a";
    case BQ_BAD_LEVEL_OR_CATEGORY:
        return "a level or a category is wrong: levels are 0 to 255 (in a mapping not 250), categories 1 to 184; in a write each has 1 to 3 digits";
    case BQ_MAPPINGS_FULL:
        return "the table has no room for one more mapping";
    case BQ_TOO_MANY_OVERRIDES:
        return "the override list has over 8 different labels";
    case BQ_OUTPUT_TOO_SHORT:
        return "the buffer that was lent for the output is too short";
    case BQ_NO_SUCH_NUMBER:
        return "the rules, or the labels, end before that number";
    case BQ_BAD_RECORD:
        return "it does not have 53 bytes, or a label place is all spaces, has another byte after a space or does not end in a space";
    case BQ_NOT_IN_A_RECORD:
        return "a label has over 23 bytes; no old record holds that, and a label is never cut";
    case BQ_BAD_OPTION:
        return "it is not laid out as one packet option with one tag of type 1 and nothing behind it";
    case BQ_OTHER_DOI:
        return "it has another DOI than 3";
    case BQ_BAD_OPTION_CATEGORY:
        return "it has category 0 or one above 184";
    case BQ_NOT_IN_AN_OPTION:
        return "a label without a mapping has over 23 bytes; no packet option holds that, and a label is never cut";
    case BQ_NO_SUCH_MAPPING:
        return "no label has a mapping with its level and categories";
    default:
        return "for no reason that the header has";
    }
}

/* Ends the text and prints its report. */
static bool finish(bq_loader loader)
{
    bq_finished end = bq_end(TABLES, line, BQ_LINE, loader);
    if (refused("end call", end.refused, end.number))
        return false;
    printf("load: %u lines, %u accepted, %u skipped, %u refused\n", end.report.lines, end.report.accepted, end.report.skipped, end.report.refused);
    if (end.report.refused > 0) {
        printf("line %u is the first refused, with %d: ", end.report.first, end.report.reason);
        if (end.report.reason == BQ_BAD_LABEL)
            print_place(end.report.place, "the line");
        else
            printf("%s", in_words(end.report.reason));
        printf("\n");
    }
    if (end.report.bringup > 0)
        printf("%u accepted lines held the retired letter b, which was dropped\n", end.report.bringup);
    return true;
}

/* Loads a file in pieces of a size that has nothing to do with its lines. */
static bool load(const char *path)
{
    uint8_t piece[37];
    size_t n;
    bq_loader loader = bq_fresh_loader();
    FILE *file = fopen(path, "rb");
    if (!file) {
        perror(path);
        return false;
    }
    while ((n = fread(piece, 1, sizeof piece, file)) > 0) {
        bq_taken taken = bq_piece(TABLES, line, BQ_LINE, loader, piece, n);
        if (refused("piece", taken.refused, taken.number)) {
            fclose(file);
            return false;
        }
        loader = taken.loader;
    }
    if (ferror(file)) {
        perror(path);
        fclose(file);
        return false;
    }
    fclose(file);
    return finish(loader);
}

static void ask(const char *subject, const char *object, const char *request, bool capable)
{
    static const char *const kinds[] = {[BQ_GRANTED] = "granted", [BQ_DENIED] = "denied", [BQ_OVERRIDE] = "override"};
    const size_t known = sizeof kinds / sizeof *kinds;
    bq_decision d = bq_question(TABLES, TEXT(subject), TEXT(object), TEXT(request), capable);
    printf("may %s have %s to %s%s: ", subject, request, object, capable ? " (override capability)" : "");
    if (d.kind == BQ_REFUSED)
        print_refused(d.number, d.place, "the subject or, where that is well formed, of the object");
    else if (d.kind < known)
        printf("%s %d\n", kinds[d.kind], d.number);
    else
        printf("no such answer\n");
}

static void revoke(const char *subject)
{
    bq_counted r = bq_revoke(TABLES, TEXT(subject));
    printf("revoke '%s': ", subject);
    if (r.refused)
        print_refused(r.number, r.place, "that label");
    else
        printf("%zu rules\n", r.count);
}

/* The set with one category more, and whether it has a category: n is 1 to 184 wherever they are called here. */
static bq_set with(bq_set set, int n)
{
    set.word[BQ_CATEGORY_WORD(n)] |= BQ_CATEGORY_BIT(n);
    return set;
}

static bool is_in(bq_set set, int n)
{
    return (set.word[BQ_CATEGORY_WORD(n)] & BQ_CATEGORY_BIT(n)) != 0;
}

static void print_categories(bq_set set)
{
    for (int n = 1; n <= BQ_HIGHEST_CATEGORY; n++)
        if (is_in(set, n))
            printf(" %d", n);
}

static void show_mapping(const char *label)
{
    bq_mapped m = bq_by_label(TABLES, TEXT(label));
    printf("mapping of '%s': ", label);
    if (m.kind == BQ_LOOKUP_REFUSED)
        print_refused(m.number, m.place, "that label");
    else if (m.kind == BQ_UNMAPPED)
        printf("none\n");
    else if (m.kind == BQ_MAPPED) {
        printf("level %d, %u categories:", m.level, m.count);
        print_categories(m.set);
        printf("\n");
    } else
        printf("no such answer\n");
}

/* What was sought, in the table or in a run. */
static void print_sought(uint64_t level, bq_set set)
{
    printf("level %u, categories", (unsigned)level);
    print_categories(set);
    printf(": ");
}

static void show_label_of(uint64_t level, bq_set set)
{
    bq_lowest found = bq_by_level(TABLES, level, set);
    if (refused("mapping by level and set", found.kind == BQ_SEARCH_REFUSED, found.number))
        return;
    if (found.kind != BQ_LABEL) {
        print_sought(level, set);
        printf("%s\n", found.kind == BQ_NO_LABEL ? "no label" : "no such answer");
        return;
    }
    bq_part part = bq_label(TABLES, found.label);
    if (refused("label by number", part.refused, part.number))
        return;
    print_sought(level, set);
    printf("label %zu, %.*s\n", found.label, (int)part.length, (const char *)labels + part.start);
}

static void show_lowest(const bq_record *run, size_t records, uint64_t level, bq_set set)
{
    bq_lowest found = bq_lowest_in_run(run, records, level, set);
    if (refused("search of a run", found.kind == BQ_SEARCH_REFUSED, found.number))
        return;
    print_sought(level, set);
    if (found.kind == BQ_LABEL)
        printf("lowest of the run is label %zu\n", found.label);
    else
        printf("%s\n", found.kind == BQ_NO_LABEL ? "none of the run" : "no such answer");
}

/* Every rule by its number, up to the first number that is no rule's. */
static void list(void)
{
    uint8_t out[BQ_LONGEST_RULE];
    for (size_t k = 0;; k++) {
        bq_length r = bq_list_rule(TABLES, k, out, sizeof out);
        if (r.refused && r.number == BQ_NO_SUCH_NUMBER)
            return;
        if (refused("listing", r.refused, r.number))
            return;
        printf("rule %zu: %.*s", k, (int)r.length, (const char *)out);
    }
}

/* Turns each record of a file into its line and loads the lines as rule text. A refused record gives no line, and the others load all the same;
 * so the report counts lines, not records. */
static bool load_records(FILE *file)
{
    uint8_t record[BQ_FIXED_RECORD], text[BQ_LONGEST_FIXED_LINE];
    size_t n;
    bq_loader loader = bq_fresh_loader();
    for (size_t k = 1; (n = fread(record, 1, sizeof record, file)) > 0; k++) {
        bq_length r = bq_record_to_line(record, n, text, sizeof text); /* of a file cut short, the rest is refused with BQ_BAD_RECORD */
        if (r.refused) {
            printf("record %zu is refused with %d: %s\n", k, r.number, in_words(r.number));
            continue;
        }
        bq_taken taken = bq_piece(TABLES, line, BQ_LINE, loader, text, r.length);
        if (refused("piece", taken.refused, taken.number))
            return false;
        loader = taken.loader;
    }
    return !ferror(file) && finish(loader);
}

/* Whether the file has this record, but for capital letters in the access bytes; in labels they count. */
static bool has(FILE *file, const uint8_t *record)
{
    uint8_t old[BQ_FIXED_RECORD];
    rewind(file);
    while (fread(old, 1, sizeof old, file) == sizeof old) {
        for (size_t i = 2 * BQ_FIXED_PLACE; i < sizeof old; i++)
            old[i] = (uint8_t)tolower(old[i]);
        if (memcmp(old, record, sizeof old) == 0)
            return true;
    }
    return false;
}

/* Turns every rule back into a record. True where the file has each of them. */
static bool back_to_records(FILE *file)
{
    uint8_t rule[BQ_LONGEST_RULE], record[BQ_FIXED_RECORD];
    size_t k, back = 0;
    for (k = 0;; k++) {
        bq_length listed = bq_list_rule(TABLES, k, rule, sizeof rule);
        if (listed.refused && listed.number == BQ_NO_SUCH_NUMBER)
            break;
        if (refused("listing", listed.refused, listed.number))
            return false;
        bq_length r = bq_line_to_record(rule, listed.length, record, sizeof record);
        if (r.refused)
            printf("rule %zu is refused with %d: %s\n", k, r.number, in_words(r.number));
        else if (!has(file, record))
            printf("rule %zu came back as a record that the file does not have\n", k);
        else
            back++;
    }
    printf("%zu of %zu rules came back as records of the file, but for the case of access letters\n", back, k);
    return back == k;
}

static void show_record(const char *rule)
{
    uint8_t record[BQ_FIXED_RECORD];
    bq_length r = bq_line_to_record(TEXT(rule), record, sizeof record);
    if (r.refused)
        printf("'%s' is refused with %d: %s\n", rule, r.number, in_words(r.number));
    else
        printf("'%s' as a record: '%.*s'\n", rule, (int)r.length, (const char *)record);
}

/* Old records to rules in a fresh table, which can be made of damaged parts too, and back. */
static bool old_records(const char *path)
{
    FILE *file = fopen(path, "rb");
    if (!file) {
        perror(path);
        return false;
    }
    bool loaded = done("fresh table", bq_fresh_table(TABLES)) && load_records(file);
    if (ferror(file))
        perror(path);
    if (loaded)
        list();
    bool same = loaded && back_to_records(file);
    fclose(file);
    return same;
}

/* The other side of the packets, here in the same program: it has tables of its own. */
static uint8_t other_labels[BQ_LABELS], other_entries[BQ_ENTRIES];
static uint64_t other_words[BQ_WORDS];
#define OTHER_TABLES other_labels, BQ_LABELS, other_entries, BQ_ENTRIES, other_words, BQ_WORDS

/* The options of a packet: at most 40 bytes, a multiple of four. What fills them up behind the option is zero bytes. */
typedef struct {
    uint8_t bytes[40];
    size_t length;
} packet_options;

/* This side labels a packet. Where that is refused the packet has no options, and is not to be sent. */
static packet_options label_packet(const char *label)
{
    packet_options options = {{0}, 0};
    bq_length r = bq_write_option(TABLES, TEXT(label), options.bytes, BQ_LONGEST_OPTION);
    printf("packet of '%s': ", label);
    if (r.refused) {
        printf("refused %d: %s\n", r.number, in_words(r.number));
        return options;
    }
    for (size_t i = 0; i < r.length; i++)
        printf("%s%d", i > 0 ? " " : "", options.bytes[i]);
    printf("\n");
    options.length = (r.length + 3) / 4 * 4;
    return options;
}

/* The other side reads a packet. The option has as many bytes as its byte 1 says; where these are not there, all that there are go to the call, which
 * refuses them. */
static void read_packet(const packet_options *options)
{
    size_t length = options->length;
    if (length > 1 && options->bytes[1] < length)
        length = options->bytes[1];
    bq_peer peer = bq_read_option(OTHER_TABLES, options->bytes, length);
    printf("the other side reads: ");
    if (peer.refused)
        printf("refused %d: %s\n", peer.number, in_words(peer.number));
    else
        printf("'%.*s'\n", (int)peer.length, (const char *)peer.bytes);
}

/* A packet of this label, from this side to the other. */
static void send_packet(const char *label)
{
    packet_options options = label_packet(label);
    if (options.length > 0)
        read_packet(&options);
}

/* Labels on packets. A label without a mapping goes as its own bits, which any side reads; one with a mapping is read where the other side has the
 * same mapping. The numbers that labels have need not agree. False where there were no tables or no packet. */
static bool packets(void)
{
    if (!done("fresh table", bq_fresh_table(TABLES)) || !done("fresh table of the other side", bq_fresh_table(OTHER_TABLES)))
        return false;
    done("mapping 'Desk 250 1'", bq_mapping(TABLES, TEXT("Desk 250 1"))); /* BQ_BAD_LEVEL_OR_CATEGORY: level 250 is for labels without a mapping */
    send_packet("Recorder");
    send_packet("ClimateProbe_StoreNorth_01_Temp"); /* BQ_NOT_IN_AN_OPTION: 31 bytes, and no mapping yet */
    done("mapping 'ClimateProbe_StoreNorth_01_Temp 9 1 100 184'", bq_mapping(TABLES, TEXT("ClimateProbe_StoreNorth_01_Temp 9 1 100 184")));
    send_packet("ClimateProbe_StoreNorth_01_Temp"); /* BQ_NO_SUCH_MAPPING: the other side does not have it yet */
    done("mapping 'ClimateProbe_StoreNorth_01_Temp 9 1 100 184' of the other side",
         bq_mapping(OTHER_TABLES, TEXT("ClimateProbe_StoreNorth_01_Temp 9 1 100 184")));
    send_packet("ClimateProbe_StoreNorth_01_Temp");
    send_packet("Archive/2026"); /* BQ_BAD_LABEL: of a packet no place is told */

    packet_options options = label_packet("Alarm");
    if (options.length == 0)
        return false;
    options.bytes[5] = 4; /* BQ_OTHER_DOI: 4 in place of 3 */
    printf("with DOI 4, ");
    read_packet(&options);
    return true;
}

/* A file or a folder that a creator wants to make in a folder. A host that makes files gives it the label that is named here, and, where it says so, the mark
 * that a transmuting folder has. */
static void create(const char *creator, const char *folder, bool folder_transmutes, bool is_folder)
{
    bq_labelled object = bq_new_object(TABLES, TEXT(creator), TEXT(folder), folder_transmutes, is_folder);
    printf("%s makes a %s in %s%s: ", creator, is_folder ? "folder" : "file", folder, folder_transmutes ? " (transmutes)" : "");
    switch (object.kind) {
    case BQ_CREATOR_LABEL:
        printf("label %s\n", creator);
        break;
    case BQ_FOLDER_LABEL:
        printf("label %s%s\n", folder, object.transmutes ? " (transmutes)" : "");
        break;
    case BQ_CREATION_DENIED:
        printf("denied\n");
        break;
    case BQ_CREATION_REFUSED:
        printf("refused %d: %s\n", object.number, in_words(object.number));
        break;
    default:
        printf("no such answer\n");
    }
}

/* The recorder and the alarm make record files in one folder, Records, which transmutes. The recorder can read a file that the alarm made only where it has
 * the folder's label; for that the alarm's rule needs t. */
static bool shared_folder(void)
{
    if (!done("fresh table", bq_fresh_table(TABLES)))
        return false;
    done("change 'Recorder Records rwxt -'", bq_change(TABLES, TEXT("Recorder Records rwxt -")));
    done("change 'Alarm Records rwx -'", bq_change(TABLES, TEXT("Alarm Records rwx -")));
    create("Recorder", "Records", true, false);
    create("Alarm", "Records", true, false); /* no t: the file has the alarm's own label, */
    ask("Recorder", "Alarm", "r", false);    /* and the recorder can't read it */
    done("change 'Alarm Records t -'", bq_change(TABLES, TEXT("Alarm Records t -")));
    create("Alarm", "Records", true, false);
    ask("Recorder", "Records", "r", false);
    create("Alarm", "Records", true, true);    /* a folder in it transmutes too, */
    create("Alarm", "Records", false, true);   /* but not in a folder that does not */
    create("Records", "Records", true, true);  /* one label: rule 5 grants, and no rule with t */
    create("Desk", "Records", true, false);    /* may not write there; override is not considered */
    create("Alarm/2", "Records", true, false); /* BQ_BAD_LABEL: no place is told here */
    return true;
}

/* All of it. False where a file could not be read, or something was refused that no part of this host expects. */
static bool run(const char *rule_file, const char *record_file)
{
    if (!done("fresh table", bq_fresh_table(TABLES)) || !load(rule_file))
        return false;
    ask("ClimateProbe_StoreNorth_01_Temp", "Air_StoreNorth_01", "w", false);
    ask("ClimateProbe_StoreNorth_01_Temp", "Air_StoreNorth_02", "w", false);
    ask("Alarm", "Air_StoreNorth_02", "r", false);  /* its line is an old one, with rB: r counts */
    ask("Alarm", "Air_StoreNorth_02", "rb", false); /* BQ_BAD_REQUEST: b is no letter of a request, nor is t below */
    ask("Desk", "Air_StoreNorth_01", "r", false);
    ask("Desk", "Air_StoreNorth_01", "r", true);
    ask("Desk", "Air_StoreNorth_01", "rt", true);
    ask("Desk", "Archive/2026", "r", true); /* BQ_BAD_LABEL: with the place of the slash */

    done("change 'Alarm Archive r -'", bq_change(TABLES, TEXT("Alarm Archive r -")));
    done("change 'Alarm Archive rb -'", bq_change(TABLES, TEXT("Alarm Archive rb -")));         /* BQ_BAD_ACCESS: only lines may still have b */
    done("change 'Alarm Alarm r -'", bq_change(TABLES, TEXT("Alarm Alarm r -")));               /* BQ_SAME_LABELS */
    done("change 'Alarm Archive/2026 r -'", bq_change(TABLES, TEXT("Alarm Archive/2026 r -"))); /* BQ_BAD_LABEL, as three more below */
    ask("Alarm", "Archive", "r", false);

    revoke("Recorder "); /* the blank is a byte of the label here */
    revoke("Recorder");
    ask("Recorder", "Archive", "a", false);

    done("override list 'Desk -'", bq_onlycap(TABLES, TEXT("Desk -"))); /* only a dash alone clears the list */
    done("override list 'Desk Alarm'", bq_onlycap(TABLES, TEXT("Desk Alarm")));
    ask("Recorder", "Archive", "a", true);
    ask("Desk", "Archive", "a", true);

    done("mapping 'Archive 9 1 63'", bq_mapping(TABLES, TEXT("Archive 9 1 63")));
    show_mapping("Archive");
    show_mapping("Archive/2026");
    bq_set none = {{0, 0, 0}}, one = with(none, 1);
    show_label_of(9, with(one, 63));
    bq_record run[] = {{7, 9, one}, {5, 9, one}, {3, 8, one}};
    show_lowest(run, sizeof run / sizeof *run, 9, one);

    done("mapping 'Desk 9 100 184'", bq_mapping(TABLES, TEXT("Desk 9 100 184")));
    done("mapping 'Desk 9 100 185'", bq_mapping(TABLES, TEXT("Desk 9 100 185"))); /* BQ_BAD_LEVEL_OR_CATEGORY, as three more below */
    show_mapping("Desk");
    bq_set desk = with(with(none, 100), 184), stray = desk;
    show_label_of(9, desk);
    bq_record desk_run[] = {{8, 9, desk}, {6, 9, desk}, {2, 9, with(none, 100)}};
    show_lowest(desk_run, sizeof desk_run / sizeof *desk_run, 9, desk);
    stray.word[2] |= 1; /* the lowest bit of the last word is no category */
    show_label_of(9, stray);
    show_lowest(desk_run, sizeof desk_run / sizeof *desk_run, 9, stray);
    list(); /* no rule has b */

    words[1] = 257; /* a damaged state: every call refuses it with BQ_DAMAGED, and leaves it as it is */
    done("change on 257 rules", bq_change(TABLES, TEXT("Alarm Archive r -")));

    if (!old_records(record_file))
        return false;
    show_record("Alarm Archive ra");
    show_record("Alarm Archive rab"); /* the same record */
    show_record("ClimateProbe_StoreNorth_01_Temp Air_StoreNorth_01 w"); /* BQ_NOT_IN_A_RECORD */
    return packets() && shared_folder();
}

int main(int argc, char **argv)
{
    if (argc != 3) {
        fprintf(stderr, "usage: host RULEFILE RECORDFILE\n");
        return 2;
    }
    bool good = run(argv[1], argv[2]);
    if (fflush(stdout) != 0 || ferror(stdout)) {
        perror("standard output");
        return 1;
    }
    return good ? 0 : 1;
}
