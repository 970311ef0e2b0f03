/* Runs a call script over the static library: one call a line from standard input, one answer a line to standard output, in the forms of
 * tests/second/FORMAT.md, so that `second script` and this program can be compared byte for byte.
 *
 *   gcc -O2 -o driver tests/driver.c target/staticlib/libbalqirven.a
 *   driver               every lent part is memory of its own, of exactly its size, so that valgrind sees one byte too far
 *   driver guard-end     every lent part ends at the end of a page, and the page behind it can neither be read nor written
 *   driver guard-front   every lent part begins at the beginning of a page, and the page before it can neither be read nor written
 *   driver odd           as guard-front, but an element behind the beginning of the page: bytes at an odd address, words at one that is no multiple of 16
 *   driver read-only     as guard-end; and the pages of what a call is lent only to read cannot be written meanwhile, nor those of a part that it is not lent
 *
 * Beyond FORMAT.md the driver tests what a second implementation cannot show. Each of these words in an answer is a fault of the library:
 *   astray    a label's part does not lie where label k's place in the lent store is
 *   stray     a field of an answer is not 0 where the header says that it is
 *   kind K    the kind of an answer is K, which is none that the header names
 *   place P   the same of the place: it is P beside an answer that is no refusal with 3
 *   long N    the label that is read of an option has N bytes, over the 255 that there is room for
 *   touched   a call wrote into text, labels or records that it was lent to read
 *   against   bq_lowest_in_run and bq_lowest_of disagree, or bq_label_check and bq_label; both answers are given
 *   moved     a refused piece or end call handed back another loader than it was given
 */
#define _GNU_SOURCE
#include "../include/balqirven.h"

#include <errno.h>
#include <stdio.h>
#include <stdlib.h>
#include <string.h>
#include <sys/mman.h>
#include <unistd.h>

/* ---- memory of exactly its size */

static enum { EXACT, GUARD_END, GUARD_FRONT, GUARD_ODD } guard;
static bool read_only_parts;

static void no_memory(void) {
    fprintf(stderr, "driver: no memory\n");
    exit(2);
}

/* Under a guard: pages between two that cannot be touched, used again and again. */
static struct slot {
    uint8_t *pages;
    size_t room;
    bool taken;
} slots[256];
static size_t slot_count;

static void *lend_guarded(size_t bytes, size_t element) {
    size_t page = 4096, room = page, guarded = 1 << 20;
    while (room < bytes + element) room *= 2;
    struct slot *slot = slots;
    while (slot < slots + slot_count && (slot->taken || slot->room != room)) slot++;
    if (slot == slots + slot_count) {
        if (slot_count == sizeof slots / sizeof *slots) no_memory();
        uint8_t *all = mmap(NULL, room + 2 * guarded, PROT_NONE, MAP_PRIVATE | MAP_ANONYMOUS, -1, 0);
        if (all == MAP_FAILED || mprotect(all + guarded, room, PROT_READ | PROT_WRITE) != 0) no_memory();
        slot_count++;
        slot->pages = all + guarded;
        slot->room = room;
    }
    slot->taken = true;
    return slot->pages + (guard == GUARD_FRONT ? 0 : guard == GUARD_ODD ? element : room - bytes);
}

/* So many bytes, of elements of this size. */
static void *lend(size_t bytes, size_t element) {
    if (guard != EXACT) return lend_guarded(bytes, element);
    void *memory = malloc(bytes); /* glibc gives a pointer that is not NULL for 0 bytes too */
    if (memory == NULL) no_memory();
    return memory;
}

/* The slot that holds this; none where it was not lent under a guard. */
static struct slot *slot_of(void *memory) {
    for (struct slot *slot = slots; memory != NULL && slot < slots + slot_count; slot++) {
        /* a part of size 0 may lie at the very end */
        if ((uint8_t *)memory >= slot->pages && (uint8_t *)memory <= slot->pages + slot->room) return slot;
    }
    return NULL;
}

/* From now on what is lent there can only be read, or written too; where the driver is to see to it. */
static void let_write(void *memory, bool yes) {
    if (!read_only_parts) return;
    struct slot *slot = slot_of(memory);
    if (slot == NULL || mprotect(slot->pages, slot->room, yes ? PROT_READ | PROT_WRITE : PROT_READ) != 0) no_memory();
}

static void back(void *memory) {
    if (guard == EXACT) {
        free(memory);
        return;
    }
    struct slot *slot = slot_of(memory);
    if (slot != NULL) {
        let_write(memory, true);
        slot->taken = false;
    }
}

/* ---- output */

static char out_text[1 << 20];
static size_t out_used;

static void flush_out(void) {
    size_t done = 0;
    while (done < out_used) {
        ssize_t n = write(1, out_text + done, out_used - done);
        if (n < 0 && errno == EINTR) continue;
        if (n <= 0) {
            fprintf(stderr, "driver: cannot write\n");
            exit(2);
        }
        done += (size_t)n;
    }
    out_used = 0;
}

static void put_bytes(const char *bytes, size_t length) {
    while (length > 0) {
        if (out_used == sizeof out_text) flush_out();
        size_t room = sizeof out_text - out_used, part = length < room ? length : room;
        memcpy(out_text + out_used, bytes, part);
        out_used += part;
        bytes += part;
        length -= part;
    }
}

static void put(const char *text) { put_bytes(text, strlen(text)); }

static void put_number(uint64_t number) {
    char digits[20];
    size_t at = sizeof digits;
    do {
        digits[--at] = (char)('0' + number % 10);
        number /= 10;
    } while (number > 0);
    put_bytes(digits + at, sizeof digits - at);
}

static void put_word_number(const char *word, uint64_t number) {
    put(word);
    put(" ");
    put_number(number);
}

static const char HEX[] = "0123456789abcdef";

static void put_hex(const uint8_t *bytes, size_t length) {
    if (length == 0) {
        put("-");
        return;
    }
    for (size_t i = 0; i < length; i++) {
        char two[2] = {HEX[bytes[i] >> 4], HEX[bytes[i] & 15]};
        put_bytes(two, 2);
    }
}

/* ---- the lent state */

static uint8_t *labels, *entries, *line_part;
static uint64_t *words;
static size_t labels_len, entries_len, words_len, line_len;
static bq_loader loader;

#define TABLES labels, labels_len, entries, entries_len, words, words_len

static void *zeros(size_t bytes, size_t element) {
    void *memory = lend(bytes, element);
    memset(memory, 0, bytes);
    return memory;
}

/* New memory of full size, zero everywhere, which is then made a fresh table. */
static bq_written fresh(void) {
    back(labels);
    back(entries);
    back(words);
    labels = zeros(labels_len = BQ_LABELS, 1);
    entries = zeros(entries_len = BQ_ENTRIES, 1);
    words = zeros((words_len = BQ_WORDS) * sizeof *words, sizeof *words);
    return bq_fresh_table(TABLES);
}

static void fresh_loader(void) {
    back(line_part);
    line_part = zeros(line_len = BQ_LINE, 1);
    loader = bq_fresh_loader();
}

/* The part gets another size: it is cut at its end, or zeros are added. */
static void *resized(void *part, size_t old, size_t new, size_t element) {
    uint8_t *memory = lend(new, element);
    size_t both = old < new ? old : new;
    memcpy(memory, part, both);
    memset(memory + both, 0, new - both);
    back(part);
    return memory;
}

/* ---- the words of a line */

typedef struct {
    const char *text;
    size_t length;
} word;

static bool blank(char c) { return c == ' ' || c == '\t' || c == '\n' || c == '\f' || c == '\r'; }

/* Takes the next word off the front of [*at, end); an empty word where there is none. */
static word next_word(const char **at, const char *end) {
    const char *p = *at;
    while (p < end && blank(*p)) p++;
    word w = {p, 0};
    while (p < end && !blank(*p)) p++;
    w.length = (size_t)(p - w.text);
    *at = p;
    return w;
}

static bool is(word w, const char *text) { return w.length == strlen(text) && memcmp(w.text, text, w.length) == 0; }

static bool read_number(word w, uint64_t *number) {
    if (w.length == 0) return false;
    uint64_t n = 0;
    for (size_t i = 0; i < w.length; i++) {
        if (w.text[i] < '0' || w.text[i] > '9') return false;
        uint64_t digit = (uint64_t)(w.text[i] - '0');
        if (n > (UINT64_MAX - digit) / 10) return false;
        n = n * 10 + digit;
    }
    *number = n;
    return true;
}

/* Cuts a word into three parts with this byte between. */
static bool read_three(word w, char between, word parts[3]) {
    const char *at = w.text, *end = w.text + w.length;
    for (int i = 0; i < 3; i++) {
        const char *next = memchr(at, between, (size_t)(end - at));
        if ((next != NULL) != (i < 2)) return false;
        const char *stop = next ? next : end;
        parts[i] = (word){at, (size_t)(stop - at)};
        at = stop + 1;
    }
    return true;
}

/* A:B:C */
static bool read_set(word w, bq_set *set) {
    word parts[3];
    return read_three(w, ':', parts) && read_number(parts[0], &set->word[0]) && read_number(parts[1], &set->word[1]) &&
           read_number(parts[2], &set->word[2]);
}

/* n,l,A:B:C */
static bool read_record(word w, bq_record *record) {
    word parts[3];
    return read_three(w, ',', parts) && read_number(parts[0], &record->label) && read_number(parts[1], &record->level) &&
           read_set(parts[2], &record->set);
}

static int digit_of(char c) {
    if (c >= '0' && c <= '9') return c - '0';
    if (c >= 'a' && c <= 'f') return c - 'a' + 10;
    if (c >= 'A' && c <= 'F') return c - 'A' + 10;
    return -1;
}

/* Bytes that a call is lent to read, and a copy to see that it only read them. */
typedef struct {
    uint8_t *bytes, *copy;
    size_t length;
} text;

static bool read_hex(word w, text *t) {
    bool none = w.length == 1 && w.text[0] == '-', plain = w.length > 1 && w.text[0] == '=';
    if (w.length == 0 || (!none && !plain && w.length % 2 != 0)) return false;
    size_t length = none ? 0 : plain ? w.length - 1 : w.length / 2;
    uint8_t *bytes = lend(length, 1);
    for (size_t i = 0; i < length; i++) {
        if (plain && w.text[i + 1] >= 33 && w.text[i + 1] <= 126) {
            bytes[i] = (uint8_t)w.text[i + 1];
            continue;
        }
        int high = plain ? -1 : digit_of(w.text[2 * i]), low = plain ? -1 : digit_of(w.text[2 * i + 1]);
        if (plain || high < 0 || low < 0) {
            back(bytes);
            return false;
        }
        bytes[i] = (uint8_t)(high * 16 + low);
    }
    t->bytes = bytes;
    t->length = length;
    t->copy = lend(length, 1);
    memcpy(t->copy, bytes, length);
    let_write(bytes, false);
    return true;
}

/* Bytes that a call is lent to write. */
static bool read_output(word w, text *t) {
    if (!read_hex(w, t)) return false;
    let_write(t->bytes, true);
    return true;
}

static void give_back(text *t) {
    back(t->bytes);
    back(t->copy);
    t->bytes = t->copy = NULL;
}

/* After a call that was lent the text to read. */
static void read_only(text *t) {
    if (memcmp(t->bytes, t->copy, t->length) != 0) put(" touched");
    give_back(t);
}

/* ---- answers */

_Static_assert(sizeof(bq_peer) == 272, "an option's reader answers 272 bytes");
_Static_assert(sizeof(bq_labelled) == 3, "the label of a new object is answered in 3 bytes");
_Static_assert(sizeof(bq_report) == 40 && sizeof(bq_loader) == 48, "a report has 40 bytes, a loader 48");
_Static_assert(BQ_LONGEST_RULE == 518, "the longest rule has 518 bytes: two labels, two spaces, five letters and a newline");

static void put_refused(uint8_t number) { put_word_number("refused", number); }

/* The place of an answer, behind all else of it: it belongs to the number 3 alone. */
static void put_place(bool refused, uint8_t number, size_t place) {
    if (refused && number == BQ_BAD_LABEL) {
        put_word_number("", place);
    } else if (place != 0) {
        put_word_number(" place", place);
    }
}

static void put_written(bq_written w) {
    if (w.refused) {
        put_refused(w.number);
    } else {
        put("done");
        if (w.number != 0) put(" stray");
    }
    put_place(w.refused, w.number, w.place);
}

static bool same_report(bq_report a, bq_report b) {
    return a.lines == b.lines && a.accepted == b.accepted && a.skipped == b.skipped && a.refused == b.refused && a.first == b.first &&
           a.reason == b.reason && a.place == b.place && a.bringup == b.bringup;
}

static bool same_loader(bq_loader a, bq_loader b) { return a.kept == b.kept && same_report(a.report, b.report); }

static void put_report_numbers(bq_report r) {
    put_word_number("", r.lines);
    put_word_number("", r.accepted);
    put_word_number("", r.skipped);
    put_word_number("", r.refused);
    put_word_number("", r.first);
    put_word_number("", r.reason);
    put_word_number("", r.place);
    put_word_number("", r.bringup);
}

static void put_finished(bq_finished f, bq_loader before) {
    if (f.refused) {
        put_refused(f.number);
        if (!same_report(f.report, (bq_report){0})) put(" stray");
        if (!same_loader(f.loader, before)) put(" moved");
    } else {
        put("report");
        put_report_numbers(f.report);
        if (f.number != 0) put(" stray");
    }
}

static void put_mapped(bq_mapped m) {
    bool empty = m.level == 0 && (m.set.word[0] | m.set.word[1] | m.set.word[2]) == 0 && m.count == 0;
    if (m.kind == BQ_MAPPED) {
        put_word_number("mapping", m.level);
        for (int i = 0; i < 3; i++) {
            put(i == 0 ? " " : ":");
            put_number(m.set.word[i]);
        }
        put_word_number("", m.count);
        if (m.number != 0) put(" stray");
    } else if (m.kind == BQ_UNMAPPED) {
        put("none");
        if (m.number != 0 || !empty) put(" stray");
    } else if (m.kind == BQ_LOOKUP_REFUSED) {
        put_refused(m.number);
        if (!empty) put(" stray");
    } else {
        put_word_number("kind", m.kind);
    }
    put_place(m.kind == BQ_LOOKUP_REFUSED, m.number, m.place);
}

static void put_lowest(bq_lowest l) {
    if (l.kind == BQ_LABEL) {
        put_word_number("label", l.label);
        if (l.number != 0) put(" stray");
    } else if (l.kind == BQ_NO_LABEL) {
        put("none");
        if (l.number != 0 || l.label != 0) put(" stray");
    } else if (l.kind == BQ_SEARCH_REFUSED) {
        put_refused(l.number);
        if (l.label != 0) put(" stray");
    } else {
        put_word_number("kind", l.kind);
    }
}

static void put_decision(bq_decision d) {
    static const char *const kinds[] = {"granted", "denied", "override", "refused"};
    if (d.kind > BQ_REFUSED) {
        put_word_number("kind", d.kind);
        return;
    }
    put_word_number(kinds[d.kind], d.number);
    put_place(d.kind == BQ_REFUSED, d.number, d.place);
}

/* Which label a new object gets. The number belongs to a refusal alone, and whether the object transmutes to the folder's label. */
static void put_labelled(bq_labelled n) {
    static const char *const kinds[] = {"creator", "denied", "folder", "refused"};
    if (n.kind > BQ_CREATION_REFUSED) {
        put_word_number("kind", n.kind);
        return;
    }
    put(kinds[n.kind]);
    if (n.kind == BQ_FOLDER_LABEL) put_word_number("", n.transmutes);
    if (n.kind == BQ_CREATION_REFUSED) put_word_number("", n.number);
    if ((n.kind != BQ_CREATION_REFUSED && n.number != 0) || (n.kind != BQ_FOLDER_LABEL && n.transmutes)) put(" stray");
}

/* The label that an option says. The bytes behind it are 0; on a refusal they all are, and the length. */
static void put_peer(const bq_peer *p) {
    size_t used = 0;
    if (p->refused) {
        put_refused(p->number);
    } else if (p->length > sizeof p->bytes) {
        put_word_number("peer long", p->length);
        used = sizeof p->bytes;
    } else {
        put("peer ");
        put_hex(p->bytes, p->length);
        used = p->length;
    }
    bool stray = p->refused ? p->length != 0 : p->number != 0;
    for (size_t i = used; i < sizeof p->bytes; i++) stray |= p->bytes[i] != 0;
    if (stray) put(" stray");
}

/* How many bytes were written to a lent output, and the whole output afterwards. */
static void put_length(bq_length l, text *out) {
    put_word_number(l.refused ? "refused" : "length", l.refused ? l.number : l.length);
    if (l.refused ? l.length != 0 : l.number != 0) put(" stray");
    put(" ");
    put_hex(out->bytes, out->length);
    give_back(out);
}

/* ---- calls with a little more to them */

/* The run goes to bq_lowest_in_run as records, and to bq_lowest_of as three arrays. There are as many records as the shortest array has
 * room for: so in turn some of the arrays, never all, get one more element, which would match. The array of set words has three for each
 * record: so in turn it gets also the first one or two words of a set that would match, and then both the others may be longer. Another turn
 * makes it one to three words shorter than the records want, and the last record is then none: that is compared with the run without it. */
static bool call_run(const char *at, const char *end) {
    static unsigned turn;
    uint64_t level;
    bq_set set;
    if (!read_number(next_word(&at, end), &level) || !read_set(next_word(&at, end), &set)) return false;
    size_t count = 0;
    for (const char *p = at; next_word(&p, end).length > 0;) count++;
    bq_record *records = lend(count * sizeof *records, sizeof(uint64_t));
    for (size_t i = 0; i < count; i++) {
        if (!read_record(next_word(&at, end), &records[i])) {
            back(records);
            return false;
        }
    }
    /* How many elements more than the records have: of labels, of levels, of set words. None of the turns has room for one more record. */
    static const int8_t turns[][3] = {{0, 0, 0}, {1, 0, 0},  {0, 1, 0},  {1, 1, 0},  {0, 0, 3}, {1, 0, 3}, {0, 1, 3}, {1, 1, 1},
                                      {1, 1, 2}, {0, 0, 1},  {0, 0, 2},  {5, 5, 2},  {0, 0, -1}, {0, 0, -2}, {0, 0, -3}, {1, 1, -1},
                                      {1, 1, -2}, {1, 0, -3}, {2, 0, 6}, {0, 2, 6}, {7, 0, 30}, {0, 7, 30}};
    const int8_t *more = turns[turn++ % (sizeof turns / sizeof *turns)];
    bool fewer = more[2] < 0 && count > 0;
    size_t kept = fewer ? count - 1 : count, length[3];
    uint64_t *field[3];
    for (int f = 0; f < 3; f++) {
        size_t wide = f == 2 ? 3 : 1;
        length[f] = more[f] < 0 && count == 0 ? 0 : (size_t)((int64_t)(wide * count) + more[f]);
        field[f] = lend(length[f] * sizeof *field[f], sizeof *field[f]);
        for (size_t i = 0; i < length[f]; i++) {
            size_t k = i / wide;
            if (k < count) {
                field[f][i] = f == 0 ? records[k].label : f == 1 ? records[k].level : records[k].set.word[i % 3];
            } else {
                field[f][i] = f == 0 ? 0 : f == 1 ? level : set.word[i % 3];
            }
        }
    }
    let_write(records, false);
    for (int f = 0; f < 3; f++) let_write(field[f], false);
    bq_lowest one = bq_lowest_in_run(records, count, level, set);
    bq_lowest alike = fewer ? bq_lowest_in_run(records, kept, level, set) : one;
    bq_lowest other = bq_lowest_of(field[0], length[0], field[1], length[1], field[2], length[2], level, set);
    put_lowest(one);
    if (alike.kind != other.kind || alike.number != other.number || alike.label != other.label) {
        put(" against ");
        put_lowest(other);
    }
    for (size_t i = 0; i < kept; i++) {
        if (records[i].label != field[0][i] || records[i].level != field[1][i] ||
            memcmp(records[i].set.word, field[2] + 3 * i, sizeof records[i].set.word) != 0) {
            put(" touched");
            break;
        }
    }
    back(records);
    for (int f = 0; f < 3; f++) back(field[f]);
    return true;
}

/* The part is read only where it is label k's place: its length byte, then the label. */
static void call_label(uint64_t k) {
    bq_written check = bq_label_check(TABLES, k);
    bq_part part = bq_label(TABLES, k);
    put_written(check);
    if (part.refused != check.refused || part.number != check.number) {
        put(" against ");
        put_written((bq_written){part.refused, part.number, 0});
    }
    if (check.refused || part.refused) {
        put(part.start == 0 && part.length == 0 ? " -" : " astray");
    } else if (k >= 64 || labels_len != BQ_LABELS || part.start != 256 * k + 1 || part.length != labels[256 * k]) {
        put(" astray");
    } else {
        put(" ");
        put_hex(labels + part.start, part.length);
    }
}

static bool call_poke(const char *at, const char *end) {
    word part = next_word(&at, end), place = next_word(&at, end), value = next_word(&at, end);
    uint64_t where, number;
    if (value.length == 0 || next_word(&at, end).length > 0 || !read_number(place, &where)) return false;
    if (is(part, "words")) {
        if (!read_number(value, &number) || where >= words_len) return false;
        words[where] = number;
    } else if (is(part, "loader")) {
        if (!read_number(value, &number) || where > 8) return false;
        if (where != 0 && where != 7 && number > (where == 6 ? UINT8_MAX : UINT32_MAX)) return false;
        switch (where) {
        case 0: loader.kept = number; break;
        case 1: loader.report.lines = (uint32_t)number; break;
        case 2: loader.report.accepted = (uint32_t)number; break;
        case 3: loader.report.skipped = (uint32_t)number; break;
        case 4: loader.report.refused = (uint32_t)number; break;
        case 5: loader.report.first = (uint32_t)number; break;
        case 6: loader.report.reason = (uint8_t)number; break;
        case 7: loader.report.place = number; break;
        default: loader.report.bringup = (uint32_t)number; break;
        }
    } else {
        uint8_t *bytes;
        size_t length;
        text t;
        if (is(part, "labels")) {
            bytes = labels;
            length = labels_len;
        } else if (is(part, "entries")) {
            bytes = entries;
            length = entries_len;
        } else if (is(part, "line")) {
            bytes = line_part;
            length = line_len;
        } else {
            return false;
        }
        if (!read_hex(value, &t)) return false;
        bool fits = where <= length && t.length <= length - where;
        if (fits) memcpy(bytes + where, t.bytes, t.length);
        give_back(&t);
        if (!fits) return false;
    }
    put("done");
    return true;
}

static bool call_resize(const char *at, const char *end) {
    word part = next_word(&at, end);
    uint64_t size;
    if (!read_number(next_word(&at, end), &size) || next_word(&at, end).length > 0 || size > 1 << 20) return false;
    if (is(part, "labels")) {
        labels = resized(labels, labels_len, size, 1);
        labels_len = size;
    } else if (is(part, "entries")) {
        entries = resized(entries, entries_len, size, 1);
        entries_len = size;
    } else if (is(part, "words")) {
        words = resized(words, words_len * sizeof *words, size * sizeof *words, sizeof *words);
        words_len = size;
    } else if (is(part, "line")) {
        line_part = resized(line_part, line_len, size, 1);
        line_len = size;
    } else {
        return false;
    }
    put("done");
    return true;
}

/* The 64-bit FNV-1a hash of a part. A word counts as its eight bytes, lowest first, which is how x86-64 keeps it. */
static void put_hash(const char *name, const void *part, size_t bytes) {
    const uint8_t *p = part;
    uint64_t hash = 0xcbf29ce484222325;
    for (size_t i = 0; i < bytes; i++) hash = (hash ^ p[i]) * 0x100000001b3;
    char digits[16];
    for (int i = 0; i < 16; i++) digits[i] = HEX[(hash >> (60 - 4 * i)) & 15];
    put(name);
    put_bytes(digits, 16);
}

static void call_dump(void) {
    put_hash("dump labels ", labels, labels_len);
    put_hash(" entries ", entries, entries_len);
    put_hash(" words ", words, words_len * sizeof *words);
    put_hash(" line ", line_part, line_len);
    put(" counts");
    for (size_t i = 0; i < 4; i++) {
        if (i < words_len) {
            put_word_number("", words[i]);
        } else {
            put(" -");
        }
    }
    put_word_number(" loader", loader.kept);
    put_report_numbers(loader.report);
}

/* ---- one line */

/* False where the words are no call; then nothing has been done or put. */
static bool call(const char *at, const char *end) {
    word name = next_word(&at, end);
    if (is(name, "run")) return call_run(at, end);
    if (is(name, "poke")) return call_poke(at, end);
    if (is(name, "resize")) return call_resize(at, end);
    word a = next_word(&at, end), b = next_word(&at, end), c = next_word(&at, end), d = next_word(&at, end);
    size_t given = next_word(&at, end).length ? 5 : d.length ? 4 : c.length ? 3 : b.length ? 2 : a.length ? 1 : 0;
    text t, object, request, out;
    uint64_t number;
    bq_set set;
    if (given == 0) {
        if (is(name, "fresh")) {
            put_written(fresh());
        } else if (is(name, "freshen")) {
            put_written(bq_fresh_table(TABLES));
        } else if (is(name, "freshloader")) {
            fresh_loader();
            put("done");
        } else if (is(name, "end")) {
            bq_loader before = loader;
            bq_finished f = bq_end(TABLES, line_part, line_len, loader);
            loader = f.loader;
            put_finished(f, before);
        } else if (is(name, "dump")) {
            call_dump();
        } else {
            return false;
        }
        return true;
    }
    if (given == 1 && is(name, "label")) {
        if (!read_number(a, &number)) return false;
        call_label(number);
        return true;
    }
    if (given == 1 && is(name, "readoption")) {
        if (!read_hex(a, &t)) return false;
        bq_peer peer = bq_read_option(TABLES, t.bytes, t.length);
        put_peer(&peer);
        read_only(&t);
        return true;
    }
    if (given == 1) {
        if (!is(name, "piece") && !is(name, "change") && !is(name, "revoke") && !is(name, "override") && !is(name, "mapping") &&
            !is(name, "bylabel"))
            return false;
        if (!read_hex(a, &t)) return false;
        switch (name.text[0]) {
        case 'p': {
            bq_loader before = loader;
            bq_taken taken = bq_piece(TABLES, line_part, line_len, loader, t.bytes, t.length);
            loader = taken.loader;
            put_written((bq_written){taken.refused, taken.number, 0});
            if (taken.refused && !same_loader(loader, before)) put(" moved");
            break;
        }
        case 'c': put_written(bq_change(TABLES, t.bytes, t.length)); break;
        case 'r': {
            bq_counted counted = bq_revoke(TABLES, t.bytes, t.length);
            if (counted.refused) {
                put_refused(counted.number);
            } else {
                put_word_number("revoked", counted.count);
            }
            put_place(counted.refused, counted.number, counted.place);
            if (counted.refused ? counted.count != 0 : counted.number != 0) put(" stray");
            break;
        }
        case 'o': put_written(bq_onlycap(TABLES, t.bytes, t.length)); break;
        case 'm': put_written(bq_mapping(TABLES, t.bytes, t.length)); break;
        default: put_mapped(bq_by_label(TABLES, t.bytes, t.length)); break;
        }
        read_only(&t);
        return true;
    }
    if (given == 2 && is(name, "bylevel")) {
        if (!read_number(a, &number) || !read_set(b, &set)) return false;
        put_lowest(bq_by_level(TABLES, number, set));
        return true;
    }
    if (given == 2 && is(name, "list")) {
        if (!read_number(a, &number) || !read_output(b, &t)) return false;
        put_length(bq_list_rule(TABLES, number, t.bytes, t.length), &t);
        return true;
    }
    if (given == 2 && is(name, "writeoption")) {
        if (!read_hex(a, &t)) return false;
        if (!read_output(b, &out)) {
            give_back(&t);
            return false;
        }
        put_length(bq_write_option(TABLES, t.bytes, t.length, out.bytes, out.length), &out);
        read_only(&t);
        return true;
    }
    if (given == 2 && (is(name, "recordtoline") || is(name, "linetorecord"))) {
        if (!read_hex(a, &t)) return false;
        if (!read_output(b, &out)) {
            give_back(&t);
            return false;
        }
        bq_length turned = is(name, "recordtoline") ? bq_record_to_line(t.bytes, t.length, out.bytes, out.length)
                                                    : bq_line_to_record(t.bytes, t.length, out.bytes, out.length);
        put_length(turned, &out);
        read_only(&t);
        return true;
    }
    if (given == 4 && is(name, "newobject")) {
        if ((!is(c, "0") && !is(c, "1")) || (!is(d, "0") && !is(d, "1"))) return false;
        if (!read_hex(a, &t)) return false;
        if (!read_hex(b, &object)) {
            give_back(&t);
            return false;
        }
        put_labelled(bq_new_object(TABLES, t.bytes, t.length, object.bytes, object.length, is(c, "1"), is(d, "1")));
        read_only(&t);
        read_only(&object);
        return true;
    }
    if (given == 4 && is(name, "question")) {
        if (!is(d, "0") && !is(d, "1")) return false;
        if (!read_hex(a, &t)) return false;
        if (!read_hex(b, &object)) {
            give_back(&t);
            return false;
        }
        if (!read_hex(c, &request)) {
            give_back(&t);
            give_back(&object);
            return false;
        }
        put_decision(bq_question(TABLES, t.bytes, t.length, object.bytes, object.length, request.bytes, request.length, is(d, "1")));
        read_only(&t);
        read_only(&object);
        read_only(&request);
        return true;
    }
    return false;
}

/* The parts that a call is lent to write: 1 labels, 2 entries, 4 words, 8 the line. What only sets the memory writes as it likes. */
static unsigned writes(word name) {
    static const char *const reading[] = {"bylabel",      "bylevel",      "run",         "question",   "list",      "label",
                                          "recordtoline", "linetorecord", "writeoption", "readoption", "newobject", "dump"};
    for (size_t i = 0; i < sizeof reading / sizeof *reading; i++) {
        if (is(name, reading[i])) return 0;
    }
    if (is(name, "revoke")) return 2;
    if (is(name, "freshen")) return 1 + 4;
    if (is(name, "change") || is(name, "override") || is(name, "mapping")) return 1 + 2 + 4;
    return 15;
}

static void let_write_parts(unsigned which) {
    void *parts[] = {labels, entries, words, line_part};
    for (size_t i = 0; i < sizeof parts / sizeof *parts; i++) let_write(parts[i], which >> i & 1);
}

static void do_line(const char *at, const char *end) {
    const char *p = at;
    word first = next_word(&p, end);
    if (first.length == 0 || first.text[0] == '#') return;
    unsigned written = read_only_parts ? writes(first) : 15;
    if (written != 15) let_write_parts(written);
    if (!call(at, end)) put("bad line");
    if (written != 15) let_write_parts(15);
    put("\n");
}

/* ---- input, line by line, in blocks */

int main(int count, char **arguments) {
    if (count == 2 && strcmp(arguments[1], "guard-end") == 0) {
        guard = GUARD_END;
    } else if (count == 2 && strcmp(arguments[1], "guard-front") == 0) {
        guard = GUARD_FRONT;
    } else if (count == 2 && strcmp(arguments[1], "odd") == 0) {
        guard = GUARD_ODD;
    } else if (count == 2 && strcmp(arguments[1], "read-only") == 0) {
        guard = GUARD_END;
        read_only_parts = true;
    } else if (count != 1) {
        fprintf(stderr, "usage: driver [guard-end | guard-front | odd | read-only]\n");
        return 2;
    }
    size_t room = 1 << 20, start = 0, stop = 0;
    char *in = malloc(room);
    if (in == NULL) no_memory();
    if (fresh().refused) {
        fprintf(stderr, "driver: a fresh table is refused\n");
        return 2;
    }
    fresh_loader();
    for (;;) {
        char *newline = memchr(in + start, '\n', stop - start);
        if (newline != NULL) {
            do_line(in + start, newline);
            start = (size_t)(newline - in) + 1;
            continue;
        }
        memmove(in, in + start, stop - start);
        stop -= start;
        start = 0;
        if (stop == room) {
            in = realloc(in, room *= 2);
            if (in == NULL) no_memory();
        }
        ssize_t n = read(0, in + stop, room - stop);
        if (n < 0 && errno == EINTR) continue;
        if (n < 0) {
            fprintf(stderr, "driver: cannot read\n");
            return 2;
        }
        if (n == 0) break;
        stop += (size_t)n;
    }
    do_line(in, in + stop);
    flush_out();
    free(in);
    back(labels);
    back(entries);
    back(words);
    back(line_part);
    return 0;
}
