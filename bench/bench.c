/* Times the library, through its static library, beside a second implementation and three forms of a kernel's lookup, and its packet options beside plain C
 * without tables, in one run: see run and docs/BENCHMARKS.md.
 *
 *   bench ROUNDS MEGABYTES DIRECTORY [PROGRAM SECOND]     all operations; DIRECTORY takes the rule text for the two programs
 *   bench count     all operations of the library, and of the one before, a few times, for callgrind: each is dumped under its name
 *   bench profile question|damage|text|fresh|blank|change LAYOUT [LONG]     one operation of the library alone, for a profiler: LAYOUT is 0 (spread), 1
 *                                                                     (one subject, lent) or 2 (one subject, grown), LONG is 0 or 1
 *
 * Time is the processor time of this thread, so that other work on the machine counts as little as can be. Each round does every operation
 * once on every implementation, one after the other; of the rounds the best and the median are told. */
#define _GNU_SOURCE
#include "kernel.h"

#include "../include/balqirven.h"

#include <fcntl.h>
#include <stdio.h>
#include <stdlib.h>
#include <string.h>
#include <sys/resource.h>
#include <sys/wait.h>
#include <time.h>
#include <unistd.h>
#if __has_include(<valgrind/callgrind.h>)
#include <valgrind/callgrind.h>
#endif

/* ---- the library before a change, where it is linked in: the same calls with another name */

/* The major version of its interface, where that is another than the header's. Version 4 has the calls and the sizes of version 5, but keeps b as a mode: a
 * question tells of it, and no report counts the lines that hold it. */
#ifndef BEFORE_MAJOR
#define BEFORE_MAJOR BQ_VERSION_MAJOR
#endif
/* By a report, how many lines of a text were accepted in which every line holds b. */
#define bq_holding_b(report) (report).bringup
#if BEFORE_MAJOR == 4
typedef struct {
    uint32_t lines, accepted, skipped, refused, first;
    uint8_t reason;
    size_t place;
} before_bq_report;
typedef struct {
    size_t kept;
    before_bq_report report;
} before_bq_loader;
typedef struct {
    bool refused;
    uint8_t number;
    before_bq_loader loader;
} before_bq_taken;
typedef struct {
    bool refused;
    uint8_t number;
    before_bq_report report;
    before_bq_loader loader;
} before_bq_finished;
typedef struct {
    uint8_t kind;
    uint8_t number;
    bool bringup;
    size_t place;
} before_bq_decision;
#define BEFORE_KEEPS_B true
#define before_bq_holding_b(report) (report).accepted
#elif BEFORE_MAJOR == BQ_VERSION_MAJOR
typedef bq_loader before_bq_loader;
typedef bq_taken before_bq_taken;
typedef bq_finished before_bq_finished;
typedef bq_decision before_bq_decision;
#define BEFORE_KEEPS_B false
#define before_bq_holding_b bq_holding_b
#else
#error "the structs of that version are not here"
#endif

#define TO_READ const uint8_t *, size_t, const uint8_t *, size_t, const uint64_t *, size_t
#define TO_WRITE uint8_t *, size_t, uint8_t *, size_t, uint64_t *, size_t
#define OLDER extern __attribute__((weak))
OLDER before_bq_loader before_bq_fresh_loader(void);
OLDER before_bq_taken before_bq_piece(TO_WRITE, uint8_t *, size_t, before_bq_loader, const uint8_t *, size_t);
OLDER before_bq_finished before_bq_end(TO_WRITE, uint8_t *, size_t, before_bq_loader);
OLDER before_bq_decision before_bq_question(TO_READ, const uint8_t *, size_t, const uint8_t *, size_t, const uint8_t *, size_t, bool);
OLDER __typeof__(bq_fresh_table) before_bq_fresh_table;
OLDER __typeof__(bq_change) before_bq_change;
OLDER __typeof__(bq_list_rule) before_bq_list_rule;
OLDER __typeof__(bq_mapping) before_bq_mapping;
OLDER __typeof__(bq_by_label) before_bq_by_label;
OLDER __typeof__(bq_by_level) before_bq_by_level;
OLDER __typeof__(bq_lowest_in_run) before_bq_lowest_in_run;
OLDER __typeof__(bq_lowest_of) before_bq_lowest_of;
OLDER __typeof__(bq_write_option) before_bq_write_option;
OLDER __typeof__(bq_read_option) before_bq_read_option;
OLDER __typeof__(bq_new_object) before_bq_new_object;

/* ---- the second implementation */

struct second;
typedef struct {
    uint8_t kind, number;
} second_shown;
struct second *second_new(void);
void second_free(struct second *s);
void second_label(struct second *s, const uint8_t *text, size_t length);
void second_push(struct second *s, size_t subject, size_t object, uint8_t modes);
second_shown second_question(const struct second *s, const uint8_t *subject, size_t subject_len, const uint8_t *object, size_t object_len,
                             const uint8_t *request, size_t request_len, bool capable);
void second_piece(struct second *s, const uint8_t *text, size_t length);
void second_end(struct second *s, uint32_t *out);
int second_change(struct second *s, const uint8_t *text, size_t length);
size_t second_list(const struct second *s, uint64_t k, uint8_t *out, size_t length);

/* ---- common */

/* PLAIN is for the packet option alone, and has no tables. */
enum { LIBRARY, BEFORE, KERNEL, KERNEL_TEXT, KERNEL_BYTES, SECOND, PLAIN, SIDES };
static const char *const SIDE[SIDES] = {"library", "library before", "kernel", "kernel, rules by text", "kernel, byte compare", "second", "plain C"};
static const char *const RATIO[SIDES] = {"", "before", "kernel", "by text", "byte compare", "second", "plain C"};

static bool is_there(int side)
{
    return side != BEFORE || before_bq_question;
}

static bool is_library(int side)
{
    return side == LIBRARY || side == BEFORE;
}
/* A field of what a call of the library, or of the one before, answers about the lent tables t. */
#define OF(side, name, field, t, ...)                                                                                                        \
    ((side) == BEFORE ? before_bq_##name(TABLES(t), __VA_ARGS__).field : bq_##name(TABLES(t), __VA_ARGS__).field)

enum { QUESTIONS = 4096, PIECE = 65536, MOST_ROUNDS = 64 };

static void fail(const char *why)
{
    fprintf(stderr, "bench: %s\n", why);
    exit(1);
}

static uint64_t seed = 1;
static uint32_t pick(uint32_t n)
{
    seed ^= seed << 13;
    seed ^= seed >> 7;
    seed ^= seed << 17;
    return (uint32_t)((seed >> 33) % n);
}

static double now(void)
{
    struct timespec t;
    clock_gettime(CLOCK_THREAD_CPUTIME_ID, &t);
    return (double)t.tv_sec * 1e9 + (double)t.tv_nsec;
}

/* ---- labels and tables */

/* 64 labels: the five that are always there, and 59 of one kind. Those of a kind have `least` to `most` bytes and agree in their first `head` and
 * their last `tail`; before the tail stand two bytes that no other of the kind has there. SIZES kinds are for every operation; those after them
 * are hard to tell apart and for questions alone. */
enum { SHORT, LONG, SIZES, END_FOUR = SIZES, MIDDLE, END_EIGHT, BEGIN, KINDS };
static const struct {
    const char *name;
    int least, most, head, tail;
} KIND[KINDS] = {
    {"short", 6, 10, 0, 0},
    {"long", 204, 204, 190, 0},
    {"labels that all end in the same four bytes", 6, 10, 0, 4},
    {"labels that differ only in the middle", 10, 10, 4, 4},
    {"labels of 18 bytes that end in the same eight", 18, 18, 0, 8},
    {"labels that all begin alike", 12, 12, 8, 0},
};
static char label[KINDS][64][256];
static const char *const MODES[] = {"r", "rx", "rw", "rwxa", "rxa", "w", "rwx", "a"};

static void make_labels(void)
{
    static const char *const first[5] = {"_", "^", "*", "?", "@"};
    static const char letters[] = "abcdefghijklmnopqrstuvwxyzABCDEFGHIJKLMNOPQRSTUVWXYZ0123456789_.";
    for (int kind = 0; kind < KINDS; kind++)
        for (int i = 0; i < 64; i++) {
            char *l = label[kind][i];
            if (i < 5) {
                strcpy(l, first[i]);
                continue;
            }
            int least = KIND[kind].least, most = KIND[kind].most, head = KIND[kind].head;
            int n = least < most ? least + (int)pick((uint32_t)(most - least + 1)) : least, tail = n - KIND[kind].tail;
            for (int j = 0; j < head; j++)
                l[j] = "ClimateProbe_StoreNorth_"[j % 24];
            for (int j = head; j < tail - 2; j++)
                l[j] = letters[pick(64)];
            l[tail - 2] = (char)('A' + i / 8);
            l[tail - 1] = (char)('a' + i % 8);
            for (int j = tail; j < n; j++)
                l[j] = "_StoreNorth"[j - tail];
            l[n] = 0;
        }
}

/* How the rules stand. SPREAD: 256 rules, four to each of the 64 labels as subject. ONE_256: 256 rules of one subject. With 64 labels a subject
 * has only 63 other objects, and a table that was grown holds no pair twice; so this one is lent: the first 248 rules repeat 47 objects, and the
 * last eight have eight objects that no rule before them has. These are asked for by rule 6, and eight objects without a rule by rule 7. ONE_63:
 * the 63 rules that one subject can have in a table that was grown; rule 7 is asked for by a letter that the rule has not. */
enum { SPREAD, ONE_256, ONE_63, LAYOUTS };
static const char *const LAYOUT[LAYOUTS] = {"256 rules spread", "256 rules of one subject (lent)", "63 rules of one subject (grown)"};

struct rule {
    int subject, object;
    unsigned modes;
};
static struct rule rules[LAYOUTS][256];
static int count[LAYOUTS];
static bool has_rule[LAYOUTS][64][64];

enum { ONE = 40 }; /* the one subject */

static unsigned bits_of(const char *modes)
{
    unsigned bits = 0;
    for (; *modes; modes++)
        bits |= 32u >> (strchr("rwxat", *modes) - "rwxat");
    return bits;
}

static void make_rules(void)
{
    /* r and x are in every rule, so that a question for them is granted by 6, and w in none. */
    for (int i = 0; i < 256; i++) {
        struct rule r = {i % 64, (i % 64 + 1 + 13 * (i / 64) + i % 7) % 64, bits_of("rx")};
        rules[SPREAD][i] = r;
    }
    count[SPREAD] = 256;
    for (int i = 255; i > 0; i--) {
        int j = (int)pick((uint32_t)i + 1);
        struct rule t = rules[SPREAD][i];
        rules[SPREAD][i] = rules[SPREAD][j];
        rules[SPREAD][j] = t;
    }
    for (int i = 0; i < 256; i++) {
        struct rule r = {ONE, i < 248 ? (i % 47 < ONE ? i % 47 : i % 47 + 1) : 48 + i - 248, bits_of("rx")};
        rules[ONE_256][i] = r;
    }
    count[ONE_256] = 256;
    for (int i = 0; i < 63; i++) {
        struct rule r = {ONE, i < ONE ? i : i + 1, bits_of("rx")};
        rules[ONE_63][i] = r;
    }
    count[ONE_63] = 63;
    for (int l = 0; l < LAYOUTS; l++)
        for (int i = 0; i < count[l]; i++)
            has_rule[l][rules[l][i].subject][rules[l][i].object] = true;
}

/* The library's tables as they are lent. */
struct lent {
    uint64_t words[BQ_WORDS];
    uint8_t labels[BQ_LABELS], entries[BQ_ENTRIES], line[BQ_LINE];
};
#define TABLES(t) (t)->labels, BQ_LABELS, (t)->entries, BQ_ENTRIES, (t)->words, BQ_WORDS

/* The library and the one before are lent the same tables, at the same addresses. The kinds after SIZES have the spread rules alone. */
static struct lent lent[LAYOUTS][KINDS];
static struct k_world *world[LAYOUTS][KINDS], *world_bytes[LAYOUTS][KINDS];
static struct second *second[LAYOUTS][KINDS];

static bool is_laid_out(int l, int kind)
{
    return kind < SIZES || l == SPREAD;
}

/* Those of the spread rules once more, for rule text, which sets their modes. */
static struct lent lent_text[SIZES];
static struct k_world *world_text[SIZES];
static struct second *second_text[SIZES];

/* The same tables for all: the 64 labels in their order, then the rules. They are put down one by one and not by rule text, which only the table
 * with a pair twice needs. */
static struct k_world *make_world(struct k_world *w, int l, int kind, void (*enter)(struct k_world *, const char *),
                                  void (*append)(struct k_world *, const char *, const char *, unsigned))
{
    for (int i = 5; i < 64; i++)
        enter(w, label[kind][i]);
    for (int i = 0; i < count[l]; i++)
        append(w, label[kind][rules[l][i].subject], label[kind][rules[l][i].object], rules[l][i].modes);
    return w;
}

static struct second *make_second(int l, int kind)
{
    struct second *s = second_new();
    for (int i = 5; i < 64; i++)
        second_label(s, (const uint8_t *)label[kind][i], strlen(label[kind][i]));
    for (int i = 0; i < count[l]; i++)
        second_push(s, (size_t)rules[l][i].subject, (size_t)rules[l][i].object, (uint8_t)rules[l][i].modes);
    return s;
}

static void make_lent(struct lent *t, int l, int kind)
{
    char line[600];
    bq_loader loader = bq_fresh_loader();
    if (bq_fresh_table(TABLES(t)).refused)
        fail("no fresh table");
    for (int i = 5; i < 64; i++) {
        int n = sprintf(line, "%s _ -\n", label[kind][i]);
        loader = bq_piece(TABLES(t), t->line, BQ_LINE, loader, (const uint8_t *)line, (size_t)n).loader;
    }
    if (loader.report.accepted != 59 || t->words[0] != 64)
        fail("the labels did not enter");
    for (int i = 0; i < count[l]; i++) {
        t->entries[i] = (uint8_t)rules[l][i].subject;
        t->entries[256 + i] = (uint8_t)rules[l][i].object;
        t->entries[512 + i] = (uint8_t)rules[l][i].modes;
    }
    t->words[1] = (uint64_t)count[l];
}

/* Whether the library before takes what BEFORE_MAJOR says: these calls, parts of these sizes, and a rule with b, which is damage since version 5. */
static bool is_of_its_version(void)
{
    static struct lent t;
    uint8_t out[BQ_LONGEST_RULE];
    if (!before_bq_read_option || before_bq_fresh_table(TABLES(&t)).refused)
        return false;
    t.entries[0] = 0;
    t.entries[256] = 1;
    t.entries[512] = 1;
    t.words[1] = 1;
    return before_bq_list_rule(TABLES(&t), 0, out, sizeof out).refused == !BEFORE_KEEPS_B;
}

static void make_tables(void)
{
    if (is_there(BEFORE) && !is_of_its_version())
        fail("the header of the library before had another major version than BEFORE_MAJOR says");
    for (int l = 0; l < LAYOUTS; l++)
        for (int kind = 0; kind < KINDS; kind++) {
            if (!is_laid_out(l, kind))
                continue;
            make_lent(&lent[l][kind], l, kind);
            world[l][kind] = make_world(k_new(), l, kind, k_enter, k_append);
            world_bytes[l][kind] = make_world(kb_new(), l, kind, kb_enter, kb_append);
            second[l][kind] = make_second(l, kind);
        }
    for (int kind = 0; kind < SIZES; kind++) {
        make_lent(&lent_text[kind], SPREAD, kind);
        world_text[kind] = make_world(k_new(), SPREAD, kind, k_enter, k_append);
        second_text[kind] = make_second(SPREAD, kind);
    }
}

/* ---- questions */

struct question {
    const uint8_t *subject, *object, *request;
    size_t subject_len, object_len, request_len;
    uint8_t kind, number;
};

enum { BY_6, BY_7, BY_7_UNKNOWN, BY_2, BY_3, BY_4, BY_5, EMPTY, ASKED };
static const char *const BY[ASKED] = {"rule 6",           "rule 7", "rule 7, object unknown", "rule 2", "rule 3", "rule 4", "rule 5",
                                      "empty subject: the damage check alone"};

static struct question asked[LAYOUTS][KINDS][ASKED][QUESTIONS];

/* Labels that are hard to tell apart are sought by rules 6 and 7. */
static bool is_asked(int l, int kind, int by)
{
    return is_laid_out(l, kind) && (kind < SIZES || by <= BY_7_UNKNOWN);
}

static void make_questions(void)
{
    static char unknown[KINDS][16][256];
    for (int kind = 0; kind < KINDS; kind++)
        for (int i = 0; i < 16; i++) {
            strcpy(unknown[kind][i], label[kind][5 + i]);
            unknown[kind][i][strlen(unknown[kind][i]) - (size_t)KIND[kind].tail - 1] = '+';
        }
    for (int l = 0; l < LAYOUTS; l++)
        for (int kind = 0; kind < KINDS; kind++)
            for (int by = 0; by < ASKED; by++)
                for (int i = 0; i < QUESTIONS && is_asked(l, kind, by); i++) {
                    struct question *q = &asked[l][kind][by][i];
                    static const char *const reading[] = {"r", "x", "rx", "xr", "R"};
                    const char *request = reading[pick(5)], *object;
                    int s = l == SPREAD ? 5 + (int)pick(59) : ONE, o = 5 + (int)pick(59);
                    q->kind = BQ_GRANTED;
                    q->number = 6;
                    object = NULL;
                    if (by == BY_6)
                        do {
                            const struct rule *r = &rules[l][l == ONE_256 ? 248 + pick(8) : pick((uint32_t)count[l])];
                            s = r->subject;
                            o = r->object;
                        } while (s < 5 || o < 5);
                    if (by == BY_7) {
                        /* No rule for the pair; where each pair has one, the letter is not in it. */
                        q->kind = BQ_DENIED;
                        q->number = 7;
                        if (l == ONE_63) {
                            do
                                o = 5 + (int)pick(59);
                            while (o == s);
                            request = "w";
                        } else
                            while (o == s || has_rule[l][s][o]) {
                                if (l == SPREAD)
                                    s = 5 + (int)pick(59);
                                o = 5 + (int)pick(59);
                            }
                    }
                    if (by == BY_7_UNKNOWN) {
                        q->kind = BQ_DENIED;
                        q->number = 7;
                        object = unknown[kind][pick(16)];
                    }
                    if (by == BY_2) {
                        s = 1;
                        q->number = 2;
                    }
                    if (by == BY_3) {
                        o = 0;
                        q->number = 3;
                    }
                    if (by == BY_4) {
                        o = 2;
                        q->number = 4;
                        request = MODES[pick(8)];
                    }
                    if (by == BY_5) {
                        o = s;
                        q->number = 5;
                        request = MODES[pick(8)];
                    }
                    if (!object)
                        object = label[kind][o];
                    q->subject = (const uint8_t *)label[kind][s];
                    q->subject_len = strlen(label[kind][s]);
                    /* A copy, so that no side gains from the subject's text standing where the object's does. */
                    q->object = (const uint8_t *)(by == BY_5 ? strdup(object) : object);
                    q->object_len = strlen(object);
                    q->request = (const uint8_t *)request;
                    q->request_len = strlen(request);
                    if (by == EMPTY) {
                        q->subject_len = 0;
                        q->kind = BQ_REFUSED;
                        q->number = 3;
                    }
                }
}

static unsigned ask(int side, int l, int kind, const struct question *q, size_t n)
{
    unsigned sum = 0;
    switch (side) {
#define LIBRARY_SIDE(ITS)                                                                                                                    \
    {                                                                                                                                        \
        struct lent *t = &lent[l][kind];                                                                                                     \
        for (size_t i = 0; i < n; i++) {                                                                                                     \
            ITS##decision d = ITS##question(TABLES(t), q[i].subject, q[i].subject_len, q[i].object, q[i].object_len, q[i].request,           \
                                            q[i].request_len, false);                                                                        \
            sum += d.kind * 16u + d.number;                                                                                                  \
        }                                                                                                                                    \
        break;                                                                                                                               \
    }
    case LIBRARY:
        LIBRARY_SIDE(bq_)
    case BEFORE:
        LIBRARY_SIDE(before_bq_)
#define KERNEL_SIDE(CALL, WORLD)                                                                                                             \
    {                                                                                                                                        \
        struct k_world *w = WORLD[l][kind];                                                                                                  \
        for (size_t i = 0; i < n; i++) {                                                                                                     \
            struct k_answer d = CALL(w, (const char *)q[i].subject, q[i].subject_len, (const char *)q[i].object, q[i].object_len,            \
                                     (const char *)q[i].request, q[i].request_len);                                                          \
            sum += d.kind * 16u + d.number;                                                                                                  \
        }                                                                                                                                    \
        break;                                                                                                                               \
    }
    case KERNEL:
        KERNEL_SIDE(k_question, world)
    case KERNEL_TEXT:
        KERNEL_SIDE(k_question_text, world)
    case KERNEL_BYTES:
        KERNEL_SIDE(kb_question, world_bytes)
    case SECOND: {
        struct second *s = second[l][kind];
        for (size_t i = 0; i < n; i++) {
            second_shown d = second_question(s, q[i].subject, q[i].subject_len, q[i].object, q[i].object_len, q[i].request, q[i].request_len,
                                             false);
            sum += d.kind * 16u + d.number;
        }
        break;
    }
    }
    return sum;
}

/* Every answer of every side is the one that the question was made for. */
static void check_questions(void)
{
    for (int l = 0; l < LAYOUTS; l++)
        for (int kind = 0; kind < KINDS; kind++)
            for (int by = 0; by < ASKED; by++)
                for (int i = 0; i < QUESTIONS && is_asked(l, kind, by); i++)
                    for (int side = 0; side < PLAIN; side++) {
                        struct question *q = &asked[l][kind][by][i];
                        if (!is_there(side))
                            continue;
                        unsigned got = ask(side, l, kind, q, 1);
                        if (got != q->kind * 16u + q->number) {
                            fprintf(stderr, "bench: %s answers %u/%u, not %u/%u: %s, %s, subject %.*s object %.*s\n", SIDE[side], got / 16,
                                    got % 16, q->kind, q->number, LAYOUT[l], BY[by], (int)q->subject_len, (const char *)q->subject,
                                    (int)q->object_len, (const char *)q->object);
                            exit(1);
                        }
                    }
}

/* ---- rule text */

enum { KNOWN, FRESH, REFUSED, BLANK, WITH_B, WITH_DASH, TEXTS };
static char *text[TEXTS][SIZES];
static size_t text_len[TEXTS][SIZES];
static unsigned text_lines[TEXTS][SIZES];

/* Which rows there are: blank lines have no labels, and what b costs is told with short ones. */
static int sizes_of(int which)
{
    return which == BLANK || which == WITH_B || which == WITH_DASH ? 1 : SIZES;
}

static size_t put_rule(char *out, int kind, const struct rule *r, const char *modes)
{
    return (size_t)sprintf(out, "%s %s %s\n", label[kind][r->subject], label[kind][r->object], modes);
}

/* KNOWN: pairs of the spread table in any order. FRESH: the 256 rules of that table, in their order; a table is made anew after each. REFUSED: lines
 * with refusals 2, 3, 4, 5, 6 and 7. BLANK: lines of 0 to 600 blanks. WITH_B: known pairs, with the retired letter b behind the others; WITH_DASH: the very
 * same lines with a dash in its place. */
static void make_text(int which, int kind, size_t bytes)
{
    char *t = malloc(bytes + 2048);
    size_t n = 0;
    unsigned lines = 0;
    const struct rule *r = rules[SPREAD];
    if (which == WITH_B || which == WITH_DASH)
        seed = 1;
    while (n < bytes) {
        const struct rule *p = &r[pick(256)];
        const char *a = label[kind][p->subject], *b = label[kind][p->object];
        switch (which) {
        case KNOWN:
            n += put_rule(t + n, kind, p, MODES[pick(8)]);
            break;
        case WITH_B:
        case WITH_DASH:
            n += (size_t)sprintf(t + n, "%s %s %s%c\n", a, b, MODES[pick(8)], which == WITH_B ? 'b' : '-');
            break;
        case FRESH:
            n += put_rule(t + n, kind, &r[lines % 256], MODES[pick(8)]);
            if (lines == 255)
                bytes = n;
            break;
        case REFUSED:
            switch (pick(6)) {
            case 0:
                n += (size_t)sprintf(t + n, "%s %s\n", a, b);
                break;
            case 1:
                n += (size_t)sprintf(t + n, "%s %s/ r\n", a, b);
                break;
            case 2:
                n += (size_t)sprintf(t + n, "%s %s rz\n", a, b);
                break;
            case 3:
                n += (size_t)sprintf(t + n, "%s %s r\n", a, a);
                break;
            case 4:
                n += (size_t)sprintf(t + n, "%s %s+ r\n", a, b);
                break;
            default: {
                int s, o;
                do {
                    s = (int)pick(64);
                    o = (int)pick(64);
                } while (s == o || has_rule[SPREAD][s][o]);
                n += (size_t)sprintf(t + n, "%s %s r\n", label[kind][s], label[kind][o]);
            }
            }
            break;
        case BLANK: {
            size_t blanks = pick(4) ? pick(40) : pick(601);
            memset(t + n, pick(2) ? ' ' : '\t', blanks);
            n += blanks;
            t[n++] = '\n';
        }
        }
        lines++;
    }
    text[which][kind] = t;
    text_len[which][kind] = n;
    text_lines[which][kind] = lines;
}

/* The same for the library and for the one before: a text in pieces, and a text into a fresh table. Their names do not begin as those of the calls do,
 * which are counted. */
#define FEED(WHICH, ITS)                                                                                                                     \
    static unsigned feed_##WHICH(struct lent *own, const char *t, size_t n, int which)                                                       \
    {                                                                                                                                        \
        ITS##loader loader = ITS##fresh_loader();                                                                                            \
        for (size_t at = 0; at < n; at += PIECE)                                                                                             \
            loader = ITS##piece(TABLES(own), own->line, BQ_LINE, loader, (const uint8_t *)t + at, n - at < PIECE ? n - at : PIECE).loader;   \
        ITS##finished f = ITS##end(TABLES(own), own->line, BQ_LINE, loader);                                                                 \
        return f.refused           ? 0                                                                                                       \
               : which == BLANK    ? f.report.skipped                                                                                        \
               : which == REFUSED  ? f.report.refused                                                                                        \
               : which == WITH_B   ? ITS##holding_b(f.report)                                                                                \
                                   : f.report.accepted;                                                                                      \
    }                                                                                                                                        \
    static unsigned feed_fresh_##WHICH(struct lent *fresh, const char *t, size_t n)                                                          \
    {                                                                                                                                        \
        ITS##fresh_table(TABLES(fresh));                                                                                                     \
        ITS##taken taken = ITS##piece(TABLES(fresh), fresh->line, BQ_LINE, ITS##fresh_loader(), (const uint8_t *)t, n);                      \
        return ITS##end(TABLES(fresh), fresh->line, BQ_LINE, taken.loader).report.accepted;                                                  \
    }
FEED(library, bq_)
FEED(before, before_bq_)

/* Takes b out of every rule, which would be damage to the library. */
static void drop_b(struct lent *t)
{
    for (int i = 0; i < 256; i++)
        t->entries[512 + i] &= (uint8_t)~1u;
}

/* Feeds a text of `total` bytes in pieces; what is counted of the lines comes back, for all sides the same. */
static unsigned feed(int side, int which, int kind, size_t total)
{
    const char *t = text[which][kind];
    size_t n = text_len[which][kind], done = 0;
    unsigned counted = 0;
    uint32_t report[7];
    static struct lent fresh;
    if (which != FRESH) {
        if (side == LIBRARY)
            return feed_library(&lent_text[kind], t, n, which);
        if (side == BEFORE) {
            counted = feed_before(&lent_text[kind], t, n, which);
            if (which == WITH_B && BEFORE_KEEPS_B)
                drop_b(&lent_text[kind]);
            return counted;
        }
        if (side == SECOND) {
            struct second *s = second_text[kind];
            for (size_t at = 0; at < n; at += PIECE)
                second_piece(s, (const uint8_t *)t + at, n - at < PIECE ? n - at : PIECE);
            second_end(s, report);
            return which == BLANK ? report[2] : which == REFUSED ? report[3] : which == WITH_B ? report[6] : report[1];
        }
        return (unsigned)k_load(world_text[kind], t, n);
    }
    for (; done < total; done += n) {
        if (is_library(side)) {
            counted += side == BEFORE ? feed_fresh_before(&fresh, t, n) : feed_fresh_library(&fresh, t, n);
        } else if (side == SECOND) {
            struct second *s = second_new();
            second_piece(s, (const uint8_t *)t, n);
            second_end(s, report);
            second_free(s);
            counted += report[1];
        } else {
            struct k_world *w = k_new();
            counted += (unsigned)k_load(w, t, n);
            k_free(w);
        }
    }
    return counted;
}

/* ---- change and listing */

static char change[SIZES][QUESTIONS][600];
static size_t change_len[SIZES][QUESTIONS];

static void make_changes(void)
{
    for (int kind = 0; kind < SIZES; kind++)
        for (int i = 0; i < QUESTIONS; i++) {
            const struct rule *r = &rules[SPREAD][pick(256)];
            /* In the end r and x are in every rule and w in none, as before. */
            change_len[kind][i] = (size_t)sprintf(change[kind][i], "%s %s %s %s", label[kind][r->subject], label[kind][r->object],
                                                  i % 2 ? "rx" : "rxat", i % 3 ? "w" : "wat");
        }
}

static unsigned do_changes(int side, int kind)
{
    unsigned done = 0;
    for (int i = 0; i < QUESTIONS; i++) {
        const uint8_t *t = (const uint8_t *)change[kind][i];
        size_t n = change_len[kind][i];
        if (is_library(side))
            done += !OF(side, change, refused, &lent[SPREAD][kind], t, n);
        else if (side == SECOND)
            done += second_change(second[SPREAD][kind], t, n) == 0;
        else
            done += k_change(world[SPREAD][kind], (const char *)t, n) == 0;
    }
    return done;
}

static size_t do_listing(int side, int kind)
{
    static uint8_t out[256 * 600];
    size_t n = 0;
    if (is_library(side))
        for (size_t k = 0; k < 256; k++)
            n += OF(side, list_rule, length, &lent[SPREAD][kind], k, out + n, sizeof out - n);
    else if (side == SECOND)
        for (size_t k = 0; k < 256; k++)
            n += second_list(second[SPREAD][kind], k, out + n, sizeof out - n);
    else
        n = k_list(world[SPREAD][kind], (char *)out);
    return n;
}

/* ---- mappings */

/* Tables with 64 labels, the spread rules and 32 mappings, which are all that there can be. FEW: three categories, other ones in each mapping, all at one
 * level. MOST: the categories 1 to 63, every mapping at a level of its own. FEW_WIDE and ALL_WIDE are the same for a set of three
 * words: the sets of FEW_WIDE have one category in each word and differ in the last word alone. */
enum { FEW, MOST, FEW_WIDE, ALL_WIDE, SETS };
static const char *const SET[SETS] = {"3 categories up to 63", "categories 1 to 63", "3 categories up to 184", "categories 1 to 184"};
enum { MAPPINGS = 32, RECORDS = 1000, SEARCHES = 64 };

static struct lent lent_mapped[SETS][SIZES];
static size_t label_len[SIZES][64];
static int mapped_label[MAPPINGS], unmapped_label[MAPPINGS]; /* label numbers: a mapping's, and labels without one */
static struct mapping {
    uint64_t level;
    bq_set set;
    unsigned count;
} mapping[SETS][MAPPINGS], missing[SETS][MAPPINGS];
static char map_write[SETS][SIZES][MAPPINGS][BQ_LONGEST_MAPPING];
static size_t map_write_len[SETS][SIZES][MAPPINGS];

/* Which mapping a call writes or looks up, or whose level and set it searches a run for, in any order. */
static int map_asked[QUESTIONS];

/* A run of records, with sets of FEW or of FEW_WIDE, in one array and with its fields apart. */
static _Alignas(4096) bq_record run[SETS][RECORDS];
static _Alignas(4096) uint64_t run_labels[RECORDS], run_levels[RECORDS];
static _Alignas(4096) uint64_t run_words[SETS][RECORDS * 3];
static int run_lowest[SETS][MAPPINGS]; /* what a search for mapping k's level and set finds, -1 for none */

static void put_category(struct mapping *m, int n)
{
    if (!(m->set.word[BQ_CATEGORY_WORD(n)] & BQ_CATEGORY_BIT(n)))
        m->count++;
    m->set.word[BQ_CATEGORY_WORD(n)] |= BQ_CATEGORY_BIT(n);
}

/* A number that is made of the words of a set. */
static unsigned number_of(bq_set set)
{
    uint64_t all = set.word[0] ^ set.word[1] * 3 ^ set.word[2] * 5;
    return (unsigned)(all >> 32) ^ (unsigned)all;
}

/* Mapping k of a table, the write that makes it, and, where there are few categories, a set that no mapping has. */
static void make_mapping(int sets, int k)
{
    struct mapping *m = &mapping[sets][k];
    m->level = sets == FEW || sets == FEW_WIDE ? 9 : (uint64_t)k;
    missing[sets][k].level = m->level;
    if (sets == FEW) {
        put_category(m, 1 + k);
        put_category(m, 33 + k % 30);
        put_category(m, 63);
        put_category(&missing[sets][k], 1 + k);
        put_category(&missing[sets][k], 33 + (k + 1) % 30);
        put_category(&missing[sets][k], 63);
    } else if (sets == FEW_WIDE) {
        put_category(m, 1);
        put_category(m, 65);
        put_category(m, 129 + k);
        put_category(&missing[sets][k], 1);
        put_category(&missing[sets][k], 65);
        put_category(&missing[sets][k], 161 + k % 24);
    } else
        for (int n = 1; n <= (sets == MOST ? 63 : BQ_HIGHEST_CATEGORY); n++)
            put_category(m, n);
    for (int kind = 0; kind < SIZES; kind++) {
        char *w = map_write[sets][kind][k];
        int n = sprintf(w, "%s %d", label[kind][mapped_label[k]], (int)m->level);
        for (int c = 1; c <= BQ_HIGHEST_CATEGORY; c++)
            if (m->set.word[BQ_CATEGORY_WORD(c)] & BQ_CATEGORY_BIT(c))
                n += sprintf(w + n, " %d", c);
        map_write_len[sets][kind][k] = (size_t)n;
    }
}

/* A run: labels of any number, three of four records at the level that is sought, each with the set of one mapping. */
static void make_runs(void)
{
    for (int sets = 0; sets < SETS; sets++)
        for (int k = 0; k < MAPPINGS; k++)
            run_lowest[sets][k] = -1;
    for (int i = 0; i < RECORDS; i++) {
        int k = (int)pick(MAPPINGS), l = (int)pick(4096);
        run_labels[i] = (uint64_t)l;
        run_levels[i] = pick(4) ? 9 : 8;
        for (int sets = FEW; sets <= FEW_WIDE; sets += FEW_WIDE - FEW) {
            bq_set set = mapping[sets][k].set;
            run[sets][i] = (bq_record){run_labels[i], run_levels[i], set};
            memcpy(&run_words[sets][i * 3], &set, sizeof set);
            if (run_levels[i] == 9 && (run_lowest[sets][k] < 0 || l < run_lowest[sets][k]))
                run_lowest[sets][k] = l;
        }
    }
}

static void make_mappings(void)
{
    int number[59];
    seed = 1; /* the texts were made before: whatever their size, the mappings are the same, when they are timed and when they are counted */
    for (int i = 0; i < 59; i++)
        number[i] = 5 + i;
    for (int i = 58; i > 0; i--) {
        int j = (int)pick((uint32_t)i + 1), t = number[i];
        number[i] = number[j];
        number[j] = t;
    }
    for (int k = 0; k < MAPPINGS; k++) {
        mapped_label[k] = number[k];
        unmapped_label[k] = number[MAPPINGS + k % (59 - MAPPINGS)];
    }
    for (int kind = 0; kind < SIZES; kind++)
        for (int i = 0; i < 64; i++)
            label_len[kind][i] = strlen(label[kind][i]);
    for (int i = 0; i < QUESTIONS; i++)
        map_asked[i] = (int)pick(MAPPINGS);
    for (int sets = 0; sets < SETS; sets++) {
        for (int k = 0; k < MAPPINGS; k++)
            make_mapping(sets, k);
        for (int kind = 0; kind < SIZES; kind++) {
            struct lent *t = &lent_mapped[sets][kind];
            make_lent(t, SPREAD, kind);
            for (int k = 0; k < MAPPINGS; k++)
                if (bq_mapping(TABLES(t), (const uint8_t *)map_write[sets][kind][k], map_write_len[sets][kind][k]).refused)
                    fail("a mapping is refused");
        }
    }
    make_runs();
}

/* MAP_WRITE: the mapping that the label has, written anew. OF_LABEL and OF_NONE: look-up of a label with a mapping and without. OF_SET and OF_MISSING:
 * look-up of a level and set that a mapping has, and of a set that none has at that level. IN_RUN and IN_ARRAYS: the lowest label of a run. */
enum { MAP_WRITE, OF_LABEL, OF_NONE, OF_SET, OF_MISSING, IN_RUN, IN_ARRAYS, MAP_CALLS };
static const char *const MAP_CALL[MAP_CALLS] = {"mapping write",
                                                "look-up by label",
                                                "look-up by label, no mapping",
                                                "look-up by level and set, 32 mappings",
                                                "look-up by level and set, 32 mappings, none has it",
                                                "search of a run of 1,000 records",
                                                "search of a run of 1,000 records, fields apart"};

/* Which rows there are: a label without a mapping has no set; sets that none has, and those of a run, are of few categories; a run has no labels. */
static bool is_mapped(int call, int sets, int kind)
{
    bool few = sets == FEW || sets == FEW_WIDE;
    switch (call) {
    case OF_NONE:
        return sets == FEW;
    case OF_MISSING:
        return few;
    case IN_RUN:
    case IN_ARRAYS:
        return few && kind == 0;
    default:
        return true;
    }
}

static int map_calls(int call)
{
    return call == IN_RUN || call == IN_ARRAYS ? SEARCHES : QUESTIONS;
}

/* What a call comes to where there is no mapping or label to tell. */
enum { NOTHING = 1 << 20 };

static unsigned map_expected(int call, int sets, int i)
{
    int k = map_asked[i];
    const struct mapping *m = &mapping[sets][k];
    switch (call) {
    case MAP_WRITE:
        return 1;
    case OF_LABEL:
        return (unsigned)m->level + m->count * 256 + number_of(m->set);
    case OF_SET:
        return (unsigned)mapped_label[k];
    case IN_RUN:
    case IN_ARRAYS:
        return run_lowest[sets][k] < 0 ? NOTHING : (unsigned)run_lowest[sets][k];
    default:
        return NOTHING;
    }
}

/* The same for the library and for the one before; a refusal is none of what is expected. */
#define MAP(WHICH, ITS)                                                                                                                      \
    static unsigned of_label_##WHICH(struct lent *t, int kind, int l)                                                                        \
    {                                                                                                                                        \
        bq_mapped m = ITS##by_label(TABLES(t), (const uint8_t *)label[kind][l], label_len[kind][l]);                                         \
        return m.kind == BQ_MAPPED ? m.level + m.count * 256 + number_of(m.set) : m.kind == BQ_UNMAPPED ? NOTHING : 2 * NOTHING;             \
    }                                                                                                                                        \
    static unsigned map_##WHICH(int call, int sets, int kind, int from, int n)                                                               \
    {                                                                                                                                        \
        struct lent *t = &lent_mapped[sets][kind];                                                                                           \
        unsigned sum = 0;                                                                                                                    \
        for (int i = from; i < from + n; i++) {                                                                                              \
            int k = map_asked[i];                                                                                                            \
            const struct mapping *m = call == OF_MISSING ? &missing[sets][k] : &mapping[sets][k];                                            \
            bq_lowest found;                                                                                                                 \
            switch (call) {                                                                                                                  \
            case MAP_WRITE:                                                                                                                  \
                sum += !ITS##mapping(TABLES(t), (const uint8_t *)map_write[sets][kind][k], map_write_len[sets][kind][k]).refused;            \
                continue;                                                                                                                    \
            case OF_LABEL:                                                                                                                   \
                sum += of_label_##WHICH(t, kind, mapped_label[k]);                                                                           \
                continue;                                                                                                                    \
            case OF_NONE:                                                                                                                    \
                sum += of_label_##WHICH(t, kind, unmapped_label[k]);                                                                         \
                continue;                                                                                                                    \
            case IN_RUN:                                                                                                                     \
                found = ITS##lowest_in_run(run[sets], RECORDS, m->level, m->set);                                                            \
                break;                                                                                                                       \
            case IN_ARRAYS:                                                                                                                  \
                found = ITS##lowest_of(run_labels, RECORDS, run_levels, RECORDS, run_words[sets], RECORDS * 3, m->level, m->set);            \
                break;                                                                                                                       \
            default:                                                                                                                         \
                found = ITS##by_level(TABLES(t), m->level, m->set);                                                                          \
            }                                                                                                                                \
            sum += found.kind == BQ_LABEL ? (unsigned)found.label : found.kind == BQ_NO_LABEL ? NOTHING : 2 * NOTHING;                       \
        }                                                                                                                                    \
        return sum;                                                                                                                          \
    }
MAP(library, bq_)
MAP(before, before_bq_)

static unsigned do_mappings(int side, int call, int sets, int kind, int from, int n)
{
    return side == BEFORE ? map_before(call, sets, kind, from, n) : map_library(call, sets, kind, from, n);
}

/* Every answer of both is the one that the call was made for. */
static void check_mappings(void)
{
    for (int call = 0; call < MAP_CALLS; call++)
        for (int sets = 0; sets < SETS; sets++)
            for (int kind = 0; kind < SIZES; kind++)
                for (int side = 0; side <= BEFORE; side++)
                    for (int i = 0; i < map_calls(call) && is_mapped(call, sets, kind) && is_there(side); i++) {
                        unsigned got = do_mappings(side, call, sets, kind, i, 1), want = map_expected(call, sets, i);
                        if (got != want) {
                            fprintf(stderr, "bench: %s comes to %u, not %u: %s, %s; %s\n", SIDE[side], got, want, MAP_CALL[call], SET[sets],
                                    KIND[kind].name);
                            exit(1);
                        }
                    }
}

/* ---- the packet option */

/* The same in plain C, category by category. What the library looks up is handed in: the label's mapping, or none, and to the reader the one label that an
 * option by mapping can say. So it tests no state for damage and seeks nothing; the label, the layout and the bits are judged as the library does. */
static bool plain_is_label(const uint8_t *l, size_t n)
{
    if (n == 0 || n > BQ_LONGEST_LABEL || l[0] == '-')
        return false;
    for (size_t i = 0; i < n; i++)
        if (l[i] < 33 || l[i] > 126 || l[i] == '/' || l[i] == '\\' || l[i] == '\'' || l[i] == '"')
            return false;
    return true;
}

static __attribute__((noinline)) bq_length plain_write(const uint8_t *l, size_t n, const struct mapping *m, uint8_t *out, size_t room)
{
    uint8_t bitmap[BQ_HIGHEST_CATEGORY / 8 + 1] = {0};
    size_t bytes = sizeof bitmap;
    if (!plain_is_label(l, n))
        return (bq_length){true, BQ_BAD_LABEL, 0};
    if (!m && n > BQ_LONGEST_OWN_LABEL)
        return (bq_length){true, BQ_NOT_IN_AN_OPTION, 0};
    for (size_t c = 1; c <= (m ? BQ_HIGHEST_CATEGORY : 8 * n); c++)
        if (m ? (m->set.word[BQ_CATEGORY_WORD(c)] & BQ_CATEGORY_BIT(c)) != 0 : (l[(c - 1) / 8] & 0x80 >> (c - 1) % 8) != 0)
            bitmap[c / 8] |= (uint8_t)(0x80 >> c % 8);
    while (bytes > 0 && bitmap[bytes - 1] == 0)
        bytes--;
    if (room < 10 + bytes)
        return (bq_length){true, BQ_OUTPUT_TOO_SHORT, 0};
    const uint8_t head[10] = {134, (uint8_t)(10 + bytes), 0, 0, 0, 3, 1, (uint8_t)(4 + bytes), 0, m ? (uint8_t)m->level : BQ_OWN_LEVEL};
    memcpy(out, head, sizeof head);
    memcpy(out + sizeof head, bitmap, bytes);
    return (bq_length){false, 0, 10 + bytes};
}

static __attribute__((noinline)) bq_peer plain_read(const uint8_t *option, size_t n, const struct mapping *m, const uint8_t *l, size_t l_len)
{
    bq_peer peer = {0};
    bq_set set = {{0, 0, 0}};
    peer.refused = true;
    peer.number = BQ_BAD_OPTION;
    if (n < 10 || n > BQ_LONGEST_OPTION_READ || option[0] != 134 || option[1] != n || option[6] != 1 || option[7] != n - 6 || option[8] != 0)
        return peer;
    peer.number = BQ_OTHER_DOI;
    if (option[2] != 0 || option[3] != 0 || option[4] != 0 || option[5] != 3)
        return peer;
    peer.number = BQ_BAD_OPTION_CATEGORY;
    for (size_t c = 0; c < 8 * (n - 10); c++)
        if (option[10 + c / 8] & 0x80 >> c % 8) {
            if (c == 0 || c > BQ_HIGHEST_CATEGORY)
                return peer;
            set.word[BQ_CATEGORY_WORD(c)] |= BQ_CATEGORY_BIT(c);
        }
    if (option[9] != BQ_OWN_LEVEL) {
        peer.number = BQ_NO_SUCH_MAPPING;
        if (!m || m->level != option[9] || memcmp(&m->set, &set, sizeof set) != 0)
            return peer;
        memcpy(peer.bytes, l, l_len);
        peer.length = l_len;
    } else {
        peer.number = BQ_BAD_LABEL;
        for (size_t c = 1; c <= BQ_HIGHEST_CATEGORY; c++)
            if (set.word[BQ_CATEGORY_WORD(c)] & BQ_CATEGORY_BIT(c))
                peer.bytes[(c - 1) / 8] |= (uint8_t)(0x80 >> (c - 1) % 8);
        size_t length = BQ_LONGEST_OWN_LABEL;
        while (length > 0 && peer.bytes[length - 1] == 0)
            length--;
        if (!plain_is_label(peer.bytes, length)) {
            memset(peer.bytes, 0, sizeof peer.bytes);
            return peer;
        }
        peer.length = length;
    }
    peer.refused = false;
    peer.number = 0;
    return peer;
}

/* In the tables with 32 mappings of all 184 categories. WRITE_OWN: a label of nine bytes that is in the table and has no mapping. WRITE_MAPPED: any of the
 * 32. READ_OWN: what WRITE_OWN writes. READ_MAPPED: what is written for the mapped label with the highest number, which is found last. READ_PADDED: the same
 * with two zero bytes behind it, as it stands in a packet, which is another layout. */
enum { WRITE_OWN, WRITE_MAPPED, READ_OWN, READ_MAPPED, READ_PADDED, OPTION_CALLS };
static const char *const OPTION_CALL[OPTION_CALLS] = {"write option, 9 bytes without a mapping", "write option, 32 mappings, categories 1 to 184",
                                                      "read option, level 250, 9 bytes", "read option, found last of 32 mappings, categories 1 to 184",
                                                      "read option, padding left on: refused 16"};
static struct packet {
    const uint8_t *label;
    size_t label_len, option_len;
    const struct mapping *mapping; /* NULL for a label that has none */
    uint8_t option[BQ_LONGEST_OPTION + 2];
} packet[OPTION_CALLS][SIZES][MAPPINGS];

static bool is_written(int call)
{
    return call == WRITE_OWN || call == WRITE_MAPPED;
}

/* Which rows there are: no long label has nine bytes, and of a refused layout the label is not asked for. */
static bool is_packed(int call, int kind)
{
    return kind == SHORT || call == WRITE_MAPPED || call == READ_MAPPED;
}

static void make_packets(void)
{
    int own[MAPPINGS], owns = 0, last = 0;
    for (int k = 0; k < MAPPINGS; k++) {
        if (label_len[SHORT][unmapped_label[k]] == 9)
            own[owns++] = unmapped_label[k];
        if (mapped_label[k] > mapped_label[last])
            last = k;
    }
    if (owns == 0)
        fail("no label of nine bytes is without a mapping");
    for (int call = 0; call < OPTION_CALLS; call++)
        for (int kind = 0; kind < SIZES; kind++)
            for (int k = 0; k < MAPPINGS && is_packed(call, kind); k++) {
                struct packet *p = &packet[call][kind][k];
                bool is_own = call == WRITE_OWN || call == READ_OWN;
                int which = call == WRITE_MAPPED ? k : last, l = is_own ? own[k % owns] : mapped_label[which];
                p->label = (const uint8_t *)label[kind][l];
                p->label_len = label_len[kind][l];
                p->mapping = is_own ? NULL : &mapping[ALL_WIDE][which];
                p->option_len = plain_write(p->label, p->label_len, p->mapping, p->option, BQ_LONGEST_OPTION).length;
                if (call == READ_PADDED)
                    p->option_len += 2;
            }
}

/* What a call comes to: the length and the last byte of an option or a label, or a refusal. */
static unsigned last_of(size_t n, const uint8_t *bytes)
{
    return (unsigned)n * 256 + bytes[n - 1];
}

static unsigned refused_with(uint8_t number)
{
    return NOTHING + number;
}

static unsigned option_expected(int call, int kind, int i)
{
    const struct packet *p = &packet[call][kind][map_asked[i]];
    return call == READ_PADDED ? refused_with(BQ_BAD_OPTION) : is_written(call) ? last_of(p->option_len, p->option) : last_of(p->label_len, p->label);
}

/* One call for a packet: what was written, in `out`, or what was read. */
static bq_length write_packet(int side, struct lent *t, const struct packet *p, uint8_t *out, size_t room)
{
    return side == LIBRARY  ? bq_write_option(TABLES(t), p->label, p->label_len, out, room)
           : side == BEFORE ? before_bq_write_option(TABLES(t), p->label, p->label_len, out, room)
                            : plain_write(p->label, p->label_len, p->mapping, out, room);
}

static bq_peer read_packet(int side, struct lent *t, const struct packet *p)
{
    return side == LIBRARY  ? bq_read_option(TABLES(t), p->option, p->option_len)
           : side == BEFORE ? before_bq_read_option(TABLES(t), p->option, p->option_len)
                            : plain_read(p->option, p->option_len, p->mapping, p->label, p->label_len);
}

static unsigned do_options(int side, int call, int kind)
{
    struct lent *t = &lent_mapped[ALL_WIDE][kind];
    uint8_t out[BQ_LONGEST_OPTION];
    unsigned sum = 0;
    for (int i = 0; i < QUESTIONS; i++) {
        const struct packet *p = &packet[call][kind][map_asked[i]];
        if (is_written(call)) {
            bq_length w = write_packet(side, t, p, out, sizeof out);
            sum += w.refused ? refused_with(w.number) : last_of(w.length, out);
        } else {
            bq_peer peer = read_packet(side, t, p);
            sum += peer.refused ? refused_with(peer.number) : last_of(peer.length, peer.bytes);
        }
    }
    return sum;
}

static bool packs(int side)
{
    return (is_library(side) && is_there(side)) || side == PLAIN;
}

/* Every side writes the same bytes and reads the same label, or refuses alike. */
static void check_options(void)
{
    for (int call = 0; call < OPTION_CALLS; call++)
        for (int kind = 0; kind < SIZES; kind++)
            for (int k = 0; k < MAPPINGS && is_packed(call, kind); k++)
                for (int side = 0; side < SIDES; side++) {
                    struct lent *t = &lent_mapped[ALL_WIDE][kind];
                    const struct packet *p = &packet[call][kind][k];
                    bool same;
                    if (!packs(side))
                        continue;
                    if (is_written(call)) {
                        uint8_t out[BQ_LONGEST_OPTION];
                        bq_length w = write_packet(side, t, p, out, sizeof out);
                        same = !w.refused && w.length == p->option_len && memcmp(out, p->option, w.length) == 0;
                    } else {
                        bq_peer peer = read_packet(side, t, p), want = {0};
                        want.refused = call == READ_PADDED;
                        want.number = call == READ_PADDED ? BQ_BAD_OPTION : 0;
                        want.length = call == READ_PADDED ? 0 : p->label_len;
                        memcpy(want.bytes, p->label, want.length);
                        same = peer.refused == want.refused && peer.number == want.number && peer.length == want.length &&
                               memcmp(peer.bytes, want.bytes, sizeof want.bytes) == 0;
                    }
                    if (!same) {
                        fprintf(stderr, "bench: %s does not agree: %s; %s\n", SIDE[side], OPTION_CALL[call], KIND[kind].name);
                        exit(1);
                    }
                }
}

/* ---- the label of a new object */

/* The spread rules with w and t in each. Creator and folder are subject and object of the questions that are asked by these rules; each row stands beside that
 * of a question for w about the same labels, which is its baseline. */
static struct lent lent_shared[SIZES];
static const struct {
    const char *name;
    int by;
    bool transmutes;
    uint8_t kind, question;
} OBJECT[] = {
    {"folder's label", BY_6, true, BQ_FOLDER_LABEL, BQ_GRANTED},
    {"creator's label by rule 6", BY_6, false, BQ_CREATOR_LABEL, BQ_GRANTED},
    {"denied by rule 7", BY_7, true, BQ_CREATION_DENIED, BQ_DENIED},
    {"denied by rule 7, folder unknown", BY_7_UNKNOWN, true, BQ_CREATION_DENIED, BQ_DENIED},
    {"creator's label by rule 4", BY_4, true, BQ_CREATOR_LABEL, BQ_GRANTED},
    {"creator's label by rule 5", BY_5, true, BQ_CREATOR_LABEL, BQ_GRANTED},
};
enum { OBJECTS = sizeof OBJECT / sizeof *OBJECT };

static void make_shared(void)
{
    for (int kind = 0; kind < SIZES; kind++) {
        make_lent(&lent_shared[kind], SPREAD, kind);
        for (int i = 0; i < count[SPREAD]; i++)
            lent_shared[kind].entries[512 + i] |= 16 | 2;
    }
}

/* The answers' kinds and marks, added up; `asks`: those of the questions for w. */
static unsigned do_objects(int side, int which, int kind, bool asks, int from, int to)
{
    struct lent *t = &lent_shared[kind];
    unsigned sum = 0;
    for (int i = from; i < to; i++) {
        const struct question *q = &asked[SPREAD][kind][OBJECT[which].by][i];
        if (asks) {
            sum += OF(side, question, kind, t, q->subject, q->subject_len, q->object, q->object_len, (const uint8_t *)"w", 1, false);
        } else {
            bq_labelled l = (side == BEFORE ? before_bq_new_object : bq_new_object)(TABLES(t), q->subject, q->subject_len, q->object, q->object_len,
                                                                                     OBJECT[which].transmutes, i % 2);
            sum += l.kind * 2u + l.transmutes;
        }
    }
    return sum;
}

static unsigned object_expected(int which, bool asks, int from, int to)
{
    unsigned sum = 0;
    for (int i = from; i < to; i++)
        sum += asks ? OBJECT[which].question : OBJECT[which].kind * 2u + (OBJECT[which].kind == BQ_FOLDER_LABEL && i % 2);
    return sum;
}

/* Every answer is the one that the row names. */
static void check_objects(void)
{
    for (int which = 0; which < OBJECTS; which++)
        for (int kind = 0; kind < SIZES; kind++)
            for (int i = 0; i < QUESTIONS; i++)
                for (int asks = 0; asks < 2; asks++)
                    if (do_objects(LIBRARY, which, kind, asks, i, i + 1) != object_expected(which, asks, i, i + 1)) {
                        fprintf(stderr, "bench: not what the row says: %s; %s\n", OBJECT[which].name, KIND[kind].name);
                        exit(1);
                    }
}

/* ---- the operations and their table */

enum { ASK, FEED, CHANGE, LIST, MAP, OPTION, CREATE };
struct operation {
    int what, a, kind, by;
    char name[120];
    double scale; /* what one run does: calls, bytes or rules */
    bool runs_on[SIDES];
    unsigned repeat[SIDES];
    double time[SIDES][MOST_ROUNDS]; /* ns for one call, one rule or one byte */
};
static struct operation ops[160];
static int n_ops;
static size_t total;

static unsigned expected(const struct operation *o)
{
    unsigned sum = 0;
    switch (o->what) {
    case ASK:
        for (int i = 0; i < QUESTIONS; i++)
            sum += asked[o->a][o->kind][o->by][i].kind * 16u + asked[o->a][o->kind][o->by][i].number;
        return sum;
    case FEED:
        return o->a == FRESH ? (unsigned)((total + text_len[FRESH][o->kind] - 1) / text_len[FRESH][o->kind]) * 256 : text_lines[o->a][o->kind];
    case CHANGE:
        return QUESTIONS;
    case MAP:
        for (int i = 0; i < map_calls(o->by); i++)
            sum += map_expected(o->by, o->a, i);
        return sum;
    case OPTION:
        for (int i = 0; i < QUESTIONS; i++)
            sum += option_expected(o->by, o->kind, i);
        return sum;
    case CREATE:
        return object_expected(o->by, o->a, 0, QUESTIONS);
    default:
        return (unsigned)do_listing(SECOND, o->kind);
    }
}

static void run_once(const struct operation *o, int side, unsigned want)
{
    unsigned got = 0;
    switch (o->what) {
    case ASK:
        got = ask(side, o->a, o->kind, asked[o->a][o->kind][o->by], QUESTIONS);
        break;
    case FEED:
        got = feed(side, o->a, o->kind, total);
        break;
    case CHANGE:
        got = do_changes(side, o->kind);
        break;
    case LIST:
        got = (unsigned)do_listing(side, o->kind);
        break;
    case MAP:
        got = do_mappings(side, o->by, o->a, o->kind, 0, map_calls(o->by));
        break;
    case OPTION:
        got = do_options(side, o->by, o->kind);
        break;
    case CREATE:
        got = do_objects(side, o->by, o->kind, o->a, 0, QUESTIONS);
        break;
    }
    if (got != want) {
        fprintf(stderr, "bench: %s: %s comes to %u, not %u\n", o->name, SIDE[side], got, want);
        exit(1);
    }
}

static void add(int what, int a, int kind, int by, double scale, const char *name, unsigned sides)
{
    struct operation *o = &ops[n_ops++];
    o->what = what;
    o->a = a;
    o->kind = kind;
    o->by = by;
    o->scale = scale;
    snprintf(o->name, sizeof o->name, "%s", name);
    for (int side = 0; side < SIDES; side++)
        o->runs_on[side] = (sides >> side & 1) && is_there(side);
}

static void add_all(void)
{
    static const char *const texts[TEXTS] = {"rule text, known pairs", "rule text, fresh tables", "rule text, refused lines", "rule text, blank lines",
                                             "rule text, known pairs, b in each line", "rule text, known pairs, a dash in place of b"};
    const unsigned all = (1u << PLAIN) - 1, alone = 1u << LIBRARY | 1u << BEFORE, two = alone | 1u << SECOND, three = two | 1u << KERNEL;
    char name[120];
    for (int l = 0; l < LAYOUTS; l++)
        for (int kind = 0; kind < SIZES; kind++)
            for (int by = 0; by < ASKED; by++) {
                snprintf(name, sizeof name, "question, %s; %s; %s", LAYOUT[l], KIND[kind].name, BY[by]);
                add(ASK, l, kind, by, QUESTIONS, name, by == EMPTY ? alone : all);
            }
    for (int kind = SIZES; kind < KINDS; kind++)
        for (int by = 0; by < ASKED; by++)
            if (is_asked(SPREAD, kind, by)) {
                snprintf(name, sizeof name, "question, %s; %s", KIND[kind].name, BY[by]);
                add(ASK, SPREAD, kind, by, QUESTIONS, name, all & ~(1u << SECOND));
            }
    for (int kind = 0; kind < SIZES; kind++) {
        snprintf(name, sizeof name, "change of a known pair; %s", KIND[kind].name);
        add(CHANGE, 0, kind, 0, QUESTIONS, name, three);
    }
    for (int kind = 0; kind < SIZES; kind++) {
        snprintf(name, sizeof name, "listing, each of 256 rules; %s", KIND[kind].name);
        add(LIST, 0, kind, 0, 256, name, three);
    }
    for (int call = 0; call < MAP_CALLS; call++)
        for (int sets = 0; sets < SETS; sets++)
            for (int kind = 0; kind < SIZES; kind++) {
                if (!is_mapped(call, sets, kind))
                    continue;
                if (call == OF_NONE)
                    snprintf(name, sizeof name, "%s; %s", MAP_CALL[call], KIND[kind].name);
                else if (call == IN_RUN || call == IN_ARRAYS)
                    snprintf(name, sizeof name, "%s; %s", MAP_CALL[call], SET[sets]);
                else
                    snprintf(name, sizeof name, "%s; %s; %s", MAP_CALL[call], SET[sets], KIND[kind].name);
                add(MAP, sets, kind, call, map_calls(call), name, alone);
            }
    for (int call = 0; call < OPTION_CALLS; call++)
        for (int kind = 0; kind < SIZES; kind++) {
            if (!is_packed(call, kind))
                continue;
            snprintf(name, sizeof name, is_packed(call, LONG) ? "%s; %s" : "%s", OPTION_CALL[call], KIND[kind].name);
            add(OPTION, 0, kind, call, QUESTIONS, name, alone | 1u << PLAIN);
        }
    for (int which = 0; which < OBJECTS; which++)
        for (int kind = 0; kind < SIZES; kind++)
            for (int asks = 0; asks < 2; asks++) {
                snprintf(name, sizeof name, "%s; %s; %s", asks ? "question for w of the same labels" : "new object", OBJECT[which].name, KIND[kind].name);
                add(CREATE, asks, kind, which, QUESTIONS, name, asks || before_bq_new_object ? alone : 1u << LIBRARY);
            }
    for (int t = 0; t < TEXTS; t++)
        for (int kind = 0; kind < sizes_of(t); kind++) {
            double bytes = (double)text_len[t][kind];
            if (t == FRESH)
                bytes *= (double)((total + text_len[t][kind] - 1) / text_len[t][kind]);
            snprintf(name, sizeof name, t == BLANK ? "%s" : "%s; %s", texts[t], KIND[kind].name);
            add(FEED, t, kind, 0, bytes, name, t == REFUSED || t == BLANK ? two : three);
        }
}

static void time_one(struct operation *o, int side, int round)
{
    if (!o->runs_on[side])
        return;
    unsigned want = expected(o);
    if (!o->repeat[side]) {
        /* As often as takes some 15 ms. It is a warm-up too. */
        double t = now();
        run_once(o, side, want);
        t = now() - t;
        o->repeat[side] = t > 15e6 ? 1 : (unsigned)(15e6 / t) + 1;
    }
    double t = now();
    for (unsigned i = 0; i < o->repeat[side]; i++)
        run_once(o, side, want);
    o->time[side][round] = (now() - t) / o->repeat[side] / o->scale;
}

static int by_size(const void *a, const void *b)
{
    double x = *(const double *)a, y = *(const double *)b;
    return x < y ? -1 : x > y;
}

/* The tables, and which rows and columns each has. */
enum { CALLS_PART, OPTION_PART, OBJECT_PART, TEXT_PART, PARTS };
static const char *const PART[PARTS] = {"ns per call: best (median)", "The packet option, ns per call: best (median)",
                                        "The label of a new object, ns per call: best (median)",
                                        "MB per second (10^6 bytes): best (median)"};

static int part_of(const struct operation *o)
{
    return o->what == FEED ? TEXT_PART : o->what == OPTION ? OPTION_PART : o->what == CREATE ? OBJECT_PART : CALLS_PART;
}

static bool has_column(int part, int side)
{
    return part == OPTION_PART ? packs(side) : part == OBJECT_PART ? is_library(side) && is_there(side) : side != PLAIN && is_there(side);
}

static void print_all(int rounds)
{
    for (int part = 0; part < PARTS; part++) {
        printf("\n%s\n\n", PART[part]);
        printf("| operation |");
        for (int side = 0; side < SIDES; side++)
            if (has_column(part, side))
                printf(" %s |", SIDE[side]);
        const char *word = "library ";
        for (int side = 1; side < SIDES; side++)
            if (has_column(part, side)) {
                printf(" %s/ %s |", word, RATIO[side]);
                word = "";
            }
        printf("\n|---|");
        for (int side = 0; side < SIDES; side++)
            if (has_column(part, side))
                printf(side ? "--:|--:|" : "--:|");
        printf("\n");
        for (int i = 0; i < n_ops; i++) {
            struct operation *o = &ops[i];
            if (part_of(o) != part)
                continue;
            double best[SIDES] = {0};
            printf("| %s |", o->name);
            for (int side = 0; side < SIDES; side++) {
                if (!o->runs_on[side]) {
                    if (has_column(part, side))
                        printf(" |");
                    continue;
                }
                qsort(o->time[side], (size_t)rounds, sizeof(double), by_size);
                double median = o->time[side][rounds / 2];
                best[side] = o->time[side][0];
                if (part == TEXT_PART)
                    printf(" %.0f (%.0f) |", 1e3 / best[side], 1e3 / median);
                else
                    printf(" %.1f (%.1f) |", best[side], median);
            }
            for (int side = 1; side < SIDES; side++)
                if (o->runs_on[side])
                    printf(" %.2f |", best[LIBRARY] / best[side]);
                else if (has_column(part, side))
                    printf(" |");
            printf("\n");
        }
    }
}

/* ---- the two programs */

/* Processor time of one run with the file as standard input, in ns; its output's first bytes go to `out`. */
static double run_program(char *const argv[], const char *file, char *out, size_t room, double *wall)
{
    int pipe_ends[2], status;
    struct rusage used;
    struct timespec a, b;
    size_t n = 0;
    ssize_t got;
    if (pipe(pipe_ends))
        fail("no pipe");
    clock_gettime(CLOCK_MONOTONIC, &a);
    pid_t child = fork();
    if (child == 0) {
        int in = open(file, O_RDONLY);
        dup2(in, 0);
        dup2(pipe_ends[1], 1);
        close(pipe_ends[0]);
        execv(argv[0], argv);
        _exit(127);
    }
    close(pipe_ends[1]);
    while ((got = read(pipe_ends[0], out + n, room - 1 - n)) > 0)
        n += (size_t)got;
    out[n] = 0;
    close(pipe_ends[0]);
    wait4(child, &status, 0, &used);
    clock_gettime(CLOCK_MONOTONIC, &b);
    if (status)
        fail("a program did not end well");
    *wall = (double)(b.tv_sec - a.tv_sec) * 1e9 + (double)(b.tv_nsec - a.tv_nsec);
    return ((double)used.ru_utime.tv_sec + (double)used.ru_stime.tv_sec) * 1e9 + ((double)used.ru_utime.tv_usec + (double)used.ru_stime.tv_usec) * 1e3;
}

static void programs(int rounds, const char *directory, char *ours, char *theirs)
{
    char file[4096];
    char *argv[2][3] = {{ours, NULL, NULL}, {theirs, "program", NULL}};
    if (access(ours, X_OK) || access(theirs, X_OK)) {
        printf("\nThe whole programs are left out: %s or %s is not there.\n", ours, theirs);
        return;
    }
    printf("\nThe whole programs, rule text on standard input. MB per second of processor time (of time on the clock), best\n\n");
    printf("| rule text | program | second program | program / second, processor time |\n|---|--:|--:|--:|\n");
    for (int kind = 0; kind < SIZES; kind++) {
        double best[2] = {1e30, 1e30}, best_wall[2] = {1e30, 1e30};
        char out[2][256];
        snprintf(file, sizeof file, "%s/text.%s", directory, KIND[kind].name);
        FILE *f = fopen(file, "w");
        if (!f || fwrite(text[KNOWN][kind], 1, text_len[KNOWN][kind], f) != text_len[KNOWN][kind] || fclose(f))
            fail("cannot write the rule text");
        for (int round = 0; round < rounds; round++)
            for (int p = 0; p < 2; p++) {
                double wall, t = run_program(argv[p], file, out[p], sizeof out[p], &wall);
                if (t < best[p])
                    best[p] = t;
                if (wall < best_wall[p])
                    best_wall[p] = wall;
            }
        if (strcmp(out[0], out[1]))
            fail("the two programs write different reports");
        double bytes = (double)text_len[KNOWN][kind];
        printf("| pairs of one table; %s | %.0f (%.0f) | %.0f (%.0f) | %.2f |\n", KIND[kind].name, bytes / best[0] * 1e3, bytes / best_wall[0] * 1e3,
               bytes / best[1] * 1e3, bytes / best_wall[1] * 1e3, best[0] / best[1]);
        unlink(file);
    }
}

static void profile(const char *what, int l, int kind)
{
    if (!strcmp(what, "question"))
        for (int i = 0; i < 25; i++)
            ask(LIBRARY, l, kind, asked[l][kind][BY_6], QUESTIONS);
    else if (!strcmp(what, "damage"))
        for (int i = 0; i < 25; i++)
            ask(LIBRARY, l, kind, asked[l][kind][EMPTY], QUESTIONS);
    else if (!strcmp(what, "change"))
        for (int i = 0; i < 25; i++)
            do_changes(LIBRARY, kind);
    else if (!strcmp(what, "fresh"))
        feed(LIBRARY, FRESH, kind, total);
    else if (!strcmp(what, "blank"))
        feed(LIBRARY, BLANK, 0, total);
    else
        feed(LIBRARY, KNOWN, kind, total);
}

/* ---- instructions */

/* Callgrind is told to count inside the library's calls alone. What it counted for one operation of one side is dumped as `side|unit|scale|name`. */
static void count_instructions(void)
{
#ifdef CALLGRIND_DUMP_STATS_AT
    /* Once on every side, since changes leave other modes than there were, and what is listed has to be the same for all. */
    for (int i = 0; i < n_ops; i++)
        for (int side = 0; side < SIDES; side++)
            if (ops[i].runs_on[side])
                run_once(&ops[i], side, ops[i].what == LIST ? (unsigned)do_listing(side, ops[i].kind) : expected(&ops[i]));
    CALLGRIND_START_INSTRUMENTATION;
    for (int i = 0; i < n_ops; i++)
        for (int side = 0; side <= BEFORE; side++) {
            const struct operation *o = &ops[i];
            char name[200];
            if (!o->runs_on[side])
                continue;
            snprintf(name, sizeof name, "%s|%s|%.0f|%s", SIDE[side], o->what == FEED ? "byte" : "call", o->scale, o->name);
            unsigned want = expected(o);
            CALLGRIND_ZERO_STATS;
            run_once(o, side, want);
            CALLGRIND_DUMP_STATS_AT(name);
        }
#else
    fail("built without valgrind's header");
#endif
}

int main(int argc, char **argv)
{
    bool profiling = argc > 3 && !strcmp(argv[1], "profile"), counting = argc == 2 && !strcmp(argv[1], "count");
    int rounds = argc > 2 && !profiling ? atoi(argv[1]) : 1;
    size_t megabytes = profiling ? 4 : argc > 2 ? (size_t)atoi(argv[2]) : 1;
    if ((argc < 4 && !counting) || rounds < 1 || rounds > MOST_ROUNDS)
        fail("usage: bench ROUNDS MEGABYTES DIRECTORY [PROGRAM SECOND]");
    total = counting ? 200000 : megabytes * 1000000;
    make_labels();
    make_rules();
    make_tables();
    make_questions();
    make_changes();
    for (int which = 0; which < TEXTS; which++)
        for (int kind = 0; kind < sizes_of(which); kind++)
            make_text(which, kind, which == FRESH ? 1 << 20 : total);
    make_mappings();
    make_packets();
    make_shared();
    if (profiling) {
        profile(argv[2], atoi(argv[3]), argc > 4 ? atoi(argv[4]) : 0);
        return 0;
    }
    check_questions();
    check_mappings();
    check_options();
    check_objects();
    add_all();
    if (counting) {
        count_instructions();
        return 0;
    }
    for (int round = 0; round < rounds; round++)
        for (int i = 0; i < n_ops; i++)
            for (int side = 0; side < SIDES; side++)
                time_one(&ops[i], side, round);
    print_all(rounds);
    if (argc > 5)
        programs(rounds, argv[3], argv[4], argv[5]);
    return 0;
}
