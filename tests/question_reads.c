/* Puts questions to the static library, for tests/question_reads, which runs this under a tool that writes down every read. On standard input there are
 * records, each a call with all that is lent to it; the answer to each is a line. Before and after a call a byte of `mark` is written, so that its
 * reads can be told from the others.
 *
 * WRONG=1 and so on make it do what a wrong library would, to see that it is found. */
#define _GNU_SOURCE
#include "../include/balqirven.h"

#include <stdio.h>
#include <string.h>
#include <unistd.h>

#ifndef WRONG
#define WRONG 0
#endif

enum { QUESTION, SEARCH };
static struct {
    uint8_t call, subject_len, object_len, request_len, capable;
    uint8_t subject[256], object[256], request[8];
    uint8_t labels[BQ_LABELS], entries[BQ_ENTRIES];
    uint64_t words[BQ_WORDS];
} given;
static volatile uint8_t mark[2];
static volatile unsigned sink;

#define TABLES given.labels, BQ_LABELS, given.entries, BQ_ENTRIES, given.words, BQ_WORDS

/* ---- what a wrong library does more */

static bool same(const uint8_t *a, const uint8_t *b, size_t n) {
    for (size_t i = 0; i < n; i++)
        if (a[i] != b[i]) return false;
    return true;
}

/* The number of a label, or 64. */
static unsigned find(const uint8_t *label, size_t n) {
    unsigned k = 0;
    while (k < given.words[0] && !(given.labels[256 * k] == n && same(given.labels + 256 * k + 1, label, n))) k++;
    return k < given.words[0] ? k : 64;
}

static void wrong(bq_decision d) {
    unsigned seen = 0;
    bool searched = d.kind != BQ_REFUSED && d.number >= 5;
    if (WRONG == 1 && searched) { /* looks the subject up once more */
        seen = find(given.subject, given.subject_len);
    } else if (WRONG == 2 && searched) { /* looks the object up once more */
        seen = find(given.object, given.object_len);
    } else if (WRONG == 3 && searched) { /* seeks the pair by the text of each rule's subject */
        for (unsigned i = 0; i < given.words[1]; i++) {
            const uint8_t *held = given.labels + 256 * given.entries[i];
            seen += held[0] == given.subject_len && same(held + 1, given.subject, given.subject_len);
        }
    } else if (WRONG == 4 && d.kind == BQ_DENIED && d.number == 7) { /* seeks the pair for an unknown label too, as number 0 */
        for (unsigned i = 0; i < given.words[1]; i++) seen += (given.entries[i] | given.entries[256 + i]) == 0;
    } else if (WRONG == 5 && searched) { /* compares the two texts, whether the labels are known or not */
        seen = given.subject_len == given.object_len && same(given.subject, given.object, given.subject_len);
    } else if (WRONG == 6 && given.capable && d.kind != BQ_GRANTED) { /* looks the subject up once more for override */
        seen = find(given.subject, given.subject_len);
    } else if (WRONG == 7 && !searched) { /* looks a label up where rules 1 to 4 decide or a refusal does */
        seen = find(given.subject, given.subject_len);
    }
    sink = seen;
}

/* ---- the calls */

static bool receive(void) {
    uint8_t *at = (uint8_t *)&given;
    for (size_t have = 0; have < sizeof given;) {
        ssize_t n = read(0, at + have, sizeof given - have);
        if (n <= 0) return false;
        have += (size_t)n;
    }
    return true;
}

int main(void) {
    printf("%zu %p %p %p %p %p %p\n", sizeof given, (void *)mark, (void *)given.labels, (void *)given.entries, (void *)given.words,
           (void *)given.subject, (void *)given.object);
    while (receive()) {
        if (given.call == QUESTION) {
            mark[0] = 1;
            bq_decision d = bq_question(TABLES, given.subject, given.subject_len, given.object, given.object_len, given.request,
                                        given.request_len, given.capable);
            if (WRONG) wrong(d);
            mark[1] = 1;
            printf("%s %d\n", (const char *const[]){"granted", "denied", "override", "refused"}[d.kind & 3], d.number);
        } else {
            mark[0] = 1;
            bq_mapped m = bq_by_label(TABLES, given.subject, given.subject_len);
            mark[1] = 1;
            printf("by label %d\n", m.kind);
        }
    }
    return 0;
}
