/* Libraries that are wrong on purpose, each by little: tests/wrong_libraries links one at a time in front of the library (ld --wrap), where the comparison has to
 * find it. Which one is said by a macro named after what it does wrong. */
#include "../../include/balqirven.h"

#include <string.h>
#include <unistd.h>

/* The call of that name as a host sees it; __real_NAME is the library's. Every other call goes to the library as it is. */
#define WRONG(answer, name, ...)            \
    answer __real_##name(__VA_ARGS__);      \
    answer __wrap_##name(__VA_ARGS__);      \
    answer __wrap_##name(__VA_ARGS__)

#define TABLES uint8_t *labels, size_t labels_len, uint8_t *entries, size_t entries_len, uint64_t *words, size_t words_len
#define TABLES_READ const uint8_t *labels, size_t labels_len, const uint8_t *entries, size_t entries_len, const uint64_t *words, size_t words_len
#define TABLES_REVOKED const uint8_t *labels, size_t labels_len, uint8_t *entries, size_t entries_len, const uint64_t *words, size_t words_len
#define LENT labels, labels_len, entries, entries_len, words, words_len
#define TEXT const uint8_t *text, size_t text_len
#define LABEL const uint8_t *label, size_t label_len
#define LOADER uint8_t *line, size_t line_len, bq_loader loader
#define ASKED const uint8_t *subject, size_t subject_len, const uint8_t *object, size_t object_len, const uint8_t *request, size_t request_len, bool capable
#define ASKING subject, subject_len, object, object_len, request, request_len, capable
#define CREATED const uint8_t *creator, size_t creator_len, const uint8_t *folder, size_t folder_len, bool folder_transmutes, bool is_folder
#define CREATING creator, creator_len, folder, folder_len, folder_transmutes, is_folder
#define RUN                                                                                                                                     \
    const uint64_t *run_labels, size_t run_labels_len, const uint64_t *run_levels, size_t run_levels_len, const uint64_t *run_set_words,        \
        size_t run_set_words_len, uint64_t level, bq_set set

/* ---- a byte of a table, or a count */
#if defined(mode_bit_in_the_last_rule)
WRONG(bq_written, bq_change, TABLES, TEXT) {
    bq_written w = __real_bq_change(LENT, text, text_len);
    if (!w.refused) entries[512 + words[1] - 1] |= 8;
    return w;
}
#elif defined(byte_that_no_label_holds)
WRONG(bq_written, bq_change, TABLES, TEXT) {
    bq_written w = __real_bq_change(LENT, text, text_len);
    if (!w.refused && words[0] < 64) labels[BQ_LABELS - 1] ^= 1;
    return w;
}
#elif defined(word_of_an_unused_mapping)
WRONG(bq_written, bq_mapping, TABLES, TEXT) {
    bq_written w = __real_bq_mapping(LENT, text, text_len);
    if (!w.refused && words[2] < 32) words[68 + words[2]] += 256;
    return w;
}
#elif defined(one_override_label_too_few)
WRONG(bq_written, bq_onlycap, TABLES, TEXT) {
    bq_written w = __real_bq_onlycap(LENT, text, text_len);
    if (!w.refused && words[3] == 8) words[3] = 7;
    return w;
}
#elif defined(new_label_stays_after_a_refusal)
WRONG(bq_written, bq_change, TABLES, TEXT) {
    bq_written w = __real_bq_change(LENT, text, text_len);
    if (w.refused && w.number == BQ_RULES_FULL && words[0] < 64) words[0]++;
    return w;
}
#elif defined(kept_line_changed_on_a_refusal)
WRONG(bq_taken, bq_piece, TABLES, LOADER, TEXT) {
    bq_taken t = __real_bq_piece(LENT, line, line_len, loader, text, text_len);
    if (t.refused && line_len > 0 && text_len > 0) line[0] = text[0];
    return t;
}

/* ---- an answer */
#elif defined(revoke_counts_one_more_of_three)
WRONG(bq_counted, bq_revoke, TABLES_REVOKED, LABEL) {
    bq_counted c = __real_bq_revoke(LENT, label, label_len);
    if (c.count == 3) c.count++;
    return c;
}
#elif defined(place_of_a_long_label)
WRONG(bq_decision, bq_question, TABLES_READ, ASKED) {
    bq_decision d = __real_bq_question(LENT, ASKING);
    if (d.place == 255) d.place = 254;
    return d;
}
#elif defined(labels_are_cut_at_23)
/* the fault of the old loader, in a question alone */
WRONG(bq_decision, bq_question, TABLES_READ, ASKED) {
    if (subject_len > 23) subject_len = 23;
    if (object_len > 23) object_len = 23;
    return __real_bq_question(LENT, ASKING);
}
#elif defined(rule_4_told_as_5)
WRONG(bq_decision, bq_question, TABLES_READ, ASKED) {
    bq_decision d = __real_bq_question(LENT, ASKING);
    if (d.kind == BQ_GRANTED && d.number == 4 && request_len == 3) d.number = 5;
    return d;
}
#elif defined(length_of_the_subject_in_16_bits)
WRONG(bq_decision, bq_question, TABLES_READ, ASKED) {
    subject_len = (uint16_t)subject_len;
    return __real_bq_question(LENT, ASKING);
}
#elif defined(same_question_again_same_answer)
WRONG(bq_decision, bq_question, TABLES_READ, ASKED) {
    static uint8_t last_subject[16], last_object[16], last_request;
    static size_t last_subject_len, last_object_len;
    static bool known, last_capable;
    static bq_decision last;
    bool small = subject_len <= 16 && object_len <= 16 && request_len == 1;
    if (small && known && last_capable == capable && last_subject_len == subject_len && last_object_len == object_len && last_request == *request &&
        memcmp(last_subject, subject, subject_len) == 0 && memcmp(last_object, object, object_len) == 0)
        return last;
    last = __real_bq_question(LENT, ASKING);
    known = small && last.kind != BQ_REFUSED;
    if (known) {
        memcpy(last_subject, subject, last_subject_len = subject_len);
        memcpy(last_object, object, last_object_len = object_len);
        last_request = *request;
        last_capable = capable;
    }
    return last;
}
#elif defined(category_184_is_not_told)
WRONG(bq_mapped, bq_by_label, TABLES_READ, LABEL) {
    bq_mapped m = __real_bq_by_label(LENT, label, label_len);
    if (m.kind == BQ_MAPPED) m.set.word[2] &= ~(uint64_t)256;
    return m;
}
#elif defined(a_file_transmutes_too)
WRONG(bq_labelled, bq_new_object, TABLES_READ, CREATED) {
    bq_labelled l = __real_bq_new_object(LENT, CREATING);
    if (l.kind == BQ_FOLDER_LABEL) l.transmutes = true;
    return l;
}
#elif defined(number_of_a_label_in_32_bits)
WRONG(bq_part, bq_label, TABLES_READ, size_t k) { return __real_bq_label(LENT, (uint32_t)k); }
#elif defined(byte_behind_the_label_that_was_read)
WRONG(bq_peer, bq_read_option, TABLES_READ, const uint8_t *option, size_t option_len) {
    bq_peer p = __real_bq_read_option(LENT, option, option_len);
    if (!p.refused) p.bytes[BQ_LONGEST_LABEL - 1] |= 1;
    return p;
}
#elif defined(bringup_counts_a_line_twice)
WRONG(bq_finished, bq_end, TABLES, LOADER) {
    bq_finished f = __real_bq_end(LENT, line, line_len, loader);
    if (!f.refused && f.report.bringup == 2) f.report.bringup = 3;
    return f;
}
#elif defined(fresh_loader_has_a_line)
WRONG(bq_loader, bq_fresh_loader, void) {
    bq_loader l = __real_bq_fresh_loader();
    l.report.lines = 1;
    return l;
}
#elif defined(run_takes_half_a_record)
/* a record whose last word is not there counts all the same, with that word taken as 0 */
WRONG(bq_lowest, bq_lowest_of, RUN) {
    uint64_t more[3 * 64] = {0};
    if (run_set_words_len % 3 == 2 && run_set_words_len < sizeof more / sizeof *more) {
        memcpy(more, run_set_words, run_set_words_len++ * sizeof *more);
        run_set_words = more;
    }
    return __real_bq_lowest_of(run_labels, run_labels_len, run_levels, run_levels_len, run_set_words, run_set_words_len, level, set);
}
#elif defined(words_at_a_multiple_of_16)
/* an answer that goes by where the memory lies */
WRONG(bq_written, bq_label_check, TABLES_READ, size_t k) {
    bq_written w = __real_bq_label_check(LENT, k);
    if ((uintptr_t)words % 16 != 0) w.refused = true;
    return w;
}

/* ---- a lent buffer */
#elif defined(zero_behind_the_listing)
WRONG(bq_length, bq_list_rule, TABLES_READ, size_t k, uint8_t *out, size_t out_len) {
    bq_length l = __real_bq_list_rule(LENT, k, out, out_len);
    if (!l.refused && l.length < out_len) out[l.length] = 0;
    return l;
}
#elif defined(text_of_a_mapping_in_lower_case)
WRONG(bq_written, bq_mapping, TABLES, TEXT) {
    bq_written w = __real_bq_mapping(LENT, text, text_len);
    if (text_len > 0 && text[0] >= 'A' && text[0] <= 'Z') ((uint8_t *)text)[0] |= 32;
    return w;
}

/* ---- what must not be touched, or not be written; no byte differs after the call */
#elif defined(change_writes_its_text_and_puts_it_back)
WRONG(bq_written, bq_change, TABLES, TEXT) {
    volatile uint8_t *first = (uint8_t *)text;
    if (text_len > 0) {
        *first ^= 1;
        *first ^= 1;
    }
    return __real_bq_change(LENT, text, text_len);
}
#elif defined(question_writes_and_puts_back)
WRONG(bq_decision, bq_question, TABLES_READ, ASKED) {
    volatile uint8_t *first = (uint8_t *)entries;
    if (entries_len > 0) {
        *first ^= 1;
        *first ^= 1;
    }
    return __real_bq_question(LENT, ASKING);
}
#elif defined(new_object_writes_a_length_and_puts_it_back)
WRONG(bq_labelled, bq_new_object, TABLES_READ, CREATED) {
    volatile uint8_t *first = (uint8_t *)labels;
    if (labels_len > 0) {
        first[0]++;
        first[0]--;
    }
    return __real_bq_new_object(LENT, CREATING);
}
#elif defined(revoke_writes_a_count_and_puts_it_back)
WRONG(bq_counted, bq_revoke, TABLES_REVOKED, LABEL) {
    volatile uint64_t *count = (uint64_t *)words;
    if (words_len > 1) {
        count[1]++;
        count[1]--;
    }
    return __real_bq_revoke(LENT, label, label_len);
}
#elif defined(look_up_reads_behind_the_label)
WRONG(bq_mapped, bq_by_label, TABLES_READ, LABEL) {
    (void)((const volatile uint8_t *)label)[label_len];
    return __real_bq_by_label(LENT, label, label_len);
}
#elif defined(look_up_reads_before_the_label)
WRONG(bq_mapped, bq_by_label, TABLES_READ, LABEL) {
    (void)((const volatile uint8_t *)label)[-1];
    return __real_bq_by_label(LENT, label, label_len);
}

/* ---- an end of the process that looks like a good one */
#elif defined(revoke_of_two_rules_ends_the_process)
WRONG(bq_counted, bq_revoke, TABLES_REVOKED, LABEL) {
    bq_counted c = __real_bq_revoke(LENT, label, label_len);
    if (c.count == 2) _exit(0);
    return c;
}
#else
#error "no wrong library of that name"
#endif
