/* Balqirven: Smack labels, access rules and CIPSO mappings in memory that the host lends.
 *
 * Link libbalqirven.a (./build makes target/staticlib/libbalqirven.a; ./install PREFIX puts it, a shared library and this header under PREFIX).
 * x86-64 only, from level v2 on (SSE4.2 and POPCNT). The archive holds no version of its own: build it and take this header from one commit.
 *
 * What is lent. The tables stand in three parts of fixed size, the line of rule text under way in a fourth. A part goes to a call as a pointer
 * and a length in elements. A part of another size is no error of the host's: the call answers refusal 0 and changes nothing. Three things
 * are the host's duty, since no callee can test them:
 *   - a pointer is not NULL, also where its length is 0, and that many elements can be read there (and written, where the call takes it
 *     without const); a pointer to 64-bit words or to records is a multiple of 8;
 *   - parts and buffers that one call gets do not overlap, unless it gets both with const: so nothing is turned in place;
 *   - nobody else writes a part during a call.
 * No call keeps a pointer. No call allocates, prints, or waits.
 *
 * What comes back. Each answer is a struct. Where `refused` is true, or `kind` says so, `number` is one of the refusal numbers below, and
 * the tables, the line, the loader and every lent buffer are as they were. Otherwise `number` is 0, but for a question, where it is the
 * rule's number. What a field of an answer does not speak of is 0. Each call lists its refusals in the order in which they are judged: the
 * first that holds is given.
 *
 * Where the bad byte is. bq_written, bq_counted, bq_mapped, bq_decision and bq_report have a `place`: beside 3, where the first bad byte of the first
 * bad label stands, as an index from 0. In a line or a write of fields it counts from the first byte of that line or write, blanks too; where the
 * label itself is lent, from the label's first byte; in a question it is in the subject or, where that is well formed, in the object, and which of the
 * two it is the answer does not say. At the place stands a byte that no label may have; or a dash that the label begins with; or, in a label that is
 * too long and has no earlier fault, its byte 255, the first too many. An empty label has place 0. So beside 3 the place 0 is the first byte, or
 * where it would be; beside every other number, and where nothing is refused, `place` is 0 and says nothing. bq_length, bq_peer and bq_labelled have no
 * place: the two calls of old records, the two of the packet option and the label of a new object tell none.
 *
 *    0  BQ_DAMAGED                the lent state has a part not of its full size, a count over its limit (or `kept` of the loader), a number
 *                                 that names no stored label, or an unknown mode or category bit. It comes before every other number. The mode bit
 *                                 that stored b before version 5 is unknown now: where a state of then has it in a rule, make a fresh
 *                                 table and load its rule text again, in which a b is a placeholder
 *    1  BQ_TOO_LONG               a line or a write has over 600 bytes, a mapping write over 1,000
 *    2  BQ_WRONG_FIELDS           wrong number of fields: not 3 (line), not 4 (change), under 2 (mapping), none (override list)
 *    3  BQ_BAD_LABEL              a label is not well formed; a packet option at level 250 does not make one
 *    4  BQ_BAD_ACCESS             an access field has a byte that is not allowed there; an access byte of an old record is neither a dash nor
 *                                 the letter of its place
 *    5  BQ_SAME_LABELS            subject equals object
 *    6  BQ_LABELS_FULL            more new labels than free label places
 *    7  BQ_RULES_FULL             256 rules are stored, and the pair has none
 *    8  BQ_BAD_REQUEST            the request is empty or has another byte than r w x a, either case
 *    9  BQ_BAD_LEVEL_OR_CATEGORY  a level is not 0 to 255 or a category not 1 to 184; in a write each is 1 to 3 digits; a mapping write is at
 *                                 level 250; a set that is sought has a bit that is no category
 *   10  BQ_MAPPINGS_FULL          32 mappings are stored, and the label has none
 *   11  BQ_TOO_MANY_OVERRIDES     over 8 different labels in an override list
 *   12  BQ_OUTPUT_TOO_SHORT       the lent output is too short
 *   13  BQ_NO_SUCH_NUMBER         no rule or label of that number
 *   14  BQ_BAD_RECORD             an old record has not 53 bytes, or a label place in it is all spaces, has another byte after a space or
 *                                 does not end in a space
 *   15  BQ_NOT_IN_A_RECORD        a line has a label over 23 bytes, which no old record can hold
 *   16  BQ_BAD_OPTION             a packet option has another layout than the one that is told at the two calls of it
 *   17  BQ_OTHER_DOI              a packet option has another DOI than 3
 *   18  BQ_BAD_OPTION_CATEGORY    a packet option has category 0 or one above 184
 *   19  BQ_NOT_IN_AN_OPTION       a label has no mapping and over 23 bytes, which no packet option can hold
 *   21  BQ_NO_SUCH_MAPPING        no label is mapped to the level and the categories of a packet option
 *
 * Text is bytes with a length and no closing zero. A label has 1 to 255 bytes, each from 33 to 126, none of / \ ' ", and does not begin
 * with a dash.
 */
#ifndef BALQIRVEN_H
#define BALQIRVEN_H

#include <stdbool.h>
#include <stddef.h>
#include <stdint.h>

#ifdef __cplusplus
extern "C" {
#endif

/* The version of this interface. MINOR is raised where something is added (a call, a name, a refusal number) and an older host need not
 * change; MAJOR, with MINOR at 0 again, where a struct, a size, a parameter or what a call answers changes, so that each host has to be
 * looked at and compiled again. (Since version 4 a mapping write at level 250 gets 9. Since version 5 the bring-up letter b is retired: a line may still
 * have it and the report counts such lines, but no rule, listing or answer has it. Since 5.1 there is bq_new_object.) */
#define BQ_VERSION_MAJOR 5
#define BQ_VERSION_MINOR 1

/* The sizes of the lent parts, in elements: bytes, bytes, 64-bit words, bytes. (Version 2 had 36 words: such a state gets 0 now.) */
#define BQ_LABELS 16384
#define BQ_ENTRIES 840
#define BQ_WORDS 100
#define BQ_LINE 600

/* The most bytes of a label; and of a rule as bq_list_rule writes it: two labels, two spaces, five letters and a newline, 518. */
#define BQ_LONGEST_LABEL 255
#define BQ_LONGEST_RULE (2 * BQ_LONGEST_LABEL + 2 + 5 + 1)

/* An old record, the fixed load form: two places of 24 bytes, each a label of 1 to 23 bytes at the left and spaces behind it, and five access
 * bytes. The most bytes of a line that is made of one: two labels, two spaces, five letters and a newline, 54. */
#define BQ_FIXED_RECORD 53
#define BQ_FIXED_PLACE 24
#define BQ_FIXED_LABEL 23
#define BQ_LONGEST_FIXED_LINE (2 * BQ_FIXED_LABEL + 2 + 5 + 1)

/* The most bytes of a mapping write: room for every category, the longest label and more. The other writes and a line have at most BQ_LINE. */
#define BQ_LONGEST_MAPPING 1000

/* A set of categories, 1 to 184: category n is in the set where bit BQ_CATEGORY_BIT(n) of word[BQ_CATEGORY_WORD(n)] is 1. Category 1 is the
 * top bit of the first word, 64 its lowest, 65 the top bit of the second, 129 that of the third, 184 its bit 0x100. The eight bits below that,
 * 0x01 to 0x80, are no categories: a set that is sought with one of them is refused with 9, a stored one is damage, 0, and a record of a run
 * with one matches no set. So the bytes of the three words, each word's highest first (not as they lie in memory), are 23 that hold category 1
 * first and highest, and one that is 0. The two macros are for n from 1 to 184 alone, and do not look; for instance
 *
 *     bq_set set = {{0, 0, 0}};
 *     if (n >= 1 && n <= BQ_HIGHEST_CATEGORY) set.word[BQ_CATEGORY_WORD(n)] |= BQ_CATEGORY_BIT(n);
 */
#define BQ_HIGHEST_CATEGORY 184
#define BQ_CATEGORY_WORD(n) (((n) - 1) / 64)
#define BQ_CATEGORY_BIT(n) ((uint64_t)1 << (63 - ((n) - 1) % 64))
typedef struct {
    uint64_t word[3];
} bq_set;

/* The packet option. A label without a mapping goes at a level of its own, which no mapping write takes, and has at most 23 bytes. The most bytes of an
 * option: as bq_write_option writes it, ten and a bitmap of 24, which has room for category 184; and as bq_read_option takes it, ten and a bitmap
 * of 30. */
#define BQ_OWN_LEVEL 250
#define BQ_LONGEST_OWN_LABEL 23
#define BQ_LONGEST_OPTION 34
#define BQ_LONGEST_OPTION_READ 40

/* The refusal numbers, as they are told above: `number` of an answer that is refused, and `reason` of a report in which a line was. */
enum bq_refusal {
    BQ_DAMAGED = 0,
    BQ_TOO_LONG = 1,
    BQ_WRONG_FIELDS = 2,
    BQ_BAD_LABEL = 3,
    BQ_BAD_ACCESS = 4,
    BQ_SAME_LABELS = 5,
    BQ_LABELS_FULL = 6,
    BQ_RULES_FULL = 7,
    BQ_BAD_REQUEST = 8,
    BQ_BAD_LEVEL_OR_CATEGORY = 9,
    BQ_MAPPINGS_FULL = 10,
    BQ_TOO_MANY_OVERRIDES = 11,
    BQ_OUTPUT_TOO_SHORT = 12,
    BQ_NO_SUCH_NUMBER = 13,
    BQ_BAD_RECORD = 14,
    BQ_NOT_IN_A_RECORD = 15,
    BQ_BAD_OPTION = 16,
    BQ_OTHER_DOI = 17,
    BQ_BAD_OPTION_CATEGORY = 18,
    BQ_NOT_IN_AN_OPTION = 19,
    BQ_NO_SUCH_MAPPING = 21
};

/* The report: lines read, accepted, skipped and refused; the number (from 1) and the reason of the first refused line, 0 and 0 where
 * none is. Each is the true number or 4294967295, whichever is smaller. `place` belongs to that first refused line: where its reason is 3, the
 * place of its first bad byte, from 0, in the line, however the text was cut; 0 for any other reason, and where no line is refused. `bringup` is how
 * many of the accepted lines held b or B in their access field, the retired bring-up letter, which was dropped there; each line counts once, and the
 * number is limited as the others are. */
typedef struct {
    uint32_t lines, accepted, skipped, refused, first;
    uint8_t reason;
    size_t place;
    uint32_t bringup;
} bq_report;

/* The loader between two calls: how many bytes of the line under way are kept (601: it has over 600), and the report so far. */
typedef struct {
    size_t kept;
    bq_report report;
} bq_loader;

/* A record of a run: a label number, a level and a set, of any content. */
typedef struct {
    uint64_t label, level;
    bq_set set;
} bq_record;

/* What a write answers. */
typedef struct {
    bool refused;
    uint8_t number;
    size_t place;
} bq_written;

/* What revoke answers: how many rules have that subject. */
typedef struct {
    bool refused;
    uint8_t number;
    size_t count;
    size_t place;
} bq_counted;

/* What a piece answers: the loader for the next call. On a refusal it is the one that was handed in. */
typedef struct {
    bool refused;
    uint8_t number;
    bq_loader loader;
} bq_taken;

/* What the end call answers: the report (zeros on a refusal), and the loader for the next call: a fresh one, or on a refusal the one that
 * was handed in. */
typedef struct {
    bool refused;
    uint8_t number;
    bq_report report;
    bq_loader loader;
} bq_finished;

/* What a call that writes a text to a lent output answers: how many bytes it wrote at its front. The rest of the output stays as it was, and on a
 * refusal all of it. */
typedef struct {
    bool refused;
    uint8_t number;
    size_t length;
} bq_length;

/* What a look-up by label answers. */
enum { BQ_MAPPED = 0, BQ_UNMAPPED = 1, BQ_LOOKUP_REFUSED = 2 };
typedef struct {
    uint8_t kind;
    uint8_t number;
    uint8_t level;
    uint32_t count; /* how many categories are in the set */
    bq_set set;
    size_t place;
} bq_mapped;

/* What a look-up by level and set answers. */
enum { BQ_LABEL = 0, BQ_NO_LABEL = 1, BQ_SEARCH_REFUSED = 2 };
typedef struct {
    uint8_t kind;
    uint8_t number;
    size_t label;
} bq_lowest;

/* What a question answers: granted, with the rule's number, 2 to 6; denied, with 1 or 7; granted by override, with the rule that would have
 * denied; refused, with its number. */
enum { BQ_GRANTED = 0, BQ_DENIED = 1, BQ_OVERRIDE = 2, BQ_REFUSED = 3 };
typedef struct {
    uint8_t kind;
    uint8_t number;
    size_t place;
} bq_decision;

/* Which label a new object gets: the creator's; none, since the creator may not write to the folder; the folder's, and then whether the new object
 * transmutes; refused, with its number. Denied and refused are the same kinds as in a question's answer, 1 and 3; but beside denied no rule is named, and
 * `number` is 0. `transmutes` is false beside every kind but the folder's label. */
enum { BQ_CREATOR_LABEL = 0, BQ_CREATION_DENIED = 1, BQ_FOLDER_LABEL = 2, BQ_CREATION_REFUSED = 3 };
typedef struct {
    uint8_t kind;
    uint8_t number;
    bool transmutes;
} bq_labelled;

/* Where a label stands in the lent label store: `length` bytes from labels + start on. */
typedef struct {
    bool refused;
    uint8_t number;
    size_t start;
    size_t length;
} bq_part;

/* What the reader of a packet option answers: the label's length and its bytes, by value, since the label need not be a stored one. The bytes behind
 * the label are 0; on a refusal the length and all bytes are. */
typedef struct {
    bool refused;
    uint8_t number;
    size_t length;
    uint8_t bytes[BQ_LONGEST_LABEL];
} bq_peer;

/* ---- a fresh table and a fresh loader */

/* Makes a fresh table, the labels _ ^ * ? @ alone, of three parts with any contents. Bytes that no entry holds stay as they were.
 * Refusals: 0, only for a part not of its full size. */
bq_written bq_fresh_table(uint8_t *labels, size_t labels_len, const uint8_t *entries, size_t entries_len, uint64_t *words, size_t words_len);

/* A fresh loader: no byte kept, a report of zeros. */
bq_loader bq_fresh_loader(void);

/* ---- rule text */

/* Takes a piece of rule text, cut anywhere, of any length. Each line (subject, object, access) is judged at its newline, whole, against
 * the tables as they then are. Access is letters of r w x a t, either case, and placeholders, which stand for no letter: the dash, and b or B, which
 * old files may have (the report counts such lines in `bringup`). A line of at most 600 blanks and no other byte is skipped. A refused line does
 * nothing but enter the report; the piece is done all the same.
 * Refusals: 0, also for a line part that is not 600 bytes and for `kept` over 601. */
bq_taken bq_piece(uint8_t *labels, size_t labels_len, uint8_t *entries, size_t entries_len, uint64_t *words, size_t words_len,
                  uint8_t *line, size_t line_len, bq_loader loader, const uint8_t *text, size_t text_len);

/* Ends the text: bytes after the last newline are one more line. Answers the report; the loader that comes back is fresh, the tables stay.
 * Refusals: as bq_piece. */
bq_finished bq_end(uint8_t *labels, size_t labels_len, uint8_t *entries, size_t entries_len, uint64_t *words, size_t words_len,
                   uint8_t *line, size_t line_len, bq_loader loader);

/* ---- single writes: each is a whole buffer of at most 600 bytes, a mapping of at most 1,000; all but revoke's are fields with one or more
 * blanks (space, tab) between */

/* Change: subject, object, modes to allow, modes to deny. The pair's new modes are (old or allow) without deny; a pair with no rule starts
 * from none and goes last. Letters are r w x a t and the dash, either case; b is refused with 4.
 * Refusals: 0 1 2 3 4 5 6 7. */
bq_written bq_change(uint8_t *labels, size_t labels_len, uint8_t *entries, size_t entries_len, uint64_t *words, size_t words_len,
                     const uint8_t *text, size_t text_len);

/* Revoke: the whole buffer is one label, with no blanks. Every rule with this subject gets no modes and keeps its place; the count of these
 * rules is answered, 0 for an unknown label. Refusals: 0 1 3. */
bq_counted bq_revoke(const uint8_t *labels, size_t labels_len, uint8_t *entries, size_t entries_len, const uint64_t *words,
                     size_t words_len, const uint8_t *label, size_t label_len);

/* Override list (onlycap): 1 to 8 different labels that replace the list, or a lone dash that clears it. Refusals: 0 1 2 3 11 6. */
bq_written bq_onlycap(uint8_t *labels, size_t labels_len, uint8_t *entries, size_t entries_len, uint64_t *words, size_t words_len,
                      const uint8_t *text, size_t text_len);

/* Mapping (CIPSO): label, level, then no or more categories, 1 to 184, in any order, repeats allowed. Level BQ_OWN_LEVEL, 250, is refused with 9: in a
 * packet option it is for labels without a mapping. Refusals: 0 1 2 3 9 6 10. */
bq_written bq_mapping(uint8_t *labels, size_t labels_len, uint8_t *entries, size_t entries_len, uint64_t *words, size_t words_len,
                      const uint8_t *text, size_t text_len);

/* ---- look-ups of mappings */

/* The mapping of a label. Refusals: 0 3. */
bq_mapped bq_by_label(const uint8_t *labels, size_t labels_len, const uint8_t *entries, size_t entries_len, const uint64_t *words,
                      size_t words_len, const uint8_t *label, size_t label_len);

/* The lowest-numbered label whose mapping has this level and this set, all three words. Refusals: 0; 9 for a level over 255 or a bit in the set
 * that is no category. */
bq_lowest bq_by_level(const uint8_t *labels, size_t labels_len, const uint8_t *entries, size_t entries_len, const uint64_t *words,
                      size_t words_len, uint64_t level, bq_set set);

/* The lowest label number of a run's records whose level and set are these. A run has any length and content and is no part of the state.
 * Refusals: 9, as bq_by_level. */
bq_lowest bq_lowest_in_run(const bq_record *records, size_t records_len, uint64_t level, bq_set set);

/* The same with each field of the records in an array of its own, a set as its three words one after another; there are as many records as the
 * shortest of the three has room for. Refusals: 9, as bq_by_level. */
bq_lowest bq_lowest_of(const uint64_t *run_labels, size_t run_labels_len, const uint64_t *run_levels, size_t run_levels_len,
                       const uint64_t *run_set_words, size_t run_set_words_len, uint64_t level, bq_set set);

/* ---- questions */

/* May subject have the access that request asks for, one or more of r w x a, either case, to object? `capable`: the asker has the override
 * capability. Nothing changes. Refusals: 0 3 8. */
bq_decision bq_question(const uint8_t *labels, size_t labels_len, const uint8_t *entries, size_t entries_len, const uint64_t *words,
                        size_t words_len, const uint8_t *subject, size_t subject_len, const uint8_t *object, size_t object_len,
                        const uint8_t *request, size_t request_len, bool capable);

/* ---- the label of a new object */

/* Which label does a new object get that a process with the label `creator` makes in a folder with the label `folder`? Then come, in this order, whether
 * the folder transmutes (SMACK64TRANSMUTE) and whether the new object is a folder itself. Denied exactly where a question of the creator for w alone to the
 * folder, without the capability, is denied: the capability and the override list are not considered. (Where override lets the creator write all the same, as
 * bq_question says, this call names no label: which one the object then gets is the host's affair.) The folder's label exactly where the folder transmutes
 * and rule 6 grants that w by a rule that has t; then the new object transmutes where it is a folder. Otherwise the creator's label, and the new object does
 * not transmute: so where creator and folder have one label (rule 5), and in a folder `*` (rule 4), whatever rules there are; but a creator `*` is denied
 * everywhere (rule 1). The answer names one of the two lent labels, and the host has its bytes. Labels that are not stored are judged like any other, and have no
 * rules. Nothing changes, and neither label enters the table; which attributes a file gets is the host's affair.
 * Refusals: 0; 3 for either label: bq_question for w with the same two labels is refused alike, and tells the place. */
bq_labelled bq_new_object(const uint8_t *labels, size_t labels_len, const uint8_t *entries, size_t entries_len, const uint64_t *words,
                          size_t words_len, const uint8_t *creator, size_t creator_len, const uint8_t *folder, size_t folder_len,
                          bool folder_transmutes, bool is_folder);

/* ---- listing */

/* Rule k, from 0, as a line: subject, space, object, space, modes or a dash, newline. It goes to the front of `out`; the rest of `out`
 * stays. BQ_LONGEST_RULE bytes are enough for any rule. The number after the last rule's is refused with 13. Refusals: 0 13 12. */
bq_length bq_list_rule(const uint8_t *labels, size_t labels_len, const uint8_t *entries, size_t entries_len, const uint64_t *words,
                       size_t words_len, size_t k, uint8_t *out, size_t out_len);

/* Label k, from 0: the very part of the lent label store that holds it, or start 0 and length 0 on a refusal. A label never leaves its
 * place. bq_label_check answers the same refusals alone. Refusals: 0 13. */
bq_part bq_label(const uint8_t *labels, size_t labels_len, const uint8_t *entries, size_t entries_len, const uint64_t *words,
                 size_t words_len, size_t k);
bq_written bq_label_check(const uint8_t *labels, size_t labels_len, const uint8_t *entries, size_t entries_len, const uint64_t *words,
                          size_t words_len, size_t k);

/* ---- old records, which are bytes (a bq_record is something else, of a run). Nothing is lent but the two buffers, so 0 is never given */

/* An old record as a rule line in the listing's form, with its newline, at the front of `out`; BQ_LONGEST_FIXED_LINE bytes are enough for any. The
 * five access bytes are r w x a t in this order, each the letter of its place in either case or a dash. Both label places are judged before
 * either label. The line, turned back by bq_line_to_record, is the same record but for its access letters, now in lower case; labels keep every
 * byte. Refusals: 14 3 4 5 12. */
bq_length bq_record_to_line(const uint8_t *record, size_t record_len, uint8_t *out, size_t out_len);

/* A rule line, with or without one closing newline, as an old record at the front of `out`: BQ_FIXED_RECORD bytes. That newline does not count among
 * the 600 bytes; any other is a byte of its field, or a field of its own behind a blank. A line without fields is refused with 2. A label is never
 * cut: one over 23 bytes is refused with 15. A b, in either case, is dropped. The record, turned back by bq_record_to_line, is the listing's form of the line.
 * Refusals: 1 2 3 4 5 15 12. */
bq_length bq_line_to_record(const uint8_t *line, size_t line_len, uint8_t *out, size_t out_len);

/* ---- the packet option, which says a packet's label: the CIPSO option (FIPS 188) with one tag, of type 1. Its bytes, from 0:
 *
 *    0         134
 *    1         the total length: 10 and the bytes of the bitmap
 *    2 to 5    the DOI, high byte first: 0 0 0 3
 *    6         1
 *    7         the tag's length: the total less 6
 *    8         0
 *    9         the level
 *   10 and on  the bitmap: category n is the bit 0x80 >> n % 8 of bitmap byte n / 8. So the first bit would be category 0, which there is not
 *
 * The options of a packet are filled up to a multiple of four bytes. That padding is no part of the option: the host puts it behind what was
 * written, and takes it off, by the total length, before the option is read. Neither call changes the tables, and a label that was read is not
 * stored. Neither tells a place beside 3. */

/* The option of a label, at the front of `out`; the rest of `out` stays. It has at least 10 bytes, and BQ_LONGEST_OPTION are enough for any. A label
 * with a mapping, as bq_by_label finds it, goes at the mapping's level with the mapping's categories, however long it is. Any other label, stored or
 * not, goes at level BQ_OWN_LEVEL as its own bits, and has at most BQ_LONGEST_OWN_LABEL bytes; a longer one is refused with 19 and never cut. Bit j
 * of its byte i, both from 0 and j from the top, is category 8 * i + j + 1. Zero bytes at the end of a bitmap are not written: where there is no
 * category, there is no bitmap. The label A, unmapped, is 134 12 0 0 0 3 1 6 0 250 32 128. Refusals: 0 3 19 12. */
bq_length bq_write_option(const uint8_t *labels, size_t labels_len, const uint8_t *entries, size_t entries_len, const uint64_t *words,
                          size_t words_len, const uint8_t *label, size_t label_len, uint8_t *out, size_t out_len);

/* The label that an option says. `option` is the one option and nothing else: byte 1 is option_len, 10 to BQ_LONGEST_OPTION_READ. Any other layout is
 * refused with 16, padding left on and a second tag too; another DOI with 17; category 0 or one above 184 with 18. Zero bytes at the end of the bitmap
 * are taken. At level BQ_OWN_LEVEL the label is made of the categories as its own bits, and zero bytes at its end are dropped; whether it is stored is
 * not looked at. At any other level it is the label that bq_by_level finds for this level and these categories: the lowest-numbered. So with one table,
 * grown from a fresh one, reading what was written gives the label back, unless a lower-numbered label has the same mapping. An option at level 250
 * is read alike with any table, one at another level by the mappings of the table that it is read with. (A mapping at level 250, which only a lent
 * state can hold that was not grown so, is written as any other, and read as a label's own bits.)
 * Refusals: 0 16 17 18, then 3 at level 250, 21 at any other. */
bq_peer bq_read_option(const uint8_t *labels, size_t labels_len, const uint8_t *entries, size_t entries_len, const uint64_t *words,
                       size_t words_len, const uint8_t *option, size_t option_len);

#ifdef __cplusplus
}
#endif

#endif
