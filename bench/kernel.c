/* What a kernel's Smack does for an access question that is handed in as text, written anew as a plain user program to be measured against.
 *
 * As there: known labels stand in 16 hash slots and are found by their text; each label has a list of the rules whose subject it is, newest
 * first; a list is walked and compared by the place of the labels. A label handed in as text is checked byte by byte and copied before it is
 * sought. Unlike there: the copy goes to the stack and not to allocated memory, nothing is locked, nothing is audited, and @ has no rule of its
 * own, so that all answers are those of the seven rules. Each of these makes this baseline quicker or leaves it as it is.
 *
 * With KERNEL_BYTEWISE the texts are compared a byte at a time, as the kernel's own strcmp does on x86-64; without, by the C library's strcmp,
 * which takes 16 or 32 bytes at a time and is the harder one to beat. */
#include "kernel.h"

#include <stdint.h>
#include <stdlib.h>
#include <string.h>

#ifdef KERNEL_BYTEWISE
#define K(name) kb_##name
static int differ(const char *a, const char *b)
{
    while (*a == *b) {
        if (!*a)
            return 0;
        a++;
        b++;
    }
    return 1;
}
#else
#define K(name) k_##name
#define differ(a, b) (strcmp(a, b) != 0)
#endif

enum { SLOTS = 16, LONGEST = 255, PAGE = 4096 };
enum { R = 32, W = 16, X = 8, A = 4, T = 2, B = 1 };

struct known {
    struct known *next_in_slot, *next;
    char *text;
    struct entry *rules;
};

struct entry {
    struct entry *next;
    struct known *subject, *object;
    unsigned access;
};

struct k_world {
    struct known *slots[SLOTS];
    struct known *first, *last;
    struct known *floor, *hat, *star;
};

/* A hash of a text, eight bytes at a time. */
static unsigned hash_of(const char *text, size_t len)
{
    uint64_t h = len, v;
    while (len >= 8) {
        memcpy(&v, text, 8);
        h = (h ^ v) * 0x9E3779B97F4A7C15u;
        h ^= h >> 29;
        text += 8;
        len -= 8;
    }
    v = 0;
    while (len) {
        len--;
        v = v << 8 | (unsigned char)text[len];
    }
    h = (h ^ v) * 0x9E3779B97F4A7C15u;
    return (unsigned)(h >> 60);
}

static struct known *find(struct k_world *w, const char *text, size_t len)
{
    struct known *k;
    for (k = w->slots[hash_of(text, len)]; k; k = k->next_in_slot)
        if (!differ(k->text, text))
            return k;
    return NULL;
}

static struct known *import(struct k_world *w, const char *text, size_t len)
{
    struct known *k = find(w, text, len);
    unsigned slot;
    if (k)
        return k;
    slot = hash_of(text, len);
    k = calloc(1, sizeof *k);
    k->text = malloc(len + 1);
    memcpy(k->text, text, len + 1);
    k->next_in_slot = w->slots[slot];
    w->slots[slot] = k;
    if (w->last)
        w->last->next = k;
    else
        w->first = k;
    w->last = k;
    return k;
}

/* The checked copy of a label: its length, or 0 where it is not well formed. */
static size_t parse_label(char *copy, const char *text, size_t len)
{
    size_t i;
    if (len == 0 || text[0] == '-')
        return 0;
    for (i = 0; i < len && i <= LONGEST; i++) {
        char c = text[i];
        if (c > '~' || c <= ' ' || c == '/' || c == '"' || c == '\\' || c == '\'')
            break;
    }
    if (i < len || i > LONGEST)
        return 0;
    memcpy(copy, text, i);
    copy[i] = 0;
    return i;
}

/* The letters of an access, or -1. */
static int parse_access(const char *text, size_t len, int allowed)
{
    int access = 0;
    size_t i;
    for (i = 0; i < len; i++) {
        int bit;
        switch (text[i]) {
        case '-':
            if (allowed == (R | W | X | A))
                return -1;
            continue;
        case 'r':
        case 'R':
            bit = R;
            break;
        case 'w':
        case 'W':
            bit = W;
            break;
        case 'x':
        case 'X':
            bit = X;
            break;
        case 'a':
        case 'A':
            bit = A;
            break;
        case 't':
        case 'T':
            bit = T;
            break;
        case 'b':
        case 'B':
            bit = B;
            break;
        default:
            return -1;
        }
        if (!(bit & allowed))
            return -1;
        access |= bit;
    }
    return access;
}

struct k_world *K(new)(void)
{
    struct k_world *w = calloc(1, sizeof *w);
    w->floor = import(w, "_", 1);
    w->hat = import(w, "^", 1);
    w->star = import(w, "*", 1);
    import(w, "?", 1);
    import(w, "@", 1);
    return w;
}

void K(free)(struct k_world *w)
{
    struct known *k = w->first;
    while (k) {
        struct known *next = k->next;
        struct entry *e = k->rules;
        while (e) {
            struct entry *after = e->next;
            free(e);
            e = after;
        }
        free(k->text);
        free(k);
        k = next;
    }
    free(w);
}

void K(enter)(struct k_world *w, const char *label)
{
    import(w, label, strlen(label));
}

void K(append)(struct k_world *w, const char *subject, const char *object, unsigned access)
{
    struct known *s = import(w, subject, strlen(subject)), *o = import(w, object, strlen(object));
    struct entry *e = calloc(1, sizeof *e), **at = &s->rules;
    while (*at)
        at = &(*at)->next;
    e->subject = s;
    e->object = o;
    e->access = access;
    *at = e;
}

static const struct k_answer BAD_LABEL = {3, 3}, BAD_REQUEST = {3, 8};

static struct k_answer answer(unsigned char kind, unsigned char number)
{
    struct k_answer a = {kind, number};
    return a;
}

struct k_answer K(question)(struct k_world *w, const char *s, size_t sl, const char *o, size_t ol, const char *r, size_t rl)
{
    char subject[LONGEST + 1], object[LONGEST + 1];
    struct known *ks, *ko;
    struct entry *e;
    int want;
    if (!(sl = parse_label(subject, s, sl)))
        return BAD_LABEL;
    ks = find(w, subject, sl);
    if (!(ol = parse_label(object, o, ol)))
        return BAD_LABEL;
    ko = find(w, object, ol);
    want = parse_access(r, rl, R | W | X | A);
    if (want <= 0)
        return BAD_REQUEST;
    if (!ks || !ko)
        return answer(1, 7);
    if (ks == w->star)
        return answer(1, 1);
    if (ks == w->hat && !(want & ~(R | X)))
        return answer(0, 2);
    if (ko == w->floor && !(want & ~(R | X)))
        return answer(0, 3);
    if (ko == w->star)
        return answer(0, 4);
    if (ks == ko)
        return answer(0, 5);
    for (e = ks->rules; e; e = e->next)
        if (e->object == ko && e->subject == ks)
            return (e->access & want) == (unsigned)want ? answer(0, 6) : answer(1, 7);
    return answer(1, 7);
}

struct k_answer K(question_text)(struct k_world *w, const char *s, size_t sl, const char *o, size_t ol, const char *r, size_t rl)
{
    char subject[LONGEST + 1], object[LONGEST + 1];
    struct known *ks;
    struct entry *e;
    int want;
    if (!(sl = parse_label(subject, s, sl)))
        return BAD_LABEL;
    if (!(ol = parse_label(object, o, ol)))
        return BAD_LABEL;
    want = parse_access(r, rl, R | W | X | A);
    if (want <= 0)
        return BAD_REQUEST;
    if (!differ(subject, "*"))
        return answer(1, 1);
    if (!differ(subject, "^") && !(want & ~(R | X)))
        return answer(0, 2);
    if (!differ(object, "_") && !(want & ~(R | X)))
        return answer(0, 3);
    if (!differ(object, "*"))
        return answer(0, 4);
    if (!differ(subject, object))
        return answer(0, 5);
    ks = find(w, subject, sl);
    if (!ks)
        return answer(1, 7);
    for (e = ks->rules; e; e = e->next)
        if (!differ(e->object->text, object))
            return (e->access & want) == (unsigned)want ? answer(0, 6) : answer(1, 7);
    return answer(1, 7);
}

/* Cuts the next field out of a line that ends with a zero; its length, 0 where none is left. */
static size_t field(char **at, char **start)
{
    char *p = *at;
    while (*p == ' ' || *p == '\t')
        p++;
    *start = p;
    while (*p && *p != ' ' && *p != '\t')
        p++;
    *at = p;
    return (size_t)(p - *start);
}

static int write_rule(struct k_world *w, char *line, int change)
{
    char subject[LONGEST + 1], object[LONGEST + 1], *f[4];
    size_t n[4], sl, ol;
    struct known *ks, *ko;
    struct entry *e;
    int i, allow, deny = 0;
    for (i = 0; i < 3 + change; i++)
        if (!(n[i] = field(&line, &f[i])))
            return -1;
    allow = parse_access(f[2], n[2], change ? R | W | X | A | T : R | W | X | A | T | B);
    if (allow < 0)
        return -1;
    if (change) {
        deny = parse_access(f[3], n[3], R | W | X | A | T);
        if (deny < 0)
            return -1;
    }
    if (!(sl = parse_label(subject, f[0], n[0])) || !(ol = parse_label(object, f[1], n[1])))
        return -1;
    ks = import(w, subject, sl);
    ko = import(w, object, ol);
    for (e = ks->rules; e; e = e->next)
        if (e->object == ko && e->subject == ks) {
            e->access = change ? (e->access | (unsigned)allow) & ~(unsigned)deny : (unsigned)allow;
            return 0;
        }
    e = malloc(sizeof *e);
    e->subject = ks;
    e->object = ko;
    e->access = (unsigned)allow & ~(unsigned)deny;
    e->next = ks->rules;
    ks->rules = e;
    return 0;
}

size_t K(load)(struct k_world *w, const char *text, size_t len)
{
    char page[PAGE];
    size_t set = 0;
    while (len) {
        size_t n = len < PAGE - 1 ? len : PAGE - 1;
        char *p, *end;
        memcpy(page, text, n);
        while (n && page[n - 1] != '\n')
            n--;
        if (!n)
            return set;
        page[n] = 0;
        text += n;
        len -= n;
        for (p = page; p < page + n; p = end + 1) {
            end = memchr(p, '\n', (size_t)(page + n - p));
            *end = 0;
            if (write_rule(w, p, 0) == 0)
                set++;
        }
    }
    return set;
}

int K(change)(struct k_world *w, const char *text, size_t len)
{
    char line[PAGE];
    memcpy(line, text, len);
    line[len] = 0;
    return write_rule(w, line, 1);
}

size_t K(list)(struct k_world *w, char *out)
{
    static const char letters[] = "rwxatb";
    char *p = out;
    struct known *k;
    struct entry *e;
    for (k = w->first; k; k = k->next)
        for (e = k->rules; e; e = e->next) {
            size_t n = strlen(e->subject->text);
            int i;
            memcpy(p, e->subject->text, n);
            p += n;
            *p++ = ' ';
            n = strlen(e->object->text);
            memcpy(p, e->object->text, n);
            p += n;
            *p++ = ' ';
            if (!e->access)
                *p++ = '-';
            for (i = 0; i < 6; i++)
                if (e->access & (32u >> i))
                    *p++ = letters[i];
            *p++ = '\n';
        }
    return (size_t)(p - out);
}
