/* The lookup of a kernel's Smack, as a plain C program. See kernel.c. The file is built twice: K(name) is the prefix of each build. */
#ifndef KERNEL_H
#define KERNEL_H

#include <stddef.h>

struct k_world;

/* kind: 0 granted, 1 denied, 3 refused; number: the deciding rule, or why it was refused (3 a label, 8 the request). */
struct k_answer {
    unsigned char kind, number;
};

#define KERNEL_CALLS(P)                                                                                                                  \
    struct k_world *P##_new(void);                                                                                                       \
    void P##_free(struct k_world *w);                                                                                                    \
    void P##_enter(struct k_world *w, const char *label);                                                                                \
    /* Puts a rule last in its subject's list, even where the pair has one already. */                                               \
    void P##_append(struct k_world *w, const char *subject, const char *object, unsigned access);                                        \
    /* A question: labels known by their place after one search by text, rules compared by place. */                                     \
    struct k_answer P##_question(struct k_world *w, const char *s, size_t sl, const char *o, size_t ol, const char *r, size_t rl);       \
    /* A question: the subject's list searched by the text of the object's label. */                                                     \
    struct k_answer P##_question_text(struct k_world *w, const char *s, size_t sl, const char *o, size_t ol, const char *r, size_t rl);  \
    /* Rule text in writes of under a page, each cut at its last newline; how many lines set a rule. */                                  \
    size_t P##_load(struct k_world *w, const char *text, size_t len);                                                                    \
    int P##_change(struct k_world *w, const char *text, size_t len);                                                                     \
    /* All rules as text; the length. */                                                                                                 \
    size_t P##_list(struct k_world *w, char *out);

KERNEL_CALLS(k)
KERNEL_CALLS(kb)

#endif
