/* A builder of profile images, for the samples and the tests: strings are stored once, a criterion takes the rows added before it.
 *
 *     static struct image_builder b;
 *     image_begin(&b);
 *     image_row(&b, (struct image_row){.kind = ROW_METHOD, .first = "INVITE"});
 *     image_criterion(&b, (struct image_criterion){.priority = 10, .part = PART_ABSENT, .form = FORM_CNF,
 *         .server = "sip:recorder@desk.example", .handling = HANDLING_TERMINATED});
 *     size_t length = image_end(&b, bytes, sizeof bytes);
 *
 * It does not judge what it writes: ifc_check does. */
#ifndef IMAGE_H
#define IMAGE_H
#include <stddef.h>
#include <stdint.h>
#include <string.h>

enum { ROW_URI, ROW_METHOD, ROW_HEADER, ROW_CASE, ROW_LINE };       /* kind of a row */
enum { PART_REGISTERED, PART_UNREGISTERED, PART_ABSENT };           /* profile part of a criterion */
enum { FORM_DNF, FORM_CNF, FORM_NO_TRIGGER };                       /* form of its trigger */
enum { HANDLING_CONTINUED, HANDLING_TERMINATED, HANDLING_ABSENT };  /* its default handling */
enum { INITIAL = 1, REREGISTRATION = 2, DEREGISTRATION = 4 };       /* registration set of a Method row */
enum { IMAGE_MOST = 32768 };

struct image_row {
    int negated, kind;
    const char *first;   /* URI, method, header pattern or line pattern */
    const char *content; /* pattern, or NULL for absent */
    int session_case;    /* for ROW_CASE */
    int set;             /* registration set */
    int group;
};

struct image_criterion {
    uint32_t priority;
    int part, form;
    const char *server;
    int handling;
    const char *information; /* or NULL for absent */
};

struct image_section {
    uint32_t count;
    size_t length;
    uint8_t at[IMAGE_MOST];
};

struct image_builder {
    struct image_section strings, rows, members, criteria;
    uint32_t first; /* first row of the criterion to come */
    int full;       /* something did not fit */
};

static inline void image_byte(struct image_builder *b, struct image_section *to, uint32_t v) {
    if (to->length < IMAGE_MOST) to->at[to->length++] = (uint8_t)v;
    else b->full = 1;
}

static inline void image_word(struct image_builder *b, struct image_section *to, uint32_t v) {
    image_byte(b, to, v >> 8 & 255);
    image_byte(b, to, v & 255);
}

/* The number of a string, which is stored once; 65535 for none. */
static inline uint32_t image_string(struct image_builder *b, const char *text) {
    struct image_section *s = &b->strings;
    if (!text) return 65535;
    size_t n = strlen(text), at = 0;
    for (uint32_t i = 0; i < s->count; i++) {
        size_t length = (size_t)s->at[at] << 8 | s->at[at + 1];
        if (length == n && memcmp(s->at + at + 2, text, n) == 0) return i;
        at += 2 + length;
    }
    if (n > 65535 || s->length + 2 + n > IMAGE_MOST) {
        b->full = 1;
        return 65535;
    }
    image_word(b, s, (uint32_t)n);
    memcpy(s->at + s->length, text, n);
    s->length += n;
    return s->count++;
}

static inline void image_begin(struct image_builder *b) { memset(b, 0, sizeof *b); }

static inline void image_row(struct image_builder *b, struct image_row row) {
    image_byte(b, &b->rows, (uint32_t)row.negated);
    image_byte(b, &b->rows, (uint32_t)row.kind);
    image_word(b, &b->rows, row.kind == ROW_CASE ? (uint32_t)row.session_case : image_string(b, row.first));
    image_word(b, &b->rows, image_string(b, row.content));
    image_byte(b, &b->rows, (uint32_t)row.set);
    image_word(b, &b->members, b->rows.count);
    image_word(b, &b->members, (uint32_t)row.group);
    b->members.count++;
    b->rows.count++;
}

/* The last row stands in one group more, a larger one. */
static inline void image_also(struct image_builder *b, int group) {
    image_word(b, &b->members, b->rows.count - 1);
    image_word(b, &b->members, (uint32_t)group);
    b->members.count++;
}

static inline void image_criterion(struct image_builder *b, struct image_criterion c) {
    struct image_section *to = &b->criteria;
    int none = c.form == FORM_NO_TRIGGER;
    image_word(b, to, c.priority >> 16);
    image_word(b, to, c.priority & 65535);
    image_byte(b, to, (uint32_t)c.part);
    image_byte(b, to, (uint32_t)c.form);
    image_word(b, to, none ? 0 : b->first);
    image_word(b, to, none ? 0 : b->rows.count - b->first);
    image_word(b, to, image_string(b, c.server));
    image_byte(b, to, (uint32_t)c.handling);
    image_word(b, to, image_string(b, c.information));
    to->count++;
    b->first = b->rows.count;
}

/* Writes the image; its length, or 0 if it does not fit. */
static inline size_t image_end(struct image_builder *b, uint8_t *to, size_t room) {
    struct image_section *sections[4] = {&b->strings, &b->rows, &b->members, &b->criteria};
    size_t at = 0;
    if (b->full || room < 9 + b->strings.length + b->rows.length + b->members.length + b->criteria.length) return 0;
    to[at++] = 1; /* the edition */
    for (int i = 0; i < 4; i++) {
        to[at++] = (uint8_t)(sections[i]->count >> 8);
        to[at++] = (uint8_t)sections[i]->count;
        memcpy(to + at, sections[i]->at, sections[i]->length);
        at += sections[i]->length;
    }
    return at;
}

#endif
