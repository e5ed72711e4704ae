/* Which text set off a row: change request 2 over requests written here, with what it says of each, counted by hand. */
#include <stdio.h>
#include <string.h>
#include "../examples/image.h"
#include "../include/ifc.h"

static struct image_builder b;
static uint8_t image[1024];

struct shown {
    uint32_t found, field, value, start, length;
};

/* A row that no criterion uses; the head's fields and the body. */
struct asked {
    struct image_row row;
    const char *head, *body;
    struct shown right;
};

#define HEADER(name, pattern) {.kind = ROW_HEADER, .first = name, .content = pattern}
#define LINE(type, pattern) {.kind = ROW_LINE, .first = type, .content = pattern}
#define NONE {0, 0, 0, 0, 0}
#define SDP "c: application/sdp\r\n"

static const struct asked all[] = {
    /* "the smallest start, and of those the longest length" */
    {HEADER("^X$", "a*"), "X: baa\r\n", "", {1, 0, 0, 0, 0}},
    {HEADER("^X$", "$"), "X: ab\r\n", "", {1, 0, 0, 2, 0}},
    {HEADER("^X$", "^"), "X: ab\r\n", "", {1, 0, 0, 0, 0}},
    {HEADER("^X$", "b*$"), "X: baa\r\n", "", {1, 0, 0, 3, 0}},
    {HEADER("^X$", "a*$"), "X: baa\r\n", "", {1, 0, 0, 1, 2}},
    {HEADER("^X$", "aa*"), "X: baabaaa\r\n", "", {1, 0, 0, 1, 2}},
    {HEADER("^X$", "a.*a"), "X: xabaay\r\n", "", {1, 0, 0, 1, 4}},
    {HEADER("^X$", "^$"), "X:\r\n", "", {1, 0, 0, 0, 0}},
    /* "in the value as read": the piece, trimmed, its runs of blanks one each */
    {HEADER("^X$", "joe"), "X: ann, big joe\r\n", "", {1, 0, 1, 4, 3}},
    {HEADER("^X$", "joe"), "X:\t a \t joe\r\n", "", {1, 0, 0, 2, 3}},
    {HEADER("^X$", "b"), "X: a\r\n \r\n\tb\r\n", "", {1, 0, 0, 2, 1}},
    {HEADER("^X$", "joe"), "X: \"a, joe\", joe\r\n", "", {1, 0, 0, 4, 3}},
    {HEADER("^Subject$", "joe"), "s: ann,  joe\r\n", "", {1, 0, 0, 5, 3}},
    /* "the first field and value that matched, each counted from 0": all fields count, and empty pieces */
    {HEADER("^From$", "joe"), "Via: a, b\r\nFrom: ann\r\nTo: joe\r\nf: bob, joe, joe\r\n", "", {1, 3, 1, 0, 3}},
    {HEADER("^X$", "joe"), "A:\r\nX: ,, joe ,\r\n", "", {1, 1, 2, 0, 3}},
    {HEADER("^X$", "^$"), "A:\r\nX: a,, joe\r\n", "", {1, 1, 1, 0, 0}},
    {HEADER("^X$", "joe"), "X: JOE\r\n", "", NONE},
    {HEADER("^f$", "joe"), "f: joe\r\n", "", NONE},
    /* "(or line that is a field)" */
    {LINE("^m$", "audio"), SDP, "v=0\r\nno field\r\n\r\n=\r\nm=video\r\nm=an audio\r\n", {1, 2, 0, 3, 5}},
    {LINE("^a$", "b"), SDP, "a=  b\n", {1, 0, 0, 2, 1}},
    {LINE("^m$", "audio"), "c: text/plain\r\n", "m=audio\r\n", NONE},
    /* "without Content it is value 0, start 0, length 0" */
    {HEADER("^X$", NULL), "A:\r\nX: a long value, b\r\nX:\r\n", "", {1, 1, 0, 0, 0}},
    {LINE("^m$", NULL), SDP, "v=0\r\nm=audio\r\nm=video\r\n", {1, 1, 0, 0, 0}},
    {HEADER("^X$", NULL), "A:\r\n", "", NONE},
    /* "before negation" */
    {{.negated = 1, .kind = ROW_HEADER, .first = "^X$", .content = "joe"}, "X: joe\r\n", "", {1, 0, 0, 0, 3}},
    {{.negated = 1, .kind = ROW_HEADER, .first = "^X$", .content = "eve"}, "X: joe\r\n", "", NONE},
    /* "another kind" */
    {{.kind = ROW_URI, .first = "sip:b"}, "", "", NONE},
    {{.kind = ROW_METHOD, .first = "INVITE"}, "", "", NONE},
    {{.kind = ROW_CASE, .session_case = 0}, "", "", NONE},
};

/* The image of one row and no criterion. */
static size_t one_row(struct image_row row) {
    image_begin(&b);
    image_row(&b, row);
    return image_end(&b, image, sizeof image);
}

static uint32_t show(size_t image_len, const char *method, const struct asked *a, uint32_t row, struct shown *s, uint32_t *place) {
    char request[256];
    int length = snprintf(request, sizeof request, "%s sip:b SIP/2.0\r\n%s\r\n%s", method, a->head, a->body);
    return ifc_show(image, image_len, (const uint8_t *)request, (size_t)length, row, place, &s->found, &s->field, &s->value, &s->start,
        &s->length);
}

/* Of an INVITE and of a REGISTER alike. */
static int is_wrong(const struct asked *a, const char *method) {
    struct shown s = {9, 9, 9, 9, 9};
    uint32_t place = 9, refusal = show(one_row(a->row), method, a, 0, &s, &place);
    if (!refusal && !place && !memcmp(&s, &a->right, sizeof s)) return 0;
    printf("shown: %s: refusal %u, found %u, field %u, value %u, start %u, length %u at\n%s%s\n", method, refusal, s.found, s.field,
        s.value, s.start, s.length, a->head, a->body);
    return 1;
}

/* "Refusals: 13 for a row number outside the table, after the image and request checks." Nothing is left of what was lent. */
static int is_refused_wrongly(size_t image_len, const char *method, uint32_t row, uint32_t right, uint32_t right_place) {
    static const struct shown none = NONE;
    struct shown s = {9, 9, 9, 9, 9};
    uint32_t place = 9, refusal = show(image_len, method, &all[0], row, &s, &place);
    if (refusal == right && place == right_place && !memcmp(&s, &none, sizeof s)) return 0;
    printf("shown: row %u of a %s is refused with %u at %u, not with %u at %u\n", row, method, refusal, place, right, right_place);
    return 1;
}

int main(void) {
    int wrong = 0;
    for (size_t i = 0; i < sizeof all / sizeof *all; i++) {
        wrong |= is_wrong(&all[i], "INVITE");
        wrong |= is_wrong(&all[i], "REGISTER");
    }
    size_t length = one_row(all[0].row);
    wrong |= is_refused_wrongly(length, "INVITE", 1, 13, 0);
    wrong |= is_refused_wrongly(length, "INVITE", 65536, 13, 0);
    wrong |= is_refused_wrongly(length, "INVITE", 0xFFFFFFFF, 13, 0);
    wrong |= is_refused_wrongly(length, "not readable", 0, 7, 0);
    wrong |= is_refused_wrongly(length, "not readable", 1, 7, 0);
    wrong |= is_refused_wrongly(length - 1, "not readable", 1, 2, (uint32_t)length - 1);
    if (!wrong) puts("shown: ok");
    return wrong;
}
