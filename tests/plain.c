/* The plain matcher: change request 7 over pairs written here, with what it says of each, counted by hand. */
#include <stdio.h>
#include <string.h>
#include "../include/ifc.h"

struct asked {
    const char *pattern, *text;
    uint32_t found, start, length;
};

static const struct asked all[] = {
    /* "places of CR 2 included": the smallest start, and of those the longest length */
    {"a*", "baa", 1, 0, 0},
    {"aa*", "baabaaa", 1, 1, 2},
    {"a.*a", "xabaay", 1, 1, 4},
    {"a*ab", "aaab", 1, 0, 4},
    {"a*.b*", "aabb", 1, 0, 4},
    {"b*$", "baa", 1, 3, 0},
    {"a*$", "baa", 1, 1, 2},
    {"$", "ab", 1, 2, 0},
    {"^", "ab", 1, 0, 0},
    {"^$", "", 1, 0, 0},
    {"^b", "ab", 0, 0, 0},
    {"ac", "abab", 0, 0, 0},
    /* a `*` that is first, a pair, `.` */
    {"*a", "b*a", 1, 1, 2},
    {"^*a", "*a", 1, 0, 2},
    {"\\*\\.", "a*.", 1, 1, 2},
    {"x.*y", "axy", 1, 1, 2},
    {"a$b", "a$b", 1, 0, 3},
    /* lists: a first `]`, a `-` first, last and at the ends of ranges, `^` */
    {"[]a]", "x]", 1, 1, 1},
    {"[^]a]", "]ab", 1, 2, 1},
    {"[-a]", "b-", 1, 1, 1},
    {"[a-]", "b-", 1, 1, 1},
    {"[+--]", "a,", 1, 1, 1},
    {"[--/]", "0.", 1, 1, 1},
    {"[]-a]*$", "b]_a", 1, 1, 3},
    {"[^a-c]*$", "abcde", 1, 3, 2},
    {"[*]", "a*", 1, 1, 1},
    {"[\\]", "a\\", 1, 1, 1},
    /* "edition 1": none of these bytes means more than itself; and letters are tried as written */
    {"a|b", "b a|b", 1, 2, 3},
    {"(a)", "a(a)", 1, 1, 3},
    {"a{2}", "aa{2}", 1, 1, 4},
    {"a+", "aa+", 1, 1, 2},
    {"joe", "JOE joe", 1, 4, 3},
};

static int is_wrong(const uint8_t *pattern, size_t pattern_len, const uint8_t *text, size_t text_len, uint32_t right, uint32_t found,
    uint32_t start, uint32_t length) {
    uint32_t n[3] = {9, 9, 9}, refusal = ifc_plain(pattern, pattern_len, text, text_len, &n[0], &n[1], &n[2]);
    if (refusal == right && n[0] == found && n[1] == start && n[2] == length) return 0;
    printf("plain: a pattern of %lu bytes on a text of %lu: refusal %u, found %u, start %u, length %u\n", (unsigned long)pattern_len,
        (unsigned long)text_len, refusal, n[0], n[1], n[2]);
    return 1;
}

int main(void) {
    static uint8_t text[70000], list[3000];
    int wrong = 0;
    for (size_t i = 0; i < sizeof all / sizeof *all; i++) {
        const struct asked *a = &all[i];
        int bad = is_wrong((const uint8_t *)a->pattern, strlen(a->pattern), (const uint8_t *)a->text, strlen(a->text), 0, a->found,
            a->start, a->length);
        if (bad) printf("%s on %s\n", a->pattern, a->text);
        wrong |= bad;
    }
    memset(text, 'a', sizeof text);
    /* "5, then 17"; NULL where there is no byte */
    wrong |= is_wrong(NULL, 0, NULL, 0, 5, 0, 0, 0);
    wrong |= is_wrong(NULL, 0, text, sizeof text, 5, 0, 0, 0);
    wrong |= is_wrong((const uint8_t *)"a**", 3, text, 257, 5, 0, 0, 0);
    wrong |= is_wrong((const uint8_t *)"a*", 2, text, 257, 17, 0, 0, 0);
    wrong |= is_wrong((const uint8_t *)"a*", 2, text, sizeof text, 17, 0, 0, 0);
    wrong |= is_wrong((const uint8_t *)"a*", 2, NULL, 0, 0, 1, 0, 0);
    wrong |= is_wrong((const uint8_t *)"a*", 2, text, 255, 0, 1, 0, 255);
    wrong |= is_wrong((const uint8_t *)"a*", 2, text, 256, 0, 1, 0, 256);
    wrong |= is_wrong((const uint8_t *)"$", 1, text, 256, 0, 1, 256, 0);
    /* byte 0, which neither `.` nor a `^` list meets; and a byte above 127 */
    wrong |= is_wrong((const uint8_t *)".", 1, (const uint8_t *)"\0\377", 2, 0, 1, 1, 1);
    wrong |= is_wrong((const uint8_t *)"[^a]", 4, (const uint8_t *)"\0a", 2, 0, 0, 0, 0);
    wrong |= is_wrong((const uint8_t *)"\0", 1, (const uint8_t *)"a\0", 2, 0, 1, 1, 1);
    /* longer than a string of an image may be */
    memset(list, 'b', sizeof list), list[0] = '[', list[sizeof list - 2] = 'a', list[sizeof list - 1] = ']';
    wrong |= is_wrong(list, sizeof list, text, 1, 0, 1, 0, 1);
    wrong |= is_wrong(list, sizeof list - 1, text, 1, 5, 0, 0, 0);
    if (!wrong) puts("plain: ok");
    return wrong;
}
