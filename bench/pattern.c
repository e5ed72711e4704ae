/* Patterns on header names (fold) and header values: `pattern_lines` against plain C of the same algorithm and against the C
 * library's regexec on a pattern that was compiled before. The C library gets its lines cut beforehand. Then the reading of patterns
 * into places that are lent once: `lines_as_patterns` on a block of one pattern many times, with the empty text, against plain C and
 * against regcomp. Contenders that count differently stop the program.
 *
 * pattern count SIDE TIMES   one row by ours (even sides) or plain C (odd ones), for counting instructions from outside */
#include <regex.h>
#include <stddef.h>
#include <stdint.h>
#include <stdio.h>
#include <stdlib.h>
#include <string.h>
#include <time.h>
#include "plain_pattern.h"

uint32_t pattern_lines(const uint8_t *pattern, size_t pattern_len, uint32_t fold, const uint8_t *block, size_t block_len, uint32_t *met);
void lines_as_patterns(const uint8_t *block, size_t block_len, uint32_t fold, const uint8_t *text, size_t text_len, uint32_t *met);

enum { MOST = 65536, COPIES = 40, READINGS = 200, ROUNDS = 25 };

static const char *const names[] = {
    "Via", "From", "To", "Call-ID", "CSeq", "Contact", "Max-Forwards", "Route", "Record-Route", "P-Asserted-Identity",
    "P-Charging-Info", "P-Access-Network-Info", "Content-Type", "Content-Length", "Supported", "User-Agent", "contact", "i", NULL};
static const char *const values[] = {
    "SIP/2.0/UDP pc33.example.com:5060;branch=z9hG4bK776asdhds;rport",
    "<sip:alice@example.com>;tag=1928301774",
    "\"Bob\" <sip:bob@desk.example.com>;expires=3600",
    "a84b4c76e66710@pc33.example.com",
    "314159 INVITE",
    "<sip:alice@192.0.2.4:5060;transport=udp>;+sip.instance=\"<urn:uuid:f81d4fae-7dec-11d0-a765-00a0c91e6bf6>\"",
    "70",
    "<sip:recorder@example.com;lr>",
    "3GPP-E-UTRAN-FDD;utran-cell-id-3gpp=2620100001",
    "application/sdp",
    "142",
    "100rel, timer, replaces",
    NULL};
static const char *const on_names[] = {"^Contact$", "P-.*-Info", "Route", "^[A-Z][a-z]*$", "^.*-.*-.*$", NULL};
static const char *const on_values[] = {"[0-9]*", "sip:.*@desk", "recorder", "^<sip:[^@]*@example\\.com", ";tag=[0-9]*$", NULL};

static char block[MOST];
static size_t length;
static char cut[MOST];
static const char *lines[MOST];
static uint32_t count;

static void stop(const char *why) {
    fprintf(stderr, "pattern: %s\n", why);
    exit(1);
}

/* The block, and for the C library the same lines, each ended by a zero. */
static void add(const char *line) {
    size_t n = strlen(line);
    if (length + n + 1 > MOST) stop("the block is too long");
    if (count) block[length] = '\n', cut[length++] = 0;
    memcpy(block + length, line, n), memcpy(cut + length, line, n);
    lines[count++] = cut + length;
    length += n, cut[length] = 0;
}

static void lay(const char *const *from) {
    length = 0, count = 0;
    for (int i = 0; i < COPIES; i++)
        for (const char *const *line = from; *line; line++) add(*line);
}

/* ---- the contenders */

static const char *pattern;
static uint32_t fold;
static regex_t compiled;

static uint32_t ours(void) {
    uint32_t met;
    if (pattern_lines((const uint8_t *)pattern, strlen(pattern), fold, (const uint8_t *)block, length, &met)) stop("no pattern");
    return met;
}

static uint32_t plain(void) {
    uint32_t met;
    if (plain_lines((const uint8_t *)pattern, strlen(pattern), fold, (const uint8_t *)block, length, &met)) stop("no pattern");
    return met;
}

static void compile(const char *from) {
    if (regcomp(&compiled, from, REG_NOSUB | (fold ? REG_ICASE : 0))) stop("regcomp refuses");
}

static uint32_t library(void) {
    uint32_t met = 0;
    for (uint32_t i = 0; i < count; i++) met += !regexec(&compiled, lines[i], 0, NULL, 0);
    return met;
}

/* The same three on a block of patterns: each line is read, and tried on the empty text. */
static uint32_t ours_reading(void) {
    uint32_t met;
    lines_as_patterns((const uint8_t *)block, length, fold, (const uint8_t *)"", 0, &met);
    return met;
}

static uint32_t plain_reading(void) {
    uint32_t met;
    plain_patterns((const uint8_t *)block, length, fold, (const uint8_t *)"", 0, &met);
    return met;
}

static uint32_t library_reading(void) {
    uint32_t met = 0;
    for (uint32_t i = 0; i < count; i++) {
        compile(lines[i]);
        met += !regexec(&compiled, "", 0, NULL, 0);
        regfree(&compiled);
    }
    return met;
}

struct contenders {
    uint32_t (*ours)(void), (*plain)(void), (*library)(void);
};
static const struct contenders matchers = {ours, plain, library}, readers = {ours_reading, plain_reading, library_reading};

/* ---- time */

static double once(uint32_t (*run)(void), uint32_t times) {
    struct timespec a, b;
    clock_gettime(CLOCK_MONOTONIC, &a);
    for (uint32_t i = 0; i < times; i++) run();
    clock_gettime(CLOCK_MONOTONIC, &b);
    return ((double)(b.tv_sec - a.tv_sec) * 1e9 + (double)(b.tv_nsec - a.tv_nsec)) / times;
}

struct times {
    double ours, plain, library;
};

/* The best of some rounds, in which the contenders take turns. */
static struct times measure(const struct contenders *of, uint32_t times) {
    struct times best = {1e18, 1e18, 1e18};
    if (of->ours() != of->plain() || of->ours() != of->library()) stop("the contenders count differently");
    for (int i = 0; i < ROUNDS; i++) {
        double o = once(of->ours, times), p = once(of->plain, times), l = once(of->library, times);
        if (o < best.ours) best.ours = o;
        if (p < best.plain) best.plain = p;
        if (l < best.library) best.library = l;
    }
    return best;
}

/* The largest ratios of all rows. */
static double most_to_plain, most_to_library;

static void row(const char *what, const char *size, struct times t, double parts) {
    if (t.ours / t.plain > most_to_plain) most_to_plain = t.ours / t.plain;
    if (t.ours / t.library > most_to_library) most_to_library = t.ours / t.library;
    printf("%-28.28s %8s %10.0f %10.0f %10.0f %8.2f %8.2f\n", what, size, t.ours / parts, t.plain / parts, t.library / parts,
        t.ours / t.plain, t.ours / t.library);
}

static void head(const char *what, const char *size, const char *third) {
    printf("\n%-28s %8s %10s %10s %10s %8s %8s\n", what, size, "ours", "plain C", third, "to C", "to it");
}

static void matching(const char *title, const char *const *texts, const char *const *patterns, uint32_t folded) {
    struct times all = {0, 0, 0};
    char met[16];
    lay(texts);
    fold = folded;
    head(title, "met", "regexec");
    for (; *patterns; patterns++) {
        pattern = *patterns;
        compile(pattern);
        snprintf(met, sizeof met, "%u/%u", ours() / COPIES, count / COPIES);
        struct times t = measure(&matchers, 4);
        regfree(&compiled);
        row(pattern, met, t, count);
        all.ours += t.ours, all.plain += t.plain, all.library += t.library;
    }
    row("all", "", all, count);
}

static void lay_readings(const char *one) {
    length = 0, count = 0;
    for (int i = 0; i < READINGS; i++) add(one);
}

static void reading(const char *const *patterns, uint32_t folded) {
    char size[16];
    fold = folded;
    for (; *patterns; patterns++) {
        lay_readings(*patterns);
        snprintf(size, sizeof size, "%u", (unsigned)strlen(*patterns));
        row(*patterns, size, measure(&readers, 8), count);
    }
}

/* ^a*a* .. $ with 60 elements, on bytes that each of them meets: every element is a candidate at every byte. */
static void growing(void) {
    static char starred[128] = "^";
    char size[16];
    struct times before = {0, 0, 0};
    for (int i = 0; i < 60; i++) memcpy(starred + 1 + 2 * i, "a*", 2);
    starred[121] = '$';
    pattern = starred, fold = 0;
    head("60 starred, ns by bytes", "bytes", "regexec");
    for (size_t n = 4096; n <= 65536; n *= 2) {
        length = n == 65536 ? 65535 : n, count = 1;
        memset(block, 'a', length), memset(cut, 'a', length), cut[length] = 0, lines[0] = cut;
        compile(pattern);
        struct times t = measure(&matchers, 1);
        regfree(&compiled);
        snprintf(size, sizeof size, "%u", (unsigned)length);
        row("", size, t, 1);
        if (before.ours > 0) printf("%-28s %8s %10.2f %10.2f %10.2f\n", "  times the half", "", t.ours / before.ours, t.plain / before.plain, t.library / before.library);
        before = t;
    }
}

/* The five patterns on names, then those on values, matched and then read. Prints the side's name; nothing, if there is no such side. */
static void count_side(uint32_t side, uint32_t times) {
    uint32_t row = side / 2, on_value = row / 5 % 2, is_reading = row / 10;
    if (row >= 20) return;
    fold = !on_value;
    pattern = (on_value ? on_values : on_names)[row % 5];
    if (is_reading) lay_readings(pattern);
    else lay(on_value ? values : names);
    const struct contenders *of = is_reading ? &readers : &matchers;
    for (uint32_t i = 0; i < times; i++) (side % 2 ? of->plain : of->ours)();
    if (side % 2) printf("  plain C\n");
    else printf("%s %s\n", is_reading ? "reading" : "matching", pattern);
}

int main(int argc, char **argv) {
    if (argc > 3 && strcmp(argv[1], "count") == 0) {
        count_side((uint32_t)strtoul(argv[2], NULL, 10), (uint32_t)strtoul(argv[3], NULL, 10));
        return 0;
    }
    matching("names, ns a line", names, on_names, 1);
    matching("values, ns a line", values, on_values, 0);
    head("reading a pattern, ns", "bytes", "regcomp");
    reading(on_names, 1);
    reading(on_values, 0);
    growing();
    printf("\nin every row at most %.2f of plain C's time and %.2f of the C library's\n", most_to_plain, most_to_library);
    return 0;
}
