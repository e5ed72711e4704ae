/* The algorithm of crates/pattern and crates/machine as one would write it in C: a position of a 64-bit mask for each element, its set
 * of bytes and the mask of what may come right before it; a scan from the end of the text that looks at candidate positions only.
 * Nothing is proved. In a header, so that both users compile it into their own code. */
#ifndef PLAIN_MACHINE_H
#define PLAIN_MACHINE_H
#include <stddef.h>
#include <stdint.h>

enum { POSITIONS = 60 };

struct machine {
    uint64_t start, inner;             /* positions that may begin a part: at the text's start, elsewhere */
    uint64_t ends, stops;              /* that may end one: at the text's end, elsewhere */
    int whole, head, tail, middle;     /* whether the empty part fits: as the whole text, at its start, at its end, between */
    uint64_t sets[POSITIONS][4];       /* the bytes that a position meets */
    uint64_t before[POSITIONS];        /* the positions that may stand right before it */
};

/* ---- reading */

static inline int peek(const uint8_t *s, size_t n, size_t i) { return i < n ? s[i] : 256; }

static inline void add_byte(uint64_t *set, int b) { set[b / 64] |= (uint64_t)1 << (b % 64); }

/* Of the 64 bytes from `from` on, those from lo to hi. */
static inline uint64_t span(int from, int lo, int hi) {
    if (hi < from || from + 63 < lo) return 0;
    uint64_t all = ~(uint64_t)0, not_below = lo <= from ? all : all << (lo - from);
    return from + 63 <= hi ? not_below : not_below & all >> (from + 63 - hi);
}

static inline void add_range(uint64_t *set, int lo, int hi) {
    for (int w = 0; w < 4; w++) set[w] |= span(64 * w, lo, hi);
}

/* All other bytes; `.` and a `^` list never meet byte 0. */
static inline void others(uint64_t *set) {
    set[0] |= 1;
    for (int w = 0; w < 4; w++) set[w] = ~set[w];
}

static inline void fold_letters(uint64_t *set) {
    uint64_t letters = (set[1] >> 1 | set[1] >> 33) & 0x3FFFFFF;
    set[1] |= letters << 1 | letters << 33;
}

static inline int opens_class(int b, int next) { return b == '[' && (next == '.' || next == '=' || next == ':'); }

/* The list from behind its `[`: where it ends, 0 if refused. Without a set it is only judged. */
static size_t list_at(const uint8_t *s, size_t n, size_t i, uint64_t *set) {
    int negated = peek(s, n, i) == '^';
    if (negated) i++;
    for (int first = 1; i < n; first = 0) {
        int lo = s[i], hi = lo, next = peek(s, n, i + 1), end = peek(s, n, i + 2);
        if (lo == ']' && !first) {
            if (negated && set) others(set);
            return i + 1;
        }
        if (lo == '-' && !first && next != ']') return 0;
        if (opens_class(lo, next)) return 0;
        i++;
        if (next == '-' && end != ']' && end != 256) {
            hi = end;
            if (hi < lo || opens_class(hi, peek(s, n, i + 2))) return 0;
            i += 2;
        }
        if (set) add_range(set, lo, hi);
    }
    return 0;
}

/* The element at i: where it ends, 0 if refused. Without a set it is only judged. */
static size_t element_at(const uint8_t *s, size_t n, size_t i, int first, uint64_t *set) {
    int b = s[i];
    if (b == '[') return list_at(s, n, i + 1, set);
    if (b == '.') {
        if (set) others(set);
        return i + 1;
    }
    if (b == '\\') {
        b = peek(s, n, ++i);
        if (b != '.' && b != '[' && b != '\\' && b != '*' && b != '^' && b != '$') return 0;
    } else if (b == '*' && !first) {
        return 0;
    }
    if (set) add_byte(set, b);
    return i + 1;
}

/* Where no element of a string that is not empty begins any more: at a last `$`, or at the end. */
static inline size_t stop_at(const uint8_t *s, size_t n) { return s[n - 1] == '$' ? n - 1 : n; }

static inline int is_pattern(const uint8_t *s, size_t n) {
    if (n == 0) return 0;
    size_t i = s[0] == '^', stop = stop_at(s, n);
    int count = 0;
    while (i < stop) {
        i = element_at(s, n, i, count == 0, NULL);
        if (i == 0) return 0;
        if (peek(s, n, i) == '*') i++;
        if (++count > POSITIONS) return 0;
    }
    return 1;
}

/* Whether the string is a pattern; if so, its machine. */
static inline int prepare(struct machine *m, const uint8_t *s, size_t n, int on_names) {
    if (n == 0) return 0;
    int left = s[0] == '^', at = 0;
    uint64_t run = 0, lead = 1;
    size_t i = left ? 1 : 0, stop = stop_at(s, n);
    for (; i < stop; at++) {
        if (at == POSITIONS) return 0;
        uint64_t *set = m->sets[at], here = (uint64_t)1 << at;
        set[0] = set[1] = set[2] = set[3] = 0;
        i = element_at(s, n, i, at == 0, set);
        if (i == 0) return 0;
        if (on_names) fold_letters(set);
        if (peek(s, n, i) == '*') {
            m->before[at] = run |= here;
            lead |= (lead & here) << 1;
            i++;
        } else {
            m->before[at] = run;
            run = here;
        }
    }
    int right = i < n, free = lead >> at & 1;
    lead &= ~((uint64_t)1 << at);
    m->start = lead, m->inner = left ? 0 : lead;
    m->ends = run, m->stops = right ? 0 : run;
    m->whole = free, m->head = free && !right, m->tail = free && !left, m->middle = free && !left && !right;
    return 1;
}

/* ---- matching */

static inline int meets(const struct machine *m, int p, uint8_t b) { return m->sets[p][b / 64] >> (b % 64) & 1; }

/* Of the candidates, those that meet the byte; *next: those that may stand before one of them. */
static inline uint64_t step(const struct machine *m, uint64_t candidates, uint8_t b, uint64_t *next) {
    uint64_t live = 0, before = 0;
    for (; candidates; candidates &= candidates - 1) {
        int p = __builtin_ctzll(candidates);
        if (meets(m, p, b)) live |= (uint64_t)1 << p, before |= m->before[p];
    }
    *next = before;
    return live;
}

/* Whether a candidate meets the byte. */
static inline int is_met(const struct machine *m, uint64_t candidates, uint8_t b) {
    for (; candidates; candidates &= candidates - 1)
        if (meets(m, __builtin_ctzll(candidates), b)) return 1;
    return 0;
}

/* Whether some part of a text that is not empty fits, where no empty one does. The scan runs from the end, so that what is live before
 * a byte follows from what is live behind it. It ends where a part begins, or where nothing can be live any more; where no position
 * may stand before a live one, and one alone may end a part, the door, it goes on at the next byte that this one meets. */
static inline int scan_down(const struct machine *m, const uint8_t *text, size_t n, int door) {
    uint64_t next, candidates = m->ends;
    size_t i = n - 1;
    while (i > 0) {
        if (m->inner & step(m, candidates, text[i], &next)) return 1;
        candidates = next | m->stops;
        if (!candidates) return 0;
        i--;
        if (!next && door < POSITIONS)
            while (i > 0 && !meets(m, door, text[i])) i--;
    }
    return is_met(m, m->start & candidates, text[0]);
}

/* Whether some part of the text fits. */
static inline int matches(const struct machine *m, const uint8_t *text, size_t n) {
    if (n == 0) return m->whole;
    if (m->head || m->tail || (m->middle && n > 1)) return 1;
    if (!m->inner && !is_met(m, m->start, text[0])) return 0;
    if (!m->stops) return scan_down(m, text, n, POSITIONS);
    return scan_down(m, text, n, m->stops & (m->stops - 1) ? POSITIONS : __builtin_ctzll(m->stops));
}
#endif
