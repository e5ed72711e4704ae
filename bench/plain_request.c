/* What request_parts counts, by the same passes over the bytes (but the end of the head is found while its bytes are judged), as one
 * writes it in C: the other contender of request.c. Its rooms are not filled with zeros first. Then the searches for the end of the
 * head alone. */
#include <stddef.h>
#include <stdint.h>

static const uint8_t classes[256] = {
    ['\t'] = 2, [' '] = 2, ['!'] = 1, ['"' ... '$'] = 3, ['%'] = 1, ['&'] = 3, ['\''] = 1, ['('] = 3, [')'] = 3, ['*'] = 1, ['+'] = 1,
    [','] = 3, ['-'] = 1, ['.'] = 1, ['/'] = 3, ['0' ... '9'] = 1, [':' ... '@'] = 3, ['A' ... 'Z'] = 1, ['[' ... '^'] = 3, ['_'] = 1,
    ['`'] = 1, ['a' ... 'z'] = 1, ['{' ... '}'] = 3, ['~'] = 1, [128 ... 255] = 4,
};

struct slice {
    const uint8_t *at;
    size_t length;
};

static struct slice part(struct slice s, size_t from, size_t to) { return (struct slice){s.at + from, to - from}; }
static int white(uint8_t b) { return b == ' ' || b == '\t'; }
static uint8_t byte_at(struct slice s, size_t i) { return i < s.length ? s.at[i] : 0; }
static uint8_t lower(uint8_t b) { return b >= 'A' && b <= 'Z' ? b + 32 : b; }

static int same_letters(struct slice s, const char *text, size_t length) {
    if (s.length != length) return 0;
    for (size_t i = 0; i < s.length; i++)
        if (lower(s.at[i]) != lower((uint8_t)text[i])) return 0;
    return 1;
}

#define SAME(s, text) same_letters(s, text, sizeof text - 1)

static size_t place_of(struct slice s, size_t from, uint8_t b) {
    while (from < s.length && s.at[from] != b) from++;
    return from;
}

/* ---- the head */

static int empty_line_at(struct slice s, size_t i) {
    return s.at[i] == '\r' && byte_at(s, i + 1) == '\n' && byte_at(s, i + 2) == '\r' && byte_at(s, i + 3) == '\n';
}

/* The searches for the end of the head alone: as ours was before change request 4, and as it is. */
size_t plain_head_by_byte(const uint8_t *request, size_t length) {
    struct slice s = {request, length};
    for (size_t i = place_of(s, 0, '\r'); i < length; i = place_of(s, i + 1, '\r'))
        if (empty_line_at(s, i)) return i;
    return length;
}

static size_t every_second(struct slice s, size_t from) {
    while (from < s.length && s.at[from] > '\r') from += 2;
    return from;
}

size_t plain_head_by_second(const uint8_t *request, size_t length) {
    struct slice s = {request, length};
    for (size_t i = every_second(s, 1); i < length; i = every_second(s, i + 2)) {
        size_t at = request[i] == '\n' ? i - 1 : i;
        if (empty_line_at(s, at)) return at;
    }
    return length;
}

/* Where the head ends, if all its bytes may stand there; else the length. */
static size_t head_end(struct slice s) {
    for (size_t i = 0; i < s.length; i++) {
        uint8_t b = s.at[i];
        if (b >= 32) {
            if (b == 127) return s.length;
        } else if (b == '\r' && byte_at(s, i + 1) == '\n') {
            if (empty_line_at(s, i)) return i;
            i++;
        } else if (b != '\t') {
            return s.length;
        }
    }
    return s.length;
}

static int is_word(int uri, struct slice w) {
    for (size_t i = 0; i < w.length; i++) {
        uint8_t k = classes[w.at[i]];
        if (k != 1 && !(uri && k == 3)) return 0;
    }
    return w.length > 0;
}

static int start_line(struct slice l) {
    size_t m = place_of(l, 0, ' ');
    if (l.length <= m) return 0;
    size_t u = place_of(l, m + 1, ' ');
    if (l.length <= u) return 0;
    return is_word(0, part(l, 0, m)) && is_word(1, part(l, m + 1, u)) && SAME(part(l, u + 1, l.length), "SIP/2.0");
}

static size_t trimmed_end(struct slice t) {
    size_t e = t.length;
    while (e > 0 && white(t.at[e - 1])) e--;
    return e;
}

static int is_field(struct slice l) {
    size_t k = place_of(l, 0, ':');
    return k < l.length && is_word(0, part(l, 0, trimmed_end(part(l, 0, k))));
}

static size_t line_end(struct slice h, size_t i) {
    for (i = place_of(h, i, '\r'); i < h.length; i = place_of(h, i + 1, '\r'))
        if (byte_at(h, i + 1) == '\n' && !white(byte_at(h, i + 2))) return i;
    return i;
}

static int are_fields(struct slice h, size_t p) {
    while (p <= h.length) {
        size_t e = line_end(h, p);
        if (!is_field(part(h, p, e))) return 0;
        p = e + 2;
    }
    return 1;
}

static size_t fill(struct slice h, size_t p, uint16_t *starts, uint16_t *colons) {
    size_t n = 0;
    while (p <= h.length) {
        size_t e = line_end(h, p);
        starts[n] = (uint16_t)p;
        colons[n] = (uint16_t)(p + place_of(part(h, p, e), 0, ':'));
        n++;
        p = e + 2;
    }
    return n;
}

/* Whether it is readable; then how many fields there are, and where the head ends. */
static int reads(struct slice s, uint16_t *starts, uint16_t *colons, size_t *fields, size_t *head) {
    if (s.length > 65535) return 0;
    size_t e = head_end(s);
    if (s.length <= e) return 0;
    struct slice h = part(s, 0, e);
    size_t n = place_of(h, 0, '\r');
    if (white(byte_at(h, n + 2)) || !start_line(part(h, 0, n)) || !are_fields(h, n + 2)) return 0;
    *fields = fill(h, n + 2, starts, colons);
    *head = e;
    return 1;
}

/* ---- values */

static size_t normalise(struct slice raw, uint8_t *to) {
    int gap = 0;
    size_t n = 0;
    for (size_t i = 0; i < raw.length; i++) {
        uint8_t b = raw.at[i];
        if (b == ' ' || b == '\t' || b == '\n' || b == '\r') {
            gap = n > 0;
            continue;
        }
        if (gap) to[n++] = ' ';
        to[n++] = b;
        gap = 0;
    }
    return n;
}

/* s is the short name of Subject. */
static int never_cut(struct slice name) {
    return SAME(name, "Authorization") | SAME(name, "Proxy-Authorization") | SAME(name, "WWW-Authenticate") |
        SAME(name, "Proxy-Authenticate") | SAME(name, "Date") | SAME(name, "Subject") | SAME(name, "s");
}

static size_t piece_end(struct slice v, size_t i) {
    enum { TEXT, QUOTES, ESCAPE, ANGLES } in = TEXT;
    for (; i < v.length; i++) {
        uint8_t b = v.at[i];
        switch (in) {
        case TEXT:
            if (b == ',') return i;
            in = b == '"' ? QUOTES : b == '<' ? ANGLES : TEXT;
            break;
        case QUOTES: in = b == '\\' ? ESCAPE : b == '"' ? TEXT : QUOTES; break;
        case ESCAPE: in = QUOTES; break;
        case ANGLES: in = b == '>' ? TEXT : ANGLES; break;
        }
    }
    return i;
}

/* The ends of a piece are part of what is read, though nothing here is counted by them. */
static size_t next_value(struct slice v, size_t from, size_t *start, size_t *end) {
    size_t k = piece_end(v, from);
    size_t stop = from + trimmed_end(part(v, from, k)), a = from;
    while (a < stop && white(v.at[a])) a++;
    *start = a, *end = stop;
    return k + 1;
}

static uint32_t count_values(struct slice name, struct slice raw, uint8_t *room) {
    if (never_cut(name)) return 1;
    struct slice v = {room, normalise(raw, room)};
    uint32_t n = 0;
    size_t start, end;
    for (size_t p = 0; p <= v.length; n++) p = next_value(v, p, &start, &end);
    return n;
}

/* ---- whether the body is a session description */

static int is_content_type(struct slice name) { return SAME(name, "Content-Type") | SAME(name, "c"); }

/* Whether a reduced value is one, and up to the first semicolon application/sdp. */
static int is_description(struct slice v) {
    size_t start, end;
    if (next_value(v, 0, &start, &end) <= v.length) return 0;
    struct slice kind = part(v, start, end);
    kind = part(kind, 0, place_of(kind, 0, ';'));
    return SAME(part(kind, 0, trimmed_end(kind)), "application/sdp");
}

/* The field's name and raw value. */
static void field_at(struct slice s, const uint16_t *starts, const uint16_t *colons, size_t many, size_t head, size_t i,
    struct slice *name, struct slice *raw) {
    size_t a = starts[i], k = colons[i], e = i + 1 < many ? starts[i + 1] - 2u : head;
    *name = part(s, a, a + trimmed_end(part(s, a, k)));
    *raw = part(s, k + 1, e);
}

/* Exactly one Content-Type field, with one such value. */
static int described(struct slice s, const uint16_t *starts, const uint16_t *colons, size_t many, size_t head, uint8_t *room) {
    int seen = 0, describes = 0;
    for (size_t i = 0; i < many; i++) {
        struct slice name, raw;
        field_at(s, starts, colons, many, head, i, &name, &raw);
        if (!is_content_type(name)) continue;
        if (seen) return 0;
        seen = 1;
        describes = is_description((struct slice){room, normalise(raw, room)});
    }
    return describes;
}

/* ---- lines of the body */

static uint32_t count_lines(struct slice b) {
    uint32_t n = 0;
    for (size_t p = 0; p <= b.length;) {
        size_t k = place_of(b, p, '\n');
        size_t e = k < b.length && k > p && b.at[k - 1] == '\r' ? k - 1 : k;
        n += e >= p + 2 && b.at[p + 1] == '=';
        p = k + 1;
    }
    return n;
}

uint32_t plain_parts(const uint8_t *request, size_t length, uint32_t *fields, uint32_t *values, uint32_t *lines) {
    uint16_t starts[16384], colons[16384];
    uint8_t room[65535];
    struct slice s = {request, length};
    size_t many, head;
    *fields = *values = *lines = 0;
    if (!reads(s, starts, colons, &many, &head)) return 7;
    uint32_t n = 0;
    int sdp = described(s, starts, colons, many, head, room);
    for (size_t i = 0; i < many; i++) {
        struct slice name, raw;
        field_at(s, starts, colons, many, head, i, &name, &raw);
        n += count_values(name, raw, room);
    }
    *fields = (uint32_t)many;
    *values = n;
    *lines = count_lines(part(s, sdp ? head + 4 : length, length));
    return 0;
}
