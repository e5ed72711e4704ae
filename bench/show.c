/* show                    what it costs to show which text set off a row, beside the row's trial
 * show count SIDE TIMES   one of the two over one of the rows, for counting instructions from outside
 *
 * Each image has the row that is asked for, a Method row and a criterion. The trial is what an advance takes more where the criterion
 * has the row as its trigger than where it has none. Showing is what ifc_show takes more for the row than for the Method row. All four
 * judge the image and read the request beside; the differences leave that out.
 *
 * A trial tries every field and value, but leaves a value where it has met one part that fits, looking from the end. Showing stops at
 * the first value that matches, and goes over the whole of it for the smallest start and on from there for the length. */
#include <stddef.h>
#include <stdint.h>
#include <stdio.h>
#include <stdlib.h>
#include <string.h>
#include "../examples/image.h"
#include "../include/ifc.h"
#include "clock.h"

static const char invite[] =
    "INVITE sip:+441632960123@ims.example.net;user=phone SIP/2.0\r\n"
    "Via: SIP/2.0/UDP pcscf1.ims.example.net:5060;branch=z9hG4bK776asdhds, SIP/2.0/UDP 192.0.2.14:5060;branch=z9hG4bKnashds8\r\n"
    "Max-Forwards: 68\r\n"
    "Record-Route: <sip:pcscf1.ims.example.net;lr>, <sip:ibcf.ims.example.net;lr>\r\n"
    "From: \"Desk 14\" <sip:desk14@ims.example.net>;tag=1928301774\r\n"
    "To: <tel:+441632960123>\r\n"
    "Call-ID: a84b4c76e66710ab12cd34@192.0.2.14\r\n"
    "CSeq: 314159 INVITE\r\n"
    "Contact: <sip:desk14@192.0.2.14:5060>;+g.3gpp.icsi-ref=\"urn%3Aurn-7%3A3gpp-service.ims.icsi.mmtel\"\r\n"
    "Allow: INVITE, ACK, CANCEL, BYE, PRACK, UPDATE\r\n"
    "Content-Type: application/sdp\r\n"
    "\r\n"
    "v=0\r\n"
    "o=desk14 2890844526 2890844526 IN IP4 192.0.2.14\r\n"
    "s=-\r\n"
    "c=IN IP4 192.0.2.14\r\n"
    "t=0 0\r\n"
    "m=audio 49170 RTP/AVP 0 8 97\r\n"
    "a=rtpmap:8 PCMA/8000\r\n"
    "a=sendrecv\r\n";

enum { ASKED, OTHER }; /* numbers of the rows */

static uint8_t triggered[IMAGE_MOST], untriggered[IMAGE_MOST], request[65536];
static size_t triggered_len, untriggered_len, request_len;

static void stop(const char *why) {
    fprintf(stderr, "show: %s\n", why);
    exit(1);
}

/* ---- the rows, and what they are held against */

static void typical(void) { memcpy(request, invite, request_len = sizeof invite - 1); }

static void put(const char *text) {
    size_t n = strlen(text);
    if (request_len + n > 65535) stop("the request is too long");
    memcpy(request + request_len, text, n), request_len += n;
}

/* One value of so many `a`, and this end. */
static void one_value(uint32_t n, const char *end) {
    request_len = 0;
    put("INVITE sip:a@b SIP/2.0\r\nX: ");
    while (n--) put("a");
    put(end), put("\r\n\r\n");
}

static void long_value(void) { one_value(6000, "b"); }
static void all_a(void) { one_value(6000, ""); }

static void many_fields(void) {
    request_len = 0;
    put("INVITE sip:a@b SIP/2.0\r\n");
    for (int i = 0; i < 400; i++) put("Via: sip\r\n");
    put("X: b\r\n\r\n");
}

static void many_values(void) {
    request_len = 0;
    put("INVITE sip:a@b SIP/2.0\r\nX: a");
    for (int i = 0; i < 800; i++) put(", aaa");
    put(", b\r\n\r\n");
}

static char dense[256];

static const struct {
    const char *name, *first, *content;
    int kind;
    void (*make)(void);
    uint32_t found;
} all[] = {
    {"From, one value", "^From$", "sip:desk[0-9]*@ims", ROW_HEADER, typical, 1},
    {"Allow, the fifth of six values", "^Allow$", "PRACK", ROW_HEADER, typical, 1},
    {"a session line", "m", "^audio.*AVP", ROW_LINE, typical, 1},
    {"From, not found", "^From$", "nobody", ROW_HEADER, typical, 0},
    {"a field without Content", "^Contact$", NULL, ROW_HEADER, typical, 1},
    {"the last of 401 fields", "^X$", "b", ROW_HEADER, many_fields, 1},
    {"the last of 802 values", "^X$", "b", ROW_HEADER, many_values, 1},
    {"6,001 bytes, the last fits", "^X$", "b", ROW_HEADER, long_value, 1},
    {"6,001 bytes, all fit", "^X$", "a*b", ROW_HEADER, long_value, 1},
    {"6,000 bytes, none fits", "^X$", "a*b", ROW_HEADER, all_a, 0},
    {"6,000 bytes, sixty starred elements", "^X$", dense, ROW_HEADER, all_a, 1},
};
enum { ALL = sizeof all / sizeof *all };

static size_t build(uint32_t number, int form, uint8_t *to) {
    static struct image_builder b;
    uint32_t place;
    image_begin(&b);
    image_row(&b, (struct image_row){.kind = all[number].kind, .first = all[number].first, .content = all[number].content});
    image_criterion(&b, (struct image_criterion){.priority = 1, .part = PART_ABSENT, .form = form, .server = "sip:recorder@ims"});
    image_row(&b, (struct image_row){.kind = ROW_METHOD, .first = "INVITE"});
    size_t length = image_end(&b, to, IMAGE_MOST);
    if (length == 0 || ifc_check(to, length, &place)) stop("not an image");
    return length;
}

static uint32_t found;

static int advance(const uint8_t *image, size_t image_len) {
    ifc_session session;
    ifc_answer answer;
    ifc_session_open(&session, IFC_ORIGINATING);
    if (ifc_session_advance(&session, image, image_len, request, request_len, &answer)) stop("an advance is refused");
    return (int)answer.outcome;
}

static int show(uint32_t row) {
    uint32_t place, field, value, start, length;
    if (ifc_show(triggered, triggered_len, request, request_len, row, &place, &found, &field, &value, &start, &length))
        stop("a row is not shown");
    return (int)found;
}

static int with_trigger(void) { return advance(triggered, triggered_len); }
static int without_trigger(void) { return advance(untriggered, untriggered_len); }
static int asked_row(void) { return show(ASKED); }
static int other_row(void) { return show(OTHER); }

static void prepare(uint32_t number) {
    strcpy(dense, "^");
    for (int i = 0; i < 60; i++) strcat(dense, "a*");
    strcat(dense, "$");
    all[number].make();
    triggered_len = build(number, FORM_DNF, triggered);
    untriggered_len = build(number, FORM_NO_TRIGGER, untriggered);
    asked_row();
    if (found != all[number].found) stop("another row is found than the bench is for");
}

/* ---- side by side: the best of several rounds */

static double best(int (*side)(void)) {
    uint32_t times = times_for(side);
    double least = once(side, times);
    for (int i = 0; i < 15; i++) {
        double t = once(side, times);
        if (t < least) least = t;
    }
    return least;
}

static void side_by_side(void) {
    printf("Showing a row beside its trial, in us\n  %-40s %10s %10s %8s\n", "", "trial", "show", "times");
    for (uint32_t i = 0; i < ALL; i++) {
        prepare(i);
        double trial = best(with_trigger) - best(without_trigger), shown = best(asked_row) - best(other_row);
        printf("  %-40s %10.2f %10.2f %8.2f\n", all[i].name, trial / 1e3, shown / 1e3, shown / trial);
    }
}

/* So that the second time costs the difference alone: TIMES times the one, and the other to make two. Prints the side's name;
 * nothing, if there is no such side. */
static void count(uint32_t number, uint32_t times) {
    int of_show = number % 2;
    if (number / 2 >= ALL) return;
    prepare(number / 2);
    for (uint32_t i = 0; i < 2; i++) {
        if (i < times) of_show ? asked_row() : with_trigger();
        else of_show ? other_row() : without_trigger();
    }
    printf("%s%s\n", of_show ? "    shown" : "trial, ", of_show ? "" : all[number / 2].name);
}

int main(int argc, char **argv) {
    if (argc > 3 && strcmp(argv[1], "count") == 0) count((uint32_t)strtoul(argv[2], NULL, 10), (uint32_t)strtoul(argv[3], NULL, 10));
    else side_by_side();
    return 0;
}
