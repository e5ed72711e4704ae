/* sip CASES ANSWERS FILE..: takes each request through the sample desk's profile and prints where it goes. Every server sends it
 * back. What was asked and answered on the way goes to CASES and ANSWERS, for `second compare CASES ANSWERS`.
 *
 * Each request is walked originating (case 0) and terminating (case 1), and listed as a first, a repeated and a last
 * registration; every row of the profile is shown, and one number beyond. Where all calls of a request are refused with one number, that is all that is printed. */
#include "lent.h"
#include "../examples/desk.h"
#include "../include/ifc.h"

enum { ADVANCE = 2, REPORT = 3, LIST = 4, SHOW = 7, UNWRITTEN = 0xDEADBE, PLACE = 192 };

static const char *const names[] = {[BILLING] = "billing", [RECORDER] = "recorder", [VOICEMAIL] = "voicemail"};
static struct bytes image, request;
static FILE *cases, *answers;
static uint32_t asked;

static void put_bytes(FILE *out, const uint8_t *at, uint32_t length) {
    put(out, length);
    if (fwrite(at, 1, length, out) != length) stop("cannot write");
}

/* What a call is lent: its numbers, those that are answers only marked, and its list. */
static void put_lent(FILE *out, const uint8_t *list, uint32_t length, const uint32_t *n, uint32_t count) {
    put_bytes(out, list, length);
    put(out, count);
    for (uint32_t i = 0; i < count; i++) put(out, n[i]);
}

static void ask(uint32_t call, const char *label, int with_bytes, const uint8_t *list, uint32_t length, uint32_t *n,
    uint32_t given, uint32_t count) {
    for (uint32_t i = given; i < count; i++) n[i] = (uint32_t)UNWRITTEN << 8 | i;
    put(cases, call);
    put_bytes(cases, (const uint8_t *)label, (uint32_t)strlen(label));
    put_bytes(cases, image.at, with_bytes ? image.length : 0);
    put_bytes(cases, request.at, with_bytes ? request.length : 0);
    put_lent(cases, list, length, n, count);
    asked++;
}

static uint32_t answer(uint32_t refusal, const uint8_t *list, uint32_t length, const uint32_t *n, uint32_t count) {
    put(answers, refusal);
    put_lent(answers, list, length, n, count);
    return refusal;
}

/* ---- the calls; n holds their numbers in the order of the C prototype */

static uint32_t advance(const char *label, uint32_t *n) {
    ask(ADVANCE, label, 1, NULL, 0, n, 5, 11);
    uint32_t refusal = ifc_advance(image.at, image.length, request.at, request.length, n[0], &n[1], &n[2], &n[3], &n[4], &n[5],
        &n[6], &n[7], &n[8], &n[9], &n[10]);
    return answer(refusal, NULL, 0, n, 11);
}

static void returned(const char *label, uint32_t *session) {
    uint32_t n[6] = {session[0], session[1], session[2], session[3], session[4], IFC_RETURNED};
    ask(REPORT, label, 0, NULL, 0, n, 6, 6);
    uint32_t refusal = ifc_report(n[0], &n[1], n[2], n[3], n[4], n[5]);
    if (answer(refusal, NULL, 0, n, 6)) stop("a report was refused");
    session[1] = n[1];
}

static uint32_t list(const char *label, uint32_t *n, uint8_t *places, uint32_t length) {
    for (uint32_t i = 0; i < length; i++) places[i] = (uint8_t)(PLACE + i);
    ask(LIST, label, 1, places, length, n, 2, 6);
    uint32_t refusal = ifc_list(image.at, image.length, request.at, request.length, n[0], n[1], places, length, &n[2], &n[3],
        &n[4], &n[5]);
    return answer(refusal, places, length, n, 6);
}

static void show(const char *label, uint32_t row) {
    uint32_t n[7] = {row};
    ask(SHOW, label, 1, NULL, 0, n, 1, 7);
    uint32_t refusal = ifc_show(image.at, image.length, request.at, request.length, n[0], &n[1], &n[2], &n[3], &n[4], &n[5], &n[6]);
    answer(refusal, NULL, 0, n, 7);
}

/* ---- one request */

struct told {
    char text[256];
    uint32_t refusal;
};

static void add(struct told *t, const char *word) {
    if (strlen(t->text) + strlen(word) + 3 > sizeof t->text) stop("too much to tell");
    if (t->text[0]) strcat(t->text, ", ");
    strcat(t->text, word);
}

static const char *name_of(uint32_t criterion) {
    if (criterion > VOICEMAIL) stop("no such criterion");
    return names[criterion];
}

static void walk(const char *label, uint32_t session_case, struct told *t) {
    uint32_t n[11] = {session_case};
    t->text[0] = 0;
    if (ifc_open(session_case, &n[0], &n[1], &n[2], &n[3], &n[4])) stop("no session");
    while (!(t->refusal = advance(label, n)) && n[6] == IFC_FORWARD) {
        add(t, name_of(n[7]));
        returned(label, n);
    }
    if (!t->refusal) add(t, "routed");
}

static void listing(const char *label, uint32_t type, struct told *t) {
    uint32_t n[6] = {IFC_ORIGINATING, type};
    uint8_t places[4];
    t->text[0] = 0;
    t->refusal = list(label, n, places, sizeof places);
    for (uint32_t i = 0; !t->refusal && i < n[3]; i++) add(t, name_of(places[i]));
    if (!t->refusal && n[3] == 0) add(t, "none");
}

static void tell(const char *name, const char *what, const struct told *t) {
    if (t->refusal) printf("%s, %s: refused with %u\n", name, what, t->refusal);
    else printf("%s, %s: %s\n", name, what, t->text);
}

static void take(const char *name) {
    static const char *const whats[] = {"originating", "terminating", "first registration", "registration again",
        "last registration"};
    struct told t[5];
    int same = 1;
    for (uint32_t k = 0; k < 2; k++) walk(name, k, &t[k]);
    for (uint32_t type = 0; type < 3; type++) listing(name, type, &t[2 + type]);
    for (uint32_t row = 0; row <= DESK_ROWS; row++) show(name, row);
    for (int i = 1; i < 5; i++) same &= t[0].refusal && t[i].refusal == t[0].refusal;
    if (same) printf("%s: refused with %u\n", name, t[0].refusal);
    /* of a REGISTER the listings are told, of any other the walks; the other calls must be refused with 11 */
    int registers = t[0].refusal == IFC_WRONG_METHOD;
    for (int i = 0; !same && i < 5; i++) {
        if ((i < 2) != registers) tell(name, whats[i], &t[i]);
        else if (t[i].refusal != IFC_WRONG_METHOD) stop("a call with the wrong method was not refused with 11");
    }
}

static void read_file(const char *path) {
    FILE *in = fopen(path, "rb");
    if (!in) stop("cannot open a request");
    request.length = (uint32_t)fread(request.at, 1, sizeof request.at, in);
    fclose(in);
}

/* The file's name without directory and ending. */
static const char *short_name(const char *path) {
    static char name[64];
    const char *from = path;
    for (const char *p = path; *p; p++) {
        if (*p == '/') from = p + 1;
    }
    size_t n = strlen(from);
    if (n < 5 || n - 4 >= sizeof name) stop("a request is called NAME.sip");
    memcpy(name, from, n - 4);
    name[n - 4] = 0;
    return name;
}

int main(int argc, char **argv) {
    if (argc < 4) stop("sip CASES ANSWERS FILE..");
    cases = fopen(argv[1], "wb"), answers = fopen(argv[2], "wb");
    if (!cases || !answers) stop("cannot open a file");
    image.length = (uint32_t)desk_image(HANDLING_TERMINATED, image.at, IMAGE_MOST);
    put(cases, 0x49464343), put(cases, 0);
    put(answers, 0x49464341), put(answers, 0);
    for (int i = 3; i < argc; i++) {
        read_file(argv[i]);
        take(short_name(argv[i]));
    }
    /* how many there are is known now */
    if (fseek(cases, 4, SEEK_SET) || fseek(answers, 4, SEEK_SET)) stop("cannot write");
    put(cases, asked), put(answers, asked);
    if (fclose(cases) || fclose(answers)) stop("cannot write");
    return 0;
}
