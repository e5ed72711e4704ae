/* How much stack a call needs, at the largest inputs. Each call runs on a thread that has 160 KB and a little for the thread
 * library, above an inaccessible page; the stack is painted before the call, and the deepest place that lost its paint is told.
 * A call that needs more than 160 KB ends the program. */
#include <pthread.h>
#include <stddef.h>
#include <stdint.h>
#include <stdio.h>
#include <stdlib.h>
#include <string.h>
#include <sys/mman.h>
#include "sample.h"

enum { DOCUMENTED = 163840, LIBRARY = 32768, PAGE = 4096, PAINT = 0xA5, BESIDE = 1024 };

static uint8_t *stack;
static uint8_t image[IMAGE_MOST], request[65535];
static size_t image_len, request_len;
static uint32_t refusal;

static void stop(const char *why) {
    fprintf(stderr, "stack: %s\n", why);
    exit(2);
}

/* ---- the largest inputs: each fills another array to its end */

static void put(const char *text) {
    size_t n = strlen(text);
    if (request_len + n > sizeof request) stop("a request is too long");
    memcpy(request + request_len, text, n);
    request_len += n;
}

static void pad(uint8_t b, size_t up_to) {
    while (request_len < up_to) request[request_len++] = b;
}

static const char *method;

static void begin(void) {
    request_len = 0;
    put(method), put(" a SIP/2.0\r\n");
}

static void many_fields(void) {
    begin();
    while (request_len + 4 + 2 <= sizeof request) put("a:\r\n");
    put("\r\n");
}

static void long_name(void) {
    begin();
    pad('a', sizeof request - 6);
    put("b:\r\n\r\n");
}

static void long_value(void) {
    begin();
    put("ab:");
    pad('b', sizeof request - 4);
    put("\r\n\r\n");
}

static void many_values(void) {
    begin();
    put("ab:");
    pad(',', sizeof request - 4);
    put("\r\n\r\n");
}

/* The longest that gets the small rooms. */
static void short_request(void) {
    begin();
    put("ab:");
    pad('b', 4096 - 4);
    put("\r\n\r\n");
}

static void long_body(void) {
    begin();
    put("c:application/sdp\r\n\r\na=");
    pad('b', sizeof request);
}

static void long_type(void) {
    begin();
    put("c:application/sdp;");
    pad('b', sizeof request - 7);
    put("\r\n\r\na=b");
}

/* 400 strings, 64 criteria, 1,955 rows. The first two rows have patterns of 60 elements; the name patterns match. */
static void full_image(void) {
    static struct image_builder b;
    char names[128] = "", contents[128] = "", text[32];
    uint32_t place;
    for (int i = 0; i < 59; i++) strcat(names, "b*"), strcat(contents, "c");
    strcat(names, "[ab]"), strcat(contents, "$");
    image_begin(&b);
    sample_row(&b, 0, ROW_HEADER, names, contents, 0);
    sample_row(&b, 0, ROW_LINE, names, contents, 1);
    sample_criterion(&b, 64, PART_ABSENT, FORM_DNF, HANDLING_CONTINUED, NULL);
    for (uint32_t i = 1; i < 64; i++) {
        for (int k = 0; k < 31; k++) sample_row(&b, 0, ROW_METHOD, "OPTIONS", NULL, k);
        sample_criterion(&b, 64 - i, PART_ABSENT, FORM_DNF, HANDLING_CONTINUED, NULL);
    }
    for (uint32_t i = 0; i < 400; i++) snprintf(text, sizeof text, "sip:%u@b", i), image_string(&b, text);
    image_len = image_end(&b, image, sizeof image);
    if (image_len == 0 || ifc_check(image, image_len, &place)) stop("the full image has a fault");
}

/* ---- the calls */

static ifc_session session;
static ifc_answer answer;
static uint32_t n[6], row;
static uint8_t list[64];

static void check(void) { refusal = ifc_check(image, image_len, &n[0]); }
static void open_one(void) { refusal = ifc_session_open(&session, 1); }
static void advance(void) { refusal = ifc_session_advance(&session, image, image_len, request, request_len, &answer); }
static void report(void) { refusal = ifc_session_report(&session, IFC_RETURNED); }
static void server(void) { refusal = ifc_server(image, image_len, 63, &n[0], &n[1], &n[2]); }
static void information(void) { refusal = ifc_information(image, image_len, 63, &n[0], &n[1], &n[2], &n[3]); }
static void show(void) { refusal = ifc_show(image, image_len, request, request_len, row, &n[0], &n[1], &n[2], &n[3], &n[4], &n[5]); }
static ifc_session sessions[IFC_REPORTS_MOST];
static uint32_t reports[IFC_REPORTS_MOST], refusals[IFC_REPORTS_MOST];
static void report_all(void) { refusal = ifc_reports(sessions, IFC_REPORTS_MOST, reports, IFC_REPORTS_MOST, refusals, IFC_REPORTS_MOST); }
static void plain(void) { refusal = ifc_plain(image, image_len, request, request_len, &n[0], &n[1], &n[2]); }
static void list_all(void) {
    refusal = ifc_list(image, image_len, request, request_len, 1, 0, list, sizeof list, &n[0], &n[1], &n[2], &n[3]);
}

/* ---- measuring */

/* On the painted thread: from here down to the deepest place that the call wrote to. The paint begins a little below here, so
 * that the painting itself is not painted over. C does not define the distance of `here` from the lent stack that it lies in; the
 * measure needs it, and takes it from addresses as numbers. */
static void *measured(void *call) {
    uint8_t here;
    size_t height = (size_t)((uintptr_t)&here - (uintptr_t)stack), painted = height - BESIDE, clean = 0;
    volatile uint8_t *at = stack;
    for (size_t i = 0; i < painted; i++) at[i] = PAINT;
    (*(void (*const *)(void))call)();
    while (clean < painted && at[clean] == PAINT) clean++;
    return (void *)(uintptr_t)(clean < painted ? height - clean : 0);
}

static size_t need(void (*call)(void)) {
    pthread_t thread;
    pthread_attr_t attributes;
    void *result;
    pthread_attr_init(&attributes);
    if (pthread_attr_setstack(&attributes, stack, DOCUMENTED + LIBRARY)) stop("the thread library refuses the stack");
    if (pthread_create(&thread, &attributes, measured, &call)) stop("cannot start a thread");
    pthread_attr_destroy(&attributes);
    pthread_join(thread, &result);
    return (size_t)(uintptr_t)result;
}

/* A function that uses what it is told to: the measure can see it. */
static void known(void) {
    volatile uint8_t room[100000];
    for (size_t i = 0; i < sizeof room; i++) room[i] = 1;
}

static size_t most;

static void tell(const char *name, void (*call)(void), uint32_t right) {
    size_t bytes = need(call);
    if (refusal != right) {
        printf("stack: %s is refused with %u\n", name, refusal);
        exit(1);
    }
    if (bytes > most) most = bytes;
    if (bytes) printf("  %-40s %7lu\n", name, (unsigned long)bytes);
    else printf("  %-40s under %d\n", name, BESIDE);
}

/* ---- the plain matcher: the one call whose stack grows with what it is lent

 * A turn leaves out an element or takes a byte, so no chain of them is longer than sixty elements and 256 bytes; the search is a call
 * for each start, and leaves so many bytes less for the turns. Every division of the 256 bytes is measured, with the last turns at
 * elements of each kind. These take neither `!` nor `a`: such pairs end soon. */

static void put_element(const char *element) {
    memcpy(image + image_len, element, strlen(element));
    image_len += strlen(element);
}

static void fill_plain(size_t passed, const char *other) {
    image_len = 0;
    int count = 59;
    if (passed) put_element("a"), count--;
    put_element("a*");
    while (count--) put_element(other);
    memset(request, '!', passed);
    memset(request + passed, 'a', 256 - passed);
    request_len = 256;
}

static size_t plain_most(void) {
    static const char *const others[] = {"c*", "\\.*", "[b-z]*", "[^!a]*"};
    size_t deepest = 0;
    for (size_t passed = 0; passed <= 256; passed++)
        for (size_t i = 0; i < sizeof others / sizeof *others; i++) {
            fill_plain(passed, others[i]);
            size_t bytes = need(plain);
            if (refusal || n[0] != (passed < 256) || n[1] != (passed < 256 ? passed : 0)) stop("the plain matcher is wrong");
            if (bytes > deepest) deepest = bytes;
        }
    return deepest;
}

int main(void) {
    static const struct {
        const char *name;
        void (*make)(void);
    } worst[] = {{"4,096 bytes", short_request}, {"16,378 fields", many_fields}, {"a name of 65,000 bytes", long_name},
        {"a value of 65,000 bytes", long_value}, {"65,000 values", many_values}, {"a line of 65,000 bytes", long_body},
        {"a long Content-Type", long_type}};
    uint8_t *all = mmap(NULL, PAGE + DOCUMENTED + LIBRARY, PROT_READ | PROT_WRITE, MAP_PRIVATE | MAP_ANONYMOUS, -1, 0);
    if (all == MAP_FAILED || mprotect(all, PAGE, PROT_NONE)) stop("no memory");
    stack = all + PAGE;
    size_t seen = need(known);
    if (seen < 100000 || seen > 102000) stop("the measure is wrong");
    full_image();
    printf("stack that each call needs, in bytes:\n");
    tell("ifc_check", check, 0);
    tell("ifc_open", open_one, 0);
    session = (ifc_session){.session_case = 1, .state = IFC_WAITING, .forwarded = 1, .last = 64};
    tell("ifc_report", report, 0);
    tell("ifc_reports, 256 sessions", report_all, 0);
    tell("ifc_server", server, 0);
    tell("ifc_information", information, 0);
    for (size_t i = 0; i < sizeof worst / sizeof worst[0]; i++) {
        char name[64];
        method = "INVITE", worst[i].make();
        ifc_session_open(&session, 1);
        snprintf(name, sizeof name, "ifc_advance, %s", worst[i].name);
        tell(name, advance, 0);
        method = "REGISTER", worst[i].make();
        snprintf(name, sizeof name, "ifc_list, %s", worst[i].name);
        tell(name, list_all, 0);
        for (row = 0; row < 2; row++) {
            snprintf(name, sizeof name, "ifc_show, row %u, %s", row, worst[i].name);
            tell(name, show, 0);
        }
    }
    size_t deepest = plain_most();
    printf("  %-40s %7lu\n", "ifc_plain, the deepest of 1,028 pairs", (unsigned long)deepest);
    if (deepest > most) most = deepest;
    if (most > DOCUMENTED) {
        printf("stack: %lu bytes, more than the documented %d\n", (unsigned long)most, DOCUMENTED);
        return 1;
    }
    printf("stack: ok (at most %lu bytes)\n", (unsigned long)most);
    return 0;
}
