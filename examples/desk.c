/* desk DIRECTORY: the sample desk. Takes the requests in DIRECTORY through the desk's profiles (desk.h) and prints each step. */
#include <stddef.h>
#include <stdint.h>
#include <stdio.h>
#include <stdlib.h>
#include <string.h>
#include <ifc.h>
#include "desk.h"

static uint8_t image[IMAGE_MOST];
static size_t image_len;

static void stop(const char *why) {
    fprintf(stderr, "desk: %s\n", why);
    exit(2);
}

/* ---- the profile */

static void profile(size_t length) {
    uint32_t place;
    image_len = length;
    if (ifc_check(image, image_len, &place) != IFC_ACCEPTED) stop("a profile of the desk has a fault");
}

static void desk_profile(int recorder_handling) { profile(desk_image(recorder_handling, image, sizeof image)); }
static void sound_profile(void) { profile(sound_image(image, sizeof image)); }

/* ---- requests */

struct request {
    uint8_t at[65536];
    size_t length;
};

static const char *directory;

static const struct request *request(const char *name) {
    static struct request r;
    char path[1024];
    snprintf(path, sizeof path, "%s/%s", directory, name);
    FILE *in = fopen(path, "rb");
    if (!in) stop("cannot open a request");
    r.length = fread(r.at, 1, sizeof r.at, in);
    fclose(in);
    return &r;
}

/* ---- steps */

static void print_server(uint32_t criterion) {
    uint32_t place, start, length, present;
    if (ifc_server(image, image_len, criterion, &place, &start, &length)) stop("no server");
    printf("%.*s", (int)length, (const char *)image + start);
    if (ifc_information(image, image_len, criterion, &place, &present, &start, &length)) stop("no criterion");
    if (present) printf(" (%.*s)", (int)length, (const char *)image + start);
}

/* ---- which text set off a row */

/* The line after this one; of the head the lines that continue it belong to it. */
static size_t next_line(const struct request *r, size_t at) {
    while (at < r->length && r->at[at] != '\n') at++;
    return at < r->length ? at + 1 : at;
}

static int is_blank(uint8_t b) { return b == ' ' || b == '\t'; }

/* Where the value of a field of the head begins. The library has read the request, so it has that field. */
static size_t field_value(const struct request *r, uint32_t number) {
    size_t at = next_line(r, 0);
    for (;; at = next_line(r, at)) {
        if (at >= r->length) stop("no such field");
        if (is_blank(r->at[at])) continue;
        if (number-- == 0) break;
    }
    while (r->at[at] != ':') at++;
    for (at++; is_blank(r->at[at]); at++) {}
    return at;
}

/* Where the value of a session line begins: "a line is a field if its second byte is `=`". */
static size_t line_value(const struct request *r, uint32_t number) {
    size_t at = 0;
    while (at + 4 <= r->length && memcmp(r->at + at, "\r\n\r\n", 4)) at++;
    for (at += 4;; at = next_line(r, at)) {
        if (at + 2 > r->length) stop("no such line");
        if (r->at[at + 1] == '=' && number-- == 0) return at + 2;
    }
}

/* The place is one in the value as read. In the requests of this directory a field has one value, written with no fold and no run of
 * blanks, so the same bytes stand in the request: of others the numbers alone would tell. */
static void print_part(const struct request *r, int of_line, uint32_t number, uint32_t start, uint32_t length) {
    size_t at = of_line ? line_value(r, number) : field_value(r, number);
    printf("\"%.*s\"", (int)length, (const char *)r->at + at + start);
}

/* "Which text set off a trigger": the first field or line and value that made a row match, and the part of it. */
static void show(const struct request *r, uint32_t row, int of_line) {
    uint32_t place, found, number, value, start, length;
    if (ifc_show(image, image_len, r->at, r->length, row, &place, &found, &number, &value, &start, &length)) stop("no such row");
    printf("    row %u: ", row);
    if (found) {
        printf("%s %u, value %u, start %u, length %u: ", of_line ? "line" : "field", number, value, start, length);
        print_part(r, of_line, number, start, length);
    } else {
        printf("none");
    }
    printf("\n");
}

static void show_recorder(const struct request *r) {
    show(r, RECORDER_SOUND, 1);
    show(r, RECORDER_FROM, 0);
}

/* ---- walks */

static void advance(ifc_session *session, const char *name, ifc_answer *answer) {
    const struct request *r = request(name);
    uint32_t refusal = ifc_session_advance(session, image, image_len, r->at, r->length, answer);
    if (refusal) {
        printf("  %s: refused with %u\n", name, refusal);
    } else if (answer->outcome == IFC_FORWARD) {
        printf("  %s: forward to criterion %u, priority %u, ", name, answer->criterion, answer->priority);
        print_server(answer->criterion);
        printf("; examined %u, trials %u\n", answer->examined, answer->trials);
    } else {
        printf("  %s: route normally; examined %u, trials %u\n", name, answer->examined, answer->trials);
    }
}

static const char *const states[] = {"ready", "waiting", "finished", "released", "ended"};

static void report(ifc_session *session, uint32_t what) {
    static const char *const said[] = {"the server sent it back", "the server was not reached", "the server answered it"};
    if (ifc_session_report(session, what)) stop("a report was refused");
    printf("  %s: session %s\n", said[what], states[session->state]);
}

static const char *in_plain_words(const ifc_session *session, const ifc_answer *last, int asked, uint32_t of_recorder) {
    if (last->outcome == IFC_REFUSED) return "it was refused, and went nowhere";
    if (!asked) return "the recorder was not asked";
    if (of_recorder == IFC_RETURNED) return "it passed the recorder";
    if (of_recorder == IFC_FINAL_RESPONSE) return "the recorder answered it, and it went nowhere else";
    if (session->state == IFC_RELEASED) return "it did not pass the recorder, and went nowhere else";
    return "it did not pass the recorder, and went on without it";
}

/* One call from the desk. `next` is the request as the first server sends it back. */
static void call(const char *title, const char *first, const char *next, uint32_t of_recorder) {
    ifc_session session;
    ifc_answer answer;
    int asked = 0;
    printf("%s\n", title);
    if (ifc_session_open(&session, IFC_ORIGINATING)) stop("no session");
    for (const char *name = first; session.state == IFC_READY; name = next) {
        advance(&session, name, &answer);
        if (answer.outcome != IFC_FORWARD) break;
        int recorder = answer.criterion == RECORDER;
        if (recorder) show_recorder(request(name));
        report(&session, recorder ? of_recorder : IFC_RETURNED);
        asked |= recorder;
    }
    printf("In plain words: %s.\n\n", in_plain_words(&session, &answer, asked, of_recorder));
}

/* The recorder goes down, and every session that was sent to it gets the news in one call. The last of these had its answer before. */
static void outage(const char *title) {
    enum { SENT = 3 };
    static const char *const names[SENT] = {"invite.sip", "message.sip", "invite.sip"};
    static const int handlings[SENT] = {HANDLING_TERMINATED, HANDLING_CONTINUED, HANDLING_TERMINATED};
    ifc_session sessions[SENT];
    ifc_answer answer;
    uint32_t reports[SENT], refusals[SENT];
    printf("%s\n", title);
    for (int i = 0; i < SENT; i++) {
        desk_profile(handlings[i]);
        if (ifc_session_open(&sessions[i], IFC_ORIGINATING)) stop("no session");
        advance(&sessions[i], names[i], &answer);
        reports[i] = IFC_UNREACHABLE;
    }
    report(&sessions[2], IFC_FINAL_RESPONSE);
    if (ifc_reports(sessions, SENT, reports, SENT, refusals, SENT)) stop("the reports are refused");
    for (int i = 0; i < SENT; i++) printf("  session %d: refusal %u, %s\n", i, refusals[i], states[sessions[i].state]);
    printf("\n");
}

/* One advance: whether the request has a session line m=audio. */
static void sound(const char *title, const char *name) {
    ifc_session session;
    ifc_answer answer;
    printf("%s\n", title);
    if (ifc_session_open(&session, IFC_ORIGINATING)) stop("no session");
    advance(&session, name, &answer);
    show(request(name), 0, 1);
    printf("In plain words: it has %s session line m=audio.\n\n", answer.outcome == IFC_FORWARD ? "a" : "no");
}

static void registration(const char *title, uint32_t type) {
    const struct request *r = request("register.sip");
    uint8_t list[IFC_CRITERIA_MOST];
    uint32_t place, count, examined, trials;
    printf("%s\n", title);
    uint32_t refusal = ifc_list(image, image_len, r->at, r->length, IFC_ORIGINATING, type, list, sizeof list, &place, &count,
        &examined, &trials);
    if (refusal) {
        printf("  register.sip: refused with %u\n\n", refusal);
        return;
    }
    printf("  register.sip: %u to be told; examined %u, trials %u\n", count, examined, trials);
    for (uint32_t i = 0; i < count; i++) {
        printf("  criterion %u, ", list[i]);
        print_server(list[i]);
        printf("\n");
        if (list[i] == RECORDER) show_recorder(r);
    }
    printf("\n");
}

int main(int argc, char **argv) {
    if (argc != 2) stop("desk DIRECTORY");
    directory = argv[1];
    printf("examined: the criteria looked at\n"
           "trials:   the tests of a row on a part of the request; every row of these criteria once, as document 01 counts\n"
           "row:      which text made a row of the recorder match, counted from 0: the field of the head or the session line, its\n"
           "          value, and the part of the value, in bytes\n\n");
    desk_profile(HANDLING_TERMINATED);
    call("A call to another house", "invite.sip", "invite-recorded.sip", IFC_RETURNED);
    call("The same call; the recorder cannot be reached, its default handling is terminated", "invite.sip", "invite.sip",
        IFC_UNREACHABLE);
    call("The same call; the recorder answers it", "invite.sip", "invite.sip", IFC_FINAL_RESPONSE);
    call("The same call, but its From stands under the compact name f", "invite-compact.sip", "invite-compact.sip", IFC_RETURNED);
    call("A message", "message.sip", "message.sip", IFC_RETURNED);
    registration("The desk registers for the first time", IFC_INITIAL_REGISTRATION);
    registration("The desk registers again", IFC_REREGISTRATION);
    desk_profile(HANDLING_CONTINUED);
    call("The call again; the recorder cannot be reached, its default handling is continued", "invite.sip", "invite.sip",
        IFC_UNREACHABLE);
    outage("The recorder goes down; three sessions that were sent to it get the news at once");
    sound_profile();
    sound("The call, over a profile that asks for a session line m=audio alone", "invite.sip");
    sound("Over the same profile, a message with a presence document in which such a line stands", "presence.sip");
    return 0;
}
