/* The two images that document 01 writes out, a third made of the second, and what it says of them. Every number here is read off that
 * page. */
#include <stddef.h>
#include <stdint.h>
#include <stdio.h>
#include "../include/ifc.h"

static const uint8_t empty[] = {1, 0, 0, 0, 0, 0, 0, 0, 0};

/* "One criterion, priority 5, no trigger, server `sip:a`, terminated, is whole" */
static const uint8_t one[31] = {1, 0, 1, 0, 5, 0x73, 0x69, 0x70, 0x3A, 0x61, 0, 0, 0, 0, 0, 1,
    0, 0, 0, 5, 2, 2, 0, 0, 0, 0, 0, 0, 1, 0xFF, 0xFF};

static int wrong;

static void is(const char *what, uint32_t got, uint32_t right) {
    if (got == right) return;
    printf("worked: %s is %u, not %u\n", what, got, right);
    wrong = 1;
}

static const char invite[] = "INVITE sip:b SIP/2.0\r\n\r\n", registers[] = "REGISTER sip:b SIP/2.0\r\n\r\n";

static void walks(void) {
    ifc_session session;
    ifc_answer answer;
    uint8_t list[3] = {9, 9, 9};
    uint32_t place = 9, count = 9, examined = 9, trials = 9;
    const uint8_t *request = (const uint8_t *)invite;
    size_t length = sizeof invite - 1;
    is("an opening", ifc_session_open(&session, 0), 0);
    is("an advance over the empty profile", ifc_session_advance(&session, empty, sizeof empty, request, length, &answer), 0);
    is("its outcome, a route", answer.outcome, IFC_ROUTE);
    is("what it examined", answer.examined, 0);
    is("the session after it", session.state, IFC_FINISHED);
    is("an opening", ifc_session_open(&session, 3), 0);
    is("an advance over the whole one", ifc_session_advance(&session, one, sizeof one, request, length, &answer), 0);
    is("its outcome, a forward", answer.outcome, IFC_FORWARD);
    is("its criterion", answer.criterion, 0);
    is("its priority", answer.priority, 5);
    is("what it examined", answer.examined, 1);
    is("what it tried", answer.trials, 0);
    is("an advance while waiting", ifc_session_advance(&session, one, sizeof one, request, length, &answer), 10);
    is("the report that the server was not reached", ifc_session_report(&session, IFC_UNREACHABLE), 0);
    is("the session, terminated", session.state, IFC_RELEASED);
    is("a listing of an INVITE",
        ifc_list(one, sizeof one, request, length, 0, 0, list, sizeof list, &place, &count, &examined, &trials), 11);
    is("the list after it", list[0], 9);
    request = (const uint8_t *)registers, length = sizeof registers - 1;
    is("a listing", ifc_list(one, sizeof one, request, length, 0, 2, list, sizeof list, &place, &count, &examined, &trials), 0);
    is("how many it lists", count, 1);
    is("the first place", list[0], 0);
    is("the second, untouched", list[1], 9);
}

/* "Each call judges the image lent to it", and an advance looks at "criteria with priority above the last one forwarded": one that
 * gets the last one's number or a smaller one while the session runs is passed over. */
static void another_image(uint8_t priority, uint32_t outcome) {
    uint8_t other[sizeof one];
    ifc_session session;
    ifc_answer answer;
    const uint8_t *request = (const uint8_t *)invite;
    size_t length = sizeof invite - 1;
    for (size_t i = 0; i < sizeof one; i++) other[i] = one[i];
    other[19] = priority;
    is("an opening", ifc_session_open(&session, 0), 0);
    is("an advance", ifc_session_advance(&session, one, sizeof one, request, length, &answer), 0);
    is("its priority", answer.priority, 5);
    is("the report that the server sent it back", ifc_session_report(&session, IFC_RETURNED), 0);
    is("an advance over another image", ifc_session_advance(&session, other, sizeof other, request, length, &answer), 0);
    is("its outcome", answer.outcome, outcome);
    is("what it examined", answer.examined, outcome == IFC_FORWARD);
    is("the last priority", session.last, outcome == IFC_FORWARD ? priority : 5);
}

/* A part of no bytes may be NULL. */
static void nothing_lent(void) {
    uint32_t place = 9, count = 9, examined = 9, trials = 9;
    const uint8_t *request = (const uint8_t *)registers;
    size_t length = sizeof registers - 1;
    is("no image", ifc_check(NULL, 0, &place), 2);
    is("the place of the cut", place, 0);
    is("no request", ifc_list(one, sizeof one, NULL, 0, 0, 0, NULL, 0, &place, &count, &examined, &trials), 7);
    is("no place for one", ifc_list(one, sizeof one, request, length, 0, 0, NULL, 0, &place, &count, &examined, &trials), 12);
    is("how many it examined", examined, 0);
    is("no place for none", ifc_list(empty, sizeof empty, request, length, 0, 0, NULL, 0, &place, &count, &examined, &trials), 0);
    is("how many it lists", count, 0);
}

int main(void) {
    uint32_t place = 9, start = 9, length = 9, present = 9;
    is("the empty profile's fault", ifc_check(empty, sizeof empty, &place), 0);
    is("its place", place, 0);
    is("a lookup in it", ifc_server(empty, sizeof empty, 0, &place, &start, &length), 13);
    is("the part's start", start, 0);
    is("the part's length", length, 0);
    is("the whole image's fault", ifc_check(one, sizeof one, &place), 0);
    is("the image cut short", ifc_check(one, sizeof one - 1, &place), 2);
    is("the place of the cut", place, 30);
    is("the server's lookup", ifc_server(one, sizeof one, 0, &place, &start, &length), 0);
    is("the server's start", start, 5);
    is("the server's length", length, 5);
    is("the information's lookup", ifc_information(one, sizeof one, 0, &place, &present, &start, &length), 0);
    is("its presence", present, 0);
    is("no second criterion", ifc_server(one, sizeof one, 1, &place, &start, &length), 13);
    walks();
    another_image(4, IFC_ROUTE);
    another_image(5, IFC_ROUTE);
    another_image(6, IFC_FORWARD);
    nothing_lent();
    if (!wrong) puts("worked: ok");
    return wrong;
}
