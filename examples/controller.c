/* The integration to copy: how a controller takes one request through its application servers. The part to keep is between the
 * two rules; forward, tell, route, reject and alarm are a controller's own and here only print. */
#include <stddef.h>
#include <stdint.h>
#include <stdio.h>
#include <string.h>
#include <ifc.h>

/* Held as it is while one request is taken through it: a criterion's number means something in its own image only. */
struct profile {
    const uint8_t *image;
    size_t length;
};

struct call {
    const uint8_t *request; /* from its start line on; the controller replaces it when a server sends it back changed */
    size_t length;
    uint32_t session_case, registration_type;
    uint32_t fate;    /* for the stub of forward: what will be reported, */
    const char *back; /* and the request as the server sends it back */
};

static void print_name(const char *what, const uint8_t *name, uint32_t length) {
    printf("  %s %.*s\n", what, (int)length, (const char *)name);
}

static uint32_t forward(struct call *c, const uint8_t *server, uint32_t length) {
    print_name("to", server, length);
    if (c->fate == IFC_RETURNED) {
        c->request = (const uint8_t *)c->back;
        c->length = strlen(c->back);
    }
    return c->fate;
}

static void tell(struct call *c, const uint8_t *server, uint32_t length) {
    (void)c;
    print_name("told", server, length);
}

static void route(struct call *c) {
    (void)c;
    printf("  routed\n");
}

static void reject(struct call *c, int status) {
    (void)c;
    printf("  rejected with %d\n", status);
}

static void alarm_raised(const char *why, uint32_t number, uint32_t place) {
    printf("  alarm: %s, refusal %u, place %u\n", why, number, place);
}

/* ------------------------------------------------------------------------------------------------------------------------- */

/* Every refusal ends here, but for the 11 of a REGISTER that comes in, which is listed (see take). None of them lets a call go on
 * unseen. `on_the_way`: a server has had the request. */
static void refused(struct call *c, uint32_t number, uint32_t place, uint32_t on_the_way) {
    switch (number) {
    case IFC_IMAGE_TOO_LONG:
    case IFC_IMAGE_CUT:
    case IFC_IMAGE_NOT_AT_END:
    case IFC_IMAGE_FIELD:
    case IFC_IMAGE_STRING:
    case IFC_IMAGE_PRIORITY:
        alarm_raised("the profile is damaged", number, place);
        reject(c, 500);
        return;
    case IFC_REQUEST_UNREADABLE:
        if (on_the_way) alarm_raised("a server sent the call back unreadable", number, place);
        reject(c, on_the_way ? 500 : 400);
        return;
    case IFC_WRONG_METHOD:
        alarm_raised("a server sent the call back as a REGISTER", number, place);
        reject(c, 500);
        return;
    case IFC_NUMBER_OUT_OF_RANGE: /* case or report */
    case IFC_TYPE_OUT_OF_RANGE:   /* registration type */
    case IFC_WRONG_MOMENT:        /* advance without a report, report without a forward, or a session that was overwritten */
    case IFC_TOO_FEW_PLACES:      /* IFC_CRITERIA_MOST always suffice */
    case IFC_NO_SUCH_CRITERION:   /* a number from another image; one that is not too large is not noticed */
    default:
        alarm_raised("the controller calls wrongly", number, place);
        reject(c, 500);
    }
}

/* A REGISTER: every server that wants to know is told. */
static void take_registration(const struct profile *p, struct call *c) {
    uint8_t list[IFC_CRITERIA_MOST];
    uint32_t place, count, examined, trials, start, length;
    uint32_t refusal = ifc_list(p->image, p->length, c->request, c->length, c->session_case, c->registration_type, list,
        sizeof list, &place, &count, &examined, &trials);
    if (refusal) {
        refused(c, refusal, place, 0);
        return;
    }
    for (uint32_t i = 0; i < count; i++) {
        refusal = ifc_server(p->image, p->length, list[i], &place, &start, &length);
        if (refusal) {
            refused(c, refusal, place, 0);
            return;
        }
        tell(c, p->image + start, length);
    }
}

static void take(const struct profile *p, struct call *c) {
    ifc_session session;
    ifc_answer answer;
    uint32_t place, start, length;
    uint32_t refusal = ifc_session_open(&session, c->session_case);
    while (!refusal && session.state == IFC_READY) {
        refusal = ifc_session_advance(&session, p->image, p->length, c->request, c->length, &answer);
        if (refusal == IFC_WRONG_METHOD && !session.forwarded) {
            take_registration(p, c);
            return;
        }
        if (refusal) {
            refused(c, refusal, answer.place, session.forwarded);
            return;
        }
        if (answer.outcome == IFC_ROUTE) {
            route(c);
            return;
        }
        refusal = ifc_server(p->image, p->length, answer.criterion, &place, &start, &length);
        if (refusal) {
            refused(c, refusal, place, session.forwarded);
            return;
        }
        /* c->request is now as the server sent it back, if it did */
        refusal = ifc_session_report(&session, forward(c, p->image + start, length));
    }
    if (refusal) refused(c, refusal, 0, session.forwarded);
    else if (session.state == IFC_RELEASED) reject(c, 408); /* ended: the server has answered, nothing is left to do */
}

/* ------------------------------------------------------------------------------------------------------------------------- */

/* Document 01's example: one criterion, no trigger, server sip:a, terminated. */
static const uint8_t image[31] = {1, 0, 1, 0, 5, 's', 'i', 'p', ':', 'a', 0, 0, 0, 0, 0, 1,
    0, 0, 0, 5, 2, 2, 0, 0, 0, 0, 0, 0, 1, 0xFF, 0xFF};

static const char invite[] = "INVITE sip:b SIP/2.0\r\nFrom: <sip:c>\r\n\r\n";
static const char registers[] = "REGISTER sip:b SIP/2.0\r\nFrom: <sip:c>\r\n\r\n";

static void show(const char *title, size_t image_len, const char *request, uint32_t session_case, uint32_t fate, const char *back) {
    struct profile p = {image, image_len};
    struct call c = {(const uint8_t *)request, strlen(request), session_case, IFC_INITIAL_REGISTRATION, fate, back};
    printf("%s\n", title);
    take(&p, &c);
}

int main(void) {
    show("the server sends the call back", sizeof image, invite, IFC_ORIGINATING, IFC_RETURNED, invite);
    show("the server sends it back as a registration", sizeof image, invite, IFC_ORIGINATING, IFC_RETURNED, registers);
    show("the server sends it back damaged", sizeof image, invite, IFC_ORIGINATING, IFC_RETURNED, "hello");
    show("the server is not reached", sizeof image, invite, IFC_ORIGINATING, IFC_UNREACHABLE, NULL);
    show("the server answers", sizeof image, invite, IFC_ORIGINATING, IFC_FINAL_RESPONSE, NULL);
    show("a registration", sizeof image, registers, IFC_ORIGINATING, IFC_RETURNED, NULL);
    show("no SIP", sizeof image, "hello", IFC_ORIGINATING, IFC_RETURNED, NULL);
    show("a profile cut short", sizeof image - 1, invite, IFC_ORIGINATING, IFC_RETURNED, NULL);
    show("a wrong session case", sizeof image, invite, 4, IFC_RETURNED, NULL);
    show("a wrong report", sizeof image, invite, IFC_ORIGINATING, 3, NULL);
    return 0;
}
