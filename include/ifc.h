/* ifc: decides to which application server a SIP call goes next.
 *
 * A controller lends bytes and numbers; the library reads them and answers with numbers. It opens no file, sends nothing and
 * allocates nothing. What it answers is settled by the project's requirement paper, document 01; sentences in quotes here are from
 * there. It follows 3GPP's initial filter criteria, RFC 3261 and POSIX basic regular expressions.
 *
 * Profile image   the subscriber's filter criteria in the house format (docs/IMAGE.md of the source), at most 32,768 bytes. Every call
 *                 that takes an image judges the whole of it before using it, so it need not be checked before.
 * Request         one SIP request, cut from the wire by the host: it begins with its start line, with no line before it; the body is
 *                 all that follows the first empty line; lines of the head end with CR LF; at most 65,535 bytes. Header names of one
 *                 letter that RFC 3261 lists count as the long ones (`f:` is `From:`), since change request 1. Content-Type decides
 *                 whether the body has lines for SessionDescription rows, since change request 5: it has them only if there is exactly
 *                 one such field (`c:` too), with one value, and that, up to the first semicolon and trimmed, is `application/sdp` in
 *                 any case. Otherwise such a row finds none, costs no trial, and fits if it is negated. The body is never refused.
 * Session         five numbers that the caller keeps between calls: see ifc_session. Nothing needs closing.
 * Criterion       named by its number in the image, counted from 0, not by its priority.
 * Row             named by its number in the image's table of trigger rows, counted from 0 (ifc_show, since change request 2).
 *
 * What every call keeps to
 *
 * - It returns a refusal number, 0 for none. If several would apply, it is the first in this order: 10, 1 to 6 (the first fault
 *   of the image in reading order), 7, 11, 8, 9, 12; for a lookup 13 after the image, for ifc_show 13 after 7, for ifc_plain 5, 17,
 *   for ifc_reports 17 alone. A refusal names no server and no route: the host must not let the SIP call go on. The session may be
 *   tried again with what was wrong mended.
 * - A lent number (uint32_t *) is written on every return. On a refusal it is 0, with two exceptions: `place`, where an image
 *   fault (1 to 6) stands, in bytes from the image's start (it may be 0: the number returned tells whether there is one); and a
 *   session's numbers, which hold what they held. Only ifc_open gives them new values on a refusal. In a list nothing is written then.
 * - Image and request, and ifc_plain's pattern and text, are only read, and lent for the call: nothing points into them afterwards,
 *   and nobody may change them while it runs. They may be NULL if their length is 0, and so may a list. All other pointers must be
 *   valid and aligned. Lent numbers and lists overlap nothing else that is lent.
 * - There is no global state. Any number of threads may call at once, also over one image; a session belongs to one thread at a
 *   time, as any variable does.
 * - Stack: at most 160 KB (163,840 bytes) for a call, measured.
 * - Time grows with rows times request. Compiled for aarch64, a typical advance takes some 13 us, and the dearest that we found,
 *   2,048 rows of sixty starred elements over one value of 65,516 bytes, some 12 s. On x86-64 an earlier typical advance took 24 us.
 *
 * C99 and C++. Link with libifc.a: code for Linux on x86-64 that needs at most memcpy and memset. */
#ifndef IFC_H
#define IFC_H

#include <stddef.h>
#include <stdint.h>

#ifdef __cplusplus
extern "C" {
#endif

/* ---- numbers */

/* Limits. */
enum { IFC_IMAGE_MOST = 32768, IFC_REQUEST_MOST = 65535, IFC_CRITERIA_MOST = 64 };
enum { IFC_REPORTS_MOST = 256, IFC_PLAIN_MOST = 256 }; /* ifc_reports, ifc_plain */

/* Refusals, each with its line of document 01, and 17 with that of change request 8. */
enum {
    IFC_ACCEPTED = 0,
    IFC_IMAGE_TOO_LONG = 1,       /* image over 32,768 */
    IFC_IMAGE_CUT = 2,            /* image ends too early */
    IFC_IMAGE_NOT_AT_END = 3,     /* bytes after the criteria */
    IFC_IMAGE_FIELD = 4,          /* field out of range, order or table; edition not 1; row with no membership or above eight */
    IFC_IMAGE_STRING = 5,         /* string wrong for its use; for ifc_plain: no pattern */
    IFC_IMAGE_PRIORITY = 6,       /* repeated priority */
    IFC_REQUEST_UNREADABLE = 7,   /* request unreadable */
    IFC_NUMBER_OUT_OF_RANGE = 8,  /* case above 3 (open, list), report above 2 */
    IFC_TYPE_OUT_OF_RANGE = 9,    /* REGISTER with type above 2 */
    IFC_WRONG_MOMENT = 10,        /* call at the wrong moment; numbers that no session can have */
    IFC_WRONG_METHOD = 11,        /* advance on REGISTER, listing on another method */
    IFC_TOO_FEW_PLACES = 12,      /* more fitting criteria than places */
    IFC_NO_SUCH_CRITERION = 13,   /* no such criterion; for ifc_show: no such row */
    IFC_LENGTHS = 17              /* ifc_reports: lengths that differ or exceed 256; ifc_plain: text over 256 bytes */
};

/* Session cases, as 3GPP's Cx interface numbers them. */
enum {
    IFC_ORIGINATING = 0,
    IFC_TERMINATING_REGISTERED = 1,
    IFC_TERMINATING_UNREGISTERED = 2,
    IFC_ORIGINATING_UNREGISTERED = 3
};

/* Registration types. */
enum { IFC_INITIAL_REGISTRATION = 0, IFC_REREGISTRATION = 1, IFC_DEREGISTRATION = 2 };

/* States of a session. */
enum {
    IFC_READY = 0,    /* advance may be called */
    IFC_WAITING = 1,  /* a server was named: report what became of the forward */
    IFC_FINISHED = 2, /* routed normally, or the opening was refused */
    IFC_RELEASED = 3, /* the server was not reached, and its default handling is "terminated" */
    IFC_ENDED = 4     /* the server gave the final response */
};

/* Default handling of the criterion last forwarded; "absent" in the image is read as continued. */
enum { IFC_CONTINUED = 0, IFC_TERMINATED = 1 };

/* Outcomes of an advance. 0 is none of them, so that a caller who forgets the refusal number cannot take it for routing. */
enum { IFC_REFUSED = 0, IFC_FORWARD = 1, IFC_ROUTE = 2 };

/* What is reported of a forward. */
enum {
    IFC_RETURNED = 0,      /* the server sent the call back: go on */
    IFC_UNREACHABLE = 1,   /* the server was not reached: go on if the default is continued, else the session is released */
    IFC_FINAL_RESPONSE = 2 /* the server answered finally: the session has ended */
};

/* ---- the session */

/* A session's five numbers. Copy, store and send them as you like; the library keeps nothing. */
typedef struct ifc_session {
    uint32_t session_case; /* 0 to 3 */
    uint32_t state;        /* IFC_READY to IFC_ENDED */
    uint32_t forwarded;    /* 1 if anything was forwarded, else 0 */
    uint32_t last;         /* priority of the last criterion forwarded, 0 if none */
    uint32_t handling;     /* its default handling, 0 if none */
} ifc_session;

/* ---- the calls */

/* The first fault of a profile image in reading order: 0 or 1 to 6, and its place in *place. */
uint32_t ifc_check(const uint8_t *image, size_t image_len, uint32_t *place);

/* "Opened with a case; ready, nothing forwarded." Writes all five numbers of a session. Refused with 8: "a finished session of
 * case 0", on which every later call is refused. */
uint32_t ifc_open(uint32_t wanted_case, uint32_t *session_case, uint32_t *state, uint32_t *forwarded, uint32_t *last,
    uint32_t *handling);

/* The next server of a ready session: "looks at criteria with priority above the last one forwarded (all, if none), smallest
 * first". The request may differ at each advance, as servers change it.
 *
 * *outcome is IFC_FORWARD: the first of these that fits is *criterion, its priority *priority; the session waits.
 * Or IFC_ROUTE: none fits; criterion and priority are 0; the session is finished.
 * *examined: "criteria above the last one up to and with the answer, or all of those".
 * *trials: how many comparisons of a row with a part of the request this took, "every row once with no skipping".
 *
 * Refused with 10 (not ready, or numbers that no session can have), 1 to 6, 7, or 11 (a REGISTER is listed instead). */
uint32_t ifc_advance(const uint8_t *image, size_t image_len, const uint8_t *request, size_t request_len, uint32_t session_case,
    uint32_t *state, uint32_t *forwarded, uint32_t *last, uint32_t *handling, uint32_t *place, uint32_t *outcome,
    uint32_t *criterion, uint32_t *priority, uint32_t *examined, uint32_t *trials);

/* What became of a forward, for a waiting session. Only the state changes. Refused with 10 or 8. */
uint32_t ifc_report(uint32_t session_case, uint32_t *state, uint32_t forwarded, uint32_t last, uint32_t handling,
    uint32_t report);

/* For a REGISTER, without a session: the numbers of "every fitting criterion, priority rising" in the first places of the list,
 * one byte a place; the rest of the list stays as it was. *count says how many. *examined is the number of criteria, *trials as
 * for an advance. 3GPP counts a REGISTER as originating; the case is the host's to give.
 *
 * Refused with 1 to 6, 7, 11 (another method), 8, 9, or 12 (list too short; IFC_CRITERIA_MOST places always suffice): the list
 * stays. */
uint32_t ifc_list(const uint8_t *image, size_t image_len, const uint8_t *request, size_t request_len, uint32_t session_case,
    uint32_t registration_type, uint8_t *list, size_t list_len, uint32_t *place, uint32_t *count, uint32_t *examined,
    uint32_t *trials);

/* Where a criterion's server name stands in the image: *length bytes (never 0) from image + *start, with no zero byte at the end.
 * Lend the image that the advance or the listing was lent: in another image the number names another server, or none (13).
 * Refused with 1 to 6 or 13. */
uint32_t ifc_server(const uint8_t *image, size_t image_len, uint32_t criterion, uint32_t *place, uint32_t *start,
    uint32_t *length);

/* Whether a criterion has service information (*present 1 or 0), and where it stands in the image (start and length are 0 if it is
 * absent). Present information may be empty. The image as for ifc_server. Refused with 1 to 6 or 13. */
uint32_t ifc_information(const uint8_t *image, size_t image_len, uint32_t criterion, uint32_t *place, uint32_t *present,
    uint32_t *start, uint32_t *length);

/* Which text made a row of a trigger match, for the staff who are asked why a server got a call or did not (since change request 2).
 * `row` is a row's number in the image's table, whether a criterion uses it or not. Session case, registration type, profile part and
 * the other rows play no part, and a REGISTER may be asked too.
 *
 * *found is 1 for a SIPHeader or SessionDescription row that matched "before negation": a negated row that is found is one that does
 * not fit. Then the four numbers say where, each counted from 0:
 * *field   which field of the head, all of them counted, whatever their names; for a SessionDescription row which session line, those
 *          lines alone counted that are fields (second byte `=`). It is the first whose name or type matches and of which, if the row
 *          has Content, some value matches;
 * *value   which of its values, the first that matches. The field's value is cut at commas as it is for matching, and empty pieces
 *          count. A session line has one value;
 * *start, *length   the part of that value that the Content pattern fits: the smallest start, and of those the longest length, in
 *          bytes. They are bytes of the value as read: the piece between its commas, white space at its ends gone and each run of it
 *          inside, folds too, one SP; of a session line all after the `=`. The length may be 0: `a*` on `baa` fits at 0, length 0.
 * Without Content value, start and length are 0.
 *
 * *found is 0, and so are the four, if nothing matched or the row is of another kind (RequestURI, Method, SessionCase).
 * As for the other calls, two readable requests that agree in what the image's rows ask for get the same answer.
 * Refused with 1 to 6, 7, or 13 (no such row). */
uint32_t ifc_show(const uint8_t *image, size_t image_len, const uint8_t *request, size_t request_len, uint32_t row,
    uint32_t *place, uint32_t *found, uint32_t *field, uint32_t *value, uint32_t *start, uint32_t *length);

/* ifc_report for each session of a list (since change request 8): a server goes down, and hundreds of sessions that wait for it get
 * the same news, or each its own. Gather the sessions in an array, at most IFC_REPORTS_MOST of them, with a report for each and a
 * place for each refusal number; copy the sessions back from there, or keep them there. Lengths are counts of entries, not bytes.
 *
 * refusals[i] gets the number that ifc_report gives for sessions[i] and reports[i], 0 for none, and sessions[i].state is as that call
 * leaves it; every other number of every session stays. A session that is refused stays as it is, and those behind it get their report
 * all the same: look at each number, not at the call's alone. Where a session stands in the list makes no difference. From some
 * sixteen sessions on it costs less than so many single calls.
 *
 * It returns 0 also where single reports were refused, and for three empty lists. Refused with 17 (lengths that differ, or above 256):
 * no list is touched. */
uint32_t ifc_reports(struct ifc_session *sessions, size_t sessions_len, const uint32_t *reports, size_t reports_len,
    uint32_t *refusals, size_t refusals_len);

/* For testers: where an edition 1 pattern matches a text, by a second, plain matcher that is short enough to be read in a meeting
 * (crates/plain of the source; since change request 7). It is proved to agree with the main one, by which the other calls answer, on
 * every pattern and text that it takes. None of them calls it.
 *
 * The pattern is one as rows have them; it may be longer than an image's strings. It is tried as written, on at most
 * IFC_PLAIN_MOST bytes, which may be any. *found is 1 if some part of the text fits, and then *start and *length say which: the
 * smallest start, counted from 0, and of those the longest length, which may be 0. Or it is 0, and so are both.
 *
 * It "tries the choices one after the other": its time is exponential at worst, many times as long with each `*`. Most pairs take
 * microseconds. On 256 `a` two `a*` take 1 ms, three 0.1 s, four 4 s, measured, and sixty would not end in a lifetime: never lend it
 * what a stranger wrote. Its stack grows with pattern and text: 46,000 bytes at most, measured over the deepest pairs.
 * Refused with 5 (no pattern, the empty one too), then 17 (text over 256 bytes). */
uint32_t ifc_plain(const uint8_t *pattern, size_t pattern_len, const uint8_t *text, size_t text_len, uint32_t *found,
    uint32_t *start, uint32_t *length);

/* ---- for convenience: the same calls over two structs. They only pass addresses. */

/* What an advance answers. */
typedef struct ifc_answer {
    uint32_t place;     /* of an image fault */
    uint32_t outcome;   /* IFC_REFUSED, IFC_FORWARD or IFC_ROUTE */
    uint32_t criterion; /* for ifc_server and ifc_information */
    uint32_t priority;
    uint32_t examined;
    uint32_t trials;
} ifc_answer;

static inline uint32_t ifc_session_open(ifc_session *session, uint32_t wanted_case) {
    return ifc_open(wanted_case, &session->session_case, &session->state, &session->forwarded, &session->last,
        &session->handling);
}

static inline uint32_t ifc_session_advance(ifc_session *session, const uint8_t *image, size_t image_len, const uint8_t *request,
    size_t request_len, ifc_answer *answer) {
    return ifc_advance(image, image_len, request, request_len, session->session_case, &session->state, &session->forwarded,
        &session->last, &session->handling, &answer->place, &answer->outcome, &answer->criterion, &answer->priority,
        &answer->examined, &answer->trials);
}

static inline uint32_t ifc_session_report(ifc_session *session, uint32_t report) {
    return ifc_report(session->session_case, &session->state, session->forwarded, session->last, session->handling, report);
}

#ifdef __cplusplus
}
#endif
#endif
