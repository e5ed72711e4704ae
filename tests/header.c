/* The types and numbers that include/ifc.h declares are those of document 01 and of the design: each call is assigned to a pointer of
 * the type written out here, each number is held against the one written here. Compiled with warnings as errors, as C and as C++;
 * the three helpers are used, so that they are compiled, too. */
#include <stddef.h>
#include <stdint.h>
#include "../include/ifc.h"

typedef const uint8_t *bytes;
typedef uint32_t number, *lent;

number (*check)(bytes, size_t, lent) = ifc_check;
number (*open_session)(number, lent, lent, lent, lent, lent) = ifc_open;
number (*advance)(bytes, size_t, bytes, size_t, number, lent, lent, lent, lent, lent, lent, lent, lent, lent, lent) =
    ifc_advance;
number (*report)(number, lent, number, number, number, number) = ifc_report;
number (*list)(bytes, size_t, bytes, size_t, number, number, uint8_t *, size_t, lent, lent, lent, lent) = ifc_list;
number (*server)(bytes, size_t, number, lent, lent, lent) = ifc_server;
number (*information)(bytes, size_t, number, lent, lent, lent, lent) = ifc_information;
number (*show)(bytes, size_t, bytes, size_t, number, lent, lent, lent, lent, lent, lent) = ifc_show;
number (*reports_in_bulk)(struct ifc_session *, size_t, const number *, size_t, lent, size_t) = ifc_reports;
number (*plain)(bytes, size_t, bytes, size_t, lent, lent, lent) = ifc_plain;

number (*session_open)(ifc_session *, number) = ifc_session_open;
number (*session_advance)(ifc_session *, bytes, size_t, bytes, size_t, ifc_answer *) = ifc_session_advance;
number (*session_report)(ifc_session *, number) = ifc_session_report;

/* NAME does not compile unless what it says holds. */
#define HOLDS(name, what) typedef char name[(what) ? 1 : -1]

/* A session is its five numbers and an answer its six, in this order, with nothing between. ifc_reports walks a list of sessions: the
 * record of crates/session is `#[repr(C)]` with these five, which nothing but this and tests/reports.c holds to the struct here. */
#define STANDS(type, member, place) HOLDS(type##_##member, offsetof(type, member) == 4 * (place))
HOLDS(session_is_five_numbers, sizeof(ifc_session) == 20);
STANDS(ifc_session, session_case, 0);
STANDS(ifc_session, state, 1);
STANDS(ifc_session, forwarded, 2);
STANDS(ifc_session, last, 3);
STANDS(ifc_session, handling, 4);
HOLDS(answer_is_six_numbers, sizeof(ifc_answer) == 24);
STANDS(ifc_answer, place, 0);
STANDS(ifc_answer, outcome, 1);
STANDS(ifc_answer, criterion, 2);
STANDS(ifc_answer, priority, 3);
STANDS(ifc_answer, examined, 4);
STANDS(ifc_answer, trials, 5);

/* "At most 32,768 bytes"; "at most 65,535 bytes"; "criteria (0..64)" */
HOLDS(limits, IFC_IMAGE_MOST == 32768 && IFC_REQUEST_MOST == 65535 && IFC_CRITERIA_MOST == 64);

/* "a lent list of up to 256 sessions"; "17 for lengths that differ or exceed 256" (change request 8) */
HOLDS(in_bulk, IFC_REPORTS_MOST == 256 && IFC_LENGTHS == 17);
/* Change request 7: "texts up to 256 bytes", "17 for a longer text" */
HOLDS(of_plain, IFC_PLAIN_MOST == 256);

/* "Refusal numbers" */
HOLDS(of_images, IFC_ACCEPTED == 0 && IFC_IMAGE_TOO_LONG == 1 && IFC_IMAGE_CUT == 2 && IFC_IMAGE_NOT_AT_END == 3 &&
    IFC_IMAGE_FIELD == 4 && IFC_IMAGE_STRING == 5 && IFC_IMAGE_PRIORITY == 6);
HOLDS(of_calls, IFC_REQUEST_UNREADABLE == 7 && IFC_NUMBER_OUT_OF_RANGE == 8 && IFC_TYPE_OUT_OF_RANGE == 9 && IFC_WRONG_MOMENT == 10 &&
    IFC_WRONG_METHOD == 11 && IFC_TOO_FEW_PLACES == 12 && IFC_NO_SUCH_CRITERION == 13);

/* The order of source document 002's session cases; "bit 0 initial, 1 re-registration, 2 de-registration" */
HOLDS(cases, IFC_ORIGINATING == 0 && IFC_TERMINATING_REGISTERED == 1 && IFC_TERMINATING_UNREGISTERED == 2 &&
    IFC_ORIGINATING_UNREGISTERED == 3);
HOLDS(types, IFC_INITIAL_REGISTRATION == 0 && IFC_REREGISTRATION == 1 && IFC_DEREGISTRATION == 2);

/* "0 continued, 1 terminated"; "0 returned, 1 unreachable, 2 final response"; states and outcomes are the design's */
HOLDS(handlings, IFC_CONTINUED == 0 && IFC_TERMINATED == 1);
HOLDS(reports, IFC_RETURNED == 0 && IFC_UNREACHABLE == 1 && IFC_FINAL_RESPONSE == 2);
HOLDS(states, IFC_READY == 0 && IFC_WAITING == 1 && IFC_FINISHED == 2 && IFC_RELEASED == 3 && IFC_ENDED == 4);
HOLDS(outcomes, IFC_REFUSED == 0 && IFC_FORWARD == 1 && IFC_ROUTE == 2);
