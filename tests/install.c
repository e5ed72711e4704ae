/* A program over the installed header and archive, compiled as C and as C++: document 01's image of one criterion without trigger
 * forwards a call, then lets it be routed. The exit status says what went wrong. */
#include <ifc.h>

static const uint8_t image[31] = {1, 0, 1, 0, 5, 's', 'i', 'p', ':', 'a', 0, 0, 0, 0, 0, 1,
    0, 0, 0, 5, 2, 2, 0, 0, 0, 0, 0, 0, 1, 0xFF, 0xFF};
static const uint8_t request[] = "INVITE sip:b SIP/2.0\r\n\r\n";

int main(void) {
    ifc_session session;
    ifc_answer answer;
    size_t length = sizeof request - 1;
    if (ifc_session_open(&session, IFC_ORIGINATING)) return 1;
    if (ifc_session_advance(&session, image, sizeof image, request, length, &answer)) return 2;
    if (answer.outcome != IFC_FORWARD || answer.criterion != 0 || answer.priority != 5) return 3;
    if (ifc_session_report(&session, IFC_RETURNED)) return 4;
    if (ifc_session_advance(&session, image, sizeof image, request, length, &answer)) return 5;
    return answer.outcome == IFC_ROUTE ? 0 : 6;
}
