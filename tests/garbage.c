/* garbage [SEED COUNT]: calls in any order on whatever comes: bytes drawn at random, samples with bytes changed, samples cut short,
 * session numbers that no session has. Each lent part lies against an inaccessible page.
 *
 * What must hold of every call, whatever it is given: a refusal is one the call may give; on a refusal the session's numbers are
 * what they were, counts are 0, the list is untouched, and only an image fault has a place; an answer keeps to its bounds; image
 * and request are not changed. At the end every refusal, forward and route must have been seen. */
#include "lent.h"
#include "sample.h"

enum { LONGEST = 69632, PLACES = 80 };

static uint32_t call_number;

static void must(int holds, const char *what) {
    if (holds) return;
    printf("garbage: call %u: %s\n", call_number, what);
    exit(1);
}

/* ---- numbers that look random and are the same everywhere */

static uint64_t seed = 1;

static uint32_t draw(uint32_t below) {
    seed ^= seed << 13, seed ^= seed >> 7, seed ^= seed << 17;
    return (uint32_t)(seed >> 32) % below;
}

/* Mostly small, sometimes anything. */
static uint32_t draw_number(uint32_t below) { return draw(8) ? draw(below) : (uint32_t)draw(65536) << 16 | draw(65536); }

/* ---- lent parts */

struct part {
    uint8_t *room, *at, copy[LONGEST];
    size_t length;
};

static struct part image, request, list;

/* Lays the copy at one end of its room. A part of no bytes may be NULL. */
static void lay(struct part *p) {
    p->at = draw(2) ? p->room : p->room + ROOM - p->length;
    if (p->length == 0 && draw(2)) p->at = NULL;
    else memcpy(p->at, p->copy, p->length);
}

static int untouched(const struct part *p) { return p->length == 0 || memcmp(p->at, p->copy, p->length) == 0; }

static void draw_bytes(struct part *p, uint32_t most) {
    p->length = draw(most + 1);
    for (size_t i = 0; i < p->length; i++) p->copy[i] = (uint8_t)draw(256);
}

/* Bytes changed, a cut, or more bytes at the end. */
static void damage(struct part *p, uint32_t most) {
    for (uint32_t i = draw(3); i > 0 && p->length > 0; i--) p->copy[draw((uint32_t)p->length)] = (uint8_t)draw(draw(2) ? 256 : 8);
    if (draw(8) == 0 && p->length > 0) p->length = draw((uint32_t)p->length);
    if (draw(16) == 0)
        for (uint32_t i = draw(4); i > 0 && p->length < most; i--) p->copy[p->length++] = (uint8_t)draw(256);
}

/* The last criterion gets the priority of the first. */
static void repeat_priority(struct part *p) {
    size_t first = p->length - 8 * 15, last = p->length - 15;
    memcpy(p->copy + last, p->copy + first, 4);
}

static void draw_image(void) {
    uint32_t how = draw(12);
    if (how == 0) {
        draw_bytes(&image, draw(8) ? 200 : 33000);
        if (image.length > 0 && draw(2)) image.copy[0] = 1;
    } else if (how == 1) {
        image.length = 32769 + draw(2), memset(image.copy, 0, image.length);
    } else {
        image.length = sample_image(image.copy, IMAGE_MOST);
        if (how == 2) repeat_priority(&image);
        else if (how < 6) damage(&image, 32768);
    }
    lay(&image);
}

static void draw_request(void) {
    uint32_t how = draw(12);
    if (how == 0) {
        draw_bytes(&request, draw(8) ? 200 : LONGEST);
    } else {
        request.length = sample_request(draw(SAMPLE_REQUESTS), (char *)request.copy, SAMPLE_ROOM);
        if (how == 1) request.length = 65536 + draw(2);
        else if (how < 4) damage(&request, LONGEST);
    }
    lay(&request);
}

static void draw_list(void) {
    list.length = draw(draw(2) ? 4 : PLACES);
    for (size_t i = 0; i < list.length; i++) list.copy[i] = (uint8_t)(192 + draw(64));
    lay(&list);
}

/* ---- calls */

static uint32_t refusals[14], forwards, routes, listed, shown, matched, plain_refused[2];
static ifc_session session;

static void seen(uint32_t refusal, const char *may) {
    must(refusal < 14 && may[refusal] == 'y', "a refusal that this call does not give");
    refusals[refusal]++;
}

static int image_fault(uint32_t refusal) { return refusal >= 1 && refusal <= 6; }

static void place_holds(uint32_t refusal, uint32_t place) {
    must(image_fault(refusal) ? place <= image.length : place == 0, "a place where none is, or outside the image");
    must(untouched(&image), "the image was changed");
}

static int same_session(const ifc_session *a, const ifc_session *b) { return memcmp(a, b, sizeof *a) == 0; }

static void check(void) {
    uint32_t place = 7;
    uint32_t refusal = ifc_check(image.at, image.length, &place);
    seen(refusal, "yyyyyyy.......");
    place_holds(refusal, place);
}

static void open_one(void) {
    uint32_t wanted = draw_number(5);
    session.session_case = session.state = session.forwarded = session.last = session.handling = 7;
    uint32_t refusal = ifc_session_open(&session, wanted);
    seen(refusal, "y.......y.....");
    must(session.forwarded == 0 && session.last == 0 && session.handling == 0, "an opened session has forwarded");
    must(refusal == (wanted > 3 ? 8 : 0), "a case is judged wrongly");
    must(session.session_case == (refusal ? 0 : wanted) && session.state == (refusal ? IFC_FINISHED : IFC_READY), "an opening");
}

static void wild_session(void) {
    session.session_case = draw_number(5), session.state = draw_number(6), session.forwarded = draw_number(3);
    session.last = draw_number(100), session.handling = draw_number(3);
}

static void advance(void) {
    ifc_session before = session;
    ifc_answer a = {7, 7, 7, 7, 7, 7};
    uint32_t refusal = ifc_session_advance(&session, image.at, image.length, request.at, request.length, &a);
    seen(refusal, "yyyyyyyy..yy..");
    place_holds(refusal, a.place);
    must(untouched(&request), "the request was changed");
    if (refusal) {
        must(same_session(&session, &before), "a refused advance changed the session");
        must(!a.outcome && !a.criterion && !a.priority && !a.examined && !a.trials, "a refused advance counts");
        return;
    }
    must(before.state == IFC_READY && before.session_case <= 3, "an advance at the wrong moment");
    must(request.length <= 65535, "a request that is too long");
    must(a.examined <= 64, "more examined than there can be");
    if (a.outcome == IFC_FORWARD) {
        ifc_session right = {before.session_case, IFC_WAITING, 1, a.priority, session.handling};
        must(same_session(&session, &right) && session.handling <= 1, "a forward's session");
        must(a.criterion < 64 && a.examined > 0, "a forward's numbers");
        must(!before.forwarded || a.priority > before.last, "a forward back");
        forwards++;
    } else {
        before.state = IFC_FINISHED;
        must(a.outcome == IFC_ROUTE && same_session(&session, &before), "a route's session");
        must(a.criterion == 0 && a.priority == 0, "a route's numbers");
        routes++;
    }
}

static void report(void) {
    ifc_session before = session;
    uint32_t what = draw_number(4), refusal = ifc_session_report(&session, what);
    seen(refusal, "y.......y.y...");
    if (refusal == 0) {
        must(before.state == IFC_WAITING && what <= 2, "a report at the wrong moment");
        must(session.state == (what == 2 ? IFC_ENDED : what == 1 && before.handling ? IFC_RELEASED : IFC_READY), "a report's state");
        before.state = session.state;
    }
    must(same_session(&session, &before), "a report changed more than the state, or was refused and changed it");
}

/* Lists of sessions that no session may be, mostly of equal length; each lies against an inaccessible page. */
static uint8_t *bulk_rooms[3];
static uint32_t bulk_taken, bulk_refused;

static void *bulk_list(int which, size_t bytes, int end) { return end ? bulk_rooms[which] + ROOM - bytes : bulk_rooms[which]; }

static void report_all(void) {
    static ifc_session before[300];
    ifc_session kept = session;
    size_t n = draw(4) ? draw(6) : 250 + draw(10), m = draw(8) ? n : draw(6), k = draw(8) ? n : draw(6);
    int end = (int)draw(2);
    ifc_session *sessions = bulk_list(0, n * sizeof *sessions, end);
    uint32_t *reports = bulk_list(1, 4 * m, end), *numbers = bulk_list(2, 4 * k, end), refusal;
    for (size_t i = 0; i < n; i++) wild_session(), sessions[i] = before[i] = session;
    for (size_t i = 0; i < m; i++) reports[i] = draw_number(4);
    for (size_t i = 0; i < k; i++) numbers[i] = 7;
    session = kept;
    refusal = ifc_reports(n ? sessions : NULL, n, m ? reports : NULL, m, k ? numbers : NULL, k);
    must(refusal == (n == m && n == k && n <= 256 ? 0 : 17), "lengths are judged wrongly");
    for (size_t i = 0; i < n; i++) {
        if (!refusal) must(numbers[i] == 0 || numbers[i] == 8 || numbers[i] == 10, "a refusal that a report does not give");
        if (!refusal && !numbers[i]) before[i].state = sessions[i].state;
        must(same_session(&sessions[i], &before[i]), "a session was changed");
    }
    for (size_t i = 0; refusal && i < k; i++) must(numbers[i] == 7, "a refused call wrote to the numbers");
    refusal ? bulk_refused++ : bulk_taken++;
}

static void list_all(void) {
    uint32_t place = 7, count = 7, examined = 7, trials = 7, refusal;
    uint64_t told = 0;
    refusal = ifc_list(image.at, image.length, request.at, request.length, draw_number(4), draw_number(3), list.at, list.length,
        &place, &count, &examined, &trials);
    seen(refusal, "yyyyyyyyyy.yy.");
    place_holds(refusal, place);
    must(untouched(&request), "the request was changed");
    if (refusal) {
        must(!count && !examined && !trials, "a refused listing counts");
        must(untouched(&list), "a refused listing wrote to the list");
        return;
    }
    must(request.length <= 65535, "a request that is too long");
    must(count <= list.length && count <= examined && examined <= 64, "a listing's numbers");
    for (uint32_t i = 0; i < count; i++) {
        must(list.at[i] < examined && !(told >> list.at[i] & 1), "a number that is no criterion, or twice");
        told |= (uint64_t)1 << list.at[i];
    }
    for (size_t i = count; i < list.length; i++) must(list.at[i] == list.copy[i], "the rest of the list was touched");
    listed += count;
}

static void lookup(void) {
    uint32_t criterion = draw_number(10), place = 7, start = 7, length = 7, present = 7, refusal;
    if (draw(2)) {
        refusal = ifc_server(image.at, image.length, criterion, &place, &start, &length);
        present = !refusal;
    } else {
        refusal = ifc_information(image.at, image.length, criterion, &place, &present, &start, &length);
    }
    seen(refusal, "yyyyyyy......y");
    place_holds(refusal, place);
    must(present <= (refusal ? 0u : 1u), "a part that is present though refused");
    must((size_t)start + length <= image.length, "a part outside the image");
    if (!present) must(start == 0 && length == 0, "a part where there is none");
}

/* A row of the sample's table, mostly, and of an image that was drawn at random, seldom. */
static void show(void) {
    uint32_t row = draw_number(16), place = 7, found = 7, field = 7, value = 7, start = 7, length = 7;
    uint32_t refusal = ifc_show(image.at, image.length, request.at, request.length, row, &place, &found, &field, &value, &start, &length);
    seen(refusal, "yyyyyyyy.....y");
    place_holds(refusal, place);
    must(untouched(&request), "the request was changed");
    must(found <= (refusal ? 0u : 1u), "something is shown though refused");
    must(row < 2048 || refusal, "a row that no image has");
    if (!found) {
        must(!field && !value && !start && !length, "a place where nothing is shown");
        return;
    }
    must(request.length <= 65535, "a request that is too long");
    must(field < request.length && value < request.length, "a field or value that the request is too short for");
    must((size_t)start + length <= request.length, "a part that the request is too short for");
    shown++;
}

/* A few bytes that make patterns, on a text mostly short enough. Three `*` at most: more could take long. */
static void plain(void) {
    static const uint8_t letters[] = "ab*.[]^$-\\";
    static struct part pattern, text;
    uint32_t found = 7, start = 7, length = 7;
    if (!pattern.room) pattern.room = room(), text.room = room();
    pattern.length = draw(7);
    for (size_t i = 0; i < pattern.length; i++) pattern.copy[i] = draw(8) ? letters[draw(10)] : (uint8_t)draw(256);
    text.length = draw(16) ? draw(40) : 250 + draw(12);
    for (size_t i = 0; i < text.length; i++) text.copy[i] = draw(8) ? letters[draw(2)] : (uint8_t)draw(256);
    lay(&pattern), lay(&text);
    uint32_t refusal = ifc_plain(pattern.at, pattern.length, text.at, text.length, &found, &start, &length);
    must(refusal == 0 || refusal == 5 || refusal == 17, "a refusal that the plain matcher does not give");
    must(refusal == 5 || (refusal == 17) == (text.length > 256), "the plain matcher's text is judged wrongly");
    must(refusal == 5 || pattern.length > 0, "the plain matcher takes the empty pattern");
    must(untouched(&pattern) && untouched(&text), "the plain matcher changed what it was lent");
    must(found <= (refusal ? 0u : 1u) && (found || (!start && !length)), "the plain matcher's numbers");
    must((size_t)start + length <= text.length, "a part that the text is too short for");
    matched += found;
    if (refusal) plain_refused[refusal == 17]++;
}

int main(int argc, char **argv) {
    uint32_t count = argc > 2 ? (uint32_t)strtoul(argv[2], NULL, 10) : 20000;
    if (argc > 1) seed = strtoul(argv[1], NULL, 10) * 2 + 1;
    image.room = room(), request.room = room(), list.room = room();
    for (int i = 0; i < 3; i++) bulk_rooms[i] = room();
    ifc_session_open(&session, 0);
    draw_image(), draw_request(), draw_list();
    for (call_number = 0; call_number < count; call_number++) {
        if (draw(4) == 0) draw_image();
        if (draw(3) == 0) draw_request();
        if (session.state > IFC_WAITING && draw(2)) open_one();
        switch (draw(17)) {
        case 0: check(); break;
        case 1: open_one(); break;
        case 2: wild_session(); break;
        case 3: case 4: lookup(); break;
        case 5: if (draw(2)) show(); else plain(); break;
        case 6: case 7: case 8: draw_list(), list_all(); break;
        case 9: case 10: case 11: report(); break;
        case 12: report_all(); break;
        default: advance();
        }
    }
    for (int i = 0; i < 14; i++) must(refusals[i] > 0, "some refusal was never seen: more calls are needed");
    must(forwards > 0 && routes > 0 && listed > 0 && shown > 0, "some answer was never seen: more calls are needed");
    must(bulk_taken > 0 && bulk_refused > 0, "no lists were taken, or none refused: more calls are needed");
    must(matched > 0 && plain_refused[0] > 0 && plain_refused[1] > 0, "some answer of the plain matcher was never seen");
    printf("garbage: ok (%u calls, %u forwards, %u routes, %u listed, %u shown, %u lists of reports, %u matched)\n", count, forwards, routes,
        listed, shown, bulk_taken, matched);
    return 0;
}
