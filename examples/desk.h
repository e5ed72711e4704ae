/* The sample desk's profile. It has three servers.
 *
 * The recorder takes, in every session case, an INVITE with a session line m=audio, a MESSAGE and a first REGISTER, each only if a From
 * field holds a desk's address (DESK_ADDRESS); `f:` is From too, since change request 1. If its default handling is terminated, a
 * call does not go on without it. Past it go, beside other methods,
 * - an INVITE without m=audio in its body, also one that leaves the offer to the other side;
 * - since change request 5, an INVITE whose body is not told to be a session description: with no Content-Type field, with two, or
 *   with another type, a body of many parts too, whatever lines it has;
 * - a desk's address in another form: with an escape (%64esk14 for desk14), with a password, as a tel: number.
 *
 * Billing takes calls to other houses. Voicemail takes calls to a desk and learns when one comes and goes. */
#ifndef DESK_H
#define DESK_H
#include <ifc.h>
#include "image.h"

enum { BILLING, RECORDER, VOICEMAIL }; /* numbers of the criteria, in the order of the image */

/* Numbers of rows in the image's table: the two rows of the recorder that ask for a text, and how many there are in all. */
enum { RECORDER_SOUND = 3, RECORDER_FROM = 6, DESK_ROWS = 10 };

/* sip: or sips:, a desk's number, the house; scheme and house in any case. It is open at both ends: with or without <> and port, and
 * also in a display name or before a longer house, for the recorder shall rather take one call too many than one too few. */
#define DESK_ADDRESS "[Ss][Ii][Pp][Ss]*:desk[0-9]*@[Dd][Ee][Ss][Kk]\\.[Ee][Xx][Aa][Mm][Pp][Ll][Ee]"

static inline void desk_method(struct image_builder *b, const char *name, int set, int group) {
    image_row(b, (struct image_row){.kind = ROW_METHOD, .first = name, .set = set, .group = group});
}

/* Its image, with the recorder's default handling; its length. */
static inline size_t desk_image(int recorder_handling, uint8_t *to, size_t room) {
    static struct image_builder b;
    image_begin(&b);

    /* billing, every group must hold: an INVITE, and no To of this house */
    desk_method(&b, "INVITE", 0, 0);
    image_row(&b, (struct image_row){.negated = 1, .kind = ROW_HEADER, .first = "^To$", .content = "@desk\\.example", .group = 1});
    image_criterion(&b, (struct image_criterion){.priority = 20, .part = PART_REGISTERED, .form = FORM_CNF,
        .server = "sip:billing@desk.example", .handling = HANDLING_CONTINUED});

    /* the recorder, one group must hold: an INVITE with sound, a MESSAGE, a first REGISTER; each only From a desk */
    desk_method(&b, "INVITE", 0, 0);
    image_row(&b, (struct image_row){.kind = ROW_LINE, .first = "m", .content = "^audio ", .group = 0});
    desk_method(&b, "MESSAGE", 0, 1);
    desk_method(&b, "REGISTER", INITIAL, 2);
    image_row(&b, (struct image_row){.kind = ROW_HEADER, .first = "^From$", .content = DESK_ADDRESS});
    image_also(&b, 1);
    image_also(&b, 2);
    image_criterion(&b, (struct image_criterion){.priority = 10, .part = PART_ABSENT, .form = FORM_DNF,
        .server = "sip:recorder@desk.example", .handling = recorder_handling, .information = "retain=7y"});

    /* voicemail, one group must hold: a first or last REGISTER, an INVITE to the desk (case 1) */
    desk_method(&b, "REGISTER", INITIAL | DEREGISTRATION, 0);
    image_row(&b, (struct image_row){.kind = ROW_CASE, .session_case = IFC_TERMINATING_REGISTERED, .group = 1});
    desk_method(&b, "INVITE", 0, 1);
    image_criterion(&b, (struct image_criterion){.priority = 30, .part = PART_ABSENT, .form = FORM_DNF,
        .server = "sip:voicemail@desk.example", .handling = HANDLING_ABSENT});

    return image_end(&b, to, room);
}

/* A profile of one row: whatever has a session line m=audio goes to the media server. Its image's length. */
static inline size_t sound_image(uint8_t *to, size_t room) {
    static struct image_builder b;
    image_begin(&b);
    image_row(&b, (struct image_row){.kind = ROW_LINE, .first = "m", .content = "^audio "});
    image_criterion(&b, (struct image_criterion){.priority = 10, .part = PART_ABSENT, .form = FORM_DNF,
        .server = "sip:media@desk.example", .handling = HANDLING_CONTINUED});
    return image_end(&b, to, room);
}

#endif
