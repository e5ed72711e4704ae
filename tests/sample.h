/* A profile with every kind of row and every form, and requests that lead through it in many ways. */
#ifndef SAMPLE_H
#define SAMPLE_H
#include <stdio.h>
#include "../examples/image.h"
#include "../include/ifc.h"

static inline void sample_row(struct image_builder *b, int negated, int kind, const char *first, const char *content, int group) {
    image_row(b, (struct image_row){.negated = negated, .kind = kind, .first = first, .content = content, .group = group});
}

static inline void sample_criterion(struct image_builder *b, uint32_t priority, int part, int form, int handling,
    const char *information) {
    image_criterion(b, (struct image_criterion){.priority = priority, .part = part, .form = form, .server = "sip:s@sample.example",
        .handling = handling, .information = information});
}

/* Its length. Eight criteria, priorities not in the order of the image. */
static inline size_t sample_image(uint8_t *to, size_t room) {
    static struct image_builder b;
    image_begin(&b);
    sample_row(&b, 0, ROW_METHOD, "INVITE", NULL, 0);
    sample_row(&b, 0, ROW_HEADER, "^From$", "<sip:desk[0-9]*@", 1);
    sample_criterion(&b, 40, PART_REGISTERED, FORM_CNF, HANDLING_TERMINATED, NULL);
    sample_row(&b, 0, ROW_LINE, "m", "^audio .*AVP", 0);
    sample_row(&b, 1, ROW_HEADER, "^X-Test", NULL, 0);
    image_also(&b, 1);
    sample_row(&b, 0, ROW_METHOD, "MESSAGE", NULL, 1);
    sample_criterion(&b, 10, PART_ABSENT, FORM_DNF, HANDLING_CONTINUED, "retain=7y");
    sample_row(&b, 0, ROW_URI, "sip:b@sample.example", NULL, 0);
    sample_criterion(&b, 30, PART_UNREGISTERED, FORM_DNF, HANDLING_ABSENT, "");
    image_row(&b, (struct image_row){.kind = ROW_CASE, .session_case = 1});
    image_row(&b, (struct image_row){.kind = ROW_METHOD, .first = "REGISTER", .set = INITIAL | DEREGISTRATION});
    sample_criterion(&b, 20, PART_REGISTERED, FORM_CNF, HANDLING_CONTINUED, NULL);
    sample_row(&b, 0, ROW_HEADER, "[Ss]ub.*t$", "a*b*c*\\.\\*[^d-f]", 0);
    sample_row(&b, 0, ROW_HEADER, "^allow$", "^ACK$", 1);
    sample_criterion(&b, 50, PART_ABSENT, FORM_DNF, HANDLING_TERMINATED, NULL);
    sample_criterion(&b, 70, PART_REGISTERED, FORM_NO_TRIGGER, HANDLING_TERMINATED, NULL);
    sample_row(&b, 1, ROW_LINE, ".", "none$", 3);
    sample_criterion(&b, 60, PART_ABSENT, FORM_CNF, HANDLING_CONTINUED, NULL);
    sample_row(&b, 0, ROW_HEADER, "^x-test-call$", NULL, 0);
    sample_criterion(&b, 4294967295u, PART_ABSENT, FORM_CNF, HANDLING_CONTINUED, NULL);
    return image_end(&b, to, room);
}

/* One of 1,024 requests, by the bits of the variant; its length. Of one in two the body is a session description. */
static inline size_t sample_request(uint32_t variant, char *to, size_t room) {
    static const char *const methods[4] = {"INVITE", "MESSAGE", "REGISTER", "OPTIONS"};
    return (size_t)snprintf(to, room, "%s sip:%s@sample.example SIP/2.0\r\n%s%s%s%s%s%s\r\n%s%s", methods[variant & 3],
        variant & 4 ? "a" : "b", variant & 8 ? "From: \"Desk\" <sip:desk14@sample.example>;tag=1\r\n" : "From: <sip:joe@b>\r\n",
        variant & 16 ? "X-Test-Call : 1\r\n" : "", variant & 32 ? "Allow: INVITE, \"ACK\",\r\n ACK, BYE\r\n" : "Allow: BYE\r\n",
        variant & 64 ? "subject: aabbcc.*,g\r\n" : "", "Via: SIP/2.0/UDP 192.0.2.14\r\n",
        variant & 512 ? "c: application/pidf+xml\r\n" : "Content-Type: Application/SDP ;\r\n a=\"b,c\"\r\n",
        variant & 128 ? "v=0\r\nm=audio 49170 RTP/AVP 8\r\na=x\r\n" : "", variant & 256 ? "a=curr:qos local none" : "no line");
}

enum { SAMPLE_REQUESTS = 1024, SAMPLE_ROOM = 1024 };

#endif
