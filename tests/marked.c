/* The trigger of source document 000 that document 01 marks, in both its forms, over requests for which it fits and for which it
 * does not. The rows stand as 000 writes the two expressions, the answers as they follow from them by hand. */
#include <stdio.h>
#include <string.h>
#include "../examples/image.h"
#include "../include/ifc.h"

static struct image_builder b;
static uint8_t image[1024];

static void method(const char *name, int group) {
    image_row(&b, (struct image_row){.kind = ROW_METHOD, .first = name, .group = group});
}

static void not_from_joe(int group) {
    image_row(&b, (struct image_row){.negated = 1, .kind = ROW_HEADER, .first = "From", .content = "joe", .group = group});
}

static size_t criterion(int form) {
    image_criterion(&b, (struct image_criterion){.part = PART_ABSENT, .form = form, .server = "sip:AS1@homedomain.com"});
    return image_end(&b, image, sizeof image);
}

/* INVITE or MESSAGE or (SUBSCRIBE and not From joe) */
static size_t in_dnf(void) {
    image_begin(&b);
    method("INVITE", 0);
    method("MESSAGE", 1);
    method("SUBSCRIBE", 2);
    not_from_joe(2);
    return criterion(FORM_DNF);
}

/* (INVITE or MESSAGE or SUBSCRIBE) and (INVITE or MESSAGE or not From joe) */
static size_t in_cnf(void) {
    image_begin(&b);
    method("INVITE", 0);
    method("MESSAGE", 0);
    method("SUBSCRIBE", 0);
    method("INVITE", 1);
    method("MESSAGE", 1);
    not_from_joe(1);
    return criterion(FORM_CNF);
}

struct asked {
    const char *method, *from;
    int fits;
};

/* Document 01: "SUBSCRIBE with From `joe` no, with no From yes, BYE no". The others from the expression. */
static const struct asked all[] = {
    {"SUBSCRIBE", "From: joe\r\n", 0},
    {"SUBSCRIBE", "", 1},
    {"BYE", "", 0},
    {"SUBSCRIBE", "From: ann\r\n", 1},
    {"SUBSCRIBE", "From: \"joe\" <sip:j@b>\r\n", 0},
    {"INVITE", "From: joe\r\n", 1},
    {"INVITE", "", 1},
    {"MESSAGE", "From: joe\r\n", 1},
    {"MESSAGE", "From: ann\r\n", 1},
    {"BYE", "From: joe\r\n", 0},
    {"BYE", "From: ann\r\n", 0},
    {"subscribe", "", 0},
};

static int is_wrong(const char *form, size_t length, const struct asked *a) {
    char request[128];
    ifc_session session;
    ifc_answer answer;
    snprintf(request, sizeof request, "%s sip:b SIP/2.0\r\n%s\r\n", a->method, a->from);
    uint32_t opened = ifc_session_open(&session, 0);
    uint32_t refused = ifc_session_advance(&session, image, length, (const uint8_t *)request, strlen(request), &answer);
    if (!opened && !refused && answer.outcome == (a->fits ? IFC_FORWARD : IFC_ROUTE)) return 0;
    printf("marked, %s: outcome %u, refusal %u at\n%s", form, answer.outcome, refused, request);
    return 1;
}

static int wrong_over(const char *form, size_t length) {
    int wrong = 0;
    for (size_t i = 0; i < sizeof all / sizeof *all; i++) wrong |= is_wrong(form, length, &all[i]);
    return wrong;
}

int main(void) {
    int wrong = wrong_over("DNF", in_dnf());
    wrong |= wrong_over("CNF", in_cnf());
    if (!wrong) puts("marked: ok");
    return wrong;
}
