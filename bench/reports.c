/* reports                    what it costs to report on a list of sessions in one call, beside as many single calls
 * reports count SIDE TIMES   one of the two over one of the lists, for counting instructions from outside
 *
 * A report is good for a waiting session once, so each pass has a list of its own, copied beforehand from one that waits. */
#include <stddef.h>
#include <stdint.h>
#include <stdio.h>
#include <stdlib.h>
#include <string.h>
#include <time.h>
#include "../include/ifc.h"

enum { PASSES = 512, MOST = IFC_REPORTS_MOST };

static const struct {
    const char *name;
    uint32_t length;
    int refused; /* every session is refused */
} all[] = {{"1 session", 1, 0}, {"16 sessions", 16, 0}, {"256 sessions", MOST, 0}, {"256 sessions, all refused", MOST, 1}};
enum { ALL = sizeof all / sizeof *all };

static ifc_session waiting[MOST], lists[PASSES][MOST];
static uint32_t news[MOST], refusals[MOST], length;

static void stop(const char *why) {
    fprintf(stderr, "reports: %s\n", why);
    exit(1);
}

/* Cases, priorities, defaults and reports by turns. */
static void prepare(uint32_t number) {
    length = all[number].length;
    for (uint32_t i = 0; i < MOST; i++) {
        waiting[i] = (ifc_session){i % 4, all[number].refused ? IFC_READY : IFC_WAITING, 1, i, i / 4 % 2};
        news[i] = i % 3;
    }
    for (uint32_t i = 0; i < PASSES; i++) memcpy(lists[i], waiting, sizeof waiting);
}

static void singly(ifc_session *sessions) {
    for (uint32_t i = 0; i < length; i++) refusals[i] = ifc_session_report(&sessions[i], news[i]);
}

static void in_bulk(ifc_session *sessions) {
    if (ifc_reports(sessions, length, news, length, refusals, length)) stop("the reports are refused");
}

/* ---- time: the processor's for this program, the best of several rounds */

static double nanoseconds(void) {
    struct timespec t;
    clock_gettime(CLOCK_PROCESS_CPUTIME_ID, &t);
    return (double)t.tv_sec * 1e9 + (double)t.tv_nsec;
}

static double best(uint32_t number, void (*side)(ifc_session *)) {
    double least = 1e18;
    for (int round = 0; round < 40; round++) {
        prepare(number);
        double from = nanoseconds();
        for (uint32_t i = 0; i < PASSES; i++) side(lists[i]);
        double t = (nanoseconds() - from) / PASSES;
        if (t < least) least = t;
    }
    return least;
}

static void side_by_side(void) {
    printf("Reports to a list of sessions, in ns\n  %-40s %10s %10s %8s\n", "", "singly", "in bulk", "times");
    for (uint32_t i = 0; i < ALL; i++) {
        double one = best(i, singly), bulk = best(i, in_bulk);
        printf("  %-40s %10.0f %10.0f %8.2f\n", all[i].name, one, bulk, bulk / one);
    }
}

/* Prints the side's name; nothing, if there is no such side. */
static void count(uint32_t number, uint32_t times) {
    int bulk = number % 2;
    if (number / 2 >= ALL) return;
    prepare(number / 2);
    for (uint32_t i = 0; i < times && i < PASSES; i++) bulk ? in_bulk(lists[i]) : singly(lists[i]);
    printf("%s%s\n", bulk ? "    in bulk" : "singly, ", bulk ? "" : all[number / 2].name);
}

int main(int argc, char **argv) {
    if (argc > 3 && strcmp(argv[1], "count") == 0) count((uint32_t)strtoul(argv[2], NULL, 10), (uint32_t)strtoul(argv[3], NULL, 10));
    else side_by_side();
    return 0;
}
