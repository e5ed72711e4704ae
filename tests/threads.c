/* Several threads at once over one image and one set of requests, each with sessions and lists of its own: what each is answered
 * equals what one thread alone was answered before. A library that kept anything between or outside calls could mix them up. */
#include <pthread.h>
#include <stddef.h>
#include <stdint.h>
#include <stdio.h>
#include <stdlib.h>
#include <string.h>
#include "sample.h"

enum { THREADS = 4, ROUNDS = 1, MOST_STEPS = 10 };

/* Everything that one request's whole walk answers, in every case and for every registration type. */
struct walk {
    ifc_session sessions[4][MOST_STEPS];
    ifc_answer answers[4][MOST_STEPS];
    uint32_t refusals[4][MOST_STEPS];
    uint32_t listed[4][3][5];
    uint8_t lists[4][3][16];
    uint32_t shown[16][7];
    ifc_session reported[4];
    uint32_t numbers[5];
    uint32_t plain[4][4];
};

static uint8_t image[IMAGE_MOST];
static size_t image_len;
static uint8_t requests[SAMPLE_REQUESTS][SAMPLE_ROOM];
static size_t lengths[SAMPLE_REQUESTS];
static struct walk alone[SAMPLE_REQUESTS];
static uint32_t forwards, listings, shows, reported, matched;

static void walk(uint32_t variant, struct walk *w) {
    const uint8_t *request = requests[variant];
    size_t length = lengths[variant];
    memset(w, 0, sizeof *w);
    for (uint32_t c = 0; c < 4; c++) {
        ifc_session s;
        ifc_session_open(&s, c);
        for (int i = 0; i < MOST_STEPS; i++) {
            w->refusals[c][i] = ifc_session_advance(&s, image, image_len, request, length, &w->answers[c][i]);
            w->sessions[c][i] = s;
            if (w->answers[c][i].outcome != IFC_FORWARD) break;
            ifc_session_report(&s, variant % 7 == 0 ? IFC_UNREACHABLE : IFC_RETURNED);
        }
        for (uint32_t type = 0; type < 3; type++) {
            uint32_t *n = w->listed[c][type];
            uint8_t *list = w->lists[c][type];
            memset(list, 200, 16);
            n[0] = ifc_list(image, image_len, request, length, c, type, list, 16, &n[1], &n[2], &n[3], &n[4]);
        }
    }
    /* the first sessions of the four cases, as they came from their first advance, reported on in one call */
    uint32_t reports[4];
    for (uint32_t c = 0; c < 4; c++) w->reported[c] = w->sessions[c][0], reports[c] = (variant + c) % 4;
    w->numbers[4] = ifc_reports(w->reported, 4, reports, 4, w->numbers, 4);
    for (uint32_t row = variant % 4; row < 16; row += 4) {
        uint32_t *n = w->shown[row];
        n[0] = ifc_show(image, image_len, request, length, row, &n[1], &n[2], &n[3], &n[4], &n[5], &n[6]);
    }
}

static void match(uint32_t variant, struct walk *w) {
    static const char *const patterns[4] = {"sip:.*@", "[A-Z][a-z]*: ", "a[^b]*$", "a**"};
    size_t length = lengths[variant] < IFC_PLAIN_MOST ? lengths[variant] : IFC_PLAIN_MOST;
    for (int i = 0; i < 4; i++) {
        uint32_t *n = w->plain[i];
        n[0] = ifc_plain((const uint8_t *)patterns[i], strlen(patterns[i]), requests[variant], length, &n[1], &n[2], &n[3]);
    }
}

/* Each thread begins elsewhere, so that different requests are in work at once. */
static void *work(void *number) {
    struct walk *mine = malloc(sizeof *mine);
    uintptr_t start = (uintptr_t)number, wrong = mine ? 0 : 1;
    for (uint32_t i = 0; mine && i < ROUNDS * SAMPLE_REQUESTS; i++) {
        uint32_t variant = (uint32_t)(start * (SAMPLE_REQUESTS / THREADS) + i * 5) % SAMPLE_REQUESTS;
        walk(variant, mine);
        match(variant, mine);
        if (memcmp(mine, &alone[variant], sizeof *mine)) wrong++;
    }
    free(mine);
    return (void *)wrong;
}

int main(void) {
    pthread_t threads[THREADS];
    uintptr_t wrong = 0;
    image_len = sample_image(image, sizeof image);
    for (uint32_t i = 0; i < SAMPLE_REQUESTS; i++) {
        lengths[i] = sample_request(i, (char *)requests[i], SAMPLE_ROOM);
        walk(i, &alone[i]);
        match(i, &alone[i]);
        for (int c = 0; c < 4; c++) {
            for (int k = 0; k < MOST_STEPS; k++) forwards += alone[i].answers[c][k].outcome == IFC_FORWARD;
            for (int type = 0; type < 3; type++) listings += alone[i].listed[c][type][2];
        }
        for (int row = 0; row < 16; row++) shows += alone[i].shown[row][2];
        for (int c = 0; c < 4; c++) reported += alone[i].numbers[c] == 0;
        for (int k = 0; k < 4; k++) matched += alone[i].plain[k][1];
    }
    if (forwards < 1000 || listings < 1000 || shows < 500 || reported < 500 || matched < 500) {
        printf("threads: the sample leads nowhere (%u forwards, %u listed, %u shown, %u reported, %u matched)\n", forwards, listings, shows,
            reported, matched);
        return 1;
    }
    for (uintptr_t i = 0; i < THREADS; i++)
        if (pthread_create(&threads[i], NULL, work, (void *)i)) {
            printf("threads: cannot start one\n");
            return 2;
        }
    for (int i = 0; i < THREADS; i++) {
        void *result;
        pthread_join(threads[i], &result);
        wrong += (uintptr_t)result;
    }
    if (wrong) {
        printf("threads: %lu walks differ from those of one thread\n", (unsigned long)wrong);
        return 1;
    }
    printf("threads: ok (%d at once, %d walks each, %u forwards, %u listed, %u shown, %u reported in bulk, %u matched)\n", THREADS,
        ROUNDS * SAMPLE_REQUESTS, forwards, listings, shows, reported, matched);
    return 0;
}
