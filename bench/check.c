/* How long the check of an image takes as the image grows: each family doubles. A string is judged once, so rows that name long
 * ones ("long ones") take no longer than others. */
#include <stddef.h>
#include <stdint.h>
#include <stdio.h>
#include <stdlib.h>
#include <string.h>
#include <time.h>
#include "../include/ifc.h"

enum { MOST = 32768 };
static uint8_t image[MOST];
static size_t length;

static void byte(uint32_t v) { image[length++] = (uint8_t)v; }
static void word(uint32_t v) { byte(v >> 8), byte(v & 255); }

static void begin(uint32_t strings) { length = 0, byte(1), word(strings); }

static void string(const char *text, uint32_t times) {
    size_t one = strlen(text);
    word((uint32_t)one * times);
    for (uint32_t i = 0; i < times; i++) memcpy(image + length, text, one), length += one;
}

/* After the strings: rows that name string 0 as header and `content`, one membership for each, no criterion. */
static void header_rows(uint32_t n, uint32_t content) {
    word(n);
    for (uint32_t i = 0; i < n; i++) byte(0), byte(2), word(0), word(content), byte(0);
    word(n);
    for (uint32_t i = 0; i < n; i++) word(i), word(0);
    word(0);
}

static void rows(uint32_t n) {
    begin(1);
    string("Contact", 1);
    header_rows(n, 65535);
}

/* Each row names the same 1,020 bytes twice. */
static void long_patterns(uint32_t n) {
    begin(1);
    string("[abcdefghijklmno]", 60);
    header_rows(n, 0);
}

/* Strings of 28 bytes that no row names. */
static void strings(uint32_t n) {
    begin(n);
    for (uint32_t i = 0; i < n; i++) string("sip:x@r", 4);
    word(0), word(0), word(0);
}

/* Criteria without a trigger: here the scan over the pairs. */
static void criteria(uint32_t n) {
    begin(1);
    string("sip:recorder", 1);
    word(0), word(0), word(n);
    for (uint32_t i = 0; i < n; i++) word(0), word(i), byte(2), byte(2), word(0), word(0), word(0), byte(0), word(65535);
}

static double once(void) {
    struct timespec a, b;
    uint32_t place, times = 2000000 / (uint32_t)(length + 200);
    clock_gettime(CLOCK_MONOTONIC, &a);
    for (uint32_t i = 0; i < times; i++)
        if (ifc_check(image, length, &place)) fprintf(stderr, "refused at %u\n", place), exit(1);
    clock_gettime(CLOCK_MONOTONIC, &b);
    return ((double)(b.tv_sec - a.tv_sec) * 1e9 + (double)(b.tv_nsec - a.tv_nsec)) / times;
}

static void table(const char *name, void (*make)(uint32_t), uint32_t from, uint32_t to) {
    printf("%-10s %8s %8s %10s %8s\n", name, "entries", "bytes", "ns", "ns/byte");
    for (uint32_t n = from; n <= to; n *= 2) {
        make(n);
        double best = once();
        for (int i = 0; i < 4; i++) {
            double again = once();
            if (again < best) best = again;
        }
        printf("%-10s %8u %8u %10.0f %8.2f\n", "", n, (unsigned)length, best, best / (double)length);
    }
}

int main(void) {
    table("strings", strings, 64, 1024);
    table("rows", rows, 64, 2048);
    table("long ones", long_patterns, 64, 2048);
    table("criteria", criteria, 2, 64);
    return 0;
}
