/* Document 01's worked example, keyed, run for three ticks and listed. */
#include "yukeira.h"
#include <stdio.h>
#include <stdlib.h>
#include <string.h>

enum { LOCATIONS = 2, RING = 64 };

static const char TEXT[] = "(program 2 0\n"
                           "(table 1 80\n"
                           "(1 1 5 1 1 1 1.0 0.0)\n"
                           "(86 10)\n"
                           "(70 1 1)\n"
                           ")\n"
                           "(table 2 0\n"
                           ")\n"
                           "(table 3\n"
                           ")\n"
                           ")\n";

/* The record, the state, and all that is lent to a scan; zero is a fresh start. This record has no sums. */
static uint16_t numbers[YUKEIRA_RECORD_NUMBERS];
static float values[YUKEIRA_RECORD_VALUES];
static uint16_t state[YUKEIRA_STATE_NUMBERS];
static float readings[YUKEIRA_READINGS];
static float locations[LOCATIONS];
static float sums[1];
static uint32_t counts[YUKEIRA_COUNTS];
static uint16_t ring[RING];

static void expect(uint8_t answer, const char *call) {
    if (answer != 0) {
        printf("%s: refused by %u\n", call, answer);
        exit(EXIT_FAILURE);
    }
}

static void key_text(const char *text) {
    uint8_t table = 0, entry = 0;
    uint32_t first = 0, second = 0;
    uint8_t answer = yukeira_check_text((const uint8_t *)text, strlen(text), numbers, YUKEIRA_RECORD_NUMBERS, values,
                                        YUKEIRA_RECORD_VALUES, &table, &entry, &first, &second);
    if (answer == 0)
        printf("passed, stated counts %u and %u\n", (unsigned)first, (unsigned)second);
    else
        printf("fault %u in table %u, entry %u\n", answer, table, entry);
}

static void tick(uint32_t day, uint32_t time) {
    for (uint8_t table = 1; table <= 2; table++)
        expect(yukeira_scan(numbers, YUKEIRA_RECORD_NUMBERS, values, YUKEIRA_RECORD_VALUES, table, day, time, state,
                            YUKEIRA_STATE_NUMBERS, readings, YUKEIRA_READINGS, locations, LOCATIONS, sums, 0, counts,
                            YUKEIRA_COUNTS, ring, RING),
               "scan");
    printf("day %u, %u: location 1 is %g\n", (unsigned)day, (unsigned)time, locations[0]);
}

/* A value word after a comma. */
static void print_value(uint16_t word) {
    static const unsigned UNITS[] = {1, 10, 100, 1000};
    unsigned digits = word % 8192, places = word / 8192 % 4;
    printf(",%s%u", word / 32768 == 1 ? "-" : "", digits / UNITS[places]);
    if (places > 0)
        printf(".%0*u", (int)places, digits % UNITS[places]);
}

/* One array a line. If scans stored words meanwhile, the listing begins again with what the ring has by then. */
static void print_listing(void) {
    uint16_t cursor[YUKEIRA_CURSOR_NUMBERS] = {0}, words[RING], id = 0;
    size_t count = 0;
    uint8_t answer;
    while ((answer = yukeira_next(state, YUKEIRA_STATE_NUMBERS, ring, RING, cursor, YUKEIRA_CURSOR_NUMBERS, words, RING,
                                  &id, &count)) != 0) {
        if (answer == 1) {
            printf("%u", id);
            for (size_t n = 0; n < count; n++)
                print_value(words[n]);
            printf("\n");
        } else if (answer == 3) {
            printf("words were stored; from the oldest array again:\n");
            memset(cursor, 0, sizeof cursor);
        } else {
            expect(answer, "listing");
        }
    }
}

int main(void) {
    key_text("(program 2 0\n(table 1 80\n(95)\n)\n(table 2 0\n)\n(table 3\n)\n)\n");
    key_text(TEXT);
    expect(yukeira_fresh(state, YUKEIRA_STATE_NUMBERS), "fresh");

    readings[0] = 2.5f;
    tick(1, 0);
    tick(1, 40);
    expect(yukeira_key_location(numbers, YUKEIRA_RECORD_NUMBERS, values, YUKEIRA_RECORD_VALUES, 2, 7.5f, locations,
                                LOCATIONS),
           "key location 2");
    expect(yukeira_key_flag(numbers, YUKEIRA_RECORD_NUMBERS, values, YUKEIRA_RECORD_VALUES, 1, state,
                            YUKEIRA_STATE_NUMBERS),
           "key flag 1");
    printf("keyed: location 2 is %g, flag 1 is %s\n", locations[1], state[1] ? "high" : "low");
    readings[0] = -0.0625f;
    tick(1, 80);
    print_listing();
    return EXIT_SUCCESS;
}
