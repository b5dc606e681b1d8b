// Drives the house through its exported step: power, some commands, and what is not expected.
#include "boomdate.h"
#include <stdio.h>
#include <string.h>

static uint64_t memory[BOOMDATE_MEMORY];
static uint8_t row[BOOMDATE_ROW];
static int failures;

static void expect(const char *what, uint64_t kind, const uint8_t *bytes, size_t length, uint64_t answer, uint64_t number) {
    uint64_t told = boomdate_step(memory, BOOMDATE_MEMORY, kind, bytes, length, row, BOOMDATE_ROW);
    int right = told == 8 * number + answer;
    printf("%s: kind %u, number %u%s\n", what, (unsigned)(told % 8), (unsigned)(told / 8), right ? "" : "  WRONG");
    failures += !right;
}

int main(void) {
    static const uint8_t pages[8] = {0, 0, 0, 0, 0, 0, 1, 0}, few[8] = {0, 0, 0, 0, 0, 0, 0, 255};
    static const uint8_t join[] = {1, 0, 0, 0, 0, 0, 0, 0, 3, 'A', 'n', 'n'};
    static const uint8_t drop[] = {5, 0, 0, 0, 0, 0, 0, 0, 0, 0, 0, 0, 0, 0, 0, 0, 1};
    static uint8_t many[100000];

    expect("a command before power", BOOMDATE_COMMAND, join, sizeof join, BOOMDATE_NO, 999);
    expect("power with 255 pages", BOOMDATE_POWER, few, 8, BOOMDATE_NO, 999);
    expect("power with 256 pages", BOOMDATE_POWER, pages, 8, BOOMDATE_DONE, 0);
    expect("join Ann", BOOMDATE_COMMAND, join, sizeof join, BOOMDATE_NO, 2);
    expect("drop 0 1", BOOMDATE_COMMAND, drop, sizeof drop, BOOMDATE_NO, 2);
    expect("join with a byte missing", BOOMDATE_COMMAND, join, sizeof join - 1, BOOMDATE_NO, 1);
    expect("no bytes", BOOMDATE_COMMAND, join, 0, BOOMDATE_NO, 1);
    expect("100,000 bytes", BOOMDATE_COMMAND, many, sizeof many, BOOMDATE_NO, 1);
    expect("a page that nobody asked for", BOOMDATE_PAGE, many, 512, BOOMDATE_NO, 999);
    expect("go on from nothing", BOOMDATE_GO_ON, many, 0, BOOMDATE_NO, 999);
    expect("a kind that is none", 4, many, 0, BOOMDATE_NO, 0);
    if (boomdate_step(memory, 1, BOOMDATE_COMMAND, join, sizeof join, row, BOOMDATE_ROW) != BOOMDATE_NO) failures++;
    if (boomdate_step(memory, BOOMDATE_MEMORY, BOOMDATE_COMMAND, join, sizeof join, row, 512) != BOOMDATE_NO) failures++;
    printf(failures ? "%d wrong\n" : "all right\n", failures);
    return failures != 0;
}
