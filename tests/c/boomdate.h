// The house of calendars, one step at a time. A slice is a pointer and then a length.
#ifndef BOOMDATE_H
#define BOOMDATE_H
#include <stddef.h>
#include <stdint.h>

// Numbers in the machine's memory, all 0 before power comes; and bytes of the row that is lent to each step.
#define BOOMDATE_MEMORY 262144
#define BOOMDATE_ROW 131072

// What a step is told: a kind, and some bytes.
enum { BOOMDATE_POWER, BOOMDATE_COMMAND, BOOMDATE_PAGE, BOOMDATE_GO_ON };

// What it answers: eight times a number, and one of these. The number is twice the page and the side, the length of the row,
// or the number of the refusal.
enum { BOOMDATE_DONE, BOOMDATE_READ, BOOMDATE_WRITE, BOOMDATE_SHOWS, BOOMDATE_NO };

uint64_t boomdate_step(uint64_t *memory, size_t memory_length, uint64_t kind, const uint8_t *bytes, size_t bytes_length,
                       uint8_t *out, size_t out_length);

#endif
