// What the monitor's command line for the kernel says.
#ifndef SETTINGS_H
#define SETTINGS_H

#include <stdint.h>

#define MOST_PROCESSORS 16

struct settings {
    uint32_t processors;
    uint32_t pages;
    uint32_t words;  // of each page, 4 bytes each
    uint32_t count;  // of operations of each processor, before the last loads
    uint32_t pauses; // turns of a loop after each
    uint32_t swaps;  // 1: stores are exchanges
    uint32_t tsc;    // 1: the clock is the time stamp counter
    uint32_t flush;  // after this number of operations translations are forgotten; 0: never
    uint32_t serial; // 1: lines go to the serial port
};

// Reads the words KEY=NUMBER of a text, or none where it is NULL. Others are skipped. Returns the first whose number is
// not allowed, or NULL.
const char *read_settings(struct settings *settings, const char *text);

#endif
