// What a thread did to the memory, and its lines.
#ifndef RECORD_H
#define RECORD_H

#include <stdint.h>
#include <stdio.h>

enum kind { LOAD, STORE, SWAP, MAP, UNMAP, DISCARD };

struct record {
    uint64_t begin;
    uint64_t end;
    uint64_t addr;
    // The value of an access, or the length of a map call in bytes.
    uint64_t value;
    // What a swap found.
    uint64_t found;
    // Of all the fields above and the kind, never that of zeros: the log is in the same memory as what is tested.
    uint64_t sum;
    uint32_t kind;
};

struct records {
    struct record *at;
    size_t count;
    size_t room;
};

// Room for this many records. It ends the program where memory is refused.
void make_records(struct records *records, size_t room);

// The next record, which is empty. It ends the program where there is no room: the caller counts.
struct record *next_record(struct records *records);

// Closes a record: its check sum is made.
void seal(struct record *record);

// Writes the records of a thread. 1 where all could be written.
int write_records(FILE *out, unsigned thread, const struct records *records);

#endif
