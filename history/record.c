#include "record.h"

#include <inttypes.h>
#include <stdlib.h>

void make_records(struct records *records, size_t room)
{
    records->at = calloc(room, sizeof *records->at);
    records->count = 0;
    records->room = room;
    if (!records->at) {
        perror("records");
        exit(2);
    }
}

struct record *next_record(struct records *records)
{
    if (records->count == records->room) {
        fputs("records: more than were counted\n", stderr);
        exit(2);
    }
    return &records->at[records->count++];
}

static uint64_t mixed(uint64_t sum, uint64_t word)
{
    return (sum ^ word) * 0x100000001b3u;
}

static uint64_t sum_of(const struct record *record)
{
    const uint64_t words[] = { record->begin, record->end, record->addr, record->value, record->found, record->kind };
    uint64_t sum = 0xcbf29ce484222325u;
    for (size_t i = 0; i < sizeof words / sizeof *words; i++)
        sum = mixed(sum, words[i]);
    return sum | 1;
}

void seal(struct record *record)
{
    record->sum = sum_of(record);
}

static int write_action(FILE *out, const struct record *record)
{
    const uint64_t addr = record->addr, value = record->value;
    switch (record->kind) {
    case LOAD:
        return fprintf(out, "load 0x%" PRIx64 " 8 => value 0x%" PRIx64 "\n", addr, value);
    case STORE:
        return fprintf(out, "store 0x%" PRIx64 " 8 0x%" PRIx64 " => done\n", addr, value);
    case SWAP:
        return fprintf(out, "swap 0x%" PRIx64 " 8 0x%" PRIx64 " => value 0x%" PRIx64 "\n", addr, value, record->found);
    case MAP:
        return fprintf(out, "mmap %" PRIu64 " rw fixed 0x%" PRIx64 " => at 0x%" PRIx64 "\n", value, addr, addr);
    case UNMAP:
        return fprintf(out, "munmap 0x%" PRIx64 " %" PRIu64 " => done\n", addr, value);
    default:
        return fprintf(out, "dontneed 0x%" PRIx64 " %" PRIu64 " => done\n", addr, value);
    }
}

int write_records(FILE *out, unsigned thread, const struct records *records)
{
    for (size_t i = 0; i < records->count; i++) {
        const struct record *record = &records->at[i];
        if (record->sum != sum_of(record)) {
            if (fprintf(out, "damaged record %zu of thread %u\n", i, thread) < 0)
                return 0;
            continue;
        }
        if (fprintf(out, "%u %" PRIu64 " %" PRIu64 " ", thread, record->begin, record->end) < 0)
            return 0;
        if (write_action(out, record) < 0)
            return 0;
    }
    return 1;
}
