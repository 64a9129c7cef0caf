/* The bytes of a hello, and what two of them must have alike. */
#include "hello.h"

#include <errno.h>
#include <stdio.h>
#include <string.h>
#include <sys/random.h>

#include "live.h"
#include "options.h"

static const uint8_t GREETING[7] = { 'p', 'm', 'l', 'i', 'v', 'e', 2 }; /* with the version */
#define NAME_AT 48u
#define REASON_AT (NAME_AT + MOST_OF_NAME)
#define FLAGS (HELLO_BEATS | HELLO_HAS_GUEST | HELLO_BINDS)

void hello_begin(struct hello *own, const struct options *options, bool has_guest)
{
    *own = (struct hello){
        .flags = HELLO_BEATS | HELLO_BINDS | (has_guest ? HELLO_HAS_GUEST : 0),
        .pages = options->plan.pages,
        .areas = 1,
        .processors = plan_processors(&options->plan),
        .slices = options->slices,
        .guest = guest_number(&options->plan),
        .most_pages = MOST_PAGES,
        .most_processors = MOST_PROCESSORS,
    };
    memcpy(own->migration, options->migration, sizeof own->migration);
    if (getrandom(&own->instance, sizeof own->instance, 0) != (ssize_t)sizeof own->instance)
        refuse_errno(errno, "getrandom");
}

static void write_number(uint8_t *bytes, uint64_t number, int length)
{
    for (int i = 0; i < length; i++)
        bytes[i] = (uint8_t)(number >> 8 * (length - 1 - i));
}

static uint64_t read_number(const uint8_t *bytes, int length)
{
    uint64_t number = 0;

    for (int i = 0; i < length; i++)
        number = number << 8 | bytes[i];
    return number;
}

void hello_write(const struct hello *hello, uint8_t *bytes)
{
    memset(bytes, 0, HELLO_BYTES);
    memcpy(bytes, GREETING, sizeof GREETING);
    bytes[7] = (uint8_t)hello->channel;
    write_number(bytes + 8, hello->epoch, 4);
    write_number(bytes + 12, hello->instance, 8);
    write_number(bytes + 20, hello->flags, 4);
    write_number(bytes + 24, hello->pages, 4);
    write_number(bytes + 28, hello->areas, 2);
    write_number(bytes + 30, hello->processors, 2);
    write_number(bytes + 32, hello->guest, 8);
    write_number(bytes + 40, hello->most_pages, 4);
    write_number(bytes + 44, hello->most_processors, 2);
    bytes[46] = (uint8_t)(hello->slices - 1);
    bytes[47] = (uint8_t)hello->slice;
    memcpy(bytes + NAME_AT, hello->migration, strlen(hello->migration));
    memcpy(bytes + REASON_AT, hello->reason, strlen(hello->reason));
}

/* Printable letters, and zeros up to the end. */
static bool read_text(char *text, const uint8_t *bytes, uint32_t room)
{
    uint32_t length = 0;

    while (length < room && bytes[length] >= ' ' && bytes[length] <= '~')
        length++;
    memcpy(text, bytes, length);
    text[length] = 0;
    while (length < room && !bytes[length])
        length++;
    return length == room;
}

bool hello_read(struct hello *hello, const uint8_t *bytes, uint32_t length)
{
    if (memcmp(bytes, GREETING, length < sizeof GREETING ? length : sizeof GREETING) ||
        (length > 7 && bytes[7] > URGENT))
        return false;
    if (length < HELLO_BYTES)
        return true;
    hello->channel = (enum channel)bytes[7];
    hello->epoch = (uint32_t)read_number(bytes + 8, 4);
    hello->instance = read_number(bytes + 12, 8);
    hello->flags = (uint32_t)read_number(bytes + 20, 4);
    hello->pages = (uint32_t)read_number(bytes + 24, 4);
    hello->areas = (uint32_t)read_number(bytes + 28, 2);
    hello->processors = (uint32_t)read_number(bytes + 30, 2);
    hello->guest = read_number(bytes + 32, 8);
    hello->most_pages = (uint32_t)read_number(bytes + 40, 4);
    hello->most_processors = (uint32_t)read_number(bytes + 44, 2);
    hello->slices = bytes[46] + 1u;
    hello->slice = bytes[47];
    return hello->slice < hello->slices && !(hello->flags & ~FLAGS) &&
        read_text(hello->migration, bytes + NAME_AT, MOST_OF_NAME) &&
        read_text(hello->reason, bytes + REASON_AT, MOST_OF_REASON);
}

static bool is_unlike(char *reason, const char *what, uint64_t source, uint64_t destination)
{
    if (source == destination)
        return false;
    (void)snprintf(reason, MOST_OF_REASON + 1, "%s: source %llu, destination %llu", what, (unsigned long long)source,
                   (unsigned long long)destination); /* what does not fit is left out */
    return true;
}

bool hello_unlike(const struct hello *source, const struct hello *destination, char *reason)
{
    if (strcmp(source->migration, destination->migration)) {
        (void)snprintf(reason, MOST_OF_REASON + 1, "--migration: source `%s`, destination `%s`", source->migration,
                       destination->migration);
        return true;
    }
    if (is_unlike(reason, "--slices", source->slices, destination->slices) ||
        is_unlike(reason, "number of the slice", source->slice, destination->slice) ||
        is_unlike(reason, "pages of --memory", source->pages, destination->pages) ||
        is_unlike(reason, "areas of memory", source->areas, destination->areas) ||
        is_unlike(reason, "--threads", source->processors, destination->processors))
        return true;
    if (source->pages > destination->most_pages || source->processors > destination->most_processors) {
        (void)snprintf(reason, MOST_OF_REASON + 1,
                       "the guest is too large: the destination has at most %u pages, %u threads",
                       destination->most_pages, destination->most_processors); /* it fits */
        return true;
    }
    if (!(source->flags & destination->flags & HELLO_HAS_GUEST) || source->guest == destination->guest)
        return false;
    /* it fits */
    (void)snprintf(reason, MOST_OF_REASON + 1, "another guest: --threads, --seed, --cold, --given or --shared differ");
    return true;
}
