/* Lines of a log: docs/UFFDLOG.md. */
#include "text.h"

#include <string.h>

#include "names.h"

#define MOST_DIGITS 20

static const char digits[] = "0123456789abcdef";

struct text text_over(char *bytes, size_t capacity)
{
    return (struct text){ .bytes = bytes, .capacity = capacity };
}

static void put(struct text *text, const char *bytes, size_t count)
{
    if (text->cut || count > text->capacity - text->length) {
        text->cut = true;
        return;
    }
    memcpy(text->bytes + text->length, bytes, count);
    text->length += count;
}

static void blank(struct text *text)
{
    if (text->length)
        put(text, " ", 1);
}

static void put_number(struct text *text, uint64_t value, unsigned base)
{
    char figures[MOST_DIGITS];
    size_t at = sizeof figures;

    do {
        figures[--at] = digits[value % base];
        value /= base;
    } while (value);
    put(text, figures + at, sizeof figures - at);
}

void text_word(struct text *text, const char *word)
{
    blank(text);
    put(text, word, strlen(word));
}

void text_number(struct text *text, uint64_t value)
{
    blank(text);
    put_number(text, value, 10);
}

void text_signed(struct text *text, int64_t value)
{
    blank(text);
    if (value < 0)
        put(text, "-", 1);
    put_number(text, value < 0 ? -(uint64_t)value : (uint64_t)value, 10);
}

void text_hex(struct text *text, uint64_t value)
{
    blank(text);
    put(text, "0x", 2);
    put_number(text, value, 16);
}

void text_descriptor(struct text *text, uint64_t object, int fd)
{
    text_number(text, object);
    put(text, ":", 1);
    put_number(text, (unsigned)fd, 10);
}

void text_errno(struct text *text, int error)
{
    const char *name = errno_name(error);

    if (name) {
        text_word(text, name);
    } else {
        text_word(text, "E");
        put_number(text, (unsigned)error, 10);
    }
}

void text_encoded(struct text *text, const char *bytes)
{
    blank(text);
    if (!*bytes)
        put(text, "%", 1);
    for (; *bytes; bytes++) {
        unsigned char byte = (unsigned char)*bytes;
        char escaped[3] = { '%', digits[byte >> 4], digits[byte & 15] };

        if (byte >= '!' && byte <= '~' && byte != '%')
            put(text, bytes, 1);
        else
            put(text, escaped, sizeof escaped);
    }
}

void text_end(struct text *text)
{
    put(text, "\n", 1);
}
