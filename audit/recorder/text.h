/* One line of a log, built in a buffer of the caller's. No allocation, no locale, no lock: safe in a signal
   handler. */
#ifndef TEXT_H
#define TEXT_H

#include <stdbool.h>
#include <stddef.h>
#include <stdint.h>

/* Bytes of the longest line but that of `started`. */
#define LINE_BYTES 256

struct text {
    char *bytes;
    size_t capacity, length;
    bool cut; /* something did not fit: the line is not whole */
};

struct text text_over(char *bytes, size_t capacity);

/* Each puts one word, with a blank before it unless it is the first. */
void text_word(struct text *text, const char *word);
void text_number(struct text *text, uint64_t value);
void text_signed(struct text *text, int64_t value);
void text_hex(struct text *text, uint64_t value);
void text_descriptor(struct text *text, uint64_t object, int fd);
void text_errno(struct text *text, int error);
/* A text of the language: bytes outside '!' to '~', and '%', as '%' and two digits; '%' alone where it is empty. */
void text_encoded(struct text *text, const char *bytes);

/* Ends the line. */
void text_end(struct text *text);

#endif
