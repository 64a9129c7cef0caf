#include "settings.h"

#include <stddef.h>

struct setting {
    const char *name;
    size_t at;
    uint32_t least, most, usual;
};

static const struct setting known[] = {
    { "processors=", offsetof(struct settings, processors), 1, MOST_PROCESSORS, 1 },
    { "pages=", offsetof(struct settings, pages), 1, 262144, 1024 },
    { "words=", offsetof(struct settings, words), 1, 1024, 8 },
    { "count=", offsetof(struct settings, count), 1, 16000000, 10000 },
    { "pauses=", offsetof(struct settings, pauses), 0, 100000000, 0 },
    { "swaps=", offsetof(struct settings, swaps), 0, 1, 1 },
    { "tsc=", offsetof(struct settings, tsc), 0, 1, 0 },
    { "flush=", offsetof(struct settings, flush), 0, 16000000, 0 },
    { "serial=", offsetof(struct settings, serial), 0, 1, 0 },
};

static uint32_t *place(struct settings *settings, const struct setting *setting)
{
    return (uint32_t *)((char *)settings + setting->at);
}

// What follows a name in a text, or NULL where it does not begin with this name.
static const char *after(const char *text, const char *name)
{
    while (*name)
        if (*text++ != *name++)
            return NULL;
    return text;
}

static int read_number(const char *text, const struct setting *setting, uint32_t *number)
{
    uint32_t value = 0;
    if (*text < '0' || *text > '9')
        return 0;
    for (; *text >= '0' && *text <= '9' && value <= setting->most; text++)
        value = value * 10 + (uint32_t)(*text - '0');
    *number = value;
    return (!*text || *text == ' ') && value >= setting->least && value <= setting->most;
}

// 0 where the word is that of a setting whose number is not allowed.
static int read_word(struct settings *settings, const char *word)
{
    for (size_t i = 0; i < sizeof known / sizeof *known; i++) {
        const char *number = after(word, known[i].name);
        if (number)
            return read_number(number, &known[i], place(settings, &known[i]));
    }
    return 1;
}

const char *read_settings(struct settings *settings, const char *text)
{
    for (size_t i = 0; i < sizeof known / sizeof *known; i++)
        *place(settings, &known[i]) = known[i].usual;
    while (text && *text) {
        if (*text != ' ' && !read_word(settings, text))
            return text;
        while (*text && *text != ' ')
            text++;
        while (*text == ' ')
            text++;
    }
    return NULL;
}
