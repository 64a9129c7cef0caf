/* Begin and end lines that several kinds of calls have. */
#include "recorder.h"

struct call begin_of_object(const char *word, uint64_t object, int fd)
{
    char bytes[LINE_BYTES];
    struct text line = text_over(bytes, sizeof bytes);

    text_word(&line, word);
    text_descriptor(&line, object, fd);
    return log_begin(&line);
}

void end_call(const struct call *call, bool failed, int error, void (*answer)(struct text *line, const void *of),
              const void *of)
{
    char bytes[LINE_BYTES];
    struct text line = text_over(bytes, sizeof bytes);

    if (failed)
        text_errno(&line, error);
    else
        text_word(&line, "ok");
    if (answer)
        answer(&line, of);
    log_of_call(call, "end", &line);
}

void end_plain(const struct call *call, bool failed, int error)
{
    end_call(call, failed, error, NULL, NULL);
}
