/* How the program ends; and how it does not, where that would end a guest. */
#include "live.h"

#include <poll.h>
#include <stdarg.h>
#include <stdio.h>
#include <stdlib.h>
#include <string.h>

#include "log.h"
#include "trace.h"

#define MOST_TEXT 512u
#define LEAST_NAP_MS 10u
#define MOST_NAP_MS 1000u

static _Thread_local struct {
    bool is_driver; /* this thread has a node */
    struct keeping keeping;
    char lack[MOST_TEXT]; /* what was said last, */
    uint32_t nap_ms;      /* and for how long was waited last */
} ending;

void live_begin(void)
{
    ending.is_driver = true;
}

void live_keep(struct keeping keeping)
{
    ending.keeping = keeping;
    *ending.lack = 0;
}

static _Noreturn void end(enum status status, const char *why)
{
    int (*keep)(const char *) = status == STATUS_REFUSED ? ending.keeping.keep : NULL;

    log_say("%s", why);
    if (ending.is_driver) {
        ending.keeping = (struct keeping){ NULL, NULL };
        if (keep)
            status = (enum status)keep(why);
        trace_end();
    }
    log_flush();
    _Exit((int)status);
}

/* With the text of an errno, unless it is 0. What does not fit is left out. */
static void write_reason(char *text, int error, const char *format, va_list arguments)
{
    int length = vsnprintf(text, MOST_TEXT, format, arguments);

    if (error && length >= 0 && (size_t)length < MOST_TEXT)
        (void)snprintf(text + length, MOST_TEXT - (size_t)length, ": %s (%s)", strerrorname_np(error), strerror(error));
}

void refuse(const char *format, ...)
{
    char text[MOST_TEXT];
    va_list arguments;

    va_start(arguments, format);
    write_reason(text, 0, format, arguments);
    end(STATUS_REFUSED, text);
}

void refuse_errno(int error, const char *format, ...)
{
    char text[MOST_TEXT];
    va_list arguments;

    va_start(arguments, format);
    write_reason(text, error, format, arguments);
    end(STATUS_REFUSED, text);
}

void lose(const char *format, ...)
{
    char text[MOST_TEXT];
    va_list arguments;

    va_start(arguments, format);
    write_reason(text, 0, format, arguments);
    end(STATUS_LOST, text);
}

void lack(int error, const char *format, ...)
{
    char text[MOST_TEXT];
    va_list arguments;

    va_start(arguments, format);
    write_reason(text, error, format, arguments);
    va_end(arguments);
    if (!ending.keeping.meanwhile || !ending.is_driver)
        end(STATUS_REFUSED, text);
    if (strcmp(text, ending.lack)) {
        log_event("%s: it is tried until there is", text);
        memcpy(ending.lack, text, sizeof text);
        ending.nap_ms = LEAST_NAP_MS;
    }
    if (ending.keeping.meanwhile(ending.nap_ms))
        lose("it is ended by the operator, while it lacked what it needs: %s", text);
    ending.nap_ms = 2 * ending.nap_ms < MOST_NAP_MS ? 2 * ending.nap_ms : MOST_NAP_MS;
}
