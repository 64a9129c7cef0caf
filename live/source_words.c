/* What the operator says to a source. */
#include "source.h"

#include <inttypes.h>
#include <poll.h>
#include <stdio.h>

#include "log.h"
#include "operator.h"

static void write_status(const struct source *source, char *json, size_t room)
{
    struct progress all = slices_say(source->slices, POSTMIG_SOURCE_PAUSED);

    (void)snprintf(
        json, room,
        "{\"side\":\"source\",\"migration\":\"%s\",\"phase\":\"%s\",\"switched\":%s,\"kept\":%s,\"connected\":%s,"
        "\"epoch\":%u,"
        "\"round\":%u,\"left\":%" PRIu64 ",\"sent\":%" PRIu64 ",\"faults\":%" PRIu64 ",\"breaks\":%" PRIu64 ","
        "\"dropped_lines\":%" PRIu64 ",\"stopped_by\":\"%s\"}",
        source->own.migration, source_phases[all.phase], source->slices->switched ? "true" : "false",
        source->slices->is_over ? "true" : "false", all.is_connected ? "true" : "false", all.epoch, all.round, all.left,
        all.moved, all.faults, all.breaks, log_dropped(), operator_text(source->slices->held)); /* it fits */
}

static void set_limit(struct source *source, const struct order *order)
{
    struct slices *slices = source->slices;
    _Atomic uint32_t *limit = order->word == WORD_RATE ? &slices->rate
        : order->word == WORD_PUSH_RATE                ? &slices->push_rate
                                                       : &slices->patience;

    *limit = order->word == WORD_PATIENCE && !order->number ? FOREVER : order->number;
    operator_done(order);
}

static const char *reason_to_stay(const struct source *source)
{
    if (source->slices->held)
        return operator_ends_held();
    return source->slices->switched ? "the guest is switched, and the source has pages that are nowhere else"
                                    : "the migration is under way: cancel it first";
}

static void obey(struct source *source, const struct order *order)
{
    static char json[MOST_JSON];
    struct slices *slices = source->slices;
    bool is_kept = slices->is_over && !slices->switched;

    if (order->word == WORD_STATUS || order->word == WORD_WATCH) {
        if (!is_kept && !source->is_held)
            source_says(source);
        write_status(source, json, sizeof json);
        operator_answer(order, json);
    } else if (order->word >= WORD_RATE && order->word <= WORD_PATIENCE) {
        set_limit(source, order);
    } else if (order->word == WORD_UNKNOWN) {
        operator_refuse(order, "no such word");
    } else if (is_kept && order->word != WORD_CANCEL) {
        slices->is_to_end = true;
        operator_done(order);
    } else if (order->word != WORD_END && slices_give_up(slices)) {
        log_event("source: the migration is cancelled by the operator");
        operator_done(order);
    } else if (slices->is_due && (slices->held ? operator_abandons(order) : order->word == WORD_ABANDON)) {
        slices->is_over = true;
        log_event("source: the destination is gone for good, as the operator says");
        operator_done(order);
    } else {
        operator_refuse(order, reason_to_stay(source));
    }
}

void source_obey(struct source *source)
{
    static char json[MOST_JSON];
    struct order order;

    while (operator_next(&order))
        obey(source, &order);
    if (operator_is_watched()) {
        write_status(source, json, sizeof json);
        operator_tell(json);
    }
}

void source_wait_for_orders(struct source *source, uint32_t milliseconds)
{
    struct pollfd files[OPERATOR_FILES];

    operator_files(files);
    (void)poll(files, OPERATOR_FILES, (int)milliseconds); /* a shorter wait is as good */
    source_obey(source);
}
