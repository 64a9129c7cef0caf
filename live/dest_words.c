/* What the operator says to a destination. */
#include "dest.h"

#include <inttypes.h>
#include <stdio.h>

#include "log.h"
#include "operator.h"

static void write_status(struct dest *dest, char *json, size_t room)
{
    struct progress all;

    if (!dest->is_held)
        dest_says(dest);
    all = slices_say(dest->slices, POSTMIG_DESTINATION_PAUSED);
    (void)snprintf(
        json, room,
        "{\"side\":\"destination\",\"migration\":\"%s\",\"phase\":\"%s\",\"runs\":%s,\"connected\":%s,\"epoch\":%u,"
        "\"left\":%" PRIu64 ",\"installed\":%" PRIu64 ",\"faults\":%" PRIu64 ",\"waits\":%u,\"breaks\":%" PRIu64 ","
        "\"turned_away\":%" PRIu64 ",\"dropped_lines\":%" PRIu64 ",\"stopped_by\":\"%s\"}",
        dest->own.migration, dest_phases[all.phase], all.has_run ? "true" : "false",
        all.is_connected ? "true" : "false", all.epoch, all.left, all.moved, all.faults, all.waits, all.breaks,
        all.turned_away, log_dropped(), operator_text(dest->slices->held)); /* it fits */
}

/* Why it is not to end, or NULL: pages are still at the source, or the guest may be nowhere else. */
static const char *reason_to_stay(struct dest *dest)
{
    if (dest->slices->held)
        return operator_ends_held();
    if (slices_are_complete(dest->slices) || !slices_are_bound(dest->slices))
        return NULL;
    if (dest->state.has_run)
        return "the guest runs here, and pages of it are still at the source";
    return "the source may have switched: the guest may be nowhere else";
}

static void obey(struct dest *dest, const struct order *order)
{
    static char json[MOST_JSON];
    const char *reason = reason_to_stay(dest);

    if (order->word == WORD_STATUS || order->word == WORD_WATCH) {
        write_status(dest, json, sizeof json);
        operator_answer(order, json);
    } else if (order->word == WORD_END || order->word == WORD_SIGNAL || order->word == WORD_ABANDON) {
        if (dest->slices->held ? !operator_abandons(order) : reason && order->word != WORD_ABANDON) {
            operator_refuse(order, reason);
            return;
        }
        dest->slices->is_over = true;
        operator_done(order);
    } else {
        operator_refuse(order, order->word == WORD_UNKNOWN ? "no such word" : "that is said to the source");
    }
}

void dest_obey(struct dest *dest)
{
    static char json[MOST_JSON];
    struct order order;

    while (operator_next(&order))
        obey(dest, &order);
    if (operator_is_watched()) {
        write_status(dest, json, sizeof json);
        operator_tell(json);
    }
}
