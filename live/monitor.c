/* A small monitor, for tests: its memory is handed over before the first thread runs, and checked after the last
   one has stopped. */
#include "roles.h"

#include <inttypes.h>

#include "handing.h"
#include "kernel.h"
#include "live.h"
#include "log.h"

#define HANDLER_S 60u /* until there is a handler */

/* Two ranges, since a monitor may have several. */
static void hand_over(int handler, int userfault, const struct guest *guest)
{
    uint64_t at = (uintptr_t)guest->memory, bytes = (uint64_t)guest->plan.pages * PAGE_BYTES,
             first = bytes / PAGE_BYTES / 3 * PAGE_BYTES;
    const struct handed_range ranges[] = { { at, first, 0 }, { at + first, bytes - first, first } };

    handing_give(handler, userfault, ranges, 2);
}

int monitor_run(const struct options *options)
{
    static struct guest guest;
    const size_t bytes = (size_t)options->plan.pages * PAGE_BYTES;
    int userfault = kernel_open_userfault(), handler;

    guest_open(&guest, &options->plan, &options->pace, kernel_map(bytes));
    kernel_register(userfault, guest.memory, bytes, false);
    handler = handing_connect(&options->address, options->patience ? options->patience : HANDLER_S);
    hand_over(handler, userfault, &guest);
    guest_make(&guest);
    handing_hear(handler, HANDED_RUN, "the handler has ended before the guest was to run");
    guest_start(&guest);
    handing_hear(handler, HANDED_STOP, "the handler has ended: the guest is lost");
    guest_ask_stop(&guest);
    guest_join(&guest);
    handing_say(handler, HANDED_STOP);
    handing_hear(handler, 0, "the handler says more than that it has ended");
    kernel_unregister(userfault, guest.memory, bytes);
    log_figures("monitor first=%" PRIu64 "\n", atomic_load(&guest.first_done));
    return guest_verdict(&guest);
}
