/* The command line. */
#include <errno.h>
#include <getopt.h>
#include <inttypes.h>
#include <signal.h>
#include <stdio.h>
#include <stdlib.h>
#include <string.h>

#include "history.h"
#include "live.h"
#include "log.h"
#include "options.h"
#include "roles.h"

static const char USAGE[] =
    "live source --connect ADDRESS [OPTION ..]    moves its guest to a destination\n"
    "live dest --listen ADDRESS [OPTION ..]       runs the guest on, until SIGTERM, SIGINT or a word at --control once "
    "it has all\n"
    "live handler --listen ADDRESS --monitor unix:PATH [OPTION ..]   the same for memory of a monitor, which hands it "
    "over at PATH\n"
    "live monitor --connect unix:PATH [OPTION ..] such a monitor: it runs the guest\n"
    "live bare [OPTION ..]                        what the connections and UFFDIO_COPY take without a node, for the "
    "same guest\n"
    "\n"
    "ADDRESS is HOST:PORT (port 0: one that is free), or unix:PATH. Without --psk HOST is one of loopback.\n"
    "\n"
    "of both, and the same for both:\n"
    "  --memory SIZE     of the guest, 1M to 32G (256M)\n"
    "  --slices N        of this memory, 1 to 32, each of at most 1G, that migrate at once (as many as memory needs)\n"
    "  --threads N       of the guest, 1 to 255 (4)\n"
    "  --seed N          of what it does (1)\n"
    "  --cold N          of 64 operations, stores outside of the hot eighth of memory (4)\n"
    "  --given N         of 64 operations, pages that are given back (0)\n"
    "  --shared N        the same of pages that all threads use (0)\n"
    "of each:\n"
    "  --batch N         operations after which a thread sleeps (64)\n"
    "  --pause US        for this number of microseconds (200)\n"
    "  --buffer BYTES    of a socket in the kernel (65536; 0: the kernel's choice)\n"
    "  --cut CHANNEL:DIRECTION:BYTES,..   of the next epoch, for tests: main or urgent is cut after these bytes, in, "
    "out, or out\n"
    "                    since the switch, or of a destination since the End (post); `none` leaves an epoch whole. K/ "
    "before the list:\n"
    "                    of slice K, counted from 0 on\n"
    "  --feed COMMAND    takes the part of the other side: frames go to its standard input and come from its standard "
    "output. There\n"
    "                    is no --connect or --listen then, and no second epoch\n"
    "  --migration NAME  that both sides must have alike, at most 32 letters: with one key for several migrations each "
    "has its own\n"
    "  --control unix:PATH   lines of the operator: status, watch, cancel, end, abandon, rate N, push-rate N, patience "
    "N\n"
    "  --silence S       a connection on which nothing came for S seconds counts as broken (5)\n"
    "  --psk FILE        TLS with a pre-shared key, USER:HEXKEY in the first line of FILE; of both, the same line for "
    "both\n"
    "  --no-priority     the driver's thread has the priority of the guest's. (Else SCHED_RR on two processors or "
    "more, or nice, if allowed)\n"
    "  --progress        a line each tenth of a second\n"
    "  --trace FILE      the steps of its node, a line for each: `live/merge` makes one script of both sides' files. "
    "(not of a monitor)\n"
    "  --sums            the trace ends with sums of frames and pages, which `live/merge` compares\n"
    "of a process in which the guest runs:\n"
    "  --history FILE    the accesses of its threads, each with the moments between which it took effect: "
    "`live/histories.py` joins both\n"
    "                    sides' files for `postmig history`. (not with --shared)\n"
    "of the source:\n"
    "  --rounds N        of pre-copy at most (3)\n"
    "  --target PAGES    it switches after a round with no more (1000)\n"
    "  --no-urgent       pages that were asked for go on the main connection\n"
    "  --rate N          pages per second of pre-copy, and\n"
    "  --push-rate N     in the background of post-copy (0: all that the connection takes)\n"
    "  --before MS       of the guest before the migration begins (20)\n"
    "  --patience S      without a destination, after which the source gives up (10 before the switch, and without end "
    "after it)\n"
    "  --after MS        of a guest that is kept, after which the program ends (without end)\n"
    "of the destination:\n"
    "  --after MS        of the guest after the end was asked for (50)\n"
    "  --check-owed      asks the kernel whether each owed page is missing before the guest runs\n"
    "\n"
    "Status: 0 done, 1 the migration is not completed, 2 bad use or an answer of the kernel that was not expected, 3 "
    "the guest's memory is wrong.\n";

/* NUMBERS */

static uint64_t number(const char *name, const char *text, uint64_t least, uint64_t most)
{
    char *rest;
    unsigned long long value;

    errno = 0;
    value = strtoull(text, &rest, 10);
    if (errno || rest == text || *rest || *text == '-' || value < least || value > most)
        refuse("--%s %s: a number from %llu to %llu is needed", name, text, (unsigned long long)least,
               (unsigned long long)most);
    return value;
}

/* Of a SIZE with M or G. */
static uint32_t pages_of(const char *text)
{
    char unit = 0, rest;
    unsigned long long value = 0, bytes;

    if (sscanf(text, "%5llu%c%c", &value, &unit, &rest) != 2 || (unit != 'M' && unit != 'G'))
        refuse("--memory %s: a size such as 64M or 1G is needed", text);
    bytes = value << (unit == 'M' ? 20 : 30);
    if (bytes / PAGE_BYTES > MOST_SLICES * MOST_PAGES)
        refuse("--memory %s: the guest is too large: it has at most %u slices of 1G, %u pages each", text, MOST_SLICES,
               MOST_PAGES);
    if (bytes / PAGE_BYTES < LEAST_PAGES)
        refuse("--memory %s: the guest is too small: it has at least 1M", text);
    return (uint32_t)(bytes / PAGE_BYTES);
}

/* CUTS */

static uint64_t *direction_of(struct cut *cut, const char *name)
{
    if (!cut || !strcmp(name, "in"))
        return cut ? &cut->in : NULL;
    if (!strcmp(name, "out"))
        return &cut->out;
    return strcmp(name, "post") ? NULL : &cut->post;
}

static void read_cut(struct cuts *cuts, const char *text)
{
    char channel[8] = "", direction[5] = "", rest;
    unsigned long long bytes = 0;
    bool is_read = sscanf(text, "%7[a-z]:%4[a-z]:%19llu%c", channel, direction, &bytes, &rest) == 3;
    struct cut *cut = !strcmp(channel, "main") ? &cuts->main : !strcmp(channel, "urgent") ? &cuts->urgent : NULL;
    uint64_t *place = direction_of(cut, direction);

    if (!is_read || !place)
        refuse("--cut %s: it is main or urgent; in, out, or post; and a number of bytes, as main:out:4096", text);
    *place = bytes;
}

/* A list of those of one epoch, of one slice. */
static void read_cuts(struct options *options, char *text)
{
    char *rest = strchr(text, '/');
    uint32_t slice = 0;
    struct cuts *cuts;

    if (rest) {
        *rest++ = 0;
        slice = (uint32_t)number("cut", text, 0, MOST_SLICES - 1);
    }
    if (options->cuts[slice] == MOST_CUTS)
        refuse("--cut: at most %u epochs can be cut", MOST_CUTS);
    cuts = &options->cut[slice][options->cuts[slice]++];
    *cuts = (struct cuts)NO_CUTS;
    for (char *word = strtok(rest ? rest : text, ","); word; word = strtok(NULL, ","))
        if (strcmp(word, "none"))
            read_cut(cuts, word);
}

/* OPTIONS */

#define MOST_PLANNED 60u /* of 64 operations; the others store to hot pages */

enum {
    CONNECT = 256,
    LISTEN,
    MEMORY,
    SLICES,
    THREADS,
    SEED,
    COLD_STORES,
    GIVEN_BACK,
    SHARED,
    BATCH,
    PAUSE,
    BUFFER,
    CUT,
    PROGRESS,
    ROUNDS,
    TARGET,
    NO_URGENT,
    RATE,
    PUSH_RATE,
    CONTROL,
    MIGRATION,
    SILENCE,
    NO_PRIORITY,
    BEFORE,
    PATIENCE,
    AFTER,
    CHECK_OWED,
    MONITOR,
    FEED,
    PSK,
    TRACE,
    HISTORY,
    SUMS,
    HELP
};

#define SHARED_OPTIONS                                                                                        \
    { "memory", required_argument, NULL, MEMORY }, { "threads", required_argument, NULL, THREADS },           \
        { "seed", required_argument, NULL, SEED }, { "cold", required_argument, NULL, COLD_STORES },          \
        { "given", required_argument, NULL, GIVEN_BACK }, { "shared", required_argument, NULL, SHARED },      \
        { "batch", required_argument, NULL, BATCH }, { "pause", required_argument, NULL, PAUSE },             \
        { "buffer", required_argument, NULL, BUFFER }, { "cut", required_argument, NULL, CUT },               \
        { "progress", no_argument, NULL, PROGRESS }, { "trace", required_argument, NULL, TRACE },             \
        { "sums", no_argument, NULL, SUMS }, { "control", required_argument, NULL, CONTROL },                 \
        { "migration", required_argument, NULL, MIGRATION }, { "silence", required_argument, NULL, SILENCE }, \
        { "no-priority", no_argument, NULL, NO_PRIORITY },                                                    \
    {                                                                                                         \
        "help", no_argument, NULL, HELP                                                                       \
    }

static const struct option source_options[] = { SHARED_OPTIONS,
                                                { "history", required_argument, NULL, HISTORY },
                                                { "connect", required_argument, NULL, CONNECT },
                                                { "slices", required_argument, NULL, SLICES },
                                                { "rounds", required_argument, NULL, ROUNDS },
                                                { "target", required_argument, NULL, TARGET },
                                                { "no-urgent", no_argument, NULL, NO_URGENT },
                                                { "rate", required_argument, NULL, RATE },
                                                { "push-rate", required_argument, NULL, PUSH_RATE },
                                                { "after", required_argument, NULL, AFTER },
                                                { "before", required_argument, NULL, BEFORE },
                                                { "patience", required_argument, NULL, PATIENCE },
                                                { "feed", required_argument, NULL, FEED },
                                                { "psk", required_argument, NULL, PSK },
                                                { NULL, 0, NULL, 0 } };

static const struct option dest_options[] = { SHARED_OPTIONS,
                                              { "slices", required_argument, NULL, SLICES },
                                              { "history", required_argument, NULL, HISTORY },
                                              { "listen", required_argument, NULL, LISTEN },
                                              { "after", required_argument, NULL, AFTER },
                                              { "check-owed", no_argument, NULL, CHECK_OWED },
                                              { "feed", required_argument, NULL, FEED },
                                              { "psk", required_argument, NULL, PSK },
                                              { NULL, 0, NULL, 0 } };

static const struct option handler_options[] = { SHARED_OPTIONS,
                                                 { "listen", required_argument, NULL, LISTEN },
                                                 { "after", required_argument, NULL, AFTER },
                                                 { "check-owed", no_argument, NULL, CHECK_OWED },
                                                 { "monitor", required_argument, NULL, MONITOR },
                                                 { "feed", required_argument, NULL, FEED },
                                                 { "psk", required_argument, NULL, PSK },
                                                 { NULL, 0, NULL, 0 } };

static const struct option monitor_options[] = { SHARED_OPTIONS,
                                                 { "history", required_argument, NULL, HISTORY },
                                                 { "connect", required_argument, NULL, CONNECT },
                                                 { "patience", required_argument, NULL, PATIENCE },
                                                 { NULL, 0, NULL, 0 } };

static const struct option bare_options[] = { { "memory", required_argument, NULL, MEMORY },
                                              { "slices", required_argument, NULL, SLICES },
                                              { "buffer", required_argument, NULL, BUFFER },
                                              { "threads", required_argument, NULL, THREADS },
                                              { "seed", required_argument, NULL, SEED },
                                              { "cold", required_argument, NULL, COLD_STORES },
                                              { "batch", required_argument, NULL, BATCH },
                                              { "pause", required_argument, NULL, PAUSE },
                                              { "no-urgent", no_argument, NULL, NO_URGENT },
                                              { "no-priority", no_argument, NULL, NO_PRIORITY },
                                              { NULL, 0, NULL, 0 } };

static void set_number(struct options *options, int option, const char *name, const char *text)
{
    const struct {
        int option;
        uint32_t *value, least, most;
    } numbers[] = {
        { SLICES, &options->slices, 1, MOST_SLICES },   { THREADS, &options->plan.threads, 1, MOST_THREADS },
        { SEED, &options->plan.seed, 0, UINT32_MAX },   { COLD_STORES, &options->plan.cold, 0, 48 },
        { GIVEN_BACK, &options->plan.given, 0, 4 },     { SHARED, &options->plan.shared, 0, 4 },
        { BATCH, &options->pace.batch, 1, UINT32_MAX }, { PAUSE, &options->pace.pause, 0, 1000000 },
        { BUFFER, &options->buffer, 0, 1u << 30 },      { ROUNDS, &options->rounds, 0, 1000 },
        { TARGET, &options->target, 0, MOST_PAGES },    { PUSH_RATE, &options->push_rate, 0, 100000000 },
        { RATE, &options->rate, 0, 100000000 },         { SILENCE, &options->silence, 1, 3600 },
        { BEFORE, &options->before, 0, 3600000 },       { PATIENCE, &options->patience, 1, 86400 },
        { AFTER, &options->after, 0, 3600000 },
    };

    for (size_t i = 0; i < sizeof numbers / sizeof *numbers; i++)
        if (numbers[i].option == option)
            *numbers[i].value = (uint32_t)number(name, text, numbers[i].least, numbers[i].most);
}

static void read_unix_address(struct address *address, const char *text)
{
    address_read(address, text);
    if (!address_is_unix(address))
        refuse("%s: this goes over a Unix socket: unix:PATH", text);
}

static void read_name(char *name, const char *text)
{
    size_t length = strlen(text);

    if (!length || length > MOST_OF_NAME)
        refuse("--migration %s: a name of 1 to %u letters is needed", text, MOST_OF_NAME);
    for (size_t i = 0; i < length; i++)
        if (text[i] < '!' || text[i] > '~' || strchr("\"\\", text[i]))
            refuse("--migration %s: a name has letters, digits and marks, and no blank, quotation mark or backslash",
                   text);
    memcpy(name, text, length + 1);
}

/* Of options that only set something. False for another one. */
static bool set_flag(struct options *options, int option)
{
    switch (option) {
    case PROGRESS:
        options->shows_progress = true;
        return true;
    case NO_PRIORITY:
        options->goes_first = false;
        return true;
    case NO_URGENT:
        options->has_urgent = false;
        return true;
    case SUMS:
        options->makes_sums = true;
        return true;
    case CHECK_OWED:
        options->checks_owed = true;
        return true;
    case HELP:
        fputs(USAGE, stdout);
        exit(STATUS_OK);
    default:
        return false;
    }
}

static void set_option(struct options *options, int option, const char *name, char *text)
{
    switch (option) {
    case CONNECT:
    case LISTEN:
        address_read(&options->address, text);
        break;
    case FEED:
        options->feed = text;
        break;
    case PSK:
        tls_read_key(text);
        options->has_key = true;
        break;
    case MONITOR:
        read_unix_address(&options->monitor, text);
        break;
    case MEMORY:
        options->plan.pages = pages_of(text);
        break;
    case CONTROL:
        read_unix_address(&options->control, text);
        break;
    case MIGRATION:
        read_name(options->migration, text);
        break;
    case CUT:
        read_cuts(options, text);
        break;
    case TRACE:
        options->trace = text;
        break;
    case HISTORY:
        options->history = text;
        break;
    default:
        if (!set_flag(options, option))
            set_number(options, option, name, text);
    }
}

/* What memory needs, unless there are more. */
static void set_slices(struct options *options)
{
    const struct guest_plan *plan = &options->plan;
    uint32_t least = (plan->pages + MOST_PAGES - 1) / MOST_PAGES;

    if (!options->slices)
        options->slices = least;
    if (options->slices < least)
        refuse("--slices %u: the guest is too large: a slice has at most 1G, %u pages", options->slices, MOST_PAGES);
    if (plan->pages / options->slices < LEAST_PAGES)
        refuse("--slices %u: the guest is too small: a slice has at least 1M", options->slices);
    if (plan->threads > plan->pages / LEAST_PAGES * MOST_PROCESSORS)
        refuse("--threads %u: there are at most %u for each 1M of --memory", plan->threads, MOST_PROCESSORS);
    if (options->slices > 1 && options->feed)
        refuse("--feed takes one slice, and the guest has %u", options->slices);
}

static void check_address(const struct options *options)
{
    if (options->has_key && options->feed)
        refuse("--feed has no connection that --psk could encrypt");
    if (options->has_key || !options->address.text || address_is_local(&options->address))
        return;
    if (!tls_is_built_in())
        refuse(
            "%s: TLS is not built in, and plain TCP is for loopback alone: 127.0.0.1, [::1], localhost, or unix:PATH",
            options->address.text);
    refuse("%s: plain TCP is for loopback alone: 127.0.0.1, [::1], localhost, or unix:PATH. With --psk FILE TLS goes "
           "to any address",
           options->address.text);
}

/* What does not go together is refused. */
static void check_options(const struct options *options, const struct option *known)
{
    if (options->address.text && options->feed)
        refuse("--feed takes no address: the command is the other side");
    if (!options->address.text && !options->feed && known != bare_options)
        refuse("an address is needed: --%s ADDRESS",
               known == source_options || known == monitor_options ? "connect" : "listen");
    if (options->plan.cold + 3 * (options->plan.given + options->plan.shared) > MOST_PLANNED)
        refuse("--cold, and three times --given and --shared, have more than %u of 64 operations", MOST_PLANNED);
    if (options->history && options->plan.shared)
        refuse("--history: a history has no pages that one thread gives back while another uses them, as those of "
               "--shared");
    if (options->makes_sums && !options->trace)
        refuse("--sums go to the end of a trace: --trace FILE");
    check_address(options);
    if (options->slices > 1 && known != source_options && known != dest_options && known != bare_options)
        refuse("the guest is too large: it has one slice of at most 1G here");
    if (known == handler_options && !options->monitor.text)
        refuse("the place where a monitor hands over its memory is needed: --monitor unix:PATH");
    if (known == monitor_options && !address_is_unix(&options->address))
        refuse("%s: this goes over a Unix socket: unix:PATH", options->address.text);
}

static void read_options(struct options *options, const struct option *known, int count, char **words)
{
    int option, index = 0;

    *options = (struct options){
        .plan = { .pages = 65536, .threads = 4, .seed = 1, .cold = 4 },
        .pace = { .batch = 64, .pause = 200 },
        .buffer = 65536,
        .silence = 5,
        .goes_first = true,
        .rounds = 3,
        .target = 1000,
        .has_urgent = true,
        .before = 20,
        .after = known == source_options ? FOREVER : 50,
    };
    while ((option = getopt_long(count, words, "", known, &index)) != -1) {
        if (option == '?')
            exit(STATUS_REFUSED);
        set_option(options, option, known[index].name, optarg);
    }
    if (optind < count)
        refuse("%s: what is that? `live --help` says how to use it", words[optind]);
    set_slices(options);
    check_options(options, known);
}

static int run(int (*role)(const struct options *), const struct options *options)
{
    int status;

    log_open();
    history_open(options->history);
    status = role(options);
    history_close();
    if (log_dropped())
        log_say("%" PRIu64 " lines were not written", log_dropped());
    log_flush();
    return status;
}

int main(int count, char **words)
{
    static struct options options;
    static const struct {
        const char *name;
        const struct option *known;
        int (*run)(const struct options *);
    } roles[] = {
        { "source", source_options, source_run }, { "dest", dest_options, dest_run },
        { "handler", handler_options, dest_run }, { "monitor", monitor_options, monitor_run },
        { "bare", bare_options, bare_run },
    };
    const char *name = count > 1 ? words[1] : "";

    live_begin();
    (void)signal(SIGPIPE, SIG_IGN); /* a reader of the progress may leave; it always succeeds */
    for (size_t i = 0; i < sizeof roles / sizeof *roles; i++)
        if (!strcmp(name, roles[i].name)) {
            words[1] = words[0];
            read_options(&options, roles[i].known, count - 1, words + 1);
            return run(roles[i].run, &options);
        }
    fputs(USAGE, strcmp(name, "--help") ? stderr : stdout);
    return strcmp(name, "--help") ? STATUS_REFUSED : STATUS_OK;
}
