/* The threads of the guest, and what each word must be. */
#include "guest.h"

#include <errno.h>
#include <inttypes.h>
#include <poll.h>
#include <stdio.h>
#include <string.h>
#include <sys/eventfd.h>
#include <sys/mman.h>
#include <sys/syscall.h>
#include <time.h>
#include <unistd.h>

#include "history.h"
#include "kernel.h"
#include "log.h"

#define PERIOD 64u
#define SLOTS 16u       /* words of a page that are stored to, */
#define MORE_SLOTS 256u /* where there are more threads than these */
#define WORDS (PAGE_BYTES / 8)
#define PLAN_WORD MOST_THREADS /* of page 0: the plan, in one number */
#define HOT_PART 8u
#define BALLOON_PART 16u
#define COMMON_PART 64u

static uint64_t mix(uint64_t x)
{
    x += 0x9e3779b97f4a7c15u;
    x = (x ^ x >> 30) * 0xbf58476d1ce4e5b9u;
    x = (x ^ x >> 27) * 0x94d049bb133111ebu;
    return x ^ x >> 31;
}

static volatile uint64_t *word_at(const struct guest *guest, uint32_t page, uint32_t word)
{
    return (volatile uint64_t *)(void *)(guest->memory + (uint64_t)page * PAGE_BYTES) + word;
}

/* Its address, as the node and a history have it. */
static uint64_t address_of(uint32_t page, uint32_t word)
{
    return (uint64_t)(LOW_PAGE + page) * PAGE_BYTES + word * 8u;
}

/* The threads' own accesses: the driver copies the same pages meanwhile. What orders the two is the protection of a
   page and its faults, which the thread sanitizer does not see, so it looks at neither function. */
static __attribute__((no_sanitize("thread"))) uint64_t read_word(const struct guest *guest, uint32_t thread,
                                                                 uint32_t page, uint32_t word)
{
    uint64_t begin = history_begin(), value = *word_at(guest, page, word);

    history_load(thread, begin, address_of(page, word), value);
    return value;
}

static __attribute__((no_sanitize("thread"))) void store_word(const struct guest *guest, uint32_t thread, uint32_t page,
                                                              uint32_t word, uint64_t value)
{
    uint64_t begin = history_begin();

    *word_at(guest, page, word) = value;
    history_store(thread, begin, address_of(page, word), value);
}

uint32_t plan_processors(const struct guest_plan *plan)
{
    return plan->threads < MOST_PROCESSORS ? plan->threads : MOST_PROCESSORS;
}

uint64_t guest_number(const struct guest_plan *plan)
{
    uint64_t number = mix(plan->pages);

    number = mix(number ^ plan->threads);
    number = mix(number ^ plan->seed);
    number = mix(number ^ plan->cold);
    number = mix(number ^ plan->given);
    return mix(number ^ plan->shared) | 1;
}

/* THE MEMORY BEFORE THE FIRST OPERATION */

enum filling { UNTOUCHED, ZEROS, PATTERN };

static enum filling filling_of(const struct guest *guest, uint32_t page)
{
    uint64_t part = mix((uint64_t)guest->plan.seed << 32 | page) % 100;

    return part < 10 ? UNTOUCHED : part < 15 ? ZEROS : PATTERN;
}

static uint64_t pattern_word(const struct guest *guest, uint32_t page, uint32_t word)
{
    return (((uint64_t)page * WORDS + word) ^ (uint64_t)guest->plan.seed << 32) * 0x9e3779b97f4a7c15u | 1;
}

static uint64_t first_word(const struct guest *guest, uint32_t page, uint32_t word)
{
    return filling_of(guest, page) == PATTERN ? pattern_word(guest, page, word) : 0;
}

/* The word of a page that is stored to as its slot. */
static uint32_t word_of_slot(const struct guest *guest, uint32_t page, uint32_t slot)
{
    uint32_t words = WORDS / guest->slots;

    return slot * words + (uint32_t)(mix(page) % words);
}

/* Adds what the driver has done, since `begin`, to the words of a page that the threads use. For the history each
   slot is a thread's: they are used within one interval. */
static void add_slots(const struct guest *guest, uint32_t page, uint64_t begin,
                      void (*add)(uint32_t, uint64_t, uint64_t, uint64_t))
{
    for (uint32_t slot = 0; slot < guest->slots && history_is_open(); slot++) {
        uint32_t word = page ? word_of_slot(guest, page, slot) : slot;

        add(slot, begin, address_of(page, word), *word_at(guest, page, word));
    }
}

static void fill_page(struct guest *guest, uint32_t page)
{
    enum filling filling = filling_of(guest, page);
    uint64_t begin = history_begin();

    for (uint32_t word = 0; word < WORDS && filling == PATTERN; word++)
        *word_at(guest, page, word) = pattern_word(guest, page, word);
    if (filling == PATTERN)
        add_slots(guest, page, begin, history_store);
    if (filling == ZEROS)
        *word_at(guest, page, 0) = 0;
}

/* (It was mapped before, and no one has used it since.) */
void guest_fill(struct guest *guest)
{
    history_map(0, history_begin(), address_of(0, 0), (uint64_t)guest->plan.pages * PAGE_BYTES);
    store_word(guest, 0, 0, PLAN_WORD, guest_number(&guest->plan));
    for (uint32_t page = 1; page < guest->plan.pages; page++)
        fill_page(guest, page);
}

/* TRACKS */

static uint64_t common_divisor(uint64_t a, uint64_t b)
{
    return b ? common_divisor(b, a % b) : a;
}

/* The number that gives 1 modulo `modulus`, times `number`, which has no divisor in common with it. */
static uint64_t inverse_of(uint64_t number, uint64_t modulus)
{
    int64_t old = (int64_t)modulus, now = (int64_t)number, old_part = 0, part = 1;

    while (now > 1) {
        int64_t times = old / now, left = old % now, next = old_part - times * part;

        old = now;
        now = left;
        old_part = part;
        part = next;
    }
    return modulus == 1 ? 0 : (uint64_t)(part < 0 ? part + (int64_t)modulus : part);
}

static void set_track(struct track *track, uint32_t count, uint32_t first_page, uint64_t items, uint64_t offset)
{
    *track = (struct track){ .first = track->first, .count = count, .first_page = first_page, .items = items };
    if (!items)
        track->count = 0;
    if (!track->count)
        return;
    track->offset = offset % items;
    track->step = items * 618 / 1000 + 1;
    while (common_divisor(track->step, items) != 1)
        track->step++;
    track->step %= items;
    track->inverse = inverse_of(track->step, items);
}

static uint32_t slots_of_thread(const struct guest *guest)
{
    return guest->slots / guest->plan.threads;
}

/* The hot pages are after page 0, the cold ones after them, then those that are given back by any thread, and the
   balloon is at the end. */
static void set_tracks(struct guest *guest, struct guest_thread *thread)
{
    const struct guest_plan *plan = &guest->plan;
    uint32_t shared = guest->common_page - 1, hot = shared / HOT_PART, own = guest->balloon_pages / plan->threads;
    uint64_t offset = mix((uint64_t)plan->seed << 32 | thread->number), each = slots_of_thread(guest);
    uint32_t at = 0, counts[TRACKS] = { 0, plan->cold, 2 * plan->given, plan->given, 2 * plan->shared, plan->shared };

    counts[HOT] = PERIOD - plan->cold - 3 * (plan->given + plan->shared);
    for (int i = 0; i < TRACKS; at += counts[i++])
        thread->track[i].first = at;
    set_track(&thread->track[HOT], counts[HOT], 1, hot * each, offset);
    set_track(&thread->track[COLD], counts[COLD], 1 + hot, (shared - hot) * each, offset);
    set_track(&thread->track[BALLOON], counts[BALLOON], guest->balloon_page, (uint64_t)own * SLOTS, offset);
    set_track(&thread->track[GIVEN], counts[GIVEN], guest->balloon_page, own, offset);
    set_track(&thread->track[COMMON], counts[COMMON], guest->common_page, guest->common_pages * each, offset);
    set_track(&thread->track[TAKEN], counts[TAKEN], guest->common_page, guest->common_pages, offset);
}

/* The item of operation x of the track. */
static uint64_t item_of(const struct track *track, uint64_t x)
{
    return (track->step * (x % track->items) + track->offset) % track->items;
}

/* How many operations of the track there are before operation k. */
static uint64_t made_before(const struct track *track, uint64_t k)
{
    uint32_t at = (uint32_t)(k % PERIOD), part = at < track->first ? 0 : at - track->first;

    return k / PERIOD * track->count + (part < track->count ? part : track->count);
}

/* The last operation before k that had this item, plus 1; 0 if there is none. */
static uint64_t last_before(const struct track *track, uint64_t item, uint64_t k)
{
    uint64_t made, first, x;

    if (!track->count)
        return 0;
    made = made_before(track, k);
    first = track->inverse * ((item + track->items - track->offset) % track->items) % track->items;
    if (made <= first)
        return 0;
    x = first + (made - 1 - first) / track->items * track->items;
    return x / track->count * PERIOD + track->first + x % track->count + 1;
}

static const struct track *track_at(const struct guest_thread *thread, uint64_t k)
{
    const struct track *track = thread->track;
    uint32_t at = (uint32_t)(k % PERIOD);

    while (at < track->first || at >= track->first + track->count)
        track++;
    return track;
}

/* WORDS */

struct place {
    uint32_t page, word;
};

/* In pages that all threads share, each thread has every slot of which the number is its own modulo their
   number. */
static struct place place_of(const struct guest_thread *thread, const struct track *track, uint64_t item)
{
    uint32_t threads = thread->guest->plan.threads, each = slots_of_thread(thread->guest), page, slot;

    if (track == &thread->track[BALLOON]) {
        page = track->first_page + (uint32_t)(item / SLOTS) * threads + thread->number;
        slot = (uint32_t)(item % SLOTS);
    } else {
        page = track->first_page + (uint32_t)(item / each);
        slot = thread->number + threads * (uint32_t)(item % each);
    }
    return (struct place){ page, word_of_slot(thread->guest, page, slot) };
}

static uint64_t value_of(const struct guest_thread *thread, uint64_t operation)
{
    return (uint64_t)(thread->number + 1) << 56 | (operation + 1);
}

/* What a word that is stored to has before operation k of its thread. In a page that another thread gives back it
   may be 0 too. */
static uint64_t right_value(const struct guest_thread *thread, const struct track *track, uint64_t item, uint64_t k)
{
    uint64_t stored = last_before(track, item, k), given = 0;
    struct place place = place_of(thread, track, item);

    if (track == &thread->track[BALLOON])
        given = last_before(&thread->track[GIVEN], item / SLOTS, k);
    if (track == &thread->track[COMMON])
        given = last_before(&thread->track[TAKEN], item / slots_of_thread(thread->guest), k);
    if (stored > given)
        return value_of(thread, stored - 1);
    return given ? 0 : first_word(thread->guest, place.page, place.word);
}

/* THE CHECK OF ALL MEMORY */

static bool was_given_back(const struct guest *guest, uint32_t page)
{
    uint32_t at = page - guest->balloon_page, threads = guest->plan.threads;
    const struct guest_thread *thread = &guest->thread[at % threads];

    return page >= guest->balloon_page && at / threads < thread->track[GIVEN].items &&
        last_before(&thread->track[GIVEN], at / threads, thread->next);
}

/* Of a page in the balloon, whose slots are all one thread's. */
static void set_own_slots(const struct guest *guest, uint32_t page, uint64_t *words)
{
    uint32_t at = page - guest->balloon_page, threads = guest->plan.threads;
    const struct guest_thread *thread = &guest->thread[at % threads];
    const struct track *track = &thread->track[BALLOON];

    for (uint32_t slot = 0; slot < SLOTS; slot++) {
        uint64_t item = (uint64_t)(at / threads) * SLOTS + slot;

        if (item < track->items)
            words[word_of_slot(guest, page, slot)] = right_value(thread, track, item, thread->next);
    }
}

static void set_shared_slots(const struct guest *guest, uint32_t page, uint64_t *words)
{
    uint32_t threads = guest->plan.threads, each = slots_of_thread(guest);

    for (uint32_t slot = 0; slot < each * threads; slot++) {
        const struct guest_thread *thread = &guest->thread[slot % threads];
        const struct track *track = &thread->track[page < thread->track[COLD].first_page ? HOT : COLD];
        uint64_t item = (uint64_t)(page - track->first_page) * each + slot / threads;

        if (track->count)
            words[word_of_slot(guest, page, slot)] = right_value(thread, track, item, thread->next);
    }
}

/* Whether a thread other than this one, NULL: any thread, has given a page back that all use. */
static bool was_taken(const struct guest *guest, uint32_t page, const struct guest_thread *but)
{
    for (uint32_t i = 0; i < guest->plan.threads; i++)
        if (&guest->thread[i] != but &&
            last_before(&guest->thread[i].track[TAKEN], page - guest->common_page, guest->thread[i].next))
            return true;
    return false;
}

/* Of a page that all threads give back: where a word may be 0 too, it is taken as it is. */
static void set_common_slots(const struct guest *guest, uint32_t page, uint64_t *words)
{
    uint32_t threads = guest->plan.threads, each = slots_of_thread(guest);

    for (uint32_t slot = 0; slot < each * threads; slot++) {
        const struct guest_thread *thread = &guest->thread[slot % threads];
        const struct track *track = &thread->track[COMMON];
        uint64_t item = (uint64_t)(page - track->first_page) * each + slot / threads;
        uint32_t word = word_of_slot(guest, page, slot);

        if (last_before(track, item, thread->next))
            words[word] = right_value(thread, track, item, thread->next);
        if (was_taken(guest, page, thread) && !*word_at(guest, page, word))
            words[word] = 0;
    }
}

static void set_state_words(const struct guest *guest, uint64_t *words)
{
    memset(words, 0, PAGE_BYTES);
    for (uint32_t i = 0; i < guest->plan.threads; i++)
        words[i] = guest->thread[i].next;
    words[PLAN_WORD] = guest_number(&guest->plan);
}

static void set_words(const struct guest *guest, uint32_t page, uint64_t *words)
{
    bool is_common = page >= guest->common_page && page < guest->balloon_page;
    bool is_empty =
        is_common ? was_taken(guest, page, NULL) : page >= guest->balloon_page && was_given_back(guest, page);

    if (page == 0) {
        set_state_words(guest, words);
        return;
    }
    for (uint32_t word = 0; word < WORDS; word++)
        words[word] = is_empty ? 0 : first_word(guest, page, word);
    if (page >= guest->balloon_page)
        set_own_slots(guest, page, words);
    else if (is_common)
        set_common_slots(guest, page, words);
    else
        set_shared_slots(guest, page, words);
}

uint32_t guest_check(struct guest *guest, uint32_t *first_wrong)
{
    uint64_t words[WORDS];
    uint32_t wrong = 0;

    for (uint32_t page = 0; page < guest->plan.pages; page++) {
        add_slots(guest, page, history_begin(), history_load);
        set_words(guest, page, words);
        if (memcmp(guest->memory + (uint64_t)page * PAGE_BYTES, words, sizeof words) && !wrong++)
            *first_wrong = page;
    }
    return wrong;
}

/* THE THREADS */

static void give_back(const struct guest_thread *thread, const struct track *track, uint64_t item)
{
    bool is_own = track == &thread->track[GIVEN];
    uint32_t page =
        track->first_page + (uint32_t)item * (is_own ? thread->guest->plan.threads : 1) + (is_own ? thread->number : 0);
    uint64_t begin = history_begin();

    if (madvise(thread->guest->memory + (uint64_t)page * PAGE_BYTES, PAGE_BYTES, MADV_DONTNEED))
        refuse_errno(errno, "the guest's MADV_DONTNEED");
    history_give_back(thread->number, begin, address_of(page, 0), PAGE_BYTES);
}

/* The next access to memory begins now. */
static void note_access(struct guest_thread *thread)
{
    atomic_store_explicit(&thread->begun, kernel_now(), memory_order_relaxed);
}

/* Loads one of the thread's own words, and compares it. */
static void load_word(struct guest_thread *thread, uint64_t k)
{
    uint64_t choice = mix((uint64_t)thread->guest->plan.seed << 40 ^ (uint64_t)thread->number << 56 ^ k);
    const struct track *track = track_at(thread, choice % PERIOD);
    uint64_t item, value, right;
    struct place place;

    if (track == &thread->track[GIVEN] || track == &thread->track[TAKEN])
        track--; /* the words of these pages */
    item = choice / PERIOD % track->items;
    place = place_of(thread, track, item);
    note_access(thread);
    value = read_word(thread->guest, thread->number, place.page, place.word);
    right = right_value(thread, track, item, k + 1);
    if (value == right || (!value && track == &thread->track[COMMON]))
        return;
    if (!thread->wrong++) {
        thread->wrong_address = (uint64_t)place.page * PAGE_BYTES + place.word * 8u;
        thread->wrong_value = value;
        thread->right_value = right;
    }
}

static void make_operation(struct guest_thread *thread, uint64_t k)
{
    const struct track *track = track_at(thread, k);
    uint64_t item = item_of(track, made_before(track, k));
    struct place place;

    if (track == &thread->track[GIVEN] || track == &thread->track[TAKEN]) {
        give_back(thread, track, item);
        return;
    }
    place = place_of(thread, track, item);
    note_access(thread);
    store_word(thread->guest, thread->number, place.page, place.word, value_of(thread, k));
    load_word(thread, k);
}

/* Until the pause is over, or the threads are asked to stop. */
static void rest(const struct guest *guest)
{
    struct pollfd event = { .fd = guest->stop_event, .events = POLLIN };
    struct timespec time = { .tv_sec = guest->pace.pause / 1000000, .tv_nsec = guest->pace.pause % 1000000 * 1000 };

    (void)ppoll(&event, 1, &time, NULL); /* whatever it says, the thread continues */
}

static void note_first(struct guest *guest)
{
    uint64_t none = 0;

    /* another thread may have been first */
    (void)atomic_compare_exchange_strong(&guest->first_done, &none, kernel_now());
}

static void *run_thread(void *argument)
{
    struct guest_thread *thread = argument;
    struct guest *guest = thread->guest;

    atomic_store(&thread->id, (int)syscall(SYS_gettid));
    while (!atomic_load(&guest->is_started))
        /* it is looked at again */
        (void)poll(&(struct pollfd){ .fd = guest->start_event, .events = POLLIN }, 1, -1);
    note_access(thread);
    if (read_word(guest, thread->number, 0, PLAN_WORD) != guest_number(&guest->plan))
        refuse("this guest was started with other pages, threads, seed, cold, given or shared at the source");
    thread->next = read_word(guest, thread->number, 0, thread->number);
    while (!atomic_load_explicit(&guest->is_stopping, memory_order_relaxed)) {
        make_operation(thread, thread->next++);
        if (!thread->operations++)
            note_first(guest);
        if (guest->pace.pause && thread->next % guest->pace.batch == 0)
            rest(guest);
    }
    if (thread->operations) /* else it is there */
        store_word(guest, thread->number, 0, thread->number, thread->next);
    thread->left = kernel_now();
    atomic_fetch_add(&guest->stopped, 1);
    return NULL;
}

void guest_open(struct guest *guest, const struct guest_plan *plan, const struct guest_pace *pace, char *memory)
{
    memset(guest, 0, sizeof *guest);
    guest->plan = *plan;
    guest->pace = *pace;
    guest->memory = memory;
    guest->slots = plan->threads <= SLOTS ? SLOTS : MORE_SLOTS;
    guest->balloon_pages = plan->given ? plan->pages / BALLOON_PART : 0;
    guest->balloon_page = plan->pages - guest->balloon_pages;
    guest->common_pages = plan->shared ? plan->pages / COMMON_PART : 0;
    guest->common_page = guest->balloon_page - guest->common_pages;
    guest->start_event = eventfd(0, EFD_CLOEXEC | EFD_NONBLOCK);
    guest->stop_event = eventfd(0, EFD_CLOEXEC | EFD_NONBLOCK);
    if (guest->start_event < 0 || guest->stop_event < 0)
        refuse_errno(errno, "eventfd");
    for (uint32_t i = 0; i < plan->threads; i++) {
        guest->thread[i].guest = guest;
        guest->thread[i].number = i;
        set_tracks(guest, &guest->thread[i]);
    }
}

void guest_make(struct guest *guest)
{
    for (uint32_t i = 0; i < guest->plan.threads; i++) {
        int error = pthread_create(&guest->thread[i].handle, NULL, run_thread, &guest->thread[i]);

        if (error)
            refuse_errno(error, "a thread of the guest cannot be started");
    }
}

static void raise_event(int event)
{
    uint64_t one = 1;

    if (write(event, &one, sizeof one) != (ssize_t)sizeof one)
        refuse_errno(errno, "eventfd");
}

void guest_start(struct guest *guest)
{
    atomic_store(&guest->started, kernel_now());
    atomic_store(&guest->is_started, true);
    raise_event(guest->start_event);
}

void guest_ask_stop(struct guest *guest)
{
    atomic_store(&guest->is_stopping, true);
    raise_event(guest->stop_event);
}

bool guest_has_stopped(struct guest *guest)
{
    return atomic_load(&guest->stopped) == guest->plan.threads;
}

uint64_t guest_stopped_at(const struct guest *guest)
{
    uint64_t last = 0;

    for (uint32_t i = 0; i < guest->plan.threads; i++)
        last = guest->thread[i].left > last ? guest->thread[i].left : last;
    return last;
}

void guest_join(struct guest *guest)
{
    if (atomic_exchange(&guest->is_joined, true))
        return;
    for (uint32_t i = 0; i < guest->plan.threads; i++) {
        int error = pthread_join(guest->thread[i].handle, NULL);

        if (error)
            refuse_errno(error, "a thread of the guest does not end");
    }
}

uint64_t guest_operations(const struct guest *guest)
{
    uint64_t sum = 0;

    for (uint32_t i = 0; i < guest->plan.threads; i++)
        sum += guest->thread[i].operations;
    return sum;
}

uint64_t guest_wrong_loads(const struct guest *guest)
{
    uint64_t sum = 0;

    for (uint32_t i = 0; i < guest->plan.threads; i++)
        sum += guest->thread[i].wrong;
    return sum;
}

bool guest_shares(const struct guest *guest, uint32_t first, uint32_t count)
{
    return first < guest->balloon_page && first + count > guest->common_page && guest->common_pages;
}

uint64_t guest_access_begun(const struct guest *guest, uint32_t thread)
{
    return atomic_load_explicit(&guest->thread[thread].begun, memory_order_relaxed);
}

uint32_t guest_thread_of(struct guest *guest, uint32_t id)
{
    for (uint32_t i = 0; i < guest->plan.threads; i++)
        if ((uint32_t)atomic_load(&guest->thread[i].id) == id)
            return i;
    refuse("a fault of thread %u, which is not the guest's", id);
}

int guest_verdict(struct guest *guest)
{
    uint64_t wrong_loads = guest_wrong_loads(guest);
    uint32_t page = 0, wrong = guest_check(guest, &page);

    log_figures("verdict words=%" PRIu64 " operations=%" PRIu64 " wrong_loads=%" PRIu64
                " wrong_pages=%u first_wrong=0x%x\n",
                (uint64_t)guest->plan.pages * WORDS, guest_operations(guest), wrong_loads, wrong, LOW_PAGE + page);
    return wrong || wrong_loads ? STATUS_WRONG : STATUS_OK;
}
