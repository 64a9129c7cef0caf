// A guest without an operating system: its processors load and store words of its memory at once, and write down each
// operation with the ticks between which it took effect. At the end it writes the history, as docs/HISTORY.md has it,
// to the debug port or the serial one.
#include "machine.h"
#include "settings.h"

#define PAGE 4096u
#define FIRST_PAGE 0x1000000u // the records are after the pages
#define PARTS 64              // of the work, after each of which a line says how far it is
#define STORES 0x1u           // in the address of a record

// Its sum is never that of zeros: records are in the same memory as what is tested.
struct record {
    uint64_t begin, end;
    uint32_t addr, value, found, sum;
};

static struct settings settings;
static volatile uint32_t is_running, worked, ended;
volatile uint32_t others;
static volatile uint32_t counter __attribute__((aligned(4096))) = 2;

static uint64_t tick(void)
{
    return settings.tsc ? time_stamp() : add_to(&counter, 1);
}

static uint64_t tick_after(uint64_t begin)
{
    uint64_t end;
    do
        end = tick();
    while (end <= begin);
    return end;
}

// In the end a processor loads each word of every page of which the number is its own modulo theirs.
static uint32_t records_made(uint32_t processor)
{
    uint32_t pages = (settings.pages + settings.processors - 1 - processor) / settings.processors;
    return settings.count + pages * settings.words;
}

static struct record *records_of(uint32_t processor)
{
    return (struct record *)(FIRST_PAGE + settings.pages * PAGE) + processor * records_made(0);
}

// OUTPUT

static void put_byte(char byte)
{
    while (settings.serial && !(get_port(SERIAL_STATUS) & SERIAL_IS_EMPTY))
        continue;
    put_port(settings.serial ? SERIAL_PORT : DEBUG_PORT, (uint8_t)byte);
}

static void put_text(const char *text)
{
    while (*text)
        put_byte(*text++);
}

static void put_number(uint64_t number)
{
    unsigned shift = 60;
    while (shift && !(number >> shift))
        shift -= 4;
    put_text("0x");
    for (;; shift -= 4) {
        put_byte("0123456789abcdef"[number >> shift & 15]);
        if (!shift)
            return;
    }
}

// A text with numbers instead of its question marks.
static void put_line(const char *text, const uint64_t *numbers)
{
    for (; *text; text++) {
        if (*text == '?')
            put_number(*numbers++);
        else
            put_byte(*text);
    }
}

// RECORDS

static uint32_t sum_of(const struct record *record, uint32_t processor)
{
    const uint32_t *word = (const uint32_t *)record;
    uint32_t sum = 0x811c9dc5u + processor;
    for (unsigned i = 0; i < 7; i++)
        sum = (sum ^ word[i]) * 0x01000193u;
    return sum | 1;
}

static void put_record(const struct record *record, uint32_t processor, uint32_t number)
{
    uint32_t addr = record->addr & ~STORES;
    if (record->sum != sum_of(record, processor))
        put_line("damaged record ? of processor ?\n", (const uint64_t[]){ number, processor });
    else if (!(record->addr & STORES))
        put_line("? ? ? load ? 4 => value ?\n",
                 (const uint64_t[]){ processor, record->begin, record->end, addr, record->value });
    else if (settings.swaps)
        put_line("? ? ? swap ? 4 ? => value ?\n",
                 (const uint64_t[]){ processor, record->begin, record->end, addr, record->value, record->found });
    else
        put_line("? ? ? store ? 4 ? => done\n",
                 (const uint64_t[]){ processor, record->begin, record->end, addr, record->value });
}

static void put_history(void)
{
    const uint64_t length = settings.pages * PAGE;
    uint64_t count = 1;
    put_text("history 1\nclock ");
    put_text(settings.tsc ? "tsc\n" : "counter\n");
    put_line("0 0 1 mmap ? rw fixed ? => at ?\n", (const uint64_t[]){ length, FIRST_PAGE, FIRST_PAGE });
    for (uint32_t processor = 0; processor < settings.processors; processor++) {
        for (uint32_t i = 0; i < records_made(processor); i++)
            put_record(&records_of(processor)[i], processor, i);
        count += records_made(processor);
    }
    put_line("end ?\n", &count);
}

// WORK

static uint32_t drawn(uint32_t processor, uint32_t number)
{
    uint32_t x = (processor + 1) * 0x9e3779b9u ^ number * 0x85ebca6bu;
    x = (x ^ x >> 16) * 0x7feb352du;
    x = (x ^ x >> 15) * 0x846ca68bu;
    return x ^ x >> 16;
}

static volatile uint32_t *word_at(uint32_t page, uint32_t word)
{
    return (volatile uint32_t *)(FIRST_PAGE + page * PAGE + word * (PAGE / settings.words) / 4 * 4);
}

static void load(struct record *record, volatile uint32_t *word)
{
    record->addr = (uint32_t)word;
    record->begin = tick();
    record->value = *word;
    record->end = tick_after(record->begin);
}

static void store(struct record *record, volatile uint32_t *word, uint32_t value)
{
    record->addr = (uint32_t)word | STORES;
    record->value = value;
    record->begin = tick();
    if (settings.swaps)
        record->found = exchange(word, value);
    else
        *word = value;
    record->end = tick_after(record->begin);
}

// The value is unlike every other, and not 0: it has the processor and the number.
static void operate(struct record *record, uint32_t processor, uint32_t number)
{
    uint32_t random = drawn(processor, number);
    volatile uint32_t *word = word_at((random >> 8) % settings.pages, (random >> 1) % settings.words);
    if (random >> 31)
        store(record, word, (processor + 1) << 24 | (number + 1));
    else
        load(record, word);
    record->sum = sum_of(record, processor);
    if (settings.flush && number % settings.flush == 0)
        forget_translations();
    spin(settings.pauses);
}

static void say_part(uint32_t number)
{
    uint32_t each = settings.count / PARTS;
    if (each && number % each == 0)
        put_line("# part ?\n", (const uint64_t[]){ number / each });
}

static void wait_for_all(volatile uint32_t *arrived)
{
    add_to(arrived, 1);
    while (*arrived < settings.processors)
        spin(10);
}

// The state of a processor is one number: where memory goes back to an earlier state, a processor does so as a whole.
static void work(uint32_t processor)
{
    struct record *records = records_of(processor);
    volatile uint32_t number = 0;
    for (; number < settings.count; number++) {
        if (!processor)
            say_part(number);
        operate(&records[number], processor, number);
    }
    wait_for_all(&worked);
    records += settings.count;
    for (uint32_t i = 0; i < records_made(processor) - settings.count; i++) {
        uint32_t page = i / settings.words * settings.processors + processor;
        load(&records[i], word_at(page, i % settings.words));
        records[i].sum = sum_of(&records[i], processor);
    }
    wait_for_all(&ended);
}

void run_other(uint32_t processor)
{
    while (!is_running)
        spin(10);
    if (processor < settings.processors)
        work(processor);
    halt();
}

// The command line that the monitor gives: of multiboot by its magic number, else of PVH. NULL if there is none.
static const char *command_line(uint32_t magic, const uint32_t *info)
{
    if (magic == 0x2badb002u)
        return *info & 4 ? (const char *)info[4] : 0;
    return (const char *)info[6];
}

void run_first(uint32_t magic, const uint32_t *info)
{
    const char *wrong = read_settings(&settings, command_line(magic, info));
    if (wrong) {
        put_text("# not a number that is allowed: ");
        put_text(wrong);
        put_text("\n");
        halt();
    }
    start_others(&others, settings.processors - 1);
    put_line("# ? processors, memory up to ?\n",
             (const uint64_t[]){ settings.processors, (uint32_t)records_of(settings.processors) });
    is_running = 1;
    work(0);
    put_history();
    halt();
}
