// What the kernel says of the guest's memory: its areas, its present pages, and their bytes.
#include "host.h"

#include <errno.h>
#include <fcntl.h>
#include <stdio.h>
#include <string.h>
#include <sys/mman.h>
#include <unistd.h>

#define PRESENT(entry) ((entry) >> 63 & 1)
#define PROTECTED(entry) ((entry) >> 57 & 1)

static int pagemap_fd, memory_fd;

void open_memory(void)
{
    pagemap_fd = open("/proc/self/pagemap", O_RDONLY | O_CLOEXEC);
    memory_fd = open("/proc/self/mem", O_RDONLY | O_CLOEXEC);
    if (pagemap_fd < 0 || memory_fd < 0)
        die("/proc/self/pagemap or /proc/self/mem cannot be opened");
}

static uint64_t pagemap_entry(uint64_t addr)
{
    uint64_t entry = 0;
    if (addr >= HIGH || pread(pagemap_fd, &entry, sizeof entry, addr / PAGE * sizeof entry) != sizeof entry)
        return 0;
    return entry;
}

int is_present(uint64_t addr)
{
    return PRESENT(pagemap_entry(addr));
}

int is_protected(uint64_t addr)
{
    uint64_t entry = pagemap_entry(addr);
    return PRESENT(entry) && PROTECTED(entry);
}

// Also of a mapping without protection, which a load would not read.
void answer_page(uint64_t addr)
{
    static const char zeros[PAGE];
    static char page[PAGE], text[2 * PAGE + 1];
    if (!is_present(addr)) {
        answer("absent");
        return;
    }
    if (pread(memory_fd, page, PAGE, addr) != (ssize_t)PAGE) {
        answer_result(-1);
        return;
    }
    if (!memcmp(page, zeros, PAGE)) {
        answer("zero");
        return;
    }
    for (uint64_t i = 0; i < PAGE; i++) {
        unsigned char byte = page[i];
        text[2 * i] = "0123456789abcdef"[byte >> 4];
        text[2 * i + 1] = "0123456789abcdef"[byte & 15];
    }
    answer("%s", text);
}

struct area {
    uint64_t start, end;
    char protection[5];
    int modes; // 1: missing faults, 2: write-protect faults
};

// Calls `each` for each area below HIGH. The modes are in smaps alone, which takes the kernel longer.
static void each_area(int with_modes, void (*each)(const struct area *))
{
    FILE *file = fopen(with_modes ? "/proc/self/smaps" : "/proc/self/maps", "re");
    struct area area, found = { 0, 0, "", 0 };
    char line[512];
    if (!file)
        die("/proc/self/maps cannot be opened");
    while (fgets(line, sizeof line, file)) {
        if (strchr(line, '-') && strchr(line, '-') < strchr(line, ' ') &&
            sscanf(line, "%lx-%lx %4s ", &area.start, &area.end, area.protection) == 3) {
            if (area.start >= HIGH)
                break;
            area.modes = 0;
            found = area;
            if (!with_modes)
                each(&found);
        } else if (with_modes && !strncmp(line, "VmFlags:", 8) && found.end) {
            found.modes = (strstr(line, " um") != 0) | (strstr(line, " uw") != 0) << 1;
            each(&found);
            found.end = 0;
        }
    }
    fclose(file);
}

static void refuse_area(const struct area *area)
{
    die("0x%lx-0x%lx is not free for the guest", area->start, area->end);
}

// The guest's space must be free. The page after it is taken, so that nothing grows over its end.
void require_free_space(void)
{
    void *behind = (void *)HIGH;
    each_area(0, refuse_area);
    if (mmap(behind, PAGE, PROT_NONE, MAP_PRIVATE | MAP_ANONYMOUS | MAP_FIXED_NOREPLACE, -1, 0) != behind)
        die("0x100000000 is not free");
}

static void print_area(const struct area *area)
{
    const char *protection = area->protection[1] == 'w' ? "rw" : area->protection[0] == 'r' ? "r" : "none";
    printf(" 0x%lx-0x%lx:%s:%d", area->start, area->end, protection, area->modes);
}

void answer_areas(int with_modes)
{
    printf("areas");
    each_area(with_modes, print_area);
    answer("%s", "");
}

// The run of present pages that is being gathered.
static uint64_t run_start, run_end;

static void end_run(void)
{
    if (run_end)
        printf(" 0x%lx-0x%lx", run_start, run_end);
    run_end = 0;
}

static void add_present(const struct area *area)
{
    static uint64_t entries[4096];
    for (uint64_t addr = area->start; addr < area->end;) {
        uint64_t count = (area->end - addr) / PAGE;
        if (count > 4096)
            count = 4096;
        if (pread(pagemap_fd, entries, count * 8, addr / PAGE * 8) != (ssize_t)(count * 8))
            die("/proc/self/pagemap cannot be read");
        for (uint64_t i = 0; i < count; i++) {
            uint64_t page = addr + i * PAGE;
            if (!PRESENT(entries[i]))
                continue;
            if (run_end != page) {
                end_run();
                run_start = page;
            }
            run_end = page + PAGE;
        }
        addr += count * PAGE;
    }
}

void answer_present(void)
{
    printf("present");
    run_end = 0;
    each_area(0, add_present);
    end_run();
    answer("%s", "");
}
