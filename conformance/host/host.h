// host: one host of a migration on a real kernel.
//
// The guest's memory is the range LOW .. HIGH of this process, watched by one userfaultfd. Each of its processors is a
// thread: a load that faults sleeps in the kernel. Commands come on standard input, one a line, and each is answered by
// one line; README.md has them. What a handler does (read, register, copy, ..) is done by the main thread.
#ifndef HOST_H
#define HOST_H

#include <stdint.h>

#define LOW 0x10000ull
#define HIGH 0x100000000ull
#define PAGE 4096ull
#define MOST_PROCESSORS 16

// main.c
_Noreturn void die(const char *format, ...) __attribute__((format(printf, 1, 2)));
void answer(const char *format, ...) __attribute__((format(printf, 1, 2)));
void answer_result(int result); // of a system call: ok, or refused with the name of errno
uint64_t number(const char *word);
double now(void);    // milliseconds
extern int patience; // milliseconds that a thread may take to end or to fall asleep

// calls.c: the commands of a processor, written as in a script
enum kind { LOAD, STORE, MMAP, MUNMAP, MREMAP, DONTNEED, FREE };
struct call {
    enum kind kind;
    uint64_t addr, length, width, value, new_length, target;
    int protection, flags;
};
int parse_call(char **words, int count, struct call *call); // 0 where it is not a command
long map_call(const struct call *call);                     // its value, or minus its errno

// processors.c
extern int processor_count;
void start_processors(int count);
void make_command(int processor, const struct call *call);
void await_processor(int processor);
void kick_processor(int processor);
void answer_asleep(int processor);
void answer_states(void);
void answer_threads(void);

// memory.c
void open_memory(void);
void require_free_space(void);
int is_present(uint64_t addr);
int is_protected(uint64_t addr);
void answer_page(uint64_t addr);
void answer_areas(int with_modes);
void answer_present(void);

// userfault.c
int is_readable(void); // a message waits
int userfault_fd(void);
void open_userfault(uint64_t features);
void lend_userfault(const char *path);
void answer_message(void);
void answer_copy(uint64_t addr, uint64_t mode, const char *bytes);
void answer_move(uint64_t to, uint64_t from, uint64_t length, uint64_t mode);
void answer_range_call(const char *name, uint64_t addr, uint64_t length, uint64_t mode);

#endif
