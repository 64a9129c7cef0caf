// What the processor and the board have.
#ifndef MACHINE_H
#define MACHINE_H

#include <stdint.h>

#define DEBUG_PORT 0xe9
#define SERIAL_PORT 0x3f8
#define SERIAL_STATUS 0x3fd
#define SERIAL_IS_EMPTY 0x20

static inline void put_port(uint16_t port, uint8_t byte)
{
    __asm__ volatile("outb %0, %1" : : "a"(byte), "Nd"(port));
}

static inline uint8_t get_port(uint16_t port)
{
    uint8_t byte;
    __asm__ volatile("inb %1, %0" : "=a"(byte) : "Nd"(port));
    return byte;
}

// Both are full fences.
static inline uint32_t add_to(volatile uint32_t *word, uint32_t number)
{
    __asm__ volatile("lock xaddl %0, %1" : "+r"(number), "+m"(*word) : : "memory");
    return number;
}

static inline uint32_t exchange(volatile uint32_t *word, uint32_t value)
{
    __asm__ volatile("xchgl %0, %1" : "+r"(value), "+m"(*word) : : "memory");
    return value;
}

// All accesses before it have been made, and none after it has.
static inline uint64_t time_stamp(void)
{
    uint32_t low, high, nothing = 0;
    __asm__ volatile("lock addl $0, %2; lfence; rdtsc; lfence" : "=a"(low), "=d"(high), "+m"(nothing) : : "memory");
    return (uint64_t)high << 32 | low;
}

// Has the processor forget its translations of addresses: CR4.PGE changes.
static inline void forget_translations(void)
{
    uint32_t register_4;
    __asm__ volatile("mov %%cr4, %0; xor $0x80, %0; mov %0, %%cr4" : "=r"(register_4) : : "memory");
}

static inline void spin(uint32_t times)
{
    while (times--)
        __asm__ volatile("" : : : "memory");
}

static inline void halt(void)
{
    for (;;)
        __asm__ volatile("hlt");
}

// Has all other processors begin at 0x8000, until `count` of them have.
void start_others(volatile uint32_t *begun, uint32_t count);

#endif
