#include "machine.h"

#define APIC 0xfee00000u
#define APIC_ENABLE 0xf0
#define APIC_COMMAND 0x300
#define INIT_OTHERS 0xc4500
#define START_OTHERS 0xc4608 // at page 8

extern const uint8_t other_start[], other_end[];

static void put_apic(uint32_t at, uint32_t value)
{
    *(volatile uint32_t *)(APIC + at) = value;
}

void start_others(volatile uint32_t *begun, uint32_t count)
{
    volatile uint8_t *to = (volatile uint8_t *)0x8000;
    if (!count)
        return;
    for (const uint8_t *from = other_start; from < other_end; from++)
        *to++ = *from;
    put_apic(APIC_ENABLE, 0x1ff);
    put_apic(APIC_COMMAND, INIT_OTHERS);
    do {
        spin(10000000);
        put_apic(APIC_COMMAND, START_OTHERS); // one that runs takes no notice of it
    } while (*begun < count);
}
