/* Breaks of the board and exceptions, handled in C: no item of port 0 is lost, and port 1 tells each exception. */
#include "mbsim.h"

enum { ITEMS, CAUSES };

enum { ROUNDS = 100 };

static volatile uint32_t breaks;

void on_break(void)
{
    breaks = breaks * 3 + 1; /* changes registers, and C in MSR */
    breaks = (breaks - 1) / 3 + 1;
}

void on_exception(uint32_t esr, uint32_t ear)
{
    link_put(CAUSES, esr);
    link_put(CAUSES, ear);
}

int main(void)
{
    enable_exceptions();
    uint64_t sum = 0xFFFFFFF0; /* carries into its upper word, by C */
    for (uint32_t count = 0; count < ROUNDS; count++) {
        sum += 3;
        link_put(ITEMS, (uint32_t)sum);
        link_put(ITEMS, (uint32_t)(sum >> 32));
    }
    __asm__ volatile("lwi r7, %0, 0" : : "d"(0x50000000) : "r7"); /* no device is there */
    __asm__ volatile("swi r0, %0, 0" : : "d"(0x202));             /* no multiple of four */
    __asm__ volatile("idiv r7, r0, %0" : : "d"(1) : "r7");        /* by zero */
    __asm__ volatile(".long 0xFFFFFFFF");                         /* no instruction */
    __asm__ volatile("brid 12\n\tlwi r8, %0, 0\n\t.long 0xFFFFFFFF" : : "d"(0x60000000) : "r8"); /* in a slot */
    link_put(ITEMS, breaks);
    return 0;
}
