/*
 * The core, its links and its devices for C programs: UG984, PG079 (AXI Timer), PG099 (AXI INTC), PG142 (AXI UART Lite).
 * Needs -O1 or more, since ports are constants of the instruction.
 */
#ifndef MBSIM_H
#define MBSIM_H

#include <stdbool.h>
#include <stdint.h>

/* The core: UG984, "Machine Status Register (MSR)". */

enum {
    MSR_IE = 0x002,  /* interrupts are taken */
    MSR_C = 0x004,   /* carry */
    MSR_BIP = 0x008, /* a break is in progress */
    MSR_FSL = 0x010, /* an item came with another control bit than expected */
    MSR_DZO = 0x040, /* a division had no right quotient */
    MSR_EE = 0x100,  /* exceptions are raised */
    MSR_EIP = 0x200, /* an exception is in progress */
};

static inline uint32_t read_msr(void)
{
    uint32_t value;
    __asm__ volatile("mfs %0, rmsr" : "=d"(value));
    return value;
}

/* The cause of an exception, and the address of a data or unaligned one. */
static inline uint32_t read_esr(void)
{
    uint32_t value;
    __asm__ volatile("mfs %0, resr" : "=d"(value));
    return value;
}

static inline uint32_t read_ear(void)
{
    uint32_t value;
    __asm__ volatile("mfs %0, rear" : "=d"(value));
    return value;
}

static inline void enable_interrupts(void)
{
    __asm__ volatile("msrset r0, %0" : : "i"(MSR_IE) : "memory");
}

static inline void disable_interrupts(void)
{
    __asm__ volatile("msrclr r0, %0" : : "i"(MSR_IE) : "memory");
}

static inline void enable_exceptions(void)
{
    __asm__ volatile("msrset r0, %0" : : "i"(MSR_EE) : "memory");
}

static inline void disable_exceptions(void)
{
    __asm__ volatile("msrclr r0, %0" : : "i"(MSR_EE) : "memory");
}

/* Forgets that an item came with another control bit than expected. */
static inline void clear_link_error(void)
{
    __asm__ volatile("msrclr r0, %0" : : "i"(MSR_FSL));
}

/* Sleeps until an interrupt or a break was handled. One that comes just before doesn't end the sleep. */
static inline void sleep_until_interrupt(void)
{
    __asm__ volatile("mbar 16" : : : "memory");
}

/* Ends the core, from a handler too. IE is cleared first, since a core that can be interrupted doesn't end. */
_Noreturn static inline void end_core(void)
{
    __asm__ volatile("msrclr r0, %0\n\tbri 0" : : "i"(MSR_IE) : "memory");
    __builtin_unreachable();
}

/*
 * Links: UG984, "Stream Link Interfaces". A function has the name of its instruction: link_ncget is `ncget`. The letters,
 * in this order, each at most once:
 *
 *     t    tests alone: a get leaves the item in the link, a put sends nothing
 *     n    doesn't wait: answers whether there was an item, or room
 *     e    a get raises an exception where the control bit isn't as expected and MSR_EE is set
 *     c    sends, or expects, the control bit 1
 *     a    no interrupt is taken before the next instruction
 *
 * Where the control bit isn't as expected MSR_FSL is set, and stays set. `get` and `put` take a constant port from 0 to 15,
 * `getd` and `putd` the low four bits of a number:
 *
 *     uint32_t link_get(port)                  waits for an item
 *     bool link_nget(port, uint32_t *word)     leaves the word as it is where there is none
 *     void link_put(port, word)                waits for room
 *     bool link_nput(port, word)
 *     void link_tput(port)
 *     bool link_tnput(port)
 */
#define LINK_ACCESS __attribute__((always_inline)) static inline

/* The C bit of MSR after an access with n: whether it missed. In one text with it, so that nothing comes between. */
#define LINK_MISSED "\n\taddc %0, r0, r0"

#define LINK_GET(letters)                                                                                                 \
    LINK_ACCESS uint32_t link_##letters##get(unsigned port)                                                              \
    {                                                                                                                    \
        uint32_t word;                                                                                                   \
        __asm__ volatile(#letters "get %0, rfsl%1" : "=d"(word) : "i"(port));                                            \
        return word;                                                                                                     \
    }                                                                                                                    \
    LINK_ACCESS uint32_t link_##letters##getd(unsigned port)                                                             \
    {                                                                                                                    \
        uint32_t word;                                                                                                   \
        __asm__ volatile(#letters "getd %0, %1" : "=d"(word) : "d"(port));                                               \
        return word;                                                                                                     \
    }

#define LINK_GET_AT_ONCE(letters)                                                                                        \
    LINK_ACCESS bool link_##letters##get(unsigned port, uint32_t *word)                                                  \
    {                                                                                                                    \
        uint32_t missed;                                                                                                 \
        __asm__ volatile(#letters "get %1, rfsl%2" LINK_MISSED : "=d"(missed), "+d"(*word) : "i"(port));                 \
        return !missed;                                                                                                  \
    }                                                                                                                    \
    LINK_ACCESS bool link_##letters##getd(unsigned port, uint32_t *word)                                                 \
    {                                                                                                                    \
        uint32_t missed;                                                                                                 \
        __asm__ volatile(#letters "getd %1, %2" LINK_MISSED : "=d"(missed), "+d"(*word) : "d"(port));                    \
        return !missed;                                                                                                  \
    }

#define LINK_PUT(letters)                                                                                                \
    LINK_ACCESS void link_##letters##put(unsigned port, uint32_t word)                                                   \
    {                                                                                                                    \
        __asm__ volatile(#letters "put %0, rfsl%1" : : "d"(word), "i"(port));                                            \
    }                                                                                                                    \
    LINK_ACCESS void link_##letters##putd(unsigned port, uint32_t word)                                                  \
    {                                                                                                                    \
        __asm__ volatile(#letters "putd %0, %1" : : "d"(word), "d"(port));                                               \
    }

#define LINK_PUT_AT_ONCE(letters)                                                                                        \
    LINK_ACCESS bool link_##letters##put(unsigned port, uint32_t word)                                                   \
    {                                                                                                                    \
        uint32_t missed;                                                                                                 \
        __asm__ volatile(#letters "put %1, rfsl%2" LINK_MISSED : "=d"(missed) : "d"(word), "i"(port));                   \
        return !missed;                                                                                                  \
    }                                                                                                                    \
    LINK_ACCESS bool link_##letters##putd(unsigned port, uint32_t word)                                                  \
    {                                                                                                                    \
        uint32_t missed;                                                                                                 \
        __asm__ volatile(#letters "putd %1, %2" LINK_MISSED : "=d"(missed) : "d"(word), "d"(port));                      \
        return !missed;                                                                                                  \
    }

#define LINK_TEST_PUT(letters)                                                                                           \
    LINK_ACCESS void link_##letters##put(unsigned port)                                                                  \
    {                                                                                                                    \
        __asm__ volatile(#letters "put rfsl%0" : : "i"(port));                                                           \
    }                                                                                                                    \
    LINK_ACCESS void link_##letters##putd(unsigned port)                                                                 \
    {                                                                                                                    \
        __asm__ volatile(#letters "putd %0" : : "d"(port));                                                              \
    }

#define LINK_TEST_PUT_AT_ONCE(letters)                                                                                   \
    LINK_ACCESS bool link_##letters##put(unsigned port)                                                                  \
    {                                                                                                                    \
        uint32_t missed;                                                                                                 \
        __asm__ volatile(#letters "put rfsl%1" LINK_MISSED : "=d"(missed) : "i"(port));                                  \
        return !missed;                                                                                                  \
    }                                                                                                                    \
    LINK_ACCESS bool link_##letters##putd(unsigned port)                                                                 \
    {                                                                                                                    \
        uint32_t missed;                                                                                                 \
        __asm__ volatile(#letters "putd %1" LINK_MISSED : "=d"(missed) : "d"(port));                                     \
        return !missed;                                                                                                  \
    }

LINK_GET() LINK_GET(a) LINK_GET(c) LINK_GET(ca) LINK_GET(e) LINK_GET(ea) LINK_GET(ec) LINK_GET(eca)
LINK_GET(t) LINK_GET(ta) LINK_GET(tc) LINK_GET(tca) LINK_GET(te) LINK_GET(tea) LINK_GET(tec) LINK_GET(teca)
LINK_GET_AT_ONCE(n) LINK_GET_AT_ONCE(na) LINK_GET_AT_ONCE(nc) LINK_GET_AT_ONCE(nca)
LINK_GET_AT_ONCE(ne) LINK_GET_AT_ONCE(nea) LINK_GET_AT_ONCE(nec) LINK_GET_AT_ONCE(neca)
LINK_GET_AT_ONCE(tn) LINK_GET_AT_ONCE(tna) LINK_GET_AT_ONCE(tnc) LINK_GET_AT_ONCE(tnca)
LINK_GET_AT_ONCE(tne) LINK_GET_AT_ONCE(tnea) LINK_GET_AT_ONCE(tnec) LINK_GET_AT_ONCE(tneca)
LINK_PUT() LINK_PUT(a) LINK_PUT(c) LINK_PUT(ca)
LINK_PUT_AT_ONCE(n) LINK_PUT_AT_ONCE(na) LINK_PUT_AT_ONCE(nc) LINK_PUT_AT_ONCE(nca)
LINK_TEST_PUT(t) LINK_TEST_PUT(ta) LINK_TEST_PUT(tc) LINK_TEST_PUT(tca)
LINK_TEST_PUT_AT_ONCE(tn) LINK_TEST_PUT_AT_ONCE(tna) LINK_TEST_PUT_AT_ONCE(tnc) LINK_TEST_PUT_AT_ONCE(tnca)

/* AXI Timer: PG079, "Register Space". A period is TLR + 2 cycles with TCSR_UDT and TCSR_ARHT. */

struct axi_timer {
    volatile uint32_t TCSR0, TLR0;
    const volatile uint32_t TCR0;
    uint32_t reserved;
    volatile uint32_t TCSR1, TLR1;
    const volatile uint32_t TCR1;
};

enum {
    TCSR_UDT = 0x002,   /* counts down */
    TCSR_GENT = 0x004,  /* generate output */
    TCSR_ARHT = 0x010,  /* loads itself again */
    TCSR_LOAD = 0x020,  /* loads the counter from TLR in each cycle */
    TCSR_ENIT = 0x040,  /* asks for an interrupt */
    TCSR_ENT = 0x080,   /* counts */
    TCSR_TINT = 0x100,  /* passed its end; write 1 to clear */
    TCSR_ENALL = 0x400, /* both counters count */
};

/* AXI INTC: PG099, "Register Space". */

struct axi_intc {
    volatile uint32_t ISR;       /* inputs that asked; may be written before MER_HIE is set */
    const volatile uint32_t IPR; /* ISR and IER */
    volatile uint32_t IER;       /* inputs that are enabled */
    volatile uint32_t IAR;       /* each 1 clears a bit of ISR */
    volatile uint32_t SIE;       /* each 1 sets a bit of IER */
    volatile uint32_t CIE;       /* each 1 clears a bit of IER */
    const volatile uint32_t IVR; /* the lowest input of IPR, or 0xFFFFFFFF */
    volatile uint32_t MER;
};

enum {
    MER_ME = 0x1,  /* the output is enabled */
    MER_HIE = 0x2, /* inputs are listened to; stays set */
};

/* AXI UART Lite: PG142, "Register Space". A read of an empty RX_FIFO and a write of a full TX_FIFO are bus errors. */

struct uart_lite {
    const volatile uint32_t RX_FIFO;
    volatile uint32_t TX_FIFO;
    const volatile uint32_t STAT_REG; /* reading it clears STAT_OVERRUN */
    volatile uint32_t CTRL_REG;
};

enum {
    STAT_RX_VALID = 0x01,
    STAT_RX_FULL = 0x02,
    STAT_TX_EMPTY = 0x04,
    STAT_TX_FULL = 0x08,
    STAT_INTR_ENABLED = 0x10,
    STAT_OVERRUN = 0x20,
    CTRL_RST_TX = 0x01,
    CTRL_RST_RX = 0x02,
    CTRL_ENABLE_INTR = 0x10,
};

#endif
