/* Counts the interrupts of a timer, and sends each count over a link, the control bit on and off in turn. */
#include "mbsim.h"

static struct axi_intc *const intc = (struct axi_intc *)0x41200000;
static struct axi_timer *const timer = (struct axi_timer *)0x41C00000;

enum {
    TIMER_INPUT = 1u << 0, /* irq = 0 of the board file */
    PERIOD = 500,
    ROUNDS = 8,
    LAMP_PORT = 0,
    RUNNING = TCSR_ENT | TCSR_ENIT | TCSR_ARHT | TCSR_UDT,
};

static uint32_t count; /* the handler's alone, so it needs no volatile */

__attribute__((interrupt_handler)) void on_interrupt(void)
{
    timer->TCSR0 = RUNNING | TCSR_TINT; /* first the cause, since a level that is still high asks again */
    intc->IAR = TIMER_INPUT;
    count++;
    if (count % 2 == 1)
        link_cput(LAMP_PORT, count);
    else
        link_put(LAMP_PORT, count);
    if (count == ROUNDS)
        end_core();
}

int main(void)
{
    intc->IER = TIMER_INPUT;
    intc->MER = MER_ME | MER_HIE;
    timer->TLR0 = PERIOD - 2;
    timer->TCSR0 = TCSR_LOAD | TCSR_UDT;
    timer->TCSR0 = RUNNING;
    enable_interrupts();
    for (;;)
        sleep_until_interrupt();
}
