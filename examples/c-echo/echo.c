/* Sends each byte of a UART back, by interrupts, up to a line feed. */
#include "console.h"

static struct axi_intc *const intc = (struct axi_intc *)0x41200000;
static struct uart_lite *const uart = (struct uart_lite *)0x40600000;

enum { UART_INPUT = 1u << 0 }; /* irq = 0 of the board file */

__attribute__((interrupt_handler)) void on_interrupt(void)
{
    uint8_t byte;
    intc->IAR = UART_INPUT; /* first, so that a byte that comes meanwhile asks again */
    while (console_take(uart, &byte)) {
        console_byte(uart, byte);
        if (byte == '\n')
            end_core();
    }
}

int main(void)
{
    uart->CTRL_REG = CTRL_ENABLE_INTR;
    intc->ISR = UART_INPUT; /* asks once by itself, for what came before interrupts were enabled */
    intc->IER = UART_INPUT;
    intc->MER = MER_ME | MER_HIE;
    enable_interrupts();
    for (;;)
        sleep_until_interrupt();
}
