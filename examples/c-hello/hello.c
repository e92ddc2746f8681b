/* Prints a greeting and a table over a UART. */
#include "console.h"

static struct uart_lite *const uart = (struct uart_lite *)0x40600000;

int main(void)
{
    console_text(uart, "Hello from C!\n");
    for (int32_t number = -1000; number <= 1000; number += 500) {
        console_decimal(uart, number);
        console_text(uart, " squared is ");
        console_decimal(uart, number * number);
        console_text(uart, ", in hexadecimal ");
        console_hexadecimal(uart, (uint32_t)(number * number));
        console_byte(uart, '\n');
    }
    return 0;
}
