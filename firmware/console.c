#include "console.h"

void console_byte(struct uart_lite *uart, uint8_t byte)
{
    while (uart->STAT_REG & STAT_TX_FULL)
        ;
    uart->TX_FIFO = byte;
}

void console_text(struct uart_lite *uart, const char *text)
{
    for (; *text != '\0'; text++)
        console_byte(uart, (uint8_t)*text);
}

void console_decimal(struct uart_lite *uart, int32_t number)
{
    char digits[11]; /* ten digits and the end */
    char *first = digits + sizeof digits - 1;
    uint32_t rest = number < 0 ? 0u - (uint32_t)number : (uint32_t)number;
    *first = '\0';
    do {
        *--first = (char)('0' + rest % 10);
        rest /= 10;
    } while (rest != 0);
    if (number < 0)
        console_byte(uart, '-');
    console_text(uart, first);
}

void console_hexadecimal(struct uart_lite *uart, uint32_t word)
{
    for (int shift = 28; shift >= 0; shift -= 4)
        console_byte(uart, (uint8_t)"0123456789ABCDEF"[word >> shift & 0xF]);
}

bool console_take(struct uart_lite *uart, uint8_t *byte)
{
    if (!(uart->STAT_REG & STAT_RX_VALID))
        return false;
    *byte = (uint8_t)uart->RX_FIFO;
    return true;
}
