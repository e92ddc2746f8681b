/* Text over a UART, without printf. */
#ifndef CONSOLE_H
#define CONSOLE_H

#include "mbsim.h"

/* Each waits until the UART has room. */
void console_byte(struct uart_lite *uart, uint8_t byte);
void console_text(struct uart_lite *uart, const char *text);
void console_decimal(struct uart_lite *uart, int32_t number);
void console_hexadecimal(struct uart_lite *uart, uint32_t word); /* eight digits */

/* Takes the next byte, if there is one: answers whether there was. */
bool console_take(struct uart_lite *uart, uint8_t *byte);

#endif
