/* Prints the text that comes over a link. */
#include "console.h"
#include "text_link.h"

static struct uart_lite *const uart = (struct uart_lite *)0x40600000;

int main(void)
{
    bool is_last;
    do {
        uint32_t word = link_get(0);
        is_last = read_msr() & MSR_FSL;
        for (unsigned place = 0; place < LETTERS && letter_of(word, place) != 0; place++)
            console_byte(uart, letter_of(word, place));
    } while (!is_last);
    return 0;
}
