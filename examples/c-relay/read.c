/* Takes a line of text from a UART, and sends it over a link. */
#include "console.h"
#include "text_link.h"

static struct uart_lite *const uart = (struct uart_lite *)0x40600000;

int main(void)
{
    uint8_t letter = 0;
    while (letter != '\n') {
        uint32_t word = 0;
        for (unsigned place = 0; place < LETTERS && letter != '\n'; place++) {
            while (!console_take(uart, &letter))
                ;
            word = with_letter(word, place, letter);
        }
        if (letter == '\n')
            link_cput(0, word);
        else
            link_put(0, word);
    }
    return 0;
}
