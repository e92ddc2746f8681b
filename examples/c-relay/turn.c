/* Turns small letters into capital ones, and tells over a second link how many it turned. */
#include "text_link.h"

static uint32_t turned;

static uint32_t turn(uint32_t word)
{
    uint32_t result = 0;
    for (unsigned place = 0; place < LETTERS; place++) {
        uint8_t letter = letter_of(word, place);
        if (letter >= 'a' && letter <= 'z') {
            letter -= 'a' - 'A';
            turned++;
        }
        result = with_letter(result, place, letter);
    }
    return result;
}

int main(void)
{
    for (;;) {
        uint32_t word = link_get(0); /* sets MSR_FSL if the control bit is 1 */
        if (read_msr() & MSR_FSL) {
            link_cput(0, turn(word));
            break;
        }
        link_put(0, turn(word));
    }
    link_cput(1, turned);
    return 0;
}
