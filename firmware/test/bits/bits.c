/* Counts of leading zeros, and bytes in the reverse order, of the words that come over a link and of their low halves. */
#include "mbsim.h"

enum { SENT, GIVEN };

enum { WORDS = 40 };

int main(void)
{
    for (int count = 0; count < WORDS; count++) {
        uint32_t word = link_get(GIVEN);
        link_put(SENT, word == 0 ? 32 : (uint32_t)__builtin_clz(word));
        link_put(SENT, __builtin_bswap32(word));
        link_put(SENT, __builtin_bswap16((uint16_t)word));
    }
    return 0;
}
