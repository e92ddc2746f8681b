/*
 * How this board sends text over links: four letters a word, the first in the lowest bits, zeros after the last letter,
 * and the last word with the control bit. Shifts mean the same in both byte orders; a copy of bytes into a word doesn't.
 */
#ifndef TEXT_LINK_H
#define TEXT_LINK_H

#include "mbsim.h"

enum { LETTERS = 4 };

static inline uint8_t letter_of(uint32_t word, unsigned place)
{
    return (uint8_t)(word >> 8 * place);
}

static inline uint32_t with_letter(uint32_t word, unsigned place, uint8_t letter)
{
    return word | (uint32_t)letter << 8 * place;
}

#endif
