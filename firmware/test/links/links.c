/* Each link access of mbsim.h, by a constant port and by a computed one; what it brings is sent to port 0. */
#include "mbsim.h"

enum { OUTPUT, INPUT, NOWHERE }; /* port 2 has no link: always empty and always full */

enum { UNTOUCHED = 0x5555 };

#define GET(letters)                                                                                                     \
    link_put(OUTPUT, link_##letters##get(INPUT));                                                                        \
    link_put(OUTPUT, link_##letters##getd(INPUT));

#define GET_AT_ONCE(letters)                                                                                             \
    word = UNTOUCHED;                                                                                                    \
    is_there = link_##letters##get(NOWHERE, &word);                                                                      \
    send(is_there, word);                                                                                                \
    is_there = link_##letters##get(INPUT, &word);                                                                        \
    send(is_there, word);                                                                                                \
    word = UNTOUCHED;                                                                                                    \
    is_there = link_##letters##getd(NOWHERE, &word);                                                                     \
    send(is_there, word);                                                                                                \
    is_there = link_##letters##getd(INPUT, &word);                                                                       \
    send(is_there, word);

#define PUT(letters)                                                                                                     \
    link_##letters##put(OUTPUT, 1);                                                                                      \
    link_##letters##putd(OUTPUT, 2);

#define PUT_AT_ONCE(letters)                                                                                             \
    link_put(OUTPUT, link_##letters##put(OUTPUT, 3));                                                                    \
    link_put(OUTPUT, link_##letters##put(NOWHERE, 4));                                                                   \
    link_put(OUTPUT, link_##letters##putd(OUTPUT, 5));                                                                   \
    link_put(OUTPUT, link_##letters##putd(NOWHERE, 6));

#define TEST_PUT(letters)                                                                                                \
    link_##letters##put(OUTPUT);                                                                                         \
    link_##letters##putd(OUTPUT);

#define TEST_PUT_AT_ONCE(letters)                                                                                        \
    link_put(OUTPUT, link_##letters##put(OUTPUT));                                                                       \
    link_put(OUTPUT, link_##letters##put(NOWHERE));                                                                      \
    link_put(OUTPUT, link_##letters##putd(OUTPUT));                                                                      \
    link_put(OUTPUT, link_##letters##putd(NOWHERE));

static inline void send(bool is_there, uint32_t word)
{
    link_put(OUTPUT, is_there);
    link_put(OUTPUT, word);
}

int main(void)
{
    bool is_there;
    uint32_t word;
    enable_interrupts(); /* the start code takes that back after main: else this core, with its controller, wouldn't end */
    GET() GET(a) GET(c) GET(ca) GET(e) GET(ea) GET(ec) GET(eca)
    GET(t) GET(ta) GET(tc) GET(tca) GET(te) GET(tea) GET(tec) GET(teca)
    GET_AT_ONCE(n) GET_AT_ONCE(na) GET_AT_ONCE(nc) GET_AT_ONCE(nca)
    GET_AT_ONCE(ne) GET_AT_ONCE(nea) GET_AT_ONCE(nec) GET_AT_ONCE(neca)
    GET_AT_ONCE(tn) GET_AT_ONCE(tna) GET_AT_ONCE(tnc) GET_AT_ONCE(tnca)
    GET_AT_ONCE(tne) GET_AT_ONCE(tnea) GET_AT_ONCE(tnec) GET_AT_ONCE(tneca)
    PUT() PUT(a) PUT(c) PUT(ca)
    PUT_AT_ONCE(n) PUT_AT_ONCE(na) PUT_AT_ONCE(nc) PUT_AT_ONCE(nca)
    TEST_PUT(t) TEST_PUT(ta) TEST_PUT(tc) TEST_PUT(tca)
    TEST_PUT_AT_ONCE(tn) TEST_PUT_AT_ONCE(tna) TEST_PUT_AT_ONCE(tnc) TEST_PUT_AT_ONCE(tnca)
    return 0;
}
