/* Ends the program where something is not so. */
#include <oaledva.h>
#include <stdio.h>
#include <stdlib.h>

#define EXPECT(condition)                                                                                          \
    do {                                                                                                           \
        if (!(condition)) {                                                                                        \
            fprintf(stderr, "%s:%d: not so: %s\n", __FILE__, __LINE__, #condition);                                \
            exit(1);                                                                                               \
        }                                                                                                          \
    } while (0)

#define PAGE ((uint64_t)0x200000)

/* An answer as 01's tables write it; and it is packed of these three, with nothing between. */
static int gives(oaledva_answer answer, uint32_t number, uint32_t value, uint32_t mark) {
    return oaledva_number(answer) == number && oaledva_value(answer) == value && oaledva_mark(answer).mark == mark
           && oaledva_done(answer) == (number == 0) && oaledva_hit(answer) == (mark == 1)
           && answer.packed == ((uint64_t)number << 56) + ((uint64_t)mark << 32) + value;
}
