/* A stack that overflows: each level of a recursion takes some room, and the last one lies on the variables. */
#include <avr/io.h>
#include <stdint.h>

static volatile uint8_t guard[16]; /* nothing but main writes here */
static volatile uint8_t levels = 28;

static __attribute__((noinline)) uint8_t dig(uint8_t level)
{
    volatile uint8_t room[32];

    for (uint8_t place = 0; place < sizeof room; place++) {
        room[place] = level;
    }
    if (level < levels) {
        dig(level + 1);
    }
    return room[0];
}

int main(void)
{
    for (uint8_t place = 0; place < sizeof guard; place++) {
        guard[place] = 0xA5;
    }
    dig(1);
    __asm__ __volatile__("break");
    for (;;) {
    }
}
