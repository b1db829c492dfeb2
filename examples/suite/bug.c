/* The mean of four readings, with a bug: the sum is kept in a byte, and one above 255 does not fit it. */
#include <avr/io.h>
#include <stdint.h>

static volatile uint8_t readings[4] = {60, 70, 80, 90};
static volatile uint8_t mean;

static __attribute__((noinline)) uint8_t mean_of(volatile uint8_t *bytes)
{
    uint8_t sum = 0;

    for (uint8_t place = 0; place < 4; place++) {
        sum += bytes[place];
    }
    return sum / 4;
}

int main(void)
{
    for (;;) {
        mean = mean_of(readings);
        __asm__ __volatile__("break");
    }
}
