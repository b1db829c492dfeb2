/* A running light: one lamp of port B after the other is lit, and port D counts the rounds. */
#include <avr/io.h>
#include <stdint.h>

/* Lights the next lamp, and tells which it is. */
static __attribute__((noinline)) uint8_t next_lamp(uint8_t lamp)
{
    lamp <<= 1;
    if (lamp == 0) {
        lamp = 1;
        PORTD++;
    }
    PORTB = lamp;
    return lamp;
}

int main(void)
{
    uint8_t lamp = 0;

    DDRB = 0xFF; /* eight lamps */
    DDRD = 0x0F; /* a count of four bits */
    for (;;) {
        lamp = next_lamp(lamp);
    }
}
