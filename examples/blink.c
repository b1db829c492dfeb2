/* Blinks the pins of port B of an ATmega16 with the steps of a counter. */
#include <avr/io.h>
#include <stdint.h>

/* Spends some time: 5 cycles a round. */
static void wait_rounds(uint16_t rounds)
{
    while (rounds > 0) {
        __asm__ __volatile__("nop");
        rounds--;
    }
}

int main(void)
{
    uint8_t counter = 0;

    DDRB = 0xFF; /* each pin of port B is an output */
    for (;;) {
        PORTB = counter;
        counter++;
        wait_rounds(1000);
    }
}
