/* A kitchen timer: each compare of timer 2 is a second less, and at none the bell on port B rings. */
#include <avr/interrupt.h>
#include <avr/io.h>
#include <stdint.h>

static volatile uint16_t seconds = 600;

ISR(TIMER2_COMP_vect)
{
    if (seconds > 0) {
        seconds--;
    }
}

int main(void)
{
    DDRB = 0x01;
    OCR2 = 249;
    TIMSK = 1 << OCIE2;
    TCCR2 = 1 << WGM21 | 1 << CS22; /* clear on compare, one count in 64 cycles */
    sei();
    while (seconds > 0) {
    }
    PORTB = 0x01;
    __asm__ __volatile__("break");
    for (;;) {
    }
}
