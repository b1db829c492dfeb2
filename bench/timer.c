/* Timer interrupts, without end: timer 0 overflows each 256 cycles, timer 2 compares each 800, and the main loop counts. */
#include <avr/interrupt.h>
#include <avr/io.h>
#include <stdint.h>

static volatile uint16_t overflows;
static volatile uint8_t beats;

ISR(TIMER0_OVF_vect)
{
    overflows++;
}

ISR(TIMER2_COMP_vect)
{
    beats++;
    if (beats == 0) {
        PORTB ^= 1;
    }
}

int main(void)
{
    uint8_t rounds = 0;

    DDRB = 0xFF;
    DDRC = 0xFF;
    TCCR0 = 1 << CS00;              /* one count in a cycle */
    OCR2 = 99;
    TCCR2 = 1 << WGM21 | 1 << CS21; /* clear on compare, one count in 8 cycles */
    TIMSK = 1 << TOIE0 | 1 << OCIE2;
    sei();
    for (;;) {
        for (uint16_t round = 0; round < 50000; round++) {
            __asm__ __volatile__("nop");
        }
        PORTC = rounds++;
    }
}
