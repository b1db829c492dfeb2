/* Two clocks: timer 2 ticks every 100 cycles, and timer 0 turns every 2,048. */
#include <avr/interrupt.h>
#include <avr/io.h>
#include <stdint.h>

static volatile uint8_t ticks;
static volatile uint8_t turns;

ISR(TIMER2_COMP_vect)
{
    ticks++;
}

ISR(TIMER0_OVF_vect)
{
    turns++;
}

int main(void)
{
    OCR2 = 99;
    TIMSK = 1 << OCIE2 | 1 << TOIE0;
    TCCR0 = 1 << CS01;              /* one count in 8 cycles */
    TCCR2 = 1 << WGM21 | 1 << CS20; /* clear on compare, a count in each cycle */
    sei();
    for (;;) {
    }
}
