/*
 * A clock for an ATmega16: it shows twelve beats as digits of seven segments, and ends at a BREAK.
 *
 * Timer 0 counts a short warm-up by its overflow interrupt; timer 2 gives the beats by its compare interrupt, which flips a lamp
 * on port D. For each beat port C gets the digit's segments from a table in flash, and the serial line its character. In the end
 * ports A and B get a sum over all that was shown.
 */
#include <avr/interrupt.h>
#include <avr/io.h>
#include <avr/pgmspace.h>
#include <stdint.h>

#define BEATS 12

/* The segments of each digit: bit 0 is a, bit 6 is g. */
static const uint8_t segments[10] PROGMEM = {
    0x3F, 0x06, 0x5B, 0x4F, 0x66, 0x6D, 0x7D, 0x07, 0x7F, 0x6F,
};

static volatile uint8_t overflows; /* overflows of timer 0 */
static volatile uint8_t beats;     /* compares of timer 2 */
static uint8_t shown[BEATS];       /* what port C has shown */

ISR(TIMER0_OVF_vect)
{
    overflows++;
}

ISR(TIMER2_COMP_vect)
{
    PORTD ^= 1;
    beats++;
}

/* Waits for three overflows of timer 0, 2,048 cycles each, and shows their number on port B. */
static void warm_up(void)
{
    TIMSK = 1 << TOIE0;
    TCCR0 = 1 << CS01; /* one count in 8 cycles */
    sei();
    while (overflows < 3) {
    }
    TCCR0 = 0;
    PORTB = overflows;
}

/* Lets timer 2 give a beat each 1,600 cycles. */
static void start_beats(void)
{
    OCR2 = 199;
    TIMSK = 1 << OCIE2;
    TCCR2 = 1 << WGM21 | 1 << CS21; /* clear on compare, one count in 8 cycles */
}

/* Shows a digit on port C and on the serial line, and tells what port C got. */
static __attribute__((noinline)) uint8_t show(uint8_t digit)
{
    uint8_t lamps = pgm_read_byte(&segments[digit]);

    PORTC = lamps;
    while (!(UCSRA & 1 << UDRE)) {
    }
    UDR = (uint8_t)('0' + digit);
    return lamps;
}

/* The sum of all that was shown, each byte times its place from 1 on. */
static __attribute__((noinline)) uint16_t weighted_sum(const uint8_t *bytes, uint8_t count)
{
    uint16_t sum = 0;

    for (uint8_t place = 1; place <= count; place++) {
        sum += (uint16_t)(*bytes++ * place);
    }
    return sum;
}

int main(void)
{
    uint8_t digit = 0;
    uint16_t sum;

    DDRA = 0xFF;
    DDRB = 0xFF;
    DDRC = 0xFF;
    DDRD = 0xFF;
    UCSRB = 1 << TXEN;
    warm_up();
    start_beats();
    for (uint8_t beat = 0; beat < BEATS; beat++) {
        while (beats == beat) {
        }
        shown[beat] = show(digit);
        digit++;
        if (digit == 10) {
            digit = 0;
        }
    }
    cli();
    sum = weighted_sum(shown, BEATS);
    PORTA = (uint8_t)sum;
    PORTB = (uint8_t)(sum >> 8);
    for (;;) {
        __asm__ __volatile__("break");
    }
}
