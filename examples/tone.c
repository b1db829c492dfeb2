/*
 * Plays the eight tones of a scale on an ATmega32 at 8 MHz, a quarter of a second each, over and over.
 *
 * Port B goes to a converter whose latch takes the byte as bit 0 of port D rises. Timer 0 overflows each 256 cycles, 31,250 times a
 * second: its overflow interrupt puts the next sample on port B, and half a sample later, when that is steady, its compare interrupt
 * raises the latch.
 *
 * One wave has 1,024 samples in SRAM, which is all that an ATmega16 has, and the code that makes it and the table of tones stand in
 * the upper half of the flash, which an ATmega16 has not.
 */
#include <avr/interrupt.h>
#include <avr/io.h>
#include <avr/pgmspace.h>
#include <stdint.h>

#define TONES 8
#define SAMPLES_OF_TONE 7812
#define HALF_WAVE 512
#define MIDDLE 128
#define LATCH (1 << PD0)

/*
 * How far a sample moves along the wave, in parts of 65,536: the frequency in Hz times 65,536 / 31,250, for the tones from C
 * (262 Hz) to the C above it.
 */
static const uint16_t strides[TONES] __attribute__((section(".strides"))) = {
    549, 616, 691, 732, 822, 923, 1036, 1097,
};

/* One wave. It is made before it is read, so nothing clears it at the start. */
static uint8_t wave[2 * HALF_WAVE] __attribute__((section(".noinit")));

/* For the interrupts alone, once they are on. */
static uint16_t phase;  /* how far along the wave the next sample is, in parts of 65,536 */
static uint16_t stride; /* what a sample adds to it */
static uint16_t left;   /* how many samples of this tone are still to come */
static uint8_t tone;

/* Makes the wave: an arch of a parabola above the middle, and the same below it, which sound much like a sine. */
static __attribute__((section(".upper"), noinline)) void make_wave(void)
{
    for (uint16_t place = 0; place < HALF_WAVE; place++) {
        uint8_t height = (uint16_t)(place * (HALF_WAVE - 1 - place)) >> 9;

        wave[place] = MIDDLE + height;
        wave[HALF_WAVE + place] = MIDDLE - height;
    }
}

ISR(TIMER0_COMP_vect)
{
    PORTD |= LATCH;
}

ISR(TIMER0_OVF_vect)
{
    PORTB = wave[phase >> 6];
    PORTD &= (uint8_t)~LATCH;
    phase += stride;
    left--;
    if (left == 0) {
        tone = (tone + 1) % TONES;
        stride = pgm_read_word(&strides[tone]);
        left = SAMPLES_OF_TONE;
    }
}

int main(void)
{
    DDRB = 0xFF;
    DDRD = LATCH;
    make_wave();
    stride = pgm_read_word(&strides[0]);
    left = SAMPLES_OF_TONE;
    OCR0 = 127;
    TIMSK = 1 << OCIE0 | 1 << TOIE0;
    TCCR0 = 1 << CS00; /* one count in a cycle */
    sei();
    for (;;) {
    }
}
