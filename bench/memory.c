/* Memory and calls, without end: numbers in SRAM are filled, sorted by a recursive sort, copied and searched. */
#include <avr/io.h>
#include <avr/pgmspace.h>
#include <stdint.h>

#define NUMBERS 128

static const uint8_t salts[16] PROGMEM = {
    0x3A, 0x91, 0x5C, 0xE7, 0x08, 0xD2, 0x6F, 0xB4, 0x1D, 0x83, 0xF0, 0x49, 0xC6, 0x2B, 0x75, 0xAE,
};

static uint8_t numbers[NUMBERS];
static uint8_t copies[NUMBERS];

static __attribute__((noinline)) void fill(uint8_t seed)
{
    uint8_t number = seed;

    for (uint8_t place = 0; place < NUMBERS; place++) {
        number = (uint8_t)(number + pgm_read_byte(&salts[place & 15]));
        numbers[place] = number;
    }
}

static __attribute__((noinline)) void swap(uint8_t *one, uint8_t *other)
{
    uint8_t kept = *one;

    *one = *other;
    *other = kept;
}

/* Sorts the numbers from one place to another. */
static __attribute__((noinline)) void sort(uint8_t *first, uint8_t *last)
{
    uint8_t *border = first;

    if (first >= last) {
        return;
    }
    for (uint8_t *place = first; place < last; place++) {
        if (*place < *last) {
            swap(place, border);
            border++;
        }
    }
    swap(border, last);
    if (border > first) {
        sort(first, border - 1);
    }
    sort(border + 1, last);
}

static __attribute__((noinline)) void copy(uint8_t *to, const uint8_t *from, uint8_t count)
{
    while (count > 0) {
        *to++ = *from++;
        count--;
    }
}

/* How many of the sorted copies are below a number. */
static __attribute__((noinline)) uint8_t below(uint8_t number)
{
    uint8_t low = 0;
    uint8_t high = NUMBERS;

    while (low < high) {
        uint8_t middle = (uint8_t)(low + high) >> 1;

        if (copies[middle] < number) {
            low = (uint8_t)(middle + 1);
        } else {
            high = middle;
        }
    }
    return low;
}

int main(void)
{
    uint8_t seed = 0;

    DDRB = 0xFF;
    for (;;) {
        uint8_t sum = 0;

        fill(seed++);
        sort(numbers, numbers + NUMBERS - 1);
        copy(copies, numbers, NUMBERS);
        for (uint8_t number = 0; number < 64; number++) {
            sum = (uint8_t)(sum + below((uint8_t)(number << 2)));
        }
        PORTB = sum;
    }
}
