/* Arithmetic in registers, without end: check sums, products and quotients of a series of pseudo-random numbers. */
#include <avr/io.h>
#include <stdint.h>

/* The next number of a series (xorshift with 7, 9, 8). */
static uint16_t next_of(uint16_t number)
{
    number ^= (uint16_t)(number << 7);
    number ^= (uint16_t)(number >> 9);
    number ^= (uint16_t)(number << 8);
    return number;
}

/* A check of 16 bits with one byte more (CRC-16/MCRF4XX). */
static uint16_t check_with(uint16_t check, uint8_t byte)
{
    check ^= byte;
    for (uint8_t bit = 0; bit < 8; bit++) {
        check = check & 1 ? (uint16_t)(check >> 1 ^ 0x8408) : (uint16_t)(check >> 1);
    }
    return check;
}

/* The greatest whole number whose square is at most this one. */
static uint8_t root_of(uint16_t square)
{
    uint8_t root = 0;

    for (uint8_t bit = 0x80; bit > 0; bit >>= 1) {
        uint8_t tried = root | bit;

        if ((uint16_t)((uint16_t)tried * tried) <= square) {
            root = tried;
        }
    }
    return root;
}

int main(void)
{
    uint16_t number = 1;
    uint16_t check = 0xFFFF;
    uint32_t sum = 0;

    DDRB = 0xFF;
    for (;;) {
        for (uint8_t round = 0; round < 250; round++) {
            number = next_of(number);
            check = check_with(check, (uint8_t)number);
            sum += (uint32_t)number * check;
            sum ^= root_of(number);
            check += (uint16_t)(number / (uint8_t)(round + 1));
        }
        PORTB = (uint8_t)(sum >> 24) ^ (uint8_t)check;
    }
}
