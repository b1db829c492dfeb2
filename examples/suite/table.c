/* A CRC-8 (polynomial 07, start 00) of nine bytes, four bits at a time by a table in flash. */
#include <avr/io.h>
#include <avr/pgmspace.h>
#include <stdint.h>

static const uint8_t steps[16] PROGMEM = {
    0x00, 0x07, 0x0E, 0x09, 0x1C, 0x1B, 0x12, 0x15, 0x38, 0x3F, 0x36, 0x31, 0x24, 0x23, 0x2A, 0x2D,
};

static volatile uint8_t message[9] = "123456789";
static volatile uint8_t check;

/* The check behind four more bits. */
static uint8_t step(uint8_t crc, uint8_t bits)
{
    return (uint8_t)(crc << 4) ^ pgm_read_byte(&steps[crc >> 4 ^ bits]);
}

static __attribute__((noinline)) void take_message(void)
{
    uint8_t crc = 0;

    for (uint8_t place = 0; place < sizeof message; place++) {
        crc = step(crc, message[place] >> 4);
        crc = step(crc, message[place] & 0x0F);
    }
    check = crc;
}

int main(void)
{
    for (;;) {
        take_message();
        __asm__ __volatile__("break");
    }
}
