/*
 * Runs a raw image on simavr's ATmega16 for so many cycles, in its fastest mode: no gdb, no trace, and as many cycles at a time
 * as it allows. `simavr_host IMAGE CYCLES writes` goes a step at a time, ends at a BREAK, and prints each output write: I/O
 * address and byte. In the end it prints the cycles. `simavr_host IMAGE CYCLES writes m32` does so with an image in Intel HEX on
 * an ATmega32.
 */
#include <inttypes.h>
#include <simavr/sim_avr.h>
#include <simavr/sim_hex.h>
#include <simavr/sim_io.h>
#include <stdio.h>
#include <stdlib.h>
#include <string.h>

#define IO_START 0x20
#define BREAK 0x9598

/* The I/O addresses whose stores are output writes: PORTx, DDRx and UDR. */
static const uint8_t outputs[] = {0x1B, 0x1A, 0x18, 0x17, 0x15, 0x14, 0x12, 0x11, 0x0C};

/* What simavr itself does at a store. */
static struct {
    avr_io_write_t call;
    void *param;
} own[64];

static void note(avr_t *avr, avr_io_addr_t address, uint8_t byte, void *param)
{
    uint8_t a = (uint8_t)(address - IO_START);

    (void)param;
    printf("%02x %02x\n", a, byte);
    if (own[a].call != NULL) {
        own[a].call(avr, address, byte, own[a].param);
    } else {
        avr->data[address] = byte;
    }
}

static void note_outputs(avr_t *avr)
{
    for (size_t i = 0; i < sizeof outputs; i++) {
        uint8_t a = outputs[i];

        own[a].call = avr->io[a].w.c;
        own[a].param = avr->io[a].w.param;
        avr->io[a].w.c = note;
        avr->io[a].w.param = avr;
    }
}

static void load_raw(avr_t *avr, const char *image)
{
    static uint8_t bytes[16384];
    FILE *file = fopen(image, "rb");
    size_t size;

    if (file == NULL) {
        fprintf(stderr, "simavr_host: no image\n");
        exit(1);
    }
    size = fread(bytes, 1, sizeof bytes, file);
    fclose(file);
    avr_loadcode(avr, bytes, (uint32_t)size, 0);
}

static void load_hex(avr_t *avr, const char *image)
{
    ihex_chunk_p chunks = NULL;
    int count = read_ihex_chunks(image, &chunks);

    if (count <= 0) {
        fprintf(stderr, "simavr_host: no image\n");
        exit(1);
    }
    for (int i = 0; i < count; i++) {
        avr_loadcode(avr, chunks[i].data, chunks[i].size, chunks[i].baseaddr);
    }
    free_ihex_chunks(chunks);
}

static avr_t *made(const char *image, const char *name, void (*load)(avr_t *, const char *))
{
    avr_t *avr = avr_make_mcu_by_name(name);

    if (avr == NULL) {
        fprintf(stderr, "simavr_host: no %s\n", name);
        exit(1);
    }
    avr_init(avr);
    avr->frequency = 8000000;
    load(avr, image);
    avr->codeend = avr->flashend + 1;
    return avr;
}

static int is_at_break(const avr_t *avr)
{
    return (avr->flash[avr->pc] | avr->flash[avr->pc + 1] << 8) == BREAK;
}

int main(int count, char **words)
{
    avr_t *avr;
    uint64_t cycles;

    if (count < 3) {
        fprintf(stderr, "usage: simavr_host IMAGE CYCLES [writes [m32]]\n");
        return 2;
    }
    if (count > 4 && strcmp(words[4], "m32") == 0) {
        avr = made(words[1], "atmega32", load_hex);
    } else {
        avr = made(words[1], "atmega16", load_raw);
    }
    cycles = strtoull(words[2], NULL, 10);
    if (count > 3) {
        note_outputs(avr);
        avr->run_cycle_limit = 1;
        while (avr->cycle < cycles && !is_at_break(avr)) {
            avr_run(avr);
        }
    } else {
        avr->run_cycle_limit = cycles;
        while (avr->cycle < cycles) {
            avr_run(avr);
        }
    }
    printf("cycles %" PRIu64 "\n", (uint64_t)avr->cycle);
    return 0;
}
