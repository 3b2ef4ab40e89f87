/* A program: embeds the zxnDMA in C, as an example to start from.
 *
 * First a table of three devices that are changed in place, each with a block of its own. Then one device by value: it
 * copies four bytes from 1000 to 2000 and reads the registers back; it writes a discouraged value, which has a warning; it
 * copies the bytes at another speed; then it asks how long the processor may have to wait. docs/src/example.rs does the same
 * in Rust; docs/src/run-examples builds both. */
#include <inttypes.h>
#include <stdio.h>
#include <stdlib.h>
#include <string.h>

#include "zxndma.h"

static const char help[] =
    "usage: example\n"
    "Copies bytes by a table of three zxnDMAs, changed in place. Then it copies four\n"
    "by one that is handed over by value and reads its registers back, writes a byte\n"
    "that has a warning, copies the four at 3.5 MHz, and asks how long the processor\n"
    "may have to wait: an example of a program with the libraries libhost.a and\n"
    "libin_place.a of target/staticlib linked in. It prints refusals, clock counts,\n"
    "bytes, registers, the warning and the floors: example.out.\n"
    "Exit status: 0 done; 1 a call was refused that should not be; 2 bad arguments.\n";

/* The DMA's port in zxn mode. */
#define PORT 0x006B

static const uint8_t program[] = {
    0x83,                          /* Disable */
    0x7D, 0x00, 0x10, 0x04, 0x00,  /* WR0: A to B, A address 1000, length 4 */
    0x54, 0x02,                    /* WR1: A is memory and increments, 2 clocks */
    0x50, 0x02,                    /* WR2: B is memory and increments, 2 clocks */
    0xAD, 0x00, 0x20,              /* WR4: continuous, B address 2000 */
    0x82,                          /* WR5: no auto restart */
};

static const uint8_t start[] = {
    0xCF,                          /* Load */
    0x87,                          /* Enable */
};

/* What each device of the table moves instead: WR0 with the length, WR2, WR4 with the B address. */
#define DEVICES 3
static const uint8_t blocks[DEVICES][7] = {
    {0x65, 0x04, 0x00, 0x10, 0xAD, 0x00, 0x30}, /* 4 bytes, to memory from 3000 on */
    {0x65, 0x02, 0x00, 0x10, 0xAD, 0x00, 0x40}, /* 2 bytes, to memory from 4000 on */
    {0x65, 0x03, 0x00, 0x28, 0xAD, 0xFE, 0x00}, /* 3 bytes, to the I/O port 00FE */
};

static const uint8_t discouraged[] = {
    0xE1,                          /* WR4 with the mode 11; continuous, as A1 is */
};

static const uint8_t paced[] = {
    0x50, 0x22, 0x03,              /* WR2: B is memory and increments, 2 clocks, prescaler 3 */
    0xC1,                          /* WR4: burst */
};

static uint8_t memory[ZXNDMA_BUFFER_LENGTH];
static uint8_t latches[ZXNDMA_BUFFER_LENGTH];

/* This program expects no refusal. */
static void accepted(const char *call, uint8_t number)
{
    if (number != 0) {
        fprintf(stderr, "%s: refused with %d\n", call, number);
        exit(1);
    }
}

/* What to use in place of a discouraged value, if the byte holds one. */
static void print_warning(uint8_t byte, uint8_t warning)
{
    const char *use = "";

    switch (warning) {
    case ZXNDMA_WARNING_NONE:
        return;
    case ZXNDMA_WARNING_OPERATION:
        use = "WR0 with 01 in bits 1-0";
        break;
    case ZXNDMA_WARNING_TIMING:
        use = "a timing byte with 00, 01 or 10 in bits 1-0";
        break;
    case ZXNDMA_WARNING_MODE:
        use = "WR4 with 01 or 10 in bits 6-5";
        break;
    }
    printf("write of %02X: warning %d, use %s\n", byte, warning, use);
}

/* Writes these bytes to the port of a device, in place. */
static void send_in_place(zxndma_device *device, const uint8_t *bytes, size_t count)
{
    size_t k;

    for (k = 0; k < count; k++) {
        zxndma_written written = zxndma_write_in_place(device, PORT, bytes[k]);
        accepted("write_in_place", written.number);
        print_warning(bytes[k], written.warning);
    }
}

/* Writes these bytes to the port of a device, by value. */
static zxndma_device send(zxndma_device device, const uint8_t *bytes, size_t count)
{
    size_t k;

    for (k = 0; k < count; k++) {
        zxndma_write_answer written = zxndma_write(device, PORT, bytes[k]);
        accepted("write", written.number);
        print_warning(bytes[k], written.warning);
        device = written.device;
    }
    return device;
}

/* Lets so many clocks pass, by value. */
static zxndma_device pass(zxndma_device device, uint32_t clocks)
{
    zxndma_grant_answer granted = zxndma_grant(device, memory, sizeof memory, latches, sizeof latches, clocks);

    accepted("grant", granted.number);
    return granted.device;
}

static void print_clocks(const char *title, zxndma_clocks clocks)
{
    printf("%s bus %" PRIu64 ", held %" PRIu64 ", CPU %" PRIu64 "\n", title, clocks.bus, clocks.held, clocks.cpu);
}

static void print_bytes(const char *title, const uint8_t *bytes, size_t count)
{
    size_t k;

    printf("%s", title);
    for (k = 0; k < count; k++)
        printf(" %02X", bytes[k]);
    printf("\n");
}

/* What a device of the table holds, and the status that was read from it. */
static void print_device(const char *title, size_t k, uint8_t status, const zxndma_device *device)
{
    const zxndma_core *core = &device->core;

    printf("%s %zu: status %02X, A %04X, B %04X, %" PRIu32 " bytes moved;", title, k, status, core->a.pointer,
           core->b.pointer, core->block.counter);
    print_clocks("", device->clocks);
}

/* A table that the host keeps: each device is written, granted and read where it lies. */
static void run_in_place(void)
{
    zxndma_device table[DEVICES];
    zxndma_device device = zxndma_power_on();
    zxndma_written refused;
    zxndma_read_answer answer;
    size_t k;

    for (k = 0; k < DEVICES; k++) {
        table[k] = zxndma_power_on();
        send_in_place(&table[k], program, sizeof program);
        send_in_place(&table[k], blocks[k], sizeof blocks[k]);
        send_in_place(&table[k], start, sizeof start);
    }
    /* Each device has a speed of its own. */
    accepted("set_speed_in_place", zxndma_set_speed_in_place(&table[2], ZXNDMA_SPEED_14_MHZ));

    /* Disable, while the device holds the bus: the write is refused and leaves the device as it was. */
    refused = zxndma_write_in_place(&table[1], PORT, 0x83);
    printf("write to device 1: refused with %d, enabled: %s\n", refused.number, table[1].core.enabled ? "yes" : "no");

    for (k = 0; k < DEVICES; k++) {
        zxndma_given given;
        accepted("grant_in_place", zxndma_grant_in_place(&table[k], memory, sizeof memory, latches, sizeof latches, 24));
        given = zxndma_read_in_place(&table[k], PORT);
        accepted("read_in_place", given.number);
        print_device("device", k, given.byte, &table[k]);
    }
    print_bytes("memory at 3000:", memory + 0x3000, 4);
    print_bytes("memory at 4000:", memory + 0x4000, 2);
    print_bytes("latch 00FE:", latches + 0x00FE, 1);

    /* By value the same calls, without the refused one, leave the same device. */
    device = send(device, program, sizeof program);
    device = send(device, blocks[1], sizeof blocks[1]);
    device = send(device, start, sizeof start);
    answer = zxndma_read(pass(device, 24), PORT);
    accepted("read", answer.number);
    print_device("by value, device", 1, answer.byte, &answer.device);
}

/* One device, handed over with each call and handed back in its answer. */
static void run_by_value(void)
{
    zxndma_device device = zxndma_power_on();
    zxndma_write_answer refused;
    zxndma_speed_answer set;
    uint8_t registers[7];
    size_t k;

    device = send(device, program, sizeof program);
    device = send(device, start, sizeof start);

    /* The enabled device holds the bus: a write is refused and changes nothing. */
    refused = zxndma_write(device, PORT, 0x83);
    printf("write while the bus is held: refused with %d\n", refused.number);

    device = pass(device, 16);
    print_clocks("clocks:", device.clocks);
    print_bytes("memory at 2000:", memory + 0x2000, 4);

    for (k = 0; k < sizeof registers; k++) {
        zxndma_read_answer given = zxndma_read(device, PORT);
        accepted("read", given.number);
        registers[k] = given.byte;
        device = given.device;
    }
    print_bytes("registers:", registers, sizeof registers);

    /* A discouraged value is accepted and has a warning; what it does is settled all the same. */
    device = send(device, discouraged, sizeof discouraged);

    /* There are four speeds, with the codes 0 to 3. */
    set = zxndma_set_speed(device, 4);
    printf("speed code 4: refused with %d\n", set.number);

    /* The same four bytes at 3.5 MHz take eight times the clocks. */
    set = zxndma_set_speed(device, ZXNDMA_SPEED_3_5_MHZ);
    accepted("set_speed", set.number);
    device = pass(send(set.device, start, sizeof start), 8 * 16);
    print_clocks("clocks, with the same at 3.5 MHz:", device.clocks);

    /* In burst, with slots longer than their bus time, the processor has clocks between the bytes: an interrupt waits for one. */
    printf("CPU floor, continuous: %" PRIu32 "\n", zxndma_cpu_floor(device));
    device = send(device, paced, sizeof paced);
    printf("CPU floor, burst: one of any %" PRIu32 " clocks\n", zxndma_cpu_floor(device));
    printf("valid: %s\n", zxndma_valid(device) ? "yes" : "no");
}

int main(int argc, char **argv)
{
    static const uint8_t source[] = {0x11, 0x22, 0x33, 0x44};

    if (argc == 1) {
        memcpy(memory + 0x1000, source, sizeof source);
        run_in_place();
        run_by_value();
    } else if (strcmp(argv[1], "-h") == 0 || strcmp(argv[1], "--help") == 0) {
        printf("%s", help);
    } else {
        fprintf(stderr, "example: no argument is expected; see --help\n");
        return 2;
    }
    return 0;
}
