/* The zxnDMA, a DMA chip, for C99 and C++11 on x86-64 Linux. Link libhost.a and libin_place.a, in any order; a program that
 * makes no call in place links libhost.a alone.
 *
 * A device is plain data that the host owns: copy it, keep it, compare its fields. Write, read, grant and set speed come in
 * two forms, which do the same: in place, with a pointer to a device that the host keeps, as an element of its own table; and
 * by value, where the device is handed over and handed back in the answer. Any content is a device; calls refuse one that is
 * not valid. The bytes between the fields have no meaning and a call in place may change them, so compare fields and not
 * memory.
 *
 * A flag is a bool, and its byte must be 0 or 1. Assigning to it sees to that. A byte that is copied over a flag, or never
 * set, can hold something else, and no call answers for such a device: set a flag that comes from outside by `byte != 0`.
 * Every other field may hold anything that its type can hold.
 *
 * Clocks are those of 28 MHz, whatever the processor's speed is. At 28 MHz a cycle of 4 takes 4 of them; at 14, 7 and
 * 3.5 MHz it takes 2, 4 and 8 times as many.
 *
 * Numbers in answers: 0 accepted. Refusals, the lowest that applies: 1 the device is not valid; 2 the port number's low
 * byte is neither 6B nor 0B (hex); 3 the device holds the bus; 4 the memory is not 65,536 bytes; 5 the latches are not
 * 65,536 bytes; 6 the clock counts would not fit 64 bits; 7 the speed code is above 3. A refused call changes nothing: in
 * place the device is left as it was, by value it comes back as it came, and no byte of a buffer is written.
 */
#ifndef ZXNDMA_H
#define ZXNDMA_H

#include <stdbool.h>
#include <stddef.h>
#include <stdint.h>

#ifdef __cplusplus
extern "C" {
#endif

/* The bytes of memory, and of latches, that an accepted grant is lent. */
#define ZXNDMA_BUFFER_LENGTH 65536

/* One of the device's two ports, A or B. */
typedef struct zxndma_port {
    uint16_t address; /* starting address: what Load and auto restart copy into the pointer */
    uint16_t pointer; /* address of the next byte */
    bool io;          /* the port is I/O; otherwise it is memory */
    uint8_t step;     /* 0 decrements the pointer, 1 increments it, any other value keeps it fixed */
    uint8_t cycle;    /* cycle length in clocks at 28 MHz; valid from 2 to 4 */
} zxndma_port;

/* The block that is transferred. */
typedef struct zxndma_block {
    uint16_t length;  /* block length as written to WR0 */
    uint32_t counter; /* bytes moved since the counter was last put to zero; valid up to 65,536 */
    bool zilog;       /* compatibility mode: Zilog, where a block is one byte longer than its length; otherwise zxn */
} zxndma_block;

/* The codes of the processor's speeds. A cycle takes 8, 4, 2 and 1 times the clocks that it takes at 28 MHz. */
#define ZXNDMA_SPEED_3_5_MHZ 0
#define ZXNDMA_SPEED_7_MHZ 1
#define ZXNDMA_SPEED_14_MHZ 2
#define ZXNDMA_SPEED_28_MHZ 3

/* How the block is transferred. */
typedef struct zxndma_control {
    bool forward;      /* from port A to port B; otherwise from B to A */
    uint8_t prescaler; /* least time for each byte in units of 32 clocks; 0 is off */
    bool burst;        /* burst mode; otherwise continuous */
    bool restart;      /* auto restart at the end of the block */
    uint8_t speed;     /* the processor's speed, by its code above; valid from 0 to 3 */
} zxndma_control;

/* The two bits of the status byte that change. */
typedef struct zxndma_status {
    bool e; /* bit E: false once a block was found finished, until Reset or 8B */
    bool t; /* bit T: true once a byte has been transferred, until Reset or 8B */
} zxndma_status;

/* What the next port reads give. */
typedef struct zxndma_readback {
    uint8_t mask;     /* read mask, bit k for register k; valid up to 127 */
    uint8_t position; /* read position, a register number; valid from 0 to 6 */
    bool waiting;     /* a status read is waiting: the next accepted read gives the status */
} zxndma_readback;

/* The bits of the pending parameters, in the order in which they come: the lowest set bit is the next one, and 0 is none.
 * A number is valid if a register, or a B timing byte, can leave these parameters pending: 0 to 15, 16, 32, 64, 128, 256,
 * 384 (128 and 256) and 512. With any other number the device is not valid.
 *
 * These replace codes 1 to 10, in this order, which a device kept in four fields, `pending.first` to `pending.fourth`, the
 * next one first, 0 behind the last. The number of a sequence from a valid device is the sum of 2 to the power code - 1
 * over its codes that are not 0. Other sequences have no number, even if their sum is a valid one: 2, 1 was not valid, and
 * 3 stands for 1, 2. */
#define ZXNDMA_PENDING_A_ADDRESS_LOW 1
#define ZXNDMA_PENDING_A_ADDRESS_HIGH 2
#define ZXNDMA_PENDING_LENGTH_LOW 4
#define ZXNDMA_PENDING_LENGTH_HIGH 8
#define ZXNDMA_PENDING_A_TIMING 16
#define ZXNDMA_PENDING_B_TIMING 32
#define ZXNDMA_PENDING_PRESCALER 64
#define ZXNDMA_PENDING_B_ADDRESS_LOW 128
#define ZXNDMA_PENDING_B_ADDRESS_HIGH 256
#define ZXNDMA_PENDING_READ_MASK 512

/* The running transfer slot; in a valid device all 0 and continuous while no clock of one has elapsed. */
typedef struct zxndma_slot {
    uint16_t elapsed; /* clocks elapsed, 0 to 8,159 */
    uint16_t bus;     /* bus time in clocks, 4 to 64 */
    uint16_t length;  /* length in clocks: the bus time, or a multiple of 32 up to 8,160 that is not below it */
    bool burst;       /* the wait after the bus time is given to the processor */
} zxndma_slot;

/* The clock counts. Their sum fits 64 bits in a valid device. */
typedef struct zxndma_clocks {
    uint64_t bus;  /* clocks spent on the bus */
    uint64_t held; /* clocks of waiting with the bus held */
    uint64_t cpu;  /* clocks left to the processor */
} zxndma_clocks;

/* The device without its clock counts. */
typedef struct zxndma_core {
    zxndma_port a;
    zxndma_port b;
    zxndma_block block;
    zxndma_control control;
    zxndma_status status;
    zxndma_readback readback;
    uint16_t pending; /* the pending parameters, by their bits above */
    bool enabled;     /* a slot is running or about to begin */
    zxndma_slot slot;
} zxndma_core;

/* A zxnDMA. */
typedef struct zxndma_device {
    zxndma_core core;
    zxndma_clocks clocks;
} zxndma_device;

/* The warnings of a port write: the byte was accepted and holds a value that programs should not use. It acts all the same,
 * as said below; a warning is no refusal, and has a field of its own. Whether the byte is WR0, WR4 or a timing byte goes by
 * what was pending as it was written. */
#define ZXNDMA_WARNING_NONE 0      /* no such value, or a refused write */
#define ZXNDMA_WARNING_OPERATION 1 /* WR0 with bits 1-0 of 10 or 11: a transfer; use 01 */
#define ZXNDMA_WARNING_TIMING 2    /* A or B timing with bits 1-0 of 11: a cycle of 4; use 00, or 01 for 3, 10 for 2 */
#define ZXNDMA_WARNING_MODE 3      /* WR4 with bits 6-5 of 00 or 11: continuous; use 01, or 10 for burst */

/* What a port write in place answers. */
typedef struct zxndma_written {
    uint8_t number;  /* 0 for accepted, else the refusal: 1, 2 or 3 */
    uint8_t warning; /* one of the warnings above: 0 for none, and for a refused write */
} zxndma_written;

/* What a port read in place answers. */
typedef struct zxndma_given {
    uint8_t number; /* 0 for accepted, else the refusal: 1, 2 or 3 */
    uint8_t byte;   /* the byte read, 0 for a refused read */
} zxndma_given;

/* The answer to a port write. */
typedef struct zxndma_write_answer {
    uint8_t number;       /* 0 for accepted, else the refusal: 1, 2 or 3 */
    uint8_t warning;      /* one of the warnings above: 0 for none, and for a refused write */
    zxndma_device device; /* the device afterwards */
} zxndma_write_answer;

/* The answer to a port read. */
typedef struct zxndma_read_answer {
    uint8_t number;       /* 0 for accepted, else the refusal: 1, 2 or 3 */
    uint8_t byte;         /* the byte read, 0 for a refused read */
    zxndma_device device; /* the device afterwards */
} zxndma_read_answer;

/* The answer to a grant. */
typedef struct zxndma_grant_answer {
    uint8_t number;       /* 0 for accepted, else the refusal: 1, 4, 5 or 6 */
    zxndma_device device; /* the device afterwards */
} zxndma_grant_answer;

/* The answer to a call that sets the speed. */
typedef struct zxndma_speed_answer {
    uint8_t number;       /* 0 for accepted, else the refusal: 1 or 7 */
    zxndma_device device; /* the device afterwards */
} zxndma_speed_answer;

/* A device as it is when power comes on: its speed is 28 MHz. Never refused. */
zxndma_device zxndma_power_on(void);

/* ---- In place ----
 *
 * The device is the host's own and is changed where it lies; nothing of it is kept after the call. The pointer is not null, is
 * aligned to 8 bytes, as a zxndma_device is, and is to a device in memory that can be written, which nothing else reads or
 * writes during the call and which overlaps neither buffer. A refused call writes the device too, with what was there. */

/* A byte is written to the DMA's port. The port number's low byte is 6B (zxn mode) or 0B (Zilog mode); the high byte is
 * free. An accepted byte with a discouraged value has a warning in its answer. */
zxndma_written zxndma_write_in_place(zxndma_device *device, uint16_t port, uint8_t byte);

/* A byte is read from the DMA's port, 6B or 0B as above. */
zxndma_given zxndma_read_in_place(zxndma_device *device, uint16_t port);

/* That many clocks pass, and all of them are used. Both buffers stay the host's and are used only during the call. Each
 * pointer is to as many bytes as its length says and is not null, also where the length is 0; the two buffers do not
 * overlap. A length other than ZXNDMA_BUFFER_LENGTH is refused with 4 or 5. Answers 0 for accepted, else the refusal: 1, 4, 5
 * or 6. */
uint8_t zxndma_grant_in_place(zxndma_device *device, uint8_t *memory, size_t memory_length, uint8_t *latches,
                              size_t latches_length, uint32_t clocks);

/* The processor's speed is set, by its code, at any time. A slot that is running keeps its figures, and the slots after it
 * go by the new speed. No other call changes the speed, and Reset leaves it. Answers 0 for accepted, else the refusal: 1, or 7
 * for a code above 3. */
uint8_t zxndma_set_speed_in_place(zxndma_device *device, uint8_t code);

/* ---- By value ----
 *
 * Write, read, grant and set speed do what the calls in place do, with the same buffers; the device is handed over, and handed
 * back in the answer. */
zxndma_write_answer zxndma_write(zxndma_device device, uint16_t port, uint8_t byte);
zxndma_read_answer zxndma_read(zxndma_device device, uint16_t port);
zxndma_grant_answer zxndma_grant(zxndma_device device, uint8_t *memory, size_t memory_length, uint8_t *latches,
                                 size_t latches_length, uint32_t clocks);
zxndma_speed_answer zxndma_set_speed(zxndma_device device, uint8_t code);

/* The device is valid: no call refuses it with 1. */
bool zxndma_valid(zxndma_device device);

/* A floor under the processor's time: among any so many clocks in a row, the next one or a later one being the first, at
 * least one is the processor's, as long as up to the last of them no port access and no speed call is accepted and the host
 * does not change the device itself. How the clocks are cut into grants does not matter, nor do refused calls and changes of
 * memory. At most 65. 0 is no claim: the device is not valid, or the slot that runs, or the one that the registers start,
 * enabled or not, is continuous or no longer than its bus time. */
uint32_t zxndma_cpu_floor(zxndma_device device);

/* ---- The layout that the library was built with ---- */

#ifdef __cplusplus
#define ZXNDMA_ASSERT(name, fact) static_assert(fact, "layout of zxndma: " #name)
#define ZXNDMA_SIZE_OF(part, field) sizeof(part::field)
#else
#define ZXNDMA_ASSERT(name, fact) typedef char zxndma_assert_##name[(fact) ? 1 : -1]
#define ZXNDMA_SIZE_OF(part, field) sizeof(((part *)0)->field)
#endif
/* A field's offset and size, and a struct's size, in bytes. */
#define ZXNDMA_FIELD(part, field, offset, size)                                                                       \
    ZXNDMA_ASSERT(part##_##field, offsetof(zxndma_##part, field) == (offset) && ZXNDMA_SIZE_OF(zxndma_##part, field) == (size))
#define ZXNDMA_SIZE(part, size) ZXNDMA_ASSERT(part##_size, sizeof(zxndma_##part) == (size))

ZXNDMA_FIELD(port, address, 0, 2);
ZXNDMA_FIELD(port, pointer, 2, 2);
ZXNDMA_FIELD(port, io, 4, 1);
ZXNDMA_FIELD(port, step, 5, 1);
ZXNDMA_FIELD(port, cycle, 6, 1);
ZXNDMA_SIZE(port, 8);
ZXNDMA_FIELD(block, length, 0, 2);
ZXNDMA_FIELD(block, counter, 4, 4);
ZXNDMA_FIELD(block, zilog, 8, 1);
ZXNDMA_SIZE(block, 12);
ZXNDMA_FIELD(control, forward, 0, 1);
ZXNDMA_FIELD(control, prescaler, 1, 1);
ZXNDMA_FIELD(control, burst, 2, 1);
ZXNDMA_FIELD(control, restart, 3, 1);
ZXNDMA_FIELD(control, speed, 4, 1);
ZXNDMA_SIZE(control, 5);
ZXNDMA_FIELD(status, e, 0, 1);
ZXNDMA_FIELD(status, t, 1, 1);
ZXNDMA_SIZE(status, 2);
ZXNDMA_FIELD(readback, mask, 0, 1);
ZXNDMA_FIELD(readback, position, 1, 1);
ZXNDMA_FIELD(readback, waiting, 2, 1);
ZXNDMA_SIZE(readback, 3);
ZXNDMA_FIELD(slot, elapsed, 0, 2);
ZXNDMA_FIELD(slot, bus, 2, 2);
ZXNDMA_FIELD(slot, length, 4, 2);
ZXNDMA_FIELD(slot, burst, 6, 1);
ZXNDMA_SIZE(slot, 8);
ZXNDMA_FIELD(clocks, bus, 0, 8);
ZXNDMA_FIELD(clocks, held, 8, 8);
ZXNDMA_FIELD(clocks, cpu, 16, 8);
ZXNDMA_SIZE(clocks, 24);
ZXNDMA_FIELD(core, a, 0, 8);
ZXNDMA_FIELD(core, b, 8, 8);
ZXNDMA_FIELD(core, block, 16, 12);
ZXNDMA_FIELD(core, control, 28, 5);
ZXNDMA_FIELD(core, status, 33, 2);
ZXNDMA_FIELD(core, readback, 35, 3);
ZXNDMA_FIELD(core, pending, 38, 2);
ZXNDMA_FIELD(core, enabled, 40, 1);
ZXNDMA_FIELD(core, slot, 42, 8);
ZXNDMA_SIZE(core, 52);
ZXNDMA_FIELD(device, core, 0, 52);
ZXNDMA_FIELD(device, clocks, 56, 24);
ZXNDMA_SIZE(device, 80);
ZXNDMA_FIELD(written, number, 0, 1);
ZXNDMA_FIELD(written, warning, 1, 1);
ZXNDMA_SIZE(written, 2);
ZXNDMA_FIELD(given, number, 0, 1);
ZXNDMA_FIELD(given, byte, 1, 1);
ZXNDMA_SIZE(given, 2);
ZXNDMA_FIELD(write_answer, number, 0, 1);
ZXNDMA_FIELD(write_answer, warning, 1, 1);
ZXNDMA_FIELD(write_answer, device, 8, 80);
ZXNDMA_SIZE(write_answer, 88);
ZXNDMA_FIELD(read_answer, number, 0, 1);
ZXNDMA_FIELD(read_answer, byte, 1, 1);
ZXNDMA_FIELD(read_answer, device, 8, 80);
ZXNDMA_SIZE(read_answer, 88);
ZXNDMA_FIELD(grant_answer, number, 0, 1);
ZXNDMA_FIELD(grant_answer, device, 8, 80);
ZXNDMA_SIZE(grant_answer, 88);
ZXNDMA_FIELD(speed_answer, number, 0, 1);
ZXNDMA_FIELD(speed_answer, device, 8, 80);
ZXNDMA_SIZE(speed_answer, 88);

#undef ZXNDMA_SIZE
#undef ZXNDMA_FIELD
#undef ZXNDMA_SIZE_OF
#undef ZXNDMA_ASSERT

#ifdef __cplusplus
}
#endif

#endif
