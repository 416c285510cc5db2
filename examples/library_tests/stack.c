/* How much stack the library takes. Each function runs on a stack of its own that is painted before; the deepest byte
 * that lost its paint tells. The signals come from a fixed random source, which reaches every kind of leg and every
 * command, the longest frames and replies among them. A whole rack gets them too: its tag 0 all of them, and must end as
 * the tag alone, the others those that go to all. Prints the bytes; ends with 1 if less than a fifth is left of what
 * docs/LIBRARY.md says is enough. */
#define _XOPEN_SOURCE 700
#include <stdio.h>
#include <string.h>
#include <ucontext.h>

#include "st25dv.h"

#define ENOUGH 3072u       /* docs/LIBRARY.md, "Threads and stack" */
#define RACK_ENOUGH 16384u /* the same of a rack's calls */
#define STACK 65536u
#define PAINT 0xC7
#define CALLS 300000
#define PICK(a) (a)[below(sizeof(a))]

enum function { FRESH, CRC, EXPLAIN, STEP, RACK_STEP, RACK_SEARCH, FUNCTIONS };

static uint8_t stacks[FUNCTIONS][STACK], state[ST25DV_STATE_BYTES], memory[ST25DV_MEMORY_BYTES], reply[ST25DV_REPLY_BYTES];
static uint8_t states[ST25DV_RACK_TAGS * ST25DV_STATE_BYTES], memories[ST25DV_RACK_TAGS * ST25DV_MEMORY_BYTES];
static uint8_t searched_states[sizeof states], searched_memories[sizeof memories], frame[600];
static const uint8_t *sought; /* the frame of a search */
static size_t frame_bytes, sought_bytes;
static uint32_t code, value, answer;
static ucontext_t outside, inside;

static const uint8_t uid[ST25DV_UID_BYTES] = {0x01, 0x02, 0x03, 0x04, 0x05, 0x24, 0x02, 0xE0};

/* ---- the random source */
static uint32_t below(uint32_t sides)
{
    static uint64_t x = 88172645463325252u;
    x ^= x << 13;
    x ^= x >> 7;
    x ^= x << 17;
    return (uint32_t)(x >> 33) % sides;
}

/* ---- signals */
/* A byte that fits where the bus stands, most of the time. */
static uint8_t byte_sent(void)
{
    static const uint8_t selects[] = {0xA6, 0xA6, 0xA7, 0xAE, 0xAE, 0xAF, 0x00};
    static const uint8_t highs[] = {0x00, 0x00, 0x01, 0x09, 0x09, 0x20, 0x20, 0xFF};
    static const uint8_t lows[] = {0x00, 0x00, 0x03, 0x05, 0x06, 0x07, 0x08, 0x0D, 0x0F, 0x18, 0xFF};
    static const uint8_t bytes[] = {0x00, 0x00, 0x00, 0x01, 0x01, 0x07, 0x09, 0x0F, 0xFF};
    switch (state[ST25DV_AT_BUS]) {
    case ST25DV_BUS_STARTED:
        return PICK(selects);
    case ST25DV_BUS_WRITE_LEG:
        return PICK(highs);
    case ST25DV_BUS_LOW_ADDRESS:
        return state[ST25DV_AT_HIGH_ADDRESS] == 0x09 ? 0x00 : PICK(lows);
    default:
        break;
    }
    if (state[ST25DV_AT_SPACE] == ST25DV_SPACE_SYSTEM && state[ST25DV_AT_COUNTER + 1] == 0x09)
        return state[ST25DV_AT_PAGE_COUNT] == 8 ? 0x09 : 0x00;
    return PICK(bytes);
}

static void put(uint8_t byte)
{
    frame[frame_bytes++] = byte;
}

/* A frame with parameters of about its command's length. */
static void make_frame(void)
{
    static const uint8_t commands[] = {0x02, 0x20, 0x21, 0x22, 0x23, 0x24, 0x25, 0x26, 0x2C, 0xA0, 0xA1, 0xAA, 0xAB, 0xAC, 0xAD, 0xAE, 0xB1, 0xB3, 0x2B};
    static const uint8_t lengths[] = {0, 1, 5, 1, 2, 18, 0, 0, 2, 1, 2, 0, 0, 2, 1, 2, 9, 9, 0};
    static const uint8_t all_flags[] = {0x02, 0x02, 0x02, 0x12, 0x22, 0x42, 0x62, 0x0A, 0x06};
    static const uint8_t parameters[] = {0x00, 0x00, 0x00, 0x00, 0x01, 0x03, 0x0D, 0x7F, 0x80, 0xFF};
    uint32_t n = below(sizeof commands), i, more;
    uint8_t flags = PICK(all_flags), length = PICK(parameters);
    frame_bytes = 0;
    put(flags);
    put(commands[n]);
    if (commands[n] >= 0xA0)
        put(0x02);
    for (i = 0; (flags & 0x20) && i < sizeof uid; i++)
        put(uid[i]);
    if (commands[n] == 0xAA)
        put(length);
    more = commands[n] == 0xAA ? length + 1u : below(20) == 0 ? below(500) : lengths[n];
    for (i = 0; i < more; i++)
        put(PICK(parameters));
    if (commands[n] == 0x24 && more == 18)
        frame[frame_bytes - 17] = 3; /* count-1 of its 16 data bytes */
    i = st25dv_crc(frame, frame_bytes);
    put((uint8_t)(i & 0xFF));
    put((uint8_t)(i >> 8));
}

static void make_signal(void)
{
    static const uint8_t codes[] = {
        ST25DV_VCC, ST25DV_FIELD, ST25DV_START, ST25DV_START, ST25DV_SEND, ST25DV_SEND, ST25DV_SEND, ST25DV_SEND, ST25DV_SEND, ST25DV_SEND, ST25DV_SEND, ST25DV_SEND,
        ST25DV_SEND, ST25DV_SEND, ST25DV_SEND, ST25DV_SEND, ST25DV_FETCH, ST25DV_STOP, ST25DV_PROGRAMMING_END, ST25DV_PROGRAMMING_END, ST25DV_FRAME, ST25DV_FRAME, ST25DV_FRAME, ST25DV_FRAME,
    };
    static unsigned run;
    run = run > 0 ? run - 1 : below(40) == 0 ? 270 : 0; /* at times a long leg */
    code = run > 0 && state[ST25DV_AT_BUS] == ST25DV_BUS_DATA_LEG ? ST25DV_SEND : PICK(codes);
    value = 0;
    if (code == ST25DV_VCC || code == ST25DV_FIELD)
        value = below(50) > 0;
    if (code == ST25DV_FETCH)
        value = below(8) > 0;
    if (code == ST25DV_SEND)
        value = byte_sent();
    make_frame();
}

/* ---- the painted stacks */
static void explain(void)
{
    answer = st25dv_explain(state, sizeof state, memory, sizeof memory, reply, sizeof reply, code, value, frame, frame_bytes);
}

static void step(void)
{
    answer = st25dv_step(state, sizeof state, memory, sizeof memory, reply, sizeof reply, code, value, frame, frame_bytes);
}

static void fresh(void)
{
    answer = st25dv_fresh(uid, sizeof uid, memory, sizeof memory, state, sizeof state);
}

static void crc(void)
{
    answer = st25dv_crc(frame, frame_bytes);
}

static void rack_step(void)
{
    answer = st25dv_rack_step(states, sizeof states, memories, sizeof memories, reply, sizeof reply, ST25DV_RACK_TAGS, 0, code, value, frame, frame_bytes).answer;
}

static void rack_search(void)
{
    answer = st25dv_rack_search(searched_states, sizeof states, searched_memories, sizeof memories, reply, sizeof reply, ST25DV_RACK_TAGS, sought, sought_bytes);
}

static void run_inside(enum function which)
{
    static void (*const functions[FUNCTIONS])(void) = {fresh, crc, explain, step, rack_step, rack_search};
    getcontext(&inside);
    inside.uc_stack.ss_sp = stacks[which];
    inside.uc_stack.ss_size = STACK;
    inside.uc_link = &outside;
    makecontext(&inside, functions[which], 0);
    swapcontext(&outside, &inside);
}

/* The bytes down to the deepest that lost its paint, those of the function around the call included. */
static unsigned depth(enum function which)
{
    unsigned painted = 0;
    while (painted < STACK && stacks[which][painted] == PAINT)
        painted++;
    return STACK - painted;
}

static int fits(enum function which)
{
    return 5 * depth(which) <= 4 * (which >= RACK_STEP ? RACK_ENOUGH : ENOUGH);
}

static int refused(enum function which)
{
    run_inside(which);
    if (answer < ST25DV_NONE)
        printf("stack: a call was refused: %u\n", (unsigned)answer);
    return answer < ST25DV_NONE;
}

/* Tag 0 is the tag alone, the others have other UIDs. */
static void fresh_rack(void)
{
    uint8_t other[sizeof uid];
    unsigned i;
    memcpy(other, uid, sizeof uid);
    for (i = 0; i < ST25DV_RACK_TAGS; i++, other[0]++)
        st25dv_fresh(other, sizeof other, memories + i * sizeof memory, sizeof memory, states + i * sizeof state, sizeof state);
}

/* A search over a copy of the rack, since it sends what it is given: the frame, or an inventory of sixteen slots. */
static int searches(void)
{
    static uint8_t inventory[] = {0x06, 0x01, 0x00, 0x00, 0x00};
    uint16_t crc = st25dv_crc(inventory, 3);
    int own = below(2);
    inventory[3] = (uint8_t)(crc & 0xFF);
    inventory[4] = (uint8_t)(crc >> 8);
    sought = own ? frame : inventory;
    sought_bytes = own ? frame_bytes : sizeof inventory;
    memcpy(searched_states, states, sizeof states);
    memcpy(searched_memories, memories, sizeof memories);
    return !refused(RACK_SEARCH);
}

/* The rack gets the signal. False if it is refused, or its tag 0 is not the tag alone. */
static int rack_agrees(void)
{
    if (refused(RACK_STEP))
        return 0;
    if (memcmp(states, state, sizeof state) == 0 && memcmp(memories, memory, sizeof memory) == 0)
        return 1;
    printf("stack: tag 0 of the rack is not the tag alone\n");
    return 0;
}

int main(void)
{
    unsigned i, longest = 0;
    memset(stacks, PAINT, sizeof stacks);
    run_inside(FRESH);
    fresh_rack();
    make_frame();
    run_inside(CRC);
    for (i = 0; i < CALLS; i++) {
        make_signal();
        if (refused(EXPLAIN) || refused(STEP))
            return 1;
        if (answer > longest)
            longest = answer;
        if (!rack_agrees() || (i % 50 == 0 && !searches()))
            return 1;
    }
    printf("stack: fresh %u, crc %u, explain %u, step %u, rack step %u, rack search %u bytes; longest reply %u\n", depth(FRESH), depth(CRC), depth(EXPLAIN), depth(STEP), depth(RACK_STEP), depth(RACK_SEARCH), longest - ST25DV_REPLY);
    return !(fits(FRESH) && fits(CRC) && fits(EXPLAIN) && fits(STEP) && fits(RACK_STEP) && fits(RACK_SEARCH));
}
