/* Three gate posts at one site, each with a tag. The installer looks for posts that answer an inventory at once, and the
 * till reads two posts while the board of the third is in the middle of a message. */
#include <stdio.h>
#include <stdlib.h>
#include <string.h>

#include "st25dv.h"

#define POSTS 3u

static uint8_t states[POSTS * ST25DV_STATE_BYTES];
static uint8_t memory[POSTS * ST25DV_MEMORY_BYTES];
static uint8_t reply[ST25DV_REPLY_BYTES];

static struct st25dv_rack_answer signal_to(uint32_t post, uint32_t code, uint32_t value, const uint8_t *frame, size_t n)
{
    struct st25dv_rack_answer a = st25dv_rack_step(states, sizeof states, memory, sizeof memory, reply, sizeof reply, POSTS, post, code, value, frame, n);
    if (a.answer < ST25DV_NONE) {
        printf("refused by %u\n", (unsigned)a.answer);
        exit(1);
    }
    return a;
}

/* ---- the boards, each on the wire of its own post */
static void expect(uint32_t post, uint32_t code, uint32_t value, uint32_t answer)
{
    if (signal_to(post, code, value, NULL, 0).answer != answer) {
        printf("post %u, code %u, value %u: another answer\n", (unsigned)post, (unsigned)code, (unsigned)value);
        exit(1);
    }
}

/* A write leg up to its last data byte. */
static void write_bytes(uint32_t post, uint8_t select, uint16_t address, const void *data, size_t n)
{
    size_t i;
    expect(post, ST25DV_START, 0, ST25DV_NONE);
    expect(post, ST25DV_SEND, select, ST25DV_ACK);
    expect(post, ST25DV_SEND, address >> 8, ST25DV_ACK);
    expect(post, ST25DV_SEND, address & 0xFF, ST25DV_ACK);
    for (i = 0; i < n; i++)
        expect(post, ST25DV_SEND, ((const uint8_t *)data)[i], ST25DV_ACK);
}

static void write_leg(uint32_t post, uint8_t select, uint16_t address, const void *data, size_t n)
{
    write_bytes(post, select, address, data, n);
    expect(post, ST25DV_STOP, 0, ST25DV_NONE);
}

/* The post's name into block 0, and the mailbox on. */
static void set_up(uint32_t post, const char *name)
{
    static const uint8_t presented[17] = {0, 0, 0, 0, 0, 0, 0, 0, 0x09};
    expect(post, ST25DV_VCC, 1, ST25DV_NONE);
    write_leg(post, 0xA6, 0x0000, name, 4);
    expect(post, ST25DV_PROGRAMMING_END, 0, ST25DV_NONE);
    write_leg(post, 0xAE, 0x0900, presented, sizeof presented);
    write_leg(post, 0xAE, 0x000D, "\x01", 1);
    expect(post, ST25DV_PROGRAMMING_END, 0, ST25DV_NONE);
    write_leg(post, 0xA6, 0x2006, "\x01", 1);
}

/* ---- the radio, heard by all posts */
static uint8_t frame[32];

static size_t closed(const char *request, size_t n)
{
    uint16_t crc;
    memcpy(frame, request, n);
    crc = st25dv_crc(frame, n);
    frame[n] = (uint8_t)(crc & 0xFF);
    frame[n + 1] = (uint8_t)(crc >> 8);
    return n + 2;
}

/* A reply: a block's bytes, an error or a UID; and who replied. */
static void heard(const char *what, struct st25dv_rack_answer a)
{
    uint32_t post;
    if (reply[0] != 0x00)
        printf("%s: error %02Xh from", what, reply[1]);
    else if (a.answer == ST25DV_REPLY + 7)
        printf("%s: \"%.4s\" from", what, (const char *)reply + 1);
    else
        printf("%s: UID ..%02X%02X from", what, reply[3], reply[2]);
    for (post = 0; post < POSTS; post++)
        if (a.answered >> post & 1)
            printf(" %u", (unsigned)post);
    printf("\n");
}

static void read_block(const char *what, const uint8_t *uid)
{
    char request[2 + ST25DV_UID_BYTES + 1] = {0x02, 0x20}; /* of block 0 */
    size_t n = 3;
    if (uid != NULL) {
        request[0] = 0x22;
        memcpy(request + 2, uid, ST25DV_UID_BYTES);
        n = sizeof request;
    }
    n = closed(request, n);
    heard(what, signal_to(0, ST25DV_FRAME, 0, frame, n));
}

/* The installer's search; then the inventory slot by slot. */
static void look(const char *what, const char *request, size_t n)
{
    uint32_t slot, found;
    n = closed(request, n);
    found = st25dv_rack_search(states, sizeof states, memory, sizeof memory, reply, sizeof reply, POSTS, frame, n);
    if (found >= ST25DV_SLOT)
        printf("%s: two posts in slot %u\n", what, (unsigned)(found - ST25DV_SLOT));
    else
        printf("%s: no slot has two posts\n", what);
    for (slot = 0; slot < 16; slot++) {
        struct st25dv_rack_answer a = slot == 0 ? signal_to(0, ST25DV_FRAME, 0, frame, n) : signal_to(0, ST25DV_END_OF_FRAME, 0, NULL, 0);
        char name[16];
        sprintf(name, "  slot %u", (unsigned)slot);
        if (a.answer >= ST25DV_REPLY)
            heard(name, a);
    }
}

int main(void)
{
    static const uint8_t uids[POSTS][ST25DV_UID_BYTES] = {
        {0x03, 0x10, 0x00, 0x00, 0x00, 0x24, 0x02, 0xE0}, {0x07, 0x11, 0x00, 0x00, 0x00, 0x24, 0x02, 0xE0}, {0x13, 0x12, 0x00, 0x00, 0x00, 0x24, 0x02, 0xE0}};
    static const char *const names[POSTS] = {"east", "main", "west"};
    static const char rate[] = "rain rate";
    uint32_t post, i;
    for (post = 0; post < POSTS; post++)
        if (st25dv_fresh(uids[post], ST25DV_UID_BYTES, memory + post * ST25DV_MEMORY_BYTES, ST25DV_MEMORY_BYTES, states + post * ST25DV_STATE_BYTES, ST25DV_STATE_BYTES) != ST25DV_NONE)
            return 1;
    for (post = 0; post < POSTS; post++)
        set_up(post, names[post]);
    signal_to(0, ST25DV_FIELD, 1, NULL, 0);
    look("all posts", "\x06\x01\x00", 3);
    look("those with the mask 3h", "\x06\x01\x04\x03", 4);
    write_bytes(1, 0xA6, 0x2008, rate, 4); /* four of nine bytes */
    read_block("all while post 1 is busy", NULL);
    read_block("post 0", uids[0]);
    read_block("post 1", uids[1]);
    read_block("post 2", uids[2]);
    for (i = 4; i < 9; i++) /* the others */
        expect(1, ST25DV_SEND, (uint8_t)rate[i], ST25DV_ACK);
    expect(1, ST25DV_STOP, 0, ST25DV_NONE);
    read_block("post 1 afterwards", uids[1]);
    return 0;
}
