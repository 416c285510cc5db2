/* A host board puts a day's rate into the mailbox over the wire, and a till reads it by radio. */
#include <stdio.h>
#include <stdlib.h>
#include <string.h>

#include "st25dv.h"

static uint8_t state[ST25DV_STATE_BYTES];
static uint8_t memory[ST25DV_MEMORY_BYTES];
static uint8_t reply[ST25DV_REPLY_BYTES];

static uint32_t frame_call(uint32_t code, uint32_t value, const uint8_t *frame, size_t n)
{
    return st25dv_step(state, sizeof state, memory, sizeof memory, reply, sizeof reply, code, value, frame, n);
}

/* A signal, and the answer that it must have. */
static void expect(uint32_t code, uint32_t value, uint32_t answer)
{
    uint32_t a = frame_call(code, value, NULL, 0);
    if (a != answer) {
        printf("code %u value %u: %s 0x%x, not 0x%x\n", (unsigned)code, (unsigned)value,
               a < ST25DV_NONE ? "refused by" : "answer", (unsigned)a, (unsigned)answer);
        exit(1);
    }
}

/* ---- the host */
/* One write leg: select, address, data; the Stop writes it. */
static void write_leg(uint8_t select, uint16_t address, const uint8_t *data, size_t n)
{
    size_t i;
    expect(ST25DV_START, 0, ST25DV_NONE);
    expect(ST25DV_SEND, select, ST25DV_ACK);
    expect(ST25DV_SEND, address >> 8, ST25DV_ACK);
    expect(ST25DV_SEND, address & 0xFF, ST25DV_ACK);
    for (i = 0; i < n; i++)
        expect(ST25DV_SEND, data[i], ST25DV_ACK);
    expect(ST25DV_STOP, 0, ST25DV_NONE);
}

/* The I2C password, all 0 on a fresh tag, opens the session; then MB_MODE and MB_EN are set. */
static void enable_mailbox(void)
{
    static const uint8_t one[1] = {0x01};
    uint8_t present[17] = {0};
    present[8] = 0x09;
    write_leg(0xAE, 0x0900, present, sizeof present);
    write_leg(0xAE, 0x000D, one, sizeof one);
    expect(ST25DV_PROGRAMMING_END, 0, ST25DV_NONE);
    write_leg(0xA6, 0x2006, one, sizeof one);
}

/* ---- the till */
/* A request, closed with its CRC; the length of the reply without status and CRC, which start at place 1. */
static size_t ask(const uint8_t *request, size_t n)
{
    uint8_t frame[16];
    uint32_t a;
    size_t end;
    uint16_t c = st25dv_crc(request, n);
    memcpy(frame, request, n);
    frame[n] = (uint8_t)(c & 0xFF);
    frame[n + 1] = (uint8_t)(c >> 8);
    a = frame_call(ST25DV_FRAME, 0, frame, n + 2);
    end = a < ST25DV_REPLY + 3 ? 0 : a - ST25DV_REPLY - 2; /* where the reply's CRC stands */
    if (end == 0 || reply[0] != 0x00 || st25dv_crc(reply, end) != (uint16_t)(reply[end] | reply[end + 1] << 8)) {
        printf("request %02x: answer 0x%x\n", request[1], (unsigned)a);
        exit(1);
    }
    return end - 1;
}

int main(void)
{
    static const uint8_t uid[ST25DV_UID_BYTES] = {0x01, 0x02, 0x03, 0x04, 0x05, 0x24, 0x02, 0xE0};
    static const uint8_t read_length[] = {0x02, 0xAB, 0x02};
    static const uint8_t read_message[] = {0x02, 0xAC, 0x02, 0x00, 0x00};
    static const char rate[] = "2026-07-12 rain rate -10%";
    size_t n;

    if (st25dv_fresh(uid, sizeof uid, memory, sizeof memory, state, sizeof state) != ST25DV_NONE)
        return 1;
    expect(ST25DV_VCC, 1, ST25DV_NONE);
    enable_mailbox();
    write_leg(0xA6, 0x2008, (const uint8_t *)rate, sizeof rate - 1);
    printf("put %u bytes, HOST_PUT is %u\n", (unsigned)(sizeof rate - 1), (unsigned)state[ST25DV_AT_HOST_PUT]);

    expect(ST25DV_FIELD, 1, ST25DV_NONE);
    ask(read_length, sizeof read_length);
    printf("the mailbox has %u bytes\n", reply[1] + 1u);
    n = ask(read_message, sizeof read_message);
    printf("read %.*s, HOST_PUT is %u\n", (int)n, (const char *)reply + 1, (unsigned)state[ST25DV_AT_HOST_PUT]);
    return 0;
}
