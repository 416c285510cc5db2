/* Hands a list of signals to the tag and prints, for each NoAck, error reply and silence, the number of its rule. */
#include <stdio.h>
#include <string.h>

#include "st25dv.h"

/* A signal; with a frame its bytes, without the CRC. */
struct line {
    uint32_t code, value;
    size_t bytes;
    const char *request;
};

static const struct line script[] = {
    {ST25DV_VCC, 1, 0, NULL},
    {ST25DV_START, 0, 0, NULL}, /* a message, but MB_EN was not set */
    {ST25DV_SEND, 0xA6, 0, NULL},
    {ST25DV_SEND, 0x20, 0, NULL},
    {ST25DV_SEND, 0x08, 0, NULL},
    {ST25DV_SEND, 0x5A, 0, NULL},
    {ST25DV_SEND, 0x5B, 0, NULL},
    {ST25DV_STOP, 0, 0, NULL},
    {ST25DV_START, 0, 0, NULL}, /* a byte of user memory, and the next select too early */
    {ST25DV_SEND, 0xA6, 0, NULL},
    {ST25DV_SEND, 0x00, 0, NULL},
    {ST25DV_SEND, 0x04, 0, NULL},
    {ST25DV_SEND, 0x7E, 0, NULL},
    {ST25DV_STOP, 0, 0, NULL},
    {ST25DV_START, 0, 0, NULL},
    {ST25DV_SEND, 0xA6, 0, NULL},
    {ST25DV_FRAME, 0, 3, "\x02\x20\x01"}, /* Read Single Block: no field, then programming, then served */
    {ST25DV_FIELD, 1, 0, NULL},
    {ST25DV_FRAME, 0, 3, "\x02\x20\x01"},
    {ST25DV_PROGRAMMING_END, 0, 0, NULL},
    {ST25DV_FRAME, 0, 3, "\x02\x20\x01"},
    {ST25DV_FRAME, 0, 3, "\x02\x20\x80"}, /* no such block */
    {ST25DV_FRAME, 0, 3, "\x02\xAB\x02"}, /* Read Message Length */
};

static uint8_t state[ST25DV_STATE_BYTES], memory[ST25DV_MEMORY_BYTES], reply[ST25DV_REPLY_BYTES];

/* One line: asks for the rule, then gives the signal. False if the call is refused. */
static int run_line(unsigned number, const struct line *line)
{
    uint8_t frame[16] = {0};
    size_t n = 0;
    uint32_t why, answer;
    if (line->request != NULL) {
        uint16_t crc = st25dv_crc((const uint8_t *)line->request, line->bytes);
        memcpy(frame, line->request, line->bytes);
        frame[line->bytes] = (uint8_t)(crc & 0xFF);
        frame[line->bytes + 1] = (uint8_t)(crc >> 8);
        n = line->bytes + 2;
    }
    why = st25dv_explain(state, sizeof state, memory, sizeof memory, reply, sizeof reply, line->code, line->value, frame, n);
    answer = st25dv_step(state, sizeof state, memory, sizeof memory, reply, sizeof reply, line->code, line->value, frame, n);
    if (answer == ST25DV_NOACK)
        printf("line %u: NoAck, rule %u\n", number, (unsigned)(why - ST25DV_NONE));
    else if (answer == ST25DV_SILENCE)
        printf("line %u: silence, rule %u\n", number, (unsigned)(why - ST25DV_NONE));
    else if (why > ST25DV_NONE)
        printf("line %u: error %02Xh, rule %u\n", number, reply[1], (unsigned)(why - ST25DV_NONE));
    return answer >= ST25DV_NONE;
}

int main(void)
{
    static const uint8_t uid[ST25DV_UID_BYTES] = {0x01, 0x02, 0x03, 0x04, 0x05, 0x24, 0x02, 0xE0};
    unsigned i;
    if (st25dv_fresh(uid, sizeof uid, memory, sizeof memory, state, sizeof state) != ST25DV_NONE)
        return 1;
    for (i = 0; i < sizeof script / sizeof *script; i++)
        if (!run_line(i + 1, &script[i]))
            return 1;
    return 0;
}
