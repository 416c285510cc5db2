/* Every number of st25dv.h against the library, by its name: signals, answers, refusals, rules, lengths, and places and
 * values of the state; the calls for racks too. The test keeps an image of what is lent, changes it by the header's names as document 01 says, and
 * compares all of it with what the library left after each call. st25dv_explain is asked before each st25dv_step. Prints
 * what failed; ends with 1 if anything did. */
#include <stdio.h>
#include <string.h>

#include "st25dv.h"

/* More than any length, so that a wrong one stays inside; the bytes past a length must stay too. */
#define ROOM 2048u
#define COUNT(a) (sizeof(a) / sizeof *(a))
#define RULE(name) #name, ST25DV_RULE_##name /* its name and its number */

struct lent {
    uint8_t state[ROOM], memory[ROOM], reply[ROOM];
};

static struct lent now; /* what the library has */
static struct lent due; /* what it should have */
static uint32_t why;    /* what st25dv_explain answered before the last step */
static unsigned failures;

static const uint8_t uid[ROOM] = {0x01, 0x02, 0x03, 0x04, 0x05, 0x24, 0x02, 0xE0};

/* ---- comparing */
static void fail(const char *what, const char *of, size_t place, unsigned is, unsigned should)
{
    failures++;
    if (failures <= 10)
        printf("header_test: %s: %s %u is 0x%X, not 0x%X\n", what, of, (unsigned)place, is, should);
}

static void outside(size_t place, size_t bytes)
{
    failures++;
    printf("header_test: place %u is past the last of %u bytes\n", (unsigned)place, (unsigned)bytes);
}

static void agree(const char *what, uint32_t is, uint32_t should)
{
    if (is != should)
        fail(what, "answer", 0, is, should);
}

static void explained(const char *what, uint32_t should)
{
    if (why != should)
        fail(what, "explanation", 0, why, should);
}

static void compare_bytes(const char *what, const char *of, const uint8_t *is, const uint8_t *should)
{
    size_t i;
    for (i = 0; i < ROOM; i++)
        if (is[i] != should[i])
            fail(what, of, i, is[i], should[i]);
}

static void compare_with(const char *what, const struct lent *should)
{
    compare_bytes(what, "state byte", now.state, should->state);
    compare_bytes(what, "memory byte", now.memory, should->memory);
    compare_bytes(what, "reply byte", now.reply, should->reply);
}

/* Goes on from what the library has, so that each failure is told once. */
static void compare(const char *what)
{
    compare_with(what, &due);
    due = now;
}

/* ---- the image */
static void set(size_t place, uint32_t value)
{
    if (value > 0xFF)
        fail("the header", "value at place", place, (unsigned)value, 0xFF);
    else if (place < ST25DV_STATE_BYTES && place < ROOM)
        due.state[place] = (uint8_t)value;
    else
        outside(place, ST25DV_STATE_BYTES);
}

static void set_word(size_t place, uint32_t value)
{
    set(place, value & 0xFF);
    set(place + 1, value >> 8);
}

static uint32_t word(size_t place)
{
    return place + 1 < ROOM ? due.state[place] + 256u * due.state[place + 1] : 0;
}

static void set_bytes(size_t place, const uint8_t *bytes, size_t n)
{
    size_t i;
    for (i = 0; i < n; i++)
        set(place + i, bytes[i]);
}

static void store(size_t place, uint8_t value)
{
    if (place < ST25DV_MEMORY_BYTES && place < ROOM)
        due.memory[place] = value;
    else
        outside(place, ST25DV_MEMORY_BYTES);
}

/* ---- calls */
/* st25dv_explain, which must change no byte, and st25dv_step, both with these arguments. */
static uint32_t call(size_t state, size_t memory, size_t reply, uint32_t code, uint32_t value, const uint8_t *frame, size_t n)
{
    static struct lent before;
    before = now;
    why = st25dv_explain(now.state, state, now.memory, memory, now.reply, reply, code, value, frame, n);
    compare_with("explain", &before);
    return st25dv_step(now.state, state, now.memory, memory, now.reply, reply, code, value, frame, n);
}

/* A signal, its answer, and the rule that explains it: 0 if it is no NoAck, error reply or silence. */
static void judged(const char *what, uint32_t code, uint32_t value, const uint8_t *frame, size_t n, uint32_t answer, uint32_t rule)
{
    agree(what, call(ST25DV_STATE_BYTES, ST25DV_MEMORY_BYTES, ST25DV_REPLY_BYTES, code, value, frame, n), answer);
    explained(what, answer < ST25DV_NONE ? answer : ST25DV_NONE + rule);
}

static void step(const char *what, uint32_t code, uint32_t value, uint32_t answer)
{
    judged(what, code, value, NULL, 0, answer, 0);
    compare(what);
}

static void noack(const char *what, uint8_t byte, uint32_t rule)
{
    judged(what, ST25DV_SEND, byte, NULL, 0, ST25DV_NOACK, rule);
    compare(what);
}

/* A frame. The reply's first byte and CRC are looked at; its bytes are not the header's. */
static void hand_in(const char *what, const uint8_t *frame, size_t n, uint32_t answer, uint32_t rule)
{
    size_t end = answer - ST25DV_REPLY;
    uint8_t status = rule == 0 ? 0x00 : 0x01;
    judged(what, ST25DV_FRAME, 0, frame, n, answer, rule);
    if (answer >= ST25DV_REPLY + 3 && end <= ST25DV_REPLY_BYTES && end < ROOM) {
        uint16_t crc = st25dv_crc(now.reply, end - 2);
        if (now.reply[0] != status)
            fail(what, "reply byte", 0, now.reply[0], status);
        if (now.reply[end - 2] != (crc & 0xFF) || now.reply[end - 1] != crc >> 8)
            fail(what, "CRC after reply byte", end - 3, now.reply[end - 2] + 256u * now.reply[end - 1], crc);
        memcpy(due.reply, now.reply, end);
    }
    compare(what);
}

/* A frame without its CRC. */
static void ask(const char *what, const uint8_t *request, size_t n, uint32_t answer, uint32_t rule)
{
    uint8_t frame[280];
    uint16_t crc = st25dv_crc(request, n);
    memcpy(frame, request, n);
    frame[n] = (uint8_t)(crc & 0xFF);
    frame[n + 1] = (uint8_t)(crc >> 8);
    hand_in(what, frame, n + 2, answer, rule);
}

/* A frame that meets an error, or silence where the code is 0. */
static void unserved(const char *what, const uint8_t *request, size_t n, uint8_t code, uint32_t rule)
{
    ask(what, request, n, code == 0 ? ST25DV_SILENCE : ST25DV_REPLY + 4, rule);
    if (code != 0 && now.reply[1] != code)
        fail(what, "error code", 1, now.reply[1], code);
}

static void fresh(void)
{
    memset(&due, 0xA5, sizeof due);
    now = due;
    memset(due.state, 0, ST25DV_STATE_BYTES);
    memset(due.memory, 0, ST25DV_MEMORY_BYTES);
    set(ST25DV_AT_ENDA1, 0x0F);
    set(ST25DV_AT_ENDA2, 0x0F);
    set(ST25DV_AT_ENDA3, 0x0F);
    set_bytes(ST25DV_AT_UID, uid, ST25DV_UID_BYTES);
    agree("fresh", st25dv_fresh(uid, ST25DV_UID_BYTES, now.memory, ST25DV_MEMORY_BYTES, now.state, ST25DV_STATE_BYTES), ST25DV_NONE);
    compare("fresh");
}

/* A fresh tag, both supplies on. */
static void powered(void)
{
    fresh();
    set(ST25DV_AT_VCC, 1);
    step("VCC on", ST25DV_VCC, 1, ST25DV_NONE);
    set(ST25DV_AT_FIELD, 1);
    step("field on", ST25DV_FIELD, 1, ST25DV_NONE);
}

/* ---- legs */
static void start(void)
{
    set(ST25DV_AT_BUS, ST25DV_BUS_STARTED);
    step("Start", ST25DV_START, 0, ST25DV_NONE);
}

/* The select that opens a transfer keeps RF_MNGT_Dyn for it. */
static void keep(void)
{
    set(ST25DV_AT_KEPT_RF_MNGT_DYN, due.state[ST25DV_AT_RF_MNGT_DYN % ROOM]);
}

/* A read leg up to its select. */
static void select_for_reading(uint8_t select, uint32_t space)
{
    start();
    if (due.state[ST25DV_AT_TRANSFER_OPEN % ROOM] == 0)
        keep();
    set(ST25DV_AT_TRANSFER_OPEN, 0);
    set(ST25DV_AT_BUS, ST25DV_BUS_READ_LEG);
    set(ST25DV_AT_SPACE, space);
    step("select for reading", ST25DV_SEND, select, ST25DV_ACK);
}

/* The leg is over, the transfer still open; the Start is the next call. */
static void leg_over(void)
{
    set(ST25DV_AT_SPACE, 0);
    set(ST25DV_AT_TRANSFER_OPEN, 1);
    set_word(ST25DV_AT_PAGE_COUNT, 0);
}

/* A read leg of user space in the transfer that is open. */
static void read_on(void)
{
    leg_over();
    select_for_reading(0xA7, ST25DV_SPACE_USER);
}

/* A write leg up to its address. */
static void address(uint8_t select, uint32_t space, uint32_t at)
{
    start();
    if (due.state[ST25DV_AT_TRANSFER_OPEN % ROOM] == 0)
        keep();
    set(ST25DV_AT_TRANSFER_OPEN, 0);
    set(ST25DV_AT_BUS, ST25DV_BUS_WRITE_LEG);
    set(ST25DV_AT_SPACE, space);
    step("select for writing", ST25DV_SEND, select, ST25DV_ACK);
    set(ST25DV_AT_BUS, ST25DV_BUS_LOW_ADDRESS);
    set(ST25DV_AT_HIGH_ADDRESS, at >> 8);
    step("high address byte", ST25DV_SEND, at >> 8, ST25DV_ACK);
    set(ST25DV_AT_BUS, ST25DV_BUS_DATA_LEG);
    set(ST25DV_AT_HIGH_ADDRESS, 0);
    set_word(ST25DV_AT_COUNTER, at);
    step("low address byte", ST25DV_SEND, at & 0xFF, ST25DV_ACK);
}

static void user(uint32_t at)
{
    address(0xA6, ST25DV_SPACE_USER, at);
}

static void system_space(uint32_t at)
{
    address(0xAE, ST25DV_SPACE_SYSTEM, at);
}

static void data(const uint8_t *bytes, size_t n)
{
    size_t i;
    for (i = 0; i < n; i++) {
        uint32_t k = word(ST25DV_AT_PAGE_COUNT);
        store(ST25DV_MEMORY_AT_PAGE + k, bytes[i]);
        set_word(ST25DV_AT_PAGE_COUNT, k + 1);
        set_word(ST25DV_AT_COUNTER, word(ST25DV_AT_COUNTER) + 1);
        step("data byte", ST25DV_SEND, bytes[i], ST25DV_ACK);
    }
}

/* What else the Stop does is in the image already. */
static void stop(const char *what)
{
    set(ST25DV_AT_BUS, ST25DV_BUS_IDLE);
    set(ST25DV_AT_SPACE, 0);
    set_word(ST25DV_AT_PAGE_COUNT, 0);
    set(ST25DV_AT_KEPT_RF_MNGT_DYN, 0);
    step(what, ST25DV_STOP, 0, ST25DV_NONE);
}

static void stop_and_program(const char *what)
{
    set(ST25DV_AT_PROGRAMMING, 1);
    stop(what);
    set(ST25DV_AT_PROGRAMMING, 0);
    step("programming end", ST25DV_PROGRAMMING_END, 0, ST25DV_NONE);
}

/* A password leg with the same eight bytes twice. */
static void password_leg(const uint8_t *password, uint8_t code)
{
    system_space(0x0900);
    data(password, 8);
    data(&code, 1);
    data(password, 8);
}

static void open_i2c_session(void)
{
    static const uint8_t zeros[8];
    password_leg(zeros, 0x09);
    set(ST25DV_AT_I2C_SESSION, 1);
    stop("I2C password presented");
}

static void write_register(uint32_t at, size_t place, uint8_t value)
{
    system_space(at);
    data(&value, 1);
    set(place, value);
    stop_and_program("register written");
}

/* ---- the wire */
static void reads(void)
{
    powered();
    select_for_reading(0xAF, ST25DV_SPACE_SYSTEM);
    set_word(ST25DV_AT_COUNTER, 1);
    step("fetch with Ack", ST25DV_FETCH, 1, ST25DV_BYTE + 0xFF);
    set(ST25DV_AT_HOST_NOACKED, 1);
    set_word(ST25DV_AT_COUNTER, 2);
    step("fetch with NoAck", ST25DV_FETCH, 0, ST25DV_BYTE + 0xFF);
    set(ST25DV_AT_HOST_NOACKED, 0);
    read_on();
    set_word(ST25DV_AT_COUNTER, 3);
    step("fetch with Ack", ST25DV_FETCH, 1, ST25DV_BYTE);
    stop("Stop of a read leg");
    noack("byte with no Start", 0xA6, ST25DV_RULE_NO_START);
}

static void writes(void)
{
    static const uint8_t bytes[3] = {0x11, 0x22, 0x33};
    size_t i;
    powered();
    user(0x0102);
    data(bytes, sizeof bytes);
    for (i = 0; i < sizeof bytes; i++)
        store(ST25DV_MEMORY_AT_USER + 0x0102 + i, bytes[i]);
    stop_and_program("user memory written");
    user(0x0200);
    set(ST25DV_AT_SPOILED, 1);
    noack("byte past the memory", 0x44, ST25DV_RULE_OUTSIDE_MAP);
    noack("byte of a spoiled leg", 0x44, ST25DV_RULE_LEG_SPOILED);
    set(ST25DV_AT_SPOILED, 0);
    stop("Stop of a spoiled leg");
}

static void registers(void)
{
    static const uint8_t password[8] = {1, 2, 3, 4, 5, 6, 7, 8}, sleep[1] = {0x02}, none[1] = {0x00};
    powered();
    open_i2c_session();
    password_leg(password, 0x07);
    set_bytes(ST25DV_AT_I2C_PASSWORD, password, sizeof password);
    stop_and_program("I2C password written");
    system_space(0x0003);
    data(sleep, 1);
    set(ST25DV_AT_RF_MNGT, 0x02);
    set(ST25DV_AT_RF_MNGT_DYN, 0x02); /* is reloaded */
    stop_and_program("RF_MNGT written");
    user(0x2003);
    data(none, 1);
    set(ST25DV_AT_RF_MNGT_DYN, 0x00);
    stop("RF_MNGT_Dyn written");
    write_register(0x0004, ST25DV_AT_RFA1SS, 0x04);
    write_register(0x0005, ST25DV_AT_ENDA1, 0x01);
    write_register(0x0006, ST25DV_AT_RFA2SS, 0x05);
    write_register(0x0007, ST25DV_AT_ENDA2, 0x02);
    write_register(0x0008, ST25DV_AT_RFA3SS, 0x06);
    write_register(0x0009, ST25DV_AT_ENDA3, 0x03);
    write_register(0x000A, ST25DV_AT_RFA4SS, 0x07);
    write_register(0x000B, ST25DV_AT_I2CSS, 0x81);
    write_register(0x000C, ST25DV_AT_LOCK_CCFILE, 0x02);
    write_register(0x000D, ST25DV_AT_MB_MODE, 0x01);
    write_register(0x000F, ST25DV_AT_LOCK_CFG, 0x01);
    set(ST25DV_AT_VCC, 0);
    set(ST25DV_AT_I2C_SESSION, 0);
    set_word(ST25DV_AT_COUNTER, 0);
    set(ST25DV_AT_RF_MNGT_DYN, 0x02);
    step("VCC off", ST25DV_VCC, 0, ST25DV_NONE);
}

/* RF_MNGT_Dyn is written by a leg that a Start ends. Frames inside the transfer are judged by the value it was opened
 * with, those after it by the new one. */
static void repeated_starts(void)
{
    static const uint8_t sleep[1] = {0x02}, none[1] = {0x00}, read_block[3] = {0x02, 0x20, 0x00};
    powered();
    user(0x2003);
    data(sleep, 1);
    set(ST25DV_AT_RF_MNGT_DYN, 0x02);
    read_on();
    unserved("frame in a transfer opened with 00h", read_block, sizeof read_block, 0x0F, ST25DV_RULE_SHUT_OUT);
    stop("Stop of a read leg");
    unserved("frame after it", read_block, sizeof read_block, 0, ST25DV_RULE_RF_SLEEP);
    user(0x2003);
    data(none, 1);
    set(ST25DV_AT_RF_MNGT_DYN, 0x00);
    leg_over();
    start();
    unserved("frame in a transfer opened with 02h", read_block, sizeof read_block, 0, ST25DV_RULE_RF_SLEEP);
    set(ST25DV_AT_TRANSFER_OPEN, 0);
    stop("Stop after a Start");
    ask("frame after it", read_block, sizeof read_block, ST25DV_REPLY + 7, 0);
}

/* ---- the mailbox */
static void enable_mailbox(void)
{
    static const uint8_t one[1] = {0x01};
    powered();
    open_i2c_session();
    write_register(0x000D, ST25DV_AT_MB_MODE, 0x01);
    user(0x2006);
    data(one, 1);
    set(ST25DV_AT_MB_EN, 1);
    stop("MB_EN set");
}

/* The host puts 256 bytes, the till reads them. */
static void host_message(void)
{
    static const uint8_t read_whole[5] = {0x02, 0xAC, 0x02, 0x00, 0x00};
    uint8_t message[256];
    size_t i;
    for (i = 0; i < sizeof message; i++)
        message[i] = (uint8_t)(3 * i + 1);
    user(0x2008);
    data(message, sizeof message);
    for (i = 0; i < sizeof message; i++)
        store(ST25DV_MEMORY_AT_MAILBOX + i, message[i]);
    set(ST25DV_AT_HOST_PUT, 1);
    set(ST25DV_AT_HOST_CURRENT, 1);
    set_word(ST25DV_AT_MESSAGE_LENGTH, sizeof message);
    stop("message put by the host");
    set(ST25DV_AT_HOST_PUT, 0);
    ask("Read Message", read_whole, sizeof read_whole, ST25DV_REPLY + 1 + sizeof message + 2, 0);
}

/* The till puts 3 bytes, the host fetches the last. */
static void till_message(void)
{
    static const uint8_t put[7] = {0x02, 0xAA, 0x02, 0x02, 0xC1, 0xC2, 0xC3};
    size_t i;
    for (i = 0; i < 3; i++)
        store(ST25DV_MEMORY_AT_MAILBOX + i, put[4 + i]);
    set(ST25DV_AT_RF_PUT, 1);
    set(ST25DV_AT_RF_CURRENT, 1);
    set(ST25DV_AT_HOST_CURRENT, 0);
    set_word(ST25DV_AT_MESSAGE_LENGTH, 3);
    ask("Write Message", put, sizeof put, ST25DV_REPLY + 3, 0);
    user(0x200A);
    read_on();
    set(ST25DV_AT_LAST_FETCHED, 1);
    set_word(ST25DV_AT_COUNTER, 0x200B);
    step("last byte of the message", ST25DV_FETCH, 1, ST25DV_BYTE + 0xC3);
    set(ST25DV_AT_LAST_FETCHED, 0);
    set(ST25DV_AT_RF_PUT, 0);
    stop("Stop after the last byte");
}

static void mailbox(void)
{
    enable_mailbox();
    host_message();
    till_message();
}

/* ---- the radio */
static void radio_states(void)
{
    uint8_t request[10] = {0x22, 0x02};
    static const uint8_t reset[2] = {0x12, 0x26}, read_block[3] = {0x02, 0x20, 0x00};
    powered();
    memcpy(request + 2, uid, 8);
    set(ST25DV_AT_RADIO_STATE, ST25DV_QUIET);
    unserved("Stay Quiet", request, sizeof request, 0, ST25DV_RULE_OWN_SILENCE);
    unserved("frame to a Quiet tag", read_block, sizeof read_block, 0, ST25DV_RULE_QUIET);
    request[1] = 0x25;
    set(ST25DV_AT_RADIO_STATE, ST25DV_SELECTED);
    ask("Select", request, sizeof request, ST25DV_REPLY + 3, 0);
    set(ST25DV_AT_RADIO_STATE, ST25DV_READY);
    ask("Reset to Ready", reset, sizeof reset, ST25DV_REPLY + 3, 0);
}

static void radio_password(uint8_t n, size_t place, uint32_t session)
{
    uint8_t request[12] = {0x02, 0xB3, 0x02};
    static const uint8_t password[8] = {9, 8, 7, 6, 5, 4, 3, 2};
    request[3] = n;
    set(ST25DV_AT_RADIO_SESSION, session);
    ask("Present Password", request, sizeof request, ST25DV_REPLY + 3, 0);
    request[1] = 0xB1;
    memcpy(request + 4, password, sizeof password);
    set_bytes(place, password, sizeof password);
    ask("Write Password", request, sizeof request, ST25DV_REPLY + 3, 0);
    request[1] = 0xB3;
    request[4] = 0x00;
    set(ST25DV_AT_RADIO_SESSION, ST25DV_SESSION_NONE);
    unserved("Present Password, wrong", request, sizeof request, 0x0F, ST25DV_RULE_WRONG_PASSWORD);
}

static void radio_passwords(void)
{
    powered();
    radio_password(0, ST25DV_AT_PASSWORD_0, ST25DV_SESSION_PASSWORD_0);
    radio_password(1, ST25DV_AT_PASSWORD_1, ST25DV_SESSION_PASSWORD_1);
    radio_password(2, ST25DV_AT_PASSWORD_2, ST25DV_SESSION_PASSWORD_2);
    radio_password(3, ST25DV_AT_PASSWORD_3, ST25DV_SESSION_PASSWORD_3);
}

/* 128 blocks with their status bytes fill the reply buffer. */
static void longest_reply(void)
{
    static const uint8_t read_all[4] = {0x42, 0x23, 0x00, 0x7F};
    powered();
    ask("Read Multiple Blocks", read_all, sizeof read_all, ST25DV_REPLY + ST25DV_REPLY_BYTES, 0);
}

/* ---- rules */
/* The data byte that spoils the leg; its Stop writes nothing. */
static void spoils(const char *what, uint8_t byte, uint32_t rule)
{
    set(ST25DV_AT_SPOILED, 1);
    noack(what, byte, rule);
    set(ST25DV_AT_SPOILED, 0);
    stop("Stop of a spoiled leg");
}

/* The select byte that leaves the bus idle. */
static void not_selected(const char *what, uint8_t byte, uint32_t rule)
{
    start();
    set(ST25DV_AT_BUS, ST25DV_BUS_IDLE);
    noack(what, byte, rule);
}

static void rules_of_other_bytes(void)
{
    static const uint8_t byte[1] = {0x5A};
    fresh();
    noack("byte without VCC", 0xA6, ST25DV_RULE_NO_VCC);
    powered();
    not_selected("another select byte", 0xA8, ST25DV_RULE_OTHER_SELECT_BYTE);
    noack("byte after it", 0xA6, ST25DV_RULE_NO_START);
    select_for_reading(0xA7, ST25DV_SPACE_USER);
    noack("byte in a read leg", 0x00, ST25DV_RULE_READ_LEG);
    stop("Stop of a read leg");
    user(0x0000);
    data(byte, 1);
    store(ST25DV_MEMORY_AT_USER, byte[0]);
    set(ST25DV_AT_PROGRAMMING, 1);
    stop("byte written");
    not_selected("select while programming", 0xA6, ST25DV_RULE_PROGRAMMING);
}

/* Data bytes that a fresh tag NoAcks at once. */
static void rules_of_first_bytes(void)
{
    static const uint8_t zeros[8], page[256];
    powered();
    user(0x0200);
    spoils("byte past the memory", 0x00, ST25DV_RULE_OUTSIDE_MAP);
    user(0x2008);
    spoils("mailbox byte with MB_EN 0", 0x00, ST25DV_RULE_MODE_OFF);
    user(0x2004);
    spoils("I2C_SSO_Dyn", 0x00, ST25DV_RULE_REGISTER_READ_ONLY);
    system_space(0x0003);
    spoils("register without a session", 0x00, ST25DV_RULE_SESSION_NEEDED);
    system_space(0x0900);
    data(zeros, sizeof zeros);
    spoils("password code 08h", 0x08, ST25DV_RULE_PASSWORD_CODE);
    user(0x0000);
    data(page, sizeof page);
    spoils("a 257th byte", 0x00, ST25DV_RULE_PAGE_FULL);
}

static void rules_of_areas(void)
{
    static const uint8_t zeros[1], lock[3] = {0x02, 0x22, 0x00}, write_block[7] = {0x02, 0x21, 0x00}, read_block[3] = {0x02, 0x20, 0x08};
    powered();
    open_i2c_session();
    system_space(0x0005);
    spoils("ENDA1 above 0Fh", 0x10, ST25DV_RULE_ENDA);
    write_register(0x0005, ST25DV_AT_ENDA1, 0x00);
    write_register(0x0006, ST25DV_AT_RFA2SS, 0x08);
    user(0x001F);
    data(zeros, 1);
    spoils("byte of area 2", 0x00, ST25DV_RULE_ANOTHER_AREA);
    unserved("read of area 2", read_block, sizeof read_block, 0x15, ST25DV_RULE_READ_PROTECTED);
    set(ST25DV_AT_LOCK_CCFILE, 0x01);
    ask("Lock Block", lock, sizeof lock, ST25DV_REPLY + 3, 0);
    unserved("Lock Block again", lock, sizeof lock, 0x11, ST25DV_RULE_ALREADY_LOCKED);
    unserved("write of a locked block", write_block, sizeof write_block, 0x12, ST25DV_RULE_WRITE_FORBIDDEN);
    user(0x0003);
    spoils("byte of a locked block", 0x00, ST25DV_RULE_LOCKED_BLOCK);
}

static void rules_of_the_mailbox(void)
{
    static const uint8_t message[1] = {0x5A}, read_whole[5] = {0x02, 0xAC, 0x02, 0x00, 0x00};
    enable_mailbox();
    user(0x0000);
    spoils("memory byte with MB_EN 1", 0x00, ST25DV_RULE_MAILBOX_MODE_ON);
    user(0x2009);
    spoils("message from its second byte on", 0x00, ST25DV_RULE_MAILBOX_LEG_NOT_FROM_2008);
    unserved("Read Message, empty", read_whole, sizeof read_whole, 0x0F, ST25DV_RULE_PAST_MESSAGE);
    user(0x2008);
    data(message, 1);
    store(ST25DV_MEMORY_AT_MAILBOX, message[0]);
    set(ST25DV_AT_HOST_PUT, 1);
    set(ST25DV_AT_HOST_CURRENT, 1);
    set_word(ST25DV_AT_MESSAGE_LENGTH, 1);
    stop("message put by the host");
    user(0x2008);
    spoils("message before it was read", 0x00, ST25DV_RULE_MAILBOX_BUSY);
}

static void rules_of_reception(void)
{
    static const uint8_t request[3] = {0x02, 0x20, 0x00}, frame[5] = {0x02, 0x20, 0x00, 0x00, 0x00};
    static const uint8_t present[12] = {0x02, 0xB3, 0x02, 0x00}, write_end[5] = {0x02, 0xA1, 0x02, 0x05, 0x10};
    fresh();
    unserved("frame without a field", request, sizeof request, 0, ST25DV_RULE_FIELD_OFF);
    powered();
    hand_in("frame with another CRC", frame, sizeof frame, ST25DV_SILENCE, ST25DV_RULE_BAD_CRC);
    set(ST25DV_AT_RADIO_SESSION, ST25DV_SESSION_PASSWORD_0);
    ask("Present Password", present, sizeof present, ST25DV_REPLY + 3, 0);
    unserved("ENDA1 above 0Fh by radio", write_end, sizeof write_end, 0x0F, ST25DV_RULE_END_REFUSED);
}

/* Requests that a fresh tag in the field does not serve, with the error's code, or 0 for silence. */
static void rules_of_requests(void)
{
    static const struct {
        const char *name;
        uint32_t rule;
        uint8_t code, bytes, request[24];
    } rows[] = {
        {RULE(FRAME_LENGTH), 0, 1, {0x02}},
        {RULE(INVENTORY_FLAG), 0, 3, {0x06, 0x20, 0x00}},
        {RULE(SELECT_AND_ADDRESS), 0, 3, {0x32, 0x20, 0x00}},
        {RULE(MAKER), 0, 3, {0x02, 0xAB, 0x04}},
        {RULE(UID), 0, 3, {0x22, 0x20, 0x00}},
        {RULE(NOT_SELECTED), 0, 3, {0x12, 0x20, 0x00}},
        {RULE(NOT_ADDRESSED), 0, 2, {0x02, 0x25}},
        {RULE(UNKNOWN_COMMAND), 0x01, 2, {0x02, 0x30}},
        {RULE(UNSUPPORTED_FLAGS), 0x03, 3, {0x0A, 0x20, 0x00}},
        {RULE(WRONG_LENGTH), 0x02, 2, {0x02, 0x20}},
        {RULE(NO_SUCH_BLOCK), 0x10, 3, {0x02, 0x20, 0x80}},
        {RULE(READ_LEAVES_AREA), 0x0F, 4, {0x02, 0x23, 0x7F, 0x01}},
        {RULE(TOO_MANY_BLOCKS), 0x0F, 24, {0x02, 0x24, 0x00, 0x04}},
        {RULE(WRITE_LEAVES_AREA), 0x0F, 12, {0x02, 0x24, 0x7F, 0x01}},
        {RULE(NOT_LOCKABLE), 0x10, 3, {0x02, 0x22, 0x02}},
        {RULE(NO_SUCH_REGISTER), 0x10, 4, {0x02, 0xA0, 0x02, 0x0B}},
        {RULE(CONFIGURATION_CLOSED), 0x12, 5, {0x02, 0xA1, 0x02, 0x03, 0x00}},
        {RULE(NO_SUCH_DYNAMIC_REGISTER), 0x10, 4, {0x02, 0xAD, 0x02, 0x03}},
        {RULE(MAILBOX_UNAVAILABLE), 0x0F, 5, {0x02, 0xAA, 0x02, 0x00, 0x5A}},
        {RULE(MAILBOX_DISABLED), 0x0F, 3, {0x02, 0xAB, 0x02}},
        {RULE(NO_SUCH_PASSWORD), 0x10, 12, {0x02, 0xB3, 0x02, 0x04}},
        {RULE(WRONG_PASSWORD), 0x0F, 12, {0x02, 0xB3, 0x02, 0x00, 0x01}},
        {RULE(PASSWORD_SESSION_CLOSED), 0x12, 12, {0x02, 0xB1, 0x02, 0x00}},
    };
    size_t i;
    powered();
    for (i = 0; i < COUNT(rows); i++)
        unserved(rows[i].name, rows[i].request, rows[i].bytes, rows[i].code, rows[i].rule);
}

/* ---- refusals */
static void refused_value(const char *what, size_t place, uint8_t value)
{
    uint8_t before = now.state[place % ROOM];
    now.state[place % ROOM] = due.state[place % ROOM] = value;
    step(what, ST25DV_PROGRAMMING_END, 0, ST25DV_REFUSED_OUT_OF_RANGE);
    now.state[place % ROOM] = due.state[place % ROOM] = before;
}

/* An inventory: the UID's lowest four bits are 1, so of sixteen slots the tag answers in slot 1. */
static void inventory(void)
{
    static const uint8_t sixteen[] = {0x06, 0x01, 0x00};
    static const uint8_t family[] = {0x36, 0x01, 0xA5, 0x00};
    static const uint8_t other[] = {0x36, 0x01, 0xA6, 0x00};
    powered();
    set(ST25DV_AT_DSFID, 0x5A);
    set(ST25DV_AT_AFI, 0xA5);
    now = due;
    set(ST25DV_AT_SLOTS, 1);
    unserved("inventory of sixteen slots", sixteen, sizeof sixteen, 0, ST25DV_RULE_INVENTORY_FLAG);
    set(ST25DV_AT_SLOTS, 0);
    judged("its slot", ST25DV_END_OF_FRAME, 0, NULL, 0, ST25DV_REPLY + 12, 0);
    if (now.reply[1] != 0x5A)
        fail("its slot", "DSFID", 1, now.reply[1], 0x5A);
    memcpy(due.reply, now.reply, 12);
    compare("its slot");
    step("no slot awaited", ST25DV_END_OF_FRAME, 0, ST25DV_SILENCE);
    ask("inventory of its AFI", family, sizeof family, ST25DV_REPLY + 12, 0);
    unserved("inventory of another AFI", other, sizeof other, 0, ST25DV_RULE_INVENTORY_FLAG);
}

/* The value after the last is refused where there are values by name, and 2 at a flag. */
static void refused_values(void)
{
    static const size_t flags[] = {
        ST25DV_AT_FIELD, ST25DV_AT_VCC, ST25DV_AT_I2C_SESSION, ST25DV_AT_PROGRAMMING, ST25DV_AT_TRANSFER_OPEN, ST25DV_AT_HOST_NOACKED,
        ST25DV_AT_SPOILED, ST25DV_AT_LAST_FETCHED, ST25DV_AT_MB_EN, ST25DV_AT_HOST_PUT, ST25DV_AT_RF_PUT, ST25DV_AT_HOST_CURRENT, ST25DV_AT_RF_CURRENT,
    };
    size_t i;
    powered();
    for (i = 0; i < COUNT(flags); i++)
        refused_value("a flag of 2", flags[i], 2);
    refused_value("another radio state", ST25DV_AT_RADIO_STATE, ST25DV_SELECTED + 1);
    refused_value("another radio session", ST25DV_AT_RADIO_SESSION, ST25DV_SESSION_PASSWORD_3 + 1);
    refused_value("a slot past the last", ST25DV_AT_SLOTS, 16);
    refused_value("another bus", ST25DV_AT_BUS, ST25DV_BUS_DATA_LEG + 1);
    refused_value("another space", ST25DV_AT_SPACE, ST25DV_SPACE_SYSTEM + 1);
    refused_value("a value kept for no transfer", ST25DV_AT_KEPT_RF_MNGT_DYN, 1);
    user(0x0000);
    refused_value("an undefined bit kept", ST25DV_AT_KEPT_RF_MNGT_DYN, 4);
}

static void refused_signals(void)
{
    static const uint32_t tops[][2] = {
        {ST25DV_VCC, 1}, {ST25DV_FIELD, 1}, {ST25DV_START, 0}, {ST25DV_SEND, 255}, {ST25DV_FETCH, 1}, {ST25DV_STOP, 0}, {ST25DV_PROGRAMMING_END, 0}, {ST25DV_FRAME, 0},
        {ST25DV_END_OF_FRAME, 0},
    };
    size_t i;
    powered();
    step("code 0", 0, 0, ST25DV_REFUSED_SIGNAL_UNKNOWN);
    for (i = 0; i < COUNT(tops); i++) {
        step("value past the last", tops[i][0], tops[i][1] + 1, ST25DV_REFUSED_SIGNAL_UNKNOWN);
        step("code and 256", tops[i][0] + 0x100, 0, ST25DV_REFUSED_SIGNAL_UNKNOWN);
    }
}

/* The answer to a set of faults, bit k the k-th in the order in which they are judged; ST25DV_NONE if it has none. */
static uint32_t first_fault(unsigned faults, const uint32_t *order, size_t n)
{
    size_t k;
    for (k = 0; k < n; k++)
        if (faults >> k & 1)
            return order[k];
    return ST25DV_NONE;
}

/* Every set of faults, bit k the k-th in the order in which they are judged: the first is the answer. */
static void refused_steps(void)
{
    static const uint32_t order[] = {
        ST25DV_REFUSED_MEMORY_LENGTH, ST25DV_REFUSED_REPLY_SHORT, ST25DV_REFUSED_SIGNAL_UNKNOWN, ST25DV_REFUSED_STATE_LENGTH, ST25DV_REFUSED_OUT_OF_RANGE,
    };
    unsigned faults;
    for (faults = 1; faults < 64; faults++) {
        size_t more = faults >> 5; /* a length too long or too short */
        uint32_t first = first_fault(faults, order, COUNT(order));
        powered();
        if (faults & 16)
            now.state[ST25DV_AT_BUS] = due.state[ST25DV_AT_BUS] = ST25DV_BUS_DATA_LEG + 1;
        if (first == ST25DV_NONE)
            continue;
        agree("step with faults", call(faults & 8 ? ST25DV_STATE_BYTES - 1 + 2 * more : ST25DV_STATE_BYTES,
                                       faults & 1 ? ST25DV_MEMORY_BYTES - 1 + 2 * more : ST25DV_MEMORY_BYTES,
                                       faults & 2 ? ST25DV_REPLY_BYTES - 1 : ST25DV_REPLY_BYTES + more,
                                       ST25DV_FETCH, faults & 4 ? 2 : 1, NULL, 0), first);
        explained("step with faults", first);
        compare("step with faults");
    }
}

static void refused_fresh(void)
{
    static const uint32_t order[] = {ST25DV_REFUSED_MEMORY_LENGTH, ST25DV_REFUSED_STATE_LENGTH, ST25DV_REFUSED_UID_LENGTH};
    unsigned faults;
    powered();
    for (faults = 1; faults < 16; faults++) {
        size_t more = faults >> 3;
        uint32_t first = first_fault(faults, order, COUNT(order));
        if (first == ST25DV_NONE)
            continue;
        agree("fresh with faults", st25dv_fresh(uid, faults & 4 ? ST25DV_UID_BYTES - 1 + 2 * more : ST25DV_UID_BYTES,
                                                now.memory, faults & 1 ? ST25DV_MEMORY_BYTES - 1 + 2 * more : ST25DV_MEMORY_BYTES,
                                                now.state, faults & 2 ? ST25DV_STATE_BYTES - 1 + 2 * more : ST25DV_STATE_BYTES), first);
        compare("fresh with faults");
    }
}

/* A null pointer with a length of 0 is an empty buffer, judged by its length. */
static void null_buffers(void)
{
    powered();
    agree("no memory", st25dv_step(now.state, ST25DV_STATE_BYTES, NULL, 0, now.reply, ST25DV_REPLY_BYTES, ST25DV_STOP, 0, NULL, 0), ST25DV_REFUSED_MEMORY_LENGTH);
    agree("no reply", st25dv_step(now.state, ST25DV_STATE_BYTES, now.memory, ST25DV_MEMORY_BYTES, NULL, 0, ST25DV_STOP, 0, NULL, 0), ST25DV_REFUSED_REPLY_SHORT);
    agree("no state", st25dv_step(NULL, 0, now.memory, ST25DV_MEMORY_BYTES, now.reply, ST25DV_REPLY_BYTES, ST25DV_STOP, 0, NULL, 0), ST25DV_REFUSED_STATE_LENGTH);
    agree("no memory to explain", st25dv_explain(now.state, ST25DV_STATE_BYTES, NULL, 0, now.reply, ST25DV_REPLY_BYTES, ST25DV_STOP, 0, NULL, 0), ST25DV_REFUSED_MEMORY_LENGTH);
    agree("no reply to explain", st25dv_explain(now.state, ST25DV_STATE_BYTES, now.memory, ST25DV_MEMORY_BYTES, NULL, 0, ST25DV_STOP, 0, NULL, 0), ST25DV_REFUSED_REPLY_SHORT);
    agree("no state to explain", st25dv_explain(NULL, 0, now.memory, ST25DV_MEMORY_BYTES, now.reply, ST25DV_REPLY_BYTES, ST25DV_STOP, 0, NULL, 0), ST25DV_REFUSED_STATE_LENGTH);
    agree("no fresh memory", st25dv_fresh(uid, ST25DV_UID_BYTES, NULL, 0, now.state, ST25DV_STATE_BYTES), ST25DV_REFUSED_MEMORY_LENGTH);
    agree("no fresh state", st25dv_fresh(uid, ST25DV_UID_BYTES, now.memory, ST25DV_MEMORY_BYTES, NULL, 0), ST25DV_REFUSED_STATE_LENGTH);
    agree("no UID", st25dv_fresh(NULL, 0, now.memory, ST25DV_MEMORY_BYTES, now.state, ST25DV_STATE_BYTES), ST25DV_REFUSED_UID_LENGTH);
    agree("CRC of no byte", st25dv_crc(NULL, 0), 0x0000);
    hand_in("empty frame", NULL, 0, ST25DV_SILENCE, ST25DV_RULE_FRAME_LENGTH);
}

/* ---- racks: the same of calls over several tags, one more than a rack has */
#define MOST ((size_t)ST25DV_RACK_TAGS + 1)

struct rack {
    uint8_t states[MOST * ST25DV_STATE_BYTES + 1], memory[MOST * ST25DV_MEMORY_BYTES + 1], reply[ST25DV_REPLY_BYTES];
};

static struct rack held;   /* what the library has */
static struct rack wanted; /* what it should have */

/* Place `place` of tag i's state. */
static uint8_t *at(size_t i, size_t place)
{
    static uint8_t nowhere;
    if (place < ST25DV_STATE_BYTES)
        return &wanted.states[i * ST25DV_STATE_BYTES + place];
    outside(place, ST25DV_STATE_BYTES);
    return &nowhere;
}

/* Fresh tags, the lowest byte of whose UID is their number. */
static void fresh_rack(void)
{
    size_t i;
    memset(&wanted, 0x33, sizeof wanted);
    for (i = 0; i < MOST; i++) {
        uint8_t own[ROOM];
        memcpy(own, uid, sizeof own);
        own[0] = (uint8_t)i;
        agree("a fresh tag of a rack", st25dv_fresh(own, ST25DV_UID_BYTES, &wanted.memory[i * ST25DV_MEMORY_BYTES], ST25DV_MEMORY_BYTES, at(i, 0), ST25DV_STATE_BYTES), ST25DV_NONE);
    }
    held = wanted;
}

static void compare_rack(const char *what)
{
    if (memcmp(held.states, wanted.states, sizeof held.states) != 0)
        fail(what, "states, rack", 0, 0, 0);
    if (memcmp(held.memory, wanted.memory, sizeof held.memory) != 0)
        fail(what, "memories, rack", 0, 0, 0);
    if (memcmp(held.reply, wanted.reply, sizeof held.reply) != 0)
        fail(what, "reply, rack", 0, 0, 0);
    wanted = held;
}

/* A step of the first tags with no fault in its lengths. */
static void rack_step(const char *what, uint32_t tags, uint32_t to, uint32_t code, uint32_t value, const uint8_t *frame, size_t n, uint32_t answer, uint32_t answered)
{
    struct st25dv_rack_answer is = st25dv_rack_step(held.states, tags * ST25DV_STATE_BYTES, held.memory, tags * ST25DV_MEMORY_BYTES, held.reply, ST25DV_REPLY_BYTES, tags, to, code, value, frame, n);
    agree(what, is.answer, answer);
    if (is.answered != answered)
        fail(what, "tags that answered", 0, is.answered, answered);
}

/* A request to all tags, closed with its CRC. */
static size_t closed(uint8_t *frame, const uint8_t *request, size_t n)
{
    uint16_t crc = st25dv_crc(request, n);
    memcpy(frame, request, n);
    frame[n] = (uint8_t)(crc & 0xFF);
    frame[n + 1] = (uint8_t)(crc >> 8);
    return n + 2;
}

/* A signal to one tag, one to all, and a frame that all answer. */
static void rack_signals(void)
{
    static const uint8_t read_block[] = {0x02, 0x20, 0x00};
    static const uint8_t block[] = {0x00, 0x00, 0x00, 0x00, 0x00, 0x77, 0xCF};
    uint8_t frame[8];
    size_t i, n = closed(frame, read_block, sizeof read_block);
    fresh_rack();
    *at(ST25DV_RACK_TAGS - 1, ST25DV_AT_VCC) = 1;
    rack_step("VCC of the last tag", ST25DV_RACK_TAGS, ST25DV_RACK_TAGS - 1, ST25DV_VCC, 1, NULL, 0, ST25DV_NONE, 0);
    compare_rack("VCC of the last tag");
    for (i = 0; i < ST25DV_RACK_TAGS; i++)
        *at(i, ST25DV_AT_FIELD) = 1;
    rack_step("field of all tags", ST25DV_RACK_TAGS, ST25DV_RACK_TAGS, ST25DV_FIELD, 1, NULL, 0, ST25DV_NONE, 0);
    compare_rack("field of all tags");
    memcpy(wanted.reply, block, sizeof block);
    rack_step("a frame to all tags", ST25DV_RACK_TAGS, 0, ST25DV_FRAME, 0, frame, n, ST25DV_REPLY + 7, 0xFFFF);
    compare_rack("a frame to all tags");
    rack_step("a signal to no tag", ST25DV_RACK_TAGS, ST25DV_RACK_TAGS, ST25DV_STOP, 0, NULL, 0, ST25DV_REFUSED_NO_SUCH_TAG, 0);
    rack_step("a rack without tags", 0, 0, ST25DV_FIELD, 0, NULL, 0, ST25DV_REFUSED_RACK_SIZE, 0);
    compare_rack("refused rack calls");
}

/* The first three tags answer in slots 0, 1 and 2, the fourth in slot 2 too. */
static void rack_search(void)
{
    static const uint8_t sixteen[] = {0x06, 0x01, 0x00};
    uint8_t frame[8];
    size_t i, n = closed(frame, sixteen, sizeof sixteen);
    fresh_rack();
    for (i = 0; i < MOST; i++)
        *at(i, ST25DV_AT_FIELD) = 1;
    *at(3, ST25DV_AT_UID) = 0x12;
    held = wanted;
    agree("no slot of two", st25dv_rack_search(held.states, 3 * ST25DV_STATE_BYTES, held.memory, 3 * ST25DV_MEMORY_BYTES, held.reply, ST25DV_REPLY_BYTES, 3, frame, n), ST25DV_NONE);
    agree("slot 2", st25dv_rack_search(held.states, 4 * ST25DV_STATE_BYTES, held.memory, 4 * ST25DV_MEMORY_BYTES, held.reply, ST25DV_REPLY_BYTES, 4, frame, n), ST25DV_SLOT + 2);
    memcpy(wanted.reply, held.reply, 12); /* the reply of the last slot */
    compare_rack("searches");
}

/* Every set of faults, bit k the k-th in the order in which they are judged; a search has no signal and no tag's number. */
static void refused_racks(void)
{
    static const uint32_t order[] = {
        ST25DV_REFUSED_MEMORY_LENGTH, ST25DV_REFUSED_REPLY_SHORT, ST25DV_REFUSED_SIGNAL_UNKNOWN, ST25DV_REFUSED_STATE_LENGTH, ST25DV_REFUSED_OUT_OF_RANGE,
        ST25DV_REFUSED_RACK_SIZE, ST25DV_REFUSED_NO_SUCH_TAG, ST25DV_REFUSED_EQUAL_UIDS,
    };
    unsigned faults;
    fresh_rack();
    for (faults = 1; faults < 256; faults++) {
        uint32_t tags = faults & 32 ? ST25DV_RACK_TAGS + 1 : 2;
        size_t state = tags * ST25DV_STATE_BYTES + (faults >> 3 & 1), memory = tags * ST25DV_MEMORY_BYTES + (faults & 1), reply = ST25DV_REPLY_BYTES - (faults >> 1 & 1);
        struct st25dv_rack_answer is;
        *at(1, ST25DV_AT_BUS) = faults & 16 ? ST25DV_BUS_DATA_LEG + 1 : ST25DV_BUS_IDLE;
        *at(1, ST25DV_AT_UID) = faults & 128 ? 0 : 1;
        held = wanted;
        is = st25dv_rack_step(held.states, state, held.memory, memory, held.reply, reply, tags, faults & 64 ? tags : 1, ST25DV_FETCH, faults & 4 ? 2 : 1, NULL, 0);
        agree("rack step with faults", is.answer, first_fault(faults, order, COUNT(order)));
        if (is.answered != 0)
            fail("rack step with faults", "tags that answered", 0, is.answered, 0);
        if (faults & ~0x44u)
            agree("rack search with faults", st25dv_rack_search(held.states, state, held.memory, memory, held.reply, reply, tags, NULL, 0), first_fault(faults & ~0x44u, order, COUNT(order)));
        compare_rack("rack calls with faults");
    }
}

static void null_racks(void)
{
    fresh_rack();
    agree("no memories", st25dv_rack_step(held.states, ST25DV_STATE_BYTES, NULL, 0, held.reply, ST25DV_REPLY_BYTES, 1, 0, ST25DV_STOP, 0, NULL, 0).answer, ST25DV_REFUSED_MEMORY_LENGTH);
    agree("no reply of a rack", st25dv_rack_step(held.states, ST25DV_STATE_BYTES, held.memory, ST25DV_MEMORY_BYTES, NULL, 0, 1, 0, ST25DV_STOP, 0, NULL, 0).answer, ST25DV_REFUSED_REPLY_SHORT);
    agree("no states", st25dv_rack_step(NULL, 0, held.memory, ST25DV_MEMORY_BYTES, held.reply, ST25DV_REPLY_BYTES, 1, 0, ST25DV_STOP, 0, NULL, 0).answer, ST25DV_REFUSED_STATE_LENGTH);
    agree("no rack", st25dv_rack_search(NULL, 0, NULL, 0, held.reply, ST25DV_REPLY_BYTES, 0, NULL, 0), ST25DV_REFUSED_RACK_SIZE);
    agree("no memories to search", st25dv_rack_search(held.states, ST25DV_STATE_BYTES, NULL, 0, held.reply, ST25DV_REPLY_BYTES, 1, NULL, 0), ST25DV_REFUSED_MEMORY_LENGTH);
    agree("no reply of a search", st25dv_rack_search(held.states, ST25DV_STATE_BYTES, held.memory, ST25DV_MEMORY_BYTES, NULL, 0, 1, NULL, 0), ST25DV_REFUSED_REPLY_SHORT);
    compare_rack("null buffers of a rack");
}

int main(void)
{
    reads();
    writes();
    registers();
    repeated_starts();
    mailbox();
    radio_states();
    radio_passwords();
    longest_reply();
    rules_of_other_bytes();
    rules_of_first_bytes();
    rules_of_areas();
    rules_of_the_mailbox();
    rules_of_reception();
    rules_of_requests();
    inventory();
    refused_values();
    refused_signals();
    refused_steps();
    refused_fresh();
    null_buffers();
    rack_signals();
    rack_search();
    refused_racks();
    null_racks();
    if (failures == 0)
        printf("header_test: every number of the header is the library's\n");
    else
        printf("header_test: %u failures\n", failures);
    return failures != 0;
}
