/* A proved model of the ST25DV04K, for programs in C. docs/LIBRARY.md says what a caller owes (in short: each pointer
 * has as many bytes as its length says, no two buffers overlap, nothing else touches them during the call), and what
 * the tag does with each signal, address and command. */
#ifndef ST25DV_H
#define ST25DV_H

#include <stddef.h>
#include <stdint.h>

#ifdef __cplusplus
extern "C" {
#endif

/* ---- lengths of the buffers */
#define ST25DV_STATE_BYTES 87u
#define ST25DV_UID_BYTES 8u
#define ST25DV_MEMORY_BYTES 1024u
#define ST25DV_REPLY_BYTES 643u /* at least */
/* A rack of n tags has n states end to end, n * ST25DV_STATE_BYTES, and n memories end to end; the tags are numbered from 0. */
#define ST25DV_RACK_TAGS 16u /* at most */

/* ---- parts of the memory */
#define ST25DV_MEMORY_AT_USER 0u      /* 512 bytes: user memory */
#define ST25DV_MEMORY_AT_MAILBOX 512u /* 256 bytes: the mailbox */
#define ST25DV_MEMORY_AT_PAGE 768u    /* 256 bytes: data bytes of the write leg under way */

/* ---- codes of a signal, and the values that each takes */
#define ST25DV_VCC 1u             /* 0 or 1 */
#define ST25DV_FIELD 2u           /* 0 or 1 */
#define ST25DV_START 3u           /* 0 */
#define ST25DV_SEND 4u            /* the byte, 0 to 255 */
#define ST25DV_FETCH 5u           /* 1: the host Acks the byte; 0: it does not */
#define ST25DV_STOP 6u            /* 0 */
#define ST25DV_PROGRAMMING_END 7u /* 0 */
#define ST25DV_FRAME 8u           /* 0 */
#define ST25DV_END_OF_FRAME 9u    /* 0; the lone end-of-frame that opens the next slot of an inventory */

/* ---- refusals, in the order in which they are judged; all are below ST25DV_NONE, and leave every lent byte as it was */
#define ST25DV_REFUSED_MEMORY_LENGTH 1u  /* the memory has not ST25DV_MEMORY_BYTES */
#define ST25DV_REFUSED_REPLY_SHORT 2u    /* the reply buffer has fewer than ST25DV_REPLY_BYTES */
#define ST25DV_REFUSED_SIGNAL_UNKNOWN 3u /* the code is unknown, or its value out of range */
#define ST25DV_REFUSED_STATE_LENGTH 13u  /* the state has not ST25DV_STATE_BYTES */
#define ST25DV_REFUSED_OUT_OF_RANGE 4u   /* the state's bytes are no state, or one that breaks a range; of a rack: one tag's */
#define ST25DV_REFUSED_RACK_SIZE 5u      /* the rack has no tag, or more than ST25DV_RACK_TAGS */
#define ST25DV_REFUSED_NO_SUCH_TAG 6u    /* the rack has no tag of this number, and the signal goes to one tag */
#define ST25DV_REFUSED_EQUAL_UIDS 7u     /* two tags of the rack have the same UID */
#define ST25DV_REFUSED_UID_LENGTH 14u    /* the UID has not ST25DV_UID_BYTES */

/* ---- answers */
#define ST25DV_NONE 0x100u
#define ST25DV_ACK 0x101u
#define ST25DV_NOACK 0x102u
#define ST25DV_SILENCE 0x103u /* no reply to a frame or an end-of-frame */
#define ST25DV_BYTE 0x200u    /* + the byte fetched, 0 to 255 */
#define ST25DV_SLOT 0x400u    /* of a search: + the first slot in which two tags answer, 0 to 15; ST25DV_NONE if there is none */
#define ST25DV_REPLY 0x1000u  /* + the reply's length, its CRC included; it stands in the reply buffer from place 0 on */

/* ---- rules: what st25dv_explain adds to ST25DV_NONE, each with its short name. A number stays when rules are added. */
/* an N on a data byte */
#define ST25DV_RULE_LEG_SPOILED 1u /* leg spoiled */
#define ST25DV_RULE_OUTSIDE_MAP 2u /* outside the map */
#define ST25DV_RULE_MAILBOX_MODE_ON 3u /* mailbox mode on */
#define ST25DV_RULE_MODE_OFF 4u /* mode off */
#define ST25DV_RULE_MAILBOX_BUSY 5u /* mailbox busy */
#define ST25DV_RULE_MAILBOX_LEG_NOT_FROM_2008 6u /* mailbox leg not from 2008h */
#define ST25DV_RULE_ANOTHER_AREA 7u /* another area */
#define ST25DV_RULE_LOCKED_BLOCK 8u /* locked block */
/* 9 area never writable and 10 configuration locked are of radio writes, whose errors have numbers of their own */
#define ST25DV_RULE_SESSION_NEEDED 11u /* session needed */
#define ST25DV_RULE_REGISTER_READ_ONLY 12u /* register read only */
#define ST25DV_RULE_PASSWORD_CODE 13u /* password code */
#define ST25DV_RULE_ENDA 14u /* ENDA rule */
#define ST25DV_RULE_PAGE_FULL 15u /* page full */
/* any other N */
#define ST25DV_RULE_NO_VCC 16u /* no VCC */
#define ST25DV_RULE_NO_START 17u /* no Start */
#define ST25DV_RULE_READ_LEG 18u /* read leg */
#define ST25DV_RULE_OTHER_SELECT_BYTE 19u /* other select byte */
#define ST25DV_RULE_PROGRAMMING 20u /* programming */
/* a frame that gets no reply, then the errors, then those of a command's row */
#define ST25DV_RULE_FIELD_OFF 21u /* field off */
#define ST25DV_RULE_RF_SLEEP 22u /* RF_MNGT_Dyn b1 */
#define ST25DV_RULE_FRAME_LENGTH 23u /* under 4 or over 270 bytes */
#define ST25DV_RULE_BAD_CRC 24u /* bad CRC */
#define ST25DV_RULE_INVENTORY_FLAG 25u /* inventory flag */
#define ST25DV_RULE_SELECT_AND_ADDRESS 26u /* both select and address */
#define ST25DV_RULE_MAKER 27u /* 02h missing or other */
#define ST25DV_RULE_UID 28u /* UID short or, except in Select, other */
#define ST25DV_RULE_NOT_SELECTED 29u /* select flag when not Selected */
#define ST25DV_RULE_QUIET 30u /* neither flag when Quiet */
#define ST25DV_RULE_NOT_ADDRESSED 31u /* Select or Stay Quiet not addressed */
#define ST25DV_RULE_OWN_SILENCE 32u /* own silence */
#define ST25DV_RULE_SHUT_OUT 33u /* shut out */
#define ST25DV_RULE_UNKNOWN_COMMAND 34u /* 01h (unknown command) */
#define ST25DV_RULE_UNSUPPORTED_FLAGS 35u /* 03h (extension, reserved bit or unsupported option) */
#define ST25DV_RULE_WRONG_LENGTH 36u /* 02h (wrong length) */
#define ST25DV_RULE_NO_SUCH_BLOCK 37u /* 10h (20, 23, 21, 24, 2C: first above 127) */
#define ST25DV_RULE_READ_LEAVES_AREA 38u /* 0Fh (20, 23: leaves area or memory) */
#define ST25DV_RULE_READ_PROTECTED 39u /* 15h (20, 23: protected) */
#define ST25DV_RULE_TOO_MANY_BLOCKS 40u /* 0Fh (24: count-1 above 3) */
#define ST25DV_RULE_WRITE_LEAVES_AREA 41u /* 0Fh-2 (21, 24: leaves area or memory) */
#define ST25DV_RULE_WRITE_FORBIDDEN 42u /* 12h (21, 24: no right or locked) */
#define ST25DV_RULE_NOT_LOCKABLE 43u /* 10h (22: block above 1) */
#define ST25DV_RULE_ALREADY_LOCKED 44u /* 11h (22: already locked) */
#define ST25DV_RULE_NO_SUCH_REGISTER 45u /* 10h (A0, A1: another pointer) */
#define ST25DV_RULE_CONFIGURATION_CLOSED 46u /* 12h (A1: LOCK_CFG or password 0 session closed) */
#define ST25DV_RULE_END_REFUSED 47u /* 0Fh (A1: ENDA) */
#define ST25DV_RULE_NO_SUCH_DYNAMIC_REGISTER 48u /* 10h (AD, AE: another pointer) */
#define ST25DV_RULE_MAILBOX_UNAVAILABLE 49u /* 0Fh (AA: MB_EN 0 or a PUT) */
#define ST25DV_RULE_MAILBOX_DISABLED 50u /* 0Fh (AB, AC: MB_EN is 0) */
#define ST25DV_RULE_PAST_MESSAGE 51u /* 0Fh-2 (AC: past or empty) */
#define ST25DV_RULE_NO_SUCH_PASSWORD 52u /* 10h (B3, B1: n above 3) */
#define ST25DV_RULE_WRONG_PASSWORD 53u /* 0Fh (B3: wrong) */
#define ST25DV_RULE_PASSWORD_SESSION_CLOSED 54u /* 12h (B1: not session n) */

/* ---- places of the state's bytes; a number of two bytes has its low byte first. Flags are 0 or 1. */
#define ST25DV_AT_FIELD 0u          /* flag */
#define ST25DV_AT_RADIO_STATE 1u    /* ST25DV_READY, ST25DV_QUIET or ST25DV_SELECTED */
#define ST25DV_AT_RADIO_SESSION 2u  /* ST25DV_SESSION_NONE or ST25DV_SESSION_PASSWORD_0 to _3 */
#define ST25DV_AT_SLOTS 3u          /* ends-of-frame left to the tag's slot of an inventory, 0 to 15 */
#define ST25DV_AT_VCC 4u            /* flag */
#define ST25DV_AT_I2C_SESSION 5u    /* flag: open */
#define ST25DV_AT_PROGRAMMING 6u    /* flag: under way */
#define ST25DV_AT_COUNTER 7u        /* two bytes: the address counter */
#define ST25DV_AT_BUS 9u            /* ST25DV_BUS_.. */
#define ST25DV_AT_SPACE 10u         /* bus 2 to 5: ST25DV_SPACE_.. (else 0) */
#define ST25DV_AT_TRANSFER_OPEN 11u /* bus 1: flag; this place has a name for each bus that uses it (else 0) */
#define ST25DV_AT_HOST_NOACKED 11u  /* bus 2: flag */
#define ST25DV_AT_SPOILED 11u       /* bus 5: flag */
#define ST25DV_AT_LAST_FETCHED 12u  /* bus 2: flag, the last byte of an RF message was fetched (else 0) */
#define ST25DV_AT_HIGH_ADDRESS 13u  /* bus 4: the high address byte (else 0) */
#define ST25DV_AT_PAGE_COUNT 14u    /* bus 5: two bytes, the page bytes (else 0) */
#define ST25DV_AT_KEPT_RF_MNGT_DYN 16u /* bus 2 to 5, and 1 with its flag: RF_MNGT_Dyn as the transfer was opened (else 0) */
#define ST25DV_AT_RF_MNGT 17u
#define ST25DV_AT_RF_MNGT_DYN 18u
#define ST25DV_AT_RFA1SS 19u
#define ST25DV_AT_ENDA1 20u
#define ST25DV_AT_RFA2SS 21u
#define ST25DV_AT_ENDA2 22u
#define ST25DV_AT_RFA3SS 23u
#define ST25DV_AT_ENDA3 24u
#define ST25DV_AT_RFA4SS 25u
#define ST25DV_AT_I2CSS 26u
#define ST25DV_AT_LOCK_CCFILE 27u
#define ST25DV_AT_MB_MODE 28u
#define ST25DV_AT_LOCK_CFG 29u
#define ST25DV_AT_DSFID 30u
#define ST25DV_AT_AFI 31u
#define ST25DV_AT_MB_EN 32u          /* flag */
#define ST25DV_AT_HOST_PUT 33u       /* flag */
#define ST25DV_AT_RF_PUT 34u         /* flag */
#define ST25DV_AT_HOST_CURRENT 35u   /* flag */
#define ST25DV_AT_RF_CURRENT 36u     /* flag */
#define ST25DV_AT_MESSAGE_LENGTH 37u /* two bytes */
#define ST25DV_AT_I2C_PASSWORD 39u   /* eight bytes, as a password leg sends them */
#define ST25DV_AT_PASSWORD_0 47u     /* eight bytes, as a frame sends them; so for passwords 1 to 3 */
#define ST25DV_AT_PASSWORD_1 55u
#define ST25DV_AT_PASSWORD_2 63u
#define ST25DV_AT_PASSWORD_3 71u
#define ST25DV_AT_UID 79u            /* eight bytes, lowest first */

/* values at ST25DV_AT_RADIO_STATE */
#define ST25DV_READY 0u
#define ST25DV_QUIET 1u
#define ST25DV_SELECTED 2u

/* values at ST25DV_AT_RADIO_SESSION */
#define ST25DV_SESSION_NONE 0u
#define ST25DV_SESSION_PASSWORD_0 1u
#define ST25DV_SESSION_PASSWORD_1 2u
#define ST25DV_SESSION_PASSWORD_2 3u
#define ST25DV_SESSION_PASSWORD_3 4u

/* values at ST25DV_AT_BUS */
#define ST25DV_BUS_IDLE 0u
#define ST25DV_BUS_STARTED 1u
#define ST25DV_BUS_READ_LEG 2u
#define ST25DV_BUS_WRITE_LEG 3u   /* before its address */
#define ST25DV_BUS_LOW_ADDRESS 4u /* a write leg after the high address byte */
#define ST25DV_BUS_DATA_LEG 5u    /* a write leg past its address */

/* values at ST25DV_AT_SPACE */
#define ST25DV_SPACE_USER 0u
#define ST25DV_SPACE_SYSTEM 1u

/* ---- functions; a pointer with a length of 0 may be null */

/* The fresh tag with a UID, its lowest byte first. Clears the memory. Answers ST25DV_NONE or a refusal. */
uint32_t st25dv_fresh(const uint8_t *uid, size_t uid_bytes,
                      uint8_t *memory, size_t memory_bytes,
                      uint8_t *state, size_t state_bytes);

/* One signal. The frame, CRC included, is read with ST25DV_FRAME alone; hand in NULL and 0 with the others. */
uint32_t st25dv_step(uint8_t *state, size_t state_bytes,
                     uint8_t *memory, size_t memory_bytes,
                     uint8_t *reply, size_t reply_bytes,
                     uint32_t code, uint32_t value,
                     const uint8_t *frame, size_t frame_bytes);

/* Which rule explains the answer that st25dv_step would give to the same arguments: asked before it, and changes no
 * byte. Answers the refusal that st25dv_step would answer; ST25DV_NONE where that would give no NoAck, error reply or
 * silence to a frame; else ST25DV_NONE + ST25DV_RULE_.. */
uint32_t st25dv_explain(const uint8_t *state, size_t state_bytes,
                        const uint8_t *memory, size_t memory_bytes,
                        const uint8_t *reply, size_t reply_bytes,
                        uint32_t code, uint32_t value,
                        const uint8_t *frame, size_t frame_bytes);

/* What a rack answers: the number of its answer, and a bit for each tag that replied, bit i for tag i. */
struct st25dv_rack_answer {
    uint32_t answer;
    uint32_t answered;
};

/* One signal to a rack of tags. ST25DV_FIELD, ST25DV_FRAME and ST25DV_END_OF_FRAME go to all of them, every other signal
 * to the tag of number `to`, which is read with those alone. The reply is that of the lowest-numbered tag that has one. */
struct st25dv_rack_answer st25dv_rack_step(uint8_t *states, size_t state_bytes,
                                           uint8_t *memory, size_t memory_bytes,
                                           uint8_t *reply, size_t reply_bytes,
                                           uint32_t tags, uint32_t to, uint32_t code, uint32_t value,
                                           const uint8_t *frame, size_t frame_bytes);

/* The first slot in which two tags answer: gives all tags the frame and, if it is an inventory of sixteen slots, ends of
 * frame, and stops at that slot. The tags really get them. Answers ST25DV_SLOT + the slot, ST25DV_NONE or a refusal. */
uint32_t st25dv_rack_search(uint8_t *states, size_t state_bytes,
                            uint8_t *memory, size_t memory_bytes,
                            uint8_t *reply, size_t reply_bytes,
                            uint32_t tags,
                            const uint8_t *frame, size_t frame_bytes);

/* The CRC of a list of bytes (ISO/IEC 13239). A frame ends in that of the bytes before it, low byte first. */
uint16_t st25dv_crc(const uint8_t *bytes, size_t count);

#ifdef __cplusplus
}
#endif

#endif
