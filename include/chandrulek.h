/* chandrulek.h: the proved library for C hosts: touch panels by type B events, the pod, the force stick and the shift recorder.
 * tools/library FOLDER makes the archive to link with, libchandrulek.a, for x86-64. examples/c/panel.c is a whole program.
 *
 * A STATE is bytes that the host lends: CHANDRULEK_..._BYTES of them, at any address, saved, copied and sent as the host likes.
 * docs/LAYOUT.md says what each byte is. Any bytes may be handed in: those that are no state are refused by 2.
 * Nothing traps, no byte is read or written outside what is lent, and no call keeps a pointer or has a memory of its own,
 * so two threads may call at once with states and buffers of their own.
 *
 * A CALL answers 0, or the number of its refusal: the first that fits, in the order that is given with the call.
 * A refusal leaves every byte of the state and of each buffer as it was. `answer` is always set: with a refusal to zeros,
 * but where the call's own words say otherwise, as the bytes that are needed with refusal 5.
 *
 * A SLICE is a pointer and how many elements it points to. No pointer is null, not even of a slice of 0 elements, and an array
 * has as many elements as its declaration says. What a call may change shares no byte with another argument of the call.
 * A C compiler cannot check these for you.
 *
 * NO EVENT IS NOT NO FINGER. Where the device says SYN_DROPPED, hand the record on as it is: the reader then answers
 * CHANDRULEK_UNKNOWN for every slot until a full table is loaded. A host that lost records itself hands in SYN_DROPPED and SYN_REPORT.
 */
#ifndef CHANDRULEK_H
#define CHANDRULEK_H

#include <stddef.h>
#include <stdint.h>

#ifdef __cplusplus
extern "C" {
#endif

/* The version of the states' layout: byte 0 of every state. */
#define CHANDRULEK_VERSION 1

/* Sizes, in bytes but where it says otherwise. */
#define CHANDRULEK_RECORDS 32         /* slots of a table */
#define CHANDRULEK_PER_SLOT 6         /* numbers of a slot in a frame or an image */
#define CHANDRULEK_SETUP 6            /* numbers of a setup */
#define CHANDRULEK_RECORD_BYTES 8     /* an event: type and code of 16 bits, value of 32 bits, little-endian; Linux's time before it is cut off */
#define CHANDRULEK_MOST_EVENTS 228    /* events of one frame: at most 224 for the contacts and the report, and 4 for an old display */
#define CHANDRULEK_MOST_BYTES 1824    /* a buffer with so many from the position on has room for any frame */
#define CHANDRULEK_WRITER_BYTES 848
#define CHANDRULEK_READER_BYTES 1568
#define CHANDRULEK_LINE_BYTES 1576
#define CHANDRULEK_POD_BYTES 12
#define CHANDRULEK_BLOCK_BYTES 512    /* a block of a recording */
#define CHANDRULEK_BLOCK_EVENTS 62    /* events that it holds at most */
#define CHANDRULEK_FORCE_BYTES 12     /* a written packet of the force stick */
#define CHANDRULEK_COMMAND_BYTES 7    /* the longest command to the pod */

/* What a call answers; docs/RULES.md, section 5, has the remedies. */
enum chandrulek_refusal {
    CHANDRULEK_ACCEPTED = 0,
    CHANDRULEK_SETUP_REFUSED = 1,     /* a number of the setup is out of its range */
    CHANDRULEK_STATE_REFUSED = 2,     /* the bytes are no state of this kind and version, or of another length; begin with a fresh one */
    CHANDRULEK_FRAME_REFUSED = 3,     /* a frame that has not six numbers for each slot */
    CHANDRULEK_VALUE_REFUSED = 4,     /* a number that is out of its range */
    CHANDRULEK_NO_ROOM = 5,           /* the buffer is too short from that position on; the answer says how many bytes are needed there */
    CHANDRULEK_RAGGED = 6,            /* bytes that are no whole records */
    CHANDRULEK_NOT_STALE = 7,         /* a load where none is due */
    CHANDRULEK_IMAGE_REFUSED = 8,     /* a table to load that is none */
    CHANDRULEK_TOO_MANY = 9,          /* more contacts of an anonymous panel than 5, or than n */
    CHANDRULEK_UNFINISHED = 10,       /* an anonymous frame that is not whole */
    CHANDRULEK_COMMAND_REFUSED = 11   /* a command's number out of its range */
};

/* ---- the writer: a panel's frames to type B events */

/* Makes a fresh writer. setup: n (1 to 32), largest x and y (1 to 32767 each), largest pressure, major and minor (1 to 255 each).
 * pointer: 1 to tell an old display too (BTN_TOUCH, a tool, X and Y), else 0.
 * Refusals: 1; 2 where state_len is not CHANDRULEK_WRITER_BYTES or pointer is over 1. */
uint32_t chandrulek_writer_fresh(uint8_t *state, size_t state_len, const uint32_t setup[6], uint32_t pointer);

/* Writes the events of what a frame changes into buf from position at on. frame: for each of the n slots its kind (0 no contact,
 * 1 a contact, the same one if there was one, 2 a new contact), x, y, pressure, major, minor: frame_len is 6 * n.
 * A frame that changes nothing writes nothing.
 * answer: events written, of 8 bytes each; bytes needed, with refusal 5 alone; the changed slots, bit s for slot s.
 * Refusals: 2, 3, 4, 5. A refused frame sends nothing, so it can hide a lift: stop what the contacts hold until a frame is accepted. */
uint32_t chandrulek_write(uint8_t *state, size_t state_len, const int32_t *frame, size_t frame_len,
                          uint8_t *buf, size_t buf_len, size_t at, uint64_t answer[3]);

/* The same for an anonymous panel's frame. records: type A events (x, y and pressure of each contact and SYN_MT_REPORT; at the end SYN_REPORT).
 * The contacts are paired with those that are down: as many as possible, and as near as possible.
 * Refusals: 2, 6, 9, 10, 4, 5. */
uint32_t chandrulek_write_anonymous(uint8_t *state, size_t state_len, const uint8_t *records, size_t records_len,
                                    uint8_t *buf, size_t buf_len, size_t at, uint64_t answer[3]);

/* ---- the reader: type B events to a contact table */

/* Makes a fresh reader of the panel that has this setup (numbers as chandrulek_writer_fresh has them): every slot is empty. That is so only
 * behind a sender that is fresh too; on a panel that may be touched already hand in SYN_DROPPED and SYN_REPORT, and load.
 * Refusals: 1; 2 where state_len is not CHANDRULEK_READER_BYTES. */
uint32_t chandrulek_reader_fresh(uint8_t *state, size_t state_len, const uint32_t setup[6]);

/* Reads whole records. answer: tables shown (good reports); records skipped for an unknown type; for an unknown code; bad ones; ignored ones
 * (after a loss); 1 if a record was skipped, else 0; the type and the code of the first skipped one.
 * Refusals: 2; 6 where records_len is no multiple of 8. A bad value and a loss are no refusals: every slot is unknown from then on. */
uint32_t chandrulek_run(uint8_t *state, size_t state_len, const uint8_t *records, size_t records_len, uint64_t answer[8]);

/* Loads a full table after a loss. image: for each of the n slots id (-1 for none), x, y, pressure, major, minor: image_len is 6 * n.
 * Linux's EVIOCGMTSLOTS tells these one code at a time, all slots side by side. current: the slot that the next event is for (EVIOCGABS of
 * ABS_MT_SLOT). Both are the panel's at the moment after the last record that was handed in.
 * Refusals: 2; 7 where the reader follows, or where SYN_DROPPED came and its SYN_REPORT did not yet; 8. */
uint32_t chandrulek_load(uint8_t *state, size_t state_len, const int32_t *image, size_t image_len, size_t current);

/* What chandrulek_ask and chandrulek_line_ask answer in answer[0]. */
enum chandrulek_asked {
    CHANDRULEK_UNKNOWN = 0,           /* track is lost: there may be a finger, and there may be none */
    CHANDRULEK_EMPTY = 1,             /* no contact */
    CHANDRULEK_CONTACT = 2,           /* a contact: its id, x, y, pressure, major and minor follow; else zeros do */
    CHANDRULEK_NO_SUCH_SLOT = 3       /* n or more */
};

/* Asks for a slot, as of the last report. Refusal: 2, and then answer[0] is CHANDRULEK_UNKNOWN. */
uint32_t chandrulek_ask(const uint8_t *state, size_t state_len, size_t slot, int32_t answer[7]);

/* ---- the line's reader: the same for bytes that come in pieces of any length */

/* As chandrulek_reader_fresh. Refusals: 1; 2 where state_len is not CHANDRULEK_LINE_BYTES. */
uint32_t chandrulek_line_fresh(uint8_t *state, size_t state_len, const uint32_t setup[6]);

/* Takes one piece, also an empty one. What is left over of a record, up to seven bytes, is held for the next piece. answer as chandrulek_run's.
 * Refusal: 2. A host that lost bytes of the line must not hand in SYN_DROPPED behind a record that is cut: it makes a fresh state, hands in
 * SYN_DROPPED and SYN_REPORT, loads, and goes on where a record begins. */
uint32_t chandrulek_take(uint8_t *state, size_t state_len, const uint8_t *piece, size_t piece_len, uint64_t answer[8]);

/* As chandrulek_load; the bytes that are held stay. Refusals: 2, 7, 8. */
uint32_t chandrulek_line_load(uint8_t *state, size_t state_len, const int32_t *image, size_t image_len, size_t current);

/* As chandrulek_ask; the bytes that are held are no event yet. Refusal: 2. */
uint32_t chandrulek_line_ask(const uint8_t *state, size_t state_len, size_t slot, int32_t answer[7]);

/* ---- the pod */

/* A pod that was just switched on or reset. Refusal: 2 where state_len is not CHANDRULEK_POD_BYTES. */
uint32_t chandrulek_pod_fresh(uint8_t *state, size_t state_len);

/* What chandrulek_pod_step answers in answer[0]; its numbers follow in the order given here, and then zeros. A trigger or a button is 1 if pressed. */
enum chandrulek_report {
    CHANDRULEK_MORE = 0,              /* the report is not whole yet */
    CHANDRULEK_SELF_TEST_PASSED = 1,
    CHANDRULEK_KEY_DOWN = 2,          /* key */
    CHANDRULEK_KEY_UP = 3,            /* key */
    CHANDRULEK_ABSOLUTE = 4,          /* flags, x, y */
    CHANDRULEK_RELATIVE = 5,          /* left button, right button, dx, dy */
    CHANDRULEK_BOTH_STICKS = 6,       /* trigger and position of stick 0, and of stick 1 */
    CHANDRULEK_ONE_STICK = 7,         /* which one (0 or 1), trigger, position */
    CHANDRULEK_TIME_OF_DAY = 8,       /* year, month, day, hour, minute, second: a byte of two decimal digits each, as on the line: fifty-nine is 0x59 */
    CHANDRULEK_BAD_BYTE = 9,
    CHANDRULEK_BAD_REPORT = 10
};

/* One byte from the pod. Refusal: 2. */
uint32_t chandrulek_pod_step(uint8_t *state, size_t state_len, uint8_t byte, int32_t answer[7]);

/* The commands to the pod, as command[0]; their numbers follow. In brackets how many bytes each has. */
enum chandrulek_command {
    CHANDRULEK_RESET = 0,             /* [2] */
    CHANDRULEK_BUTTON_ACTION = 1,     /* [2] action, 0 to 4 */
    CHANDRULEK_RELATIVE_MODE = 2,     /* [1] */
    CHANDRULEK_ABSOLUTE_MODE = 3,     /* [5] largest x, largest y: 0 to 65535 each */
    CHANDRULEK_THRESHOLD = 4,         /* [3] x, y: 1 to 255 each */
    CHANDRULEK_SCALE = 5,             /* [3] x, y: 1 to 255 each */
    CHANDRULEK_INTERROGATE = 6,       /* [1] */
    CHANDRULEK_LOAD_POSITION = 7,     /* [6] x, y: 0 to 65535 each */
    CHANDRULEK_SET_CLOCK = 8,         /* [7] year, month, day, hour, minute, second: a byte of two decimal digits each */
    CHANDRULEK_ASK_CLOCK = 9          /* [1] */
};

/* Writes a command into buf from position at on; a reset puts the pod's state back to the fresh one. Numbers past a command's own are not looked at.
 * answer: bytes needed, with refusal 5 alone.
 * Refusals: 2; 11 where command[0] is over 9 or a number is too wide for its bytes; 5; 11 where a number is out of its range. */
uint32_t chandrulek_command_write(uint8_t *pod, size_t pod_len, const uint32_t command[7],
                                  uint8_t *buf, size_t buf_len, size_t at, uint64_t answer[1]);

/* What chandrulek_command_read answers in answer[0]. */
enum chandrulek_command_read {
    CHANDRULEK_COMMAND_NOTHING = 0,   /* no byte there */
    CHANDRULEK_COMMAND_FOUND = 1,     /* answer[1] is the command, its numbers follow; else zeros do */
    CHANDRULEK_COMMAND_LOST = 2,      /* 0x80 and another byte than 0x01: the pod ignores both */
    CHANDRULEK_COMMAND_NOT_FOR_US = 3, /* a byte that begins no command */
    CHANDRULEK_COMMAND_BAD = 4,       /* a whole command with a number out of its range: refusal 11 */
    CHANDRULEK_COMMAND_UNFINISHED = 5 /* the bytes end inside a command */
};

/* Reads the command that stands at a position. Answers the position where reading goes on: that of the first byte of an unfinished one. */
size_t chandrulek_command_read(const uint8_t *bytes, size_t bytes_len, size_t at, uint32_t answer[8]);

/* ---- the force stick */

/* Writes a report's packet of 12 bytes into buf from position at on. report: x, y (-32768 to 32767 each), throttle (0 to 255), buttons (0 to 4095),
 * hat (0 to 15), rudder (-128 to 127). answer: bytes needed, with refusal 5 alone. Refusals: 4, 5. */
uint32_t chandrulek_force_write(const int32_t report[6], uint8_t *buf, size_t buf_len, size_t at, uint64_t answer[1]);

/* What chandrulek_force_read answers in answer[0]. */
enum chandrulek_force_read {
    CHANDRULEK_FORCE_NOTHING = 0,     /* no 0x2B from there on */
    CHANDRULEK_FORCE_REPORT = 1,      /* x, y, throttle, buttons, hat, rudder follow */
    CHANDRULEK_FORCE_NOT_FOR_US = 2,  /* another packet; its OP and LEN follow */
    CHANDRULEK_FORCE_LENGTH_OVER = 3, /* LEN is over 16 */
    CHANDRULEK_FORCE_WRONG_CHECK = 4,
    CHANDRULEK_FORCE_UNFINISHED = 5   /* the bytes end inside a packet */
};

/* Reads the packet at the first 0x2B from a position on. Answers the position where reading goes on: that of the 0x2B of an unfinished one. */
size_t chandrulek_force_read(const uint8_t *bytes, size_t bytes_len, size_t at, int32_t answer[7]);

/* ---- the shift recorder */

/* Makes one block of 1 to 62 events, which are records of 8 bytes. Refusals: 2 where block_len is not CHANDRULEK_BLOCK_BYTES; 4 where number is 0, or there is
 * no event, or there are more bytes than 62 events have; 6. */
uint32_t chandrulek_make_block(uint32_t number, const uint8_t *events, size_t events_len, uint8_t *block, size_t block_len);

/* Lays the blocks of events, numbered from number on, into buf from position at on: 62 events each, and the rest in the last; no events make no block.
 * answer: blocks; the number of the next one, 0 after 4294967295 and, with a refusal, number itself; bytes needed, with refusal 5 alone.
 * Refusals: 4 where number is 0 or a block would be numbered past 4294967295; 5; 6. */
uint32_t chandrulek_lay_blocks(uint32_t number, const uint8_t *events, size_t events_len,
                               uint8_t *buf, size_t buf_len, size_t at, uint64_t answer[3]);

/* What chandrulek_read_block answers: these are no numbers of enum chandrulek_refusal. The first that fits, in rising order. */
enum chandrulek_block {
    CHANDRULEK_BLOCK_GOOD = 0,
    CHANDRULEK_BLOCK_WRONG_CHECK = 1, /* also bytes that are not 512 */
    CHANDRULEK_BLOCK_WRONG_NUMBER = 2,
    CHANDRULEK_BLOCK_COUNT_OVER = 3,  /* more than 62 events */
    CHANDRULEK_BLOCK_NOT_ZERO = 4     /* a byte that nothing is kept in is not 0 */
};

/* Reads one block where the block of that number is expected. answer: where its events begin in the block, and how many they are; zeros where it is refused.
 * A refused block is a loss: hand the reader SYN_DROPPED and SYN_REPORT in its place. */
uint32_t chandrulek_read_block(const uint8_t *block, size_t block_len, uint32_t number, uint64_t answer[2]);

#ifdef __cplusplus
}
#endif

#endif
