/* A hold-to-lift key over the library: reads a device's events, loses some, loads the table and goes on. bindings/examples/panel.rs is the same in Rust.
 *
 *     tools/library FOLDER
 *     cc -std=c99 -IFOLDER/include examples/c/panel.c FOLDER/lib/libchandrulek.a -o panel && ./panel
 *
 * It needs no device: the events stand below, as read(2) on /dev/input/eventN gives them in type, code and value of struct input_event.
 */
#include <chandrulek.h>
#include <stdio.h>
#include <stdlib.h>

/* Linux's numbers, as <linux/input.h> has them. */
enum { EV_SYN = 0, EV_ABS = 3 };
enum { SYN_REPORT = 0, SYN_DROPPED = 3 };
enum {
    ABS_MT_SLOT = 0x2f,
    ABS_MT_TOUCH_MAJOR = 0x30,
    ABS_MT_TOUCH_MINOR = 0x31,
    ABS_MT_POSITION_X = 0x35,
    ABS_MT_POSITION_Y = 0x36,
    ABS_MT_TRACKING_ID = 0x39,
    ABS_MT_PRESSURE = 0x3a
};

enum { SLOTS = 2, KEY = 0 };

struct event {
    uint16_t type, code;
    int32_t value;
};

/* A finger holds the key and moves; then events are lost, and with them its lift; another finger holds it, and lifts. */
static const struct event events[] = {
    {EV_ABS, ABS_MT_TRACKING_ID, 0}, {EV_ABS, ABS_MT_POSITION_X, 100}, {EV_ABS, ABS_MT_POSITION_Y, 200},
    {EV_ABS, ABS_MT_PRESSURE, 30},   {EV_SYN, SYN_REPORT, 0},
    {EV_ABS, ABS_MT_POSITION_X, 104}, {EV_SYN, SYN_REPORT, 0},
    {EV_SYN, SYN_DROPPED, 0},
    {EV_ABS, ABS_MT_POSITION_Y, 400}, {EV_SYN, SYN_REPORT, 0},
    {EV_ABS, ABS_MT_SLOT, 0}, {EV_ABS, ABS_MT_TRACKING_ID, 2}, {EV_ABS, ABS_MT_PRESSURE, 40}, {EV_SYN, SYN_REPORT, 0},
    {EV_ABS, ABS_MT_TRACKING_ID, -1}, {EV_SYN, SYN_REPORT, 0},
};

/* What EVIOCGMTSLOTS gives after the loss: a request for each code, which has that number of every slot. In the order of an image's row. */
static const struct {
    uint32_t code;
    int32_t values[SLOTS];
} requests[CHANDRULEK_PER_SLOT] = {
    {ABS_MT_TRACKING_ID, {-1, 1}}, {ABS_MT_POSITION_X, {104, 300}}, {ABS_MT_POSITION_Y, {200, 400}},
    {ABS_MT_PRESSURE, {30, 30}},   {ABS_MT_TOUCH_MAJOR, {0, 0}},    {ABS_MT_TOUCH_MINOR, {0, 0}},
};
/* And EVIOCGABS of ABS_MT_SLOT. */
static const size_t current = 1;

/* What is refused leaves the state as it was, so a host that does not look would go on with an old table. */
static void check(const char *call, uint32_t refusal)
{
    if (refusal != CHANDRULEK_ACCEPTED) {
        fprintf(stderr, "panel: %s: refused %u\n", call, (unsigned)refusal);
        exit(1);
    }
}

static void put_record(uint8_t record[CHANDRULEK_RECORD_BYTES], struct event e)
{
    uint32_t value = (uint32_t)e.value;
    int i;

    for (i = 0; i < 2; i++) {
        record[i] = (uint8_t)(e.type >> 8 * i);
        record[2 + i] = (uint8_t)(e.code >> 8 * i);
    }
    for (i = 0; i < 4; i++)
        record[4 + i] = (uint8_t)(value >> 8 * i);
}

/* The load may rise only while a finger is known to hold the key: empty and unknown are both no finger to lift by. */
static int32_t tell(const char *when, const uint8_t state[CHANDRULEK_READER_BYTES])
{
    int32_t answer[7];

    check("ask", chandrulek_ask(state, CHANDRULEK_READER_BYTES, KEY, answer));
    if (answer[0] == CHANDRULEK_CONTACT)
        printf("%s: contact %d at %d, %d, pressure %d: lift\n", when, (int)answer[1], (int)answer[2], (int)answer[3], (int)answer[4]);
    else
        printf("%s: %s: do not lift\n", when, answer[0] == CHANDRULEK_EMPTY ? "empty" : "unknown");
    return answer[0];
}

/* Each slot's numbers side by side, which are a row of the image. */
static uint32_t load(uint8_t state[CHANDRULEK_READER_BYTES])
{
    int32_t image[CHANDRULEK_PER_SLOT * SLOTS];
    size_t slot, number;

    for (slot = 0; slot < SLOTS; slot++)
        for (number = 0; number < CHANDRULEK_PER_SLOT; number++)
            image[CHANDRULEK_PER_SLOT * slot + number] = requests[number].values[slot];
    return chandrulek_load(state, CHANDRULEK_READER_BYTES, image, CHANDRULEK_PER_SLOT * SLOTS, current);
}

static void read_event(uint8_t state[CHANDRULEK_READER_BYTES], struct event e)
{
    uint8_t record[CHANDRULEK_RECORD_BYTES];
    uint64_t counts[8];

    put_record(record, e);
    check("run", chandrulek_run(state, CHANDRULEK_READER_BYTES, record, CHANDRULEK_RECORD_BYTES, counts));
    if (e.type != EV_SYN)
        return;
    if (e.code == SYN_DROPPED) {
        tell("dropped", state);
        /* The report that ends the broken events is still to come. */
        printf("load: refused %u\n", (unsigned)load(state));
    } else if (tell("report", state) == CHANDRULEK_UNKNOWN) {
        check("load", load(state));
        tell("loaded", state);
    }
}

int main(void)
{
    static const uint32_t setup[CHANDRULEK_SETUP] = {SLOTS, 4000, 4000, 255, 255, 255};
    uint8_t state[CHANDRULEK_READER_BYTES];
    size_t i;

    check("reader_fresh", chandrulek_reader_fresh(state, sizeof state, setup));
    tell("fresh", state);
    for (i = 0; i < sizeof events / sizeof events[0]; i++)
        read_event(state, events[i]);
    return 0;
}
