/*
 * The firmware of a box that counts leaves and reports each one (docs/PROTOCOL.md, 7.17 and 7.19).
 *
 * It only sends. A whole box also repeats a report where no reply comes within 200 ms (docs/PROTOCOL.md, section 9),
 * and replies to the module (section 8); this one reads nothing.
 */
#include "serial.h"
#include "switches.h"
#include "trogonreed.h"

enum { REPORT = 0x05, REPORT_STATUS = 0x04, REPORT_SIZE = 9 };
enum { FEEDING = 1 << 0, GATHER = 1 << 2 };
enum { SENSOR_FAULT = 1 << 2 };

/* What is counted from; a test begins near the end. */
#ifndef FIRST_VOLUME
#define FIRST_VOLUME 1
#endif
#ifndef FIRST_LEAF
#define FIRST_LEAF 0
#endif

struct status {
    uint8_t bits;
    uint16_t volume;
    uint32_t leaf;
    uint8_t alarms;
};

/* What goes over the serial line next. It is not on the stack, and has room for a report of which each byte is FF. */
static uint8_t line[2 + 2 * (REPORT_SIZE + 7)];

/* The number of the next report: 0 first, and 0 again after 255. */
static uint8_t number;

/* The payload of a report: its first byte, then the status. Numbers are big-endian. */
static void put_report(const struct status *status, uint8_t payload[REPORT_SIZE])
{
    payload[0] = REPORT_STATUS;
    payload[1] = status->bits;
    payload[2] = (uint8_t)(status->volume >> 8);
    payload[3] = (uint8_t)status->volume;
    payload[4] = (uint8_t)(status->leaf >> 24);
    payload[5] = (uint8_t)(status->leaf >> 16);
    payload[6] = (uint8_t)(status->leaf >> 8);
    payload[7] = (uint8_t)status->leaf;
    payload[8] = status->alarms;
}

/*
 * A refusal cannot come: the payload has 9 bytes, and the line has room for each of them stuffed. If it came, nothing
 * would be sent and no number used. The leaf stays counted, so that the next report has it.
 */
static void report(const struct status *status)
{
    uint8_t payload[REPORT_SIZE];
    uint32_t count;

    put_report(status, payload);
    count = trogonreed_write_frame(REPORT, number, 0, payload, sizeof payload, line, sizeof line);
    if (trogonreed_is_refused(count))
        return;
    serial_send(line, count);
    number++;
}

/* Both counts stop at their greatest value: one that began again at 0 would pass for a true one. */
static void count_leaf(struct status *status)
{
    if (status->leaf < UINT32_MAX)
        status->leaf++;
}

static void begin_volume(struct status *status)
{
    if (status->volume < UINT16_MAX)
        status->volume++;
    status->leaf = 0;
}

int main(void)
{
    struct status status = {FEEDING | GATHER, FIRST_VOLUME, FIRST_LEAF, 0};

    serial_start();
    switches_start();
    for (;;) {
        if (switches_take() == NEW_VOLUME) {
            begin_volume(&status); /* the report of its first leaf says so */
            continue;
        }
        count_leaf(&status);
        /* An event that was lost makes every later count doubtful, so that the alarm stays until the next start. */
        if (switches_lost())
            status.alarms |= SENSOR_FAULT;
        report(&status);
    }
}
