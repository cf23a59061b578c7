/* Two lines on one sign, from power-on to the last step: both are forecast beforehand, the second from the settings that the first leaves.
 * Each is written and delivered, its program is stepped, and each step is printed. Every result is tested. */
#include <stdio.h>
#include <stdlib.h>

#include "yurodekapi.h"

enum { MID = 0x80 };

/* A line as dispatch sends it: its transmission ID and its body. */
struct line {
    uint8_t id;
    const uint8_t *body;
    size_t length;
};

/* Two passes of a scrolled text, the pace raised after the first; then a text that scrolls at that pace. */
static const uint8_t hi[] = { '^', 'L', '2', '^', 'S', 'H', 'I', '^', 'P', '2', '0', '^', 'E' };
static const uint8_t bye[] = { '^', 'S', 'B', 'Y', 'E' };
static const struct line first = { 5, hi, sizeof hi };
static const struct line second = { 6, bye, sizeof bye };

static const char *const kinds[] = { "Idle", "II", "IA", "IB", "S", "L", "E", "F", "R", "XS", "XF", "P", "=", "W", "XD", "XB", "Y" };
static const char *const outcomes[] = { "nothing", "a query", "a reset", "a repeat", "stored", "released" };

/* The value of a result that must have this number for no. Any other ends the program. */
static uint32_t expect(const char *call, uint32_t no, uint32_t result)
{
    if (yd_no(result) != no) {
        fprintf(stderr, "%s: no %u with value %u, where no %u was expected\n", call, yd_no(result), yd_value(result), no);
        exit(1);
    }
    return yd_value(result);
}

/* What dispatch is told beforehand. */
static struct yd_forecast_answer forecast(const struct line *line, uint8_t pace, uint8_t scan_setting)
{
    uint8_t answer[YD_FORECAST_ANSWER_SIZE];
    struct yd_forecast_answer f;
    expect("yd_forecast", YD_YES, yd_forecast(line->body, line->length, pace, scan_setting, answer, sizeof answer));
    yd_get_forecast(answer, &f);
    printf("forecast of %u from pace %u and scan setting %u: steps %u, scans %u, ms %u, leaves %u and %u\n", line->id, pace, scan_setting,
           f.steps, f.scans, f.ms, f.pace, f.scan_setting);
    return f;
}

/* One packet given to the sign. It must be taken, or refused with this number. */
static void deliver(uint8_t *image, const uint8_t *packet, size_t length, uint32_t no)
{
    uint8_t answer[YD_RECEIVE_ANSWER_SIZE];
    struct yd_receive_answer r;
    expect("yd_receive", no, yd_receive(image, YD_IMAGE_SIZE, MID, packet, length, answer, sizeof answer));
    if (no != YD_YES) {
        printf("packet of %zu bytes: no %u\n", length, no);
        return;
    }
    yd_get_receive(answer, &r);
    printf("packet of %zu bytes: %s, body of %u bytes, no %u\n", length, outcomes[r.outcome], r.length, r.no);
}

/* All packets of a line, each as long as its third byte says. */
static void deliver_line(uint8_t *image, const struct line *line, uint32_t no)
{
    uint8_t out[YD_TRANSMISSION_SIZE];
    uint32_t length = expect("yd_write_transmission", YD_YES,
                             yd_write_transmission(MID, line->id, line->body, line->length, out, sizeof out));
    size_t at = 0;
    printf("transmission %u: %u bytes\n", line->id, length);
    while (at < length) {
        deliver(image, out + at, out[at + 2], no);
        at += out[at + 2];
    }
}

/* The reply to a query, byte by byte; the AUX pin floats. */
static void tell_reply(const uint8_t *image)
{
    uint8_t reply[YD_REPLY_SIZE];
    uint32_t length = expect("yd_reply", YD_YES, yd_reply(image, YD_IMAGE_SIZE, MID, YD_AUX_FLOAT, reply, sizeof reply));
    printf("reply:");
    for (size_t i = 0; i < length; i++)
        printf(" %02X", reply[i]);
    printf("\n");
}

static void step(uint8_t *image)
{
    uint8_t answer[YD_STEP_ANSWER_SIZE];
    struct yd_step_answer s;
    expect("yd_step", YD_YES, yd_step(image, YD_IMAGE_SIZE, answer, sizeof answer));
    yd_get_step(answer, &s);
    printf("step: %s, number %u, text at %u of %u bytes, column %u, scans %u, ms %u\n", kinds[s.kind], s.number, s.text_place, s.text_length,
           s.column, s.scans, s.ms);
}

int main(void)
{
    uint8_t image[YD_IMAGE_SIZE];
    uint32_t version = expect("yd_version", YD_YES, yd_version());
    if (version != YD_VERSION) {
        fprintf(stderr, "the archive's version is %u, the header's %u\n", version, YD_VERSION);
        return 1;
    }
    expect("yd_power_on", YD_YES, yd_power_on(image, sizeof image));
    struct yd_forecast_answer left = forecast(&first, image[YD_AT_PACE], image[YD_AT_SCANS]);
    forecast(&second, left.pace, left.scan_setting);

    deliver_line(image, &first, YD_YES);
    tell_reply(image);
    step(image);
    printf("too early:\n");
    deliver_line(image, &second, YD_NO_BUSY);
    while (yd_is_busy(image))
        step(image);
    tell_reply(image);
    printf("a late copy:\n");
    deliver_line(image, &first, YD_YES);
    step(image);

    printf("the next line:\n");
    deliver_line(image, &second, YD_YES);
    printf("an even later copy of the line before:\n");
    deliver_line(image, &first, YD_YES);
    tell_reply(image);
    while (yd_is_busy(image))
        step(image);
    return 0;
}
