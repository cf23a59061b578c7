/* What checks.h says. */
#include <stdio.h>
#include <string.h>

#include "checks.h"

const uint8_t sign_mid = 0x80;
const uint8_t query[7] = { 0x80, 0x7F, 0x07, 0x40, 0x10, 0x00, 0xAA };
const uint8_t reset[7] = { 0x80, 0x7F, 0x07, 0x41, 0x10, 0x00, 0xA9 };

/* What lent bytes hold before a call. */
static const uint8_t filler = 0xA5;

static const char *tested = "";
static unsigned checks = 0;
static unsigned failed = 0;

void tests_of(const char *file)
{
    tested = file;
}

int told(void)
{
    printf("tests/c: %u checks, %u failed\n", checks, failed);
    return failed != 0;
}

void check(int line, const char *what, uint32_t is, uint32_t must)
{
    checks++;
    if (is == must)
        return;
    failed++;
    fprintf(stderr, "%s:%d: %s is %lu, must be %lu\n", tested, line, what, (unsigned long)is, (unsigned long)must);
}

void check_bytes(int line, const char *what, const uint8_t *is, const uint8_t *must, size_t length)
{
    size_t at = 0;
    checks++;
    while (at < length && is[at] == must[at])
        at++;
    if (at == length)
        return;
    failed++;
    fprintf(stderr, "%s:%d: %s: byte %lu is %02X, must be %02X\n", tested, line, what, (unsigned long)at, is[at], must[at]);
}

void check_filled(int line, const char *what, const uint8_t *is, size_t length)
{
    uint8_t must[256];
    memset(must, filler, sizeof must);
    check_bytes(line, what, is, must, length);
}

void fill(uint8_t *bytes, size_t length)
{
    memset(bytes, filler, length);
}

uint32_t yes(uint32_t value)
{
    return value * 256;
}

uint32_t no(uint32_t number, uint32_t place)
{
    return place * 256 + number;
}

void all_refuse(int line, const uint8_t *record, size_t length, uint32_t number)
{
    uint8_t image[YD_IMAGE_SIZE + 1];
    uint8_t lent[YD_RECEIVE_ANSWER_SIZE];
    memcpy(image, record, length);
    fill(lent, sizeof lent);
    check(line, "yd_reset", yd_reset(image, length), number);
    check(line, "yd_receive", yd_receive(image, length, sign_mid, query, sizeof query, lent, sizeof lent), number);
    check(line, "yd_receive", yd_receive(image, length, sign_mid, reset, sizeof reset, lent, sizeof lent), number);
    check(line, "yd_receive", yd_receive(image, length, sign_mid, query, 0, lent, 0), number);
    check(line, "yd_step", yd_step(image, length, lent, sizeof lent), number);
    check(line, "yd_step", yd_step(image, length, lent, 0), number);
    check(line, "yd_reply", yd_reply(image, length, sign_mid, YD_AUX_FLOAT, lent, sizeof lent), number);
    check(line, "yd_reply", yd_reply(image, length, sign_mid, YD_AUX_FLOAT, lent, 0), number);
    check(line, "yd_copy_body", yd_copy_body(image, length, lent, sizeof lent), number);
    check(line, "yd_copy_body", yd_copy_body(image, length, lent, 0), number);
    check_bytes(line, "image", image, record, length);
    check_filled(line, "lent bytes", lent, sizeof lent);
}

void takes(int line, uint8_t *image, const uint8_t *bytes, size_t length, uint32_t outcome, uint32_t number, uint32_t place, const char *body)
{
    uint8_t answer[YD_RECEIVE_ANSWER_SIZE + 4];
    uint8_t must[YD_BODY_SIZE];
    struct yd_receive_answer is;
    memset(must, 0, sizeof must);
    memcpy(must, body, strlen(body));
    fill(answer, sizeof answer);
    check(line, "yd_receive", yd_receive(image, YD_IMAGE_SIZE, sign_mid, bytes, length, answer, sizeof answer), 0);
    yd_get_receive(answer, &is);
    check(line, "outcome", is.outcome, outcome);
    check(line, "no", is.no, number);
    check(line, "place", is.place, place);
    check(line, "length", is.length, (uint32_t)strlen(body));
    check_bytes(line, "body", is.body, must, sizeof must);
    check_bytes(line, "body in the answer", answer + YD_RECEIVE_BODY_OFFSET, must, sizeof must);
    check_filled(line, "rest of the answer", answer + YD_RECEIVE_ANSWER_SIZE, 4);
}

void refuses(int line, uint8_t *image, const uint8_t *bytes, size_t length, uint32_t number)
{
    uint8_t answer[YD_RECEIVE_ANSWER_SIZE];
    uint8_t before[YD_IMAGE_SIZE];
    memcpy(before, image, sizeof before);
    fill(answer, sizeof answer);
    check(line, "yd_receive", yd_receive(image, YD_IMAGE_SIZE, sign_mid, bytes, length, answer, sizeof answer), number);
    check_bytes(line, "image", image, before, sizeof before);
    check_filled(line, "answer", answer, sizeof answer);
}
