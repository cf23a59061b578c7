/* The completed IDs (C-23): which of them a sign remembers, that a packet of each is a Repeat, and which lists of them are sound.
 * Packets, replies and images are written here by hand. */
#include <string.h>

#include "checks.h"

/* An image in two parts: the list, which is the number of completed IDs and then the four, and the rest after it. */
enum { LIST = 5, REST = 101 };

#define ZEROS_8 0, 0, 0, 0, 0, 0, 0, 0
#define ZEROS_11 ZEROS_8, 0, 0, 0
#define ZEROS_13 ZEROS_11, 0, 0
#define ZEROS_14 ZEROS_13, 0
#define ZEROS_56 ZEROS_14, ZEROS_14, ZEROS_14, ZEROS_14
#define SETTINGS 4, 1, 0, 16, 0

/* The rest of a Ready sign; of one that runs ^W5; of one that collects number 12, with the second of two packets; of one that runs them. */
static const uint8_t ready[REST] = { ZEROS_8, ZEROS_14, ZEROS_14, ZEROS_56, 0, 0, 0, 0, SETTINGS };
static const uint8_t waiting[REST] = { ZEROS_8, '^', 'W', '5', ZEROS_11, ZEROS_14, ZEROS_56, 3, 0, 0, 0, SETTINGS };
static const uint8_t collecting[REST] = { 12, 2, 0, 1, 0, 0, 0, 0, ZEROS_14, 'L', ZEROS_13, ZEROS_56, 0, 0, 0, 0, SETTINGS };
static const uint8_t showing[REST] = { ZEROS_8, '^', 'I', 'I', 'A', 'B', 'C', 'D', 'E', 'F', 'G', 'H', 'I', 'J', 'K',
                                       'L', ZEROS_13, ZEROS_56, 15, 0, 0, 0, SETTINGS };
#define BODY_15 "^IIABCDEFGHIJKL"

/* Packets of a number, each way that the sign of the tests can be given one. */
struct number {
    uint8_t id;
    uint8_t wait[10];   /* ^W5 in one packet */
    uint8_t unknown[9]; /* ^Q in one packet, which is no program: 22 at 0 */
    uint8_t first[21];  /* ^IIABCDEFGHIJK, the first of two packets */
    uint8_t second[8];  /* L, the second of two packets */
};

static const struct number zero = {
    0,
    { 0x80, 0x7F, 0x0A, 0x00, 0x10, 0x5E, 0x57, 0x35, 0x00, 0xFD },
    { 0x80, 0x7F, 0x09, 0x00, 0x10, 0x5E, 0x51, 0x00, 0x39 },
    { 0x80, 0x7F, 0x15, 0x00, 0x20, 0x5E, 0x49, 0x49, 0x41, 0x42, 0x43, 0x44, 0x45, 0x46, 0x47, 0x48, 0x49, 0x4A, 0x4B, 0x00, 0xDA },
    { 0x80, 0x7F, 0x08, 0x00, 0x21, 0x4C, 0x00, 0x8C },
};
static const struct number one = {
    1,
    { 0x80, 0x7F, 0x0A, 0x01, 0x10, 0x5E, 0x57, 0x35, 0x00, 0xFC },
    { 0x80, 0x7F, 0x09, 0x01, 0x10, 0x5E, 0x51, 0x00, 0x38 },
    { 0x80, 0x7F, 0x15, 0x01, 0x20, 0x5E, 0x49, 0x49, 0x41, 0x42, 0x43, 0x44, 0x45, 0x46, 0x47, 0x48, 0x49, 0x4A, 0x4B, 0x00, 0xD9 },
    { 0x80, 0x7F, 0x08, 0x01, 0x21, 0x4C, 0x00, 0x8B },
};
static const struct number two = {
    2,
    { 0x80, 0x7F, 0x0A, 0x02, 0x10, 0x5E, 0x57, 0x35, 0x00, 0xFB },
    { 0x80, 0x7F, 0x09, 0x02, 0x10, 0x5E, 0x51, 0x00, 0x37 },
    { 0x80, 0x7F, 0x15, 0x02, 0x20, 0x5E, 0x49, 0x49, 0x41, 0x42, 0x43, 0x44, 0x45, 0x46, 0x47, 0x48, 0x49, 0x4A, 0x4B, 0x00, 0xD8 },
    { 0x80, 0x7F, 0x08, 0x02, 0x21, 0x4C, 0x00, 0x8A },
};
static const struct number three = {
    3,
    { 0x80, 0x7F, 0x0A, 0x03, 0x10, 0x5E, 0x57, 0x35, 0x00, 0xFA },
    { 0x80, 0x7F, 0x09, 0x03, 0x10, 0x5E, 0x51, 0x00, 0x36 },
    { 0x80, 0x7F, 0x15, 0x03, 0x20, 0x5E, 0x49, 0x49, 0x41, 0x42, 0x43, 0x44, 0x45, 0x46, 0x47, 0x48, 0x49, 0x4A, 0x4B, 0x00, 0xD7 },
    { 0x80, 0x7F, 0x08, 0x03, 0x21, 0x4C, 0x00, 0x89 },
};
static const struct number four = {
    4,
    { 0x80, 0x7F, 0x0A, 0x04, 0x10, 0x5E, 0x57, 0x35, 0x00, 0xF9 },
    { 0x80, 0x7F, 0x09, 0x04, 0x10, 0x5E, 0x51, 0x00, 0x35 },
    { 0x80, 0x7F, 0x15, 0x04, 0x20, 0x5E, 0x49, 0x49, 0x41, 0x42, 0x43, 0x44, 0x45, 0x46, 0x47, 0x48, 0x49, 0x4A, 0x4B, 0x00, 0xD6 },
    { 0x80, 0x7F, 0x08, 0x04, 0x21, 0x4C, 0x00, 0x88 },
};
static const struct number five = {
    5,
    { 0x80, 0x7F, 0x0A, 0x05, 0x10, 0x5E, 0x57, 0x35, 0x00, 0xF8 },
    { 0x80, 0x7F, 0x09, 0x05, 0x10, 0x5E, 0x51, 0x00, 0x34 },
    { 0x80, 0x7F, 0x15, 0x05, 0x20, 0x5E, 0x49, 0x49, 0x41, 0x42, 0x43, 0x44, 0x45, 0x46, 0x47, 0x48, 0x49, 0x4A, 0x4B, 0x00, 0xD5 },
    { 0x80, 0x7F, 0x08, 0x05, 0x21, 0x4C, 0x00, 0x87 },
};
static const struct number seven = {
    7,
    { 0x80, 0x7F, 0x0A, 0x07, 0x10, 0x5E, 0x57, 0x35, 0x00, 0xF6 },
    { 0x80, 0x7F, 0x09, 0x07, 0x10, 0x5E, 0x51, 0x00, 0x32 },
    { 0x80, 0x7F, 0x15, 0x07, 0x20, 0x5E, 0x49, 0x49, 0x41, 0x42, 0x43, 0x44, 0x45, 0x46, 0x47, 0x48, 0x49, 0x4A, 0x4B, 0x00, 0xD3 },
    { 0x80, 0x7F, 0x08, 0x07, 0x21, 0x4C, 0x00, 0x85 },
};
static const struct number nine = {
    9,
    { 0x80, 0x7F, 0x0A, 0x09, 0x10, 0x5E, 0x57, 0x35, 0x00, 0xF4 },
    { 0x80, 0x7F, 0x09, 0x09, 0x10, 0x5E, 0x51, 0x00, 0x30 },
    { 0x80, 0x7F, 0x15, 0x09, 0x20, 0x5E, 0x49, 0x49, 0x41, 0x42, 0x43, 0x44, 0x45, 0x46, 0x47, 0x48, 0x49, 0x4A, 0x4B, 0x00, 0xD1 },
    { 0x80, 0x7F, 0x08, 0x09, 0x21, 0x4C, 0x00, 0x83 },
};
static const struct number eleven = {
    11,
    { 0x80, 0x7F, 0x0A, 0x0B, 0x10, 0x5E, 0x57, 0x35, 0x00, 0xF2 },
    { 0x80, 0x7F, 0x09, 0x0B, 0x10, 0x5E, 0x51, 0x00, 0x2E },
    { 0x80, 0x7F, 0x15, 0x0B, 0x20, 0x5E, 0x49, 0x49, 0x41, 0x42, 0x43, 0x44, 0x45, 0x46, 0x47, 0x48, 0x49, 0x4A, 0x4B, 0x00, 0xCF },
    { 0x80, 0x7F, 0x08, 0x0B, 0x21, 0x4C, 0x00, 0x81 },
};
static const struct number twelve = {
    12,
    { 0x80, 0x7F, 0x0A, 0x0C, 0x10, 0x5E, 0x57, 0x35, 0x00, 0xF1 },
    { 0x80, 0x7F, 0x09, 0x0C, 0x10, 0x5E, 0x51, 0x00, 0x2D },
    { 0x80, 0x7F, 0x15, 0x0C, 0x20, 0x5E, 0x49, 0x49, 0x41, 0x42, 0x43, 0x44, 0x45, 0x46, 0x47, 0x48, 0x49, 0x4A, 0x4B, 0x00, 0xCE },
    { 0x80, 0x7F, 0x08, 0x0C, 0x21, 0x4C, 0x00, 0x80 },
};
static const struct number sixty_three = {
    63,
    { 0x80, 0x7F, 0x0A, 0x3F, 0x10, 0x5E, 0x57, 0x35, 0x00, 0xBE },
    { 0x80, 0x7F, 0x09, 0x3F, 0x10, 0x5E, 0x51, 0x00, 0xFA },
    { 0x80, 0x7F, 0x15, 0x3F, 0x20, 0x5E, 0x49, 0x49, 0x41, 0x42, 0x43, 0x44, 0x45, 0x46, 0x47, 0x48, 0x49, 0x4A, 0x4B, 0x00, 0x9B },
    { 0x80, 0x7F, 0x08, 0x3F, 0x21, 0x4C, 0x00, 0x4D },
};

/* The list of a sign that has completed none, and its reply when the AUX pin floats. */
static const uint8_t none[LIST] = { 0, 0, 0, 0, 0 };
static const uint8_t reply_of_none[] = { 0x81, 0x7F, 0x08, 0x41, 0x52, 0x46, 0x00, 0x1F };

/* A number that is completed, the list after it, and the reply when Ready and when Busy. */
struct turn {
    const struct number *number;
    uint8_t list[LIST];
    uint8_t when_ready[YD_REPLY_SIZE];
    uint8_t when_busy[YD_REPLY_SIZE];
};

/* The rules' example, in its order. */
static const struct turn turns[] = {
    { &zero,
      { 1, 0, 0, 0, 0 },
      { 0x81, 0x7F, 0x08, 0x00, 0x52, 0x46, 0x00, 0x60 },
      { 0x81, 0x7F, 0x08, 0x00, 0x42, 0x46, 0x00, 0x70 } },
    { &five,
      { 2, 5, 0, 0, 0 },
      { 0x81, 0x7F, 0x08, 0x05, 0x52, 0x46, 0x00, 0x5B },
      { 0x81, 0x7F, 0x08, 0x05, 0x42, 0x46, 0x00, 0x6B } },
    { &sixty_three,
      { 3, 63, 5, 0, 0 },
      { 0x81, 0x7F, 0x08, 0x3F, 0x52, 0x46, 0x00, 0x21 },
      { 0x81, 0x7F, 0x08, 0x3F, 0x42, 0x46, 0x00, 0x31 } },
    { &seven,
      { 4, 7, 63, 5, 0 },
      { 0x81, 0x7F, 0x08, 0x07, 0x52, 0x46, 0x00, 0x59 },
      { 0x81, 0x7F, 0x08, 0x07, 0x42, 0x46, 0x00, 0x69 } },
    { &nine,
      { 4, 9, 7, 63, 5 },
      { 0x81, 0x7F, 0x08, 0x09, 0x52, 0x46, 0x00, 0x57 },
      { 0x81, 0x7F, 0x08, 0x09, 0x42, 0x46, 0x00, 0x67 } },
    { &eleven,
      { 4, 11, 9, 7, 63 },
      { 0x81, 0x7F, 0x08, 0x0B, 0x52, 0x46, 0x00, 0x55 },
      { 0x81, 0x7F, 0x08, 0x0B, 0x42, 0x46, 0x00, 0x65 } },
};
enum { TURNS = sizeof turns / sizeof turns[0] };

/* The list that they lead to, and the four numbers in it. */
static const uint8_t after_six[LIST] = { 4, 11, 9, 7, 63 };
static const struct number *const kept[] = { &eleven, &nine, &seven, &sixty_three };
enum { KEPT = sizeof kept / sizeof kept[0] };

static void make(uint8_t *image, const uint8_t *list, const uint8_t *rest)
{
    memcpy(image, list, LIST);
    memcpy(image + LIST, rest, REST);
}

/* One check of all bytes of an image. */
static void holds(int line, const uint8_t *image, const uint8_t *list, const uint8_t *rest)
{
    uint8_t must[YD_IMAGE_SIZE];
    make(must, list, rest);
    check_bytes(line, "image", image, must, sizeof must);
}

/* A query is a query and the reply is this one, and neither changes a byte. */
static void tells(int line, uint8_t *image, const uint8_t *reply)
{
    uint8_t before[YD_IMAGE_SIZE];
    uint8_t out[YD_REPLY_SIZE];
    memcpy(before, image, sizeof before);
    takes(line, image, query, sizeof query, YD_DID_QUERY, 0, 0, "");
    check_bytes(line, "image", image, before, sizeof before);
    check(line, "yd_reply", yd_reply(image, YD_IMAGE_SIZE, sign_mid, YD_AUX_FLOAT, out, sizeof out), yes(8));
    check_bytes(line, "reply", out, reply, sizeof out);
    check(line, "yd_last_completed", yd_last_completed(image), reply[3]);
    check_bytes(line, "image", image, before, sizeof before);
}

#define RELEASES_UNKNOWN(number) takes(__LINE__, image, (number).unknown, sizeof(number).unknown, YD_DID_RELEASE, 22, 0, "^Q")

/* Power-on has none, and each body that is no program puts its number in front; the fifth pushes out the first. */
static void turns_without_program(void)
{
    uint8_t image[YD_IMAGE_SIZE];
    size_t i;
    fill(image, sizeof image);
    CHECK(yd_power_on(image, sizeof image), 0);
    holds(__LINE__, image, none, ready);
    tells(__LINE__, image, reply_of_none);
    for (i = 0; i < TURNS; i++) {
        RELEASES_UNKNOWN(*turns[i].number);
        holds(__LINE__, image, turns[i].list, ready);
        tells(__LINE__, image, turns[i].when_ready);
        TAKES(turns[i].number->wait, YD_DID_REPEAT);
        holds(__LINE__, image, turns[i].list, ready);
    }
    CHECK(yd_power_on(image, sizeof image), 0);
    holds(__LINE__, image, none, ready);
}

/* A program does so as soon as it is released, and its end changes nothing of it. */
static void turns_with_program(void)
{
    uint8_t image[YD_IMAGE_SIZE];
    uint8_t answer[YD_STEP_ANSWER_SIZE];
    size_t i;
    make(image, none, ready);
    for (i = 0; i < TURNS; i++) {
        RELEASES(turns[i].number->wait, "^W5");
        holds(__LINE__, image, turns[i].list, waiting);
        tells(__LINE__, image, turns[i].when_busy);
        TAKES(turns[i].number->unknown, YD_DID_REPEAT);
        holds(__LINE__, image, turns[i].list, waiting);
        CHECK(yd_step(image, sizeof image, answer, sizeof answer), 0);
        holds(__LINE__, image, turns[i].list, ready);
        tells(__LINE__, image, turns[i].when_ready);
    }
    RELEASES(zero.wait, "^W5");
    CHECK(yd_power_on(image, sizeof image), 0);
    holds(__LINE__, image, none, ready);
}

/* One packet that is a Repeat and changes no byte of this image. */
static void repeats_packet(int line, const uint8_t *bytes, size_t length, const uint8_t *list, const uint8_t *rest)
{
    uint8_t image[YD_IMAGE_SIZE];
    make(image, list, rest);
    takes(line, image, bytes, length, YD_DID_REPEAT, 0, 0, "");
    holds(line, image, list, rest);
}

/* A number of which every packet is a Repeat: the sign is Ready, it collects number 12, and it is Busy with either body. */
static void repeats(int line, const struct number *number, const uint8_t *list)
{
    static const uint8_t *const rests[] = { ready, collecting, waiting, showing };
    size_t i;
    for (i = 0; i < sizeof rests / sizeof rests[0]; i++) {
        repeats_packet(line, number->wait, sizeof number->wait, list, rests[i]);
        repeats_packet(line, number->unknown, sizeof number->unknown, list, rests[i]);
        repeats_packet(line, number->first, sizeof number->first, list, rests[i]);
        repeats_packet(line, number->second, sizeof number->second, list, rests[i]);
    }
}

/* A number that a Ready sign begins to collect, and drops number 12 for if that was collected. */
static void begins(int line, const struct number *number, const uint8_t *list)
{
    uint8_t image[YD_IMAGE_SIZE];
    uint8_t must[REST];
    memcpy(must, collecting, sizeof must);
    must[0] = number->id;
    make(image, list, ready);
    takes(line, image, number->second, sizeof number->second, YD_DID_STORE, 0, 0, "");
    holds(line, image, list, must);
    make(image, list, collecting);
    takes(line, image, number->second, sizeof number->second, YD_DID_STORE, 0, 0, "");
    holds(line, image, list, must);
}

/* A number that a Ready sign completes, in one packet and in two, and the list after it. */
static void completes(int line, const struct number *number, const uint8_t *list, const uint8_t *after)
{
    uint8_t image[YD_IMAGE_SIZE];
    make(image, list, ready);
    takes(line, image, number->wait, sizeof number->wait, YD_DID_RELEASE, 0, 0, "^W5");
    holds(line, image, after, waiting);
    make(image, list, ready);
    takes(line, image, number->unknown, sizeof number->unknown, YD_DID_RELEASE, 22, 0, "^Q");
    holds(line, image, after, ready);
    make(image, list, ready);
    takes(line, image, number->first, sizeof number->first, YD_DID_STORE, 0, 0, "");
    takes(line, image, number->second, sizeof number->second, YD_DID_RELEASE, 0, 0, BODY_15);
    holds(line, image, after, showing);
}

/* A number that is new to this list: a Ready sign takes it, and a Busy one says 12. */
static void is_new(int line, const struct number *number, const uint8_t *list, const uint8_t *after)
{
    uint8_t image[YD_IMAGE_SIZE];
    begins(line, number, list);
    completes(line, number, list, after);
    make(image, list, waiting);
    refuses(line, image, number->wait, sizeof number->wait, 12);
    refuses(line, image, number->unknown, sizeof number->unknown, 12);
    refuses(line, image, number->first, sizeof number->first, 12);
    refuses(line, image, number->second, sizeof number->second, 12);
    holds(line, image, list, waiting);
}

/* All four are a Repeat, and the two that they pushed out are new. */
static void repeats_of_four(void)
{
    static const uint8_t then_zero[LIST] = { 4, 0, 11, 9, 7 };
    static const uint8_t then_five[LIST] = { 4, 5, 11, 9, 7 };
    static const uint8_t then_both[LIST] = { 4, 5, 0, 11, 9 };
    static const uint8_t then_sixty_three[LIST] = { 4, 63, 0, 11, 9 };
    size_t i;
    for (i = 0; i < KEPT; i++)
        repeats(__LINE__, kept[i], after_six);
    is_new(__LINE__, &zero, after_six, then_zero);
    is_new(__LINE__, &five, after_six, then_five);
    repeats(__LINE__, &zero, then_zero);
    repeats(__LINE__, &seven, then_zero);
    is_new(__LINE__, &sixty_three, then_zero, then_sixty_three);
    is_new(__LINE__, &five, then_zero, then_both);
}

/* Copies of all four come while number 12 is collected, and then its other packet completes it. */
static void collects_on(void)
{
    static const uint8_t then_twelve[LIST] = { 4, 12, 11, 9, 7 };
    uint8_t image[YD_IMAGE_SIZE];
    size_t i;
    make(image, after_six, ready);
    TAKES(twelve.second, YD_DID_STORE);
    for (i = 0; i < KEPT; i++) {
        TAKES(kept[i]->first, YD_DID_REPEAT);
        holds(__LINE__, image, after_six, collecting);
    }
    tells(__LINE__, image, turns[TURNS - 1].when_ready);
    RELEASES(twelve.first, BODY_15);
    holds(__LINE__, image, then_twelve, showing);
}

/* A Repeat makes no number newer: the oldest is pushed out all the same. */
static void keeps_order(void)
{
    static const uint8_t then_zero[LIST] = { 4, 0, 11, 9, 7 };
    uint8_t image[YD_IMAGE_SIZE];
    make(image, after_six, ready);
    TAKES(sixty_three.wait, YD_DID_REPEAT);
    TAKES(sixty_three.wait, YD_DID_REPEAT);
    RELEASES_UNKNOWN(zero);
    holds(__LINE__, image, then_zero, ready);
    RELEASES(sixty_three.wait, "^W5");
}

/* After 1, 2, 3 and 4 a Busy sign says Repeat to each of them, and 12 to 5. */
static void four_and_busy(void)
{
    static const uint8_t list[LIST] = { 4, 4, 3, 2, 1 };
    static const uint8_t then_five[LIST] = { 4, 5, 4, 3, 2 };
    repeats(__LINE__, &one, list);
    repeats(__LINE__, &two, list);
    repeats(__LINE__, &three, list);
    repeats(__LINE__, &four, list);
    is_new(__LINE__, &five, list, then_five);
}

/* Number 0 is new until it is completed: the zeros of unused room are no number. */
static void number_zero(void)
{
    static const uint8_t lists[][LIST] = { { 0, 0, 0, 0, 0 }, { 1, 4, 0, 0, 0 }, { 2, 4, 3, 0, 0 }, { 3, 4, 3, 2, 0 }, { 4, 4, 3, 2, 1 } };
    static const uint8_t afters[][LIST] = { { 1, 0, 0, 0, 0 }, { 2, 0, 4, 0, 0 }, { 3, 0, 4, 3, 0 }, { 4, 0, 4, 3, 2 }, { 4, 0, 4, 3, 2 } };
    static const uint8_t with_zero[][LIST] = { { 2, 4, 0, 0, 0 }, { 3, 4, 0, 3, 0 }, { 3, 4, 3, 0, 0 }, { 4, 4, 3, 2, 0 } };
    size_t i;
    for (i = 0; i < sizeof lists / sizeof lists[0]; i++) {
        is_new(__LINE__, &zero, lists[i], afters[i]);
        repeats(__LINE__, &zero, afters[i]);
    }
    for (i = 0; i < sizeof with_zero / sizeof with_zero[0]; i++)
        repeats(__LINE__, &zero, with_zero[i]);
}

/* A reset packet and yd_reset leave none of the list. */
static void resets(int line, const uint8_t *list, const uint8_t *rest)
{
    uint8_t image[YD_IMAGE_SIZE];
    make(image, list, rest);
    takes(line, image, reset, sizeof reset, YD_DID_RESET, 0, 0, "");
    holds(line, image, none, ready);
    tells(line, image, reply_of_none);
    make(image, list, rest);
    check(line, "yd_reset", yd_reset(image, sizeof image), 0);
    holds(line, image, none, ready);
    tells(line, image, reply_of_none);
}

static void after_reset(void)
{
    static const uint8_t only[][LIST] = { { 1, 11, 0, 0, 0 }, { 1, 9, 0, 0, 0 }, { 1, 7, 0, 0, 0 }, { 1, 63, 0, 0, 0 } };
    size_t i;
    for (i = 0; i < KEPT; i++) {
        resets(__LINE__, only[i], ready);
        resets(__LINE__, only[i], collecting);
        resets(__LINE__, only[i], waiting);
        is_new(__LINE__, kept[i], none, only[i]);
    }
    resets(__LINE__, after_six, ready);
    resets(__LINE__, after_six, collecting);
    resets(__LINE__, after_six, waiting);
    resets(__LINE__, after_six, showing);
}

/* Number 9 is completed, and after each kind of reset once more. */
static void nine_again(void)
{
    static const uint8_t only_nine[LIST] = { 1, 9, 0, 0, 0 };
    uint8_t image[YD_IMAGE_SIZE];
    make(image, none, ready);
    RELEASES_UNKNOWN(nine);
    TAKES(nine.wait, YD_DID_REPEAT);
    TAKES(reset, YD_DID_RESET);
    RELEASES(nine.wait, "^W5");
    holds(__LINE__, image, only_nine, waiting);
    TAKES(nine.wait, YD_DID_REPEAT);
    CHECK(yd_reset(image, sizeof image), 0);
    RELEASES(nine.wait, "^W5");
    holds(__LINE__, image, only_nine, waiting);
}

/* Every call that takes an image, on a sound one: none refuses it. */
static void all_take_list(int line, const uint8_t *list, const uint8_t *rest)
{
    const uint8_t length = rest[92];
    uint8_t image[YD_IMAGE_SIZE];
    uint8_t lent[YD_BODY_SIZE];
    make(image, list, rest);
    check(line, "yd_copy_body", yd_copy_body(image, sizeof image, lent, sizeof lent), yes(length));
    check(line, "yd_reply", yd_reply(image, sizeof image, sign_mid, YD_AUX_FLOAT, lent, sizeof lent), yes(8));
    check(line, "last completed ID", lent[3], list[0] == 0 ? 0x41 : list[1]);
    takes(line, image, query, sizeof query, YD_DID_QUERY, 0, 0, "");
    holds(line, image, list, rest);
    check(line, "yd_step", yd_step(image, sizeof image, lent, sizeof lent), 0);
    holds(line, image, list, length == 0 ? rest : ready);
    check(line, "yd_reset", yd_reset(image, sizeof image), 0);
    holds(line, image, none, ready);
}

/* The same list on a Ready sign, on one that collects number 12, and on a Busy one. */
static void sound(int line, const uint8_t *list)
{
    all_take_list(line, list, ready);
    all_take_list(line, list, collecting);
    all_take_list(line, list, waiting);
}

static void unsound(int line, const uint8_t *list, const uint8_t *rest)
{
    uint8_t image[YD_IMAGE_SIZE];
    make(image, list, rest);
    all_refuse(line, image, sizeof image, 16);
}

static void sound_lists(void)
{
    static const uint8_t lists[][LIST] = {
        { 0, 0, 0, 0, 0 }, { 1, 0, 0, 0, 0 }, { 1, 63, 0, 0, 0 }, { 2, 4, 0, 0, 0 },   { 2, 0, 4, 0, 0 },     { 3, 4, 3, 0, 0 },
        { 3, 0, 4, 3, 0 }, { 4, 4, 3, 2, 0 }, { 4, 0, 1, 2, 3 },  { 3, 63, 0, 62, 0 }, { 4, 63, 62, 61, 60 }, { 4, 60, 61, 62, 63 },
        { 4, 4, 0, 3, 2 }, { 4, 4, 3, 0, 2 },
    };
    size_t i;
    for (i = 0; i < sizeof lists / sizeof lists[0]; i++)
        sound(__LINE__, lists[i]);
}

static void unsound_lists(void)
{
    static const uint8_t lists[][LIST] = {
        /* A number twice, at each two places. */
        { 4, 4, 3, 2, 4 },
        { 4, 4, 3, 4, 2 },
        { 4, 4, 4, 3, 2 },
        { 4, 4, 3, 2, 3 },
        { 4, 4, 3, 3, 2 },
        { 4, 4, 3, 2, 2 },
        { 3, 4, 3, 4, 0 },
        { 3, 4, 4, 3, 0 },
        { 3, 4, 3, 3, 0 },
        { 2, 4, 4, 0, 0 },
        /* Number 0 twice. */
        { 2, 0, 0, 0, 0 },
        { 3, 0, 0, 4, 0 },
        { 3, 4, 0, 0, 0 },
        { 4, 4, 3, 0, 0 },
        { 4, 0, 4, 3, 0 },
        { 4, 0, 0, 0, 0 },
        /* Room that isn't used and isn't zeros. */
        { 2, 4, 3, 2, 0 },
        { 2, 4, 3, 0, 2 },
        { 2, 4, 3, 4, 0 },
        { 2, 4, 3, 255, 0 },
        { 3, 4, 3, 2, 1 },
        { 1, 4, 3, 0, 0 },
        { 1, 4, 0, 0, 3 },
        { 0, 4, 0, 0, 0 },
        { 0, 0, 0, 0, 4 },
        { 0, 0x41, 0, 0, 0 },
        /* More than four. */
        { 5, 4, 3, 2, 0 },
        { 5, 4, 3, 2, 1 },
        { 6, 4, 3, 2, 1 },
        { 0x41, 0, 0, 0, 0 },
        { 128, 4, 3, 2, 0 },
        { 132, 4, 3, 2, 0 },
        { 255, 4, 3, 2, 0 },
        { 255, 0, 0, 0, 0 },
        /* What is no ID, at each place. */
        { 1, 0x40, 0, 0, 0 },
        { 1, 0x41, 0, 0, 0 },
        { 1, 0x42, 0, 0, 0 },
        { 1, 0xFF, 0, 0, 0 },
        { 2, 4, 0x40, 0, 0 },
        { 2, 4, 0x41, 0, 0 },
        { 3, 4, 3, 0x40, 0 },
        { 3, 4, 3, 0x41, 0 },
        { 4, 4, 3, 2, 0x40 },
        { 4, 4, 3, 2, 0x41 },
        { 4, 4, 3, 2, 0x80 },
        { 4, 0x40, 3, 2, 0 },
        { 4, 0x41, 3, 2, 0 },
    };
    size_t i;
    for (i = 0; i < sizeof lists / sizeof lists[0]; i++) {
        unsound(__LINE__, lists[i], ready);
        unsound(__LINE__, lists[i], collecting);
        unsound(__LINE__, lists[i], waiting);
    }
}

/* Number 1 is among them: sound, but not while number 1 itself is collected. */
static void collected_one(void)
{
    static const uint8_t lists[][LIST] = {
        { 1, 1, 0, 0, 0 }, { 2, 1, 2, 0, 0 }, { 2, 2, 1, 0, 0 }, { 3, 3, 2, 1, 0 },
        { 4, 1, 4, 3, 2 }, { 4, 4, 1, 3, 2 }, { 4, 4, 3, 1, 2 }, { 4, 4, 3, 2, 1 },
    };
    static const uint8_t others[LIST] = { 4, 4, 3, 2, 0 };
    uint8_t collects[REST];
    size_t i;
    memcpy(collects, collecting, sizeof collects);
    collects[0] = 1;
    for (i = 0; i < sizeof lists / sizeof lists[0]; i++) {
        sound(__LINE__, lists[i]);
        unsound(__LINE__, lists[i], collects);
    }
    all_take_list(__LINE__, others, collects);
}

/* The same of number 0, of which unused room has the bytes and not the number. */
static void collected_zero(void)
{
    static const uint8_t with[][LIST] = { { 1, 0, 0, 0, 0 }, { 2, 4, 0, 0, 0 }, { 3, 4, 3, 0, 0 }, { 4, 4, 3, 2, 0 }, { 4, 0, 4, 3, 2 } };
    static const uint8_t without[][LIST] = { { 0, 0, 0, 0, 0 }, { 1, 4, 0, 0, 0 }, { 2, 4, 3, 0, 0 }, { 3, 4, 3, 2, 0 }, { 4, 4, 3, 2, 1 } };
    uint8_t collects[REST];
    size_t i;
    memcpy(collects, collecting, sizeof collects);
    collects[0] = 0;
    for (i = 0; i < sizeof with / sizeof with[0]; i++)
        unsound(__LINE__, with[i], collects);
    for (i = 0; i < sizeof without / sizeof without[0]; i++)
        all_take_list(__LINE__, without[i], collects);
}

/* An image of 102 bytes, as version 1.2 had it: the last completed ID, and then the rest. */
static void refuses_old(int line, uint8_t last, const uint8_t *rest)
{
    uint8_t old[102];
    uint8_t before[102];
    old[0] = last;
    memcpy(old + 1, rest, REST);
    memcpy(before, old, sizeof before);
    all_refuse(line, old, sizeof old, 251);
    check(line, "yd_power_on", yd_power_on(old, sizeof old), 251);
    check_bytes(line, "image", old, before, sizeof before);
}

static void old_images(void)
{
    uint8_t image[YD_IMAGE_SIZE];
    refuses_old(__LINE__, 0x41, ready);
    refuses_old(__LINE__, 5, ready);
    refuses_old(__LINE__, 5, collecting);
    refuses_old(__LINE__, 5, waiting);
    /* Nor are the first 102 bytes of a sound image one. */
    make(image, none, ready);
    all_refuse(__LINE__, image, 102, 251);
    CHECK(yd_power_on(image, 102), 251);
    holds(__LINE__, image, none, ready);
}

void completed_ids(void)
{
    turns_without_program();
    turns_with_program();
    repeats_of_four();
    collects_on();
    keeps_order();
    four_and_busy();
    number_zero();
    after_reset();
    nine_again();
    sound_lists();
    unsound_lists();
    collected_one();
    collected_zero();
    old_images();
}
