/* Every call of the header, held to the rules: each number for no that a call can give, in its order, and the rules' examples.
 * The tests of the completed IDs stand in completed.c.
 * What a call must say is written here by hand. A refused call must leave every lent byte as it was.
 * It is C99 and C++17 alike. It prints what fails and a last line with the number of checks, and exits with 1 if a check failed. */
#include <string.h>

#include "checks.h"

/* Names against the rules' numbers. */

static void numbers_for_no(void)
{
    CHECK(YD_YES, 0);
    CHECK(YD_NO_UNDER_7, 1);
    CHECK(YD_NO_OVER_21, 2);
    CHECK(YD_NO_COUNT, 3);
    CHECK(YD_NO_SUM, 4);
    CHECK(YD_NO_MID, 5);
    CHECK(YD_NO_SECOND, 6);
    CHECK(YD_NO_ZERO, 7);
    CHECK(YD_NO_ID_OVER, 8);
    CHECK(YD_NO_ID_LENGTH, 9);
    CHECK(YD_NO_POSITION, 10);
    CHECK(YD_NO_NOT_FULL, 11);
    CHECK(YD_NO_BUSY, 12);
    CHECK(YD_NO_OTHER, 13);
    CHECK(YD_NO_UNSOUND, 16);
    CHECK(YD_NO_SETTINGS, 17);
    CHECK(YD_NO_MID_FORBIDDEN, 19);
    CHECK(YD_NO_CARET, 21);
    CHECK(YD_NO_UNKNOWN, 22);
    CHECK(YD_NO_NUMBER, 23);
    CHECK(YD_NO_FORBIDDEN, 24);
    CHECK(YD_NO_TILDE, 25);
    CHECK(YD_NO_LOOP, 26);
    CHECK(YD_NO_AFTER_END, 27);
    CHECK(YD_NO_OVER_84, 28);
    CHECK(YD_NO_BODY, 31);
    CHECK(YD_NO_WRITE_ID, 32);
    CHECK(YD_NO_WRITE_POSITION, 33);
    CHECK(YD_NO_OUT_SHORT, 34);
    CHECK(YD_NO_REPLY, 35);
    CHECK(YD_NO_IMAGE_SIZE, 251);
    CHECK(YD_NO_ANSWER_SHORT, 252);
}

static void sizes(void)
{
    CHECK(YD_BODY_SIZE, 84);
    CHECK(YD_QUERY_SIZE, 7);
    CHECK(YD_RESET_SIZE, 7);
    CHECK(YD_PACKET_DATA_SIZE, 14);
    CHECK(YD_PACKET_SIZE, 21);
    CHECK(YD_TRANSMISSION_SIZE, 126);
    CHECK(YD_REPLY_SIZE, 8);
    CHECK(YD_IMAGE_SIZE, 106);
    CHECK(YD_PACKET_ANSWER_SIZE, 20);
    CHECK(YD_REPLY_ANSWER_SIZE, 12);
    CHECK(YD_FORECAST_ANSWER_SIZE, 24);
    CHECK(YD_RECEIVE_ANSWER_SIZE, 100);
    CHECK(YD_STEP_ANSWER_SIZE, 28);
}

static void offsets(void)
{
    CHECK(YD_AT_COMPLETED_COUNT, 0);
    CHECK(YD_AT_COMPLETED, 1);
    CHECK(YD_AT_ID, 5);
    CHECK(YD_AT_TOTAL, 6);
    CHECK(YD_AT_LENS, 7);
    CHECK(YD_AT_ROOM, 13);
    CHECK(YD_AT_LENGTH, 97);
    CHECK(YD_AT_PLACE, 98);
    CHECK(YD_AT_LOOP_PLACE, 99);
    CHECK(YD_AT_LOOP_LEFT, 100);
    CHECK(YD_AT_PACE, 101);
    CHECK(YD_AT_SCANS, 102);
    CHECK(YD_AT_SINK, 103);
    CHECK(YD_AT_DIM, 104);
    CHECK(YD_AT_BRIGHT, 105);
}

/* The functions of the header itself, and the version. */
static void results(void)
{
    static const uint8_t words[] = { 9, 9, 9, 9, 0x78, 0x56, 0x34, 0xF2, 9 };
    CHECK(yd_no(0x123415u), 0x15);
    CHECK(yd_value(0x123415u), 0x1234);
    CHECK(yd_value(0xFFFFFF00u), 0xFFFFFF);
    CHECK(yd_word(words, 1), 0xF2345678u);
    CHECK(YD_VERSION, 66304);
    CHECK(yd_version(), yes(66304));
    CHECK(yd_value(yd_version()), YD_VERSION);
}

/* The wire. */

/* Bytes off the line that the sign of MID 80h reads, and their fields. */
struct taken {
    size_t length;
    uint8_t bytes[YD_PACKET_SIZE];
    struct yd_packet_answer packet;
};

/* Query, reset, and packets with 5 data bytes, one, and 14. */
static const struct taken takens[] = {
    { 7, { 0x80, 0x7F, 0x07, 0x40, 0x10, 0x00, 0xAA }, { YD_READ_QUERY, 0, 0, 0, 0 } },
    { 7, { 0x80, 0x7F, 0x07, 0x41, 0x10, 0x00, 0xA9 }, { YD_READ_RESET, 0, 0, 0, 0 } },
    { 12, { 0x80, 0x7F, 0x0C, 0x05, 0x10, 0x5E, 0x49, 0x49, 0x48, 0x49, 0x00, 0x5F }, { YD_READ_NORMAL, 5, 1, 0, 5 } },
    { 12, { 0x80, 0x7F, 0x0C, 0x05, 0x21, 0x5E, 0x49, 0x49, 0x48, 0x49, 0x00, 0x4E }, { YD_READ_NORMAL, 5, 2, 1, 5 } },
    { 8, { 0x80, 0x7F, 0x08, 0x3F, 0x10, 0x5E, 0x00, 0x4C }, { YD_READ_NORMAL, 0x3F, 1, 0, 1 } },
    { 21,
      { 0x80, 0x7F, 0x15, 0x00, 0x60, 0x5E, 0x49, 0x49, 0x41, 0x42, 0x43, 0x44, 0x45, 0x46, 0x47, 0x48, 0x49, 0x4A, 0x4B, 0x00, 0x9A },
      { YD_READ_NORMAL, 0, 6, 0, 14 } },
};
enum { TAKENS = sizeof takens / sizeof takens[0] };

/* Bytes off the line that it refuses, and the number for no. */
struct wrong {
    uint32_t number;
    size_t length;
    uint8_t bytes[YD_PACKET_SIZE + 1];
};

static const struct wrong wrongs[] = {
    /* Under 7 bytes, none too; over 21. */
    { 1, 0, { 0 } },
    { 1, 6, { 0x80, 0x7F, 0x07, 0x40, 0x10, 0x00 } },
    { 2, 22, { 0 } },
    /* The count byte, with a right sum and a wrong one; the sum, with much else wrong. */
    { 3, 12, { 0x80, 0x7F, 0x0D, 0x05, 0x10, 0x5E, 0x49, 0x49, 0x48, 0x49, 0x00, 0x5E } },
    { 3, 12, { 0x80, 0x7F, 0x0D, 0x05, 0x10, 0x5E, 0x49, 0x49, 0x48, 0x49, 0x00, 0x5F } },
    { 4, 12, { 0x80, 0x7F, 0x0C, 0x05, 0x10, 0x5E, 0x49, 0x49, 0x48, 0x49, 0x00, 0x60 } },
    { 4, 7, { 0x82, 0x7E, 0x07, 0x42, 0x11, 0x01, 0x00 } },
    /* Another MID; the second byte; the byte before the checksum. */
    { 5, 12, { 0x82, 0x7F, 0x0C, 0x05, 0x10, 0x5E, 0x49, 0x49, 0x48, 0x49, 0x00, 0x5D } },
    { 6, 12, { 0x80, 0x7E, 0x0C, 0x05, 0x10, 0x5E, 0x49, 0x49, 0x48, 0x49, 0x00, 0x60 } },
    { 7, 12, { 0x80, 0x7F, 0x0C, 0x05, 0x10, 0x5E, 0x49, 0x49, 0x48, 0x49, 0x01, 0x5E } },
    /* An ID over 41h. */
    { 8, 12, { 0x80, 0x7F, 0x0C, 0x42, 0x10, 0x5E, 0x49, 0x49, 0x48, 0x49, 0x00, 0x22 } },
    { 8, 12, { 0x80, 0x7F, 0x0C, 0xFF, 0x10, 0x5E, 0x49, 0x49, 0x48, 0x49, 0x00, 0x65 } },
    { 8, 7, { 0x80, 0x7F, 0x07, 0x42, 0x10, 0x00, 0xA8 } },
    /* A normal ID without data; a query and a reset with data. */
    { 9, 7, { 0x80, 0x7F, 0x07, 0x05, 0x10, 0x00, 0xE5 } },
    { 9, 7, { 0x80, 0x7F, 0x07, 0x3F, 0x10, 0x00, 0xAB } },
    { 9, 8, { 0x80, 0x7F, 0x08, 0x40, 0x10, 0x5E, 0x00, 0x4B } },
    { 9, 12, { 0x80, 0x7F, 0x0C, 0x40, 0x10, 0x5E, 0x49, 0x49, 0x48, 0x49, 0x00, 0x24 } },
    { 9, 12, { 0x80, 0x7F, 0x0C, 0x41, 0x10, 0x5E, 0x49, 0x49, 0x48, 0x49, 0x00, 0x23 } },
    /* Total 0; total 7; position 1 of 1; position 6 of 6; the fifth byte of a query and of a reset. */
    { 10, 12, { 0x80, 0x7F, 0x0C, 0x05, 0x00, 0x5E, 0x49, 0x49, 0x48, 0x49, 0x00, 0x6F } },
    { 10, 12, { 0x80, 0x7F, 0x0C, 0x05, 0x70, 0x5E, 0x49, 0x49, 0x48, 0x49, 0x00, 0xFF } },
    { 10, 12, { 0x80, 0x7F, 0x0C, 0x05, 0x11, 0x5E, 0x49, 0x49, 0x48, 0x49, 0x00, 0x5E } },
    { 10, 12, { 0x80, 0x7F, 0x0C, 0x05, 0x66, 0x5E, 0x49, 0x49, 0x48, 0x49, 0x00, 0x09 } },
    { 10, 7, { 0x80, 0x7F, 0x07, 0x40, 0x11, 0x00, 0xA9 } },
    { 10, 7, { 0x80, 0x7F, 0x07, 0x41, 0x20, 0x00, 0x99 } },
    /* 5 and 13 data bytes in a packet that isn't last. */
    { 11, 12, { 0x80, 0x7F, 0x0C, 0x05, 0x20, 0x5E, 0x49, 0x49, 0x48, 0x49, 0x00, 0x4F } },
    { 11, 20, { 0x80, 0x7F, 0x14, 0x05, 0x64, 0x41, 0x42, 0x43, 0x44, 0x45, 0x46, 0x47, 0x48, 0x49, 0x4A, 0x4B, 0x4C, 0x4D, 0x00, 0xE9 } },
};
enum { WRONGS = sizeof wrongs / sizeof wrongs[0] };

/* A yes has its five words, and leaves what is lent beyond them. */
static void read_taken(int line, const struct taken *taken)
{
    uint8_t answer[YD_PACKET_ANSWER_SIZE + 4];
    struct yd_packet_answer packet;
    fill(answer, sizeof answer);
    check(line, "yd_read_packet", yd_read_packet(sign_mid, taken->bytes, taken->length, answer, sizeof answer), 0);
    yd_get_packet(answer, &packet);
    check(line, "what", packet.what, taken->packet.what);
    check(line, "id", packet.id, taken->packet.id);
    check(line, "total", packet.total, taken->packet.total);
    check(line, "position", packet.position, taken->packet.position);
    check(line, "length", packet.length, taken->packet.length);
    check_filled(line, "rest of the answer", answer + YD_PACKET_ANSWER_SIZE, 4);
}

static void read_packet(void)
{
    uint8_t answer[YD_PACKET_ANSWER_SIZE];
    size_t i;
    CHECK(YD_READ_QUERY, 1);
    CHECK(YD_READ_RESET, 2);
    CHECK(YD_READ_NORMAL, 3);
    for (i = 0; i < TAKENS; i++)
        read_taken(__LINE__, &takens[i]);
    fill(answer, sizeof answer);
    for (i = 0; i < WRONGS; i++)
        CHECK(yd_read_packet(sign_mid, wrongs[i].bytes, wrongs[i].length, answer, sizeof answer), wrongs[i].number);
    CHECK(yd_read_packet(0x82, takens[0].bytes, 7, answer, sizeof answer), 5);
    /* 252 before all else. */
    CHECK(yd_read_packet(sign_mid, takens[0].bytes, 7, answer, 19), 252);
    CHECK(yd_read_packet(sign_mid, takens[0].bytes, 0, answer, 0), 252);
    check_filled(__LINE__, "answer", answer, sizeof answer);
    CHECK(yd_read_packet(sign_mid, takens[0].bytes, 7, answer, 20), 0);
    CHECK(yd_word(answer, YD_WORD_PACKET_WHAT), 1);
}

static const uint8_t hi_packet[] = { 0x80, 0x7F, 0x0C, 0x05, 0x10, 0x5E, 0x49, 0x49, 0x48, 0x49, 0x00, 0x5F };

/* ^IIABCDEFGHIJKL is 15 bytes: two packets, the second with one byte. Then the second with another byte and with one more, the first with
 * another total, and ^W5 under the next number. */
#define BODY_15 "^IIABCDEFGHIJKL"
static const uint8_t first_of_7[] = { 0x80, 0x7F, 0x15, 0x07, 0x20, 0x5E, 0x49, 0x49, 0x41, 0x42, 0x43,
                                      0x44, 0x45, 0x46, 0x47, 0x48, 0x49, 0x4A, 0x4B, 0x00, 0xD3 };
static const uint8_t second_of_7[] = { 0x80, 0x7F, 0x08, 0x07, 0x21, 0x4C, 0x00, 0x85 };
static const uint8_t other_second_of_7[] = { 0x80, 0x7F, 0x08, 0x07, 0x21, 0x4D, 0x00, 0x84 };
static const uint8_t longer_second_of_7[] = { 0x80, 0x7F, 0x09, 0x07, 0x21, 0x4C, 0x4D, 0x00, 0x37 };
static const uint8_t other_total_of_7[] = { 0x80, 0x7F, 0x15, 0x07, 0x30, 0x5E, 0x49, 0x49, 0x41, 0x42, 0x43,
                                            0x44, 0x45, 0x46, 0x47, 0x48, 0x49, 0x4A, 0x4B, 0x00, 0xC3 };
static const uint8_t wait_of_8[] = { 0x80, 0x7F, 0x0A, 0x08, 0x10, 0x5E, 0x57, 0x35, 0x00, 0xF5 };

static void write_query_and_reset(void)
{
    uint8_t out[9];
    fill(out, sizeof out);
    CHECK(yd_write_query(sign_mid, out, 6), 34);
    CHECK(yd_write_query(sign_mid, out, 0), 34);
    CHECK(yd_write_reset(sign_mid, out, 6), 34);
    CHECK(yd_write_reset(sign_mid, out, 0), 34);
    check_filled(__LINE__, "out", out, sizeof out);
    CHECK(yd_write_query(sign_mid, out, 7), yes(7));
    check_bytes(__LINE__, "query", out, query, sizeof query);
    CHECK(yd_write_reset(sign_mid, out, 7), yes(7));
    check_bytes(__LINE__, "reset", out, reset, sizeof reset);
    CHECK(yd_write_query(sign_mid, out, sizeof out), yes(7));
    check_filled(__LINE__, "rest of out", out + 7, 2);
}

static void write_packet(void)
{
    uint8_t out[YD_PACKET_SIZE + 1];
    uint8_t long_body[YD_BODY_SIZE + 1];
    fill(long_body, sizeof long_body);
    fill(out, sizeof out);
    /* 31 to 34 in that order, each with all that come after it. */
    CHECK(yd_write_packet(sign_mid, 0x40, long_body, 0, 6, out, 0), 31);
    CHECK(yd_write_packet(sign_mid, 0x40, long_body, 85, 6, out, 0), 31);
    CHECK(yd_write_packet(sign_mid, 0x40, long_body, 84, 6, out, 0), 32);
    CHECK(yd_write_packet(sign_mid, 0xFF, long_body, 84, 6, out, 0), 32);
    CHECK(yd_write_packet(sign_mid, 0x3F, long_body, 84, 6, out, 0), 33);
    CHECK(yd_write_packet(sign_mid, 5, BYTES("^IIHI"), 1, out, sizeof out), 33);
    CHECK(yd_write_packet(sign_mid, 7, BYTES(BODY_15), 2, out, sizeof out), 33);
    CHECK(yd_write_packet(sign_mid, 0x3F, long_body, 84, 5, out, 20), 34);
    CHECK(yd_write_packet(sign_mid, 5, BYTES("^IIHI"), 0, out, 11), 34);
    CHECK(yd_write_packet(sign_mid, 7, BYTES(BODY_15), 1, out, 7), 34);
    check_filled(__LINE__, "out", out, sizeof out);
    CHECK(yd_write_packet(sign_mid, 5, BYTES("^IIHI"), 0, out, 12), yes(12));
    check_bytes(__LINE__, "packet", out, hi_packet, sizeof hi_packet);
    check_filled(__LINE__, "rest of out", out + 12, sizeof out - 12);
    CHECK(yd_write_packet(sign_mid, 7, BYTES(BODY_15), 0, out, sizeof out), yes(21));
    check_bytes(__LINE__, "first packet", out, first_of_7, sizeof first_of_7);
    CHECK(yd_write_packet(sign_mid, 7, BYTES(BODY_15), 1, out, 8), yes(8));
    check_bytes(__LINE__, "second packet", out, second_of_7, sizeof second_of_7);
    check_bytes(__LINE__, "bytes after it", out + 8, first_of_7 + 8, sizeof first_of_7 - 8);
}

static void write_transmission(void)
{
    uint8_t out[YD_TRANSMISSION_SIZE + 2];
    uint8_t long_body[YD_BODY_SIZE + 1];
    fill(long_body, sizeof long_body);
    fill(out, sizeof out);
    CHECK(yd_write_transmission(sign_mid, 0x40, long_body, 0, out, 0), 31);
    CHECK(yd_write_transmission(sign_mid, 0x40, long_body, 85, out, 0), 31);
    CHECK(yd_write_transmission(sign_mid, 0x40, long_body, 84, out, 0), 32);
    CHECK(yd_write_transmission(sign_mid, 0x3F, long_body, 84, out, 125), 34);
    CHECK(yd_write_transmission(sign_mid, 7, BYTES(BODY_15), out, 28), 34);
    CHECK(yd_write_transmission(sign_mid, 7, BYTES("^"), out, 0), 34);
    check_filled(__LINE__, "out", out, sizeof out);
    CHECK(yd_write_transmission(sign_mid, 7, BYTES(BODY_15), out, sizeof out), yes(29));
    check_bytes(__LINE__, "first packet", out, first_of_7, sizeof first_of_7);
    check_bytes(__LINE__, "second packet", out + 21, second_of_7, sizeof second_of_7);
    check_filled(__LINE__, "rest of out", out + 29, sizeof out - 29);
    CHECK(yd_write_transmission(sign_mid, 5, BYTES("^IIHI"), out, 12), yes(12));
    check_bytes(__LINE__, "only packet", out, hi_packet, sizeof hi_packet);
    CHECK(yd_write_transmission(sign_mid, 0x3F, long_body, 14, out, 21), yes(21));
    CHECK(yd_write_transmission(sign_mid, 0, long_body, 84, out, 126), yes(126));
    CHECK(out[4], 0x60);
    CHECK(out[105 + 4], 0x65);
    check_filled(__LINE__, "rest of out", out + 126, 2);
}

static const uint8_t reply_after_power_on[] = { 0x81, 0x7F, 0x08, 0x41, 0x52, 0x46, 0x00, 0x1F };
static const uint8_t reply_busy_sink[] = { 0x81, 0x7F, 0x08, 0x05, 0x42, 0x53, 0x00, 0x5E };
static const uint8_t reply_of_81[] = { 0x80, 0x7F, 0x08, 0x3F, 0x52, 0x53, 0x00, 0x15 };

static void write_reply(void)
{
    uint8_t out[YD_REPLY_SIZE + 1];
    fill(out, sizeof out);
    CHECK(yd_write_reply(sign_mid, 0x40, 0, YD_AUX_FLOAT, out, 0), 32);
    CHECK(yd_write_reply(sign_mid, 0x42, 0, YD_AUX_FLOAT, out, sizeof out), 32);
    CHECK(yd_write_reply(sign_mid, 0xFF, 1, YD_AUX_SINK, out, sizeof out), 32);
    CHECK(yd_write_reply(sign_mid, 0x41, 0, YD_AUX_FLOAT, out, 7), 34);
    check_filled(__LINE__, "out", out, sizeof out);
    CHECK(yd_write_reply(sign_mid, 0x41, 0, YD_AUX_FLOAT, out, sizeof out), yes(8));
    check_bytes(__LINE__, "reply", out, reply_after_power_on, sizeof reply_after_power_on);
    check_filled(__LINE__, "rest of out", out + 8, 1);
    CHECK(yd_write_reply(sign_mid, 5, 1, YD_AUX_SINK, out, 8), yes(8));
    check_bytes(__LINE__, "reply", out, reply_busy_sink, sizeof reply_busy_sink);
    fill(out, sizeof out);
    CHECK(yd_write_reply(sign_mid, 5, 0x80, 0x80, out, 8), yes(8));
    check_bytes(__LINE__, "reply", out, reply_busy_sink, sizeof reply_busy_sink);
    CHECK(yd_write_reply(0x81, 0x3F, 0, YD_AUX_SINK, out, 8), yes(8));
    check_bytes(__LINE__, "reply", out, reply_of_81, sizeof reply_of_81);
}

/* What is no reply of sign 80h, each with a right sum but the first. */
static const uint8_t no_replies[][8] = {
    { 0x81, 0x7F, 0x08, 0x41, 0x52, 0x46, 0x00, 0x20 }, /* sum */
    { 0x80, 0x7F, 0x08, 0x41, 0x52, 0x46, 0x00, 0x20 }, /* MID not turned */
    { 0x81, 0x7E, 0x08, 0x41, 0x52, 0x46, 0x00, 0x20 }, /* second byte */
    { 0x81, 0x7F, 0x09, 0x41, 0x52, 0x46, 0x00, 0x1E }, /* count */
    { 0x81, 0x7F, 0x08, 0x40, 0x52, 0x46, 0x00, 0x20 }, /* last completed ID */
    { 0x81, 0x7F, 0x08, 0x42, 0x52, 0x46, 0x00, 0x1E }, /* last completed ID */
    { 0x81, 0x7F, 0x08, 0x41, 0x58, 0x46, 0x00, 0x19 }, /* neither R nor B */
    { 0x81, 0x7F, 0x08, 0x41, 0x52, 0x66, 0x00, 0xFF }, /* neither S nor F */
    { 0x81, 0x7F, 0x08, 0x41, 0x52, 0x46, 0x01, 0x1E }, /* byte before the checksum */
};
enum { NO_REPLIES = sizeof no_replies / sizeof no_replies[0] };

static void read_reply(void)
{
    static const uint8_t nine[] = { 0x81, 0x7F, 0x08, 0x41, 0x52, 0x46, 0x00, 0x00, 0x1F };
    static const uint8_t seven[] = { 0x81, 0x7F, 0x08, 0x41, 0x52, 0x46, 0x1F };
    uint8_t answer[YD_REPLY_ANSWER_SIZE + 1];
    struct yd_reply_answer reply;
    size_t i;
    fill(answer, sizeof answer);
    CHECK(yd_read_reply(sign_mid, reply_busy_sink, 8, answer, 11), 252);
    CHECK(yd_read_reply(sign_mid, reply_busy_sink, 0, answer, 0), 252);
    for (i = 0; i < NO_REPLIES; i++)
        CHECK(yd_read_reply(sign_mid, no_replies[i], 8, answer, sizeof answer), 35);
    CHECK(yd_read_reply(sign_mid, nine, 9, answer, sizeof answer), 35);
    CHECK(yd_read_reply(sign_mid, seven, 7, answer, sizeof answer), 35);
    CHECK(yd_read_reply(sign_mid, seven, 0, answer, sizeof answer), 35);
    CHECK(yd_read_reply(0x82, reply_busy_sink, 8, answer, sizeof answer), 35);
    CHECK(yd_read_reply(sign_mid, query, 7, answer, sizeof answer), 35);
    check_filled(__LINE__, "answer", answer, sizeof answer);
    CHECK(yd_read_reply(sign_mid, reply_busy_sink, 8, answer, sizeof answer), 0);
    yd_get_reply(answer, &reply);
    CHECK(reply.last, 5);
    CHECK(reply.busy, 1);
    CHECK(reply.aux, YD_AUX_SINK);
    check_filled(__LINE__, "rest of the answer", answer + 12, 1);
    CHECK(yd_read_reply(sign_mid, reply_after_power_on, 8, answer, 12), 0);
    yd_get_reply(answer, &reply);
    CHECK(reply.last, 0x41);
    CHECK(reply.busy, 0);
    CHECK(reply.aux, YD_AUX_FLOAT);
    CHECK(yd_read_reply(0x81, reply_of_81, 8, answer, 12), 0);
    CHECK(yd_word(answer, YD_WORD_REPLY_LAST), 0x3F);
}

/* The program. */

#define TEN_S "^S^S^S^S^S^S^S^S^S^S"
#define THIRTY_NINE_S TEN_S TEN_S TEN_S "^S^S^S^S^S^S^S^S^S"
#define SIXTEEN "ABCDEFGHIJKLMNOP"

/* Texts of 97 columns, 95 without the blank edge, and of 100, 97 without it. */
#define EDGE "ABCDEFGHIJKLMNO~dP"
#define WIDE "~dABCDEFGHIJKLM~bN"

/* A body that is no program: its number for no, the place, and the bytes. */
struct refused {
    uint32_t number;
    uint32_t place;
    const char *body;
};

static const struct refused refuseds[] = {
    /* Empty; the first byte is no caret. */
    { 21, 0, "" },
    { 21, 0, "HI" },
    { 21, 0, " ^W5" },
    /* Unknown or cut off, at its caret. */
    { 22, 0, "^" },
    { 22, 0, "^Q" },
    { 22, 0, "^I" },
    { 22, 0, "^IC" },
    { 22, 0, "^X" },
    { 22, 0, "^XA" },
    { 22, 0, "^ii" },
    { 22, 2, "^S^Q" },
    { 22, 3, "^L1^Q" },
    { 22, 3, "^W5^^W5" },
    /* Not a right number, at the command's caret. */
    { 23, 0, "^P21" },
    { 23, 0, "^P" },
    { 23, 0, "^P0" },
    { 23, 0, "^P001" },
    { 23, 0, "^P1a" },
    { 23, 0, "^P1/" },
    { 23, 0, "^P1:" },
    { 23, 0, "^P 1" },
    { 23, 0, "^L0^E" },
    { 23, 0, "^L100^E" },
    { 23, 0, "^L001^E" },
    { 23, 0, "^L^E" },
    { 23, 0, "^=0" },
    { 23, 0, "^=7" },
    { 23, 0, "^=01" },
    { 23, 0, "^W0" },
    { 23, 0, "^W100" },
    { 23, 0, "^W099" },
    { 23, 0, "^XD0" },
    { 23, 0, "^XD256" },
    { 23, 0, "^XD0001" },
    { 23, 0, "^XB256" },
    { 23, 0, "^XB0255" },
    { 23, 0, "^XB" },
    { 23, 0, "^Y18" },
    { 23, 0, "^Y017" },
    { 23, 0, "^Y-1" },
    { 23, 4, "^SHI^W5 " },
    { 23, 0, "^P21^Q" },
    /* Forbidden, at that byte: in a text, and after a command without parameter. */
    { 24, 4, "^IIa\x1F" },
    { 24, 2, "^S\x7F" },
    { 24, 2, "^S\x80" },
    { 24, 3, "^Sa\x80" },
    { 24, 4, "^S~B\x80" },
    { 24, 6, "^S~G\xFF" "A\x80" },
    { 24, 3, "^XSx" },
    { 24, 3, "^XF " },
    { 24, 2, "^R1" },
    { 24, 2, "^Ex" },
    { 24, 5, "^L1^E2" },
    { 24, 5, "^L1^F~" },
    { 24, 4, "^S~G\x7F~" },
    /* A tilde without its letter, at the tilde. */
    { 25, 4, "^IIa~x" },
    { 25, 4, "^IIa~" },
    { 25, 2, "^S~^W5" },
    { 25, 2, "^S~~B" },
    { 25, 2, "^S~g" },
    { 25, 2, "^S~x\x1F" },
    /* Loops, at the command's caret. */
    { 26, 3, "^L1^L2^E^E" },
    { 26, 0, "^L1^W1" },
    { 26, 0, "^L9" },
    { 26, 0, "^E" },
    { 26, 0, "^F" },
    { 26, 3, "^L1^R^E" },
    { 26, 5, "^L1^E^E" },
    { 26, 5, "^L1^E^F" },
    { 26, 5, "^L1^E^L2^S" },
    { 26, 0, "^L99" THIRTY_NINE_S "^S" },
    /* A command after F or R, at its caret. */
    { 27, 2, "^R^S" },
    { 27, 2, "^R^" },
    { 27, 2, "^R^Q" },
    { 27, 2, "^R^P21" },
    { 27, 5, "^L1^F^E" },
    { 27, 5, "^L1^F^W5" },
    /* 85 bytes, whatever they are. */
    { 28, 84, "^L99" THIRTY_NINE_S "^E " },
    { 28, 84, TEN_S TEN_S TEN_S TEN_S "^S^SA" },
    { 28, 84, "HI" SIXTEEN SIXTEEN SIXTEEN SIXTEEN SIXTEEN "ABC" },
};
enum { REFUSEDS = sizeof refuseds / sizeof refuseds[0] };

/* An accepted body, and its forecast from pace 4 and one scan. */
struct accepted {
    const char *body;
    struct yd_forecast_answer forecast;
};

static const struct accepted accepteds[] = {
    { "^W5", { 0, 1, 0, 500, 4, 1 } },
    { "^L3^W2^E", { 0, 7, 0, 600, 4, 1 } },
    { "^SHI", { 0, 1, 108, 2400, 4, 1 } },
    { "^S", { 0, 1, 0, 0, 4, 1 } },
    { "^IIHI", { 0, 1, 0, 0, 4, 1 } },
    { "^IAHI", { 0, 1, 7, 156, 4, 1 } },
    { "^IBHI", { 0, 1, 7, 156, 4, 1 } },
    { "^IA", { 0, 1, 7, 156, 4, 1 } },
    { "^L3^IAHI^E", { 0, 7, 21, 468, 4, 1 } },
    { "^=6^P1^SA", { 0, 3, 612, 20400, 1, 6 } },
    { "^L2^SHI^P20^E", { 0, 7, 216, 3264, 20, 1 } },
    { "^P20^=2^SHI", { 0, 3, 216, 1728, 20, 2 } },
    { "^P01^=6", { 0, 2, 0, 0, 1, 6 } },
    { "^XS^XF^XD001^XD255^XB0^XB255^Y0^Y17", { 0, 8, 0, 0, 4, 1 } },
    { "^L99" THIRTY_NINE_S "^E", { 0, 3961, 0, 0, 4, 1 } },
    { "^II" SIXTEEN, { 0, 1, 0, 0, 4, 1 } },
    { "^II" SIXTEEN "Q", { 0, 1, 198, 4400, 4, 1 } },
    { "^IA" SIXTEEN "Q", { 0, 1, 198, 4400, 4, 1 } },
    { "^II" SIXTEEN "~G\x80", { 0, 1, 193, 4289, 4, 1 } },
    { "^IA" EDGE, { 0, 1, 7, 156, 4, 1 } },
    { "^S" EDGE, { 0, 1, 193, 4289, 4, 1 } },
    { "^IB" WIDE, { 0, 1, 196, 4356, 4, 1 } },
    { "^SHI~B", { 0, 1, 108, 2400, 4, 1 } },
    { "^S~BA", { 0, 1, 104, 2312, 4, 1 } },
    { "^S~G\x80\xFF", { 0, 1, 98, 2178, 4, 1 } },
    { "^S~BA~bA~CA~cA~DA~dA", { 0, 1, 137, 3045, 4, 1 } },
    { "^L1^E^L2^W1^E", { 0, 7, 0, 200, 4, 1 } },
    { "^S !}", { 0, 1, 114, 2534, 4, 1 } },
    { "^R", { 1, 0, 0, 0, 0, 0 } },
    { "^P9^=3^W5^R", { 1, 0, 0, 0, 0, 0 } },
    { "^L1^F", { 1, 0, 0, 0, 0, 0 } },
    { "^P9^L2^SHI^F", { 1, 0, 0, 0, 0, 0 } },
};
enum { ACCEPTEDS = sizeof accepteds / sizeof accepteds[0] };

static const uint8_t *bytes_of(const char *body)
{
    return (const uint8_t *)body;
}

static void judge(void)
{
    size_t i;
    for (i = 0; i < REFUSEDS; i++)
        check(__LINE__, refuseds[i].body, yd_judge(bytes_of(refuseds[i].body), strlen(refuseds[i].body)),
              no(refuseds[i].number, refuseds[i].place));
    for (i = 0; i < ACCEPTEDS; i++)
        check(__LINE__, accepteds[i].body, yd_judge(bytes_of(accepteds[i].body), strlen(accepteds[i].body)),
              yes(accepteds[i].forecast.endless));
    /* A byte of zero is forbidden too; and nothing after the length is read. */
    CHECK(yd_judge(BYTES("^SA\0B")), no(24, 3));
    CHECK(yd_judge(BYTES("^S~\0")), no(25, 2));
    CHECK(yd_judge(bytes_of("^IIHI"), 0), no(21, 0));
    CHECK(yd_judge(bytes_of("^IIHI"), 1), no(22, 0));
    CHECK(yd_judge(bytes_of("^IIHI"), 2), no(22, 0));
    CHECK(yd_judge(bytes_of("^IIHI"), 3), yes(0));
    CHECK(yd_judge(bytes_of("^IAHI"), 2), no(22, 0));
    CHECK(yd_judge(bytes_of("^IAHI"), 3), yes(0));
    CHECK(yd_judge(bytes_of("^IBHI"), 2), no(22, 0));
    CHECK(yd_judge(bytes_of("^IBHI"), 3), yes(0));
    CHECK(yd_judge(bytes_of("^XSHI"), 2), no(22, 0));
    CHECK(yd_judge(bytes_of("^XSHI"), 3), yes(0));
    CHECK(yd_judge(bytes_of("^P205"), 2), no(23, 0));
    CHECK(yd_judge(bytes_of("^P205"), 4), yes(0));
    CHECK(yd_judge(bytes_of("^S~B"), 3), no(25, 2));
    CHECK(yd_judge(bytes_of("^L1^E"), 4), no(22, 3));
}

/* One forecast, its six words against those that must be. */
static void check_forecast(int line, const char *body, uint8_t pace, uint8_t scan_setting, const struct yd_forecast_answer *must)
{
    uint8_t answer[YD_FORECAST_ANSWER_SIZE + 4];
    struct yd_forecast_answer is;
    fill(answer, sizeof answer);
    check(line, body, yd_forecast(bytes_of(body), strlen(body), pace, scan_setting, answer, sizeof answer), 0);
    yd_get_forecast(answer, &is);
    check(line, body, is.endless, must->endless);
    check(line, body, is.steps, must->steps);
    check(line, body, is.scans, must->scans);
    check(line, body, is.ms, must->ms);
    check(line, body, yd_word(answer, YD_WORD_FORECAST_PACE), must->pace);
    check(line, body, yd_word(answer, YD_WORD_FORECAST_SCAN_SETTING), must->scan_setting);
    check(line, body, is.pace, must->pace);
    check(line, body, is.scan_setting, must->scan_setting);
    check_filled(line, "rest of the answer", answer + YD_FORECAST_ANSWER_SIZE, 4);
}

static void forecast_yes(void)
{
    static const struct yd_forecast_answer fast = { 0, 1, 216, 1728, 20, 2 };
    static const struct yd_forecast_answer slow = { 0, 1, 648, 21600, 1, 6 };
    static const struct yd_forecast_answer set_back = { 0, 2, 0, 0, 4, 1 };
    size_t i;
    for (i = 0; i < ACCEPTEDS; i++)
        check_forecast(__LINE__, accepteds[i].body, 4, 1, &accepteds[i].forecast);
    /* From what another program left. */
    check_forecast(__LINE__, "^SHI", 20, 2, &fast);
    check_forecast(__LINE__, "^SHI", 1, 6, &slow);
    check_forecast(__LINE__, "^P4^=1", 20, 6, &set_back);
}

static void forecast_no(void)
{
    uint8_t answer[YD_FORECAST_ANSWER_SIZE];
    size_t i;
    fill(answer, sizeof answer);
    /* 252 before 17, 17 before the rest. */
    CHECK(yd_forecast(BYTES("HI"), 0, 0, answer, 23), 252);
    CHECK(yd_forecast(BYTES("^W5"), 4, 1, answer, 23), 252);
    CHECK(yd_forecast(BYTES("^W5"), 4, 1, answer, 16), 252);
    CHECK(yd_forecast(BYTES("^W5"), 4, 1, answer, 0), 252);
    CHECK(yd_forecast(BYTES("^W5"), 0, 1, answer, 24), 17);
    CHECK(yd_forecast(BYTES("^W5"), 21, 1, answer, 24), 17);
    CHECK(yd_forecast(BYTES("^W5"), 4, 0, answer, 24), 17);
    CHECK(yd_forecast(BYTES("^W5"), 4, 7, answer, 24), 17);
    CHECK(yd_forecast(BYTES("^R"), 0, 0, answer, 24), 17);
    for (i = 0; i < REFUSEDS; i++) {
        const uint8_t *body = bytes_of(refuseds[i].body);
        size_t length = strlen(refuseds[i].body);
        check(__LINE__, refuseds[i].body, yd_forecast(body, length, 4, 7, answer, sizeof answer), 17);
        check(__LINE__, refuseds[i].body, yd_forecast(body, length, 4, 1, answer, sizeof answer), no(refuseds[i].number, refuseds[i].place));
    }
    check_filled(__LINE__, "answer", answer, sizeof answer);
}

/* The sign. */

/* What a sign holds that was just switched on. */
static void just_on(uint8_t *image)
{
    memset(image, 0, YD_IMAGE_SIZE);
    image[YD_AT_PACE] = 4;
    image[YD_AT_SCANS] = 1;
    image[YD_AT_DIM] = 16;
}

/* The one ID that a sign has completed. */
static void completed_one(uint8_t *image, uint8_t id)
{
    image[YD_AT_COMPLETED_COUNT] = 1;
    image[YD_AT_COMPLETED] = id;
}

/* A Busy sign: this body, just switched on and then released under number 5, at its first command. */
static void running(uint8_t *image, const char *body)
{
    just_on(image);
    completed_one(image, 5);
    memcpy(image + YD_AT_ROOM, body, strlen(body));
    image[YD_AT_LENGTH] = (uint8_t)strlen(body);
}

static void power_on(void)
{
    uint8_t image[YD_IMAGE_SIZE + 1];
    uint8_t must[YD_IMAGE_SIZE];
    just_on(must);
    fill(image, sizeof image);
    CHECK(yd_power_on(image, 0), 251);
    CHECK(yd_power_on(image, 105), 251);
    CHECK(yd_power_on(image, 107), 251);
    check_filled(__LINE__, "image", image, sizeof image);
    CHECK(yd_power_on(image, 106), 0);
    check_bytes(__LINE__, "image", image, must, sizeof must);
    check_filled(__LINE__, "byte after it", image + 106, 1);
    CHECK((uint32_t)yd_is_busy(image), 0);
    running(image, "^W5");
    CHECK((uint32_t)yd_is_busy(image), 1);
    CHECK(yd_power_on(image, 106), 0);
    check_bytes(__LINE__, "image", image, must, sizeof must);
}

static void wrong_size(void)
{
    uint8_t image[YD_IMAGE_SIZE + 1];
    just_on(image);
    image[YD_IMAGE_SIZE] = 0;
    all_refuse(__LINE__, image, 0, 251);
    all_refuse(__LINE__, image, 105, 251);
    all_refuse(__LINE__, image, 107, 251);
    fill(image, sizeof image);
    all_refuse(__LINE__, image, 105, 251);
}

/* A byte of an image, and a value that makes it unsound. */
struct spoiled {
    size_t at;
    uint8_t value;
};

static void all_spoiled(int line, const uint8_t *sound, const struct spoiled *rows, size_t count)
{
    uint8_t image[YD_IMAGE_SIZE];
    uint8_t out[YD_BODY_SIZE];
    size_t i;
    check(line, "the sound image", yd_no(yd_copy_body(sound, YD_IMAGE_SIZE, out, sizeof out)), 0);
    for (i = 0; i < count; i++) {
        memcpy(image, sound, sizeof image);
        image[rows[i].at] = rows[i].value;
        all_refuse(line, image, sizeof image, 16);
    }
}

/* Settings out of range, a Ready sign with a place or a count, room that isn't zeros, and a collection that lacks something. */
static void unsound_ready(void)
{
    static const struct spoiled rows[] = {
        { YD_AT_COMPLETED_COUNT, 2 }, { YD_AT_COMPLETED_COUNT, 5 }, { YD_AT_COMPLETED, 1 },   { YD_AT_PACE, 0 },       { YD_AT_PACE, 21 },
        { YD_AT_SCANS, 0 },           { YD_AT_SCANS, 7 },           { YD_AT_SINK, 2 },        { YD_AT_DIM, 0 },        { YD_AT_BRIGHT, 1 },
        { YD_AT_BRIGHT, 32 },         { YD_AT_PLACE, 1 },           { YD_AT_LOOP_PLACE, 3 },  { YD_AT_LOOP_LEFT, 1 },  { YD_AT_ROOM, 1 },
        { YD_AT_LENGTH - 1, 1 },      { YD_AT_ID, 5 },              { YD_AT_TOTAL, 2 },       { YD_AT_LENS, 14 },      { YD_AT_LENS + 5, 1 },
        { YD_AT_LENGTH, 1 },          { YD_AT_LENGTH, 84 },         { YD_AT_LENGTH, 85 },     { YD_AT_LENGTH, 255 },
    };
    uint8_t image[YD_IMAGE_SIZE];
    just_on(image);
    all_spoiled(__LINE__, image, rows, sizeof rows / sizeof rows[0]);
}

/* Number 7 is collected: of two packets the second is held, with one byte. Then number 3Fh: of three packets the first is held. */
static void unsound_collecting(void)
{
    static const struct spoiled rows[] = {
        { YD_AT_ID, 0x40 },        { YD_AT_ID, 0x41 },        { YD_AT_ID, 3 },           { YD_AT_TOTAL, 0 },
        { YD_AT_TOTAL, 1 },        { YD_AT_TOTAL, 3 },        { YD_AT_TOTAL, 7 },        { YD_AT_LENS, 13 },
        { YD_AT_LENS, 14 },        { YD_AT_LENS + 1, 0 },     { YD_AT_LENS + 1, 15 },    { YD_AT_LENS + 2, 1 },
        { YD_AT_ROOM, 'A' },       { YD_AT_ROOM + 15, 'A' },  { YD_AT_LENGTH, 1 },       { YD_AT_PLACE, 1 },
    };
    static const struct spoiled more[] = {
        { YD_AT_ID, 0x40 },        { YD_AT_TOTAL, 7 },        { YD_AT_TOTAL, 1 },        { YD_AT_TOTAL, 0 },
        { YD_AT_LENS, 13 },        { YD_AT_LENS, 15 },        { YD_AT_LENS, 0 },         { YD_AT_LENS + 1, 13 },
        { YD_AT_LENS + 3, 1 },     { YD_AT_LENS + 4, 14 },    { YD_AT_LENS + 5, 1 },     { YD_AT_ROOM + 14, 1 },
        { YD_AT_ROOM + 83, 1 },
    };
    uint8_t image[YD_IMAGE_SIZE];
    just_on(image);
    completed_one(image, 3);
    image[YD_AT_ID] = 7;
    image[YD_AT_TOTAL] = 2;
    image[YD_AT_LENS + 1] = 1;
    image[YD_AT_ROOM + 14] = 'L';
    all_spoiled(__LINE__, image, rows, sizeof rows / sizeof rows[0]);
    just_on(image);
    image[YD_AT_ID] = 0x3F;
    image[YD_AT_TOTAL] = 3;
    image[YD_AT_LENS] = 14;
    memcpy(image + YD_AT_ROOM, "^IIABCDEFGHIJK", 14);
    all_spoiled(__LINE__, image, more, sizeof more / sizeof more[0]);
}

/* ^L2^S^E runs, first at its L, then in the loop. */
static void unsound_running(void)
{
    static const struct spoiled at_l[] = {
        { YD_AT_PLACE, 1 },    { YD_AT_PLACE, 3 },      { YD_AT_PLACE, 7 },     { YD_AT_LOOP_PLACE, 3 }, { YD_AT_LOOP_LEFT, 1 },
        { YD_AT_LENGTH, 5 },   { YD_AT_LENGTH, 6 },     { YD_AT_LENGTH, 8 },    { YD_AT_ROOM, 'A' },     { YD_AT_ROOM + 2, '0' },
        { YD_AT_ROOM + 7, 1 }, { YD_AT_ROOM + 83, 1 },  { YD_AT_ID, 7 },        { YD_AT_TOTAL, 1 },      { YD_AT_LENS, 1 },
        { YD_AT_LENS + 5, 1 }, { YD_AT_LENS + 5, 14 },
    };
    static const struct spoiled in_loop[] = {
        { YD_AT_PLACE, 0 },      { YD_AT_PLACE, 4 },     { YD_AT_PLACE, 7 },     { YD_AT_LOOP_PLACE, 0 }, { YD_AT_LOOP_PLACE, 2 },
        { YD_AT_LOOP_PLACE, 5 }, { YD_AT_LOOP_LEFT, 0 }, { YD_AT_LOOP_LEFT, 3 },
    };
    uint8_t image[YD_IMAGE_SIZE];
    running(image, "^L2^S^E");
    all_spoiled(__LINE__, image, at_l, sizeof at_l / sizeof at_l[0]);
    image[YD_AT_PLACE] = 3;
    image[YD_AT_LOOP_PLACE] = 3;
    image[YD_AT_LOOP_LEFT] = 2;
    all_spoiled(__LINE__, image, in_loop, sizeof in_loop / sizeof in_loop[0]);
    image[YD_AT_PLACE] = 5;
    image[YD_AT_LOOP_LEFT] = 1;
    all_spoiled(__LINE__, image, in_loop, sizeof in_loop / sizeof in_loop[0]);
}

/* Dim threshold and forced brightness stay; all else is as after power-on. */
static void reset_image(void)
{
    uint8_t image[YD_IMAGE_SIZE];
    uint8_t must[YD_IMAGE_SIZE];
    just_on(must);
    must[YD_AT_DIM] = 255;
    must[YD_AT_BRIGHT] = 31;
    running(image, "^L2^S^E");
    image[YD_AT_PLACE] = 5;
    image[YD_AT_LOOP_PLACE] = 3;
    image[YD_AT_LOOP_LEFT] = 1;
    image[YD_AT_PACE] = 20;
    image[YD_AT_SCANS] = 6;
    image[YD_AT_SINK] = 1;
    image[YD_AT_DIM] = 255;
    image[YD_AT_BRIGHT] = 31;
    CHECK(yd_reset(image, sizeof image), 0);
    check_bytes(__LINE__, "image", image, must, sizeof must);
    CHECK(yd_reset(image, sizeof image), 0);
    check_bytes(__LINE__, "image", image, must, sizeof must);
}

/* What the reader refuses, Ready and Busy; and 252 before that. */
static void receive_refuses(void)
{
    uint8_t image[YD_IMAGE_SIZE];
    uint8_t before[YD_IMAGE_SIZE];
    uint8_t answer[YD_RECEIVE_ANSWER_SIZE];
    size_t i;
    just_on(image);
    just_on(before);
    fill(answer, sizeof answer);
    CHECK(yd_receive(image, sizeof image, sign_mid, hi_packet, sizeof hi_packet, answer, 99), 252);
    CHECK(yd_receive(image, sizeof image, sign_mid, reset, sizeof reset, answer, 0), 252);
    CHECK(yd_receive(image, sizeof image, sign_mid, reset, 0, answer, 0), 252);
    HOLDS(before);
    check_filled(__LINE__, "answer", answer, sizeof answer);
    for (i = 0; i < WRONGS; i++)
        refuses(__LINE__, image, wrongs[i].bytes, wrongs[i].length, wrongs[i].number);
    running(image, "^IIHI");
    for (i = 0; i < WRONGS; i++)
        refuses(__LINE__, image, wrongs[i].bytes, wrongs[i].length, wrongs[i].number);
    CHECK(yd_receive(image, sizeof image, 0x82, hi_packet, sizeof hi_packet, answer, sizeof answer), 5);
}

/* Two packets in the wrong order: stored, repeated, 13, released; then a copy, 12, a query and a reset. */
static void receive_two(void)
{
    uint8_t image[YD_IMAGE_SIZE];
    uint8_t must[YD_IMAGE_SIZE];
    CHECK(YD_DID_QUERY, 1);
    CHECK(YD_DID_RESET, 2);
    CHECK(YD_DID_REPEAT, 3);
    CHECK(YD_DID_STORE, 4);
    CHECK(YD_DID_RELEASE, 5);
    just_on(image);
    just_on(must);
    TAKES(query, YD_DID_QUERY);
    HOLDS(must);
    TAKES(second_of_7, YD_DID_STORE);
    must[YD_AT_ID] = 7;
    must[YD_AT_TOTAL] = 2;
    must[YD_AT_LENS + 1] = 1;
    must[YD_AT_ROOM + 14] = 'L';
    HOLDS(must);
    TAKES(second_of_7, YD_DID_REPEAT);
    TAKES(query, YD_DID_QUERY);
    HOLDS(must);
    REFUSES(other_second_of_7, 13);
    REFUSES(longer_second_of_7, 13);
    REFUSES(other_total_of_7, 13);
    RELEASES(first_of_7, BODY_15);
    running(must, BODY_15);
    completed_one(must, 7);
    HOLDS(must);
    TAKES(first_of_7, YD_DID_REPEAT);
    TAKES(other_second_of_7, YD_DID_REPEAT);
    TAKES(query, YD_DID_QUERY);
    HOLDS(must);
    REFUSES(wait_of_8, 12);
    REFUSES(hi_packet, 12);
    TAKES(reset, YD_DID_RESET);
    just_on(must);
    HOLDS(must);
    RELEASES(wait_of_8, "^W5");
}

/* A new number drops what was collected; number 0 can be collected. */
static void receive_begins(void)
{
    static const uint8_t first_of_0[] = { 0x80, 0x7F, 0x15, 0x00, 0x60, 0x5E, 0x49, 0x49, 0x41, 0x42, 0x43,
                                          0x44, 0x45, 0x46, 0x47, 0x48, 0x49, 0x4A, 0x4B, 0x00, 0x9A };
    uint8_t image[YD_IMAGE_SIZE];
    uint8_t must[YD_IMAGE_SIZE];
    uint8_t last_of_1[YD_PACKET_SIZE];
    just_on(image);
    just_on(must);
    TAKES(second_of_7, YD_DID_STORE);
    TAKES(first_of_0, YD_DID_STORE);
    must[YD_AT_TOTAL] = 6;
    must[YD_AT_LENS] = 14;
    memcpy(must + YD_AT_ROOM, "^IIABCDEFGHIJK", 14);
    HOLDS(must);
    TAKES(first_of_0, YD_DID_REPEAT);
    TAKES(reset, YD_DID_RESET);
    just_on(must);
    HOLDS(must);
    TAKES(first_of_7, YD_DID_STORE);
    CHECK(yd_write_packet(sign_mid, 1, BYTES("^L99" THIRTY_NINE_S "^E"), 5, last_of_1, sizeof last_of_1), yes(21));
    TAKES(last_of_1, YD_DID_STORE);
    CHECK(image[YD_AT_ROOM], 0);
    CHECK(image[YD_AT_ROOM + 83], 'E');
    RELEASES(wait_of_8, "^W5");
    running(must, "^W5");
    completed_one(must, 8);
    HOLDS(must);
}

/* Every packet of a body given to a sign that isn't Busy, in order. The last must release it, with this refusal of the program. */
static void deliver(int line, uint8_t *image, uint8_t id, const char *body, uint32_t number, uint32_t place)
{
    uint8_t out[YD_TRANSMISSION_SIZE];
    uint32_t written = yd_write_transmission(sign_mid, id, bytes_of(body), strlen(body), out, sizeof out);
    size_t at = 0;
    check(line, body, yd_no(written), 0);
    while (at + out[at + 2] < yd_value(written)) {
        takes(line, image, out + at, out[at + 2], YD_DID_STORE, 0, 0, "");
        at += out[at + 2];
    }
    takes(line, image, out + at, out[at + 2], YD_DID_RELEASE, number, place, body);
    check(line, body, (uint32_t)yd_is_busy(image), number == 0);
    takes(line, image, out + at, out[at + 2], YD_DID_REPEAT, 0, 0, "");
}

/* Each body that is no program is released with its refusal and leaves the sign Ready, its number completed. */
static void receive_no_program(void)
{
    uint8_t image[YD_IMAGE_SIZE];
    uint8_t must[YD_IMAGE_SIZE];
    size_t i;
    just_on(must);
    completed_one(must, 0x3F);
    for (i = 0; i < REFUSEDS; i++) {
        size_t length = strlen(refuseds[i].body);
        if (length == 0 || length > YD_BODY_SIZE)
            continue;
        just_on(image);
        deliver(__LINE__, image, 0x3F, refuseds[i].body, refuseds[i].number, refuseds[i].place);
        HOLDS(must);
    }
}

/* One step, its seven words against those that must be. */
static void steps(int line, uint8_t *image, const struct yd_step_answer *must)
{
    uint8_t answer[YD_STEP_ANSWER_SIZE + 4];
    struct yd_step_answer is;
    fill(answer, sizeof answer);
    check(line, "yd_step", yd_step(image, YD_IMAGE_SIZE, answer, sizeof answer), 0);
    yd_get_step(answer, &is);
    check(line, "kind", is.kind, must->kind);
    check(line, "number", is.number, must->number);
    check(line, "text_place", is.text_place, must->text_place);
    check(line, "text_length", is.text_length, must->text_length);
    check(line, "column", is.column, must->column);
    check(line, "scans", is.scans, must->scans);
    check(line, "ms", is.ms, must->ms);
    check_filled(line, "rest of the answer", answer + YD_STEP_ANSWER_SIZE, 4);
}

static const struct yd_step_answer idle = { 0, 0, 0, 0, 0, 0, 0 };

/* All kinds that end, in one program of 53 bytes. */
static void step_kinds(void)
{
    static const struct yd_step_answer rows[] = {
        { YD_KIND_II, 0, 3, 2, 42, 0, 0 },       { YD_KIND_IA, 0, 8, 2, 42, 7, 156 }, { YD_KIND_IB, 0, 13, 2, 42, 7, 156 },
        { YD_KIND_S, 0, 17, 2, 0, 108, 2400 },   { YD_KIND_L, 1, 0, 0, 0, 0, 0 },     { YD_KIND_E, 0, 0, 0, 0, 0, 0 },
        { YD_KIND_XS, 0, 0, 0, 0, 0, 0 },        { YD_KIND_XF, 0, 0, 0, 0, 0, 0 },    { YD_KIND_P, 7, 0, 0, 0, 0, 0 },
        { YD_KIND_EQUALS, 2, 0, 0, 0, 0, 0 },    { YD_KIND_W, 5, 0, 0, 0, 0, 500 },   { YD_KIND_XD, 20, 0, 0, 0, 0, 0 },
        { YD_KIND_XB, 40, 0, 0, 0, 0, 0 },       { YD_KIND_Y, 17, 0, 0, 0, 0, 0 },
    };
    uint8_t image[YD_IMAGE_SIZE];
    uint8_t must[YD_IMAGE_SIZE];
    size_t i;
    just_on(image);
    deliver(__LINE__, image, 9, "^IIHI^IAHI^IBHI^SHI^L1^E^XS^XF^P7^=2^W5^XD20^XB40^Y17", 0, 0);
    for (i = 0; i < sizeof rows / sizeof rows[0]; i++) {
        CHECK((uint32_t)yd_is_busy(image), 1);
        steps(__LINE__, image, &rows[i]);
        if (rows[i].kind == YD_KIND_XS)
            CHECK(image[YD_AT_SINK], 1);
    }
    just_on(must);
    completed_one(must, 9);
    must[YD_AT_PACE] = 7;
    must[YD_AT_SCANS] = 2;
    must[YD_AT_DIM] = 20;
    must[YD_AT_BRIGHT] = 31;
    HOLDS(must);
    steps(__LINE__, image, &idle);
    HOLDS(must);
    CHECK(YD_KIND_IDLE, 0);
    CHECK(YD_KIND_II, 1);
    CHECK(YD_KIND_IA, 2);
    CHECK(YD_KIND_IB, 3);
    CHECK(YD_KIND_S, 4);
    CHECK(YD_KIND_L, 5);
    CHECK(YD_KIND_E, 6);
    CHECK(YD_KIND_F, 7);
    CHECK(YD_KIND_R, 8);
    CHECK(YD_KIND_XS, 9);
    CHECK(YD_KIND_XF, 10);
    CHECK(YD_KIND_P, 11);
    CHECK(YD_KIND_EQUALS, 12);
    CHECK(YD_KIND_W, 13);
    CHECK(YD_KIND_XD, 14);
    CHECK(YD_KIND_XB, 15);
    CHECK(YD_KIND_Y, 16);
}

/* A loop of two passes, with the place and the count in the image after each step. */
static void step_loop(void)
{
    static const struct yd_step_answer l = { YD_KIND_L, 2, 0, 0, 0, 0, 0 };
    static const struct yd_step_answer s = { YD_KIND_S, 0, 5, 0, 0, 0, 0 };
    static const struct yd_step_answer e = { YD_KIND_E, 0, 0, 0, 0, 0, 0 };
    uint8_t image[YD_IMAGE_SIZE];
    uint8_t must[YD_IMAGE_SIZE];
    running(image, "^L2^S^E");
    running(must, "^L2^S^E");
    steps(__LINE__, image, &l);
    must[YD_AT_PLACE] = 3;
    must[YD_AT_LOOP_PLACE] = 3;
    must[YD_AT_LOOP_LEFT] = 2;
    HOLDS(must);
    steps(__LINE__, image, &s);
    must[YD_AT_PLACE] = 5;
    HOLDS(must);
    steps(__LINE__, image, &e);
    must[YD_AT_PLACE] = 3;
    must[YD_AT_LOOP_LEFT] = 1;
    HOLDS(must);
    steps(__LINE__, image, &s);
    steps(__LINE__, image, &e);
    just_on(must);
    completed_one(must, 5);
    HOLDS(must);
}

/* F goes back to its L, R to the first command, again and again. A text that doesn't fit is performed as S. */
static void step_others(void)
{
    static const struct yd_step_answer l = { YD_KIND_L, 2, 0, 0, 0, 0, 0 };
    static const struct yd_step_answer f = { YD_KIND_F, 0, 0, 0, 0, 0, 0 };
    static const struct yd_step_answer r = { YD_KIND_R, 0, 0, 0, 0, 0, 0 };
    static const struct yd_step_answer w = { YD_KIND_W, 1, 0, 0, 0, 0, 100 };
    static const struct yd_step_answer fits = { YD_KIND_IB, 0, 3, 16, 0, 7, 156 };
    static const struct yd_step_answer scrolls = { YD_KIND_S, 0, 3, 17, 0, 198, 4400 };
    static const struct yd_step_answer odd = { YD_KIND_II, 0, 3, 3, 47, 0, 0 };
    uint8_t image[YD_IMAGE_SIZE];
    int i;
    running(image, "^L2^W1^F");
    steps(__LINE__, image, &l);
    for (i = 0; i < 3; i++) {
        steps(__LINE__, image, &w);
        CHECK(image[YD_AT_LOOP_LEFT], 2);
        steps(__LINE__, image, &f);
        CHECK(image[YD_AT_PLACE], 3);
    }
    running(image, "^W1^R");
    for (i = 0; i < 3; i++) {
        steps(__LINE__, image, &w);
        steps(__LINE__, image, &r);
        CHECK(image[YD_AT_PLACE], 0);
    }
    running(image, "^IB" SIXTEEN);
    steps(__LINE__, image, &fits);
    running(image, "^IB" SIXTEEN "Q");
    steps(__LINE__, image, &scrolls);
    running(image, "^II~G\xFF");
    steps(__LINE__, image, &odd);
}

/* The blank columns of what is shown last count neither for fitting nor for the start column, but a scroll takes them too. */
static void step_edges(void)
{
    static const struct {
        const char *body;
        struct yd_step_answer answer;
    } rows[] = {
        { "^IA" EDGE, { YD_KIND_IA, 0, 3, 18, 0, 7, 156 } },
        { "^S" EDGE, { YD_KIND_S, 0, 2, 18, 0, 193, 4289 } },
        { "^IB" WIDE, { YD_KIND_S, 0, 3, 18, 0, 196, 4356 } },
        { "^II~bABCDEFGHIJK", { YD_KIND_II, 0, 3, 13, 0, 0, 0 } },
        { "^IIA~b", { YD_KIND_II, 0, 3, 3, 45, 0, 0 } },
        { "^II~bA~D", { YD_KIND_II, 0, 3, 5, 45, 0, 0 } },
        { "^II~CA~G", { YD_KIND_II, 0, 3, 5, 46, 0, 0 } },
        { "^IIA~G\x80", { YD_KIND_II, 0, 3, 4, 44, 0, 0 } },
        { "^II~G\x80 ", { YD_KIND_II, 0, 3, 4, 45, 0, 0 } },
    };
    uint8_t image[YD_IMAGE_SIZE];
    size_t i;
    for (i = 0; i < sizeof rows / sizeof rows[0]; i++) {
        running(image, rows[i].body);
        steps(__LINE__, image, &rows[i].answer);
    }
}

/* Forced brightness: above 31 acts as 31; 0 and 1 end it. */
static void step_brightness(void)
{
    static const struct yd_step_answer rows[] = {
        { YD_KIND_XB, 2, 0, 0, 0, 0, 0 },   { YD_KIND_XB, 1, 0, 0, 0, 0, 0 },  { YD_KIND_XB, 31, 0, 0, 0, 0, 0 },
        { YD_KIND_XB, 0, 0, 0, 0, 0, 0 },   { YD_KIND_XB, 30, 0, 0, 0, 0, 0 }, { YD_KIND_XB, 32, 0, 0, 0, 0, 0 },
        { YD_KIND_XB, 255, 0, 0, 0, 0, 0 },
    };
    static const uint8_t bright[] = { 2, 0, 31, 0, 30, 31, 31 };
    uint8_t image[YD_IMAGE_SIZE];
    size_t i;
    running(image, "^XB2^XB1^XB31^XB0^XB30^XB32^XB255");
    for (i = 0; i < sizeof bright; i++) {
        steps(__LINE__, image, &rows[i]);
        CHECK(image[YD_AT_BRIGHT], bright[i]);
    }
}

static void step_short(void)
{
    uint8_t image[YD_IMAGE_SIZE];
    uint8_t must[YD_IMAGE_SIZE];
    uint8_t answer[YD_STEP_ANSWER_SIZE];
    running(image, "^W5");
    running(must, "^W5");
    fill(answer, sizeof answer);
    CHECK(yd_step(image, sizeof image, answer, 27), 252);
    CHECK(yd_step(image, sizeof image, answer, 0), 252);
    HOLDS(must);
    check_filled(__LINE__, "answer", answer, sizeof answer);
    just_on(image);
    CHECK(yd_step(image, sizeof image, answer, 27), 252);
    check_filled(__LINE__, "answer", answer, sizeof answer);
}

/* Each accepted body, delivered and stepped: the steps and their sums are the forecast's, and it leaves the pace and the scan setting
 * that the forecast says, and nothing else. An endless one is still Busy after many steps. */
static void step_as_forecast(void)
{
    static const uint8_t zeros[YD_IMAGE_SIZE] = { 0 };
    uint8_t image[YD_IMAGE_SIZE];
    uint8_t answer[YD_STEP_ANSWER_SIZE];
    size_t i;
    for (i = 0; i < ACCEPTEDS; i++) {
        const struct yd_forecast_answer *must = &accepteds[i].forecast;
        uint32_t count = 0;
        uint32_t scans = 0;
        uint32_t ms = 0;
        uint32_t refused = 0;
        just_on(image);
        deliver(__LINE__, image, 1, accepteds[i].body, 0, 0);
        while (yd_is_busy(image) && count < 5000) {
            refused |= yd_step(image, sizeof image, answer, sizeof answer);
            count++;
            scans += yd_word(answer, YD_WORD_STEP_SCANS);
            ms += yd_word(answer, YD_WORD_STEP_MS);
        }
        check(__LINE__, accepteds[i].body, refused, 0);
        check(__LINE__, accepteds[i].body, (uint32_t)yd_is_busy(image), must->endless);
        check(__LINE__, accepteds[i].body, count, must->endless ? 5000 : must->steps);
        if (must->endless)
            continue;
        check(__LINE__, accepteds[i].body, scans, must->scans);
        check(__LINE__, accepteds[i].body, ms, must->ms);
        check(__LINE__, accepteds[i].body, image[YD_AT_PACE], must->pace);
        check(__LINE__, accepteds[i].body, image[YD_AT_SCANS], must->scan_setting);
        check_bytes(__LINE__, accepteds[i].body, image + YD_AT_ID, zeros, YD_AT_PACE - YD_AT_ID);
    }
}

/* The reply tells the image's last ID and whether it is Busy, and the pin as the caller read it, however the program drives it. */
static void reply(void)
{
    uint8_t image[YD_IMAGE_SIZE];
    uint8_t must[YD_IMAGE_SIZE];
    uint8_t out[YD_REPLY_SIZE + 1];
    just_on(image);
    just_on(must);
    fill(out, sizeof out);
    CHECK(yd_reply(image, sizeof image, sign_mid, YD_AUX_FLOAT, out, 7), 34);
    CHECK(yd_reply(image, sizeof image, sign_mid, YD_AUX_FLOAT, out, 0), 34);
    check_filled(__LINE__, "out", out, sizeof out);
    CHECK(yd_reply(image, sizeof image, sign_mid, YD_AUX_FLOAT, out, sizeof out), yes(8));
    check_bytes(__LINE__, "reply", out, reply_after_power_on, sizeof reply_after_power_on);
    check_filled(__LINE__, "rest of out", out + 8, 1);
    HOLDS(must);
    image[YD_AT_SINK] = 1;
    CHECK(yd_reply(image, sizeof image, sign_mid, YD_AUX_FLOAT, out, 8), yes(8));
    check_bytes(__LINE__, "reply", out, reply_after_power_on, sizeof reply_after_power_on);
    running(image, "^W5");
    CHECK(yd_reply(image, sizeof image, sign_mid, YD_AUX_SINK, out, 8), yes(8));
    check_bytes(__LINE__, "reply", out, reply_busy_sink, sizeof reply_busy_sink);
    fill(out, sizeof out);
    CHECK(yd_reply(image, sizeof image, sign_mid, 0x80, out, 8), yes(8));
    check_bytes(__LINE__, "reply", out, reply_busy_sink, sizeof reply_busy_sink);
    running(must, "^W5");
    HOLDS(must);
}

static void copy_body(void)
{
    uint8_t image[YD_IMAGE_SIZE];
    uint8_t must[YD_IMAGE_SIZE];
    uint8_t out[YD_BODY_SIZE];
    just_on(image);
    fill(out, sizeof out);
    CHECK(yd_copy_body(image, sizeof image, out, sizeof out), yes(0));
    CHECK(yd_copy_body(image, sizeof image, out, 0), yes(0));
    running(image, "^IIHI");
    running(must, "^IIHI");
    CHECK(yd_copy_body(image, sizeof image, out, 4), 34);
    CHECK(yd_copy_body(image, sizeof image, out, 0), 34);
    check_filled(__LINE__, "out", out, sizeof out);
    CHECK(yd_copy_body(image, sizeof image, out, sizeof out), yes(5));
    check_bytes(__LINE__, "body", out, bytes_of("^IIHI"), 5);
    check_filled(__LINE__, "rest of out", out + 5, sizeof out - 5);
    HOLDS(must);
    CHECK(yd_copy_body(image, sizeof image, out, 5), yes(5));
    running(image, "^L99" THIRTY_NINE_S "^E");
    CHECK(yd_copy_body(image, sizeof image, out, 83), 34);
    CHECK(yd_copy_body(image, sizeof image, out, 84), yes(84));
    check_bytes(__LINE__, "body", out, bytes_of("^L99" THIRTY_NINE_S "^E"), 84);
}

/* The stretch of a step's text, an empty text too; the standing line at place 0 and where the stretch isn't within the body. */
static void repeat(void)
{
    CHECK(yd_repeat(BYTES("^IIHI"), 3, 2), yes(1));
    CHECK(yd_repeat(BYTES("^IIHI"), 1, 4), yes(1));
    CHECK(yd_repeat(BYTES("^S"), 2, 0), yes(1));
    CHECK(yd_repeat(BYTES("^IIHI"), 5, 0), yes(1));
    CHECK(yd_repeat(BYTES("^IIHI"), 0, 0), yes(0));
    CHECK(yd_repeat(BYTES("^IIHI"), 0, 5), yes(0));
    CHECK(yd_repeat(BYTES("^IIHI"), 3, 3), yes(0));
    CHECK(yd_repeat(BYTES("^IIHI"), 6, 0), yes(0));
    CHECK(yd_repeat(BYTES("^IIHI"), SIZE_MAX, 0), yes(0));
    CHECK(yd_repeat(BYTES("^IIHI"), SIZE_MAX, 2), yes(0));
    CHECK(yd_repeat(BYTES("^IIHI"), 3, SIZE_MAX), yes(0));
    CHECK(yd_repeat(BYTES("^IIHI"), 3, SIZE_MAX - 2), yes(0));
    CHECK(yd_repeat(BYTES(""), 0, 0), yes(0));
    CHECK(yd_repeat(BYTES(""), 1, 0), yes(0));
}

/* The guard for the MID: the four that are forbidden and their neighbours, the last bytes of a query to each and of its reply after
 * power-on with AUX reading F, and the MID that the reply carries. */
struct mid {
    uint8_t mid;
    int forbidden;
    uint8_t query_sum;
    uint8_t turned;
    uint8_t reply_sum;
};
static const struct mid mids[] = {
    { 0x00, 1, 0x2A, 0x01, 0x9F }, { 0x01, 1, 0x29, 0x00, 0xA0 }, { 0x02, 0, 0x28, 0x03, 0x9D }, { 0x7D, 0, 0xAD, 0x7C, 0x24 },
    { 0x7E, 1, 0xAC, 0x7F, 0x21 }, { 0x7F, 1, 0xAB, 0x7E, 0x22 }, { 0x80, 0, 0xAA, 0x81, 0x1F }, { 0xFF, 0, 0x2B, 0xFE, 0xA2 },
};
enum { MIDS = sizeof mids / sizeof mids[0] };

/* Every call that takes a MID, with a forbidden one, on a sound image: right in all else, and wrong in all else. */
static void all_forbid(uint8_t mid, const uint8_t *to_it, const uint8_t *from_it, const uint8_t *record)
{
    uint8_t image[YD_IMAGE_SIZE];
    uint8_t lent[YD_TRANSMISSION_SIZE];
    memcpy(image, record, sizeof image);
    fill(lent, sizeof lent);
    CHECK(yd_read_packet(mid, to_it, 7, lent, 20), 19);
    CHECK(yd_read_packet(mid, query, 7, lent, 20), 19);
    CHECK(yd_read_packet(mid, to_it, 0, lent, 0), 19);
    CHECK(yd_read_reply(mid, from_it, 8, lent, 12), 19);
    CHECK(yd_read_reply(mid, from_it, 0, lent, 0), 19);
    CHECK(yd_write_query(mid, lent, 7), 19);
    CHECK(yd_write_query(mid, lent, 0), 19);
    CHECK(yd_write_reset(mid, lent, 7), 19);
    CHECK(yd_write_reset(mid, lent, 0), 19);
    CHECK(yd_write_packet(mid, 5, BYTES("^IIHI"), 0, lent, sizeof lent), 19);
    CHECK(yd_write_packet(mid, 0x40, BYTES(""), 6, lent, 0), 19);
    CHECK(yd_write_transmission(mid, 5, BYTES("^IIHI"), lent, sizeof lent), 19);
    CHECK(yd_write_transmission(mid, 0x40, BYTES(""), lent, 0), 19);
    CHECK(yd_write_reply(mid, 0x41, 0, YD_AUX_FLOAT, lent, sizeof lent), 19);
    CHECK(yd_write_reply(mid, 0x40, 0, YD_AUX_FLOAT, lent, 0), 19);
    CHECK(yd_receive(image, sizeof image, mid, to_it, 7, lent, sizeof lent), 19);
    CHECK(yd_receive(image, sizeof image, mid, to_it, 0, lent, 0), 19);
    CHECK(yd_reply(image, sizeof image, mid, YD_AUX_FLOAT, lent, sizeof lent), 19);
    CHECK(yd_reply(image, sizeof image, mid, YD_AUX_FLOAT, lent, 0), 19);
    /* An unsound record and an image of another size come before it. */
    image[YD_AT_COMPLETED_COUNT] = 5;
    CHECK(yd_receive(image, sizeof image, mid, to_it, 7, lent, sizeof lent), 16);
    CHECK(yd_receive(image, sizeof image, mid, to_it, 0, lent, 0), 16);
    CHECK(yd_reply(image, sizeof image, mid, YD_AUX_FLOAT, lent, 0), 16);
    CHECK(yd_receive(image, 105, mid, to_it, 7, lent, sizeof lent), 251);
    CHECK(yd_reply(image, 105, mid, YD_AUX_FLOAT, lent, 0), 251);
    image[YD_AT_COMPLETED_COUNT] = record[YD_AT_COMPLETED_COUNT];
    check_bytes(__LINE__, "image", image, record, sizeof image);
    check_filled(__LINE__, "lent bytes", lent, sizeof lent);
}

/* And one that is taken. */
static void all_take(uint8_t mid, const uint8_t *to_it, const uint8_t *from_it, const uint8_t *record)
{
    uint8_t image[YD_IMAGE_SIZE];
    uint8_t lent[YD_TRANSMISSION_SIZE];
    memcpy(image, record, sizeof image);
    CHECK(yd_write_query(mid, lent, 7), yes(7));
    check_bytes(__LINE__, "query", lent, to_it, 7);
    CHECK(yd_write_reset(mid, lent, 7), yes(7));
    CHECK(lent[0], mid);
    CHECK(yd_write_packet(mid, 5, BYTES("^IIHI"), 0, lent, sizeof lent), yes(12));
    CHECK(lent[0], mid);
    CHECK(yd_write_transmission(mid, 5, BYTES("^IIHI"), lent, sizeof lent), yes(12));
    CHECK(lent[0], mid);
    CHECK(yd_write_reply(mid, 0x41, 0, YD_AUX_FLOAT, lent, sizeof lent), yes(8));
    check_bytes(__LINE__, "reply", lent, from_it, 8);
    CHECK(yd_reply(image, sizeof image, mid, YD_AUX_FLOAT, lent, sizeof lent), yes(8));
    check_bytes(__LINE__, "reply", lent, from_it, 8);
    CHECK(yd_read_packet(mid, to_it, 7, lent, 20), 0);
    CHECK(yd_word(lent, YD_WORD_PACKET_WHAT), YD_READ_QUERY);
    CHECK(yd_read_reply(mid, from_it, 8, lent, 12), 0);
    CHECK(yd_word(lent, YD_WORD_REPLY_LAST), 0x41);
    CHECK(yd_receive(image, sizeof image, mid, to_it, 7, lent, sizeof lent), 0);
    CHECK(yd_word(lent, YD_WORD_RECEIVE_OUTCOME), YD_DID_QUERY);
}

static void forbidden_mids(void)
{
    uint8_t to_it[] = { 0, 0x7F, 0x07, 0x40, 0x10, 0x00, 0 };
    uint8_t from_it[] = { 0, 0x7F, 0x08, 0x41, 0x52, 0x46, 0x00, 0 };
    uint8_t ready[YD_IMAGE_SIZE];
    uint8_t busy[YD_IMAGE_SIZE];
    size_t i;
    just_on(ready);
    running(busy, "^W5");
    for (i = 0; i < MIDS; i++) {
        to_it[0] = mids[i].mid;
        to_it[6] = mids[i].query_sum;
        from_it[0] = mids[i].turned;
        from_it[7] = mids[i].reply_sum;
        if (mids[i].forbidden) {
            all_forbid(mids[i].mid, to_it, from_it, ready);
            all_forbid(mids[i].mid, to_it, from_it, busy);
        } else {
            all_take(mids[i].mid, to_it, from_it, ready);
        }
    }
}

/* The sign's own MID is judged, and not the packet's: a query to 7Fh is 19 there, and 5 to the sign of 80h. */
static void own_mid(void)
{
    static const uint8_t to_7f[] = { 0x7F, 0x7F, 0x07, 0x40, 0x10, 0x00, 0xAB };
    static const uint8_t from_7f[] = { 0x7E, 0x7F, 0x08, 0x41, 0x52, 0x46, 0x00, 0x22 };
    uint8_t image[YD_IMAGE_SIZE];
    uint8_t answer[YD_RECEIVE_ANSWER_SIZE];
    unsigned mid;
    just_on(image);
    CHECK(yd_read_packet(0x7F, to_7f, sizeof to_7f, answer, sizeof answer), 19);
    CHECK(yd_read_packet(sign_mid, to_7f, sizeof to_7f, answer, sizeof answer), 5);
    CHECK(yd_receive(image, sizeof image, sign_mid, to_7f, sizeof to_7f, answer, sizeof answer), 5);
    CHECK(yd_read_reply(sign_mid, from_7f, sizeof from_7f, answer, sizeof answer), 35);
    for (mid = 0; mid < 256; mid++) {
        int forbidden = mid == 0x00 || mid == 0x01 || mid == 0x7E || mid == 0x7F;
        CHECK(yd_write_query((uint8_t)mid, answer, 0), forbidden ? 19 : 34);
        CHECK(yd_read_packet((uint8_t)mid, to_7f, 0, answer, sizeof answer), forbidden ? 19 : 1);
        CHECK(yd_read_reply((uint8_t)mid, from_7f, 0, answer, sizeof answer), forbidden ? 19 : 35);
    }
}

int main(void)
{
    tests_of("tests/c/calls.c");
    numbers_for_no();
    sizes();
    offsets();
    results();
    read_packet();
    write_query_and_reset();
    write_packet();
    write_transmission();
    write_reply();
    read_reply();
    judge();
    forecast_yes();
    forecast_no();
    power_on();
    wrong_size();
    unsound_ready();
    unsound_collecting();
    unsound_running();
    reset_image();
    receive_refuses();
    receive_two();
    receive_begins();
    receive_no_program();
    step_kinds();
    step_loop();
    step_others();
    step_edges();
    step_brightness();
    step_short();
    step_as_forecast();
    reply();
    copy_body();
    repeat();
    forbidden_mids();
    own_mid();
    tests_of("tests/c/completed.c");
    completed_ids();
    return told();
}
