/* What the header names, held to what the race counts with. At the first difference the race ends, and says which it was. */

#include <assert.h>
#include <string.h>

#include "yurodekapi.h"

#define NEXT_IS(name) assert(used < end && *used++ == (name))

/* The sizes, numbers and places, in the order of race/src/names.rs. */
void race_assert_names(const uint32_t *used, size_t count)
{
    const uint32_t *end = used + count;

    NEXT_IS(YD_VERSION);

    NEXT_IS(YD_BODY_SIZE);
    NEXT_IS(YD_QUERY_SIZE);
    NEXT_IS(YD_RESET_SIZE);
    NEXT_IS(YD_PACKET_DATA_SIZE);
    NEXT_IS(YD_PACKET_SIZE);
    NEXT_IS(YD_TRANSMISSION_SIZE);
    NEXT_IS(YD_REPLY_SIZE);
    NEXT_IS(YD_IMAGE_SIZE);
    NEXT_IS(YD_PACKET_ANSWER_SIZE);
    NEXT_IS(YD_REPLY_ANSWER_SIZE);
    NEXT_IS(YD_FORECAST_ANSWER_SIZE);
    NEXT_IS(YD_RECEIVE_ANSWER_SIZE);
    NEXT_IS(YD_STEP_ANSWER_SIZE);
    NEXT_IS(YD_PACKET_DATA_OFFSET);
    NEXT_IS(YD_RECEIVE_BODY_OFFSET);

    NEXT_IS(YD_YES);
    NEXT_IS(YD_NO_UNDER_7);
    NEXT_IS(YD_NO_OVER_21);
    NEXT_IS(YD_NO_COUNT);
    NEXT_IS(YD_NO_SUM);
    NEXT_IS(YD_NO_MID);
    NEXT_IS(YD_NO_SECOND);
    NEXT_IS(YD_NO_ZERO);
    NEXT_IS(YD_NO_ID_OVER);
    NEXT_IS(YD_NO_ID_LENGTH);
    NEXT_IS(YD_NO_POSITION);
    NEXT_IS(YD_NO_NOT_FULL);
    NEXT_IS(YD_NO_BUSY);
    NEXT_IS(YD_NO_OTHER);
    NEXT_IS(YD_NO_UNSOUND);
    NEXT_IS(YD_NO_SETTINGS);
    NEXT_IS(YD_NO_MID_FORBIDDEN);
    NEXT_IS(YD_NO_CARET);
    NEXT_IS(YD_NO_UNKNOWN);
    NEXT_IS(YD_NO_NUMBER);
    NEXT_IS(YD_NO_FORBIDDEN);
    NEXT_IS(YD_NO_TILDE);
    NEXT_IS(YD_NO_LOOP);
    NEXT_IS(YD_NO_AFTER_END);
    NEXT_IS(YD_NO_OVER_84);
    NEXT_IS(YD_NO_BODY);
    NEXT_IS(YD_NO_WRITE_ID);
    NEXT_IS(YD_NO_WRITE_POSITION);
    NEXT_IS(YD_NO_OUT_SHORT);
    NEXT_IS(YD_NO_REPLY);
    NEXT_IS(YD_NO_IMAGE_SIZE);
    NEXT_IS(YD_NO_ANSWER_SHORT);

    NEXT_IS(YD_AT_COMPLETED_COUNT);
    NEXT_IS(YD_AT_COMPLETED);
    NEXT_IS(YD_AT_ID);
    NEXT_IS(YD_AT_TOTAL);
    NEXT_IS(YD_AT_LENS);
    NEXT_IS(YD_AT_ROOM);
    NEXT_IS(YD_AT_LENGTH);
    NEXT_IS(YD_AT_PLACE);
    NEXT_IS(YD_AT_LOOP_PLACE);
    NEXT_IS(YD_AT_LOOP_LEFT);
    NEXT_IS(YD_AT_PACE);
    NEXT_IS(YD_AT_SCANS);
    NEXT_IS(YD_AT_SINK);
    NEXT_IS(YD_AT_DIM);
    NEXT_IS(YD_AT_BRIGHT);

    NEXT_IS(YD_KIND_IDLE);
    NEXT_IS(YD_KIND_II);
    NEXT_IS(YD_KIND_IA);
    NEXT_IS(YD_KIND_IB);
    NEXT_IS(YD_KIND_S);
    NEXT_IS(YD_KIND_L);
    NEXT_IS(YD_KIND_E);
    NEXT_IS(YD_KIND_F);
    NEXT_IS(YD_KIND_R);
    NEXT_IS(YD_KIND_XS);
    NEXT_IS(YD_KIND_XF);
    NEXT_IS(YD_KIND_P);
    NEXT_IS(YD_KIND_EQUALS);
    NEXT_IS(YD_KIND_W);
    NEXT_IS(YD_KIND_XD);
    NEXT_IS(YD_KIND_XB);
    NEXT_IS(YD_KIND_Y);

    NEXT_IS(YD_READ_QUERY);
    NEXT_IS(YD_READ_RESET);
    NEXT_IS(YD_READ_NORMAL);

    NEXT_IS(YD_DID_QUERY);
    NEXT_IS(YD_DID_RESET);
    NEXT_IS(YD_DID_REPEAT);
    NEXT_IS(YD_DID_STORE);
    NEXT_IS(YD_DID_RELEASE);

    NEXT_IS(YD_AUX_FLOAT);
    NEXT_IS(YD_AUX_SINK);

    assert(used == end);
}

/* The functions that the header has itself, on these bytes, of which the race reads these words. */
void race_assert_readers(const uint8_t *bytes, const uint32_t *words)
{
    struct yd_packet_answer packet;
    struct yd_reply_answer reply;
    struct yd_forecast_answer forecast;
    struct yd_receive_answer receive;
    struct yd_step_answer step;
    uint8_t image[YD_IMAGE_SIZE] = {0};
    uint8_t count;
    uint8_t id;

    assert(yd_no(words[0]) == bytes[0]);
    assert(yd_value(words[0]) == words[0] / 256);

    yd_get_packet(bytes, &packet);
    assert(packet.what == words[0]);
    assert(packet.id == words[1]);
    assert(packet.total == words[2]);
    assert(packet.position == words[3]);
    assert(packet.length == words[4]);

    yd_get_reply(bytes, &reply);
    assert(reply.last == words[0]);
    assert(reply.busy == words[1]);
    assert(reply.aux == words[2]);

    yd_get_forecast(bytes, &forecast);
    assert(forecast.endless == words[0]);
    assert(forecast.steps == words[1]);
    assert(forecast.scans == words[2]);
    assert(forecast.ms == words[3]);
    assert(forecast.pace == words[4] % 256);
    assert(forecast.scan_setting == words[5] % 256);

    yd_get_receive(bytes, &receive);
    assert(receive.outcome == words[0]);
    assert(receive.no == words[1]);
    assert(receive.place == words[2]);
    assert(receive.length == words[3]);
    assert(memcmp(receive.body, bytes + 16, sizeof receive.body) == 0);
    assert(sizeof receive.body == 84);

    yd_get_step(bytes, &step);
    assert(step.kind == words[0]);
    assert(step.number == words[1]);
    assert(step.text_place == words[2]);
    assert(step.text_length == words[3]);
    assert(step.column == words[4]);
    assert(step.scans == words[5]);
    assert(step.ms == words[6]);

    assert(yd_is_busy(image) == 0);
    image[97] = 84;
    assert(yd_is_busy(image) == 1);

    assert(yd_last_completed(image) == 0x41);
    for (count = 1; count <= 4; count++) {
        image[0] = count;
        image[count] = (uint8_t)(count - 1);
        for (id = 0; id <= 0x3f; id++) {
            image[1] = id;
            assert(yd_last_completed(image) == id);
        }
    }
}

/* The functions that the header has for an image, on one that was replied from, against that reply. */
void race_assert_asked(const uint8_t *image, const uint8_t *reply)
{
    assert(yd_last_completed(image) == reply[3]);
    assert(yd_is_busy(image) == (reply[4] == 'B'));
}
