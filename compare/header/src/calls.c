/* The calls of the header, each behind a function that does nothing else: what is raced are the header's own declarations, in C. */

#include "yurodekapi.h"

uint32_t race_read_packet(uint8_t mid, const uint8_t *bytes, size_t bytes_len, uint8_t *answer, size_t answer_len)
{
    return yd_read_packet(mid, bytes, bytes_len, answer, answer_len);
}

uint32_t race_write_query(uint8_t mid, uint8_t *out, size_t out_len)
{
    return yd_write_query(mid, out, out_len);
}

uint32_t race_write_reset(uint8_t mid, uint8_t *out, size_t out_len)
{
    return yd_write_reset(mid, out, out_len);
}

uint32_t race_write_packet(uint8_t mid, uint8_t id, const uint8_t *body, size_t body_len, uint8_t position, uint8_t *out,
                           size_t out_len)
{
    return yd_write_packet(mid, id, body, body_len, position, out, out_len);
}

uint32_t race_write_transmission(uint8_t mid, uint8_t id, const uint8_t *body, size_t body_len, uint8_t *out, size_t out_len)
{
    return yd_write_transmission(mid, id, body, body_len, out, out_len);
}

uint32_t race_write_reply(uint8_t mid, uint8_t last, uint8_t busy, uint8_t aux, uint8_t *out, size_t out_len)
{
    return yd_write_reply(mid, last, busy, aux, out, out_len);
}

uint32_t race_read_reply(uint8_t mid, const uint8_t *bytes, size_t bytes_len, uint8_t *answer, size_t answer_len)
{
    return yd_read_reply(mid, bytes, bytes_len, answer, answer_len);
}

uint32_t race_judge(const uint8_t *body, size_t body_len)
{
    return yd_judge(body, body_len);
}

uint32_t race_forecast(const uint8_t *body, size_t body_len, uint8_t pace, uint8_t scan_setting, uint8_t *answer,
                       size_t answer_len)
{
    return yd_forecast(body, body_len, pace, scan_setting, answer, answer_len);
}

uint32_t race_power_on(uint8_t *image, size_t image_len)
{
    return yd_power_on(image, image_len);
}

uint32_t race_reset(uint8_t *image, size_t image_len)
{
    return yd_reset(image, image_len);
}

uint32_t race_receive(uint8_t *image, size_t image_len, uint8_t mid, const uint8_t *bytes, size_t bytes_len, uint8_t *answer,
                      size_t answer_len)
{
    return yd_receive(image, image_len, mid, bytes, bytes_len, answer, answer_len);
}

uint32_t race_step(uint8_t *image, size_t image_len, uint8_t *answer, size_t answer_len)
{
    return yd_step(image, image_len, answer, answer_len);
}

uint32_t race_reply(const uint8_t *image, size_t image_len, uint8_t mid, uint8_t aux, uint8_t *out, size_t out_len)
{
    return yd_reply(image, image_len, mid, aux, out, out_len);
}

uint32_t race_copy_body(const uint8_t *image, size_t image_len, uint8_t *out, size_t out_len)
{
    return yd_copy_body(image, image_len, out, out_len);
}

uint32_t race_repeat(const uint8_t *body, size_t body_len, size_t place, size_t length)
{
    return yd_repeat(body, body_len, place, length);
}

uint32_t race_version(void)
{
    return yd_version();
}
