/* Yurodekapi for C, version 1.3: the calls of the message unit over numbers and lent bytes.
 *
 * Language. C99 or later, or C++11 or later. Link with target/staticlib/libcabi.a, which tools/archive.sh writes.
 *
 * Results. Every call answers for all inputs. It returns a result of 32 bits: the number for no in its low byte (0 is yes), and a value
 * above it. yd_no and yd_value read the two. A yes of a writer has the length in the value; a no of 21 to 28 has the place there; where
 * nothing is said of the value it is 0. A call that refuses changes no lent byte.
 *
 * Buffers. A buffer is a pointer and a length. The pointer must be good for that many bytes, and must not be null, not even at length 0.
 * Buffers of one call must not overlap if one of them is written. An answer may be lent more bytes than it needs: the rest stays. No buffer
 * needs an alignment.
 *
 * Answers. An answer is a row of words of 4 bytes, lowest byte first, on any machine. Read it only after a yes: yd_word reads one word,
 * and the yd_get functions read a whole answer into a struct.
 *
 * Names. YD_NO_ is a number for no, YD_READ_ what a packet is, YD_DID_ what a packet did, YD_KIND_ what a step performed, YD_AT_ an offset
 * in the image, YD_WORD_ the index of a word in an answer, YD_AUX_ a reading of the AUX pin. A name that ends in _SIZE is a number of bytes
 * (YD_NO_IMAGE_SIZE alone is a number for no), and one that ends in _OFFSET is where bytes begin.
 *
 * Threads. The library has no globals, so calls that share no bytes may run at once. An image is used by one caller at a time; different
 * images may be used at once.
 *
 * Needs. memcpy is all that the archive imports. It has constants and no other static data, allocates nothing, and knows no clock. The
 * deepest call is yd_receive: 1248 bytes of stack on x86-64; docs/PRICES.md has every call.
 */
#ifndef YURODEKAPI_H
#define YURODEKAPI_H

#include <stddef.h>
#include <stdint.h>

/* The version of this header. yd_version has the archive's. */
#define YD_VERSION_MAJOR 1
#define YD_VERSION_MINOR 3
#define YD_VERSION_PATCH 0
#define YD_VERSION (YD_VERSION_MAJOR * 65536u + YD_VERSION_MINOR * 256u + YD_VERSION_PATCH)

/* A result that must be used, and pointers that must not be null, where the compiler knows how to say it. */
#if defined(__GNUC__) || defined(__clang__)
#define YD_USE_RESULT __attribute__((warn_unused_result))
#define YD_NOT_NULL __attribute__((nonnull))
#else
#define YD_USE_RESULT
#define YD_NOT_NULL
#endif

#ifdef __cplusplus
extern "C" {
#endif

/* The number for no of a result, and its value. */
static inline uint32_t yd_no(uint32_t result) { return result & 0xffu; }
static inline uint32_t yd_value(uint32_t result) { return result >> 8; }

/* The word of this index in an answer. */
YD_NOT_NULL
static inline uint32_t yd_word(const uint8_t *answer, size_t index)
{
    const uint8_t *b = answer + 4 * index;
    return (uint32_t)b[0] | (uint32_t)b[1] << 8 | (uint32_t)b[2] << 16 | (uint32_t)b[3] << 24;
}

/* The archive's version: the value is major * 65536 + minor * 256 + patch, as in YD_VERSION. Header and archive are of one version if the
 * two are equal. It refuses nothing. */
YD_USE_RESULT
uint32_t yd_version(void);

/* Numbers for no. A call says the first that applies: 251 and then 16 if it takes an image (yd_power_on: 251 alone), 19 if it takes a MID,
 * 252 if it has an answer, then the rest. A MID that you give is that of the sign, whichever end calls. 0, 1, 7Eh and 7Fh are forbidden,
 * because the sign's description advises against them. The MID that you give is judged so, and never a byte of a packet or reply. */
enum {
    YD_YES = 0,
    YD_NO_UNDER_7 = 1,         /* under 7 bytes */
    YD_NO_OVER_21 = 2,         /* over 21 bytes */
    YD_NO_COUNT = 3,           /* the count byte isn't the length */
    YD_NO_SUM = 4,             /* the sum of all bytes isn't 0 modulo 256 */
    YD_NO_MID = 5,             /* the packet's MID isn't the sign's */
    YD_NO_SECOND = 6,          /* the second byte isn't 7Fh */
    YD_NO_ZERO = 7,            /* the byte before the checksum isn't 0 */
    YD_NO_ID_OVER = 8,         /* the ID is over 41h */
    YD_NO_ID_LENGTH = 9,       /* length 7 with an ID to 3Fh, or longer with 40h or 41h */
    YD_NO_POSITION = 10,       /* packet total or position wrong, or the fifth byte of a query or reset isn't 10h */
    YD_NO_NOT_FULL = 11,       /* fewer than 14 data bytes in a packet that isn't last */
    YD_NO_BUSY = 12,           /* a new number while the sign is Busy: send it again when the sign is Ready */
    YD_NO_OTHER = 13,          /* another total, or other data at a position that is held */
    YD_NO_UNSOUND = 16,        /* the image is of an unsound record: power on again */
    YD_NO_SETTINGS = 17,       /* forecast: pace isn't 1 to 20, or scan setting isn't 1 to 6 */
    YD_NO_MID_FORBIDDEN = 19,  /* the MID is 0, 1, 7Eh or 7Fh: set the sign's switches to another */
    YD_NO_CARET = 21,          /* empty body, or its first byte isn't a caret; place 0 */
    YD_NO_UNKNOWN = 22,        /* unknown or cut-off command, at its caret */
    YD_NO_NUMBER = 23,         /* not a right number, at the command's caret */
    YD_NO_FORBIDDEN = 24,      /* forbidden byte in a text, or any byte after a command without parameter, at that byte */
    YD_NO_TILDE = 25,          /* tilde without its letter, at the tilde */
    YD_NO_LOOP = 26,           /* nested L, E or F without L, R in a loop, or an L never closed, at the command's caret */
    YD_NO_AFTER_END = 27,      /* a command after F or R, at its caret */
    YD_NO_OVER_84 = 28,        /* body over 84 bytes; place 84 */
    YD_NO_BODY = 31,           /* writer: body of 0 or over 84 bytes */
    YD_NO_WRITE_ID = 32,       /* writer: ID over 3Fh; of a reply, an ID that can't be the last completed */
    YD_NO_WRITE_POSITION = 33, /* writer: position not below the packet total */
    YD_NO_OUT_SHORT = 34,      /* `out` is shorter than what is to be written or copied out */
    YD_NO_REPLY = 35,          /* not a reply of the sign of this MID */
    YD_NO_IMAGE_SIZE = 251,    /* the image isn't YD_IMAGE_SIZE bytes long */
    YD_NO_ANSWER_SHORT = 252   /* the answer is shorter than the call's answer */
};

/* Sizes in bytes. */
enum {
    YD_BODY_SIZE = 84,          /* the longest body */
    YD_QUERY_SIZE = 7,          /* a query */
    YD_RESET_SIZE = 7,          /* a reset */
    YD_PACKET_DATA_SIZE = 14,   /* the data of a full packet */
    YD_PACKET_SIZE = 21,        /* the longest packet */
    YD_TRANSMISSION_SIZE = 126, /* the longest transmission: six full packets */
    YD_REPLY_SIZE = 8,          /* a reply */
    YD_IMAGE_SIZE = 106,        /* a sign's image */
    YD_PACKET_ANSWER_SIZE = 20,
    YD_REPLY_ANSWER_SIZE = 12,
    YD_FORECAST_ANSWER_SIZE = 24,
    YD_RECEIVE_ANSWER_SIZE = 100,
    YD_STEP_ANSWER_SIZE = 28
};

/* The wire: what the sender writes and the sign reads. */

/* What bytes off the line are, to the sign of this MID. Of a query or reset all words but the first are 0. The data of a packet stand in
 * `bytes` from YD_PACKET_DATA_OFFSET on. No: 19, 252, 1 to 11. */
enum { YD_READ_QUERY = 1, YD_READ_RESET = 2, YD_READ_NORMAL = 3 };
enum { YD_PACKET_DATA_OFFSET = 5 };
YD_USE_RESULT YD_NOT_NULL
uint32_t yd_read_packet(uint8_t mid, const uint8_t *bytes, size_t bytes_len, uint8_t *answer, size_t answer_len);

/* Its answer. */
enum {
    YD_WORD_PACKET_WHAT = 0,
    YD_WORD_PACKET_ID = 1,
    YD_WORD_PACKET_TOTAL = 2,
    YD_WORD_PACKET_POSITION = 3,
    YD_WORD_PACKET_LENGTH = 4
};
struct yd_packet_answer {
    uint32_t what;     /* YD_READ_QUERY, YD_READ_RESET or YD_READ_NORMAL */
    uint32_t id;       /* transmission ID */
    uint32_t total;    /* packet total, 1 to 6 */
    uint32_t position; /* below the total */
    uint32_t length;   /* length of the data, 1 to 14 */
};
YD_NOT_NULL
static inline void yd_get_packet(const uint8_t *answer, struct yd_packet_answer *packet)
{
    packet->what = yd_word(answer, YD_WORD_PACKET_WHAT);
    packet->id = yd_word(answer, YD_WORD_PACKET_ID);
    packet->total = yd_word(answer, YD_WORD_PACKET_TOTAL);
    packet->position = yd_word(answer, YD_WORD_PACKET_POSITION);
    packet->length = yd_word(answer, YD_WORD_PACKET_LENGTH);
}

/* Write a query, a reset, one packet of a body, or all its packets back to back, at the front of `out`; the value is the length written.
 * YD_TRANSMISSION_SIZE bytes hold any transmission. No: 19, 34; one packet: 19, 31, 32, 33, 34; a transmission: 19, 31, 32, 34.
 * A sign needs a moment after a reset: the sender waits about 100 ms before it sends more. */
YD_USE_RESULT YD_NOT_NULL
uint32_t yd_write_query(uint8_t mid, uint8_t *out, size_t out_len);
YD_USE_RESULT YD_NOT_NULL
uint32_t yd_write_reset(uint8_t mid, uint8_t *out, size_t out_len);
YD_USE_RESULT YD_NOT_NULL
uint32_t yd_write_packet(uint8_t mid, uint8_t id, const uint8_t *body, size_t body_len, uint8_t position, uint8_t *out, size_t out_len);
YD_USE_RESULT YD_NOT_NULL
uint32_t yd_write_transmission(uint8_t mid, uint8_t id, const uint8_t *body, size_t body_len, uint8_t *out, size_t out_len);

/* How the AUX pin reads, as `aux` in the calls that write a reply and in the answer of the one that reads it. The sign's firmware reads the
 * pin; the library doesn't. `aux` is not the pin's logic level: it is 1 where the pin is low.
 * S is sink: the pin is low, logic 0, which is sure under 0.8 V. The sign's transistor pulls it to ground (command XS), or something
 * outside the sign does. F is float: the pin is high, logic 1, which is sure over 2.0 V. The transistor is off (command XF, or after a
 * reset), so that the pin floats up to 5 V or more, and nothing outside pulls it down.
 * The reply tells the pin as it reads; YD_AT_SINK in the image tells how the program drives it. */
enum { YD_AUX_FLOAT = 0, YD_AUX_SINK = 1 };

/* Write a reply of the sign of this MID: last completed ID, Busy if `busy` isn't 0, AUX reads S if `aux` isn't 0. The value is 8.
 * No: 19, 32, 34. */
YD_USE_RESULT YD_NOT_NULL
uint32_t yd_write_reply(uint8_t mid, uint8_t last, uint8_t busy, uint8_t aux, uint8_t *out, size_t out_len);

/* What a reply of the sign of this MID tells. The MID is the sign's own; the reply carries it with its lowest bit inverted.
 * No: 19, 252, 35. */
YD_USE_RESULT YD_NOT_NULL
uint32_t yd_read_reply(uint8_t mid, const uint8_t *bytes, size_t bytes_len, uint8_t *answer, size_t answer_len);

/* Its answer. */
enum { YD_WORD_REPLY_LAST = 0, YD_WORD_REPLY_BUSY = 1, YD_WORD_REPLY_AUX = 2 };
struct yd_reply_answer {
    uint32_t last; /* last completed ID, 41h after a reset */
    uint32_t busy; /* 1 if Busy, 0 if Ready */
    uint32_t aux;  /* YD_AUX_SINK or YD_AUX_FLOAT */
};
YD_NOT_NULL
static inline void yd_get_reply(const uint8_t *answer, struct yd_reply_answer *reply)
{
    reply->last = yd_word(answer, YD_WORD_REPLY_LAST);
    reply->busy = yd_word(answer, YD_WORD_REPLY_BUSY);
    reply->aux = yd_word(answer, YD_WORD_REPLY_AUX);
}

/* The program: what a body means, before it is sent. */

/* Whether a body is an accepted program; the value is 1 if it is endless, 0 if it ends. No, with the place as value: 28, 21 to 27. */
YD_USE_RESULT YD_NOT_NULL
uint32_t yd_judge(const uint8_t *body, size_t body_len);

/* How long a body runs from this pace and scan setting, and what it leaves. No: 252, 17, then as yd_judge. */
YD_USE_RESULT YD_NOT_NULL
uint32_t yd_forecast(const uint8_t *body, size_t body_len, uint8_t pace, uint8_t scan_setting, uint8_t *answer, size_t answer_len);

/* Its answer. Of an endless program all words but the first are 0. A sign keeps pace and scan setting until a command or a reset changes
 * them, so the two that a program leaves are those to forecast the next one from. After a reset they are 4 and 1. */
enum {
    YD_WORD_FORECAST_ENDLESS = 0,
    YD_WORD_FORECAST_STEPS = 1,
    YD_WORD_FORECAST_SCANS = 2,
    YD_WORD_FORECAST_MS = 3,
    YD_WORD_FORECAST_PACE = 4,
    YD_WORD_FORECAST_SCAN_SETTING = 5
};
struct yd_forecast_answer {
    uint32_t endless;     /* 1 if the program never ends, 0 if it ends */
    uint32_t steps;       /* steps until the sign is Ready */
    uint32_t scans;       /* scans of all steps */
    uint32_t ms;          /* milliseconds of all steps */
    uint8_t pace;         /* pace after the last step, 1 to 20 */
    uint8_t scan_setting; /* scan setting after the last step, 1 to 6 */
};
YD_NOT_NULL
static inline void yd_get_forecast(const uint8_t *answer, struct yd_forecast_answer *forecast)
{
    forecast->endless = yd_word(answer, YD_WORD_FORECAST_ENDLESS);
    forecast->steps = yd_word(answer, YD_WORD_FORECAST_STEPS);
    forecast->scans = yd_word(answer, YD_WORD_FORECAST_SCANS);
    forecast->ms = yd_word(answer, YD_WORD_FORECAST_MS);
    forecast->pace = (uint8_t)yd_word(answer, YD_WORD_FORECAST_PACE);
    forecast->scan_setting = (uint8_t)yd_word(answer, YD_WORD_FORECAST_SCAN_SETTING);
}

/* The sign: its record is an image of YD_IMAGE_SIZE bytes that the caller keeps. An image of another size is 251, an unsound one 16.
 * One room holds the collected packets while the sign is Ready and the running body while it is Busy: it never needs both at once.
 * While Ready, the data of position p stand from byte 13 + 14p on. While Busy, the body stands from byte 13 on, and the ID being
 * collected, its total and all six lengths are 0. Room that is not used is zeros; anything else there is unsound.
 * The sign remembers the last four IDs that it completed since its reset, and a packet of any of them is a Repeat. None of them stands twice,
 * each is 3Fh at most, none is the one that is being collected, and the bytes of those that are missing are zeros; all else is unsound.
 * A sound record has one image only, so a query, a Repeat and an Idle step change no byte of it. The layout belongs to this version. */
enum {
    YD_AT_COMPLETED_COUNT = 0, /* how many completed IDs there are, 0 to 4 */
    YD_AT_COMPLETED = 1,       /* the completed IDs, newest first, then zeros, 4 bytes */
    YD_AT_ID = 5,              /* ID being collected, 0 if none */
    YD_AT_TOTAL = 6,           /* its packet total, 0 if none */
    YD_AT_LENS = 7,            /* data length by position, 6 bytes; 0 is not held */
    YD_AT_ROOM = 13,           /* collected packets or running body, 84 bytes */
    YD_AT_LENGTH = 97,         /* length of the running body; 0 is Ready, all else is Busy */
    YD_AT_PLACE = 98,          /* place of the next command */
    YD_AT_LOOP_PLACE = 99,     /* place after the open L, 0 outside loops */
    YD_AT_LOOP_LEFT = 100,     /* passes left, this one counted, 0 outside loops */
    YD_AT_PACE = 101,
    YD_AT_SCANS = 102,         /* scan setting: scans per shift */
    YD_AT_SINK = 103,          /* AUX drive: 0 floats, 1 sinks; all else is unsound */
    YD_AT_DIM = 104,           /* dim threshold */
    YD_AT_BRIGHT = 105         /* forced brightness, 0 if none */
};

/* 1 if the sign of this image is Busy, 0 if it is Ready. It reads one byte, and takes the image for sound. */
YD_NOT_NULL
static inline int yd_is_busy(const uint8_t *image) { return image[YD_AT_LENGTH] != 0; }

/* The last completed ID of the sign of this image, 41h if it has completed none since its reset. It takes the image for sound. */
YD_NOT_NULL
static inline uint8_t yd_last_completed(const uint8_t *image) { return image[YD_AT_COMPLETED_COUNT] == 0 ? 0x41 : image[YD_AT_COMPLETED]; }

/* Make the image of a sign that was just switched on, whatever it held. No: 251. */
YD_USE_RESULT YD_NOT_NULL
uint32_t yd_power_on(uint8_t *image, size_t image_len);

/* Reset the image, as a reset off the line does. No: 251, 16. */
YD_USE_RESULT YD_NOT_NULL
uint32_t yd_reset(uint8_t *image, size_t image_len);

/* What bytes off the line do to the sign. No: 251, 16, 19, 252, 1 to 13. */
enum {
    YD_DID_QUERY = 1,  /* answer it with yd_reply; the image stays */
    YD_DID_RESET = 2,  /* the image is already reset: yd_reset isn't needed */
    YD_DID_REPEAT = 3, /* held already, or of one of the completed IDs; the image stays */
    YD_DID_STORE = 4,  /* kept; more packets are missing */
    YD_DID_RELEASE = 5 /* all packets are there: the sign is Busy if the body is an accepted program, Ready if not */
};
YD_USE_RESULT YD_NOT_NULL
uint32_t yd_receive(uint8_t *image, size_t image_len, uint8_t mid, const uint8_t *bytes, size_t bytes_len, uint8_t *answer, size_t answer_len);

/* Its answer: four words, then the 84 bytes of the body, zeros after its length. All but the outcome are 0 where no body was released. */
enum { YD_WORD_RECEIVE_OUTCOME = 0, YD_WORD_RECEIVE_NO = 1, YD_WORD_RECEIVE_PLACE = 2, YD_WORD_RECEIVE_LENGTH = 3 };
enum { YD_RECEIVE_BODY_OFFSET = 16 };
struct yd_receive_answer {
    uint32_t outcome;           /* YD_DID_QUERY to YD_DID_RELEASE */
    uint32_t no;                /* of a released body: YD_YES if it is an accepted program, else its number for no, 21 to 27 */
    uint32_t place;             /* of a released body that is no program: the place of that refusal */
    uint32_t length;            /* length of the released body */
    uint8_t body[YD_BODY_SIZE]; /* the released body, zeros after its length */
};
YD_NOT_NULL
static inline void yd_get_receive(const uint8_t *answer, struct yd_receive_answer *receive)
{
    size_t i;
    receive->outcome = yd_word(answer, YD_WORD_RECEIVE_OUTCOME);
    receive->no = yd_word(answer, YD_WORD_RECEIVE_NO);
    receive->place = yd_word(answer, YD_WORD_RECEIVE_PLACE);
    receive->length = yd_word(answer, YD_WORD_RECEIVE_LENGTH);
    for (i = 0; i < YD_BODY_SIZE; i++)
        receive->body[i] = answer[YD_RECEIVE_BODY_OFFSET + i];
}

/* One step. The image is the one after the command, when the command's time begins: wait its milliseconds before the next step. So the image
 * is Ready as soon as the last command was stepped, and holds no body any more: copy the body before. Pace, scan setting and brightness in
 * force are in the image. A Ready sign is Idle: all words are 0, and the image stays. No: 251, 16, 252. */
enum {
    YD_KIND_IDLE = 0,
    YD_KIND_II = 1,
    YD_KIND_IA = 2,
    YD_KIND_IB = 3,
    YD_KIND_S = 4, /* also an I whose text doesn't fit */
    YD_KIND_L = 5,
    YD_KIND_E = 6,
    YD_KIND_F = 7,
    YD_KIND_R = 8,
    YD_KIND_XS = 9,
    YD_KIND_XF = 10,
    YD_KIND_P = 11,
    YD_KIND_EQUALS = 12,
    YD_KIND_W = 13,
    YD_KIND_XD = 14,
    YD_KIND_XB = 15,
    YD_KIND_Y = 16
};
YD_USE_RESULT YD_NOT_NULL
uint32_t yd_step(uint8_t *image, size_t image_len, uint8_t *answer, size_t answer_len);

/* Its answer. What a command lacks is 0. The text stands in the body: copy that with yd_copy_body before the step, because after the last
 * step the sign holds no body. */
enum {
    YD_WORD_STEP_KIND = 0,
    YD_WORD_STEP_NUMBER = 1,
    YD_WORD_STEP_TEXT_PLACE = 2,
    YD_WORD_STEP_TEXT_LENGTH = 3,
    YD_WORD_STEP_COLUMN = 4,
    YD_WORD_STEP_SCANS = 5,
    YD_WORD_STEP_MS = 6
};
struct yd_step_answer {
    uint32_t kind;        /* YD_KIND_IDLE to YD_KIND_Y */
    uint32_t number;      /* its number as written */
    uint32_t text_place;  /* its text's place in the body */
    uint32_t text_length; /* and length there */
    uint32_t column;      /* start column of a text that is shown, 0 of one that scrolls; up to 3 blank columns of a shown text's last
                           * character may lie to the right of the sign's last column, 95 */
    uint32_t scans;
    uint32_t ms; /* milliseconds */
};
YD_NOT_NULL
static inline void yd_get_step(const uint8_t *answer, struct yd_step_answer *step)
{
    step->kind = yd_word(answer, YD_WORD_STEP_KIND);
    step->number = yd_word(answer, YD_WORD_STEP_NUMBER);
    step->text_place = yd_word(answer, YD_WORD_STEP_TEXT_PLACE);
    step->text_length = yd_word(answer, YD_WORD_STEP_TEXT_LENGTH);
    step->column = yd_word(answer, YD_WORD_STEP_COLUMN);
    step->scans = yd_word(answer, YD_WORD_STEP_SCANS);
    step->ms = yd_word(answer, YD_WORD_STEP_MS);
}

/* Write the reply to a query; AUX reads S if `aux` isn't 0. The value is 8. The image stays. No: 251, 16, 19, 34. */
YD_USE_RESULT YD_NOT_NULL
uint32_t yd_reply(const uint8_t *image, size_t image_len, uint8_t mid, uint8_t aux, uint8_t *out, size_t out_len);

/* Copy the running body, none when Ready; the value is its length. YD_BODY_SIZE bytes hold any. The image stays. No: 251, 16, 34. */
YD_USE_RESULT YD_NOT_NULL
uint32_t yd_copy_body(const uint8_t *image, size_t image_len, uint8_t *out, size_t out_len);

/* The driver's repeater: the value is 1 if it shows the stretch of the body at this place and of this length, and 0 if it shows the whole
 * standing line, which is where the place is 0 or the stretch doesn't lie within the body. It refuses nothing. */
YD_USE_RESULT YD_NOT_NULL
uint32_t yd_repeat(const uint8_t *body, size_t body_len, size_t place, size_t length);

#ifdef __cplusplus
}
#endif

/* Sizes and offsets that must agree, where the language can say it. */
#if defined(__cplusplus) && __cplusplus >= 201103L
#define YD_SAME(a, b) static_assert((int)(a) == (int)(b), #a " must be " #b)
#elif !defined(__cplusplus) && defined(__STDC_VERSION__) && __STDC_VERSION__ >= 201112L
#define YD_SAME(a, b) _Static_assert((int)(a) == (int)(b), #a " must be " #b)
#endif
#ifdef YD_SAME
YD_SAME(YD_BODY_SIZE, 6 * YD_PACKET_DATA_SIZE);
YD_SAME(YD_PACKET_SIZE, YD_QUERY_SIZE + YD_PACKET_DATA_SIZE);
YD_SAME(YD_TRANSMISSION_SIZE, 6 * YD_PACKET_SIZE);
YD_SAME(sizeof(size_t), sizeof(void *));
YD_SAME(YD_PACKET_ANSWER_SIZE, 4 * (YD_WORD_PACKET_LENGTH + 1));
YD_SAME(YD_REPLY_ANSWER_SIZE, 4 * (YD_WORD_REPLY_AUX + 1));
YD_SAME(YD_FORECAST_ANSWER_SIZE, 4 * (YD_WORD_FORECAST_SCAN_SETTING + 1));
YD_SAME(YD_AT_ID, YD_AT_COMPLETED + 4);
YD_SAME(YD_AT_ROOM, YD_AT_LENS + 6);
YD_SAME(YD_AT_LENGTH - YD_AT_ROOM, YD_BODY_SIZE);
YD_SAME(YD_IMAGE_SIZE, YD_AT_BRIGHT + 1);
YD_SAME(YD_RECEIVE_BODY_OFFSET, 4 * (YD_WORD_RECEIVE_LENGTH + 1));
YD_SAME(YD_RECEIVE_ANSWER_SIZE - YD_BODY_SIZE, YD_RECEIVE_BODY_OFFSET);
YD_SAME(YD_STEP_ANSWER_SIZE, 4 * (YD_WORD_STEP_MS + 1));
#undef YD_SAME
#endif

#undef YD_USE_RESULT
#undef YD_NOT_NULL

#endif
