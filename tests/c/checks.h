/* What the tests of the calls share: checks, bytes that are lent, and packets that a sign is given. */
#ifndef CHECKS_H
#define CHECKS_H

#include "yurodekapi.h"

/* The sign of the tests, but for those about MIDs, and a query and a reset to it. */
extern const uint8_t sign_mid;
extern const uint8_t query[7];
extern const uint8_t reset[7];

/* The file of the tests that follow; every failure names it, and the line of the test that asked. */
void tests_of(const char *file);

/* Prints the number of checks; the value is what the program exits with. */
int told(void);

/* One check: what must be so. */
void check(int line, const char *what, uint32_t is, uint32_t must);

/* One check of a row of bytes. */
void check_bytes(int line, const char *what, const uint8_t *is, const uint8_t *must, size_t length);

/* Fills bytes that are to be lent; and one check that a row of them is as it was filled. */
void fill(uint8_t *bytes, size_t length);
void check_filled(int line, const char *what, const uint8_t *is, size_t length);

#define CHECK(is, must) check(__LINE__, #is, is, must)

/* The result of a yes with this value, and of a no with this place. */
uint32_t yes(uint32_t value);
uint32_t no(uint32_t number, uint32_t place);

/* A string's bytes and their number, as two arguments. */
#define BYTES(string) (const uint8_t *)(string), sizeof(string) - 1

/* Every call that takes a sound image, on one of these bytes: all must say this number, also with all else wrong, and change nothing. */
void all_refuse(int line, const uint8_t *record, size_t length, uint32_t number);

/* Bytes off the line that are taken: the outcome, and of a released body its refusal, place and bytes. */
void takes(int line, uint8_t *image, const uint8_t *bytes, size_t length, uint32_t outcome, uint32_t number, uint32_t place, const char *body);

/* Bytes off the line that are refused: image and answer stay. */
void refuses(int line, uint8_t *image, const uint8_t *bytes, size_t length, uint32_t number);

#define TAKES(bytes, outcome) takes(__LINE__, image, bytes, sizeof bytes, outcome, 0, 0, "")
#define RELEASES(bytes, body) takes(__LINE__, image, bytes, sizeof bytes, YD_DID_RELEASE, 0, 0, body)
#define REFUSES(bytes, number) refuses(__LINE__, image, bytes, sizeof bytes, number)
#define HOLDS(must) check_bytes(__LINE__, "image", image, must, YD_IMAGE_SIZE)

/* The tests of completed.c, which main in calls.c runs. */
void completed_ids(void);

#endif
