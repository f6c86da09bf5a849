/* Each export with good and bad input, held against the bench cases (docs/RULES.md) and numbers worked out by hand from the rules; then, with the
 * names of two files, against recorded requests and the answers that the Rust originals or the independent program gave (docs/DESK.md). */
#include "morelbarrel.h"

#include <stdio.h>
#include <stdlib.h>
#include <string.h>
#include <sys/types.h>

static unsigned long checks, failures;

static void check(int ok, const char *what, int line) {
    checks++;
    if (!ok) {
        failures++;
        fprintf(stderr, "test.c:%d: %s\n", line, what);
    }
}

#define CHECK(x) check((x), #x, __LINE__)

/* A row that shows what was written. */
#define UNTOUCHED 0xA5A5A5A5A5A5A5A5u

static void blank(uint64_t *row, size_t n) {
    for (size_t i = 0; i < n; i++) row[i] = UNTOUCHED;
}

static int row_is(const uint64_t *row, size_t n, const uint64_t *want, size_t m) {
    for (size_t i = 0; i < n; i++)
        if (row[i] != (i < m ? want[i] : UNTOUCHED)) return 0;
    return 1;
}

#define IS(row, ...)                                                                       \
    row_is(row, sizeof(row) / sizeof *(row), (const uint64_t[]){__VA_ARGS__},               \
           sizeof((const uint64_t[]){__VA_ARGS__}) / sizeof(uint64_t))
#define KEPT(row) row_is(row, sizeof(row) / sizeof *(row), NULL, 0)

/* One byte too long for an image. */
static uint8_t too_long[MOREL_IMAGE_MOST + 1];

/* ---- an image: fixed area, strings, General, end. Lengths in words. */
static const uint8_t strings_body[] = {0x02, 0x03, 0x41, 0x00, 0xB5, 0x01, 0x42, 0x00};
static const uint8_t general_body[18] = {0, 0, 1, 2, 0, 0x0F, 1, 0, 0, 0, 0, 0x03, 0x2C, 0x01, 0x11, 0x43, 0x00, 0x10};

static size_t make_image(uint8_t *image) {
    size_t n = 128;
    memset(image, 0, n);
    const uint8_t fixed[] = {0x12, 0x34, 0, 0, 0, 0, 0, 0};
    memcpy(image + 8, fixed, 2);
    const uint8_t identity[16] = {2, 0, 0, 0, 0x52, 0x30, 0x2C, 0x07, 0, 0, 0x12, 0, 0x78, 0x56, 0x34, 0x12};
    memcpy(image + 16, identity, 16);
    const uint8_t mailbox[10] = {0, 0x10, 0x80, 0, 0x80, 0x10, 0x80, 0, 0x0C, 0};
    memcpy(image + 48, mailbox, 10);
    image[124] = 15;
    const uint8_t strings_header[4] = {10, 0, 4, 0};
    memcpy(image + n, strings_header, 4);
    memcpy(image + n + 4, strings_body, 8);
    n += 12;
    const uint8_t general_header[4] = {30, 0, 9, 0};
    memcpy(image + n, general_header, 4);
    memcpy(image + n + 4, general_body, 18);
    n += 22;
    image[n] = 0xFF;
    image[n + 1] = 0xFF;
    return n + 2;
}

static void fixed_area(void) {
    uint8_t image[256];
    size_t n = make_image(image);
    uint64_t row[20];

    CHECK(morel_crc((const uint8_t *)"123456789", 9) == 0xFB);
    const uint8_t zeros[14] = {0};
    CHECK(morel_crc(zeros, 14) == 0x30);
    CHECK(morel_crc(zeros, 0) == 0xFF);

    blank(row, 20);
    CHECK(morel_station_alias(image, n, row, 20) == MOREL_GIVES && IS(row, 0x3412));
    blank(row, 20);
    CHECK(morel_station_alias(image, 9, row, 20) == MOREL_GIVES && IS(row, 0xFF12));
    blank(row, 20);
    CHECK(morel_station_alias(too_long, sizeof too_long, row, 20) == MOREL_BAD_ARGUMENT && KEPT(row));
    CHECK(morel_station_alias(image, n, row, 0) == MOREL_GIVES && KEPT(row));

    blank(row, 20);
    CHECK(morel_identity(image, n, row, 20) == MOREL_GIVES && IS(row, 2, 0x072C3052, 0x00120000, 0x12345678));
    blank(row, 20);
    CHECK(morel_identity(image, n, row, 2) == MOREL_GIVES && IS(row, 2, 0x072C3052));
    blank(row, 20);
    CHECK(morel_identity(too_long, sizeof too_long, row, 20) == MOREL_BAD_ARGUMENT && KEPT(row));

    CHECK(morel_mailbox_config(image, n, row, 20) == MOREL_GIVES && IS(row, 0x1000, 0x80, 0x1080, 0x80, 0x0C));
    blank(row, 20);
    CHECK(morel_mailbox_config(image, 56, row, 20) == MOREL_DECODE && KEPT(row));
    CHECK(morel_mailbox_config(too_long, sizeof too_long, row, 20) == MOREL_BAD_ARGUMENT && KEPT(row));

    CHECK(morel_size(image, n, row, 20) == MOREL_GIVES && IS(row, 2048));
    blank(row, 20);
    CHECK(morel_size(image, 0, row, 20) == MOREL_GIVES && IS(row, 8388608));
    blank(row, 20);
    CHECK(morel_size(too_long, sizeof too_long, row, 20) == MOREL_BAD_ARGUMENT && KEPT(row));
}

static void alias_set(void) {
    uint8_t image[17] = {0}, before[17];
    CHECK(morel_set_station_alias(image, 17, 0) == MOREL_GIVES);
    CHECK(image[14] == 0x30 && image[15] == 0);
    image[15] = 9;
    CHECK(morel_set_station_alias(image, 17, 0x1234) == MOREL_GIVES);
    CHECK(image[8] == 0x34 && image[9] == 0x12 && image[14] == morel_crc(image, 14) && image[15] == 0 && image[16] == 0);
    memcpy(before, image, 17);
    CHECK(morel_set_station_alias(image, 15, 7) == MOREL_NOT_WRITABLE && memcmp(before, image, 17) == 0);
    CHECK(morel_set_station_alias(too_long, sizeof too_long, 7) == MOREL_BAD_ARGUMENT && too_long[8] == 0);
}

static void categories(void) {
    uint8_t image[256];
    size_t n = make_image(image);
    uint64_t row[20];

    blank(row, 20);
    CHECK(morel_category(image, n, 30, row, 20) == MOREL_GIVES && IS(row, 144, 162));
    blank(row, 20);
    CHECK(morel_category(image, n, 41, row, 20) == MOREL_ABSENT && KEPT(row));
    CHECK(morel_category(image, n, 11, row, 20) == MOREL_BAD_ARGUMENT && KEPT(row));

    /* 31 empty headers, then empty strings: absent; with 30 they are found, empty. */
    uint8_t empties[128 + 32 * 4] = {0};
    empties[128 + 31 * 4] = 10;
    CHECK(morel_category(empties, 128 + 32 * 4, 10, row, 20) == MOREL_ABSENT && KEPT(row));
    empties[128 + 31 * 4] = 0;
    empties[128 + 30 * 4] = 10;
    CHECK(morel_category(empties, 128 + 31 * 4, 10, row, 20) == MOREL_GIVES && IS(row, 252, 252));

    /* all of General lies in the image, and all that is read in vain for sync managers does; less of either with bytes cut off */
    blank(row, 20);
    CHECK(morel_category_inside(image, n, 30, row, 20) == MOREL_GIVES && IS(row, 1));
    blank(row, 20);
    CHECK(morel_category_inside(image, 161, 30, row, 20) == MOREL_GIVES && IS(row, 0));
    blank(row, 20);
    CHECK(morel_category_inside(image, 140, 10, row, 20) == MOREL_GIVES && IS(row, 1));
    blank(row, 20);
    CHECK(morel_category_inside(image, n, 41, row, 20) == MOREL_GIVES && IS(row, 1));
    blank(row, 20);
    CHECK(morel_category_inside(image, 162, 41, row, 20) == MOREL_GIVES && IS(row, 0));
    blank(row, 20);
    CHECK(morel_category_inside(image, n, 11, row, 20) == MOREL_BAD_ARGUMENT && KEPT(row));
    CHECK(morel_category_inside(too_long, sizeof too_long, 30, row, 20) == MOREL_BAD_ARGUMENT && KEPT(row));

    blank(row, 20);
    CHECK(morel_general(image, n, row, 20) == MOREL_GIVES && IS(row, 0, 0, 1, 2, 0x0F, 1, 0, 3, 300, 1, 1, 3, 4, 0x1000));
    blank(row, 20);
    image[144 + 5] = 0x40;
    CHECK(morel_general(image, n, row, 20) == MOREL_DECODE && KEPT(row));
    CHECK(morel_general(image, 140, row, 20) == MOREL_NO_CATEGORY && KEPT(row));
    CHECK(morel_general(too_long, sizeof too_long, row, 20) == MOREL_BAD_ARGUMENT && KEPT(row));
}

/* An image of the most bytes: a category of the maker's own, then General, of `words` words, which ends with the image where they are nine. */
static void make_full(uint8_t *image, uint8_t words) {
    const size_t header = MOREL_IMAGE_MOST - 22, own = (header - 132) / 2;
    memset(image, 0xFF, MOREL_IMAGE_MOST);
    const uint8_t own_header[4] = {0, 8, (uint8_t)own, (uint8_t)(own >> 8)}, general_header[4] = {30, 0, words, 0};
    memcpy(image + 128, own_header, 4);
    memcpy(image + header, general_header, 4);
    memcpy(image + header + 4, general_body, 18);
}

static void full_images(void) {
    static uint8_t image[MOREL_IMAGE_MOST + 1];
    uint64_t row[20];

    make_full(image, 9);
    blank(row, 20);
    CHECK(morel_category(image, MOREL_IMAGE_MOST, 30, row, 20) == MOREL_GIVES && IS(row, MOREL_IMAGE_MOST - 18, MOREL_IMAGE_MOST));
    blank(row, 20);
    CHECK(morel_category_inside(image, MOREL_IMAGE_MOST, 30, row, 20) == MOREL_GIVES && IS(row, 1));
    blank(row, 20);
    CHECK(morel_category_inside(image, MOREL_IMAGE_MOST - 1, 30, row, 20) == MOREL_GIVES && IS(row, 0));
    blank(row, 20);
    CHECK(morel_general(image, MOREL_IMAGE_MOST, row, 20) == MOREL_GIVES && IS(row, 0, 0, 1, 2, 0x0F, 1, 0, 3, 300, 1, 1, 3, 4, 0x1000));
    CHECK(morel_set_station_alias(image, MOREL_IMAGE_MOST, 0x1234) == MOREL_GIVES && image[8] == 0x34 && image[9] == 0x12);
    blank(row, 20);
    CHECK(morel_station_alias(image, MOREL_IMAGE_MOST, row, 20) == MOREL_GIVES && IS(row, 0x1234));

    /* one byte more is 14 */
    blank(row, 20);
    CHECK(morel_category(image, MOREL_IMAGE_MOST + 1, 30, row, 20) == MOREL_BAD_ARGUMENT && KEPT(row));
    CHECK(morel_set_station_alias(image, MOREL_IMAGE_MOST + 1, 7) == MOREL_BAD_ARGUMENT && image[8] == 0x34);

    /* a category that would end a word past the limit is 1, and so is a search that its header leads on */
    make_full(image, 10);
    CHECK(morel_category(image, MOREL_IMAGE_MOST, 30, row, 20) == MOREL_ADDRESS && KEPT(row));
    CHECK(morel_category(image, MOREL_IMAGE_MOST, 41, row, 20) == MOREL_ADDRESS && KEPT(row));
}

static void strings(void) {
    uint8_t image[256], room[8], before[8];
    size_t n = make_image(image);
    uint64_t row[4];
    memset(before, 0xA5, 8);
    memcpy(room, before, 8);

    blank(row, 4);
    CHECK(morel_find_string(image, n, 1, room, 8, row, 4) == MOREL_GIVES && IS(row, 2) && memcmp(room, "A?\xA5\xA5", 4) == 0);
    blank(row, 4);
    CHECK(morel_find_string(image, n, 2, room, 8, row, 4) == MOREL_GIVES && IS(row, 1) && memcmp(room, "B?\xA5", 3) == 0);
    blank(row, 4);
    CHECK(morel_find_string(image, n, 3, room, 8, row, 4) == MOREL_ABSENT && KEPT(row));
    memcpy(room, before, 8);
    blank(row, 4);
    CHECK(morel_find_string(image, n, 4, room, 8, row, 4) == MOREL_ABSENT && KEPT(row));
    CHECK(morel_find_string(image, n, 0, room, 8, row, 4) == MOREL_ABSENT && KEPT(row));
    CHECK(morel_find_string(too_long, sizeof too_long, 1, room, 8, row, 4) == MOREL_BAD_ARGUMENT && KEPT(row));
    CHECK(morel_find_string(image, n, 1, room, 2, row, 4) == MOREL_STRING_TOO_LONG && IS(row, 2, 3));
    CHECK(memcmp(room, before, 8) == 0);

    blank(row, 4);
    CHECK(morel_device_name(image, n, room, 8, row, 4) == MOREL_GIVES && IS(row, 2) && memcmp(room, "A?", 2) == 0);
    blank(row, 4);
    CHECK(morel_device_name(image, 140, room, 8, row, 4) == MOREL_ABSENT && KEPT(row));
    CHECK(morel_device_name(too_long, sizeof too_long, room, 8, row, 4) == MOREL_BAD_ARGUMENT && KEPT(row));
    CHECK(morel_device_description(image, n, room, 8, row, 4) == MOREL_GIVES && IS(row, 1) && room[0] == 'B');
    blank(row, 4);
    CHECK(morel_device_description(image, 140, room, 8, row, 4) == MOREL_NO_CATEGORY && KEPT(row));
}

static void frames(void) {
    /* The bench's frame of two PDUs in an area of 28 bytes. */
    const uint8_t want[30] = {0x1C, 0x10, 0x07, 0x00, 0x00, 0x00, 0x30, 0x01, 0x02, 0x80, 0x00, 0x00, 0x00, 0x00, 0x00, 0x00,
                              0x05, 0x01, 0x01, 0x10, 0x20, 0x01, 0x02, 0x00, 0x00, 0x00, 0x08, 0x00, 0x00, 0x00};
    const uint8_t first[2] = {0, 0}, second[2] = {8, 0};
    uint8_t frame[30], before[30];
    uint8_t *area = frame + 2;
    uint64_t s[10];
    memset(frame, 0xEE, sizeof frame);

    blank(s, 10);
    CHECK(morel_open(area, 28, s, 10) == MOREL_GIVES && IS(s, 0, 0, 0));
    CHECK(frame[0] == 0xEE && frame[2] == 0 && frame[29] == 0);
    CHECK(morel_push_pdu(area, 28, 0, 0, 0, 0, 7, 0x01300000, first, 2, 0, s, 10) == MOREL_GIVES && IS(s, 14, 1, 0, 1, 0, 14, 0, 7));
    blank(s, 10);
    CHECK(morel_push_pdu(area, 28, 14, 1, 0, 1, 5, 0x01201001, second, 2, 0, s, 10) == MOREL_GIVES && IS(s, 28, 2, 14, 2, 14, 14, 1, 5));
    CHECK(morel_frame_header(28, frame, 30) == MOREL_GIVES && memcmp(frame, want, 30) == 0);

    /* An empty push then refuses 8; the next index is 3. */
    memcpy(before, frame, 30);
    blank(s, 10);
    CHECK(morel_push_pdu(area, 28, 28, 2, 14, 2, 5, 0, first, 0, 0, s, 10) == MOREL_TOO_LONG && IS(s, 28, 2, 14, 3));
    blank(s, 10);
    CHECK(morel_push_pdu(area, 28, 28, 2, 14, 255, 15, 0, first, 0, 0, s, 10) == MOREL_BAD_ARGUMENT && IS(s, 28, 2, 14, 255));
    blank(s, 10);
    CHECK(morel_push_pdu_slice_rest(area, 28, 28, 2, 14, 3, 5, 0, first, 2, s, 10) == MOREL_ABSENT && IS(s, 28, 2, 14, 3));
    blank(s, 10);
    CHECK(morel_push_pdu_slice_rest(area, 28, 29, 2, 14, 3, 5, 0, first, 2, s, 10) == MOREL_BAD_ARGUMENT && IS(s, 29, 2, 14, 3));
    CHECK(memcmp(frame, before, 30) == 0);
    CHECK(morel_frame_header(2048, frame, 30) == MOREL_BAD_ARGUMENT && memcmp(frame, before, 30) == 0);
    CHECK(morel_frame_header(2047, frame, 1) == MOREL_BAD_ARGUMENT && memcmp(frame, before, 30) == 0);
    CHECK(morel_frame_header(2047, frame, 0) == MOREL_BAD_ARGUMENT && memcmp(frame, before, 30) == 0);
    CHECK(morel_frame_header(2047, frame, 2) == MOREL_GIVES && frame[0] == 0xFF && frame[1] == 0x17);
    memcpy(frame, before, 30);

    blank(s, 10);
    CHECK(morel_can_push_pdu_payload(28, 14, 1, 0, 2, s, 10) == MOREL_GIVES && IS(s, 1));
    blank(s, 10);
    CHECK(morel_can_push_pdu_payload(28, 14, 1, 0, 3, s, 10) == MOREL_GIVES && IS(s, 0));
    blank(s, 10);
    CHECK(morel_can_push_pdu_payload(28, 14, 1, 5, 3, s, 10) == MOREL_BAD_ARGUMENT && KEPT(s));

    uint64_t row[20];
    blank(row, 20);
    CHECK(morel_read_frame(frame, 30, row, 20) == MOREL_GIVES
          && IS(row, 2, 7, 0, 0x01300000, 2, 0, 1, 0, 12, 0, 5, 1, 0x01201001, 2, 0, 0, 0, 26, 0));
    blank(row, 20);
    CHECK(morel_read_frame(frame, 30, row, 5) == MOREL_GIVES && IS(row, 2, 7, 0, 0x01300000, 2));
    blank(row, 20);
    CHECK(morel_read_frame(frame, 29, row, 20) == MOREL_BAD_FRAME && IS(row, 0));

    static uint8_t large[2048];
    large[0] = 1;
    blank(row, 20);
    CHECK(morel_open(large, 2048, row, 20) == MOREL_BAD_ARGUMENT && KEPT(row) && large[0] == 1);
    CHECK(morel_push_pdu_slice_rest(large, 20, 0, 0, 0, 255, 10, 7, too_long, 65535, row, 20) == MOREL_GIVES
          && IS(row, 20, 1, 0, 0, 8, 0, 20, 255, 10));
}

static void spreading(void) {
    static uint8_t areas[200], image[177];
    uint64_t row[10];

    blank(row, 10);
    CHECK(morel_spread(areas, 200, 100, 0, 0, 0, 0, 12, 0, image, 88, row, 10) == MOREL_GIVES && IS(row, 1, 1, 100, 1, 0));
    memset(areas, 0, 200);
    CHECK(morel_spread(areas, 200, 100, 0, 0, 0, 0, 12, 0, image, 89, row, 10) == MOREL_GIVES && IS(row, 2, 2, 100, 1, 0, 13, 1, 0));
    memset(areas, 0, 200);
    CHECK(morel_spread(areas, 200, 100, 0, 0, 0, 0, 12, 0, image, 176, row, 10) == MOREL_GIVES && IS(row, 2, 2, 100, 1, 0, 100, 1, 0));
    memset(areas, 0xEE, 200);
    blank(row, 10);
    CHECK(morel_spread(areas, 200, 100, 0, 0, 0, 4, 12, 0, image, 177, row, 10) == MOREL_NO_ROOM && IS(row, 4, 0));
    blank(row, 10);
    CHECK(morel_spread(areas, 200, 100, 0, 0, 0, 4, 12, 0xFFFFFFFF, image, 2, row, 10) == MOREL_ADDRESS && IS(row, 4, 0));
    blank(row, 10);
    CHECK(morel_spread(areas, 199, 100, 0, 0, 0, 4, 12, 0, image, 2, row, 10) == MOREL_BAD_ARGUMENT && IS(row, 4, 0));
    CHECK(areas[0] == 0xEE && areas[199] == 0xEE);

    /* Three areas of 14 bytes, the first opened: the worked example of docs/PROMISES.md, section spread. */
    uint8_t three[42];
    memset(three, 0xFF, 42);
    memset(three, 0, 14);
    const uint8_t bytes[3] = {1, 2, 3};
    const uint8_t want[42] = {0x0C, 0xFF, 0xFD, 0xFF, 0xFF, 0xFF, 0x02, 0, 0, 0, 0x01, 0x02, 0, 0, 0x0C, 0x00, 0xFF, 0xFF, 0xFF, 0xFF, 0x01,
                              0, 0, 0, 0x03, 0, 0, 0, 0xFF, 0xFF, 0xFF, 0xFF, 0xFF, 0xFF, 0xFF, 0xFF, 0xFF, 0xFF, 0xFF, 0xFF, 0xFF, 0xFF};
    blank(row, 10);
    CHECK(morel_spread(three, 42, 14, 0, 0, 0, 255, 12, 0xFFFFFFFD, bytes, 3, row, 10) == MOREL_GIVES && IS(row, 1, 2, 14, 1, 0, 13, 1, 0));
    CHECK(memcmp(three, want, 42) == 0);
    blank(row, 10);
    CHECK(morel_spread(three, 42, 14, 0, 0, 0, 255, 12, 0, bytes, 0, row, 10) == MOREL_GIVES && IS(row, 255, 0));
}

/* ---- pointers that are null: (NULL, 0) is answered as a slice of no elements, (NULL, n) is 14 and changes nothing */

static void null_and_none(void) {
    uint64_t row[20];
    uint8_t room[4] = {9, 9, 9, 9};

    CHECK(morel_crc(NULL, 0) == 0xFF);
    CHECK(morel_set_station_alias(NULL, 0, 7) == MOREL_NOT_WRITABLE);
    blank(row, 20);
    CHECK(morel_station_alias(NULL, 0, row, 20) == MOREL_GIVES && IS(row, 0xFFFF));
    CHECK(morel_station_alias(room, 4, NULL, 0) == MOREL_GIVES);
    blank(row, 20);
    CHECK(morel_identity(NULL, 0, row, 20) == MOREL_GIVES && IS(row, 0xFFFFFFFF, 0xFFFFFFFF, 0xFFFFFFFF, 0xFFFFFFFF));
    blank(row, 20);
    CHECK(morel_mailbox_config(NULL, 0, row, 20) == MOREL_DECODE && KEPT(row));
    CHECK(morel_size(NULL, 0, row, 20) == MOREL_GIVES && IS(row, 8388608));
    blank(row, 20);
    CHECK(morel_category(NULL, 0, 30, row, 20) == MOREL_ABSENT && KEPT(row));
    CHECK(morel_category_inside(NULL, 0, 30, row, 20) == MOREL_GIVES && IS(row, 0));
    blank(row, 20);
    CHECK(morel_general(NULL, 0, row, 20) == MOREL_NO_CATEGORY && KEPT(row));
    CHECK(morel_find_string(NULL, 0, 1, NULL, 0, row, 20) == MOREL_ABSENT && KEPT(row));
    CHECK(morel_device_name(NULL, 0, NULL, 0, row, 20) == MOREL_ABSENT && KEPT(row));
    CHECK(morel_device_description(NULL, 0, NULL, 0, row, 20) == MOREL_NO_CATEGORY && KEPT(row));
    CHECK(morel_open(NULL, 0, row, 20) == MOREL_GIVES && IS(row, 0, 0, 0));
    blank(row, 20);
    CHECK(morel_push_pdu(NULL, 0, 0, 0, 0, 5, 4, 0, NULL, 0, 0, row, 20) == MOREL_TOO_LONG && IS(row, 0, 0, 0, 6));
    blank(row, 20);
    CHECK(morel_push_pdu_slice_rest(NULL, 0, 0, 0, 0, 5, 4, 0, NULL, 0, row, 20) == MOREL_ABSENT && IS(row, 0, 0, 0, 5));
    CHECK(morel_can_push_pdu_payload(12, 0, 0, 0, 0, NULL, 0) == MOREL_GIVES);
    CHECK(morel_frame_header(0, NULL, 0) == MOREL_BAD_ARGUMENT);
    blank(row, 20);
    CHECK(morel_read_frame(NULL, 0, row, 20) == MOREL_BAD_FRAME && IS(row, 0));
    blank(row, 20);
    CHECK(morel_spread(NULL, 0, 20, 0, 0, 0, 5, 12, 0, NULL, 0, row, 20) == MOREL_BAD_ARGUMENT && IS(row, 5, 0));
}

static void null_and_some(void) {
    uint64_t row[20];
    uint8_t bytes[40], before[40];
    memset(bytes, 9, sizeof bytes);
    memcpy(before, bytes, sizeof bytes);
    blank(row, 20);

    CHECK(morel_crc(NULL, 1) == MOREL_BAD_ARGUMENT);
    CHECK(morel_set_station_alias(NULL, 16, 7) == MOREL_BAD_ARGUMENT);
    CHECK(morel_station_alias(NULL, 1, row, 20) == MOREL_BAD_ARGUMENT);
    CHECK(morel_station_alias(bytes, 40, NULL, 1) == MOREL_BAD_ARGUMENT);
    CHECK(morel_identity(NULL, 1, row, 20) == MOREL_BAD_ARGUMENT);
    CHECK(morel_identity(bytes, 40, NULL, 4) == MOREL_BAD_ARGUMENT);
    CHECK(morel_mailbox_config(NULL, 1, row, 20) == MOREL_BAD_ARGUMENT);
    CHECK(morel_mailbox_config(bytes, 40, NULL, 5) == MOREL_BAD_ARGUMENT);
    CHECK(morel_size(NULL, 1, row, 20) == MOREL_BAD_ARGUMENT);
    CHECK(morel_size(bytes, 40, NULL, 1) == MOREL_BAD_ARGUMENT);
    CHECK(morel_category(NULL, 1, 30, row, 20) == MOREL_BAD_ARGUMENT);
    CHECK(morel_category(bytes, 40, 30, NULL, 2) == MOREL_BAD_ARGUMENT);
    CHECK(morel_category_inside(NULL, 1, 30, row, 20) == MOREL_BAD_ARGUMENT);
    CHECK(morel_category_inside(bytes, 40, 30, NULL, 1) == MOREL_BAD_ARGUMENT);
    CHECK(morel_general(NULL, 1, row, 20) == MOREL_BAD_ARGUMENT);
    CHECK(morel_general(bytes, 40, NULL, 14) == MOREL_BAD_ARGUMENT);
    CHECK(morel_find_string(NULL, 1, 1, bytes, 40, row, 20) == MOREL_BAD_ARGUMENT);
    CHECK(morel_find_string(bytes, 40, 1, NULL, 1, row, 20) == MOREL_BAD_ARGUMENT);
    CHECK(morel_find_string(bytes, 20, 1, bytes + 20, 20, NULL, 1) == MOREL_BAD_ARGUMENT);
    CHECK(morel_device_name(NULL, 1, bytes, 40, row, 20) == MOREL_BAD_ARGUMENT);
    CHECK(morel_device_name(bytes, 40, NULL, 1, row, 20) == MOREL_BAD_ARGUMENT);
    CHECK(morel_device_name(bytes, 20, bytes + 20, 20, NULL, 1) == MOREL_BAD_ARGUMENT);
    CHECK(morel_device_description(NULL, 1, bytes, 40, row, 20) == MOREL_BAD_ARGUMENT);
    CHECK(morel_device_description(bytes, 40, NULL, 1, row, 20) == MOREL_BAD_ARGUMENT);
    CHECK(morel_device_description(bytes, 20, bytes + 20, 20, NULL, 1) == MOREL_BAD_ARGUMENT);
    CHECK(morel_open(NULL, 1, row, 20) == MOREL_BAD_ARGUMENT);
    CHECK(morel_open(bytes, 40, NULL, 3) == MOREL_BAD_ARGUMENT);
    CHECK(morel_push_pdu(NULL, 40, 0, 0, 0, 5, 4, 0, bytes, 2, 0, row, 20) == MOREL_BAD_ARGUMENT);
    CHECK(morel_push_pdu(bytes, 40, 0, 0, 0, 5, 4, 0, NULL, 2, 0, row, 20) == MOREL_BAD_ARGUMENT);
    CHECK(morel_push_pdu(bytes, 20, 0, 0, 0, 5, 4, 0, bytes + 20, 2, 0, NULL, 8) == MOREL_BAD_ARGUMENT);
    CHECK(morel_push_pdu_slice_rest(NULL, 40, 0, 0, 0, 5, 4, 0, bytes, 2, row, 20) == MOREL_BAD_ARGUMENT);
    CHECK(morel_push_pdu_slice_rest(bytes, 40, 0, 0, 0, 5, 4, 0, NULL, 2, row, 20) == MOREL_BAD_ARGUMENT);
    CHECK(morel_push_pdu_slice_rest(bytes, 20, 0, 0, 0, 5, 4, 0, bytes + 20, 2, NULL, 9) == MOREL_BAD_ARGUMENT);
    CHECK(morel_can_push_pdu_payload(40, 0, 0, 0, 2, NULL, 1) == MOREL_BAD_ARGUMENT);
    CHECK(morel_frame_header(28, NULL, 2) == MOREL_BAD_ARGUMENT);
    CHECK(morel_read_frame(NULL, 2, row, 20) == MOREL_BAD_ARGUMENT);
    CHECK(morel_read_frame(bytes, 40, NULL, 1) == MOREL_BAD_ARGUMENT);
    CHECK(morel_spread(NULL, 40, 20, 0, 0, 0, 5, 12, 0, bytes, 4, row, 20) == MOREL_BAD_ARGUMENT);
    CHECK(morel_spread(bytes, 40, 20, 0, 0, 0, 5, 12, 0, NULL, 4, row, 20) == MOREL_BAD_ARGUMENT);
    CHECK(morel_spread(bytes, 20, 20, 0, 0, 0, 5, 12, 0, bytes + 20, 4, NULL, 5) == MOREL_BAD_ARGUMENT);

    CHECK(KEPT(row) && memcmp(before, bytes, sizeof bytes) == 0);
}

/* ---- recorded requests: a kind's name, the shape of its words (b bytes, c a chunk's width, which no answer depends on, and 1, 2 or 4: a number
 * of so many bytes), and how often it was given an answer and was not */
enum { WORDS = 10 };

struct kind {
    const char *name, *shape;
    unsigned long given, not_given;
};

static struct kind kinds[] = {
    {"crc", "b", 0, 0},         {"category", "bc2", 0, 0},     {"alias", "bc", 0, 0},         {"size", "bc", 0, 0},
    {"setalias", "b2", 0, 0},   {"identity", "bc", 0, 0},      {"mailbox", "bc", 0, 0},       {"general", "bc", 0, 0},
    {"string", "bc1b", 0, 0},   {"name", "bcb", 0, 0},         {"desc", "bcb", 0, 0},         {"open", "b", 0, 0},
    {"push", "b222114b2", 0, 0}, {"rest", "b222114b", 0, 0},   {"canpush", "22222", 0, 0},    {"header", "2", 0, 0},
    {"frame", "b", 0, 0},       {"spread", "2b222114b", 0, 0},
};

struct word {
    uint64_t number;
    uint8_t *bytes;
    size_t len;
};

static int digit(char c) {
    return c >= '0' && c <= '9' ? c - '0' : c >= 'a' && c <= 'f' ? c - 'a' + 10 : -1;
}

static int read_bytes(const char *text, struct word *w) {
    size_t n = strlen(text);
    if (strcmp(text, "-") == 0) n = 0;
    else if (n == 0 || n % 2 || n / 2 > 2 * MOREL_IMAGE_MOST) return 0;
    w->len = n / 2;
    w->bytes = malloc(w->len + 1);
    for (size_t i = 0; i < w->len; i++) {
        int high = digit(text[2 * i]), low = digit(text[2 * i + 1]);
        if (high < 0 || low < 0) return 0;
        w->bytes[i] = (uint8_t)(16 * high + low);
    }
    return 1;
}

static int read_word(char shape, const char *text, struct word *w) {
    w->bytes = NULL;
    if (shape == 'b') return read_bytes(text, w);
    size_t n = strlen(text);
    if (n == 0 || n > 15 || strspn(text, "0123456789") != n) return 0;
    w->number = strtoull(text, NULL, 10);
    if (shape == 'c') return w->number == 4 || w->number == 8;
    return w->number < (uint64_t)1 << (8 * (shape - '0'));
}

/* The text of an answer. */
static char *text;
static size_t text_len;

static void put(const char *s) {
    size_t n = strlen(s);
    memcpy(text + text_len, s, n + 1);
    text_len += n;
}

static void put_number(uint64_t n) {
    char s[24];
    snprintf(s, sizeof s, " %llu", (unsigned long long)n);
    put(s);
}

static void put_bytes(const uint8_t *bytes, size_t n) {
    put(" | ");
    if (n == 0) put("-");
    for (size_t i = 0; i < n; i++) {
        char s[3];
        snprintf(s, sizeof s, "%02x", bytes[i]);
        put(s);
    }
}

/* The code, and n of the row's numbers where values are given; of refusal 4 its two. */
static void put_answer(uint8_t code, const uint64_t *row, size_t n) {
    text_len = 0;
    if (code == MOREL_ABSENT) {
        put("absent");
        return;
    }
    put(code == MOREL_GIVES ? "gives" : "refuses");
    if (code != MOREL_GIVES) put_number(code);
    if (code == MOREL_STRING_TOO_LONG) n = MOREL_LENGTHS;
    else if (code != MOREL_GIVES) n = 0;
    for (size_t i = 0; i < n; i++) put_number(row[i]);
}

static void put_record(const uint64_t *row, size_t n) {
    put(" @");
    for (size_t i = 0; i < n; i++) put_number(row[i]);
}

static int is(const struct kind *k, const char *name) {
    return strcmp(k->name, name) == 0;
}

static uint8_t answer_image(const struct kind *k, struct word *w) {
    static uint64_t row[MOREL_GENERAL];
    uint8_t *image = w[0].bytes;
    size_t n = w[0].len, values = MOREL_NUMBER;
    uint8_t code;
    memset(row, 0, sizeof row);
    if (is(k, "alias")) code = morel_station_alias(image, n, row, MOREL_GENERAL);
    else if (is(k, "size")) code = morel_size(image, n, row, MOREL_GENERAL);
    else if (is(k, "category")) code = morel_category(image, n, (uint16_t)w[2].number, row, MOREL_GENERAL), values = MOREL_RANGE;
    else if (is(k, "identity")) code = morel_identity(image, n, row, MOREL_GENERAL), values = MOREL_IDENTITY;
    else if (is(k, "mailbox")) code = morel_mailbox_config(image, n, row, MOREL_GENERAL), values = MOREL_MAILBOX;
    else if (is(k, "general")) code = morel_general(image, n, row, MOREL_GENERAL), values = MOREL_GENERAL;
    else if (is(k, "string")) code = morel_find_string(image, n, (uint8_t)w[2].number, w[3].bytes, w[3].len, row, MOREL_GENERAL);
    else if (is(k, "name")) code = morel_device_name(image, n, w[2].bytes, w[2].len, row, MOREL_GENERAL);
    else if (is(k, "desc")) code = morel_device_description(image, n, w[2].bytes, w[2].len, row, MOREL_GENERAL);
    else code = morel_set_station_alias(image, n, (uint16_t)w[1].number), values = 0;
    put_answer(code, row, values);
    if (is(k, "setalias")) put_bytes(image, n);
    if (is(k, "string")) put_bytes(w[3].bytes, w[3].len);
    if (is(k, "name") || is(k, "desc")) put_bytes(w[2].bytes, w[2].len);
    return code;
}

static uint8_t answer_frame(const struct kind *k, struct word *w) {
    static uint64_t row[MOREL_FRAME];
    uint8_t code;
    memset(row, 0, sizeof row);
    if (is(k, "open")) {
        code = morel_open(w[0].bytes, w[0].len, row, MOREL_STATE);
        put_answer(code, row, 0);
        put_record(row, MOREL_STATE);
        put_bytes(w[0].bytes, w[0].len);
    } else if (is(k, "push")) {
        code = morel_push_pdu(w[0].bytes, w[0].len, w[1].number, w[2].number, w[3].number, (uint8_t)w[4].number, (uint8_t)w[5].number,
                              (uint32_t)w[6].number, w[7].bytes, w[7].len, w[8].number, row, MOREL_PUSH);
        put_answer(code, row + 4, 2);
        if (code == MOREL_GIVES) CHECK(row[6] == w[4].number && row[7] == w[5].number);
        put_record(row, 4);
        put_bytes(w[0].bytes, w[0].len);
    } else if (is(k, "rest")) {
        code = morel_push_pdu_slice_rest(w[0].bytes, w[0].len, w[1].number, w[2].number, w[3].number, (uint8_t)w[4].number, (uint8_t)w[5].number,
                                         (uint32_t)w[6].number, w[7].bytes, w[7].len, row, MOREL_REST);
        put_answer(code, row + 4, 3);
        if (code == MOREL_GIVES) CHECK(row[7] == w[4].number && row[8] == w[5].number);
        put_record(row, 4);
        put_bytes(w[0].bytes, w[0].len);
    } else if (is(k, "canpush")) {
        code = morel_can_push_pdu_payload(w[0].number, w[1].number, w[2].number, w[3].number, w[4].number, row, MOREL_NUMBER);
        put_answer(code, row, MOREL_NUMBER);
    } else if (is(k, "header")) {
        uint8_t bytes[2] = {0, 0};
        code = morel_frame_header(w[0].number, bytes, 2);
        put_answer(code, row, 0);
        put_bytes(bytes, 2);
    } else if (is(k, "frame")) {
        code = morel_read_frame(w[0].bytes, w[0].len, row, MOREL_FRAME);
        put_answer(code, row, 1 + MOREL_PDU * (size_t)row[0]);
    } else {
        code = morel_spread(w[1].bytes, w[1].len, w[0].number, w[2].number, w[3].number, w[4].number, (uint8_t)w[5].number, (uint8_t)w[6].number,
                            (uint32_t)w[7].number, w[8].bytes, w[8].len, row, MOREL_SPREAD);
        put_answer(code, row + 1, 1 + MOREL_STATE * (size_t)row[1]);
        put_record(row, 1);
        put_bytes(w[1].bytes, w[1].len);
    }
    return code;
}

/* Answers a request, if it can be read and is one of the exports'. */
static struct kind *answer(char *request) {
    char *words[WORDS + 1];
    size_t n = 0, all = strlen(request);
    if (all == 0 || request[0] == ' ' || request[all - 1] == ' ' || strstr(request, "  ") != NULL) return NULL;
    for (char *s = strtok(request, " "); s != NULL && n <= WORDS; s = strtok(NULL, " ")) words[n++] = s;
    struct kind *k = NULL;
    for (size_t i = 0; i < sizeof kinds / sizeof *kinds; i++)
        if (n > 0 && is(&kinds[i], words[0])) k = &kinds[i];
    if (k == NULL || n != strlen(k->shape) + 1) return NULL;
    struct word w[WORDS] = {{0, NULL, 0}};
    int readable = 1;
    for (size_t i = 1; i < n; i++) readable = readable && read_word(k->shape[i - 1], words[i], &w[i - 1]);
    if (readable) {
        uint8_t code = 0;
        if (is(k, "crc")) {
            uint64_t sum = morel_crc(w[0].bytes, w[0].len);
            put_answer(MOREL_GIVES, &sum, 1);
        } else if (k <= &kinds[10]) code = answer_image(k, w);
        else code = answer_frame(k, w);
        if (code == MOREL_GIVES) k->given++;
        else k->not_given++;
    }
    for (size_t i = 0; i < WORDS; i++) free(w[i].bytes);
    return readable ? k : NULL;
}

static void replay(const char *requests, const char *answers) {
    FILE *in = fopen(requests, "r"), *out = fopen(answers, "r");
    char *request = NULL, *want = NULL;
    size_t request_room = 0, want_room = 0;
    if (in == NULL || out == NULL) {
        fprintf(stderr, "cannot open %s or %s\n", requests, answers);
        exit(2);
    }
    text = malloc(8 * MOREL_IMAGE_MOST);
    ssize_t got;
    for (unsigned long line = 1; (got = getline(&request, &request_room, in)) > 0 && getline(&want, &want_room, out) > 0; line++) {
        if (strlen(request) != (size_t)got) continue; /* a zero byte: no request */
        request[strcspn(request, "\n")] = 0;
        want[strcspn(want, "\n")] = 0;
        struct kind *k = answer(request);
        if (k == NULL) continue;
        checks++;
        if (strcmp(text, want) != 0) {
            failures++;
            fprintf(stderr, "%s:%lu: %s: got %.200s, want %.200s\n", requests, line, k->name, text, want);
        }
    }
    for (size_t i = 0; i < sizeof kinds / sizeof *kinds; i++) {
        printf("  %-8s %4lu given, %4lu not\n", kinds[i].name, kinds[i].given, kinds[i].not_given);
        CHECK(kinds[i].given > 0);
        /* no recorded image is too long, which is all that these two refuse: fixed_area has it; crc refuses nothing */
        CHECK(kinds[i].not_given > 0 || is(&kinds[i], "crc") || is(&kinds[i], "size") || is(&kinds[i], "identity"));
    }
    free(text);
    free(request);
    free(want);
    fclose(in);
    fclose(out);
}

int main(int argc, char **argv) {
    fixed_area();
    alias_set();
    categories();
    full_images();
    strings();
    frames();
    spreading();
    null_and_none();
    null_and_some();
    if (argc == 3) replay(argv[1], argv[2]);
    printf("%lu checks, %lu failed\n", checks, failures);
    return failures != 0;
}
