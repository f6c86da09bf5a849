/* The header's functions for null pointers, alone: in the exports' places stand functions that look whether each slice is there. So this runs on every
 * machine, and under the sanitizers, without the archive. */
#include "morelbarrel.h"

#include <stdio.h>

enum { REACHED = 200 };

static unsigned checks, failures;

static void check(int ok, const char *what, int line) {
    checks++;
    if (!ok) {
        failures++;
        fprintf(stderr, "null.c:%d: %s\n", line, what);
    }
}

#define CHECK(x) check((x), #x, __LINE__)

/* With every slice (NULL, 0) a call reaches its export, with one of them (NULL, 1) it is 14 and does not. */
static void calls(void) {
    uint8_t bytes[2] = {0, 0};
    uint64_t row[2] = {0, 0};
    CHECK(morel_crc(NULL, 0) == REACHED);
    CHECK(morel_crc(NULL, 1) == MOREL_BAD_ARGUMENT);
    CHECK(morel_station_alias(NULL, 0, NULL, 0) == REACHED);
    CHECK(morel_station_alias(NULL, 1, row, 2) == MOREL_BAD_ARGUMENT);
    CHECK(morel_station_alias(bytes, 2, NULL, 1) == MOREL_BAD_ARGUMENT);
    CHECK(morel_set_station_alias(NULL, 0, 0) == REACHED);
    CHECK(morel_set_station_alias(NULL, 1, 0) == MOREL_BAD_ARGUMENT);
    CHECK(morel_identity(NULL, 0, NULL, 0) == REACHED);
    CHECK(morel_identity(NULL, 1, row, 2) == MOREL_BAD_ARGUMENT);
    CHECK(morel_identity(bytes, 2, NULL, 1) == MOREL_BAD_ARGUMENT);
    CHECK(morel_mailbox_config(NULL, 0, NULL, 0) == REACHED);
    CHECK(morel_mailbox_config(NULL, 1, row, 2) == MOREL_BAD_ARGUMENT);
    CHECK(morel_mailbox_config(bytes, 2, NULL, 1) == MOREL_BAD_ARGUMENT);
    CHECK(morel_size(NULL, 0, NULL, 0) == REACHED);
    CHECK(morel_size(NULL, 1, row, 2) == MOREL_BAD_ARGUMENT);
    CHECK(morel_size(bytes, 2, NULL, 1) == MOREL_BAD_ARGUMENT);
    CHECK(morel_category(NULL, 0, 0, NULL, 0) == REACHED);
    CHECK(morel_category(NULL, 1, 0, row, 2) == MOREL_BAD_ARGUMENT);
    CHECK(morel_category(bytes, 2, 0, NULL, 1) == MOREL_BAD_ARGUMENT);
    CHECK(morel_category_inside(NULL, 0, 0, NULL, 0) == REACHED);
    CHECK(morel_category_inside(NULL, 1, 0, row, 2) == MOREL_BAD_ARGUMENT);
    CHECK(morel_category_inside(bytes, 2, 0, NULL, 1) == MOREL_BAD_ARGUMENT);
    CHECK(morel_general(NULL, 0, NULL, 0) == REACHED);
    CHECK(morel_general(NULL, 1, row, 2) == MOREL_BAD_ARGUMENT);
    CHECK(morel_general(bytes, 2, NULL, 1) == MOREL_BAD_ARGUMENT);
    CHECK(morel_find_string(NULL, 0, 0, NULL, 0, NULL, 0) == REACHED);
    CHECK(morel_find_string(NULL, 1, 0, bytes, 2, row, 2) == MOREL_BAD_ARGUMENT);
    CHECK(morel_find_string(bytes, 2, 0, NULL, 1, row, 2) == MOREL_BAD_ARGUMENT);
    CHECK(morel_find_string(bytes, 2, 0, bytes, 2, NULL, 1) == MOREL_BAD_ARGUMENT);
    CHECK(morel_device_name(NULL, 0, NULL, 0, NULL, 0) == REACHED);
    CHECK(morel_device_name(NULL, 1, bytes, 2, row, 2) == MOREL_BAD_ARGUMENT);
    CHECK(morel_device_name(bytes, 2, NULL, 1, row, 2) == MOREL_BAD_ARGUMENT);
    CHECK(morel_device_name(bytes, 2, bytes, 2, NULL, 1) == MOREL_BAD_ARGUMENT);
    CHECK(morel_device_description(NULL, 0, NULL, 0, NULL, 0) == REACHED);
    CHECK(morel_device_description(NULL, 1, bytes, 2, row, 2) == MOREL_BAD_ARGUMENT);
    CHECK(morel_device_description(bytes, 2, NULL, 1, row, 2) == MOREL_BAD_ARGUMENT);
    CHECK(morel_device_description(bytes, 2, bytes, 2, NULL, 1) == MOREL_BAD_ARGUMENT);
    CHECK(morel_open(NULL, 0, NULL, 0) == REACHED);
    CHECK(morel_open(NULL, 1, row, 2) == MOREL_BAD_ARGUMENT);
    CHECK(morel_open(bytes, 2, NULL, 1) == MOREL_BAD_ARGUMENT);
    CHECK(morel_push_pdu(NULL, 0, 0, 0, 0, 0, 0, 0, NULL, 0, 0, NULL, 0) == REACHED);
    CHECK(morel_push_pdu(NULL, 1, 0, 0, 0, 0, 0, 0, bytes, 2, 0, row, 2) == MOREL_BAD_ARGUMENT);
    CHECK(morel_push_pdu(bytes, 2, 0, 0, 0, 0, 0, 0, NULL, 1, 0, row, 2) == MOREL_BAD_ARGUMENT);
    CHECK(morel_push_pdu(bytes, 2, 0, 0, 0, 0, 0, 0, bytes, 2, 0, NULL, 1) == MOREL_BAD_ARGUMENT);
    CHECK(morel_push_pdu_slice_rest(NULL, 0, 0, 0, 0, 0, 0, 0, NULL, 0, NULL, 0) == REACHED);
    CHECK(morel_push_pdu_slice_rest(NULL, 1, 0, 0, 0, 0, 0, 0, bytes, 2, row, 2) == MOREL_BAD_ARGUMENT);
    CHECK(morel_push_pdu_slice_rest(bytes, 2, 0, 0, 0, 0, 0, 0, NULL, 1, row, 2) == MOREL_BAD_ARGUMENT);
    CHECK(morel_push_pdu_slice_rest(bytes, 2, 0, 0, 0, 0, 0, 0, bytes, 2, NULL, 1) == MOREL_BAD_ARGUMENT);
    CHECK(morel_can_push_pdu_payload(0, 0, 0, 0, 0, NULL, 0) == REACHED);
    CHECK(morel_can_push_pdu_payload(0, 0, 0, 0, 0, NULL, 1) == MOREL_BAD_ARGUMENT);
    CHECK(morel_frame_header(0, NULL, 0) == REACHED);
    CHECK(morel_frame_header(0, NULL, 1) == MOREL_BAD_ARGUMENT);
    CHECK(morel_read_frame(NULL, 0, NULL, 0) == REACHED);
    CHECK(morel_read_frame(NULL, 1, row, 2) == MOREL_BAD_ARGUMENT);
    CHECK(morel_read_frame(bytes, 2, NULL, 1) == MOREL_BAD_ARGUMENT);
    CHECK(morel_spread(NULL, 0, 0, 0, 0, 0, 0, 0, 0, NULL, 0, NULL, 0) == REACHED);
    CHECK(morel_spread(NULL, 1, 0, 0, 0, 0, 0, 0, 0, bytes, 2, row, 2) == MOREL_BAD_ARGUMENT);
    CHECK(morel_spread(bytes, 2, 0, 0, 0, 0, 0, 0, 0, NULL, 1, row, 2) == MOREL_BAD_ARGUMENT);
    CHECK(morel_spread(bytes, 2, 0, 0, 0, 0, 0, 0, 0, bytes, 2, NULL, 1) == MOREL_BAD_ARGUMENT);
}

int main(void) {
    calls();
    printf("%u checks, %u failed\n", checks, failures);
    return failures != 0;
}

/* ---- in the exports' places */

#undef morel_crc
#undef morel_station_alias
#undef morel_set_station_alias
#undef morel_identity
#undef morel_mailbox_config
#undef morel_size
#undef morel_category
#undef morel_category_inside
#undef morel_general
#undef morel_find_string
#undef morel_device_name
#undef morel_device_description
#undef morel_open
#undef morel_push_pdu
#undef morel_push_pdu_slice_rest
#undef morel_can_push_pdu_payload
#undef morel_frame_header
#undef morel_read_frame
#undef morel_spread

static void see(const void *slice, size_t bytes) {
    unsigned sum = 0;
    CHECK(slice != NULL);
    for (size_t i = 0; i < bytes; i++) sum += ((const unsigned char *)slice)[i];
    CHECK(sum == 0);
}

uint8_t morel_crc(const uint8_t *bytes, size_t bytes_len) {
    see(bytes, bytes_len);
    return REACHED;
}

uint8_t morel_station_alias(const uint8_t *image, size_t image_len, uint64_t *out, size_t out_len) {
    see(image, image_len); see(out, out_len * sizeof *out);
    return REACHED;
}

uint8_t morel_set_station_alias(uint8_t *image, size_t image_len, uint16_t alias) {
    see(image, image_len);
    (void)alias;
    return REACHED;
}

uint8_t morel_identity(const uint8_t *image, size_t image_len, uint64_t *out, size_t out_len) {
    see(image, image_len); see(out, out_len * sizeof *out);
    return REACHED;
}

uint8_t morel_mailbox_config(const uint8_t *image, size_t image_len, uint64_t *out, size_t out_len) {
    see(image, image_len); see(out, out_len * sizeof *out);
    return REACHED;
}

uint8_t morel_size(const uint8_t *image, size_t image_len, uint64_t *out, size_t out_len) {
    see(image, image_len); see(out, out_len * sizeof *out);
    return REACHED;
}

uint8_t morel_category(const uint8_t *image, size_t image_len, uint16_t number, uint64_t *out, size_t out_len) {
    see(image, image_len); see(out, out_len * sizeof *out);
    (void)number;
    return REACHED;
}

uint8_t morel_category_inside(const uint8_t *image, size_t image_len, uint16_t number, uint64_t *out, size_t out_len) {
    see(image, image_len); see(out, out_len * sizeof *out);
    (void)number;
    return REACHED;
}

uint8_t morel_general(const uint8_t *image, size_t image_len, uint64_t *out, size_t out_len) {
    see(image, image_len); see(out, out_len * sizeof *out);
    return REACHED;
}

uint8_t morel_find_string(const uint8_t *image, size_t image_len, uint8_t index, uint8_t *room, size_t room_len, uint64_t *out, size_t out_len) {
    see(image, image_len); see(room, room_len); see(out, out_len * sizeof *out);
    (void)index;
    return REACHED;
}

uint8_t morel_device_name(const uint8_t *image, size_t image_len, uint8_t *room, size_t room_len, uint64_t *out, size_t out_len) {
    see(image, image_len); see(room, room_len); see(out, out_len * sizeof *out);
    return REACHED;
}

uint8_t morel_device_description(const uint8_t *image, size_t image_len, uint8_t *room, size_t room_len, uint64_t *out, size_t out_len) {
    see(image, image_len); see(room, room_len); see(out, out_len * sizeof *out);
    return REACHED;
}

uint8_t morel_open(uint8_t *area, size_t area_len, uint64_t *out, size_t out_len) {
    see(area, area_len); see(out, out_len * sizeof *out);
    return REACHED;
}

uint8_t morel_push_pdu(uint8_t *area, size_t area_len, size_t used, size_t count, size_t last, uint8_t index, uint8_t command, uint32_t address,
                       const uint8_t *bytes, size_t bytes_len, size_t over, uint64_t *out, size_t out_len) {
    see(area, area_len); see(bytes, bytes_len); see(out, out_len * sizeof *out);
    (void)used; (void)count; (void)last; (void)index; (void)command; (void)address; (void)over;
    return REACHED;
}

uint8_t morel_push_pdu_slice_rest(uint8_t *area, size_t area_len, size_t used, size_t count, size_t last, uint8_t index, uint8_t command,
                                  uint32_t address, const uint8_t *bytes, size_t bytes_len, uint64_t *out, size_t out_len) {
    see(area, area_len); see(bytes, bytes_len); see(out, out_len * sizeof *out);
    (void)used; (void)count; (void)last; (void)index; (void)command; (void)address;
    return REACHED;
}

uint8_t morel_can_push_pdu_payload(size_t size, size_t used, size_t count, size_t last, size_t len, uint64_t *out, size_t out_len) {
    see(out, out_len * sizeof *out);
    (void)size; (void)used; (void)count; (void)last; (void)len;
    return REACHED;
}

uint8_t morel_frame_header(size_t used, uint8_t *bytes, size_t bytes_len) {
    see(bytes, bytes_len);
    (void)used;
    return REACHED;
}

uint8_t morel_read_frame(const uint8_t *frame, size_t frame_len, uint64_t *out, size_t out_len) {
    see(frame, frame_len); see(out, out_len * sizeof *out);
    return REACHED;
}

uint8_t morel_spread(uint8_t *areas, size_t areas_len, size_t size, size_t used, size_t count, size_t last, uint8_t index, uint8_t command,
                     uint32_t address, const uint8_t *image, size_t image_len, uint64_t *out, size_t out_len) {
    see(areas, areas_len); see(image, image_len); see(out, out_len * sizeof *out);
    (void)size; (void)used; (void)count; (void)last; (void)index; (void)command; (void)address;
    return REACHED;
}
