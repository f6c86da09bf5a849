/* Morelbarrel for C: the EtherCAT wire core's calls on EEPROM images, frames and process images.
 *
 * Each call answers a code:
 *
 *     0        MOREL_GIVES: the answer's values stand at the front of the row `out`
 *     1 to 14  a refusal, by its number; more numbers may be added
 *     255      MOREL_ABSENT: there is no such thing, which is an answer and no refusal
 *
 * and puts numbers over the front of the row that is lent to it, as many as the row has room for. What stands behind them stays, and so does the
 * whole row where a call has nothing to say. How many numbers there are is said with each call and has a name, as MOREL_IDENTITY.
 *
 * A call looks at everything that it is handed, and any numbers and any bytes are allowed. A slice is a pointer and a count of its elements:
 *
 *     (NULL, 0)  no elements
 *     (NULL, n)  is answered 14, n being above 0, and the call then changes nothing, its row neither
 *     (p, n)     p leads to n elements; those of a slice that a call may change overlap nothing else that the call is handed
 *
 * What every call answers and leaves is proved (docs/PROMISES.md, section export) of slices whose pointers are not null. Those that are, the
 * functions at the end of this header see to: a call's name stands for one of them.
 */
#ifndef MORELBARREL_H
#define MORELBARREL_H

#include <stddef.h>
#include <stdint.h>

#ifdef __cplusplus
extern "C" {
#endif

enum {
    MOREL_GIVES = 0,
    MOREL_ADDRESS = 1,         /* an address rule is broken */
    MOREL_OVERRUN = 2,         /* an exact read or a skip doesn't fit its range */
    MOREL_NO_CATEGORY = 3,     /* General is needed and not found */
    MOREL_STRING_TOO_LONG = 4, /* the stored string is longer than the lent room; the row takes both lengths: room, stored */
    MOREL_DECODE = 5,          /* a field value that its type doesn't admit */
    MOREL_CAPACITY = 6,        /* a list is over its limit */
    MOREL_NOT_WRITABLE = 7,    /* a word to write isn't wholly in the image */
    MOREL_TOO_LONG = 8,        /* push_pdu has no space */
    MOREL_NO_PORT = 9,         /* no port is active */
    MOREL_BAD_PORT = 10,       /* a port number outside 0 to 3 */
    MOREL_SUM = 11,            /* a sum of delays exceeds 32 bits */
    MOREL_BAD_FRAME = 12,      /* the frame reader's rule is broken */
    MOREL_NO_ROOM = 13,        /* no permitted cutting exists */
    MOREL_BAD_ARGUMENT = 14,   /* a size, command, category number or state outside its bounds */
    MOREL_ABSENT = 255
};

/* How many numbers a row takes. */
enum {
    MOREL_NUMBER = 1,             /* an alias, a size, a text's length, a test */
    MOREL_LENGTHS = 2,            /* of refusal 4: the room, and the stored length */
    MOREL_RANGE = 2,              /* start, end */
    MOREL_IDENTITY = 4,           /* vendor, product, revision, serial */
    MOREL_MAILBOX = 5,            /* receive offset, receive size, send offset, send size, protocols */
    MOREL_GENERAL = 14,           /* group, image, order, name, CoE details, FoE, EoE, flags, EBus current (its 16 bits), ports 0 to 3, physical address */
    MOREL_STATE = 3,              /* used, count, last */
    MOREL_PUSH = 8,               /* used, count, last, next index; start, size, index, command */
    MOREL_REST = 9,               /* used, count, last, next index; bytes taken, start, size, index, command */
    MOREL_PDU = 9,                /* command, index, address, length, circulated, more follows, IRQ, payload's place, working counter */
    MOREL_PDUS = 170,             /* PDUs in a frame, at most */
    MOREL_FRAME = 1 + 9 * 170,    /* how many PDUs, and each */
    MOREL_AREAS = 32,             /* areas in a row, at most */
    MOREL_SPREAD = 2 + 3 * 32     /* next index, how many areas, and the state of each */
};

/* ---- EEPROM images: 0 to MOREL_IMAGE_MOST bytes, else 14. Bytes past the end read as 0xFF. */

enum { MOREL_IMAGE_MOST = 131072 };

/* The CRC-8 of the bytes: polynomial 0x07, start 0xFF. This one answers the checksum itself, so that its 14 for (NULL, n) may be a checksum too. */
uint8_t morel_crc(const uint8_t *bytes, size_t bytes_len);

/* The configured station alias: MOREL_NUMBER. Refuses 14. */
uint8_t morel_station_alias(const uint8_t *image, size_t image_len, uint64_t *out, size_t out_len);

/* Sets the alias at bytes 8 and 9, and the checksum at 14 and 15. Refuses 14; 7 for an image of under 16 bytes. A refusal changes nothing. */
uint8_t morel_set_station_alias(uint8_t *image, size_t image_len, uint16_t alias);

/* Vendor, product, revision, serial: MOREL_IDENTITY. Refuses 14. */
uint8_t morel_identity(const uint8_t *image, size_t image_len, uint64_t *out, size_t out_len);

/* The standard mailbox: MOREL_MAILBOX. Refuses 14; 5 for undefined protocol bits. */
uint8_t morel_mailbox_config(const uint8_t *image, size_t image_len, uint64_t *out, size_t out_len);

/* The EEPROM's size in bytes: MOREL_NUMBER. Refuses 14. */
uint8_t morel_size(const uint8_t *image, size_t image_len, uint64_t *out, size_t out_len);

/* Where the first category of this number (10, 30, 40, 41, 42, 50, 51 or 60) starts and ends, in bytes: MOREL_RANGE. Absent. Refuses 14; 1 where
 * it would end past MOREL_IMAGE_MOST, or a header leads past word 65,535. */
uint8_t morel_category(const uint8_t *image, size_t image_len, uint16_t number, uint64_t *out, size_t out_len);

/* Whether all that the search for this category looks at, its headers and the end mark, and the category that it finds lie in the image, 1 or 0:
 * MOREL_NUMBER. 0 says that bytes are missing, so that what is read of the category may be 0xFF bytes from past the end. Refuses as
 * morel_category. */
uint8_t morel_category_inside(const uint8_t *image, size_t image_len, uint16_t number, uint64_t *out, size_t out_len);

/* The category General: MOREL_GENERAL. Refuses 14, 1; 3 where there is none; 2 where it is short; 5 for undefined flag bits. */
uint8_t morel_general(const uint8_t *image, size_t image_len, uint64_t *out, size_t out_len);

/* The string of an index, ASCII, at the front of `room`, which has 0 to 255 bytes; the row takes its length: MOREL_NUMBER, or of refusal 4
 * MOREL_LENGTHS. Absent. Refuses 14, 1, 2, 4. The room stays where no string comes. */
uint8_t morel_find_string(const uint8_t *image, size_t image_len, uint8_t index, uint8_t *room, size_t room_len, uint64_t *out, size_t out_len);

/* The same of the device's name: the string of General's order index. Absent without General. Refuses 14, 1, 2, 5, 4. */
uint8_t morel_device_name(const uint8_t *image, size_t image_len, uint8_t *room, size_t room_len, uint64_t *out, size_t out_len);

/* The same of the device's description: the string of General's name index. Without General it refuses 3. */
uint8_t morel_device_description(const uint8_t *image, size_t image_len, uint8_t *room, size_t room_len, uint64_t *out, size_t out_len);

/* ---- Frames: PDUs in an area of 0 to 2,047 bytes. A builder's state is used, count and last: it goes in as numbers and comes back in the row. */

/* Zeroes the area; the row takes the state of an empty one: MOREL_STATE. Refuses 14, and leaves the area. */
uint8_t morel_open(uint8_t *area, size_t area_len, uint64_t *out, size_t out_len);

/* Pushes a PDU of these bytes; its payload is as long as the larger of bytes_len and `over`, 65,535 at most. The row takes MOREL_PUSH; of a
 * refusal its first four, the state and the next index. Refuses 14, which takes no index; 8 where it has no room, which takes one. A refusal
 * leaves the area. */
uint8_t morel_push_pdu(uint8_t *area, size_t area_len, size_t used, size_t count, size_t last, uint8_t index, uint8_t command, uint32_t address,
                       const uint8_t *bytes, size_t bytes_len, size_t over, uint64_t *out, size_t out_len);

/* Pushes a PDU of as many of these bytes as have room. The row takes MOREL_REST; where it is absent (no input, or no room) or refused its first
 * four. Absent. Refuses 14. Neither takes an index, nor changes the area. */
uint8_t morel_push_pdu_slice_rest(uint8_t *area, size_t area_len, size_t used, size_t count, size_t last, uint8_t index, uint8_t command,
                                  uint32_t address, const uint8_t *bytes, size_t bytes_len, uint64_t *out, size_t out_len);

/* Whether a PDU of len payload bytes has room in an area of size bytes, 1 or 0: MOREL_NUMBER. Refuses 14. */
uint8_t morel_can_push_pdu_payload(size_t size, size_t used, size_t count, size_t last, size_t len, uint64_t *out, size_t out_len);

/* The two bytes of the header of a frame whose PDUs take `used` bytes, at the front of `bytes`. Refuses 14 above 2,047, and where `bytes` has fewer
 * than two; a refusal leaves them. */
uint8_t morel_frame_header(size_t used, uint8_t *bytes, size_t bytes_len);

/* The PDUs of a frame, its header first: how many, and MOREL_PDU numbers of each (MOREL_FRAME). Where the bytes are no frame it refuses 12,
 * and the row takes 0 PDUs. A payload's place is counted from the frame's first byte. */
uint8_t morel_read_frame(const uint8_t *frame, size_t frame_len, uint64_t *out, size_t out_len);

/* Spreads an image of 0 to 65,535 bytes over 1 to 32 areas of `size` bytes each, one behind the other in `areas`, as logical PDUs (command 10, 11
 * or 12) from this address on. The first area has the state used, count, last; the others are opened. The row takes the next index, the number of
 * the last area that was used (0 for an empty image), and the state of each area up to it (MOREL_SPREAD). Refuses 14, 1, 13; a refusal leaves
 * the areas, and the row takes the index and 0 areas. */
uint8_t morel_spread(uint8_t *areas, size_t areas_len, size_t size, size_t used, size_t count, size_t last, uint8_t index, uint8_t command,
                     uint32_t address, const uint8_t *image, size_t image_len, uint64_t *out, size_t out_len);

/* ---- Slices whose pointers may be null. Each call above is reached by its checked form. */

static inline int morel_lacking(const void *slice, size_t len) {
    return slice == NULL && len != 0;
}

/* What stands for a null pointer: a call that is handed no elements looks at none. */
static inline const uint8_t *morel_bytes(const uint8_t *slice) {
    static const uint8_t none[1] = {0};
    return slice != NULL ? slice : none;
}

static inline uint8_t *morel_room(uint8_t *slice) {
    static uint8_t none[1];
    return slice != NULL ? slice : none;
}

static inline uint64_t *morel_row(uint64_t *slice) {
    static uint64_t none[1];
    return slice != NULL ? slice : none;
}

static inline uint8_t morel_crc_checked(const uint8_t *bytes, size_t bytes_len) {
    if (morel_lacking(bytes, bytes_len)) return MOREL_BAD_ARGUMENT;
    return morel_crc(morel_bytes(bytes), bytes_len);
}

static inline uint8_t morel_station_alias_checked(const uint8_t *image, size_t image_len, uint64_t *out, size_t out_len) {
    if (morel_lacking(image, image_len) || morel_lacking(out, out_len)) return MOREL_BAD_ARGUMENT;
    return morel_station_alias(morel_bytes(image), image_len, morel_row(out), out_len);
}

static inline uint8_t morel_set_station_alias_checked(uint8_t *image, size_t image_len, uint16_t alias) {
    if (morel_lacking(image, image_len)) return MOREL_BAD_ARGUMENT;
    return morel_set_station_alias(morel_room(image), image_len, alias);
}

static inline uint8_t morel_identity_checked(const uint8_t *image, size_t image_len, uint64_t *out, size_t out_len) {
    if (morel_lacking(image, image_len) || morel_lacking(out, out_len)) return MOREL_BAD_ARGUMENT;
    return morel_identity(morel_bytes(image), image_len, morel_row(out), out_len);
}

static inline uint8_t morel_mailbox_config_checked(const uint8_t *image, size_t image_len, uint64_t *out, size_t out_len) {
    if (morel_lacking(image, image_len) || morel_lacking(out, out_len)) return MOREL_BAD_ARGUMENT;
    return morel_mailbox_config(morel_bytes(image), image_len, morel_row(out), out_len);
}

static inline uint8_t morel_size_checked(const uint8_t *image, size_t image_len, uint64_t *out, size_t out_len) {
    if (morel_lacking(image, image_len) || morel_lacking(out, out_len)) return MOREL_BAD_ARGUMENT;
    return morel_size(morel_bytes(image), image_len, morel_row(out), out_len);
}

static inline uint8_t morel_category_checked(const uint8_t *image, size_t image_len, uint16_t number, uint64_t *out, size_t out_len) {
    if (morel_lacking(image, image_len) || morel_lacking(out, out_len)) return MOREL_BAD_ARGUMENT;
    return morel_category(morel_bytes(image), image_len, number, morel_row(out), out_len);
}

static inline uint8_t morel_category_inside_checked(const uint8_t *image, size_t image_len, uint16_t number, uint64_t *out, size_t out_len) {
    if (morel_lacking(image, image_len) || morel_lacking(out, out_len)) return MOREL_BAD_ARGUMENT;
    return morel_category_inside(morel_bytes(image), image_len, number, morel_row(out), out_len);
}

static inline uint8_t morel_general_checked(const uint8_t *image, size_t image_len, uint64_t *out, size_t out_len) {
    if (morel_lacking(image, image_len) || morel_lacking(out, out_len)) return MOREL_BAD_ARGUMENT;
    return morel_general(morel_bytes(image), image_len, morel_row(out), out_len);
}

static inline uint8_t morel_find_string_checked(const uint8_t *image, size_t image_len, uint8_t index, uint8_t *room, size_t room_len, uint64_t *out,
                                                size_t out_len) {
    if (morel_lacking(image, image_len) || morel_lacking(room, room_len) || morel_lacking(out, out_len)) return MOREL_BAD_ARGUMENT;
    return morel_find_string(morel_bytes(image), image_len, index, morel_room(room), room_len, morel_row(out), out_len);
}

static inline uint8_t morel_device_name_checked(const uint8_t *image, size_t image_len, uint8_t *room, size_t room_len, uint64_t *out,
                                                size_t out_len) {
    if (morel_lacking(image, image_len) || morel_lacking(room, room_len) || morel_lacking(out, out_len)) return MOREL_BAD_ARGUMENT;
    return morel_device_name(morel_bytes(image), image_len, morel_room(room), room_len, morel_row(out), out_len);
}

static inline uint8_t morel_device_description_checked(const uint8_t *image, size_t image_len, uint8_t *room, size_t room_len, uint64_t *out,
                                                       size_t out_len) {
    if (morel_lacking(image, image_len) || morel_lacking(room, room_len) || morel_lacking(out, out_len)) return MOREL_BAD_ARGUMENT;
    return morel_device_description(morel_bytes(image), image_len, morel_room(room), room_len, morel_row(out), out_len);
}

static inline uint8_t morel_open_checked(uint8_t *area, size_t area_len, uint64_t *out, size_t out_len) {
    if (morel_lacking(area, area_len) || morel_lacking(out, out_len)) return MOREL_BAD_ARGUMENT;
    return morel_open(morel_room(area), area_len, morel_row(out), out_len);
}

static inline uint8_t morel_push_pdu_checked(uint8_t *area, size_t area_len, size_t used, size_t count, size_t last, uint8_t index, uint8_t command,
                                             uint32_t address, const uint8_t *bytes, size_t bytes_len, size_t over, uint64_t *out, size_t out_len) {
    if (morel_lacking(area, area_len) || morel_lacking(bytes, bytes_len) || morel_lacking(out, out_len)) return MOREL_BAD_ARGUMENT;
    return morel_push_pdu(morel_room(area), area_len, used, count, last, index, command, address, morel_bytes(bytes), bytes_len, over,
                          morel_row(out), out_len);
}

static inline uint8_t morel_push_pdu_slice_rest_checked(uint8_t *area, size_t area_len, size_t used, size_t count, size_t last, uint8_t index,
                                                        uint8_t command, uint32_t address, const uint8_t *bytes, size_t bytes_len, uint64_t *out,
                                                        size_t out_len) {
    if (morel_lacking(area, area_len) || morel_lacking(bytes, bytes_len) || morel_lacking(out, out_len)) return MOREL_BAD_ARGUMENT;
    return morel_push_pdu_slice_rest(morel_room(area), area_len, used, count, last, index, command, address, morel_bytes(bytes), bytes_len,
                                     morel_row(out), out_len);
}

static inline uint8_t morel_can_push_pdu_payload_checked(size_t size, size_t used, size_t count, size_t last, size_t len, uint64_t *out,
                                                         size_t out_len) {
    if (morel_lacking(out, out_len)) return MOREL_BAD_ARGUMENT;
    return morel_can_push_pdu_payload(size, used, count, last, len, morel_row(out), out_len);
}

static inline uint8_t morel_frame_header_checked(size_t used, uint8_t *bytes, size_t bytes_len) {
    if (morel_lacking(bytes, bytes_len)) return MOREL_BAD_ARGUMENT;
    return morel_frame_header(used, morel_room(bytes), bytes_len);
}

static inline uint8_t morel_read_frame_checked(const uint8_t *frame, size_t frame_len, uint64_t *out, size_t out_len) {
    if (morel_lacking(frame, frame_len) || morel_lacking(out, out_len)) return MOREL_BAD_ARGUMENT;
    return morel_read_frame(morel_bytes(frame), frame_len, morel_row(out), out_len);
}

static inline uint8_t morel_spread_checked(uint8_t *areas, size_t areas_len, size_t size, size_t used, size_t count, size_t last, uint8_t index,
                                           uint8_t command, uint32_t address, const uint8_t *image, size_t image_len, uint64_t *out,
                                           size_t out_len) {
    if (morel_lacking(areas, areas_len) || morel_lacking(image, image_len) || morel_lacking(out, out_len)) return MOREL_BAD_ARGUMENT;
    return morel_spread(morel_room(areas), areas_len, size, used, count, last, index, command, address, morel_bytes(image), image_len,
                        morel_row(out), out_len);
}

#define morel_crc morel_crc_checked
#define morel_station_alias morel_station_alias_checked
#define morel_set_station_alias morel_set_station_alias_checked
#define morel_identity morel_identity_checked
#define morel_mailbox_config morel_mailbox_config_checked
#define morel_size morel_size_checked
#define morel_category morel_category_checked
#define morel_category_inside morel_category_inside_checked
#define morel_general morel_general_checked
#define morel_find_string morel_find_string_checked
#define morel_device_name morel_device_name_checked
#define morel_device_description morel_device_description_checked
#define morel_open morel_open_checked
#define morel_push_pdu morel_push_pdu_checked
#define morel_push_pdu_slice_rest morel_push_pdu_slice_rest_checked
#define morel_can_push_pdu_payload morel_can_push_pdu_payload_checked
#define morel_frame_header morel_frame_header_checked
#define morel_read_frame morel_read_frame_checked
#define morel_spread morel_spread_checked

#ifdef __cplusplus
}
#endif

#endif
