/* Snowploughy: plans and checks tables of constant-bit-rate grants.
 *
 * Link with libhub.a: `rt lib` in crates/hub_c makes it as crates/hub_c/out/libhub_c.a. Every function answers for every input: no
 * caller has to check anything first. Each is proved to meet its contract in crates/hub_c/src/lib.rt; nothing checks these
 * declarations against that file. */
#ifndef SNOWPLOUGHY_H
#define SNOWPLOUGHY_H

#include <stddef.h>
#include <stdint.h>

#ifdef __cplusplus
extern "C" {
#endif

/* The greatest lengths in bytes: a list of 128 flows, a table of 1,024 grants, and a sheet of 128 lines
 * (`flow 1023 size 4095 every 4096 jitter 4095` and its line feed are 43 bytes). Rooms of these lengths are never too short. */
enum {
    SNOWPLOUGHY_LIST_BYTES = 4 + 6 * 128,
    SNOWPLOUGHY_TABLE_BYTES = 8 + 5 * 1024,
    SNOWPLOUGHY_SHEET_BYTES = 43 * 128
};

/* The refusals. */
enum snowploughy_refusal {
    SNOWPLOUGHY_DONE = 0,
    SNOWPLOUGHY_LENGTH = 1,        /* list under 4 bytes, or (after 2 and 3) not its exact length */
    SNOWPLOUGHY_HEAD = 2,          /* list edition, kind or spare bits wrong */
    SNOWPLOUGHY_COUNT = 3,         /* count 0 or over 128 */
    SNOWPLOUGHY_FIELD = 4,         /* a field breaks its rule: place is the record */
    SNOWPLOUGHY_USED_NUMBER = 5,   /* number already used by an earlier record: record */
    SNOWPLOUGHY_UNRELATED = 6,     /* interval unrelated to an earlier one: record */
    SNOWPLOUGHY_LIMITS = 7,        /* over 256 frames or over 1,024 grants */
    SNOWPLOUGHY_OVERLOAD = 8,      /* load over the cycle */
    SNOWPLOUGHY_ROOM = 9,          /* room to write is too short */
    SNOWPLOUGHY_NO_FRAME = 10,     /* no lawful frame: record of the first such flow in placing order */
    SNOWPLOUGHY_TABLE_FORM = 11,   /* table under 8 bytes, or wrong edition, kind, spare bits, count or length */
    SNOWPLOUGHY_NOT_RISING = 12,   /* starts not strictly rising: table record */
    SNOWPLOUGHY_OTHER_CYCLE = 13,  /* cycle or frame not the list's */
    SNOWPLOUGHY_UNKNOWN_FLOW = 14, /* flow not in the list: table record */
    SNOWPLOUGHY_GRANT_COUNT = 15,  /* wrong number of grants: list record */
    SNOWPLOUGHY_TIMING = 16,       /* late over the jitter or over the start, first nominal time not below the interval,
                                      or a wrong step from the flow's last one: table record */
    SNOWPLOUGHY_OVERLAP = 17,      /* overlaps the record before: table record */
    SNOWPLOUGHY_PAST_CYCLE = 18,   /* ends after the cycle: table record */
    SNOWPLOUGHY_WINDOW_ENDS = 19,  /* window ends not 0 <= a <= b <= cycle */
    SNOWPLOUGHY_LINE = 20,         /* a sheet line not of its form: line */
    SNOWPLOUGHY_OUTSIDE_SPAN = 21, /* interval below the frame or over the cycle */
    SNOWPLOUGHY_NO_OFFSET = 22,    /* no offset at which the new flow fits */
    SNOWPLOUGHY_ENCODING = 23,     /* broken encoding, another type at the top, or one of the four settings repeated or of
                                      wrong length: place is the encoding, counted from 1 */
    SNOWPLOUGHY_MISSING_SETTING = 24, /* one of the four settings missing: encoding */
    SNOWPLOUGHY_NOT_WHOLE = 25,    /* interval not a whole number of slots: encoding */
    SNOWPLOUGHY_NO_CHANNEL = 26,   /* slot length or bytes in a slot 0 */
    SNOWPLOUGHY_NO_BASE = 27,      /* base 0 or over 4,096 */
    SNOWPLOUGHY_BELOW_BASE = 28    /* interval below the base: record */
};

/* Each answers 0 when its work is done, and otherwise the refusal's number.
 * *value: done, how many bytes stand at the room's front (0 where nothing is written); refused, the place.
 * A refusal leaves every byte of every room as it was. Rooms must not overlap what is read, nor one another. */
uint32_t snowploughy_list_from_sheet(const uint8_t *sheet, size_t sheet_len, uint8_t *room, size_t room_len, uint64_t *value);
uint32_t snowploughy_sheet_from_list(const uint8_t *list, size_t list_len, uint8_t *room, size_t room_len, uint64_t *value);
uint32_t snowploughy_plan(const uint8_t *list, size_t list_len, uint8_t *room, size_t room_len, uint64_t *value);
uint32_t snowploughy_check(const uint8_t *list, size_t list_len, const uint8_t *table, size_t table_len, uint64_t *value);

/* The grants that start in the window a .. b, as a stretch of the table: *first is where it starts, in bytes from the table's
 * front, and *bytes how long it is. A refusal gives an empty stretch at the front. */
uint32_t snowploughy_window(const uint8_t *table, size_t table_len, uint64_t a, uint64_t b, uint64_t *first, uint64_t *bytes);

/* Adds one call to a running table. Done, *value is the offset found; the new list is 6 bytes longer than the old one,
 * and the new table 5 bytes longer for each of the new flow's grants. Refused, *value is the place. */
uint32_t snowploughy_live_add(const uint8_t *list, size_t list_len, const uint8_t *table, size_t table_len,
                              uint64_t number, uint64_t size, uint64_t interval, uint64_t jitter,
                              uint8_t *list_room, size_t list_room_len, uint8_t *table_room, size_t table_room_len, uint64_t *value);

/* Turns modem settings into a list, for slots of so many microseconds that hold so many bytes. The settings are a run of DOCSIS
 * upstream service flow encodings (type 24), each with the unsolicited grant size in bytes (19), the nominal grant interval (20)
 * and the tolerated grant jitter (21) in microseconds and the grants per interval (22); other settings are stepped over. Size
 * rounds up, jitter rounds down, and as many flows as grants per interval get the next numbers, from 1 on. Answers 0 or the
 * refusal's number. Done, *value is how many bytes of list stand at the room's front; refused, *value is the place. */
uint32_t snowploughy_list_from_settings(const uint8_t *settings, size_t settings_len, uint64_t slot_microseconds, uint64_t slot_bytes,
                                        uint8_t *room, size_t room_len, uint64_t *value);

/* Rounds the intervals of a list to a base. Each interval becomes the largest base times a power of two not above it; the size
 * stays, and the jitter is capped at the new interval less one. The intervals of the old list need not be related; those of the
 * rounded list always are. Answers 0 or the refusal's number. Done, *value is how many bytes of list stand at the room's front, as
 * many as the old list has; refused, *value is the place. */
uint32_t snowploughy_round_list(const uint8_t *list, size_t list_len, uint64_t base, uint8_t *room, size_t room_len, uint64_t *value);

#ifdef __cplusplus
}
#endif

#endif
