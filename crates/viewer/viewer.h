/*
 * viewer.h: the two questions of the Shoushi calendar that a viewer asks, for C and C++.
 *
 * `tools/native viewer OUT` makes the archive, for the machine at hand; the crate viewer_c has what it exports. Both
 * functions are proved to answer every number and every row that they can be given, to touch no memory but the row, and to
 * return; they keep nothing between calls and may be called from several threads at once. specs/ has what they answer.
 *
 * A question that is not answered is refused by a number:
 *   1  the solstice year is over 999
 *   3  the day is under 35 or over 365,268
 *   4  the row has room for fewer than 13 records
 */
#ifndef LENGADRIU_VIEWER_H
#define LENGADRIU_VIEWER_H

#include <stddef.h>
#include <stdint.h>

#ifdef __cplusplus
extern "C" {
#endif

/* The month in which a day lies; or a refusal, with its number in `refused` and 0 in every other field. */
struct lengadriu_month {
    uint32_t first;  /* the running day on which the month begins */
    uint16_t year;   /* the solstice year, 0 to 999; its months 11 and 12 are of civil year 1280 + year, the others of 1281 + year */
    uint8_t place;   /* in its list, counted from 0 */
    uint8_t day;     /* of the month, counted from 1 */
    uint8_t length;  /* 29 or 30 */
    uint8_t number;  /* 1 to 12; a leap month has that of the month before it */
    uint8_t leap;    /* 1 in a leap month, else 0 */
    uint8_t refused; /* 0 in a month */
};

/* How many records were written; where `refused` is not 0, none were and the row is as it was. */
struct lengadriu_count {
    uint32_t refused;
    uint32_t records; /* 12 or 13 */
};

/* The month of running day d. Day 0 is a jiazi day. */
struct lengadriu_month lengadriu_day(uint64_t d);

/*
 * The months of solstice year n, from the start of `row`, which has `length` bytes. A record has 16: its first day, length, number and
 * leap mark, four numbers of 32 bits with the low byte first on every machine. The bytes after the last record written keep
 * their contents. The row may not be NULL, not even where its length is 0, and its address need not be a multiple of anything.
 */
struct lengadriu_count lengadriu_year(uint8_t *row, size_t length, uint64_t n);

enum { LENGADRIU_RECORD_BYTES = 16, LENGADRIU_YEAR_RECORDS = 13 };

#ifdef __cplusplus
}
#endif

#endif
