/*
 * ask.h: every question of the desk, a line in and the text of its reply out, for C and C++.
 *
 * `tools/native ask OUT` makes the archive, for the machine at hand; the crate ask_c has what it exports. The function is
 * proved to answer every line and every row that it can be given, to touch no memory but these two, and to return; it keeps nothing
 * between calls and may be called from several threads at once. README.md has the questions and the refusals.
 */
#ifndef LENGADRIU_ASK_H
#define LENGADRIU_ASK_H

#include <stddef.h>
#include <stdint.h>

#ifdef __cplusplus
extern "C" {
#endif

/* How much of the row is text. Where `refused` is not 0 it is 4: the row is too short, nothing was written and `bytes` is 0. */
struct lengadriu_written {
    uint64_t refused;
    uint64_t bytes;
};

/*
 * The reply to a line, which has no line end and `line_length` bytes, from the start of `row`, which has `row_length` bytes. The text
 * ends with a newline and not with a zero byte, and the bytes after it keep their contents. A question that is refused is answered with
 * such a text too, `refused` and the number; a line of more than 1,023 bytes is none, `refused 5`. A row is too short where it
 * has no room for what the question may need: LENGADRIU_ROW_BYTES are enough for every question, and
 * LENGADRIU_SMALL_ROW_BYTES for all but `years`. Line and row may not overlap and not be NULL, not even where their length is 0.
 */
struct lengadriu_written lengadriu_ask(const uint8_t *line, size_t line_length, uint8_t *row, size_t row_length);

enum { LENGADRIU_ROW_BYTES = 2097152, LENGADRIU_SMALL_ROW_BYTES = 65536 };

#ifdef __cplusplus
}
#endif

#endif
