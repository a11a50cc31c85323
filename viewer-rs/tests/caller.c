/*
 * Writes how viewer.h and ask.h lay their structs out, some replies, and sums over all days, all years and many lines, for the tests that
 * compile this. It needs no header of the C library, so that the kit's clang compiles it too.
 */
#include "ask.h"
#include "viewer.h"

int printf(const char *format, ...);
int sprintf(char *text, const char *format, ...);

#define AT(field) (int)offsetof(struct lengadriu_month, field)
#define ROW (LENGADRIU_RECORD_BYTES * LENGADRIU_YEAR_RECORDS + 8)

/* FNV-1a, one number at a time */
static uint64_t folded(uint64_t sum, uint64_t number) { return (sum ^ number) * 0x100000001B3u; }

static void show_day(uint64_t d) {
    struct lengadriu_month m = lengadriu_day(d);
    printf("day %llu: %u %u %u %u %u %u %u %u\n", (unsigned long long)d, (unsigned)m.first, m.year, m.place, m.day, m.length,
           m.number, m.leap, m.refused);
}

static struct lengadriu_count year(uint8_t *row, uint64_t n, size_t length) {
    for (size_t i = 0; i < ROW; i++) row[i] = 0xA5;
    return lengadriu_year(row, length, n);
}

static void show_year(uint64_t n, size_t length) {
    uint8_t row[ROW];
    struct lengadriu_count c = year(row, n, length);
    printf("year %llu: %u %u ", (unsigned long long)n, (unsigned)c.refused, (unsigned)c.records);
    for (size_t i = 0; i < ROW; i++) printf("%02x", row[i]);
    printf("\n");
}

static uint8_t reply[LENGADRIU_ROW_BYTES];

static struct lengadriu_written ask(const char *line, size_t row_length) {
    size_t length = 0;
    while (line[length]) length++;
    return lengadriu_ask((const uint8_t *)line, length, reply, row_length);
}

static void show_ask(const char *line, size_t row_length) {
    reply[0] = 0xA5;
    struct lengadriu_written w = ask(line, row_length);
    printf("ask %s: %u %u %02x %.*s\n", line, (unsigned)w.refused, (unsigned)w.bytes, reply[0], (int)w.bytes, (const char *)reply);
}

static uint64_t folded_ask(uint64_t sum, const char *line, size_t row_length) {
    struct lengadriu_written w = ask(line, row_length);
    sum = folded(folded(sum, w.refused), w.bytes);
    for (uint64_t i = 0; i < w.bytes; i++) sum = folded(sum, reply[i]);
    return sum;
}

int main(void) {
    printf("month: %d, %d %d %d %d %d %d %d %d\n", (int)sizeof(struct lengadriu_month), AT(first), AT(year), AT(place), AT(day),
           AT(length), AT(number), AT(leap), AT(refused));
    printf("count: %d, %d %d\n", (int)sizeof(struct lengadriu_count), (int)offsetof(struct lengadriu_count, refused),
           (int)offsetof(struct lengadriu_count, records));
    printf("written: %d, %d %d\n", (int)sizeof(struct lengadriu_written), (int)offsetof(struct lengadriu_written, refused),
           (int)offsetof(struct lengadriu_written, bytes));
    show_day(34);
    show_day(35);
    show_day(340);
    show_day(365268);
    show_day(365269);
    show_day(UINT64_MAX);
    show_year(0, 208);
    show_year(1, 216);
    show_year(0, 207);
    show_year(1000, 208);

    uint64_t days = 0, years = 0;
    for (uint64_t d = 0; d <= 365300; d++) {
        struct lengadriu_month m = lengadriu_day(d);
        uint64_t numbers[] = {m.first, m.year, m.place, m.day, m.length, m.number, m.leap, m.refused};
        for (int i = 0; i < 8; i++) days = folded(days, numbers[i]);
    }
    for (uint64_t n = 0; n <= 1001; n++) {
        uint8_t row[ROW];
        struct lengadriu_count c = year(row, n, ROW);
        years = folded(folded(years, c.refused), c.records);
        for (int i = 0; i < ROW; i++) years = folded(years, row[i]);
    }
    show_ask("day 340", LENGADRIU_SMALL_ROW_BYTES);
    show_ask("day 340", 0);
    show_ask("day 34", LENGADRIU_SMALL_ROW_BYTES);
    show_ask("", LENGADRIU_SMALL_ROW_BYTES);
    show_ask("sheet name 0 35 length 3 30 leap 10", LENGADRIU_SMALL_ROW_BYTES);
    show_ask("sheet leap 0", LENGADRIU_SMALL_ROW_BYTES);
    show_ask("sheet leap 13", LENGADRIU_SMALL_ROW_BYTES);
    show_ask("years 0 1000", LENGADRIU_SMALL_ROW_BYTES);
    uint64_t lines = folded_ask(0, "years 0 1000", LENGADRIU_ROW_BYTES);
    for (unsigned n = 0; n <= 1001; n++) {
        char line[32];
        sprintf(line, "year %u", n);
        lines = folded_ask(lines, line, LENGADRIU_SMALL_ROW_BYTES);
    }
    for (unsigned name = 0; name <= 60; name++) {
        char line[32];
        sprintf(line, "sheet name %u %u", name % 14, name);
        lines = folded_ask(lines, line, LENGADRIU_SMALL_ROW_BYTES);
    }
    printf("sums: %016llx %016llx %016llx\n", (unsigned long long)days, (unsigned long long)years, (unsigned long long)lines);
    return 0;
}
