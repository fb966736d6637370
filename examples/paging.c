/* Plans flows whose intervals do not divide one another: the planner refuses them as they are, so their intervals are rounded to the
 * base 20 first. Reads the sheet on standard input; prints the planner's refusal, the rounded flows as a sheet and the grants of
 * their table. */
#include <stdio.h>

#include "snowploughy.h"

static uint8_t sheet[SNOWPLOUGHY_SHEET_BYTES + 1];
static uint8_t list[SNOWPLOUGHY_LIST_BYTES], rounded[SNOWPLOUGHY_LIST_BYTES];
static uint8_t table[SNOWPLOUGHY_TABLE_BYTES];

static int refused(uint32_t number, uint64_t place) {
    printf("refused %u at %llu\n", (unsigned)number, (unsigned long long)place);
    return 1;
}

int main(void) {
    uint64_t list_len, rounded_len, table_len, place, written;
    size_t sheet_len = fread(sheet, 1, sizeof sheet, stdin);

    uint32_t number = snowploughy_list_from_sheet(sheet, sheet_len, list, sizeof list, &list_len);
    if (number) return refused(number, list_len);
    number = snowploughy_plan(list, list_len, table, sizeof table, &place);
    if (number) refused(number, place);

    number = snowploughy_round_list(list, list_len, 20, rounded, sizeof rounded, &rounded_len);
    if (number) return refused(number, rounded_len);
    number = snowploughy_sheet_from_list(rounded, rounded_len, sheet, sizeof sheet, &written);
    if (number) return refused(number, written);
    fwrite(sheet, 1, written, stdout);

    number = snowploughy_plan(rounded, rounded_len, table, sizeof table, &table_len);
    if (number) return refused(number, table_len);
    number = snowploughy_check(rounded, rounded_len, table, table_len, &place);
    if (number) return refused(number, place);

    /* A record is 40 bits: flow number 10, start 12, late 12, spare 6. */
    for (size_t at = 8; at < table_len; at += 5) {
        unsigned flow = table[at] << 2 | table[at + 1] >> 6;
        unsigned start = (table[at + 1] & 63) << 6 | table[at + 2] >> 2;
        unsigned late = (table[at + 2] & 3) << 10 | table[at + 3] << 2 | table[at + 4] >> 6;
        printf("grant %u flow %u late %u\n", start, flow, late);
    }
    return 0;
}
