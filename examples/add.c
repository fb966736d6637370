/* Plans a sheet, then adds one call to the running table without moving anyone: flow 4, size 1, every 8, jitter 0. Reads the sheet
 * on standard input; prints the offset and the grants of the new table. */
#include <stdio.h>

#include "snowploughy.h"

static uint8_t sheet[SNOWPLOUGHY_SHEET_BYTES + 1];
static uint8_t list[SNOWPLOUGHY_LIST_BYTES], new_list[SNOWPLOUGHY_LIST_BYTES];
static uint8_t table[SNOWPLOUGHY_TABLE_BYTES], new_table[SNOWPLOUGHY_TABLE_BYTES];

static int refused(uint32_t number, uint64_t place) {
    printf("refused %u at %llu\n", (unsigned)number, (unsigned long long)place);
    return 1;
}

int main(void) {
    uint64_t list_len, table_len, offset, place;
    size_t sheet_len = fread(sheet, 1, sizeof sheet, stdin);

    uint32_t number = snowploughy_list_from_sheet(sheet, sheet_len, list, sizeof list, &list_len);
    if (number) return refused(number, list_len);
    number = snowploughy_plan(list, list_len, table, sizeof table, &table_len);
    if (number) return refused(number, table_len);
    number = snowploughy_live_add(list, list_len, table, table_len, 4, 1, 8, 0, new_list, sizeof new_list, new_table, sizeof new_table, &offset);
    if (number) return refused(number, offset);
    printf("offset %llu\n", (unsigned long long)offset);

    /* The new list is a record longer, the new table one for each grant that the head counts. */
    list_len += 6;
    table_len = 8 + 5 * (uint64_t)(new_table[2] << 8 | new_table[3]);
    number = snowploughy_check(new_list, list_len, new_table, table_len, &place);
    if (number) return refused(number, place);

    /* A record is 40 bits: flow number 10, start 12, late 12, spare 6. */
    for (size_t at = 8; at < table_len; at += 5) {
        unsigned flow = new_table[at] << 2 | new_table[at + 1] >> 6;
        unsigned start = (new_table[at + 1] & 63) << 6 | new_table[at + 2] >> 2;
        unsigned late = (new_table[at + 2] & 3) << 10 | new_table[at + 3] << 2 | new_table[at + 4] >> 6;
        printf("grant %u flow %u late %u\n", start, flow, late);
    }
    return 0;
}
