/* Turns what two modems ask for in bytes and microseconds into a list, for slots of 25 microseconds that hold 16 bytes; prints the
 * list as a sheet. */
#include <stdio.h>

#include "snowploughy.h"

/* Two upstream service flow encodings (24). The first asks for one flow and names the scheduling type (15) among the rest; the
 * second asks for two flows alike. */
static const uint8_t settings[] = {
    24, 22, 15, 1, 6,              /* unsolicited grants */
            19, 2, 0, 232,         /* grant size 232 bytes: 14.5 slots, rounded up */
            20, 4, 0, 0, 78, 32,   /* interval 20,000 microseconds: 800 slots */
            21, 4, 0, 0, 3, 32,    /* jitter 800 microseconds: 32 slots */
            22, 1, 1,              /* grants per interval */
    24, 19, 22, 1, 2,
            21, 4, 0, 0, 1, 254,   /* jitter 510 microseconds: 20.4 slots, rounded down */
            20, 4, 0, 0, 39, 16,   /* interval 10,000 microseconds: 400 slots */
            19, 2, 0, 128          /* grant size 128 bytes: 8 slots */
};
static uint8_t list[SNOWPLOUGHY_LIST_BYTES], sheet[SNOWPLOUGHY_SHEET_BYTES];

static int refused(uint32_t number, uint64_t place) {
    printf("refused %u at %llu\n", (unsigned)number, (unsigned long long)place);
    return 1;
}

int main(void) {
    uint64_t list_len, sheet_len;

    uint32_t number = snowploughy_list_from_settings(settings, sizeof settings, 25, 16, list, sizeof list, &list_len);
    if (number) return refused(number, list_len);
    number = snowploughy_sheet_from_list(list, list_len, sheet, sizeof sheet, &sheet_len);
    if (number) return refused(number, sheet_len);
    fwrite(sheet, 1, sheet_len, stdout);
    return 0;
}
