/* The deepest stack of each function of the C interface. A function is called on a stack of its own that is painted beforehand, and
 * the lowest byte that it touched is looked for. It is called on lists, tables, sheets and settings that reach every part of it, on the
 * same with every byte in turn spoilt, and with rooms that are long enough, a byte too short, or not there. A board gives each call
 * 2 KiB: over that the program fails, and so it does where a refusal was not met that documents 01 and 02 name for a call. */
#include <stdio.h>
#include <string.h>
#include <ucontext.h>

#include "snowploughy.h"

enum { BOARD = 2048, STACK = 1 << 14, FLOWS = 128 };
static uint8_t stack[STACK] __attribute__((aligned(64)));
static ucontext_t here, there;

/* What the functions are called on. */
static uint8_t sheet[SNOWPLOUGHY_SHEET_BYTES], list[SNOWPLOUGHY_LIST_BYTES], table[SNOWPLOUGHY_TABLE_BYTES], settings[FLOWS * 257];
static uint64_t sheet_len, list_len, table_len, settings_len, value, first;
static uint64_t slot_microseconds, slot_bytes, base, new_number, new_size, new_interval, from, to;

/* What they write into: each room has at most the bytes of the longest answer. */
static uint8_t room[SNOWPLOUGHY_SHEET_BYTES], list_room[SNOWPLOUGHY_LIST_BYTES], table_room[SNOWPLOUGHY_TABLE_BYTES];
static size_t list_room_len, table_room_len, sheet_room_len;

static uint32_t pack(void) { return snowploughy_list_from_sheet(sheet, sheet_len, room, list_room_len, &value); }
static uint32_t print(void) { return snowploughy_sheet_from_list(list, list_len, room, sheet_room_len, &value); }
static uint32_t plan(void) { return snowploughy_plan(list, list_len, room, table_room_len, &value); }
static uint32_t check(void) { return snowploughy_check(list, list_len, table, table_len, &value); }
static uint32_t window(void) { return snowploughy_window(table, table_len, from, to, &first, &value); }
static uint32_t add(void) {
    return snowploughy_live_add(list, list_len, table, table_len, new_number, new_size, new_interval, 0, list_room, list_room_len, table_room, table_room_len, &value);
}
static uint32_t ask(void) { return snowploughy_list_from_settings(settings, settings_len, slot_microseconds, slot_bytes, room, list_room_len, &value); }
static uint32_t fit(void) { return snowploughy_round_list(list, list_len, base, room, list_room_len, &value); }

/* A bit for each refusal by a number from a to b. */
#define TESTS(a, b) ((2ull << (b)) - (1ull << (a)))
enum { PACK, PRINT, PLAN, CHECK, WINDOW, ADD, ASK, FIT, CALLS };
static struct {
    const char *name;
    uint32_t (*f)(void);
    uint64_t tests, answers; /* the refusals that it has, and those that were met */
    size_t most;
} calls[CALLS] = {{"list_from_sheet", pack, TESTS(20, 20) | TESTS(3, 4) | TESTS(9, 9), 0, 0},
                  {"sheet_from_list", print, TESTS(1, 4) | TESTS(9, 9), 0, 0},
                  {"plan", plan, TESTS(1, 10), 0, 0},
                  {"check", check, TESTS(1, 7) | TESTS(11, 18), 0, 0},
                  {"window", window, TESTS(11, 12) | TESTS(19, 19), 0, 0},
                  {"live_add", add, TESTS(1, 7) | TESTS(9, 9) | TESTS(11, 18) | TESTS(21, 22), 0, 0},
                  /* 5 finds no fault: the flows have the numbers of their records */
                  {"list_from_settings", ask, TESTS(3, 4) | TESTS(6, 6) | TESTS(9, 9) | TESTS(23, 26), 0, 0},
                  {"round_list", fit, TESTS(1, 5) | TESTS(9, 9) | TESTS(27, 28), 0, 0}};

static uint32_t nothing(void) { return 0; }
static uint32_t (*call)(void);
static uint32_t answer;
static void run(void) { answer = call(); }

/* How deep a call reaches into a stack that is filled with this byte. */
static size_t depth(uint32_t (*f)(void), uint8_t paint) {
    memset(stack, paint, STACK);
    getcontext(&there);
    there.uc_stack.ss_sp = stack;
    there.uc_stack.ss_size = STACK;
    there.uc_link = &here;
    call = f;
    makecontext(&there, run, 0);
    swapcontext(&here, &there);
    size_t low = 0;
    while (low < STACK && stack[low] == paint) low++;
    return STACK - low;
}

/* Measures one call on what stands ready; what it leaves of the paint by chance another paint shows. */
static void measure(int c) {
    static const uint8_t paints[] = {0xA7, 0x00};
    for (int p = 0; p < 2; p++) {
        size_t d = depth(calls[c].f, paints[p]);
        calls[c].answers |= 1ull << answer;
        d -= depth(nothing, paints[p]);
        if (d > calls[c].most) calls[c].most = d;
    }
}

/* With rooms that are just long enough for what the call writes, a byte too short, and not there. */
static void measure_rooms(int c) {
    size_t whole[] = {sizeof list_room, sizeof table_room, sizeof room};
    for (int shape = 0; shape < 3; shape++) {
        size_t *rooms[] = {&list_room_len, &table_room_len, &sheet_room_len};
        for (int r = 0; r < 3; r++) *rooms[r] = shape == 0 ? whole[r] : 0;
        if (shape == 1) {
            for (int r = 0; r < 3; r++) *rooms[r] = whole[r];
            if (calls[c].f() != 0) continue;
            list_room_len = c == ADD ? list_len + 5 : value ? value - 1 : 0;
            table_room_len = sheet_room_len = value ? value - 1 : 0;
        }
        measure(c);
    }
    list_room_len = whole[0];
    table_room_len = whole[1];
    sheet_room_len = whole[2];
}

/* With one byte after the other changed: all bits, and the lowest and the highest alone; of a long run every so many bytes. */
static void measure_spoilt(int c, uint8_t *bytes, size_t n) {
    static const uint8_t changes[] = {0xFF, 0x01, 0x80};
    for (size_t i = 0; i < n; i += 1 + n / 300)
        for (size_t k = 0; k < sizeof changes; k++) {
            bytes[i] ^= changes[k];
            measure(c);
            bytes[i] ^= changes[k];
        }
}

/* One byte less, and none. */
static void measure_cut(int c, uint64_t *n) {
    uint64_t whole = *n;
    if (whole) *n = whole - 1;
    measure(c);
    *n = 0;
    measure(c);
    *n = whole;
}

/* So many flows of one size, interval and jitter. */
typedef struct { unsigned flows, size, interval, jitter; } Group;

/* The sheet, list and table of some groups of flows, numbered from 1; no table where the list is not planned. */
static void make(const Group *groups, size_t n) {
    unsigned number = 0;
    sheet_len = 0;
    for (size_t g = 0; g < n; g++)
        for (unsigned i = 0; i < groups[g].flows; i++)
            sheet_len += sprintf((char *)sheet + sheet_len, "flow %u size %u every %u jitter %u\n", ++number, groups[g].size, groups[g].interval, groups[g].jitter);
    if (snowploughy_list_from_sheet(sheet, sheet_len, list, sizeof list, &list_len)) list_len = 0;
    if (snowploughy_plan(list, list_len, table, sizeof table, &table_len)) table_len = 0;
    new_number = 1000;
    base = n ? groups[0].interval : 1;
    from = 1;
    to = 4;
}

/* Every call that takes a sheet, a list or a table, with new flows of two sizes and of the first and the last interval. */
static void measure_lists(const Group *groups, size_t n) {
    make(groups, n);
    for (int c = PACK; c < CALLS; c++)
        if (c != ASK && c != ADD) measure_rooms(c);
    measure_spoilt(PACK, sheet, sheet_len);
    measure_cut(PACK, &sheet_len);
    int listed[] = {PRINT, PLAN, CHECK, ADD, FIT}, tabled[] = {CHECK, WINDOW, ADD};
    for (unsigned kind = 0; kind < 4 && n; kind++) {
        new_interval = groups[kind % 2 ? n - 1 : 0].interval;
        new_size = kind < 2 ? 1 : new_interval;
        measure_rooms(ADD);
    }
    new_size = 1;
    for (size_t k = 0; k < sizeof listed / sizeof *listed; k++) {
        measure_spoilt(listed[k], list, list_len);
        measure_cut(listed[k], &list_len);
    }
    for (size_t k = 0; k < sizeof tabled / sizeof *tabled; k++) {
        measure_spoilt(tabled[k], table, table_len);
        measure_cut(tabled[k], &table_len);
    }
    /* new flows that are refused, and bases that are */
    uint64_t numbers[] = {0, 1, 1024, UINT64_MAX}, bases[] = {0, 1, 20, 4096, 4097, UINT64_MAX};
    for (size_t k = 0; k < 4; k++) {
        new_number = numbers[k];
        measure(ADD);
    }
    new_number = 1000;
    for (new_interval = 1; new_interval < 10000; new_interval = 3 * new_interval + 1) measure(ADD);
    for (size_t k = 0; k < 6; k++) {
        base = to = bases[k];
        measure(FIT);
        measure(WINDOW);
    }
}

/* A grant that is late as its flow allows, and so ends after the cycle. */
static void measure_past_cycle(void) {
    static const Group one[] = {{1, 2, 4, 3}};
    make(one, 1);
    new_size = new_interval = 1;
    uint64_t grant = 1ull << 30 | 3ull << 18 | 3ull << 6; /* flow 1 at slot 3, late by 3 */
    for (int b = 0; b < 5; b++) table[8 + b] = grant >> 8 * (4 - b);
    measure(CHECK);
    measure(ADD);
}

/* A setting of one type and of four bytes at most. */
static void put(uint8_t type, unsigned bytes, uint32_t number) {
    settings[settings_len++] = type;
    settings[settings_len++] = bytes;
    while (bytes-- > 0) settings[settings_len++] = number >> 8 * bytes;
}

/* Modem settings: so many encodings of one flow, each in as many grants and behind as many other settings; on channels of all kinds. */
static void measure_settings(unsigned n, Group flow, unsigned grants, unsigned others) {
    settings_len = 0;
    for (unsigned i = 0; i < n; i++) {
        put(24, 0, 0);
        size_t front = settings_len;
        for (unsigned other = 0; other < others; other++) put(15, 3, other);
        put(19, 2, flow.size);
        put(20, 4, flow.interval);
        put(21, 4, flow.jitter);
        put(22, 1, grants);
        settings[front - 1] = settings_len - front;
    }
    uint64_t channels[][2] = {{1, 1}, {1, UINT64_MAX}, {7, 1}, {UINT64_MAX, 1}, {0, 1}, {1, 0}};
    for (size_t k = 0; k < sizeof channels / sizeof *channels; k++) {
        slot_microseconds = channels[k][0];
        slot_bytes = channels[k][1];
        measure_rooms(ASK);
    }
    slot_microseconds = slot_bytes = 1;
    measure_spoilt(ASK, settings, settings_len);
    measure_cut(ASK, &settings_len);
}

int main(void) {
    static const Group case_a[] = {{1, 1, 4, 2}, {1, 2, 8, 0}, {1, 3, 8, 0}}, case_c[] = {{1, 1, 4, 1}, {1, 4, 8, 0}};
    /* 128 flows over 256 frames: long pushes, every second frame full and every search from the front, and eight intervals */
    static const Group pushes[] = {{1, 1, 16, 15}, {8, 24, 256, 40}, {30, 5, 2048, 90}, {89, 3, 4096, 4095}};
    static const Group nearly_full[] = {{1, 1, 16, 15}, {8, 24, 256, 40}, {30, 5, 2048, 90}, {88, 5, 4096, 4095}};
    static const Group wide[] = {{2, 1, 16, 15}, {126, 28, 4096, 0}};
    static const Group eight[] = {{1, 1, 16, 15}, {1, 1, 32, 15}, {1, 1, 64, 15}, {1, 1, 128, 15}, {1, 1, 256, 15}, {1, 1, 512, 15}, {1, 1, 1024, 15}, {121, 23, 4096, 15}};
    static const Group falling[] = {{100, 9, 4096, 15}, {10, 20, 2048, 15}, {8, 1, 256, 15}, {1, 1, 16, 15}};
    /* 1,024 grants and 1,023, a table with no free slot, an oversold list, one with no lawful frame, one over 256 frames */
    static const Group most[] = {{4, 1, 16, 0}, {4, 1, 4080, 0}}, one_less[] = {{4, 1, 16, 0}, {3, 1, 4080, 0}};
    static const Group full[] = {{4, 1, 4, 0}}, oversold[] = {{1, 1, 4, 0}, {1, 9, 8, 0}}, no_frame[] = {{1, 1, 4, 0}, {1, 4, 8, 0}}, long_cycle[] = {{1, 1, 4, 0}, {127, 1, 4096, 0}};
    /* intervals that do not divide one another */
    static const Group unrelated[] = {{1, 4, 20, 5}, {1, 6, 30, 25}, {1, 5, 50, 45}}, many_unrelated[] = {{64, 1, 16, 15}, {64, 28, 4095, 0}};
#define LISTS(g) measure_lists(g, sizeof g / sizeof *g)
    LISTS(case_a), LISTS(case_c), LISTS(pushes), LISTS(nearly_full), LISTS(wide), LISTS(eight), LISTS(falling), LISTS(most), LISTS(one_less), LISTS(full);
    LISTS(oversold), LISTS(no_frame), LISTS(long_cycle), LISTS(unrelated), LISTS(many_unrelated);
    measure_lists(0, 0);
    measure_past_cycle();
    measure_settings(3, (Group){1, 1, 8, 2}, 1, 0);
    measure_settings(128, (Group){1, 28, 4096, 15}, 1, 0);
    measure_settings(128, (Group){1, 28, 4096, 15}, 1, 47);
    measure_settings(1, (Group){1, 28, 4096, 0}, 128, 0);
    measure_settings(128, (Group){1, 28, 4096, 15}, 255, 0);
    measure_settings(0, (Group){0, 0, 0, 0}, 0, 0);

    int failed = 0;
    for (int c = 0; c < CALLS; c++) {
        printf("stack of snowploughy_%s: %zu bytes\n", calls[c].name, calls[c].most);
        for (int a = 1; a < 64; a++)
            if ((calls[c].tests ^ calls[c].answers) >> a & 1) failed = printf("  refusal %d was %smet\n", a, calls[c].answers >> a & 1 ? "" : "not ");
        if (calls[c].most > BOARD) failed = printf("  which is more than %d\n", BOARD);
    }
    return failed != 0;
}
