/*
 * Runs the pair rig of document 01 through the C interface: prints its route
 * table and some traces, with a route switched off and on among them, loads the
 * table into a shelf, traces over its compact form, and plugs and pulls drives. Exits
 * with 1 where an answer is not the expected one.
 *
 *     cc -o pair pair.c -L<archive directory> -lexports
 */
#include <inttypes.h>
#include <stdio.h>
#include <string.h>

#include "../../include/metzurgo.h"

#define WIDEST METZURGO_WIDEST

static const uint8_t pair_rig[334] = {
    /* header */
    [0] = 0x10, [1] = 2,
    /* expander 0: address, REPORT GENERAL with R 4, 2 phys, configurable */
    [2] = 0x50, [9] = 0x10, [10] = 0x41, [17] = 4, [19] = 2, [20] = 1,
    /* phy 0: table, to expander 1 phy 0 */
    [38] = 0x41, [39] = 0x10, [50] = 0x20, [54] = 0x50, [61] = 0x10,
    [62] = 0x50, [69] = 0x20, [82] = 2,
    /* phy 1: direct, to drive A1h */
    [90] = 0x41, [91] = 0x10, [99] = 1, [102] = 0x10, [106] = 0x50,
    [113] = 0x10, [114] = 0x50, [121] = 0xa1,
    /* expander 1: address, REPORT GENERAL with R 0, 3 phys */
    [142] = 0x50, [149] = 0x20, [150] = 0x41, [159] = 3,
    /* phy 0: subtractive, to expander 0 phy 0 */
    [178] = 0x41, [179] = 0x10, [190] = 0x20, [194] = 0x50, [201] = 0x20,
    [202] = 0x50, [209] = 0x10, [222] = 1,
    /* phy 1: direct, to drive B1h */
    [230] = 0x41, [231] = 0x10, [239] = 1, [242] = 0x10, [246] = 0x50,
    [253] = 0x20, [254] = 0x50, [261] = 0xb1,
    /* phy 2: direct, empty */
    [282] = 0x41, [283] = 0x10, [291] = 2, [298] = 0x50, [305] = 0x20,
};

#define A1 UINT64_C(0x50000000000000a1)
#define B1 UINT64_C(0x50000000000000b1)

static int failed;

static void expect(const char *what, uint64_t expected, uint64_t got)
{
    if (expected != got) {
        fprintf(stderr, "%s: expected %016" PRIx64 "h, got %016" PRIx64 "h\n",
                what, expected, got);
        failed = 1;
    }
}

/* A shelf of the two phys of expander 0 obeys the frames of its table. */
static void load_shelf(const uint64_t *words, const uint8_t *bits)
{
    const uint8_t kinds[2] = { METZURGO_SHELF_TABLE, METZURGO_SHELF_OTHER };
    uint64_t shelf[METZURGO_SHELF_SIZE / 8] = { 0 }, before[METZURGO_SHELF_SIZE / 8];
    uint8_t frame[40] = { 0 };

    expect("shelf_size", METZURGO_SHELF_SIZE, metzurgo_shelf_size());
    expect("shelf_fresh, three kinds", METZURGO_REFUSED + 3 * 65536,
           metzurgo_shelf_fresh(shelf, 3, 4, kinds, 2));
    expect("shelf_disabled, no phys", 2, metzurgo_shelf_disabled(shelf, 0, 0));
    expect("shelf_fresh", 0, metzurgo_shelf_fresh(shelf, 2, 4, kinds, 2));
    for (uint16_t index = 0; index < 4; index++) {
        expect("shelf_disabled, fresh", 1, metzurgo_shelf_disabled(shelf, 0, index));
        metzurgo_write_route(frame, 40, 0x09, 0, index, words[index],
                             METZURGO_DISABLED(bits, index));
        expect("shelf_obey", METZURGO_SMP_FUNCTION_ACCEPTED,
               metzurgo_shelf_obey(shelf, frame, 40));
    }
    for (uint16_t index = 0; index < 4; index++) {
        expect("shelf_entry", words[index], metzurgo_shelf_entry(shelf, 0, index));
        expect("shelf_disabled", METZURGO_DISABLED(bits, index),
               metzurgo_shelf_disabled(shelf, 0, index));
    }
    memcpy(before, shelf, sizeof shelf);
    frame[7] = 4;
    expect("shelf_obey, index 4", METZURGO_INDEX_DOES_NOT_EXIST,
           metzurgo_shelf_obey(shelf, frame, 40));
    frame[9] = 2;
    expect("shelf_obey, phy 2", METZURGO_PHY_DOES_NOT_EXIST,
           metzurgo_shelf_obey(shelf, frame, 40));
    expect("shelf_obey, no frame", METZURGO_REFUSED + 1 * 65536,
           metzurgo_shelf_obey(shelf, NULL, 0));
    expect("shelf_fresh, no kinds", METZURGO_REFUSED + 3 * 65536,
           metzurgo_shelf_fresh(shelf, 0, 4, NULL, 0));
    expect("shelf after these", 0, memcmp(before, shelf, sizeof shelf) != 0);
}

/* The pair rig as 14 words, and requests over them one by one and in a list. */
static void compact_form(const uint64_t *words, const uint8_t *bits)
{
    const uint64_t no_start = METZURGO_REFUSED + 15 * 65536;
    const uint64_t expected[14] = {
        UINT64_C(0x5000000000000010), UINT64_C(0x0004020000000000),
        UINT64_C(0x5000000000000020), UINT64_C(0x5020000000000000),
        A1, UINT64_C(0x2000000000000000),
        UINT64_C(0x5000000000000020), UINT64_C(0x0000030000000000),
        UINT64_C(0x5000000000000010), UINT64_C(0x4800000000000000),
        B1, UINT64_C(0x2000000000000000),
        0, 0,
    };
    const uint64_t requests[9] = {
        METZURGO_REQUEST(0, 255), B1, METZURGO_REQUEST(1, 1), A1,
        METZURGO_REQUEST(256, 0), B1, METZURGO_REQUEST(1, 255), 0, 7,
    };
    uint64_t form[15] = { 0 }, tables[4], answers[5] = { 7, 7, 7, 7, 7 };
    uint8_t table_bits[1], passed[2];

    form[14] = 7;
    expect("compact, 13 words", METZURGO_REFUSED + 16 * 65536,
           metzurgo_compact(WIDEST, pair_rig, sizeof pair_rig, form, 13));
    expect("compact", (UINT64_C(2) << 32) + 14,
           metzurgo_compact(WIDEST, pair_rig, sizeof pair_rig, form, 15));
    for (unsigned k = 0; k < 14; k++)
        expect("a word of the form", expected[k], form[k]);
    expect("word after the form", 7, form[14]);
    expect("compact_tables", (UINT64_C(1) << 32) + 4,
           metzurgo_compact_tables(WIDEST, form, 14, tables, 4, table_bits, 1));
    expect("tables over the form", 0, memcmp(tables, words, sizeof tables) != 0);
    expect("disable bits over the form", 0x70, table_bits[0]);
    expect("compact_trace", 0 * 65536 + 1 * 256 + 2,
           metzurgo_compact_trace(WIDEST, form, 14, words, 4, bits, 1, 1, 1, A1,
                                  passed, 2));
    expect("second expander passed", 0, passed[1]);
    expect("compact_trace_many", 4,
           metzurgo_compact_trace_many(WIDEST, form, 14, words, 4, bits, 1,
                                       requests, 9, answers, 5));
    expect("0 to B1h", 1 * 65536 + 1 * 256 + 2, answers[0]);
    expect("B1h to A1h", 0 * 65536 + 1 * 256 + 2, answers[1]);
    expect("256 to B1h", no_start, answers[2]);
    expect("1 to 0", METZURGO_REFUSED + 17 * 65536, answers[3]);
    expect("answer after those", 7, answers[4]);
    expect("compact_trace_many, 3 answers", METZURGO_REFUSED + 16 * 65536,
           metzurgo_compact_trace_many(WIDEST, form, 14, words, 4, bits, 1,
                                       requests, 8, answers, 3));
    expect("compact_tables, a word more", METZURGO_REFUSED + 1 * 65536,
           metzurgo_compact_tables(WIDEST, form, 15, tables, 4, table_bits, 1));
    form[3] -= UINT64_C(1) << 53;
    expect("compact_trace, another attached expander",
           METZURGO_REFUSED + 1 * 65536,
           metzurgo_compact_trace(WIDEST, form, 14, words, 4, bits, 1, 2, 0, 0,
                                  NULL, 0));
}

/* A slice of length 0 may be NULL in every call. */
static void empty_slices(void)
{
    const uint64_t cut = METZURGO_REFUSED + 1 * 65536;
    const uint64_t room = METZURGO_REFUSED + 16 * 65536;
    const uint64_t no_bits = METZURGO_REFUSED + 18 * 65536;
    const size_t size = sizeof pair_rig;
    uint64_t words[4] = { 0 };
    uint8_t bits[1] = { 0 };
    uint8_t passed[2];

    expect("wire, no file", cut, metzurgo_wire(WIDEST, NULL, 0, NULL, 0));
    expect("wire, no words", room,
           metzurgo_wire(WIDEST, pair_rig, size, NULL, 0));
    expect("tables, no file", cut,
           metzurgo_tables(WIDEST, NULL, 0, NULL, 0, NULL, 0));
    expect("tables, no words", room,
           metzurgo_tables(WIDEST, pair_rig, size, NULL, 0, bits, 1));
    expect("tables, no disable bits", no_bits,
           metzurgo_tables(WIDEST, pair_rig, size, words, 4, NULL, 0));
    expect("tables, no words and no disable bits", room,
           metzurgo_tables(WIDEST, pair_rig, size, NULL, 0, NULL, 0));
    expect("trace, no file", cut,
           metzurgo_trace(WIDEST, NULL, 0, NULL, 0, NULL, 0, 0, 255, A1, NULL,
                          0));
    expect("trace, no words", room,
           metzurgo_trace(WIDEST, pair_rig, size, NULL, 0, bits, 1, 0, 255, A1,
                          passed, 2));
    expect("trace, no bytes", room,
           metzurgo_trace(WIDEST, pair_rig, size, words, 4, bits, 1, 0, 255, A1,
                          NULL, 0));
    expect("trace, no disable bits", no_bits,
           metzurgo_trace(WIDEST, pair_rig, size, words, 4, NULL, 0, 0, 255, A1,
                          passed, 2));
    expect("trace, no words and no disable bits", room,
           metzurgo_trace(WIDEST, pair_rig, size, NULL, 0, NULL, 0, 0, 255, A1,
                          passed, 2));
    expect("trace, no disable bits and address 0", no_bits,
           metzurgo_trace(WIDEST, pair_rig, size, words, 4, NULL, 0, 0, 255, 0,
                          passed, 2));
    expect("compact, no file", cut, metzurgo_compact(WIDEST, NULL, 0, NULL, 0));
    expect("compact, no words", room,
           metzurgo_compact(WIDEST, pair_rig, size, NULL, 0));
    expect("compact_tables, no form", cut,
           metzurgo_compact_tables(WIDEST, NULL, 0, NULL, 0, NULL, 0));
    expect("compact_trace, no form", cut,
           metzurgo_compact_trace(WIDEST, NULL, 0, NULL, 0, NULL, 0, 0, 255, A1,
                                  NULL, 0));
    expect("compact_trace_many, no form", cut,
           metzurgo_compact_trace_many(WIDEST, NULL, 0, NULL, 0, NULL, 0, NULL,
                                       0, NULL, 0));
    /* One expander with a vacant phy: no tables, and no requests. */
    const uint64_t alone[4] = { A1, UINT64_C(1) << 40, 0, UINT64_C(1) << 63 };
    expect("compact_tables of no words", 0,
           metzurgo_compact_tables(WIDEST, alone, 4, NULL, 0, NULL, 0));
    expect("compact_trace_many, no requests", 0,
           metzurgo_compact_trace_many(WIDEST, alone, 4, NULL, 0, NULL, 0, NULL,
                                       0, NULL, 0));
    expect("write_route, no bytes", room,
           metzurgo_write_route(NULL, 0, 0, 0, 0, A1, 0));
    expect("read_route, no frame", cut, metzurgo_read_route(NULL, 0));
    expect("read_route_address, no frame", 0,
           metzurgo_read_route_address(NULL, 0));
    expect("read_general, no frame", cut, metzurgo_read_general(NULL, 0));
    expect("read_general_sas2, no frame", cut,
           metzurgo_read_general_sas2(NULL, 0));
    expect("read_discover, no frame", cut, metzurgo_read_discover(NULL, 0));
    expect("discover_own, no frame", 0, metzurgo_discover_own(NULL, 0));
    expect("discover_attached, no frame", 0,
           metzurgo_discover_attached(NULL, 0));

    /* One expander with a table phy and R 0: a table of no words. */
    static const uint8_t wordless[90] = {
        [0] = 0x10, [1] = 1, [2] = 0x50, [9] = 0x10, [10] = 0x41, [19] = 1,
        [20] = 1, [38] = 0x41, [39] = 0x10, [54] = 0x50, [61] = 0x10, [82] = 2,
    };
    expect("tables of no words", UINT64_C(1) << 32,
           metzurgo_tables(WIDEST, wordless, sizeof wordless, NULL, 0, NULL,
                           0));
    uint8_t lent[sizeof wordless];
    memcpy(lent, wordless, sizeof lent);
    expect("event over no words", 0,
           metzurgo_event(WIDEST, lent, sizeof lent, NULL, 0, NULL, 0, 0, 0,
                          A1));
    expect("type after an event over no words", 0x10, lent[50]);
    expect("trace over no words", (1 << 24) + 255 * 256 + 1,
           metzurgo_trace(WIDEST, wordless, sizeof wordless, NULL, 0, NULL, 0,
                          0, 255, A1, passed, 1));
}

/* B1h is pulled and a drive plugged into phy 2, over a copy of the file. */
static void plug_and_pull(void)
{
    const uint64_t drive = UINT64_C(0x50000000000000c1);
    const uint64_t no_such_phy = METZURGO_REFUSED + 20 * 65536;
    uint8_t file[sizeof pair_rig + 1], bits[2] = { 0x75, 0x5a };
    uint64_t words[5] = { B1, 0, 0, 0, 7 };

    memcpy(file, pair_rig, sizeof pair_rig);
    file[sizeof pair_rig] = 9;
#define EVENT(words_len, bits_len, expander, phy, address)                    \
    metzurgo_event(WIDEST, file, sizeof pair_rig, words, words_len, bits,     \
                   bits_len, expander, phy, address)
    expect("event, no file", METZURGO_REFUSED + 1 * 65536,
           metzurgo_event(WIDEST, NULL, 0, NULL, 0, NULL, 0, 0, 0, drive));
    expect("event, no expander", no_such_phy, EVENT(0, 0, 2, 0, drive));
    expect("event, no phy", no_such_phy, EVENT(0, 0, 1, 3, drive));
    expect("event, at an expander", no_such_phy, EVENT(5, 2, 0, 0, drive));
    expect("event, 3 words", METZURGO_REFUSED + 16 * 65536,
           EVENT(3, 2, 0, 1, B1));
    expect("event, 0 bytes of disable bits", METZURGO_REFUSED + 18 * 65536,
           EVENT(5, 0, 0, 1, B1));
    expect("event, B1h at both", METZURGO_REFUSED + 8 * 65536 + 256 + 1,
           EVENT(5, 2, 0, 1, B1));
    expect("file after refusals", 0, memcmp(file, pair_rig, sizeof pair_rig) != 0);
    expect("event, pulled", (UINT64_C(1) << 32) + 1, EVENT(5, 2, 1, 1, 0));
    expect("type at phy 1", 0, file[242]);
    expect("address at phy 1", 0xb1, file[261]);
    expect("event, plugged", (UINT64_C(1) << 32) + 1, EVENT(5, 2, 1, 2, drive));
    expect("type at phy 2", 0x10, file[294]);
    expect("address at phy 2", 0xc1, file[313]);
    expect("byte after the file", 9, file[sizeof pair_rig]);
    expect("entry 0 after events", 0, words[0]);
    expect("entry 1 after events", drive, words[1]);
    expect("word after the table", 7, words[4]);
    expect("disable bits after events, padding as lent", 0xb5, bits[0]);
    expect("byte after the disable bits", 0x5a, bits[1]);
    expect("event, no table", 0, EVENT(5, 2, 0, 1, B1));
#undef EVENT
}

/* Traces a request on the pair rig, over its four words, and prints its end. */
static uint64_t trace(const uint64_t *words, const uint8_t *bits, uint8_t start,
                      uint8_t arrival, uint64_t address, uint8_t *passed)
{
    static const char *const outcomes[] = {
        "arrived", "NO DESTINATION", "BAD DESTINATION",
    };
    uint64_t answer = metzurgo_trace(WIDEST, pair_rig, sizeof pair_rig, words,
                                     4, bits, METZURGO_BIT_BYTES(4), start,
                                     arrival, address, passed, 3);
    if (answer >> 24 < 3) {
        printf("%s at %u, phy %u, passed:", outcomes[answer >> 24],
               (unsigned)(answer >> 16 & 0xff), (unsigned)(answer >> 8 & 0xff));
        for (unsigned count = 0; count < (answer & 0xff) && count < 3; count++)
            printf(" %u", passed[count]);
        printf("\n");
    }
    return answer;
}

/* Entry 0, the route from expander 0 to B1h, switched off and on again. */
static void switch_route(const uint64_t *words, uint8_t *bits)
{
    uint8_t passed[3] = { 9, 9, 9 };
    expect("entry 0, switched on", 0, METZURGO_DISABLED(bits, 0));
    expect("entry 3, zero", 1, METZURGO_DISABLED(bits, 3));
    METZURGO_DISABLE(bits, 0);
    expect("bits, entry 0 switched off", 0xf0, bits[0]);
    expect("entry 0, switched off", 1, METZURGO_DISABLED(bits, 0));
    expect("trace, entry 0 switched off", (1 << 24) + 255 * 256 + 1,
           trace(words, bits, 0, 255, B1, passed));
    expect("expander passed", 0, passed[0]);
    expect("byte after that", 9, passed[1]);
    METZURGO_ENABLE(bits, 0);
    expect("bits, entry 0 switched on", 0x70, bits[0]);
    expect("trace, entry 0 switched on", 1 * 65536 + 1 * 256 + 2,
           trace(words, bits, 0, 255, B1, passed));
    expect("bytes of the bits of 0 words", 0, METZURGO_BIT_BYTES(0));
    expect("bytes of the bits of 8 words", 1, METZURGO_BIT_BYTES(8));
    expect("bytes of the bits of 9 words", 2, METZURGO_BIT_BYTES(9));
    METZURGO_ENABLE(bits, 6 + 7);
    expect("bits, word 13 switched on", 0xfb, bits[1]);
    METZURGO_DISABLE(bits, 6 + 7);
    expect("bits, word 13 switched off", 0xff, bits[1]);
}

int main(void)
{
    uint64_t words[5] = { 7, 7, 7, 7, 7 };
    uint64_t answer = metzurgo_wire(WIDEST, pair_rig, sizeof pair_rig, words,
                                    5);
    expect("wire", 2, answer);
    expect("neighbours of expander 0", 2, words[0]);
    expect("neighbours of expander 1", 1, words[1]);
    expect("word after the neighbours", 7, words[2]);

    expect("judge", 2, metzurgo_judge(WIDEST, pair_rig, sizeof pair_rig));
    expect("judge, empty file", METZURGO_REFUSED + 1 * 65536,
           metzurgo_judge(WIDEST, NULL, 0));

    /* Courses with other limits: 2 expanders, 3 phys, chains of 2 are enough. */
    expect("judge, 2 3 2", 2,
           metzurgo_judge(METZURGO_SETTING(2, 3, 2), pair_rig,
                          sizeof pair_rig));
    expect("judge, 1 3 2", METZURGO_REFUSED + 3 * 65536,
           metzurgo_judge(METZURGO_SETTING(1, 3, 2), pair_rig,
                          sizeof pair_rig));
    expect("judge, 2 3 1", METZURGO_REFUSED + 23 * 65536,
           metzurgo_judge(METZURGO_SETTING(2, 3, 1), pair_rig,
                          sizeof pair_rig));
    expect("judge, 0 3 2", METZURGO_REFUSED + 22 * 65536,
           metzurgo_judge(METZURGO_SETTING(0, 3, 2), NULL, 0));
    expect("judge, a bit above the 24", METZURGO_REFUSED + 22 * 65536,
           metzurgo_judge(METZURGO_WIDEST | UINT32_C(1) << 24, pair_rig,
                          sizeof pair_rig));
    expect("a setting with a limit above 255", 0, METZURGO_SETTING(2, 259, 2));
    expect("the widest setting", 64 * 65536 + 128 * 256 + 64, METZURGO_WIDEST);

    uint8_t bits[2] = { 0xff, 0xff };
    expect("tables, 3 words", METZURGO_REFUSED + 16 * 65536,
           metzurgo_tables(WIDEST, pair_rig, sizeof pair_rig, words, 3, bits,
                           2));
    expect("tables, 0 bytes of disable bits", METZURGO_REFUSED + 18 * 65536,
           metzurgo_tables(WIDEST, pair_rig, sizeof pair_rig, words, 5, bits,
                           0));
    expect("bits after a refusal", 0xff, bits[0]);
    answer = metzurgo_tables(WIDEST, pair_rig, sizeof pair_rig, words, 5, bits,
                             2);
    expect("tables", (UINT64_C(1) << 32) + 4, answer);
    expect("disable bits", 0x70, bits[0]);
    expect("byte after the disable bits", 0xff, bits[1]);
    expect("entry 0", B1, words[0]);
    expect("entry 1", 0, words[1]);
    expect("entry 2", 0, words[2]);
    expect("entry 3", 0, words[3]);
    expect("word after the table", 7, words[4]);
    for (unsigned index = 0; index < (uint32_t)answer; index++)
        printf("0 0 %u %016" PRIx64 "\n", index, words[index]);
    printf("tables %" PRIu64 " entries %" PRIu64 "\n", answer >> 32,
           answer & UINT32_MAX);

    /* B1h's phy (expander 1 phy 1) to A1h (expander 0 phy 1). */
    uint8_t passed[3] = { 9, 9, 9 };
    expect("trace", 0 * 65536 + 1 * 256 + 2,
           trace(words, bits, 1, 1, A1, passed));
    expect("first expander passed", 1, passed[0]);
    expect("second expander passed", 0, passed[1]);
    expect("byte after those passed", 9, passed[2]);
    switch_route(words, bits);

    /* The loading frame of entry 0, switched off and on, written and read back. */
    uint8_t frame[41];
    for (uint8_t disabled = 0; disabled < 2; disabled++) {
        memset(frame, 9, sizeof frame);
        expect("write_route", 40,
               metzurgo_write_route(frame, 41, 0x09, 0, 0, words[0], disabled));
        expect("byte 12 of the frame", disabled ? 0x80 : 0x00, frame[12]);
        expect("byte after the frame", 9, frame[40]);
        expect("read_route", ((uint64_t)disabled << 32) + (0x09 << 24),
               metzurgo_read_route(frame, 40));
        expect("read_route_address", B1, metzurgo_read_route_address(frame, 40));
    }

    load_shelf(words, bits);
    compact_form(words, bits);
    plug_and_pull();

    /* Frames inside the file. */
    expect("read_general", 4 * 65536 + 2 * 256 + 1,
           metzurgo_read_general(pair_rig + 10, 28));
    expect("read_general_sas2, short", 4 * 65536 + 2 * 256 + 1,
           metzurgo_read_general_sas2(pair_rig + 10, 28));
    uint8_t general[68] = { 0x41, 0, 0, 0x10, [7] = 4, [9] = 2, [10] = 0x85 };
    expect("read_general, long", 4 * 65536 + 2 * 256 + 1,
           metzurgo_read_general(general, 68));
    expect("read_general_sas2, long",
           METZURGO_LONG + METZURGO_TABLE_TO_TABLE +
               METZURGO_CONFIGURES_OTHERS + 4 * 65536 + 2 * 256 + 1,
           metzurgo_read_general_sas2(general, 68));
    expect("read_discover",
           (UINT64_C(1) << 32) + (METZURGO_END_DEVICE << 24) +
               (METZURGO_DIRECT << 16),
           metzurgo_read_discover(pair_rig + 90, 52));
    expect("discover_own", UINT64_C(0x5000000000000010),
           metzurgo_discover_own(pair_rig + 90, 52));
    expect("discover_attached", A1,
           metzurgo_discover_attached(pair_rig + 90, 52));

    empty_slices();

    return failed;
}
