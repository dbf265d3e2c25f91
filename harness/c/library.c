/*
 * The library as programs of a lab use it: judges a domain file, fills its tables,
 * follows requests step by step, and traces them again in one list over the file's
 * compact form; pulls each drive and plugs another in; makes an exercise of its tables.
 *
 *     cc library.c $(pkg-config --cflags --libs metzurgo) -o library
 *     library FILE        prints the tables and the way of each request
 *     library refusals    prints every refusal number and its words
 *
 * Exits with 1 where the file is refused, or where two calls do not agree.
 */
#include <inttypes.h>
#include <metzurgo.h>
#include <stdio.h>
#include <stdlib.h>
#include <string.h>

#define COURSE METZURGO_WIDEST
#define MOST 1000 /* requests in the list */

struct rig {
    uint8_t file[600000];
    size_t size;
    uint64_t *words;
    size_t word_count;
    uint8_t *bits;
    size_t bit_bytes;
    unsigned expanders;
};

static struct rig rig;

/* The requests that were followed, two words each, and the end of each. */
static struct {
    uint64_t requests[2 * MOST], ends[MOST];
    size_t count;
} list;

static void fail(const char *what)
{
    fprintf(stderr, "library: %s\n", what);
    exit(1);
}

/* An answer that is no refusal. */
static uint64_t accepted(uint64_t answer)
{
    if (answer & METZURGO_REFUSED) {
        const char *text = metzurgo_refusal_text(METZURGO_NUMBER(answer));
        printf("refused %u %u %u\n", METZURGO_NUMBER(answer),
               METZURGO_EXPANDER(answer), METZURGO_PHY(answer));
        fail(text ? text : "a refusal number without words");
    }
    return answer;
}

static void load(const char *path)
{
    FILE *source = fopen(path, "rb");
    if (!source)
        fail("the file cannot be read");
    rig.size = fread(rig.file, 1, sizeof rig.file, source);
    fclose(source);
    rig.expanders = (unsigned)accepted(
        metzurgo_judge(COURSE, rig.file, rig.size));
}

static void fill(void)
{
    uint64_t needed = accepted(metzurgo_needed(COURSE, rig.file, rig.size));
    rig.word_count = (uint32_t)needed;
    rig.bit_bytes = METZURGO_BIT_BYTES(rig.word_count);
    rig.words = calloc(rig.word_count + 1, sizeof *rig.words);
    rig.bits = calloc(rig.bit_bytes + 1, 1);
    if (!rig.words || !rig.bits)
        fail("no memory");
    uint64_t filled = accepted(
        metzurgo_tables(COURSE, rig.file, rig.size, rig.words, rig.word_count,
                        rig.bits, rig.bit_bytes));
    if (filled != needed)
        fail("metzurgo_tables writes other counts than metzurgo_needed says");
}

/* Each word with its place, as the program routes prints it. */
static void print_tables(void)
{
    for (size_t k = 0; k < rig.word_count; k++) {
        uint64_t place = accepted(
            metzurgo_word_place(COURSE, rig.file, rig.size, k));
        printf("%u %u %u %016" PRIx64 "\n", (unsigned)(place >> 24),
               (unsigned)(place >> 16 & 0xff), (unsigned)(place & 0xffff),
               rig.words[k]);
        if (METZURGO_DISABLED(rig.bits, k) != (rig.words[k] == 0))
            fail("a disable bit does not fit its word");
    }
    if (metzurgo_word_place(COURSE, rig.file, rig.size, rig.word_count)
        != METZURGO_REFUSED + (15 << 16))
        fail("there is a place after the last word");
}

/* Follows a request by single steps, which pass the same expanders as its trace. */
static void follow(uint8_t start, uint64_t address)
{
    uint8_t passed[64];
    uint64_t end = accepted(
        metzurgo_trace(COURSE, rig.file, rig.size, rig.words, rig.word_count,
                       rig.bits, rig.bit_bytes, start, 255, address, passed,
                       sizeof passed));
    if (list.count == MOST)
        fail("there are more requests than the list has room for");
    list.requests[2 * list.count] = METZURGO_REQUEST(start, 255);
    list.requests[2 * list.count + 1] = address;
    list.ends[list.count++] = end;
    uint8_t expander = start, arrival = 255;
    printf("%u to %016" PRIx64 ":", start, address);
    for (unsigned count = 0; count < (end & 0xff); count++) {
        if (expander != passed[count])
            fail("the steps pass other expanders than the trace");
        uint64_t step = accepted(
            metzurgo_step(COURSE, rig.file, rig.size, rig.words,
                          rig.word_count, rig.bits, rig.bit_bytes, expander,
                          arrival, address));
        printf(" %u (%u)", expander, (unsigned)(step >> 40 & 0xff));
        expander = step >> 8 & 0xff;
        arrival = step & 0xff;
    }
    if (expander != 255)
        fail("the steps go on after the end of the trace");
    static const char *const outcomes[] = {
        "arrived", "NO DESTINATION", "BAD DESTINATION",
    };
    printf(" %s\n", outcomes[end >> 24 & 3]);
}

static void print_refusals(void)
{
#define PRINT(number, words) printf("%d %s\n", number, words);
    METZURGO_REFUSALS(PRINT)
#define CHECK(number, words)                           \
    if (strcmp(metzurgo_refusal_text(number), words))  \
        fail("metzurgo_refusal_text has other words");
    METZURGO_REFUSALS(CHECK)
    if (metzurgo_refusal_text(0) || metzurgo_refusal_text(13))
        fail("metzurgo_refusal_text has words for a number without a cause");
}

/* The file decoded once: its tables and the ends of all requests are the same. */
static void trace_list(void)
{
    static uint64_t form[METZURGO_LONGEST_FORM], ends[MOST];
    uint64_t made = accepted(
        metzurgo_compact(COURSE, rig.file, rig.size, form,
                         METZURGO_LONGEST_FORM));
    size_t length = (uint32_t)made;
    if (made >> 32 != rig.expanders)
        fail("metzurgo_compact counts other expanders than metzurgo_judge");
    uint64_t *words = calloc(rig.word_count + 1, sizeof *words);
    uint8_t *bits = calloc(rig.bit_bytes + 1, 1);
    if (!words || !bits)
        fail("no memory");
    accepted(metzurgo_compact_tables(COURSE, form, length, words,
                                     rig.word_count, bits, rig.bit_bytes));
    if (memcmp(words, rig.words, rig.word_count * sizeof *words)
        || memcmp(bits, rig.bits, rig.bit_bytes))
        fail("the form has other tables than the file");
    uint64_t count = accepted(
        metzurgo_compact_trace_many(COURSE, form, length, words,
                                    rig.word_count, bits, rig.bit_bytes,
                                    list.requests, 2 * list.count, ends,
                                    MOST));
    if (count != list.count || memcmp(ends, list.ends, count * sizeof *ends))
        fail("the requests end otherwise over the form");
    printf("%u words of form, %u requests in one list\n", (unsigned)length,
           (unsigned)count);
    free(words);
    free(bits);
}

/* The file, words and bits after an event are those of the file configured afresh. */
static void compare_tables(void)
{
    uint64_t *words = calloc(rig.word_count + 1, sizeof *words);
    uint8_t *bits = calloc(rig.bit_bytes + 1, 1);
    if (!words || !bits)
        fail("no memory");
    accepted(metzurgo_tables(COURSE, rig.file, rig.size, words, rig.word_count,
                             bits, rig.bit_bytes));
    if (memcmp(words, rig.words, rig.word_count * sizeof *words)
        || memcmp(bits, rig.bits, rig.bit_bytes))
        fail("after an event the tables are others than those filled afresh");
    free(words);
    free(bits);
}

/* An event, over the file and its tables. */
static uint64_t event(unsigned expander, unsigned phy, uint64_t address)
{
    return metzurgo_event(COURSE, rig.file, rig.size, rig.words,
                          rig.word_count, rig.bits, rig.bit_bytes,
                          (uint8_t)expander, (uint8_t)phy, address);
}

/* Pulls what is at each phy that can have a drive, and plugs another drive in. */
static void plug_and_pull(void)
{
    const uint64_t drive = UINT64_C(0x7ffffffffffffff0);
    const uint64_t no_such_phy = METZURGO_REFUSED + (20 << 16);
    for (unsigned expander = 0; expander < rig.expanders; expander++) {
        for (unsigned phy = 0; phy < 128; phy++) {
            uint64_t pulled = event(expander, phy, 0);
            if (pulled == no_such_phy)
                continue;
            accepted(pulled);
            compare_tables();
            uint64_t plugged = event(expander, phy, drive);
            compare_tables();
            if (plugged & METZURGO_REFUSED) {
                printf("%u %u: refused %u\n", expander, phy,
                       METZURGO_NUMBER(plugged));
                continue;
            }
            printf("%u %u: %u tables touched, %u words changed, then %u\n",
                   expander, phy, (unsigned)(plugged >> 32),
                   (unsigned)(uint32_t)pulled, (unsigned)(uint32_t)plugged);
            accepted(event(expander, phy, 0));
        }
    }
    if (event(rig.expanders, 0, drive) != no_such_phy)
        fail("a drive is plugged into an expander that is not there");
}

/* An exercise whose solution is the words of all tables has them as its table. */
static void make_exercise(void)
{
    static uint8_t file[METZURGO_LONGEST_EXERCISE];
    const uint64_t first = UINT64_C(0x7ffffffffffffffd), second = first + 1;
    uint64_t made = metzurgo_make(first, second, rig.words, rig.word_count,
                                  file, sizeof file);
    if (made == METZURGO_REFUSED + (24 << 16)) {
        printf("no exercise has these words\n");
        return;
    }
    uint64_t *words = calloc(rig.word_count + 1, sizeof *words);
    uint8_t *bits = calloc(rig.bit_bytes + 1, 1);
    if (!words || !bits)
        fail("no memory");
    accepted(made);
    accepted(metzurgo_tables(COURSE, file, (size_t)made, words, rig.word_count,
                             bits, rig.bit_bytes));
    if (memcmp(words, rig.words, rig.word_count * sizeof *words))
        fail("an exercise has other words than its solution");
    printf("%u bytes of exercise\n", (unsigned)made);
    free(words);
    free(bits);
}

int main(int count, char **arguments)
{
    if (metzurgo_version() != METZURGO_VERSION)
        fail("library and header have different versions");
    if (count != 2)
        fail("give a domain file, or the word refusals");
    if (!strcmp(arguments[1], "refusals")) {
        print_refusals();
        return 0;
    }
    load(arguments[1]);
    fill();
    print_tables();
    /* From each expander to each address that a table has, and to one that nobody has. */
    for (unsigned start = 0; start < rig.expanders; start++) {
        for (size_t k = 0; k < rig.word_count; k++)
            if (rig.words[k])
                follow((uint8_t)start, rig.words[k]);
        follow((uint8_t)start, UINT64_C(0x7fffffffffffffff));
    }
    trace_list();
    make_exercise();
    plug_and_pull();
    free(rig.words);
    free(rig.bits);
    return 0;
}
