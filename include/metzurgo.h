/*
 * Metzurgo: SAS domain files, route tables and request tracing.
 *
 * Every slice is a pointer and a length (in elements). Each pointer must be
 * valid and aligned for its length; where the length is 0 nothing is read or
 * written there, and in every call the pointer may be NULL. A lent buffer must
 * not overlap the file or another buffer of the same call. Nothing is kept
 * after a call returns. A call that takes a file, a card or a form uses at most
 * some 240,000 bytes of stack (docs/BENCHMARK.md has the measured bytes).
 *
 * Every call that takes a file, a card or a form takes a course's setting
 * before it: the most expanders (1 to 64), the most phys of an expander (1 to
 * 128) and the longest chain in expanders (1 to 64), packed by
 * METZURGO_SETTING. A setting outside this range, or a bit set above the 24 that
 * it has, is refused with 22 before anything else is tested.
 *
 * Refusals: bit 63 of the answer is set, and the answer is
 *     2^63 + number * 65536 + expander * 256 + phy.
 * After a refusal every lent buffer holds what it held before.
 *
 * metzurgo_read_route_address, metzurgo_discover_own and
 * metzurgo_discover_attached answer a 64-bit word of a frame, in which bit 63
 * can be set, and 0 in place of a refusal. metzurgo_shelf_entry answers an
 * address, in which bit 63 can be set, too, and 0 where there is no entry.
 *
 * Disable bits are lent beside the table words, one bit for each word in the
 * words' order, packed most significant bit first: the bit of word k is bit
 * 7 - k % 8 of byte k / 8. A word whose bit is set is an entry that is switched
 * off and keeps its address. METZURGO_BIT_BYTES(words) bytes are needed; the
 * bits behind that of the last word, which fill its byte, are padding.
 */
#ifndef METZURGO_H
#define METZURGO_H

#include <stddef.h>
#include <stdint.h>

#ifdef __cplusplus
extern "C" {
#endif

/*
 * The version of this header. The packages and the pkg-config file take theirs
 * from here; metzurgo_version() answers that of the library.
 */
#define METZURGO_VERSION_MAJOR 0
#define METZURGO_VERSION_MINOR 1
#define METZURGO_VERSION_PATCH 0
#define METZURGO_VERSION                                                      \
    (METZURGO_VERSION_MAJOR << 16 | METZURGO_VERSION_MINOR << 8               \
     | METZURGO_VERSION_PATCH)

/*
 * Bit 63: set in every refusal and, apart from the four calls above, in no
 * other answer.
 */
#define METZURGO_REFUSED ((uint64_t)1 << 63)
/* Bit 62: set in the answer of metzurgo_read_discover for a vacant phy. */
#define METZURGO_VACANT ((uint64_t)1 << 62)
/*
 * Bits of the answer of metzurgo_read_general_sas2: a long frame, and in one
 * TABLE TO TABLE SUPPORTED and CONFIGURES OTHERS.
 */
#define METZURGO_LONG ((uint64_t)1 << 34)
#define METZURGO_TABLE_TO_TABLE ((uint64_t)1 << 33)
#define METZURGO_CONFIGURES_OTHERS ((uint64_t)1 << 32)

/*
 * A setting: most expanders * 65536 + most phys * 256 + longest chain; 0, which
 * is refused with 22, where one of them exceeds 255. The widest setting has the
 * limits of a domain file: 64 expanders, 128 phys, chains of 64 expanders.
 */
#define METZURGO_SETTING(expanders, phys, chain)                              \
    ((uint64_t)(expanders) > 255 || (uint64_t)(phys) > 255                    \
             || (uint64_t)(chain) > 255                                       \
         ? (uint32_t)0                                                        \
         : (uint32_t)(expanders) << 16 | (uint32_t)(phys) << 8                \
               | (uint32_t)(chain))
#define METZURGO_WIDEST METZURGO_SETTING(64, 128, 64)

/*
 * Disable bits: the bytes that the bits of so many words take; whether the entry
 * of word k is switched off; switching it off, and on again. Arguments are
 * evaluated more than once.
 */
#define METZURGO_BIT_BYTES(words)                                             \
    ((size_t)(words) / 8 + ((size_t)(words) % 8 != 0))
#define METZURGO_DISABLED(bits, k) ((bits)[(k) / 8] >> (7 - (k) % 8) & 1)
#define METZURGO_DISABLE(bits, k)                                             \
    ((bits)[(k) / 8] = (uint8_t)((bits)[(k) / 8] | 0x80 >> (k) % 8))
#define METZURGO_ENABLE(bits, k)                                              \
    ((bits)[(k) / 8] = (uint8_t)((bits)[(k) / 8] & ~(0x80 >> (k) % 8)))

/* The parts of a refusal. */
#define METZURGO_NUMBER(answer) ((unsigned)((answer) >> 16 & 0xff))
#define METZURGO_EXPANDER(answer) ((unsigned)((answer) >> 8 & 0xff))
#define METZURGO_PHY(answer) ((unsigned)((answer) & 0xff))

/*
 * Every refusal number, and what it means in words, as docs/FILE-FORMAT.md has
 * it: X(number, words) for each.
 */
#define METZURGO_REFUSALS(X)                                                  \
    X(1, "The file ends too early, or has bytes after its last phy; or "      \
         "words are the form of no accepted rig.")                            \
    X(2, "The first byte of the file, or a fixed byte of a frame, is "        \
         "wrong; or a frame states a length that is not its own.")            \
    X(3, "There are no expanders or more than the setting allows (64 "        \
         "at most), or an expander has no phys or more than it allows "       \
         "(128 at most); or a shelf is told phys, R or kinds that it "        \
         "cannot have.")                                                      \
    X(4, "An expander's address is zero, or an earlier expander has "         \
         "it.")                                                               \
    X(5, "A phy's identifier or its own address does not fit its place "      \
         "in the file.")                                                      \
    X(6, "A phy's type or attribute is a reserved code (type above 3, "       \
         "attribute above 2), or something is attached with address "         \
         "zero.")                                                             \
    X(7, "A cable to an expander is on a direct phy, or its far end is "      \
         "missing or does not name it back.")                                 \
    X(8, "A drive has an expander's address, or the same drive is at "        \
         "an earlier expander too.")                                          \
    X(9, "Two phys of an expander to one address have different "             \
         "attributes, or two subtractive phys lead to different "             \
         "addresses.")                                                        \
    X(10, "A table phy is on an expander that is not configurable.")          \
    X(11, "The cables form a loop.")                                          \
    X(12, "No chain of cables joins this expander to expander 0.")            \
    X(14, "A table phy has more entries to hold than its expander has "       \
          "route indexes.")                                                   \
    X(15, "A request starts at no expander of the file, or at a phy "         \
          "that no drive is attached to; or a loading frame names a phy "     \
          "above 127.")                                                       \
    X(16, "A lent buffer is too short.")                                      \
    X(17, "The requested address is zero.")                                   \
    X(18, "The lent disable bits are too few: each table word has one, "      \
          "and they are lent in whole bytes.")                                \
    X(19, "A card's version, one of its zero bits, a vacant phy's result "    \
          "or its length is wrong.")                                          \
    X(20, "The phy of an event does not exist, is vacant or is attached to "  \
          "an expander.")                                                     \
    X(21, "A phy of the cable that is to join two rigs does not exist, is "   \
          "vacant, is not subtractive or is attached; or its expander has "   \
          "an attached subtractive phy.")                                     \
    X(22, "The course's setting is out of its range: 1 to 64 expanders, "     \
          "1 to 128 phys, chains of 1 to 64 expanders.")                      \
    X(23, "A chain of cabled expanders is longer than the setting "           \
          "allows.")                                                          \
    X(24, "No accepted rig of two expanders has these words as its "          \
          "table.")

/* The words of a refusal number; NULL for one that no call gives. */
static inline const char *metzurgo_refusal_text(unsigned number)
{
    switch (number) {
#define METZURGO_CASE(each, words) \
    case each:                     \
        return words;
        METZURGO_REFUSALS(METZURGO_CASE)
#undef METZURGO_CASE
    default:
        return NULL;
    }
}

/* Outcomes of a trace. */
#define METZURGO_ARRIVED 0
#define METZURGO_NO_DESTINATION 1
#define METZURGO_BAD_DESTINATION 2

/* Rules of a step. */
#define METZURGO_RULE_ITSELF 1
#define METZURGO_RULE_ATTACHED 2
#define METZURGO_RULE_LISTED 3
#define METZURGO_RULE_SUBTRACTIVE 4
#define METZURGO_RULE_NOTHING 5

/* Attached device types; 4 to 7 are reserved. */
#define METZURGO_NO_DEVICE 0
#define METZURGO_END_DEVICE 1
#define METZURGO_EDGE_EXPANDER 2
#define METZURGO_FANOUT_EXPANDER 3

/* Routing attributes; 3 to 15 are reserved. */
#define METZURGO_DIRECT 0
#define METZURGO_SUBTRACTIVE 1
#define METZURGO_TABLE 2

/* Kinds of the phys of a shelf. */
#define METZURGO_SHELF_VACANT 0
#define METZURGO_SHELF_TABLE 1
#define METZURGO_SHELF_OTHER 2

/* SMP function results of a shelf. */
#define METZURGO_SMP_FUNCTION_ACCEPTED 0x00
#define METZURGO_PHY_DOES_NOT_EXIST 0x10
#define METZURGO_INDEX_DOES_NOT_EXIST 0x11
#define METZURGO_PHY_VACANT 0x16

/*
 * Wiring. Tests causes 22 and 1 to 10, then 16 (fewer words than expanders).
 * Chains are not tested. Writes one word for each expander: the bit worth 2^j is
 * set when expander j is a neighbour. Later words stay. Answer: the number of
 * bits set in all.
 */
uint64_t metzurgo_wire(uint32_t setting, const uint8_t *file, size_t file_len,
                       uint64_t *words, size_t words_len);

/*
 * Judging. Tests causes 22, 1 to 12, 23 (a chain of more expanders than the
 * setting allows) and 14. Answer: the number of expanders.
 */
uint64_t metzurgo_judge(uint32_t setting, const uint8_t *file,
                        size_t file_len);

/*
 * Tables. Tests the causes of judging, then 16 (fewer words than the sum of the
 * route indexes over the non-vacant table phys) and 18 (fewer disable bits than
 * these words need). Writes the tables by expander and then phy; later words
 * stay. Sets a disable bit exactly where the word is 0, and clears the others
 * and the padding bits; later bytes stay. Answer: tables * 2^32 + words.
 */
uint64_t metzurgo_tables(uint32_t setting, const uint8_t *file,
                         size_t file_len, uint64_t *words, size_t words_len,
                         uint8_t *bits, size_t bits_len);

/*
 * Tracing a connection request over the table words and disable bits given: a
 * word whose bit is set is skipped. Padding bits and later bytes are not read.
 * Tests the causes of judging, then 15 (no such start expander, or an arrival
 * phy that is neither 255 nor attached to an end device), 16 (fewer table words
 * than needed, or fewer bytes in `passed` than expanders), 18 (fewer disable
 * bits than the needed words have), 17 (address zero). Writes the numbers of the
 * expanders passed, in order; later bytes stay.
 * Answer: outcome * 2^24 + last expander * 2^16 + phy * 2^8 + count of
 * expanders passed. The phy is 255 unless the request arrived at an end device.
 */
uint64_t metzurgo_trace(uint32_t setting, const uint8_t *file, size_t file_len,
                        const uint64_t *words, size_t words_len,
                        const uint8_t *bits, size_t bits_len, uint8_t start,
                        uint8_t arrival, uint64_t address, uint8_t *passed,
                        size_t passed_len);

/*
 * Writes one CONFIGURE ROUTE INFORMATION request into the first 40 bytes of
 * `buf`; later bytes stay. `length` is its byte 3, REQUEST LENGTH: 00h, or 09h,
 * which SAS-2 expanders expect. `disabled` is 0, or any other value for an entry
 * that is switched off. Address and `disabled` are written as told, whatever the
 * other is. Refuses any other `length` (2), then a phy above 127 (15), then fewer
 * than 40 bytes (16). Answer: 40.
 */
uint64_t metzurgo_write_route(uint8_t *buf, size_t buf_len, uint8_t length,
                              uint8_t phy, uint16_t index, uint64_t address,
                              uint8_t disabled);

/*
 * Reads a CONFIGURE ROUTE INFORMATION request. Refuses any number of bytes but
 * 40 (1), wrong bytes 0, 1 and 3 (2), a phy above 127 (15). Byte 3, REQUEST
 * LENGTH, is 00h or 09h.
 * Answer: disabled * 2^32 + REQUEST LENGTH * 2^24 + phy * 2^16 + route index;
 * `disabled` is bit 7 of byte 12.
 */
uint64_t metzurgo_read_route(const uint8_t *frame, size_t len);

/*
 * The address of the same request, whether its entry is disabled or not; 0 where
 * metzurgo_read_route refuses.
 */
uint64_t metzurgo_read_route_address(const uint8_t *frame, size_t len);

/*
 * Reads a REPORT GENERAL response by itself, short (byte 3, RESPONSE LENGTH,
 * 00h: 28 bytes) or long (10h: 68 bytes). Refuses fewer than four bytes (1),
 * any other byte 3 (2), any length but that of the size found (1), then wrong
 * bytes 0 to 2 (2).
 * Answer: route indexes * 65536 + number of phys * 256 + configurable bit.
 */
uint64_t metzurgo_read_general(const uint8_t *frame, size_t len);

/*
 * Reads the same response as SAS-2 has it, and refuses alike. Answer: that of
 * metzurgo_read_general; for a long frame + 2^34 + TABLE TO TABLE SUPPORTED *
 * 2^33 + CONFIGURES OTHERS * 2^32.
 */
uint64_t metzurgo_read_general_sas2(const uint8_t *frame, size_t len);

/*
 * Reads a DISCOVER response by itself, short (byte 3, RESPONSE LENGTH, 00h: 52
 * bytes) or long (0Fh: 64 bytes). Refuses fewer than four bytes (1), any other
 * byte 3 (2), any length but that of the size found (1), then wrong bytes 0 and
 * 1 (2). Answer: 2^62 + result where the result is not zero (vacant phy), else
 * phy identifier * 2^32 + attached device type * 2^24 + routing attribute *
 * 2^16 + attached phy identifier.
 */
uint64_t metzurgo_read_discover(const uint8_t *frame, size_t len);

/*
 * The expander's own SAS address in the same response; 0 where it is refused
 * or vacant.
 */
uint64_t metzurgo_discover_own(const uint8_t *frame, size_t len);

/*
 * The attached SAS address in the same response; 0 where it is refused or
 * vacant.
 */
uint64_t metzurgo_discover_attached(const uint8_t *frame, size_t len);

/* The version of the library: major * 65536 + minor * 256 + patch. */
uint64_t metzurgo_version(void);

/*
 * How many tables and words a file needs. Tests the causes of judging. Answer:
 * tables * 2^32 + words.
 */
uint64_t metzurgo_needed(uint32_t setting, const uint8_t *file,
                         size_t file_len);

/*
 * The place of table word `k`. Tests the causes of judging, then 15 (no word of
 * this number). Answer: expander * 2^24 + phy * 2^16 + route index.
 */
uint64_t metzurgo_word_place(uint32_t setting, const uint8_t *file,
                             size_t file_len, uint64_t k);

/*
 * The step of a request at one expander that it has come to, over the table
 * words and disable bits given. Tests the causes of judging, then 15 (no such
 * expander, or an arrival phy that is neither 255 nor attached: it may be
 * attached to an expander), 16 (fewer table words than needed), 18 (fewer disable
 * bits), 17 (address zero).
 * Answer: bad * 2^48 + rule * 2^40 + phy picked * 2^32 + route index that
 * matched * 2^16 + next expander * 2^8 + phy to which it comes there; 255, and
 * 65535 for the index, where there is none. `bad` is 1 for BAD DESTINATION; the
 * rule is 1 to 5 for (i) to (v) of docs/ROUTING.md, by METZURGO_RULE_....
 */
uint64_t metzurgo_step(uint32_t setting, const uint8_t *file, size_t file_len,
                       const uint64_t *words, size_t words_len,
                       const uint8_t *bits, size_t bits_len, uint8_t expander,
                       uint8_t arrival, uint64_t address);

/*
 * The compact form: an accepted domain decoded once into 64-bit words, for many
 * traces, as docs/FILE-FORMAT.md has it. No form is longer than
 * METZURGO_LONGEST_FORM words. The calls over a form take exactly the words that
 * metzurgo_compact wrote: words that are the form of no domain accepted under the
 * setting, one word more or fewer among them, are refused with 1. What they
 * answer and write is what the calls over the file do.
 */
#define METZURGO_LONGEST_FORM 16512

/*
 * Makes the form of a file. Tests the causes of judging, then 16 (fewer words
 * than the form has). Later words stay. Answer: expanders * 2^32 + words.
 */
uint64_t metzurgo_compact(uint32_t setting, const uint8_t *file,
                          size_t file_len, uint64_t *form, size_t form_len);

/*
 * metzurgo_tables over a form. Tests 22, then 1, 16 and 18. Answer: tables *
 * 2^32 + words.
 */
uint64_t metzurgo_compact_tables(uint32_t setting, const uint64_t *form,
                                 size_t form_len, uint64_t *words,
                                 size_t words_len, uint8_t *bits,
                                 size_t bits_len);

/*
 * metzurgo_trace over a form. Tests 22, then 1, 15, 16, 18 and 17. Answer: that
 * of metzurgo_trace.
 */
uint64_t metzurgo_compact_trace(uint32_t setting, const uint64_t *form,
                                size_t form_len, const uint64_t *words,
                                size_t words_len, const uint8_t *bits,
                                size_t bits_len, uint8_t start,
                                uint8_t arrival, uint64_t address,
                                uint8_t *passed, size_t passed_len);

/*
 * Traces a list of requests over one form, which is tested once. A request is
 * two words: start * 256 + arrival (METZURGO_REQUEST makes it), then the
 * address; a last word by itself is no request. Tests 22, then 1, 16 (fewer table
 * words than needed, or fewer answers than requests) and 18. Writes an answer
 * for each request, in their order: what metzurgo_compact_trace answers to it,
 * so its own refusal with 15 or 17 stands there; a first word above 65535 is 15.
 * The expanders passed are counted and not named. Later answers stay. Answer: the
 * number of requests.
 */
uint64_t metzurgo_compact_trace_many(uint32_t setting, const uint64_t *form,
                                     size_t form_len, const uint64_t *words,
                                     size_t words_len, const uint8_t *bits,
                                     size_t bits_len, const uint64_t *requests,
                                     size_t requests_len, uint64_t *answers,
                                     size_t answers_len);

/*
 * The first word of a request; 65536, which is refused with 15, where start or
 * arrival exceeds 255.
 */
#define METZURGO_REQUEST(start, arrival)                                      \
    (((uint64_t)(start) | (uint64_t)(arrival)) >> 8 != 0                      \
         ? (uint64_t)65536                                                    \
         : (uint64_t)(start) << 8 | (uint64_t)(arrival))

/*
 * Rig cards: a domain as a row of bits, as docs/FILE-FORMAT.md has it. No card is
 * longer than METZURGO_LONGEST_CARD bytes, and no file that is made of a card
 * longer than METZURGO_LONGEST_CARD_FILE.
 */
#define METZURGO_LONGEST_CARD 80578
#define METZURGO_LONGEST_CARD_FILE 428290

/*
 * Makes a card of a file. Tests causes 22 and 1 to 6, then 16 (fewer bytes than
 * the card has). Later bytes stay. Answer: the bytes of the card.
 */
uint64_t metzurgo_card_of_file(uint32_t setting, const uint8_t *file,
                               size_t file_len, uint8_t *card,
                               size_t card_len);

/*
 * Makes a file of a card: short frames, in which all that is ignored is zero.
 * Tests 22, then 19 over the whole card, then 3 (more expanders or phys than the
 * setting allows), 4 and 6 as in a file, unit by unit, then 16 (fewer bytes than
 * the file has). Later bytes stay. Answer: the bytes of the file.
 */
uint64_t metzurgo_file_of_card(uint32_t setting, const uint8_t *card,
                               size_t card_len, uint8_t *file,
                               size_t file_len);

/*
 * A drive plugged or pulled. An event names an expander, a phy and an address; zero
 * is a pull. A plug sets type 1, the address and attached phy 0 in the phy's DISCOVER
 * response, where nothing or a drive is attached; a pull sets type 0. No other bit of
 * the file changes. Its tables and disable bits are lent with it, as metzurgo_tables
 * wrote them or altered, and edited with it: exactly the tables with the named expander
 * in one of their levels are written afresh, each word and its bit (set where the word
 * is 0), whatever was lent; all other words and bits stay, padding bits too. From words
 * and bits of metzurgo_tables on, those left are what metzurgo_tables gives for the
 * edited file.
 * Tests the causes of judging on the file as lent; then 20, place 0, 0 (the expander or
 * phy does not exist, or the phy is vacant or attached to an expander), 16 (fewer words
 * than needed) and 18 (fewer disable bits); then judges the edited file, whose refusal,
 * with its own number and place, is the answer. Nothing is edited then.
 * Answer: tables touched * 2^32 + words whose value is another than the one lent. For an
 * event on a direct phy, over tables that nothing else has altered, each table changes
 * at no more than one index, and the words changed are at most as many as the table phys
 * attached to expanders.
 */
uint64_t metzurgo_event(uint32_t setting, uint8_t *file, size_t file_len,
                        uint64_t *words, size_t words_len, uint8_t *bits,
                        size_t bits_len, uint8_t expander, uint8_t phy,
                        uint64_t address);

/*
 * Joins two rigs by one cable between a subtractive phy of each, named by its own
 * file's numbers. The joined file has the first's expanders, then the second's; the
 * cable is written as type 2, far address and far phy at both ends, in the frames as
 * they are, and no other bit of an expander changes. So the tables of the joined file
 * are those of the first, then those of the second.
 * Tests the causes of judging on the first file, then on the second, whose refusals
 * have the number of expanders of the first added to their expander; then 21 (a phy
 * that does not exist, is vacant, is not subtractive or is attached, or whose expander
 * has an attached subtractive phy); then judges the joined file, in its own numbers (3
 * for too many expanders, 4 or 8 for a device's address in both, 23); 16 last (fewer
 * bytes than the joined file has, which are both lengths less 2). Later bytes stay.
 * Answer: the bytes of the joined file.
 */
uint64_t metzurgo_join(uint32_t setting, const uint8_t *first,
                       size_t first_len, uint8_t first_expander,
                       uint8_t first_phy, const uint8_t *second,
                       size_t second_len, uint8_t second_expander,
                       uint8_t second_phy, uint8_t *out, size_t out_len);

/*
 * An exercise from its solution: makes the file of a rig of two expanders, with
 * these addresses, whose one table is the words. The first has one phy, a table
 * phy to the second, and as many route indexes as there are words. The second
 * has a subtractive phy to the first, then a direct phy for each word up to the
 * last that is not zero: its drive, or nothing for a zero word. The frames are
 * short, and all that is ignored is zero. Refuses with 24, place 0, 0, where no
 * such rig is accepted under METZURGO_WIDEST, whatever the second expander is:
 * an address is zero, or both are equal, or one of them is a word; there are more
 * than 65,535 words, or one at index 127 or later is not zero. Then 16 (fewer
 * bytes than the file has; METZURGO_LONGEST_EXERCISE are enough). Later bytes
 * stay. Answer: the bytes of the file.
 */
#define METZURGO_LONGEST_EXERCISE 6782
uint64_t metzurgo_make(uint64_t first, uint64_t second, const uint64_t *words,
                       size_t words_len, uint8_t *out, size_t out_len);

/*
 * A shelf: a software expander that its owner holds and the calls alter where it
 * is. Set aside METZURGO_SHELF_SIZE bytes (metzurgo_shelf_size answers the same),
 * aligned to 8, as in uint64_t shelf[METZURGO_SHELF_SIZE / 8], and give them any
 * value before the first call, as by clearing them. Every byte may hold
 * anything: phys past 16 and route indexes past 64 do not exist, a kind above 2
 * is no table phy, and a disable byte counts as set unless it is 0. A shelf of
 * zero bytes has no phys. The pointer to a shelf must not be NULL.
 */
#define METZURGO_SHELF_SIZE 9240
uint64_t metzurgo_shelf_size(void);

/*
 * Makes a fresh shelf: all its entries are zero and disabled. Refuses with 3, and
 * leaves the shelf, unless `phys` is 1 to 16, `indexes` (R) 0 to 64, `len` equal
 * to `phys`, and each kind one of METZURGO_SHELF_.... Answer: 0.
 */
uint64_t metzurgo_shelf_fresh(void *shelf, uint8_t phys, uint16_t indexes,
                              const uint8_t *kinds, size_t len);

/*
 * Obeys a CONFIGURE ROUTE INFORMATION request. Refuses what metzurgo_read_route
 * refuses (1, 2, 15). Answer, the function result: 10h no such phy, 16h a vacant
 * one, 11h no table phy or an index not below R, tested in this order; else 00h,
 * and the entry and its disable bit are replaced. No byte of the shelf changes
 * unless the answer is 00h.
 */
uint64_t metzurgo_shelf_obey(void *shelf, const uint8_t *frame, size_t len);

/* The address of an entry; 0 where there is none. */
uint64_t metzurgo_shelf_entry(const void *shelf, uint8_t phy, uint16_t index);

/* 1 where an entry is disabled, 0 where it is not, 2 where there is none. */
uint64_t metzurgo_shelf_disabled(const void *shelf, uint8_t phy,
                                 uint16_t index);

#ifdef __cplusplus
}
#endif

#endif
