/*
 * The C functions of the static library libmijdegen.a.
 *
 * Every function gives an answer of 64 bits: a number plus 256 times a value. Number 0 means
 * that the call was done. Any other number says why it was refused; the value is then 0, so that
 * the answer equals the number. Take an answer apart with mijdegen_number and mijdegen_value.
 *
 * An input is a pointer and a length in bytes. It is read and never changed. An output is a
 * pointer and a length too, or a pointer to the 32 bytes of a digest or the 33 of a value. Where a
 * length is 0, the pointer is neither read nor written. An output must share no byte with an input
 * or with another output.
 *
 * A head is a pointer to a struct mijdegen_head, at an address that 4 divides, as compilers place
 * one. It is read and written, and must share no byte with an input or an output.
 *
 * The key rule: a key has 3 to 256 bytes, with just one slash and at least one byte on each side of
 * it. The other bytes are ASCII letters, digits, '.', '-', '_', ':' and '~'. The part before the
 * slash is the collection, the part after it the name. The name is neither "." nor "..": "a/." and
 * "a/.." break the rule, "a/..." and "./a" keep it.
 *
 * The value of a record is a codec and a SHA-256 digest, 33 bytes in which the codec goes first, and
 * says what the digest is the digest of: MIJDEGEN_RAW a raw file, MIJDEGEN_DAG_CBOR a record block.
 * In a register it is the seventh byte of the value's link, three bytes before the digest. Any 32
 * bytes are taken as the digest. Two values with equal digests and unlike codecs are unequal. The
 * greater of two values is the one with the greater digest, compared byte by byte from the first,
 * and at equal digests the one with the greater codec.
 *
 * Each call that takes a register judges it whole: its time grows with the register's length, and
 * a call for each of n records judges n times. A call uses up to 512 KiB of stack and no other
 * memory. Threads may call at the same time.
 */

#ifndef MIJDEGEN_H
#define MIJDEGEN_H

#include <stddef.h>
#include <stdint.h>

#ifdef __cplusplus
extern "C" {
#endif

/* The length in bytes of the longest register, of the longest path, and of the longest input of
 * digest and layer. */
#define MIJDEGEN_LONGEST 4194304

/* The length in bytes of the longest key. */
#define MIJDEGEN_LONGEST_KEY 256

/* The length in bytes of a digest. */
#define MIJDEGEN_DIGEST_LENGTH 32

/* The length in bytes of a value: a codec, then a digest. */
#define MIJDEGEN_VALUE_BYTES 33

/* The codecs of values: of a raw file, and of a record block. */
#define MIJDEGEN_RAW 0x55
#define MIJDEGEN_DAG_CBOR 0x71

/* How many records a screen has at most. */
#define MIJDEGEN_PER_SCREEN 8

/* A length in bytes that no screen exceeds: an output so long has room for every screen. */
#define MIJDEGEN_LONGEST_SCREEN 65536

/* The numbers of the refusals. */
enum mijdegen_refusal {
    /* A lent register or path, or the input of digest or layer, is longer than 4,194,304 bytes. */
    MIJDEGEN_TOO_LONG = 1,
    /* Each byte fits the page form, but the input ends while a byte or linked page is due. */
    MIJDEGEN_ENDS_EARLY = 2,
    /* A byte departs from the page form. */
    MIJDEGEN_DEPARTS = 3,
    /* Bytes follow the last linked page; in a path, the page where the search ends. */
    MIJDEGEN_BYTES_FOLLOW = 4,
    /* There are more than 4,096 records, given or resulting. */
    MIJDEGEN_TOO_MANY_RECORDS = 5,
    /* A prefix length is not the shared count. */
    MIJDEGEN_WRONG_PREFIX = 6,
    /* A key in a register, path or argument breaks the key rule, or a collection argument is the
     * part before the slash in no lawful key. */
    MIJDEGEN_UNLAWFUL_KEY = 7,
    /* A key is not greater than the key before it in tree order; in a path, within its page. */
    MIJDEGEN_KEYS_NOT_RISING = 8,
    /* The pages, their entries and their linked gaps are not those that the rules give for the
     * same keys. */
    MIJDEGEN_WRONG_TREE = 9,
    /* A link's digest is not that of its page. */
    MIJDEGEN_WRONG_DIGEST = 10,
    /* A value argument is not 33 bytes with codec 55 or 71 first, or a root digest is not 32
     * bytes. */
    MIJDEGEN_WRONG_VALUE = 11,
    /* The key is absent, for lookup and remove; no record lies at or after the key, for
     * at_or_after, or before it, for before. */
    MIJDEGEN_KEY_ABSENT = 12,
    /* The result is longer than the output, or than 4,194,304 bytes. */
    MIJDEGEN_NO_ROOM = 13,
    /* The first key is greater than the last. */
    MIJDEGEN_FIRST_AFTER_LAST = 14,
    /* A screen number is at or past the number of screens. */
    MIJDEGEN_NO_SUCH_SCREEN = 15,
    /* The digest of a path's page is not the one due: that of the root, or that in the link by
     * which the search goes on. */
    MIJDEGEN_PAGE_NOT_DUE = 16,
    /* A lent head is untrue of its register, in its count, its layer or its digest. */
    MIJDEGEN_UNTRUE_HEAD = 17
};

/*
 * The head of a register: one small record that a caller keeps beside it, so as not to count and
 * hash again. mijdegen_check writes it. mijdegen_put, mijdegen_join, mijdegen_remove and
 * mijdegen_merge are lent it and move it on to the register that they write. A head is true of a
 * register when all three fields are.
 */
struct mijdegen_head {
    /* The count of the records, from 0 to 4,096. */
    uint32_t count;
    /* The layer of the root: the highest layer of any key, and 0 where there are no records. */
    uint32_t layer;
    /* The SHA-256 digest of the root page, which is the first page of the register. */
    uint8_t digest[MIJDEGEN_DIGEST_LENGTH];
};

/* It has 40 bytes, so that none stand between the fields: otherwise this line does not compile. */
typedef char mijdegen_head_has_40_bytes[sizeof(struct mijdegen_head) == 40 ? 1 : -1];

/* The number of an answer: 0, or one of enum mijdegen_refusal. */
static inline unsigned mijdegen_number(uint64_t answer)
{
    return (unsigned)(answer & 255u);
}

/* The value of an answer: 0 where the call was refused. */
static inline uint64_t mijdegen_value(uint64_t answer)
{
    return answer >> 8;
}

/* The first number in a value that holds two, the first plus 2^24 times the second. */
static inline size_t mijdegen_first_of_two(uint64_t answer)
{
    return (size_t)(mijdegen_value(answer) & 0xffffffu);
}

/* The second number in a value that holds two. */
static inline size_t mijdegen_second_of_two(uint64_t answer)
{
    return (size_t)(mijdegen_value(answer) >> 24);
}

/*
 * Writes the SHA-256 digest of the input to the 32 bytes at out. Any bytes are taken, also none.
 *
 * The answer is 0, or MIJDEGEN_TOO_LONG where the input is longer than MIJDEGEN_LONGEST bytes;
 * then the 32 bytes at out are zeros.
 */
uint64_t mijdegen_digest(const uint8_t *input, size_t input_len,
                         uint8_t out[MIJDEGEN_DIGEST_LENGTH]);

/*
 * Gives the layer of the input: half the number of leading zero bits of its SHA-256 digest,
 * rounded down. Any bytes are taken, also none.
 *
 * The number of the answer is 0 and its value is the layer, from 0 to 128. The answer is
 * MIJDEGEN_TOO_LONG where the input is longer than MIJDEGEN_LONGEST bytes.
 */
uint64_t mijdegen_layer(const uint8_t *input, size_t input_len);

/*
 * Judges the key by the key rule, without a register, and says where its slash stands. Any bytes
 * are taken, also none.
 *
 * The number of the answer is 0 and its value is the number of bytes before the slash, from 1 to
 * 254. These bytes are the collection; the name is the bytes from value + 1 on. The answer is
 * MIJDEGEN_UNLAWFUL_KEY where the key breaks the key rule, however long it is.
 *
 * Its time is in proportion to the key, of which at most MIJDEGEN_LONGEST_KEY bytes are read.
 */
uint64_t mijdegen_slash(const uint8_t *key, size_t key_len);

/*
 * Checks the register and writes its head. What stood at head before is not read.
 *
 * The answer is 0. The answer of a refused register is one of 1 to 10, from MIJDEGEN_TOO_LONG to
 * MIJDEGEN_WRONG_DIGEST: the first that holds for the whole register, in this order; then the 40
 * bytes at head are zeros.
 */
uint64_t mijdegen_check(const uint8_t *reg, size_t reg_len, struct mijdegen_head *head);

/*
 * Looks for the record with the key.
 *
 * The number of the answer is 0 and its value is the place in the register, counted from 0, where
 * the 32 digest bytes of the record's value begin, plus 2^24 times its codec. Take it apart with
 * mijdegen_found_place and mijdegen_found_codec. Otherwise the answer is the number of
 * mijdegen_check for a refused register; then MIJDEGEN_UNLAWFUL_KEY where the key breaks the key
 * rule; then MIJDEGEN_KEY_ABSENT where no record has the key.
 */
uint64_t mijdegen_lookup(const uint8_t *reg, size_t reg_len, const uint8_t *key, size_t key_len);

/* The place of the digest in an answer of mijdegen_lookup or mijdegen_verify: 0 where the call was
 * refused or the key is absent. */
static inline size_t mijdegen_found_place(uint64_t answer)
{
    return mijdegen_first_of_two(answer);
}

/* The codec in an answer of mijdegen_lookup or mijdegen_verify: 0 where the call was refused or the
 * key is absent. */
static inline uint8_t mijdegen_found_codec(uint64_t answer)
{
    return (uint8_t)mijdegen_second_of_two(answer);
}

/*
 * Gives the n-th record in key order, n from 0. The key is written to out, with zeros after it up
 * to out_len bytes, and the value to the 33 bytes at value, its codec first.
 *
 * The number of the answer is 0 and its value is the length of the key, from 3 to
 * MIJDEGEN_LONGEST_KEY. From the count of the records on the value of the answer is 0: n is past
 * the end, whatever out_len is, and out and value are zeros. Otherwise the answer is the number
 * of mijdegen_check for a refused register; then MIJDEGEN_NO_ROOM where the key is longer than
 * out_len. On refusal out and value are zeros too.
 *
 * Each call judges the whole register again: to go through n records takes n times as long as one
 * mijdegen_check.
 */
uint64_t mijdegen_list(const uint8_t *reg, size_t reg_len, uint64_t n, uint8_t *out,
                       size_t out_len, uint8_t value[MIJDEGEN_VALUE_BYTES]);

/*
 * Gives the first record at or after the key: the key's own record where there is one, and else
 * the one with the next greater key. The key may be any lawful key, present or not. The record's
 * key is written to out, with zeros after it up to out_len bytes, and its value to the 33 bytes at
 * value, its codec first.
 *
 * The number of the answer is 0 and its value is the length of the record's key, from 3 to
 * MIJDEGEN_LONGEST_KEY. Otherwise the answer is the number of mijdegen_check for a refused
 * register; then MIJDEGEN_UNLAWFUL_KEY where the key breaks the key rule; then
 * MIJDEGEN_KEY_ABSENT where no record lies at or after the key; then MIJDEGEN_NO_ROOM where the
 * record's key is longer than out_len. On refusal out and value are zeros.
 */
uint64_t mijdegen_at_or_after(const uint8_t *reg, size_t reg_len, const uint8_t *key,
                              size_t key_len, uint8_t *out, size_t out_len,
                              uint8_t value[MIJDEGEN_VALUE_BYTES]);

/*
 * Gives the last record before the key, whether a record has the key itself or not. It is written
 * and answered as by mijdegen_at_or_after, with the same numbers in the same order:
 * MIJDEGEN_KEY_ABSENT where no record lies before the key.
 */
uint64_t mijdegen_before(const uint8_t *reg, size_t reg_len, const uint8_t *key, size_t key_len,
                         uint8_t *out, size_t out_len, uint8_t value[MIJDEGEN_VALUE_BYTES]);

/*
 * The seven functions below write a register. Its table stands at the start of out, with zeros
 * after it up to out_len bytes. The number of the answer is 0 and its value is the length of the
 * table; those of mijdegen_difference and mijdegen_screen hold more.
 *
 * Otherwise the answer is the first of these numbers that is due, and out is wholly zero:
 *
 *   - the number of mijdegen_check for the first register, 1 to 10;
 *   - MIJDEGEN_UNTRUE_HEAD where a head is lent and is not that of the first register;
 *   - the number of mijdegen_check for the second register, 1 to 10;
 *   - MIJDEGEN_UNLAWFUL_KEY where the key breaks the key rule; of two keys the first is judged
 *     before the last; also where the collection stands before the slash in no lawful key;
 *   - MIJDEGEN_FIRST_AFTER_LAST where the first key is greater than the last;
 *   - MIJDEGEN_NO_SUCH_SCREEN where n is at or past the number of screens;
 *   - MIJDEGEN_WRONG_VALUE where value_len is not MIJDEGEN_VALUE_BYTES, or the first byte at value
 *     is neither MIJDEGEN_RAW nor MIJDEGEN_DAG_CBOR;
 *   - MIJDEGEN_KEY_ABSENT where no record has the key to be removed;
 *   - MIJDEGEN_TOO_MANY_RECORDS where the result has more than 4,096 records;
 *   - MIJDEGEN_NO_ROOM where its table is longer than out_len, or than MIJDEGEN_LONGEST bytes.
 *
 * A result that equals the register is measured and written as any other. The inputs are never
 * written and may share bytes with each other. No byte of out may be a byte of an input: to change
 * a register, write the next one to another buffer.
 *
 * Four of the functions are lent a head: mijdegen_put, mijdegen_join, mijdegen_remove and
 * mijdegen_merge. It is the head of the register, and for mijdegen_merge that of the first one,
 * as mijdegen_check or the call before has left it. Where the call is done, it is the head of the
 * register at out afterwards; where the call is refused, it is as it was lent.
 */

/*
 * Writes the register of the records from the first key up to and including the last. The keys may
 * be any lawful keys, present or not. Equal keys give the register of the key's record alone, and
 * where no record lies between the keys the result is the empty register.
 */
uint64_t mijdegen_run(const uint8_t *reg, size_t reg_len, const uint8_t *first, size_t first_len,
                      const uint8_t *last, size_t last_len, uint8_t *out, size_t out_len);

/*
 * Gives the key the value, whether a record has the key already or not.
 */
uint64_t mijdegen_put(const uint8_t *reg, size_t reg_len, struct mijdegen_head *head,
                      const uint8_t *key, size_t key_len, const uint8_t *value, size_t value_len,
                      uint8_t *out, size_t out_len);

/*
 * Gives the key the value as mijdegen_put does; but where a record has the key already, the
 * greater of the two values is kept.
 */
uint64_t mijdegen_join(const uint8_t *reg, size_t reg_len, struct mijdegen_head *head,
                       const uint8_t *key, size_t key_len, const uint8_t *value, size_t value_len,
                       uint8_t *out, size_t out_len);

/*
 * Takes the record with the key away.
 */
uint64_t mijdegen_remove(const uint8_t *reg, size_t reg_len, struct mijdegen_head *head,
                         const uint8_t *key, size_t key_len, uint8_t *out, size_t out_len);

/*
 * Joins all records of the second register into the first, each as mijdegen_join does. What is
 * written is the same whichever of the two is the first.
 */
uint64_t mijdegen_merge(const uint8_t *first, size_t first_len, struct mijdegen_head *head,
                        const uint8_t *second, size_t second_len, uint8_t *out, size_t out_len);

/*
 * Writes the register of what the second register holds and the first does not: all records in
 * opened pages of the second that the first does not hold, key and value. A page of the second is
 * known when its digest is that of some page of the first, wherever it stands there; it is opened
 * when neither it nor a page above it is known. Where no two unequal pages of the two share a
 * digest, these are exactly the records of the second, key and value, that the first lacks.
 *
 * The value of the answer is the length of the table plus 2^24 times the number of opened pages.
 * Take it apart with mijdegen_difference_length and mijdegen_difference_opened.
 */
uint64_t mijdegen_difference(const uint8_t *first, size_t first_len, const uint8_t *second,
                             size_t second_len, uint8_t *out, size_t out_len);

/* The length of the table in an answer of mijdegen_difference: 0 where the call was refused. */
static inline size_t mijdegen_difference_length(uint64_t answer)
{
    return mijdegen_first_of_two(answer);
}

/* The number of opened pages in an answer of mijdegen_difference: 0 where it was refused. */
static inline size_t mijdegen_difference_opened(uint64_t answer)
{
    return mijdegen_second_of_two(answer);
}

/*
 * Writes the register of the records on one screen of a collection: those that stand from 8 * n to
 * 8 * n + 7 among the collection's records in key order, counted from 0. The records of a
 * collection are those whose keys have it before the slash. It has one screen for each
 * MIJDEGEN_PER_SCREEN of them, and one more for those that are left over; so each record stands on
 * just one of its screens. A collection without records has one screen, the empty register.
 *
 * The collection may be any that stands before the slash in some lawful key, present or not: from 1
 * to 254 bytes, also "." and "..". An output of MIJDEGEN_LONGEST_SCREEN bytes has room for every
 * screen. Each call judges the whole register again and writes at most 8 records.
 *
 * The value of the answer is the length of the table plus 2^24 times the number of screens. Take it
 * apart with mijdegen_screen_length and mijdegen_screen_count.
 */
uint64_t mijdegen_screen(const uint8_t *reg, size_t reg_len, const uint8_t *collection,
                         size_t collection_len, uint64_t n, uint8_t *out, size_t out_len);

/* The length of the table in an answer of mijdegen_screen: 0 where the call was refused. */
static inline size_t mijdegen_screen_length(uint64_t answer)
{
    return mijdegen_first_of_two(answer);
}

/* The number of screens in an answer of mijdegen_screen: 0 where the call was refused. */
static inline size_t mijdegen_screen_count(uint64_t answer)
{
    return mijdegen_second_of_two(answer);
}

/*
 * Writes the path of the key: the pages that a search for the key opens, one after the other. The
 * search opens the root page, goes on by the link of the gap where the key would stand, and ends
 * when the key is an entry or that gap has no link. The key may be any lawful key, present or not.
 *
 * The path stands at the start of out, with zeros after it up to out_len bytes. The number of the
 * answer is 0 and its value is the length of the path, which is never longer than the register.
 * Otherwise the answer is the number of mijdegen_check for a refused register; then
 * MIJDEGEN_UNLAWFUL_KEY where the key breaks the key rule; then MIJDEGEN_NO_ROOM where the path is
 * longer than out_len. On refusal out is wholly zero.
 */
uint64_t mijdegen_path(const uint8_t *reg, size_t reg_len, const uint8_t *key, size_t key_len,
                       uint8_t *out, size_t out_len);

/*
 * Says by the pages of a path whether the key is present in the register of a root digest, and with
 * which value. No register is needed. The path holds just the pages that a search for the key
 * opens, as mijdegen_path writes them. The root digest stands in the register's head: it is that of
 * the root page, which is the first page of the register and of every path from it.
 *
 * The number of the answer is 0. Its value is 0 where the key is absent, and else the place in the
 * path, counted from 0, where the 32 digest bytes of the key's value begin, plus 2^24 times its
 * codec; take it apart as that of mijdegen_lookup. Otherwise the answer is MIJDEGEN_TOO_LONG where
 * the path is longer than MIJDEGEN_LONGEST bytes; then MIJDEGEN_UNLAWFUL_KEY where the key breaks
 * the key rule; then MIJDEGEN_WRONG_VALUE where root_len is not MIJDEGEN_DIGEST_LENGTH. Then each
 * page in turn is judged by these numbers:
 *
 *   - MIJDEGEN_ENDS_EARLY where the path ends while a byte of the page is due, or MIJDEGEN_DEPARTS
 *     where a byte departs from the page form, whichever comes first;
 *   - MIJDEGEN_WRONG_PREFIX, then MIJDEGEN_UNLAWFUL_KEY, then MIJDEGEN_KEYS_NOT_RISING, by the keys
 *     of the page;
 *   - MIJDEGEN_PAGE_NOT_DUE where the digest of the page is not the one due.
 *
 * Only then does the search say whether another page is due; of a 130th page the first byte
 * departs. The answer is MIJDEGEN_BYTES_FOLLOW where bytes are left when the search ends.
 *
 * The verdict agrees with mijdegen_lookup in every register of that root digest, provided no two
 * unequal pages of the path and the register share a digest. With its key and its register's root
 * digest, every path that mijdegen_path writes is accepted. The time grows with path_len, whatever
 * register the path is from.
 */
uint64_t mijdegen_verify(const uint8_t *path, size_t path_len, const uint8_t *key, size_t key_len,
                         const uint8_t *root, size_t root_len);

#ifdef __cplusplus
}
#endif

#endif
