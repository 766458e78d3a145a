/* Girderpeach: random numbers by seed, block and length, each call proved against its contract.
 *
 * A generator is a saved form: bytes that the caller keeps, 256 for xoshiro256++ (eight lanes) and 104 for Philox4x32-10. The bytes are
 * the same on every machine, so a form can be stored, sent on and used elsewhere. The library keeps nothing between two calls.
 *
 * An answer is 0 or more, or minus the number of a refusal: the lowest that applies. A refused call changes no byte.
 *
 * The calling program may have set its floating-point environment as it likes (how to round, what to flush to zero, which exceptions are not
 * masked): the bytes are the same, and a call leaves it as it found it.
 *
 * What the library cannot know, and a caller has to see to:
 *   - `form` points to form_len bytes, `old` to old_len bytes and `out` to out_len bytes. Each may be null where its length is 0.
 *   - `jumps` and `first` point to a uint64_t and are not null: every accepted call writes it, and the proved function takes a place for
 *     one number.
 *   - What one call is handed does not overlap, and no other thread uses it during the call. Calls on different forms may run at once.
 */
#ifndef GIRDERPEACH_H
#define GIRDERPEACH_H

#include <stddef.h>
#include <stdint.h>

/* Lengths of the saved forms, in bytes. Numbers in them are little-endian.
 * xoshiro: 32 words of 8 bytes; word k of lane i (k 0 to 3, i 0 to 7) begins at byte 64 k + 8 i.
 * Philox: the key at byte 0 (its low 4 bytes, then its high 4), stream at 8, counter at 16, mark at 24 (1 if words wait, else 0), the eight
 * waiting words at 32 (zeros if none wait), and their number, the first block of the group of eight that they come from, at 96 (0 if none
 * wait). Up to version 0.1 a Philox form had 96 bytes, the same without the number: gp_philox_from_96 moves such a form. */
#define GP_XOSHIRO_FORM 256
#define GP_PHILOX_FORM 104
#define GP_PHILOX_FORM_96 96

/* Kinds of elements. An element is written little-endian, a float as its bits (IEEE 754). Elements are made in groups, and a draw is eight words
 * of 64 bits. A fill of n elements makes n / (elements of a group) groups, rounded up, and drops what the last one has over. So a fill may
 * be cut into several, with the same bytes, after any whole group. */
#define GP_U64 1        /* 8 bytes, groups of 8, 1 draw a group */
#define GP_U32 2        /* 4 bytes, groups of 16, 1 draw a group */
#define GP_F32 3        /* 4 bytes, groups of 16, 1 draw a group: uniform in [0, 1) */
#define GP_F64 4        /* 8 bytes, groups of 8, 1 draw a group: uniform in [0, 1) */
#define GP_NORMAL_F32 5 /* 4 bytes, groups of 16, 1 draw a group: standard normal */
#define GP_NORMAL_F64 6 /* 8 bytes, groups of 16, 2 draws a group: standard normal */
#define GP_OPEN01_F32 7 /* 4 bytes, groups of 16, 1 draw a group: uniform in (0, 1), never 0 and never 1: an odd number over 2^24 */
#define GP_OPEN01_F64 8 /* 8 bytes, groups of 8, 1 draw a group: uniform in (0, 1), never 0 and never 1: an odd number over 2^53 */

/* Refusals. A form of 256 or 104 bytes that these calls wrote, handed back whole and unchanged, is not refused. */
#define GP_REFUSED_FORM_LENGTH 1 /* form_len is not 256 (xoshiro) or 104 (Philox); in a move also: old_len is not 96 */
#define GP_REFUSED_MARK 2        /* a Philox form's mark is neither 0 nor 1, or it is 0 and a waiting byte or the number is not zero */
#define GP_REFUSED_ZERO_LANE 3   /* some lane of an xoshiro form has four zero words */
#define GP_REFUSED_KIND 4        /* the kind is none of the eight */
#define GP_REFUSED_OUT_LENGTH 5  /* out_len is not a multiple of the kind's bytes */
#define GP_REFUSED_GROUP 14      /* the waiting words of a Philox form are not the upper words of the group with its number */

#ifdef __cplusplus
extern "C" {
#endif

/* Fills `out` with elements of a kind and replaces `form` with the state after it. Answers the draws made.
 * Refuses with 1, 3, 4, 5. */
int64_t gp_xoshiro_fill(uint8_t *form, size_t form_len, uint64_t kind, uint8_t *out, size_t out_len);

/* The same for Philox. Refuses with 1, 2, 4, 5, 14. The label of the first draw is what gp_philox_label answers before the call. */
int64_t gp_philox_fill(uint8_t *form, size_t form_len, uint64_t kind, uint8_t *out, size_t out_len);

/* Writes the form of block `block` of `seed`: lane i is the seed's state after (8 block mod 2^64) + i jumps of
 * 2^128 steps each. Writes 8 block mod 2^64 to *jumps and answers 0. Refuses with 1, and then leaves *jumps as it was.
 * There are 2^61 blocks, 0 to 2^61 - 1: block 2^61 is block 0 again, and block b + 2^61 is block b, which is not refused. Every block is
 * reached in well under a millisecond. */
int64_t gp_xoshiro_new(uint64_t seed, uint64_t block, uint8_t *form, size_t form_len, uint64_t *jumps);

/* Moves every lane on by 8 n mod 2^64 jumps, writes that number to *jumps and answers 0. Refuses with 1, 3, and then leaves *jumps as
 * it was. */
int64_t gp_xoshiro_jump_blocks(uint8_t *form, size_t form_len, uint64_t n, uint64_t *jumps);

/* Moves the form on by `draws` draws, as if that many had been made, and answers 0. Refuses with 1, 3. However many they are, it takes
 * well under a millisecond. So draw n of block b, counted from 0 as the program deliver counts FIRST, is next after
 * gp_xoshiro_new(seed, b, ..) and gp_xoshiro_skip(.., n). */
int64_t gp_xoshiro_skip(uint8_t *form, size_t form_len, uint64_t draws);

/* Writes the form of stream `stream` of key `seed`, at block 0 with no words waiting, and answers 0. Refuses with 1. */
int64_t gp_philox_new(uint64_t seed, uint64_t stream, uint8_t *form, size_t form_len);

/* Makes `block` the next one, with no words waiting, and answers 0. Refuses with 1, 2, 14.
 * A seek counts blocks, and not draws: two draws, each of eight words, use eight blocks. Draw n of a stream, counted from 0 as the program
 * deliver counts FIRST, has for even n the lower words of the eight blocks from block 4 n on, and for odd n the upper words of those from
 * block 4 (n - 1) on. So a seek to block n does not lead to draw n, and workers that sought the numbers of their first draws would share
 * words: to start a worker at draw n, call gp_philox_skip(.., n) on a new form. */
int64_t gp_philox_seek(uint8_t *form, size_t form_len, uint64_t block);

/* Moves the form on by `draws` draws, as if that many had been made, and answers 0: words that wait are the first of them, and after it
 * words wait where they would after the draws. Refuses with 1, 2, 14. Takes about as long as one draw, however many they are.
 * Like a fill, it is not refused at the end of a stream: there the blocks begin again, and 2^62 draws lead back to the same words. */
int64_t gp_philox_skip(uint8_t *form, size_t form_len, uint64_t draws);

/* Answers the draws left before the block counter passes 2^64: 2 floor((2^64 - counter) / 8), and 1 more if words wait; at most 2^62 + 1.
 * Count the draws of the fills and skips that follow, up to the next seek, against one answer, and do not wait for 0, which may never come:
 * where the counter comes to 2^64 or passes it, it goes on modulo 2^64, and the answer is near 2^62 again. Refuses with 1, 2, 14. */
int64_t gp_philox_draws_left(const uint8_t *form, size_t form_len);

/* The label of the next draw: writes to *first the first block of the group that its words come from, and answers 0 if they are the lower
 * words of that group's eight blocks, 1 if they are the upper words, which wait. Refuses with 1, 2, 14, and then leaves *first as it
 * was. */
int64_t gp_philox_label(const uint8_t *form, size_t form_len, uint64_t *first);

/* Moves a form of 96 bytes to one of 104, and answers 0: the first 96 bytes are those of `old`; the number is counter - 8 modulo 2^64 if
 * words wait, else 0. Refuses with 1 (either length), 2, 14: with 14 where the waiting words are not the upper words of the group that
 * begins at that number. None of these calls leads to that; a program that made other calls between the two draws of a group may. */
int64_t gp_philox_from_96(const uint8_t *old, size_t old_len, uint8_t *form, size_t form_len);

/* Moves a form of 104 bytes to one of 96, and answers 0: the first 96 bytes; the number is dropped, whatever group it names. Refuses with 1
 * (either length), 2, 14. A form that gp_philox_from_96 made gives back the bytes that it was made from. */
int64_t gp_philox_to_96(const uint8_t *form, size_t form_len, uint8_t *old, size_t old_len);

#ifdef __cplusplus
}
#endif

#endif
