/* Zagxuli for C and whoever calls C: plans of Btrfs extent changes, and applying them.
 *
 * A call reads what it is lent and writes what it says here, and nothing else: it touches no device, keeps nothing between calls,
 * allocates nothing, never aborts and, with stack enough (STACK), always returns. Every answer and every byte written is proved to be
 * what its definition says (crates/ffi/src/lib.rt, crates/ffi_apply/src/lib.rt). Calls on different memory may run at the same time.
 *
 * library/build makes target/staticlib/libzagxuli.a, for x86-64 Linux; link it, and nothing else but the C library.
 *
 * WHAT IS THE CALLER'S
 *
 * - Pointers. Each pointer is followed by its length in elements: bytes for uint8_t, numbers for uint64_t. It is good for that length,
 *   aligned for its element, and not null, even where the length is 0. What is not const overlaps nothing else that is lent. A bool
 *   is 0 or 1. The library can't check any of this.
 * - Stack, as much as STACK says. The library can't check this either.
 * - Writability, verity, file type, matching checksum flags, inode bytes, checksums, finding free space (places), and all writing:
 *   of the items, the sectors, the size. Only volumes with the no-holes feature are meant.
 *
 * RECORDS
 *
 * A list is one file's extent items, 70 bytes each, by rising key, at most 65,536. All numbers are little-endian:
 *
 *      0  8  file number        17  8  generation         35  2  other encoding           46  8  extent length
 *      8  1  key type, 108      25  8  ram bytes          37  1  kind: 0 inline,          54  8  position
 *      9  8  key offset         33  1  compression               1 regular,               62  8  length
 *                               34  1  encryption                2 preallocated
 *                                                         38  8  extent start
 *
 * Extent start 0 is an explicit hole. Position and length are the window into the extent. Of an inline record, and of one of a kind
 * over 2, only number, type, key offset and kind are looked at.
 *
 * shared: a byte for each record of `list`, 1 if its leaf is shared, else 0.
 *
 * The extents table has rows of five numbers, by rising start, at most 65,536: start, length, references, generation made, keyed
 * (0 or 1). Neither start nor length is 0; their sum is at most 2^64 - 1 and does not pass the next row's start.
 *
 * places: the starts of new extents, in the order wanted, exactly as many as the plan takes: one for each rewritten sector that no
 * preallocated item holds (a punch has at most two of these, a fallocate one, of the old end), then, for a fallocate, one for each
 * piece of each hole, a piece being at most 268,435,456 bytes long.
 *
 * A PLAN
 *
 *   edits     71 bytes each: 1 (put) or 2 (delete), then a record. By rising key. Of a delete the record has the file's number, 108,
 *             the key, and zeros.
 *   shares    2 numbers each: extent start, reference offset (key minus position, wrapping). One more reference.
 *   unrefs    2 numbers each, as shares. One reference less.
 *   releases  2 numbers each, as shares. One reference less, and the extent is free.
 *   adds      3 numbers each: extent start, length, key of the item that names it. A new extent, with one reference.
 *   writes    4 numbers each: the sector's file offset, the volume byte that it goes to, and the first and past-the-last file offset to
 *             zero. A whole sector is to be written; its other bytes are what the file read there before the plan, and
 *             zeros past the size that it had before the plan.
 *
 * An output holds as many whole records as fit in its length. Past the plan it keeps its bytes; without a plan, all of them. These
 * always suffice, for n records in `list`, m in `source` (n for a file cloned into itself) and p places, in records:
 *
 *               edits          shares       unrefs   releases   adds   writes
 *     punch,
 *     fallocate 3 n + p + 2    3 n + 2      2 n      n          p      2
 *     clone     3 n + m        n + m        2 n      n
 *
 * ANSWERS
 *
 * The byte returned is ZAG_PLAN, ZAG_NOTHING ("nothing to do", which differs from a plan without edits) or the number of a refusal.
 * With a plan, and only then, the first ZAG_NUMBERS of `answer` are how many records each output got, in the order of the outputs above
 * (of a clone adds and writes are 0), then the file's new size, its new byte count, and 1 where the inode is to be marked for
 * preallocation, else 0. Past them `answer` keeps its numbers.
 *
 * REFUSALS
 *
 * A refusal changes nothing.
 *
 *    1  a list or table of broken length or over-long; a shared byte not 0 or 1, or not one a record; applying: a count past its slice,
 *       a part of a plan of broken length, an edit that is neither put nor delete; a result of more than 65,536 records or rows
 *    2  a list that is not well kept: a record's number or type, a key offset that does not rise; of kinds 1 and 2, and only of these,
 *       a length of 0, key + length over 2^63, position + length over 2^64 - 1, two that overlap; a clone's source of the
 *       destination's number; applying: edits that do not rise by key, a result that is not well kept or not whole sectors
 *    3  a table whose rows are not as above; applying: a net count of references below 0 or over 2^64 - 1, a result whose rows are not
 *       as above
 *    4  the sector no power of two from 4,096 to 65,536, a size over 2^63 - 1, a key or length of kind 1 or 2 not whole sectors
 *    5  length zero (punch, fallocate)
 *    6  the range's end over 2^63 - 1; of a clone that in the destination
 *    7  an inline record
 *    8  a kind over 2
 *    9  an encrypted record, or one of another encoding
 *   10  fallocate: an explicit hole in the range rounded out to sectors
 *   11  fallocate: a regular item in that range whose key is at or past the size
 *   12  fallocate: holes of more bytes than the volume has
 *   13  the current generation is 2^64 - 1
 *   14  an extent has no row; applying: one that a share, unref or release names
 *   15  an extent with keyed references would be shared
 *   16  a sector of a regular item would be rewritten in a nodatacow file
 *   17  an uncompressed window (of a clone, what is copied of it) outside its extent, or its sums over 2^64 - 1; written in place: the
 *       sector, compressed or not
 *   18  written in place: other references than this file's items, an extent not made after the last snapshot, or a shared leaf
 *   19  clone: the start is past the source's end
 *   20  clone: the end is past the source's end
 *   21  clone: an offset that is not whole sectors
 *   22  clone: a length that is not whole sectors and ends short of the source's end
 *   23  clone: a partial sector inside the destination
 *   24  clone: the two ranges overlap in one file
 *   25  clone: it would grow a destination that has records and ends inside a sector
 *   26  not as many places as wanted; or one is 0, has no 64-bit end, or meets an extent of the table or another place
 *   27  an output or `answer` is too short; applying: no room behind the list or the table for the result
 *
 * A punch and a fallocate refuse 7, 8 and 9 of every record, wherever it lies. A clone refuses of the destination's records 7 and 8, of
 * every one; encodings are no refusal there. Of the source's it refuses 7 only if the clone starts at source offset 0; 8 of every
 * record; 9, 14, 17 and 15 only of one that overlaps what is cloned (its last sector whole), and 14, 17 and 15 only if it is no hole.
 *
 * ORDER
 *
 * Of several refusals that are due the first in this order is given. An `answer` of fewer than ZAG_NUMBERS numbers (zag_apply: of
 * fewer than 2) gives 27 before all else: nothing else is looked at. Where there is nothing to do, the call ends at "nothing". Numbers in
 * brackets are tested item by item: the first item that has a refusal counts, by key, for drops by extent start.
 *
 *   punch      1, 2, 3, 4, 5, 6, records (7, 8, 9), nothing, 13, splits (14, 15), rewritten sectors (16; in place 14, 17, 18), shares
 *              after the joins (14, 15), drops (14, 17), 26, 27
 *   fallocate  1, 2, 3, 4, 5, 6, records (7, 8, 9), items in the range (10, 11), 12, then as a punch from 13 on; never "nothing"
 *   clone      1, 2, 3, 4, 19, 20, 21, 22, nothing, 6, 23, 24, the destination's records (7, 8), 25, drops (14, 17), splits (14, 15),
 *              the source's records (7, 8, 9, 14, 17, 15), 13, 27
 *   applying   1, what is lent is broken or over-long; 2, the list, then the edits' order; 3, the table; 4, the sector, then the list's
 *              sectors; 1, an over-long result; 14; 3, a net count; 2, the list's result; 3, the table's result; 27
 *
 * A split is an item that is cut on both sides, a drop one that goes whole and whose extent is not written in place; neither is a hole.
 *
 * STACK
 *
 * Too little stack is no refusal but a crash: the call runs into the guard page, and the process gets a signal (SIGSEGV). Bytes that
 * suffice below the caller's frame, measured and rounded up, by how many are lent of what stands to the right:
 *
 *                     at most 1,024   at most 8,192        more
 *     zag_punch              50,000         560,000   2,200,000   records of `list`; with more than 1,024 rows at least 560,000
 *     zag_fallocate          50,000         560,000   2,200,000   places; with more than 1,024 rows at least 560,000
 *     zag_clone              20,000         560,000     560,000   records of `list`; with more than 1,024 rows 560,000
 *     zag_apply             200,000         430,000   2,300,000   adds, with at most 1,024 rows
 *                         1,350,000       1,600,000   3,500,000   adds, with more rows
 */
#ifndef ZAGXULI_H
#define ZAGXULI_H

#include <stdbool.h>
#include <stddef.h>
#include <stdint.h>

#ifdef __cplusplus
extern "C" {
#endif

enum {
    ZAG_PLAN = 0,     /* a plan; of zag_apply, it is applied */
    ZAG_NOTHING = 100 /* nothing to do */
};

enum { ZAG_RECORD = 70, ZAG_EDIT = 71 };                                         /* bytes */
enum { ZAG_ROW = 5, ZAG_REF = 2, ZAG_ADD = 3, ZAG_WRITE = 4, ZAG_NUMBERS = 9 }; /* numbers */

/* Punches a hole into [offset, offset + length). `sector`, the volume's bytes `total`, its current `generation` and `snapshot`, the
 * generation of its last snapshot, then the file's number, size and nodatacow. */
uint8_t zag_punch(uint64_t sector, uint64_t total, uint64_t generation, uint64_t snapshot, uint64_t number, uint64_t size, bool nodatacow,
                  uint64_t offset, uint64_t length,
                  const uint8_t *list, size_t list_len, const uint8_t *shared, size_t shared_len,
                  const uint64_t *table, size_t table_len, const uint64_t *places, size_t places_len,
                  uint8_t *edits, size_t edits_len, uint64_t *shares, size_t shares_len, uint64_t *unrefs, size_t unrefs_len,
                  uint64_t *releases, size_t releases_len, uint64_t *adds, size_t adds_len, uint64_t *writes, size_t writes_len,
                  uint64_t *answer, size_t answer_len);

/* Allocates [offset, offset + length) ahead; with `keep` the size stays, else it grows to the range's end where that is past it. */
uint8_t zag_fallocate(uint64_t sector, uint64_t total, uint64_t generation, uint64_t snapshot, uint64_t number, uint64_t size, bool nodatacow,
                      uint64_t offset, uint64_t length, bool keep,
                      const uint8_t *list, size_t list_len, const uint8_t *shared, size_t shared_len,
                      const uint64_t *table, size_t table_len, const uint64_t *places, size_t places_len,
                      uint8_t *edits, size_t edits_len, uint64_t *shares, size_t shares_len, uint64_t *unrefs, size_t unrefs_len,
                      uint64_t *releases, size_t releases_len, uint64_t *adds, size_t adds_len, uint64_t *writes, size_t writes_len,
                      uint64_t *answer, size_t answer_len);

/* Clones `length` bytes (0: to the source's end) from the source's offset `from` to the destination's offset `to`. With `own` the
 * file is its own source: source_number, source_size and source are not looked at. */
uint8_t zag_clone(uint64_t sector, uint64_t total, uint64_t generation, uint64_t snapshot, uint64_t number, uint64_t size,
                  uint64_t source_number, uint64_t source_size, bool own, uint64_t from, uint64_t to, uint64_t length,
                  const uint8_t *list, size_t list_len, const uint8_t *shared, size_t shared_len, const uint8_t *source, size_t source_len,
                  const uint64_t *table, size_t table_len,
                  uint8_t *edits, size_t edits_len, uint64_t *shares, size_t shares_len, uint64_t *unrefs, size_t unrefs_len,
                  uint64_t *releases, size_t releases_len,
                  uint64_t *answer, size_t answer_len);

/* Applies a plan, in place, to the first `items` records of the list and the first `rows` rows of the table: edits to the list;
 * shares, unrefs and releases move a row's references, a released row goes, an add makes a row (references 1, generation
 * `new_generation`, keyed 0). `new_generation` is 1 more than the current one. The lengths of list and table are with the room
 * behind them, which is not looked at; the parts' lengths are those of the plan alone (an output's records times their width), and have
 * no limit of their own. With ZAG_PLAN the first two of `answer` are the new counts of records and of rows; behind these list and table
 * keep what they held.
 *
 * A plan that a call above gave, applied to the list and the table that it was made from, may still be refused: with 1, the result
 * has more than 65,536 records or rows; with 3, a net count of references leaves 64 bits; with 27, too little room; with nothing else.
 * With a true table (each extent that an item of any file names has a row with its true total of references) 3 is only for a count
 * over 2^64 - 1. A plan that no planner made is applied or refused like any other. */
uint8_t zag_apply(uint64_t sector, uint64_t new_generation, uint64_t number, size_t items, size_t rows,
                  uint8_t *list, size_t list_len, uint64_t *table, size_t table_len,
                  const uint8_t *edits, size_t edits_len, const uint64_t *shares, size_t shares_len,
                  const uint64_t *unrefs, size_t unrefs_len, const uint64_t *releases, size_t releases_len,
                  const uint64_t *adds, size_t adds_len,
                  uint64_t *answer, size_t answer_len);

#ifdef __cplusplus
}
#endif
#endif
