/* Ovenknit: proved calls over a PFS floppy disk image (PFS\0, 512-byte blocks) in lent memory.
 *
 * Every call answers a number: 0 for done, else why it was refused. Nothing is kept between calls; only the image counts, and
 * for a report the totals that it is lent.
 *
 * What a call is lent
 *
 *   A slice is a pointer and a length in elements; an empty one may have any pointer. What a call may write must share no
 *   byte with anything else that it is lent; nothing else is asked of the caller but stack. Arguments may have any value.
 *
 *   image      the disk image, a run of bytes
 *   blocks     block table: at least as many entries as the image has blocks
 *   anodes     anode table: at least 3,444 entries
 *   directory  a directory's number: 5 for the root, else the anode that pfs_list gives for its entry
 *   name       the bytes of an entry's name, without a 0 at the end; a capital A to Z matches its small letter
 *
 * What it leaves
 *
 *   image   A refused call leaves every byte as it was. So do the calls that take a const image.
 *   tables  Every call that is lent tables checks the whole image first and fills both; 31 alone comes before the check and
 *           touches nothing at all. After 0 they are those of the image as the call left it, after 20 to 28, 32 and 40 those
 *           of the unchanged image: the block table holds each block's owner (the head anode of its chain, 65535 for blocks 0
 *           to 2, 65534 for anode blocks), the anode table each anode's chain head (0 for anode 0, free anodes, whose three
 *           fields are 0, and those that do not exist). Heads with a meaning of their own: 1 free blocks, 3 blocks to be
 *           freed, 4 bad blocks, 5 the root directory.
 *           1 to 4 touch no table. 5 to 17 leave both zeroed. Entries past the image's blocks and past 3,444 always keep
 *           their content.
 *
 * Stack
 *
 *   A thread with this much stack can make the call, whatever it is lent; deeper in a program this much must be left.
 *   Measured on x86-64 Linux, and rounded up.
 *
 *    32 KiB  pfs_format, pfs_widen, pfs_narrow
 *    96 KiB  pfs_check, pfs_summary, pfs_read, pfs_list, pfs_find, pfs_label, pfs_write, pfs_bitmap, pfs_bitmap_differs, pfs_report
 *   128 KiB  pfs_make, pfs_resize, pfs_remove, pfs_safe_make, pfs_safe_resize, pfs_safe_write, pfs_safe_remove
 *   192 KiB  pfs_compare, pfs_differences
 *
 * The numbers, in the order in which they are tried
 *
 *   31  the totals of a report take no further image (before anything else)
 *
 *    1  image size: not a multiple of 512, or under 5 or over 65,535 blocks
 *    2  a table is too short
 *
 *   Damage:
 *    3  the disk type is not PFS\0
 *    4  root block: first or last reserved, or the length of the disk's name
 *    5  an anode block: missing, out of place, wrong mark or sequence number
 *    6  one of the fixed anodes 0, 1, 2 and 5
 *    7  an anode is half cleared (its block is 0, its count or next is not), reaches past the end of the disk, or its next
 *       is not in use
 *    8  chains: two predecessors, no end, or a predecessor of 1, 3, 4 or 5
 *    9  free list: anode 2 not on it, or an extent on the wrong side of last reserved
 *   10  a block has two owners
 *   11  a block has no owner
 *   12  a directory's block or an entry in it
 *   17  two entries of a directory have the same name, capitals A to Z counted as small letters
 *   13  an entry's anode is under 6, missing, free, or not a chain's head
 *   14  an entry's anode is already named
 *   15  a file's chain does not hold as many blocks as its size needs
 *   16  a chain that no entry names
 *
 *   Other refusals:
 *   20  an argument is against the rules (format: last_reserved, anode_blocks or name_len; make: type, name or comment)
 *   21  the directory's number is not that of a directory
 *   22  the name or place is not there
 *   23  the name is already there
 *   24  a directory where a file is needed
 *   25  the directory is not empty
 *   26  offset + length is above the file's size
 *   27  no free block
 *   28  no free anode, and the anode table cannot grow: its 42 blocks are there, no block is free for another, or the call
 *       is a safe one, for which it never grows
 *   32  the buffer is too short for the block writes
 *   40  the buffer has not exactly as many bytes as the disk's bitmap
 *
 *   Settings files:
 *   50  the file is not of the form asked
 *   51  seconds that two bytes cannot hold
 *   52  the output buffer is too short
 *
 * Every call that is lent tables may answer 1 to 17; what else it may answer stands with it. The two calls that compare are
 * lent two images, each with its own tables, and say which of the two was refused.
 */
#ifndef PFS_H
#define PFS_H

#include <stddef.h>
#include <stdint.h>

#ifdef __cplusplus
extern "C" {
#endif

/* The numbers by name. */
enum pfs_refusal {
    PFS_DONE = 0,
    PFS_IMAGE_SIZE = 1,
    PFS_TABLE_SIZE = 2,
    PFS_DISK_TYPE = 3,
    PFS_ROOT_BLOCK = 4,
    PFS_ANODE_BLOCK = 5,
    PFS_FIXED_ANODE = 6,
    PFS_ANODE_RANGE = 7,
    PFS_CHAIN_LINKS = 8,
    PFS_FREE_LIST = 9,
    PFS_TWO_OWNERS = 10,
    PFS_NO_OWNER = 11,
    PFS_DIRECTORY_BLOCK = 12,
    PFS_ENTRY_ANODE = 13,
    PFS_NAMED_TWICE = 14,
    PFS_FILE_SIZE = 15,
    PFS_UNNAMED_CHAIN = 16,
    PFS_NAMES_ALIKE = 17,
    PFS_BAD_ARGUMENT = 20,
    PFS_NO_DIRECTORY = 21,
    PFS_NOT_FOUND = 22,
    PFS_ALREADY_THERE = 23,
    PFS_IS_DIRECTORY = 24,
    PFS_NOT_EMPTY = 25,
    PFS_PAST_END = 26,
    PFS_NO_FREE_BLOCK = 27,
    PFS_NO_FREE_ANODE = 28,
    PFS_REPORT_FULL = 31,
    PFS_WRITES_SIZE = 32,
    PFS_BITMAP_LENGTH = 40,
    PFS_NOT_OF_FORM = 50,
    PFS_TOO_LONG = 51,
    PFS_OUTPUT_SIZE = 52
};

/* The places of what calls hand back in fields. The last of each says how many there are. */
enum pfs_summary_field {
    PFS_SUMMARY_BLOCKS,
    PFS_SUMMARY_FREE,
    PFS_SUMMARY_FILES,
    PFS_SUMMARY_DIRECTORIES,
    PFS_SUMMARY_FIELDS
};

/* Of pfs_list and pfs_find. */
enum pfs_list_field {
    PFS_LIST_TYPE,
    PFS_LIST_ANODE,
    PFS_LIST_SIZE,
    PFS_LIST_DAY,
    PFS_LIST_MINUTE,
    PFS_LIST_TICK,
    PFS_LIST_PROTECTION,
    PFS_LIST_NAME,
    PFS_LIST_NAME_LENGTH,
    PFS_LIST_COMMENT,
    PFS_LIST_COMMENT_LENGTH,
    PFS_LIST_FIELDS
};

enum pfs_label_field {
    PFS_LABEL_LAST_RESERVED,
    PFS_LABEL_DAY,
    PFS_LABEL_MINUTE,
    PFS_LABEL_TICK,
    PFS_LABEL_PROTECTION,
    PFS_LABEL_NAME,
    PFS_LABEL_NAME_LENGTH,
    PFS_LABEL_FIELDS
};

enum pfs_bitmap_field { PFS_BITMAP_DIFFERS, PFS_BITMAP_PLACE, PFS_BITMAP_FIELDS };

/* Of pfs_compare. */
enum pfs_compare_field {
    PFS_COMPARE_REFUSED,
    PFS_COMPARE_KIND,
    PFS_COMPARE_FIRST,
    PFS_COMPARE_SECOND,
    PFS_COMPARE_DIFFERING,
    PFS_COMPARE_BYTE,
    PFS_COMPARE_BYTES,
    PFS_COMPARE_FIELDS
};

enum pfs_differences_field { PFS_DIFFERENCES_REFUSED, PFS_DIFFERENCES_COUNT, PFS_DIFFERENCES_FIELDS };

/* Kinds of differences. */
enum pfs_kind { PFS_ONLY_FIRST = 1, PFS_ONLY_SECOND = 2, PFS_BOTH = 3 };

/* What can differ in an entry that both have; the numbers are added up. */
enum pfs_differing {
    PFS_DIFFERING_TYPE = 1,
    PFS_DIFFERING_NAME = 2,
    PFS_DIFFERING_COMMENT = 4,
    PFS_DIFFERING_STAMPS = 8,
    PFS_DIFFERING_PROTECTION = 16,
    PFS_DIFFERING_SIZE = 32
};

/* The numbers of a difference in the buffer of pfs_differences: fields 1 to 6 of pfs_compare. */
#define PFS_DIFFERENCE 6

/* Of pfs_widen and pfs_narrow. */
enum pfs_settings_field { PFS_SETTINGS_BYTES, PFS_SETTINGS_KEY, PFS_SETTINGS_FIELDS };

/* Types of entries. */
#define PFS_FILE 253
#define PFS_DIRECTORY 2

/* The number of the root directory. */
#define PFS_ROOT 5

/* The entries that an anode table needs. */
#define PFS_ANODES 3444

/* What a number means, in words. */
static inline const char *pfs_words(uint32_t number)
{
    switch (number) {
    case PFS_DONE:
        return "done";
    case PFS_IMAGE_SIZE:
        return "the image is not a whole number of 512-byte blocks, or has fewer than 5 or more than 65,535 of them";
    case PFS_TABLE_SIZE:
        return "a table is too short";
    case PFS_DISK_TYPE:
        return "the disk type is not PFS\\0";
    case PFS_ROOT_BLOCK:
        return "the root block's reserved range or the length of the disk's name is wrong";
    case PFS_ANODE_BLOCK:
        return "an anode block is missing, out of place, or not marked as the one it should be";
    case PFS_FIXED_ANODE:
        return "one of the fixed anodes 0, 1, 2 and 5 is not as it must be";
    case PFS_ANODE_RANGE:
        return "an anode is half cleared, reaches past the end of the disk, or is followed by one that is not in use";
    case PFS_CHAIN_LINKS:
        return "the chains of anodes run together, never end, or run into a fixed one";
    case PFS_FREE_LIST:
        return "the free list does not pass through anode 2, or has blocks on the wrong side of last reserved";
    case PFS_TWO_OWNERS:
        return "a block has two owners";
    case PFS_NO_OWNER:
        return "a block has no owner";
    case PFS_DIRECTORY_BLOCK:
        return "a directory block or an entry in it breaks the rules";
    case PFS_ENTRY_ANODE:
        return "an entry names an anode that is under 6, missing, free, or not a chain's head";
    case PFS_NAMED_TWICE:
        return "two entries name the same anode";
    case PFS_FILE_SIZE:
        return "a file's chain does not hold as many blocks as its size needs";
    case PFS_UNNAMED_CHAIN:
        return "a chain is named by no entry that the root leads to";
    case PFS_NAMES_ALIKE:
        return "two entries of a directory have the same name, capitals A to Z counted as small letters";
    case PFS_BAD_ARGUMENT:
        return "an argument is against the rules: type, name, comment, or the shape of the disk to format";
    case PFS_NO_DIRECTORY:
        return "there is no such directory";
    case PFS_NOT_FOUND:
        return "the name or place is not there";
    case PFS_ALREADY_THERE:
        return "the name is already there";
    case PFS_IS_DIRECTORY:
        return "it is a directory, and a file is needed";
    case PFS_NOT_EMPTY:
        return "the directory is not empty";
    case PFS_PAST_END:
        return "the bytes asked for reach past the file's size";
    case PFS_NO_FREE_BLOCK:
        return "not enough blocks are free";
    case PFS_NO_FREE_ANODE:
        return "no anode is free, and the anode table cannot grow";
    case PFS_REPORT_FULL:
        return "the report takes no further disk: it has 100,000, or a sum above 10,000,000,000,000";
    case PFS_WRITES_SIZE:
        return "the buffer is too short for the block writes";
    case PFS_BITMAP_LENGTH:
        return "the bitmap has not as many blocks as the disk needs";
    case PFS_NOT_OF_FORM:
        return "not a settings file of the form asked for";
    case PFS_TOO_LONG:
        return "a time is longer than the old form can hold";
    case PFS_OUTPUT_SIZE:
        return "the output buffer is too short";
    default:
        return "unknown number";
    }
}

/* The check: 0 for an accepted image, else the first of 1 to 17 that applies, in the order above. */
uint32_t pfs_check(const uint8_t *image, size_t image_len, uint16_t *blocks, size_t blocks_len, uint16_t *anodes,
                   size_t anodes_len);

/* The check, and in fields: the disk's size in blocks, its free blocks, its files, its directories with the root. Four zeros
 * after a refusal. */
uint32_t pfs_summary(const uint8_t *image, size_t image_len, uint16_t *blocks, size_t blocks_len, uint16_t *anodes,
                     size_t anodes_len, uint32_t fields[4]);

/* Makes an empty disk of the whole image; all that it held is lost. It is lent no tables.
 *
 * last_reserved  the last block of the part where directories are put first, and data last
 * anode_blocks   how many blocks hold anodes at first, 82 in each; changes take more where they need them
 * name           the disk's name, bytes of any value
 * day, minute, tick, protection  the disk's stamp (days since 1 January 1978, minutes, ticks of 1/50 s) and protection bits
 *
 * Answers 1 if it applies; else 20 unless anode_blocks is 1 to 42, 3 + anode_blocks <= last_reserved < blocks of the image,
 * and name_len is 1 to 31; else 0. */
uint32_t pfs_format(uint8_t *image, size_t image_len, uint16_t last_reserved, uint16_t anode_blocks, const uint8_t *name,
                    size_t name_len, uint16_t day, uint16_t minute, uint16_t tick, uint16_t protection);

/* Reads out_len bytes of a file from offset on into out. A refused read leaves out as it was.
 * Answers also 21, 22, 24, 26. */
uint32_t pfs_read(const uint8_t *image, size_t image_len, uint16_t *blocks, size_t blocks_len, uint16_t *anodes,
                  size_t anodes_len, uint16_t directory, const uint8_t *name, size_t name_len, uint64_t offset, uint8_t *out,
                  size_t out_len);

/* The entry at a place of a directory, from 0 in the order of its blocks. In fields:
 *
 *    0 type (253 file, 2 directory)    4 minute                                8 name length
 *    1 anode                           5 tick                                  9 comment's offset in the image
 *    2 size (of a directory: any)      6 protection                           10 comment length
 *    3 day                             7 name's offset in the image
 *
 * Eleven zeros after a refusal. Answers also 21, 22. */
uint32_t pfs_list(const uint8_t *image, size_t image_len, uint16_t *blocks, size_t blocks_len, uint16_t *anodes,
                  size_t anodes_len, uint16_t directory, uint64_t place, uint32_t fields[11]);

/* The first entry with that name in a directory, in the fields of pfs_list. Eleven zeros after a refusal. Answers also 21,
 * 22. */
uint32_t pfs_find(const uint8_t *image, size_t image_len, uint16_t *blocks, size_t blocks_len, uint16_t *anodes,
                  size_t anodes_len, uint16_t directory, const uint8_t *name, size_t name_len, uint32_t fields[11]);

/* What the disk says of itself. In fields:
 *
 *    0 last reserved                   3 tick                                  5 name's offset in the image
 *    1 day                             4 protection                            6 name length
 *    2 minute
 *
 * Seven zeros after a refusal. */
uint32_t pfs_label(const uint8_t *image, size_t image_len, uint16_t *blocks, size_t blocks_len, uint16_t *anodes,
                   size_t anodes_len, uint32_t fields[7]);

/* Makes an empty file or directory.
 *
 * type     253 for a file, 2 for a directory
 * name     1 to 107 bytes, none of them 0, ':' or '/'
 * comment  0 to 79 bytes of any value
 * day, minute, tick, protection  the entry's stamp and protection bits, taken as they are
 *
 * Where no anode is free, the anode table grows by a block, which may be the one that a later step needs (27).
 *
 * Answers also 20, 21, 23, 27, 28. */
uint32_t pfs_make(uint8_t *image, size_t image_len, uint16_t *blocks, size_t blocks_len, uint16_t *anodes, size_t anodes_len,
                  uint16_t directory, uint8_t type, const uint8_t *name, size_t name_len, const uint8_t *comment,
                  size_t comment_len, uint16_t day, uint16_t minute, uint16_t tick, uint8_t protection);

/* Gives a file a size in bytes. Bytes that come new are 0; the stamp stays. Answers also 21, 22, 24, 27, 28. A size that no
 * disk can hold is refused by 27 or 28, whichever step fails first. Where an anode is needed and none is free, the anode
 * table grows by a block. Blocks go back in whole runs; 28 comes to a smaller size only where a run that the file's own
 * anodes cannot carry (part of an extent, or the blocks of its first anode) joins nothing on the free list, no anode is free,
 * and the table cannot grow. */
uint32_t pfs_resize(uint8_t *image, size_t image_len, uint16_t *blocks, size_t blocks_len, uint16_t *anodes,
                    size_t anodes_len, uint16_t directory, const uint8_t *name, size_t name_len, uint64_t size);

/* Replaces data_len bytes of a file from offset on; it never grows. The stamp stays. Answers also 21, 22, 24, 26. */
uint32_t pfs_write(uint8_t *image, size_t image_len, uint16_t *blocks, size_t blocks_len, uint16_t *anodes, size_t anodes_len,
                   uint16_t directory, const uint8_t *name, size_t name_len, uint64_t offset, const uint8_t *data,
                   size_t data_len);

/* Removes a file or an empty directory. Answers also 21, 22, 25, 28. Its blocks go back with its own anodes; only where an
 * extent of it lies across the last reserved block and no anode is free for the upper part, the anode table grows by a block,
 * or 28 comes if it cannot. */
uint32_t pfs_remove(uint8_t *image, size_t image_len, uint16_t *blocks, size_t blocks_len, uint16_t *anodes,
                    size_t anodes_len, uint16_t directory, const uint8_t *name, size_t name_len);

/* Safe changes, for a disk that is kept where the power may fail. Each does what the call without safe_ does to the tree, and
 * hands out the block writes that do it. Whoever makes these in their order on the place where the disk is kept, and sees to it
 * that all before the last have reached it when the last is made, may be cut off after any of them: what is there is accepted
 * by the check, and holds the old tree until the last write, which is the root block's, and the new tree from then on. None
 * before the last lands on a block that the old image has in use.
 *
 * A file that is resized or written takes all its blocks anew. So does the block of the directory whose bytes change, and every
 * anode block. The old ones are given back to the free list. The image is left as it is after all writes: every block that
 * none of them names keeps its bytes.
 *
 * writes  PFS_BLOCK_WRITE bytes for each block write: its number, in two bytes with the higher first, and its 512 bytes. No
 *         list has as many writes as the disk has blocks. A refusal leaves the buffer as it was, and what lies behind the
 *         list always stays.
 * count   how many block writes there are; 0 after a refusal
 *
 * Each answers what the call without safe_ answers, but 27 before any 28: exactly if fewer blocks are free than the change
 * takes, which are
 *
 *   make    1 for the entry, 1 for a new directory, and 1 for each anode block
 *   resize  those of the new size, 1 if the size differs, and 1 for each anode block
 *   write   those of the file, and 1 for each anode block
 *   remove  1 for the entry, and 1 for each anode block
 *
 * 28 if an anode is needed for a new entry, for a piece of the file or for a piece of free space, and none is free: the anode
 * table never grows. Then 32. */

/* The bytes of a block write. */
#define PFS_BLOCK_WRITE 514

/* As pfs_make. Answers also 20, 21, 23, 27, 28, 32. */
uint32_t pfs_safe_make(uint8_t *image, size_t image_len, uint16_t *blocks, size_t blocks_len, uint16_t *anodes,
                       size_t anodes_len, uint16_t directory, uint8_t type, const uint8_t *name, size_t name_len,
                       const uint8_t *comment, size_t comment_len, uint16_t day, uint16_t minute, uint16_t tick,
                       uint8_t protection, uint8_t *writes, size_t writes_len, uint32_t count[1]);

/* As pfs_resize. The same size takes all blocks anew too. Answers also 21, 22, 24, 27, 28, 32. */
uint32_t pfs_safe_resize(uint8_t *image, size_t image_len, uint16_t *blocks, size_t blocks_len, uint16_t *anodes,
                         size_t anodes_len, uint16_t directory, const uint8_t *name, size_t name_len, uint64_t size,
                         uint8_t *writes, size_t writes_len, uint32_t count[1]);

/* As pfs_write. No bytes take all blocks anew too. Answers also 21, 22, 24, 26, 27, 28, 32. */
uint32_t pfs_safe_write(uint8_t *image, size_t image_len, uint16_t *blocks, size_t blocks_len, uint16_t *anodes,
                        size_t anodes_len, uint16_t directory, const uint8_t *name, size_t name_len, uint64_t offset,
                        const uint8_t *data, size_t data_len, uint8_t *writes, size_t writes_len, uint32_t count[1]);

/* As pfs_remove. Answers also 21, 22, 25, 27, 28, 32. */
uint32_t pfs_safe_remove(uint8_t *image, size_t image_len, uint16_t *blocks, size_t blocks_len, uint16_t *anodes,
                         size_t anodes_len, uint16_t directory, const uint8_t *name, size_t name_len, uint8_t *writes,
                         size_t writes_len, uint32_t count[1]);

/* The disk's free space as the bitmap of the hard disk edition: a bitmap block of 1,024 bytes for every 8,096 blocks behind
 * last reserved, so none if last reserved is the last block. Each has the mark BM, from byte 8 its number from 0 in four
 * bytes, and from byte 12 on 253 longwords; all other bytes are 0. Numbers have the higher byte first. A set bit means that
 * the block is free. The highest bit of a longword comes first, and the first bit of all is that of the block behind last
 * reserved; bits past the last block are 0.
 *
 * A refused call leaves the buffer as it was. Answers also 40, unless bitmap_len is exactly the length. */
uint32_t pfs_bitmap(const uint8_t *image, size_t image_len, uint16_t *blocks, size_t blocks_len, uint16_t *anodes,
                    size_t anodes_len, uint8_t *bitmap, size_t bitmap_len);

/* Compares such a bitmap with the disk, byte by byte. In fields: 1 if some byte differs, and the place of the first that does;
 * zeros otherwise, and after a refusal. Answers also 40. */
uint32_t pfs_bitmap_differs(const uint8_t *image, size_t image_len, uint16_t *blocks, size_t blocks_len, uint16_t *anodes,
                            size_t anodes_len, const uint8_t *bitmap, size_t bitmap_len, uint32_t fields[2]);

/* Feeds an image to the totals of a shift report. Totals begin with 24 zeros, and are lent again with each image:
 *
 *   totals[0]         images that the check accepted
 *   totals[1] to [17] images that it refused under that number
 *   totals[18]        free blocks, summed over the accepted images, as are the others
 *   totals[19]        files
 *   totals[20]        directories, the root of each among them
 *   totals[21]        the longest run of free blocks of each
 *   totals[22]        files in more than one run of blocks
 *   totals[23]        the bytes of all files, by their sizes
 *
 * In disk: the image's own five numbers, in the order of totals[18] to [22]; zeros if the check refuses it. A run is a run of
 * block numbers, whatever anodes hold them and in whatever order. The mean file size is totals[23] bytes in totals[19] files.
 *
 * Answers what the check answers. An image that is refused adds to its number's count only. Answers 31, before any check, and
 * changes nothing, tables, totals and disk included, if the counts add up to 100,000 or more, or one of totals[18] to [23] is
 * above 10,000,000,000,000. Totals may hold anything. From 24 zeros the first 100,000 images are never answered 31, and in any
 * order they give the same totals. */
uint32_t pfs_report(const uint8_t *image, size_t image_len, uint16_t *blocks, size_t blocks_len, uint16_t *anodes,
                    size_t anodes_len, uint64_t totals[24], uint64_t disk[5]);

/* How two disks differ. Both calls are lent two images, each with its own tables. The first is checked, and only if it is
 * accepted the second; else the second's tables stay as they came. Neither image changes.
 *
 * Entries are matched by their paths, where the capitals A to Z are the same as small letters. An entry is in the list of
 * differences if only one of the disks has it, or if both have it and a field or a byte differs. First come the entries of
 * the first disk, directories breadth first from the root and entries in the order of their blocks; then those that only the
 * second has, in its own such order. A directory that one disk lacks is listed with everything below it. A path that is a
 * file here and a directory there is one difference with the type, without size and bytes; what lies below is in one disk
 * only.
 *
 * The list is empty exactly if both disks hold the same tree with the same fields and bytes. Not compared are the disk's name
 * and other root fields, its size, where things lie and their anodes, the order within a directory, bytes behind a file's
 * size, the size field of a directory, and pad bytes. */

/* The difference at a place of the list, from 0. In fields:
 *
 *    0 the image that was refused: 1, 2, or 0 for neither
 *    1 1 only in the first, 2 only in the second, 3 in both
 *    2 the byte of the first image where its entry begins, which is 16 before its name; 0 if it has none
 *    3 the same of the second image
 *    4 what differs, added up: 1 type, 2 name bytes, 4 comment, 8 stamps, 16 protection, 32 size (if both are files)
 *    5 of two files, the first byte that differs, from 0; past the end of the shorter one every byte does
 *    6 of two files, how many bytes differ; 5 is 0 where this is
 *
 * All seven are written by every call, 0 where they have no meaning. Answers what the check answers of the image that is
 * refused; else 22 past the last difference. */
uint32_t pfs_compare(const uint8_t *image, size_t image_len, uint16_t *blocks, size_t blocks_len, uint16_t *anodes,
                     size_t anodes_len, const uint8_t *second_image, size_t second_image_len, uint16_t *second_blocks,
                     size_t second_blocks_len, uint16_t *second_anodes, size_t second_anodes_len, uint64_t place,
                     uint32_t fields[7]);

/* The differences from a place of the list on, as many as out has room for, so that each image is checked once and not for
 * each of them. Each has six numbers, those of fields 1 to 6 of pfs_compare; only whole ones are put there. In fields:
 *
 *    0 the image that was refused: 1, 2, or 0 for neither
 *    1 how many differences were put into out: fewer than it has room for if these were the last
 *
 * Two disks have at most 6,876 differences. A refusal leaves out as it was, and what lies behind the differences always stays.
 * Answers what the check answers of the image that is refused, else 0. */
uint32_t pfs_differences(const uint8_t *image, size_t image_len, uint16_t *blocks, size_t blocks_len, uint16_t *anodes,
                         size_t anodes_len, const uint8_t *second_image, size_t second_image_len, uint16_t *second_blocks,
                         size_t second_blocks_len, uint16_t *second_anodes, size_t second_anodes_len, uint64_t place,
                         uint32_t *out, size_t out_len, uint32_t fields[2]);

/* Settings files. They stand outside any disk: these two calls are lent the file's bytes, and neither image nor tables.
 *
 * A file is a run of up to 512 records of the same form, each with a key above the one before it; the empty file has either
 * form. Numbers are big-endian and unsigned.
 *
 *    old record, 6 bytes: the mark "S1", a two-byte key, two bytes of seconds
 *    new record, 8 bytes: the mark "S2", a two-byte key, four bytes of seconds
 *
 * A conversion writes the same records in the other form to the front of out, and touches nothing past them. A refused one
 * leaves out as it was. In fields:
 *
 *    0 the bytes written, 0 after a refusal
 *    1 with 51 the first key whose seconds are above 65,535, else 0
 *
 * What one of them has written, the other turns back into the same bytes. */

/* The records that a settings file can have. */
#define PFS_SETTINGS 512

/* Old records to new ones, in need of 8 bytes for each. Answers 0, 50, 52. */
uint32_t pfs_widen(const uint8_t *file, size_t file_len, uint8_t *out, size_t out_len, uint32_t fields[2]);

/* New records to old ones, in need of 6 bytes for each. Answers 0, 50, 51, 52. */
uint32_t pfs_narrow(const uint8_t *file, size_t file_len, uint8_t *out, size_t out_len, uint32_t fields[2]);

#ifdef __cplusplus
}
#endif

#endif
