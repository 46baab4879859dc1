/*
 * lfat_disk.h: files on FAT16 cards with a TI-LFAT journal, on real disks.
 *
 * lfat.h works on a card in memory. Here a card is on a disk: an image file, a block device such as /dev/sdX, or a partition of
 * either. Each call is made by the proved library on the card in memory; its stores are then written to the disk in an order
 * that keeps the library's promise, with flushes where they must stand. So a power cut at any moment, of the card or of this
 * machine, leaves each file as it was or as it was to be, once the card is recovered.
 *
 * Example: save 3 bytes under a new name, on a card that may have been cut. The file is dated by the seconds since 1980 began, which
 * lfat_seconds of lfat.h makes of a date and time.
 *
 *     const uint8_t name[] = "ROUTE   CUT", data[] = "G0\n";
 *     uint32_t seconds = lfat_seconds(2026, 11, 17, 19, 30, 58);
 *     lfat_disk *disk;
 *     uint64_t answer = lfat_disk_open("/dev/sdX", 0, 0, &disk);
 *     if (LFAT_CODE(answer) == LFAT_DONE)
 *         answer = lfat_disk_recover(disk);
 *     if (LFAT_CODE(answer) == LFAT_DONE)
 *         answer = lfat_disk_create(disk, name, LFAT_NAME_BYTES, seconds);
 *     if (LFAT_CODE(answer) == LFAT_DONE)
 *         answer = lfat_disk_append(disk, name, LFAT_NAME_BYTES, data, 3, seconds);
 *     if (LFAT_CODE(answer) != LFAT_DONE)
 *         puts(lfat_disk_message());
 *     lfat_disk_close(disk);
 *
 * To save over the file later, in one operation:
 *
 *     answer = lfat_disk_replace(disk, name, LFAT_NAME_BYTES, data, 3, seconds);
 *
 * To give a new file a long name too, which other systems show:
 *
 *     answer = lfat_disk_create_long(disk, name, LFAT_NAME_BYTES, chars, chars_len, seconds);
 *
 * To make an empty card of 16,384 sectors (8 MB) on the disk, with 2 sectors per cluster and a log of 16 clusters, whatever is there:
 *
 *     answer = lfat_disk_format(disk, 16384, 2, 16);
 *
 * Link with liblfat_disk.a alone, which has the proved library in it (with a glibc before 2.34 also -lpthread -ldl). Linux on
 * x86-64. examples/save.c is a whole program.
 *
 * A call answers code * 2^32 + count, as in lfat.h: LFAT_CODE and LFAT_COUNT take it apart, and the codes up to 255 are those of
 * enum lfat_code. The codes of enum lfat_disk_code are the disk's. A call with any code but LFAT_DONE and LFAT_DISK_CUT has
 * written nothing.
 *
 * Memory: a call needs little more than the card's tables. An append or a replace by more than 16 MB works in a file without a
 * name, in TMPDIR or /var/tmp, of the size of its data; where there is no room for it, in memory.
 *
 * Handles: one card has one handle, in one program. Calls on one handle must not run at the same time; calls on different ones
 * may. A handle of NULL is answered with LFAT_DISK_ARGUMENT.
 */
#ifndef LFAT_DISK_H
#define LFAT_DISK_H

#include "lfat.h"

#ifdef __cplusplus
extern "C" {
#endif

/* An open card. */
typedef struct lfat_disk lfat_disk;

/* What a call answers beside the library's own codes; lfat_disk_message says more. */
enum lfat_disk_code {
    LFAT_DISK_ERROR = 256,     /* the disk could not be opened, locked or read; lfat_disk_errno has the reason */
    LFAT_DISK_CUT = 257,       /* a write or a flush failed in mid-save: close, open again, recover, or format again */
    LFAT_DISK_IN_USE = 258,    /* another program has the card, or it is mounted */
    LFAT_DISK_PARTITION = 259, /* there is no such partition, or none that holds a FAT16 card */
    LFAT_DISK_DISAGREE = 260,  /* the list of stores does not agree with the library's card: report this */
    LFAT_DISK_ENDED = 261,     /* an earlier call answered LFAT_DISK_CUT: close, open again, recover, or format again */
    LFAT_DISK_READ_ONLY = 262, /* the card was opened to be read; a file marked read-only is LFAT_LOCKED */
    LFAT_DISK_ARGUMENT = 263,  /* a pointer is NULL that must not be, or a flag is not known */
    LFAT_DISK_INTERNAL = 264   /* a fault of this library: report it; the handle answers LFAT_DISK_ENDED from now on */
};

/* Flags of lfat_disk_open. */
#define LFAT_DISK_TO_READ 1u /* to be read only; programs that read may share an image */
#define LFAT_DISK_WAIT 2u    /* wait while another program has the card, instead of answering LFAT_DISK_IN_USE */

/*
 * Opens a card. `path` is an image or a block device. `partition` is the number of a partition (MBR: 1 to 4, logical ones from
 * 5 on; GPT: the entry's number), or 0: then the whole disk is taken if it begins with the boot sector of a FAT16 card, else the
 * first partition that does. On LFAT_DONE `*disk` is the handle; on any other code it is NULL.
 * A block device is opened past the page cache and exclusively: one that is mounted is LFAT_DISK_IN_USE. An image is locked
 * (flock). What an earlier program has left in caches is flushed before the card is read.
 * What is no card is opened all the same: every call then answers the library's ground, such as LFAT_BOOT, but for lfat_disk_format.
 * A disk with partitions of which none holds a card is LFAT_DISK_PARTITION, unless `partition` says which is meant.
 */
uint64_t lfat_disk_open(const char *path, uint32_t partition, uint32_t flags, lfat_disk **disk);

/* Closes a card and frees the handle. NULL is allowed. Nothing is left to be written: each call has written all it had to. */
void lfat_disk_close(lfat_disk *disk);

/*
 * Calls that store. They answer as the calls of lfat.h do, and the count is the number of stores made. All but
 * lfat_disk_recover and lfat_disk_format ask for a clean card. When they answer LFAT_DONE, all is on the disk. Append, replace,
 * truncate, delete and rename refuse a file that is marked read-only (LFAT_LOCKED). `seconds` are those since 1980 began, by which
 * the file is dated; above LFAT_LAST_SECOND they are refused (LFAT_CLOCK). lfat.h says which dates are set, and what to do before an
 * update.
 */

/* Finishes what a power cut left behind, or takes it back. Call it after lfat_disk_open. */
uint64_t lfat_disk_recover(lfat_disk *disk);

/* Makes an empty file in the root directory. `name` is 8 and 3 bytes, filled up with spaces; name_len is 11. */
uint64_t lfat_disk_create(lfat_disk *disk, const uint8_t *name, size_t name_len, uint32_t seconds);

/*
 * Makes an empty file with a short name and a long one, of 1 to 208 characters of 16 bits, two bytes each, the low one first;
 * lfat.h says which are allowed. In one operation: after a cut and a recovery the file has both names, or is not there.
 */
uint64_t lfat_disk_create_long(lfat_disk *disk, const uint8_t *name, size_t name_len, const uint8_t *chars, size_t chars_len,
                               uint32_t seconds);

/* Adds bytes at the end of a file, in one operation: after a cut and a recovery all of them are there, or none. */
uint64_t lfat_disk_append(lfat_disk *disk, const uint8_t *name, size_t name_len, const uint8_t *data, size_t data_len,
                          uint32_t seconds);

/*
 * Saves over a file, in one operation: after a cut and a recovery it has its old bytes or these, whole. The old bytes keep their
 * clusters until then, so both need room (LFAT_NOSPACE). A name that is not there is refused (LFAT_ABSENT): create it first.
 */
uint64_t lfat_disk_replace(lfat_disk *disk, const uint8_t *name, size_t name_len, const uint8_t *data, size_t data_len,
                           uint32_t seconds);

/* Shortens a file to a size. One over the file's is refused (LFAT_LENGTH). */
uint64_t lfat_disk_truncate(lfat_disk *disk, const uint8_t *name, size_t name_len, uint64_t size, uint32_t seconds);

/*
 * Removes a file and frees its clusters. The entries of its long name, as other systems show it, are removed with it; lfat.h says
 * which belong to it.
 */
uint64_t lfat_disk_delete(lfat_disk *disk, const uint8_t *name, size_t name_len);

/* Gives a file another name. The file then has that name only: the entries of its long name are removed. */
uint64_t lfat_disk_rename(lfat_disk *disk, const uint8_t *old_name, size_t old_len, const uint8_t *new_name, size_t new_len);

/*
 * Writes an empty card of `total` sectors over whatever is there, a card with its files or none: no question is asked. lfat.h has the
 * usual numbers (lfat_format), and LFAT_SIZE for those of which there is no card; LFAT_WINDOW is a disk or a partition that has
 * fewer sectors. The boot sector is written first, as zeros, and again last, so that a cut in between leaves no card: calls answer
 * LFAT_BOOT, a partition has to be named to be opened, and lfat_disk_format is called again. The type of a partition is left alone.
 * The card can be used at once, by the same handle.
 */
uint64_t lfat_disk_format(lfat_disk *disk, uint32_t total, uint32_t per_cluster, uint32_t log_clusters);

/* Calls that read. They touch no byte of the buffer but those that they fill. */

/*
 * Copies a file's bytes from an offset on, as many as there are and fit. The count is the bytes copied, 0 past the end. A count
 * below buffer_len is the end of the file; with a full buffer there may be more: read on from offset + count.
 */
uint64_t lfat_disk_read(lfat_disk *disk, const uint8_t *name, size_t name_len, uint64_t offset, uint8_t *buffer,
                        size_t buffer_len);

/* Copies the root directory's entries, 32 bytes each, as lfat_list does, with their dates. The count is how many there are. */
uint64_t lfat_disk_list(lfat_disk *disk, uint8_t *buffer, size_t buffer_len);

/*
 * Copies the characters of a file's long name, two bytes each, as many as fit. The count is how many there are, 0 without a long
 * name; at most LFAT_LONG_CHARACTERS.
 */
uint64_t lfat_disk_long_name(lfat_disk *disk, const uint8_t *name, size_t name_len, uint8_t *buffer, size_t buffer_len);

/*
 * Tells whether so many bytes fit, as lfat_fits does: LFAT_DONE is yes, with the highest cluster that they would take as the count,
 * LFAT_NO is no. A new name also needs a free slot in the root directory (LFAT_ROOTFULL), which is not asked here.
 */
uint64_t lfat_disk_fits(lfat_disk *disk, uint64_t bytes);

/*
 * The count is how many sectors the disk or the partition has, whatever they hold; 4,294,967,295 if they are more. A card that is
 * formatted on it has no more than these.
 */
uint64_t lfat_disk_sectors(lfat_disk *disk);

/* About the last call of this thread that did not answer LFAT_DONE. */

/* The system's error number, as errno; 0 if there is none. */
int lfat_disk_errno(void);

/* What went wrong, in one line of English without a newline. It lasts until the next call of this thread. */
const char *lfat_disk_message(void);

#ifdef __cplusplus
}
#endif

#endif
