/*
 * lfat.h: a FAT16 writer that survives power cuts, with a TI-LFAT journal on the card.
 *
 * The card is a window of bytes in memory. Every change is a store of one whole sector of 512 bytes.
 * The calls keep no state between them, allocate nothing and touch nothing but what they are lent.
 *
 * Example: save 3 bytes under a new name, on a card that may have been cut. The file is dated 17 November 2026, 19:30:58.
 *
 *     const uint8_t name[] = "ROUTE   CUT", data[] = "G0\n";
 *     uint32_t seconds = lfat_seconds(2026, 11, 17, 19, 30, 58);
 *     uint64_t answer = lfat_recover(card, card_len, LFAT_NO_LIMIT);
 *     if (LFAT_CODE(answer) == LFAT_DONE)
 *         answer = lfat_create(card, card_len, name, LFAT_NAME_BYTES, seconds, LFAT_NO_LIMIT);
 *     if (LFAT_CODE(answer) == LFAT_DONE)
 *         answer = lfat_append(card, card_len, name, LFAT_NAME_BYTES, data, 3, seconds, LFAT_NO_LIMIT);
 *     if (LFAT_CODE(answer) != LFAT_DONE)
 *         puts(lfat_code_name(LFAT_CODE(answer)));
 *
 * Example: the seconds from a clock that C knows, in local time, as people read the dates of a card.
 *
 *     time_t now = time(NULL);
 *     const struct tm *t = localtime(&now);
 *     uint32_t seconds = lfat_seconds(t->tm_year + 1900, t->tm_mon + 1, t->tm_mday, t->tm_hour, t->tm_min, t->tm_sec);
 *
 * Example: replace a file's bytes, or save them under a new name where there is none.
 *
 *     uint64_t answer = lfat_replace(card, card_len, name, LFAT_NAME_BYTES, data, data_len, seconds, LFAT_NO_LIMIT);
 *     if (LFAT_CODE(answer) == LFAT_ABSENT) {
 *         answer = lfat_create(card, card_len, name, LFAT_NAME_BYTES, seconds, LFAT_NO_LIMIT);
 *         if (LFAT_CODE(answer) == LFAT_DONE)
 *             answer = lfat_append(card, card_len, name, LFAT_NAME_BYTES, data, data_len, seconds, LFAT_NO_LIMIT);
 *     }
 *
 * Each call is one operation: after a cut and a recovery a file that was replaced has its old bytes or the new ones,
 * whole. A new file takes two calls: after a cut there is no such file, an empty one, or the whole one.
 *
 * Example: ask whether data_len bytes fit before they are saved, as a screen does that lays out panels. Nothing is stored.
 *
 *     uint64_t answer = lfat_fits(card, card_len, data_len);
 *     if (LFAT_CODE(answer) == LFAT_DONE)
 *         puts("fits");
 *     else if (LFAT_CODE(answer) == LFAT_NO)
 *         puts("does not fit");
 *     else
 *         puts(lfat_code_name(LFAT_CODE(answer)));
 *
 * Example: a file with a long name, and the name read back. Characters are 16 bits each, lent as bytes, the low one first.
 *
 *     const uint8_t chars[] = {'P', 0, 'o', 0, 'r', 0, 't', 0, ' ', 0, '7', 0};
 *     uint8_t text[2 * LFAT_LONG_CHARACTERS];
 *     uint64_t answer = lfat_create_long(card, card_len, name, LFAT_NAME_BYTES, chars, sizeof chars, seconds, LFAT_NO_LIMIT);
 *     if (LFAT_CODE(answer) == LFAT_DONE)
 *         answer = lfat_long_name(card, card_len, name, LFAT_NAME_BYTES, text, sizeof text);
 *
 * The count is then 6, and the first 12 bytes of text are those of chars.
 *
 * Example: make an empty card of 16,384 sectors (8 MB), with 2 sectors per cluster and a log of 16 clusters, whatever was there before.
 *
 *     uint64_t answer = lfat_format(card, card_len, 16384, 2, 16, LFAT_NO_LIMIT);
 *     if (LFAT_CODE(answer) != LFAT_DONE)
 *         puts(lfat_code_name(LFAT_CODE(answer)));
 *
 * What is asked of the caller:
 *  - each pointer is good for the length beside it (a part of length 0 may have any pointer);
 *  - what a call writes overlaps nothing else that it is lent: that is the card, or the buffer of lfat_read, lfat_list and
 *    lfat_long_name. Parts that are only read may overlap: a name may lie in the card that is read, or in the data;
 *  - the window is the whole card, from its boot sector on; bytes after its last sector are not touched;
 *  - nobody else writes to the card during a call, nor between a cut and the end of recovery.
 * Anything else may be wrong: a damaged card, a bad name or a length out of range is refused. lfat_format takes a window with any bytes.
 *
 * What the window has to be, for a power cut to leave the old file or the new one:
 *  - hardware on which the store of a sector happens wholly or not at all, and the stores in the order in which
 *    they are made; or
 *  - memory that holds the card, whose stores are then put on the card in that order: lfat_disk.h does so for
 *    images and block devices. A file that is mapped into memory is not enough: the system writes it in any order.
 *
 * Dates. Create, append, replace and truncate take the time as seconds since 1980 began, and date the file by it. A new file gets all
 * its dates and times from it, the tenths of its creation are 0; append, replace and truncate set time and date of writing and the date
 * of access. Appending no bytes and truncating to the present size set none; a replace always does. A card holds even seconds: an
 * odd one becomes the one before. Delete and rename take no time and leave dates as they are. A card has no time zone; people
 * expect local time. After LFAT_LAST_SECOND a time is refused (LFAT_CLOCK), also where nothing would be stored.
 *
 * The router's clock. If it shows a date and a time, lfat_seconds makes the number of them. If it counts seconds from another moment,
 * take off those up to 1980: 315532800 of a clock that counts from 1970 in local time. A machine without a clock passes 0, which is 1
 * January 1980; so may one whose clock was never set, for which lfat_seconds gives a number that is refused.
 *
 * Before an update from a library without dates: recover all cards with the old library. Its log records have no date, so a save
 * that is pending from before the update is LFAT_RECORD to this one, and so is a new one to the old. Finished ones do no harm.
 *
 * Reading. A read copies what fits. It does not say whether there is more, so a count equal to the buffer's length
 * is not the end of the file. Lend one byte more than the longest file that is taken; a count below that is a whole file:
 *
 *     static uint8_t path[LONGEST + 1];
 *     uint64_t answer = lfat_read(card, card_len, name, LFAT_NAME_BYTES, 0, path, sizeof path);
 *     if (LFAT_CODE(answer) == LFAT_DONE && LFAT_COUNT(answer) < sizeof path)
 *         use(path, LFAT_COUNT(answer));
 *
 * Or read on until a count is below the piece's length. Every call asks all grounds of the card anew and follows the
 * file's clusters from the first, so take large pieces (docs/BENCH.md has what small ones cost):
 *
 *     static uint8_t piece[65536];
 *     uint64_t answer, offset = 0;
 *     do {
 *         answer = lfat_read(card, card_len, name, LFAT_NAME_BYTES, offset, piece, sizeof piece);
 *         use(piece, LFAT_COUNT(answer));
 *         offset += LFAT_COUNT(answer);
 *     } while (LFAT_CODE(answer) == LFAT_DONE && LFAT_COUNT(answer) == sizeof piece);
 *
 * The machine. The library, liblfat.a, is for x86-64 in ELF files, under the System V calling convention:
 *  - it needs these functions of C, and nothing else: memcpy, memmove, memset;
 *  - it uses the SSE registers and the red zone, the 128 bytes below the stack pointer: what interrupts a call on
 *    its own stack must leave both alone;
 *  - it has no variables of its own, so calls on different cards may run in parallel, and calls that read on one card;
 *  - it needs at most so many bytes of stack, return address and red zone included:
 *    lfat_list 512, lfat_read 512, lfat_fits 512, lfat_long_name 1024, lfat_format 1024, lfat_recover 3072, lfat_create 3072,
 *    lfat_create_long 3072, lfat_rename 3072, lfat_truncate 4096, lfat_delete 4096, lfat_append 4096, lfat_replace 4096.
 *
 * examples/loader.c is a whole program.
 */
#ifndef LFAT_H
#define LFAT_H

#include <stddef.h>
#include <stdint.h>

#ifdef __cplusplus
extern "C" {
#endif

/*
 * An answer is code * 2^32 + count. The count is the stores made, the bytes read, the entries or characters there are or lfat_fits'
 * cluster.
 */
#define LFAT_CODE(answer) ((uint32_t)((uint64_t)(answer) >> 32))
#define LFAT_COUNT(answer) ((uint32_t)((uint64_t)(answer) & 0xFFFFFFFFu))

/* The limit that cuts nothing. A smaller one stops a call after so many stores, as a power cut would. */
#define LFAT_NO_LIMIT UINT32_C(0xFFFFFFFF)

/* Bytes of a sector, of a name (8 and 3, filled up with spaces) and of an entry that lfat_list copies. */
#define LFAT_SECTOR_BYTES 512
#define LFAT_NAME_BYTES 11
#define LFAT_ENTRY_BYTES 32

/* The most characters of a long name that lfat_create_long takes, and that lfat_long_name finds on a card. */
#define LFAT_NEW_CHARACTERS 208
#define LFAT_LONG_CHARACTERS 260

/* The last second that a card can date, counted from 0 as 1980 began: 31 December 2107, 23:59:59. */
#define LFAT_LAST_SECOND UINT32_C(4039286399)

/*
 * The codes. 1 to 19 are the grounds of a refusal. They are asked in the order of their numbers, but for LFAT_LOCKED, which is
 * asked right after LFAT_DIRECTORY, LFAT_LONGNAME, right after LFAT_NAME, and LFAT_CLOCK, right after LFAT_UNCLEAN; the first that
 * holds is answered. lfat_format asks LFAT_SIZE, then LFAT_WINDOW, and nothing else. A refused call has stored nothing and altered no
 * byte; its count is 0.
 */
enum lfat_code {
    LFAT_DONE = 0,       /* all stores were made; for read and list: success; for lfat_fits: yes */
    LFAT_SHORT = 1,      /* the window has fewer than 512 bytes, less than a boot sector */
    LFAT_BOOT = 2,       /* the boot sector is not that of a FAT16 card that is covered */
    LFAT_WINDOW = 3,     /* the window has fewer bytes than the card's total sectors */
    LFAT_LOGAREA = 4,    /* FAT1 has no log, more than one, or one of over 128 sectors */
    LFAT_ROOT = 5,       /* a root slot after the first unused one is in use */
    LFAT_RECORD = 6,     /* the pending log records are not one group of this library: see the note on updates above */
    LFAT_UNCLEAN = 7,    /* a log record is pending or the FATs differ: call lfat_recover first */
    LFAT_NAME = 8,       /* a name is not 11 bytes or breaks the rule for names */
    LFAT_ABSENT = 9,     /* no file has the name */
    LFAT_DIRECTORY = 10, /* the name is that of a directory */
    LFAT_EXISTS = 11,    /* the name is taken; for lfat_create_long the short name or the long one */
    LFAT_ROOTFULL = 12,  /* the root directory has no free slot, for a long name no long enough run of them */
    LFAT_CHAIN = 13,     /* the file's clusters do not fit its size */
    LFAT_LENGTH = 14,    /* truncate was asked for more than the present size */
    LFAT_NOSPACE = 15,   /* the card has too few free clusters */
    LFAT_LOCKED = 16,    /* the file is marked read-only (append, replace, truncate, delete, rename by its old name) */
    LFAT_LONGNAME = 17,  /* the characters are an odd number of bytes, not 1 to 208, or one of them is forbidden */
    LFAT_CLOCK = 18,     /* the seconds exceed LFAT_LAST_SECOND (create, create_long, append, replace, truncate) */
    LFAT_SIZE = 19,      /* no card has the numbers that lfat_format was given */
    LFAT_NO = 254,       /* lfat_fits: no, so many bytes do not fit */
    LFAT_STOPPED = 255   /* the limit ended the call before its last store: recover before anything else; a format is made again */
};

/* A code's name, such as "UNCLEAN". */
static inline const char *lfat_code_name(uint32_t code)
{
    static const char *const names[] = {
        "DONE", "SHORT", "BOOT", "WINDOW", "LOGAREA", "ROOT", "RECORD", "UNCLEAN",
        "NAME", "ABSENT", "DIRECTORY", "EXISTS", "ROOTFULL", "CHAIN", "LENGTH", "NOSPACE", "LOCKED", "LONGNAME", "CLOCK",
        "SIZE"};
    if (code < sizeof names / sizeof names[0])
        return names[code];
    if (code == LFAT_NO)
        return "NO";
    return code == LFAT_STOPPED ? "STOPPED" : "unknown";
}

/*
 * The seconds since 1980 began at a date and time of the calendar: months and days from 1 on, as people write them; a leap second, 60,
 * counts as 59. What is no such date or time, or is before 1980 or after 2107, gives a number that the calls refuse (LFAT_CLOCK).
 */
static inline uint32_t lfat_seconds(int year, int month, int day, int hour, int minute, int second)
{
    static const int before[] = {0, 31, 59, 90, 120, 151, 181, 212, 243, 273, 304, 334, 365};
    int is_leap, days;
    if (year < 1980 || year > 2107 || month < 1 || month > 12 || day < 1 || hour < 0 || hour > 23 || minute < 0 || minute > 59 ||
        second < 0 || second > 60)
        return UINT32_C(0xFFFFFFFF);
    is_leap = year % 4 == 0 && year != 2100;
    if (day > before[month] - before[month - 1] + (is_leap && month == 2))
        return UINT32_C(0xFFFFFFFF);
    /* Every fourth year before this one, from 1980 on, had a leap day, but for 2100. */
    days = 365 * (year - 1980) + (year - 1977) / 4 - (year > 2100) + before[month - 1] + (is_leap && month > 2) + day - 1;
    return (uint32_t)days * 86400u + (uint32_t)(hour * 3600 + minute * 60 + (second < 60 ? second : 59));
}

/*
 * Calls that store. All but lfat_recover and lfat_format ask for a clean card. The count is the number of stores made. `seconds` are
 * those since 1980 began; the file is dated by them (see above).
 * A cut in mid-call leaves a card that lfat_recover brings to the state before the call or after it; lfat_format has its own rule.
 * A file that is marked read-only, as other systems do, is not changed: append, replace, truncate, delete and rename refuse it
 * (LFAT_LOCKED), also where they would store nothing. No call sets the mark or takes it away.
 *
 * Long names, as other systems show them, stand in entries of their own before a file's entry. lfat_delete and lfat_rename mark
 * those that belong to the file as deleted, in the same operation, so that none are left behind. They belong to it if they
 * stand directly before it, all with attributes 0x0F (the whole byte), order numbers 1, 2, 3 going back, bit 0x40 set on the
 * last of these only, and at offset 13 the checksum of its 11 name bytes. If any of that fails, or there are over 20, none
 * belong, and all stay as they are. lfat_create_long writes such entries. The other calls leave long names alone: a file that is
 * appended to, replaced or truncated keeps its own.
 */

/*
 * Finishes what a power cut left behind, or takes it back. Call it at power-up, until it answers LFAT_DONE. A save that it finishes
 * keeps the date that it was begun with.
 */
uint64_t lfat_recover(uint8_t *card, size_t card_len, uint32_t limit);

/* Makes an empty file in the root directory. */
uint64_t lfat_create(uint8_t *card, size_t card_len, const uint8_t *name, size_t name_len, uint32_t seconds, uint32_t limit);

/*
 * Makes an empty file with a short name, by which all other calls find it, and a long one of 1 to 208 characters of 16 bits. `chars`
 * has two bytes for each, the low one first. Forbidden (LFAT_LONGNAME) are those below 32 and " * / : < > ? \ |; all others are
 * taken as they are, halves of surrogate pairs and 0xFFFF too. A long name that a file or directory has is taken (LFAT_EXISTS):
 * characters are compared as numbers, so capitals and small letters differ, and never with short names. The entries take the lowest
 * run of free slots that is long enough, one for every 13 characters, or part of 13, and the short one after them; without such a run
 * the root directory is full (LFAT_ROOTFULL). After a cut and a recovery the file has both names, or is not there.
 */
uint64_t lfat_create_long(uint8_t *card, size_t card_len, const uint8_t *name, size_t name_len,
                          const uint8_t *chars, size_t chars_len, uint32_t seconds, uint32_t limit);

/* Adds bytes at the end of a file. */
uint64_t lfat_append(uint8_t *card, size_t card_len, const uint8_t *name, size_t name_len,
                     const uint8_t *data, size_t data_len, uint32_t seconds, uint32_t limit);

/*
 * Saves over a file: it then has these bytes and no others, none if data_len is 0. They go to free clusters; the old ones
 * are freed in the same operation and do not count as room (LFAT_NOSPACE). Always stores, even for the bytes it has.
 */
uint64_t lfat_replace(uint8_t *card, size_t card_len, const uint8_t *name, size_t name_len,
                      const uint8_t *data, size_t data_len, uint32_t seconds, uint32_t limit);

/* Shortens a file to a size. One over the file's is refused (LFAT_LENGTH). */
uint64_t lfat_truncate(uint8_t *card, size_t card_len, const uint8_t *name, size_t name_len,
                       uint64_t size, uint32_t seconds, uint32_t limit);

/* Removes a file and frees its clusters. The entries of its long name are removed with it. */
uint64_t lfat_delete(uint8_t *card, size_t card_len, const uint8_t *name, size_t name_len, uint32_t limit);

/*
 * Gives a file another name. A name that is taken is refused (LFAT_EXISTS), also that of a file marked read-only. The file then
 * has its new name only: the entries of its long name are removed. It needs a free slot (LFAT_ROOTFULL) beside those that it
 * frees.
 */
uint64_t lfat_rename(uint8_t *card, size_t card_len, const uint8_t *old_name, size_t old_len,
                     const uint8_t *new_name, size_t new_len, uint32_t limit);

/*
 * Writes an empty card of `total` sectors over whatever is there: all files are gone, and no question is asked. What the window holds is
 * not looked at; it may hold more than the card, and the rest is not touched. The card has 1 reserved sector, 2 FATs as short as
 * its clusters allow, a root directory of 512 slots, clusters of `per_cluster` sectors, and its log in the first `log_clusters` of them.
 *
 * It is refused with LFAT_SIZE unless per_cluster is 1, 2, 4, 8, 16, 32 or 64, there are 4,085 to 65,524 clusters, and the log has at
 * least 1 cluster and at most 128 sectors; then with LFAT_WINDOW if the window has fewer than total * 512 bytes, or none. No other
 * ground is asked.
 *
 * Usual numbers are these, for a card of up to so many sectors; `total` is the card's own number. The log has 32 sectors, more where a
 * cluster has more: one of 128 is cleared less often. A card of 2 GB (4,194,304) or more is given a total of 4,194,144, the largest. A card of
 * 4,085 or 4,086 clusters is FAT16, but FAT12 to some other readers: 4,152 sectors are the fewest that all tried take.
 *
 *     sectors, from 4150 up to    8400   32680   262144   524288   1048576   2097152   4194144
 *     per_cluster                    1       2        4        8        16        32        64
 *     log_clusters                  32      16        8        4         2         1         1
 *
 * Stored are, in this order: a boot sector of zeros; each sector of FAT1, FAT2, the root directory and the log, rising, also where it has
 * its bytes already; the true boot sector. No others: the bytes of old files stay in clusters that are free now. A cut after the
 * first of these stores and before the last leaves a card that every other call refuses with LFAT_BOOT, lfat_recover too: format it
 * again. The finished card is clean and lists no file. On 4,150 sectors with 1 per cluster and a log of 8 there are 74 stores.
 */
uint64_t lfat_format(uint8_t *card, size_t card_len, uint32_t total, uint32_t per_cluster, uint32_t log_clusters, uint32_t limit);

/*
 * Calls that read. They ask for a clean card and touch no byte of the buffer but those that they fill. Files marked read-only
 * are read as all others.
 */

/* Copies a file's bytes from an offset on, as many as there are and fit. The count is the bytes copied, 0 past the end. */
uint64_t lfat_read(const uint8_t *card, size_t card_len, const uint8_t *name, size_t name_len,
                   uint64_t offset, uint8_t *buffer, size_t buffer_len);

/*
 * Copies the root directory's entries, files and directories, 32 bytes each as on the card, as many as fit whole.
 * The count is how many there are. In an entry: name at 0 (11 bytes), attributes at 11 (bit 0x01: read-only, bit 0x10:
 * directory), size at 28 (4 bytes, little-endian). Its dates and times are 2 bytes each, little-endian: creation time at 14, creation
 * date at 16, access date at 18, write time at 22, write date at 24. A date is (year - 1980) * 512 + month * 32 + day, a time
 * hour * 2048 + minute * 32 + second / 2. Other systems write dates that are none, as 0 for one that they do not know.
 */
uint64_t lfat_list(const uint8_t *card, size_t card_len, uint8_t *buffer, size_t buffer_len);

/*
 * Copies the characters of the long name of a file or a directory, two bytes for each, the low one first, as many as fit: half of
 * buffer_len. They end before the first that is 0. The count is how many there are, also if fewer were copied; it is 0 without a
 * long name, and where the entries before the file do not belong to it (see above). Names of other systems have up to 255.
 */
uint64_t lfat_long_name(const uint8_t *card, size_t card_len, const uint8_t *name, size_t name_len,
                        uint8_t *buffer, size_t buffer_len);

/*
 * Tells whether so many bytes fit, for a screen that asks before anything is saved. LFAT_DONE is yes: neither an append of them
 * to an empty file nor a replace of any file by them would be refused for want of room (LFAT_NOSPACE). The count is then the
 * highest cluster that they would take: up to that one the card has just enough free. It is 0 for no bytes. LFAT_NO is no, and
 * the count is 0. It asks about clusters only: a create may still find the root directory full (LFAT_ROOTFULL).
 */
uint64_t lfat_fits(const uint8_t *card, size_t card_len, uint64_t bytes);

#ifdef __cplusplus
}
#endif

#endif
