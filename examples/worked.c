/*
 * Card K of the requirements, formatted, and its rows M3 to M10: all thirteen calls of the library from C, with fixed dates.
 * Prints a line for each call with its answer. Exit status: 0 if every answer is the one that is due, else 1.
 */
#include "lfat.h"

#include <stdio.h>
#include <string.h>

enum { SECTORS = 4150, FAT1 = 1, FAT2 = 17, LOG_CLUSTERS = 8, DATA = 73, PATH_BYTES = 1300, CHARACTERS = 22 };
enum { SLOT = 33 * LFAT_SECTOR_BYTES /* slot 0 */, ATTRIBUTES = SLOT + 11, DATES = SLOT + 13 };

static const uint8_t route[] = "ROUTE   CUT", panel[] = "PANEL   CUT", hull[] = "HULL7S~1CUT";
static const char long_text[] = "Hull 7 sheer panel.cut";
static uint8_t card[SECTORS * LFAT_SECTOR_BYTES], saved[sizeof card];
static uint8_t points[PATH_BYTES], back[PATH_BYTES + 1];
static uint8_t chars[2 * CHARACTERS], text[2 * LFAT_LONG_CHARACTERS];
/* Bytes 13 to 25 of a slot: created on 17 November 2026 at 19:30:59, and then written the day after, at 6:00. */
static const uint8_t new_dates[] = {0, 0xDD, 0x9B, 0x71, 0x5D, 0x71, 0x5D, 0, 0, 0xDD, 0x9B, 0x71, 0x5D};
static const uint8_t written_dates[] = {0, 0xDD, 0x9B, 0x71, 0x5D, 0x72, 0x5D, 0, 0, 0x00, 0x30, 0x72, 0x5D};
static uint32_t today, tomorrow;
static int wrong;

/* The first bytes of the boot sector: 1 sector per cluster, 1 reserved, 2 FATs of 16, 512 root entries. */
static const uint8_t boot[] = {0xEB, 0x3C, 0x90, 0, 0, 0, 0, 0, 0, 0, 0, 0x00, 0x02, 1, 1, 0, 2, 0x00, 0x02, SECTORS & 0xFF,
                               SECTORS >> 8, 0xF8, 16, 0, 0, 0, 0, 0, 0, 0, 0, 0, 0, 0, 0, 0};
/* The first entries of a FAT: two of its own, the log in clusters 2 to 9, a free one. */
static const uint8_t fat[] = {0xF8, 0xFF, 0xFF, 0xFF, 0xF6, 0xFF, 0xF6, 0xFF, 0xF6, 0xFF, 0xF6, 0xFF,
                              0xF6, 0xFF, 0xF6, 0xFF, 0xF6, 0xFF, 0xF6, 0xFF, 0x00, 0x00};

/* Prints an answer, and compares it with the code and count that are due. */
static void due(const char *what, uint64_t answer, uint32_t code, uint32_t count)
{
    int right = LFAT_CODE(answer) == code && LFAT_COUNT(answer) == count;
    printf("%s: %s %lu%s\n", what, lfat_code_name(LFAT_CODE(answer)), (unsigned long)LFAT_COUNT(answer),
           right ? "" : ", which is wrong");
    wrong |= !right;
}

static uint64_t format(uint32_t total, uint32_t per_cluster, uint32_t limit)
{
    return lfat_format(card, sizeof card, total, per_cluster, LOG_CLUSTERS, limit);
}

/* Compares the dates of slot 0. */
static void dated(const uint8_t *dates)
{
    wrong |= memcmp(card + DATES, dates, sizeof new_dates) != 0;
}

static uint64_t append_at(size_t length, uint32_t seconds, uint32_t limit)
{
    return lfat_append(card, sizeof card, route, LFAT_NAME_BYTES, points, length, seconds, limit);
}

static uint64_t append(size_t length, uint32_t limit)
{
    return append_at(length, tomorrow, limit);
}

static uint64_t replace(size_t length, uint32_t limit)
{
    return lfat_replace(card, sizeof card, route, LFAT_NAME_BYTES, points, length, tomorrow, limit);
}

static uint64_t truncate_to(uint64_t size, uint32_t seconds)
{
    return lfat_truncate(card, sizeof card, route, LFAT_NAME_BYTES, size, seconds, LFAT_NO_LIMIT);
}

static uint64_t create(const uint8_t *name)
{
    return lfat_create(card, sizeof card, name, LFAT_NAME_BYTES, today, LFAT_NO_LIMIT);
}

static uint64_t create_long(uint32_t limit)
{
    return lfat_create_long(card, sizeof card, hull, LFAT_NAME_BYTES, chars, sizeof chars, today, limit);
}

/* Reads the long name into text, of which it is lent so many bytes; the others are 0. */
static uint64_t long_name(size_t room)
{
    memset(text, 0, sizeof text);
    return lfat_long_name(card, sizeof card, hull, LFAT_NAME_BYTES, text, room);
}

static uint64_t recover(void)
{
    return lfat_recover(card, sizeof card, LFAT_NO_LIMIT);
}

static uint64_t read_route(void)
{
    return lfat_read(card, sizeof card, route, LFAT_NAME_BYTES, 0, back, sizeof back);
}

static uint64_t fits(uint64_t bytes)
{
    return lfat_fits(card, sizeof card, bytes);
}

/* Makes a call on the card as it was saved, under a limit, and recovers: the file is then as before or as after. */
static void cut(const char *what, uint64_t (*call)(size_t, uint32_t), size_t length, uint32_t limit, uint32_t stores,
                uint32_t size)
{
    memcpy(card, saved, sizeof card);
    due(what, call(length, limit), LFAT_STOPPED, limit);
    due("    unclean until recovered", read_route(), LFAT_UNCLEAN, 0);
    due("    unclean until recovered, fits", fits(0), LFAT_UNCLEAN, 0);
    due("    recover", recover(), LFAT_DONE, stores);
    due("    read", read_route(), LFAT_DONE, size);
}

int main(void)
{
    static const uint8_t letters[3][LFAT_NAME_BYTES + 1] = {"A          ", "B          ", "C          "};
    uint8_t entries[2 * LFAT_ENTRY_BYTES];
    size_t i;
    for (i = 0; i < PATH_BYTES; i++)
        points[i] = (uint8_t)(i * 7 + 1);
    for (i = 0; i < CHARACTERS; i++)
        chars[2 * i] = (uint8_t)long_text[i];
    today = lfat_seconds(2026, 11, 17, 19, 30, 59);
    tomorrow = lfat_seconds(2026, 11, 18, 6, 0, 0);

    /* A new card, over whatever the window holds. What is no part of its tables stays as it is. */
    memset(card, 0xE5, sizeof card);
    due("    format, 3 sectors per cluster", format(SECTORS, 3, LFAT_NO_LIMIT), LFAT_SIZE, 0);
    due("    format, a sector more than there is", format(SECTORS + 1, 1, LFAT_NO_LIMIT), LFAT_WINDOW, 0);
    due("    format, cut after 73 stores", format(SECTORS, 1, 73), LFAT_STOPPED, 73);
    due("    no card until formatted", lfat_recover(card, sizeof card, LFAT_NO_LIMIT), LFAT_BOOT, 0);
    due("    format", format(SECTORS, 1, LFAT_NO_LIMIT), LFAT_DONE, 74);
    wrong |= memcmp(card, boot, sizeof boot) != 0 || card[510] != 0x55 || card[511] != 0xAA;
    wrong |= memcmp(card + FAT1 * LFAT_SECTOR_BYTES, fat, sizeof fat) != 0;
    wrong |= memcmp(card + FAT2 * LFAT_SECTOR_BYTES, fat, sizeof fat) != 0;
    wrong |= card[DATA * LFAT_SECTOR_BYTES - 1] != 0 || card[DATA * LFAT_SECTOR_BYTES] != 0xE5;
    due("    list, no file", lfat_list(card, sizeof card, entries, sizeof entries), LFAT_DONE, 0);
    memcpy(saved, card, sizeof card);
    due("    fits, no bytes", fits(0), LFAT_DONE, 0);
    due("    fits 1300, in clusters 10 to 12", fits(PATH_BYTES), LFAT_DONE, 12);
    due("    fits, all that there is", fits(4077 * LFAT_SECTOR_BYTES), LFAT_DONE, 4086);
    due("    fits, a byte more", fits(4077 * LFAT_SECTOR_BYTES + 1), LFAT_NO, 0);
    due("    fits, 2^32 bytes", fits(UINT64_C(1) << 32), LFAT_NO, 0);
    due("    fits, the largest number", fits(UINT64_MAX), LFAT_NO, 0);
    wrong |= memcmp(card, saved, sizeof card) != 0;
    due("M3  create ROUTE.CUT", create(route), LFAT_DONE, 3);
    dated(new_dates);
    memcpy(saved, card, sizeof card);
    cut("M5  append 1300, cut after 4 stores", append, PATH_BYTES, 4, 1, 0);
    dated(new_dates);
    cut("M6  append 1300, cut after 5 stores", append, PATH_BYTES, 5, 3, PATH_BYTES);
    dated(written_dates);
    memcpy(card, saved, sizeof card);
    due("    append nothing", append(0, LFAT_NO_LIMIT), LFAT_DONE, 0);
    due("    append nothing, a second past 2107", append_at(0, LFAT_LAST_SECOND + 1, LFAT_NO_LIMIT), LFAT_CLOCK, 0);
    due("    truncate to 0, at no date", truncate_to(0, lfat_seconds(2026, 2, 29, 0, 0, 0)), LFAT_CLOCK, 0);
    dated(new_dates);
    due("M4  append 1300", append(PATH_BYTES, LFAT_NO_LIMIT), LFAT_DONE, 8);
    dated(written_dates);
    due("    read", read_route(), LFAT_DONE, PATH_BYTES);
    due("    fits 1300, in clusters 13 to 15", fits(PATH_BYTES), LFAT_DONE, 15);
    wrong |= memcmp(back, points, PATH_BYTES) != 0;

    /* The file of M4 saved over, on a card of its own: M7 goes on from M4. */
    memcpy(saved, card, sizeof card);
    cut("    replace by 600, cut after 3 stores", replace, 600, 3, 1, PATH_BYTES);
    cut("    replace by 600, cut after 4 stores", replace, 600, 4, 3, 600);
    memcpy(card, saved, sizeof card);
    due("    replace by 600", replace(600, LFAT_NO_LIMIT), LFAT_DONE, 7);
    due("    read", read_route(), LFAT_DONE, 600);
    wrong |= memcmp(back, points, 600) != 0;
    due("    replace by nothing", replace(0, LFAT_NO_LIMIT), LFAT_DONE, 5);
    due("    replace by nothing again", replace(0, LFAT_NO_LIMIT), LFAT_DONE, 3);
    memcpy(card, saved, sizeof card);

    /* A long name of 22 characters: two long slots before the file's own, and the name read back. */
    due("    create with a long name", create_long(LFAT_NO_LIMIT), LFAT_DONE, 3);
    due("    the long name", long_name(sizeof chars), LFAT_DONE, CHARACTERS);
    wrong |= memcmp(text, chars, sizeof chars) != 0;
    due("    its first five characters", long_name(11), LFAT_DONE, CHARACTERS);
    wrong |= memcmp(text, chars, 10) != 0 || text[10] != 0;
    due("    the same once more", create_long(LFAT_NO_LIMIT), LFAT_EXISTS, 0);
    memcpy(card, saved, sizeof card);
    due("    create with a long name, cut after 1 store", create_long(1), LFAT_STOPPED, 1);
    due("    recover", recover(), LFAT_DONE, 2);
    due("    the long name", long_name(sizeof chars), LFAT_DONE, CHARACTERS);
    chars[2] = '*';
    due("    a star in it", create_long(LFAT_NO_LIMIT), LFAT_LONGNAME, 0);
    memcpy(card, saved, sizeof card);

    /* Marked read-only by another machine: it is read, and not changed until the mark is taken away. */
    card[ATTRIBUTES] |= 0x01;
    due("    replace, marked read-only", replace(600, LFAT_NO_LIMIT), LFAT_LOCKED, 0);
    due("    append nothing, marked read-only", append(0, LFAT_NO_LIMIT), LFAT_LOCKED, 0);
    due("    read", read_route(), LFAT_DONE, PATH_BYTES);
    card[ATTRIBUTES] &= 0xFE;
    wrong |= memcmp(card, saved, sizeof card) != 0;

    due("M7  append 100", append(100, LFAT_NO_LIMIT), LFAT_DONE, 4);
    due("    truncate to 1401", truncate_to(1401, tomorrow), LFAT_LENGTH, 0);
    due("M8  truncate to 512", truncate_to(512, today), LFAT_DONE, 5);
    dated(new_dates);
    due("M9  delete", lfat_delete(card, sizeof card, route, 11, LFAT_NO_LIMIT), LFAT_DONE, 5);
    for (i = 0; i < 3; i++)
        due("    create", create(letters[i]), LFAT_DONE, 3);
    due("M10 rename, the ninth group", lfat_rename(card, sizeof card, letters[0], 11, panel, 11, LFAT_NO_LIMIT),
        LFAT_DONE, 11);
    due("    list, with room for two", lfat_list(card, sizeof card, entries, sizeof entries), LFAT_DONE, 3);
    due("    recover", recover(), LFAT_DONE, 0);
    return wrong;
}
