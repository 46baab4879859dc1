/*
 * What the router does at power-up: recover the card, list it with dates and long names, read a path into a buffer. Recovery gives a
 * file the date that its save was begun with, so the loader needs no clock.
 * A card or a name that is refused is refused here too, with the ground's name and number.
 *
 *     loader IMAGE          recovers and lists
 *     loader IMAGE NAME     then reads the path NAME, as ROUTE.CUT, and prints it
 *
 * Here the card is an image file that is read into memory; the file itself is left as it is.
 * Exit status: 0, or the ground's number (1 to 18), or 64 for wrong usage, 65 for a path that is longer than the
 * buffer (half a path is none), 66 if there is no reading the image.
 */
#include "lfat.h"

#include <stdio.h>
#include <stdlib.h>
#include <string.h>

enum { WRONG_USAGE = 64, PATH_TOO_LONG = 65, NO_INPUT = 66, MOST_ENTRIES = 512, MOST_PATH_BYTES = 1 << 20 };

static uint8_t entries[MOST_ENTRIES * LFAT_ENTRY_BYTES];
/* One byte more than the longest path: a count below that is a whole path. */
static uint8_t path[MOST_PATH_BYTES + 1];

/* Reads a whole file into memory. */
static uint8_t *load(const char *file_name, size_t *length)
{
    uint8_t *bytes = NULL;
    long end;
    FILE *file = fopen(file_name, "rb");
    if (file == NULL)
        return NULL;
    if (fseek(file, 0, SEEK_END) == 0 && (end = ftell(file)) >= 0 && fseek(file, 0, SEEK_SET) == 0) {
        *length = (size_t)end;
        bytes = malloc(*length + 1);
        if (bytes != NULL && fread(bytes, 1, *length, file) != *length) {
            free(bytes);
            bytes = NULL;
        }
    }
    fclose(file);
    return bytes;
}

/* Turns ROUTE.CUT into its 8 and 3 bytes. What does not fit becomes a name that the library refuses. */
static void short_name(const char *text, uint8_t name[LFAT_NAME_BYTES])
{
    const char *dot = strrchr(text, '.');
    size_t stem = dot == NULL ? strlen(text) : (size_t)(dot - text);
    size_t extension = dot == NULL ? 0 : strlen(dot + 1);
    memset(name, ' ', LFAT_NAME_BYTES);
    if (stem > 8 || extension > 3 || (dot != NULL && extension == 0))
        return;
    memcpy(name, text, stem);
    if (extension > 0)
        memcpy(name + 8, dot + 1, extension);
}

/* Prints a part of a name without the spaces that fill it up, and ? for what is no plain character. */
static void print_part(const uint8_t *part, size_t length)
{
    size_t i;
    while (length > 0 && part[length - 1] == ' ')
        length--;
    for (i = 0; i < length; i++)
        putchar(part[i] > 0x20 && part[i] < 0x7F ? part[i] : '?');
}

/* Prints a character in UTF-8. */
static void print_utf8(uint32_t c)
{
    if (c < 0x80) {
        putchar((int)c);
    } else if (c < 0x800) {
        putchar((int)(0xC0 | c >> 6));
        putchar((int)(0x80 | (c & 0x3F)));
    } else {
        if (c < 0x10000) {
            putchar((int)(0xE0 | c >> 12));
        } else {
            putchar((int)(0xF0 | c >> 18));
            putchar((int)(0x80 | (c >> 12 & 0x3F)));
        }
        putchar((int)(0x80 | (c >> 6 & 0x3F)));
        putchar((int)(0x80 | (c & 0x3F)));
    }
}

/* Prints the long name of an entry in quotes, if it has one: surrogate pairs joined, and ? for half of one and for controls. */
static void print_long_name(const uint8_t *card, size_t card_len, const uint8_t *entry)
{
    uint8_t chars[2 * LFAT_LONG_CHARACTERS];
    uint64_t answer = lfat_long_name(card, card_len, entry, LFAT_NAME_BYTES, chars, sizeof chars);
    uint32_t i, there = LFAT_COUNT(answer);
    if (LFAT_CODE(answer) != LFAT_DONE || there == 0)
        return;
    printf(" \"");
    for (i = 0; i < there; i++) {
        uint32_t c = (uint32_t)chars[2 * i] | (uint32_t)chars[2 * i + 1] << 8;
        if (c >= 0xD800 && c < 0xDC00 && i + 1 < there && (chars[2 * i + 3] & 0xFC) == 0xDC) {
            uint32_t low = (uint32_t)chars[2 * i + 2] | (uint32_t)chars[2 * i + 3] << 8;
            c = 0x10000 + ((c & 0x3FF) << 10 | (low & 0x3FF));
            i++;
        }
        print_utf8(c < 0x20 || (c >= 0x7F && c < 0xA0) || (c >= 0xD800 && c < 0xE000) ? '?' : c);
    }
    putchar('"');
}

/* Prints when an entry was last written, as 2026-11-17 19:30:58, or - if it has no date there. */
static void print_date(const uint8_t *entry)
{
    int time = entry[22] | entry[23] << 8, date = entry[24] | entry[25] << 8;
    int year = 1980 + (date >> 9), month = date >> 5 & 15, day = date & 31;
    int hour = time >> 11, minute = time >> 5 & 63, second = (time & 31) * 2;
    if (second > 59 || lfat_seconds(year, month, day, hour, minute, second) > LFAT_LAST_SECOND)
        printf(" -");
    else
        printf(" %d-%02d-%02d %02d:%02d:%02d", year, month, day, hour, minute, second);
}

static void print_entry(const uint8_t *card, size_t card_len, const uint8_t *entry)
{
    uint32_t size = (uint32_t)entry[28] | (uint32_t)entry[29] << 8 | (uint32_t)entry[30] << 16 |
                    (uint32_t)entry[31] << 24;
    print_part(entry, 8);
    if (entry[8] != ' ')
        putchar('.');
    print_part(entry + 8, 3);
    printf(" %lu%s", (unsigned long)size, entry[11] & 0x10 ? " directory" : "");
    print_date(entry);
    print_long_name(card, card_len, entry);
    putchar('\n');
}

/* Says why a call was refused. */
static int refuse(const char *call, uint64_t answer)
{
    fprintf(stderr, "%s refused: %s (ground %lu)\n", call, lfat_code_name(LFAT_CODE(answer)),
            (unsigned long)LFAT_CODE(answer));
    return (int)LFAT_CODE(answer);
}

static int list_entries(const uint8_t *card, size_t card_len)
{
    uint64_t answer = lfat_list(card, card_len, entries, sizeof entries);
    uint32_t i, there = LFAT_COUNT(answer);
    if (LFAT_CODE(answer) != LFAT_DONE)
        return refuse("list", answer);
    printf("%lu entries\n", (unsigned long)there);
    for (i = 0; i < there && i < MOST_ENTRIES; i++)
        print_entry(card, card_len, entries + (size_t)i * LFAT_ENTRY_BYTES);
    return 0;
}

static int read_path(const uint8_t *card, size_t card_len, const char *wanted)
{
    uint8_t name[LFAT_NAME_BYTES];
    uint64_t answer;
    short_name(wanted, name);
    answer = lfat_read(card, card_len, name, sizeof name, 0, path, sizeof path);
    if (LFAT_CODE(answer) != LFAT_DONE)
        return refuse("read", answer);
    if (LFAT_COUNT(answer) == sizeof path) {
        fprintf(stderr, "%s is longer than the buffer\n", wanted);
        return PATH_TOO_LONG;
    }
    printf("path %s, %lu bytes\n", wanted, (unsigned long)LFAT_COUNT(answer));
    fwrite(path, 1, LFAT_COUNT(answer), stdout);
    return 0;
}

static int power_up(uint8_t *card, size_t card_len, const char *wanted)
{
    int status;
    uint64_t answer = lfat_recover(card, card_len, LFAT_NO_LIMIT);
    if (LFAT_CODE(answer) != LFAT_DONE)
        return refuse("recover", answer);
    printf("recovered, %lu stores\n", (unsigned long)LFAT_COUNT(answer));
    status = list_entries(card, card_len);
    if (status == 0 && wanted != NULL)
        status = read_path(card, card_len, wanted);
    return status;
}

int main(int argc, char **argv)
{
    uint8_t *card;
    size_t card_len = 0;
    int status;
    if (argc < 2 || argc > 3) {
        fprintf(stderr, "usage: loader IMAGE [NAME]\n");
        return WRONG_USAGE;
    }
    card = load(argv[1], &card_len);
    if (card == NULL) {
        fprintf(stderr, "cannot read %s\n", argv[1]);
        return NO_INPUT;
    }
    status = power_up(card, card_len, argc == 3 ? argv[2] : NULL);
    free(card);
    return status;
}
