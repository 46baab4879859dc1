/*
 * Saves a file on a card: an image, a block device or a partition of one.
 *
 *     save CARD NAME FILE       NAME as ROUTE.CUT; a partition is given as CARD:N
 *
 * The card is recovered first. A file of that name is saved over in one call: a cut leaves its old bytes or the new ones, whole.
 * Under a new name the file is made first: a cut leaves no such file, an empty one, or the whole one. The bytes are read back and
 * compared. The file is dated by the clock of this machine, in local time. A file marked read-only is refused and stays as it was.
 * Exit status: 0, or 1 with a line on standard error.
 */
#include "lfat_disk.h"

#include <stdio.h>
#include <stdlib.h>
#include <string.h>
#include <time.h>

enum { PIECE = 1 << 16 };

/* Turns ROUTE.CUT into its 8 and 3 bytes. What does not fit becomes a name that the library refuses. */
static void short_name(const char *text, uint8_t name[LFAT_NAME_BYTES])
{
    const char *dot = strrchr(text, '.');
    size_t stem = dot == NULL ? strlen(text) : (size_t)(dot - text);
    size_t extension = dot == NULL ? 0 : strlen(dot + 1);
    memset(name, ' ', LFAT_NAME_BYTES);
    if (stem > 8 || extension > 3 || (dot != NULL && extension == 0))
        return;
    memcpy(name, text, stem);
    if (extension > 0)
        memcpy(name + 8, dot + 1, extension);
}

/* Reads a whole file into memory. */
static uint8_t *load(const char *file_name, size_t *length)
{
    uint8_t *bytes = NULL;
    long end;
    FILE *file = fopen(file_name, "rb");
    if (file == NULL)
        return NULL;
    if (fseek(file, 0, SEEK_END) == 0 && (end = ftell(file)) >= 0 && fseek(file, 0, SEEK_SET) == 0) {
        *length = (size_t)end;
        bytes = malloc(*length + 1);
        if (bytes != NULL && fread(bytes, 1, *length, file) != *length) {
            free(bytes);
            bytes = NULL;
        }
    }
    fclose(file);
    return bytes;
}

/* Whether a call ended well; else it is said why not. */
static int done(const char *call, uint64_t answer)
{
    if (LFAT_CODE(answer) == LFAT_DONE)
        return 1;
    fprintf(stderr, "%s: %s\n", call, lfat_disk_message());
    return 0;
}

/* Whether the card has exactly these bytes under the name. */
static int is_saved(lfat_disk *disk, const uint8_t *name, const uint8_t *data, size_t length)
{
    static uint8_t piece[PIECE];
    size_t at = 0;
    for (;;) {
        uint64_t answer = lfat_disk_read(disk, name, LFAT_NAME_BYTES, at, piece, sizeof piece);
        uint32_t count = LFAT_COUNT(answer);
        if (!done("read", answer))
            return 0;
        if (count > length - at || memcmp(piece, data + at, count) != 0) {
            fprintf(stderr, "read: the bytes are not those that were saved\n");
            return 0;
        }
        at += count;
        if (count < sizeof piece)
            return at == length;
    }
}

/* The seconds since 1980 began by the clock of this machine. A time that a card cannot date is refused by the library. */
static uint32_t now(void)
{
    time_t seconds = time(NULL);
    const struct tm *t = localtime(&seconds);
    if (t == NULL)
        return LFAT_LAST_SECOND + 1;
    return lfat_seconds(t->tm_year + 1900, t->tm_mon + 1, t->tm_mday, t->tm_hour, t->tm_min, t->tm_sec);
}

/* Saves under a new name. Whether the bytes fit is asked first, so that no empty file is made for want of room. */
static int save_new(lfat_disk *disk, const uint8_t *name, const uint8_t *data, size_t length, uint32_t seconds)
{
    return done("fits", lfat_disk_fits(disk, length)) && done("create", lfat_disk_create(disk, name, LFAT_NAME_BYTES, seconds)) &&
           done("append", lfat_disk_append(disk, name, LFAT_NAME_BYTES, data, length, seconds));
}

static int save(lfat_disk *disk, const uint8_t *name, const uint8_t *data, size_t length)
{
    uint64_t answer;
    uint32_t seconds = now();
    if (!done("recover", lfat_disk_recover(disk)))
        return 0;
    answer = lfat_disk_replace(disk, name, LFAT_NAME_BYTES, data, length, seconds);
    if (LFAT_CODE(answer) == LFAT_ABSENT) {
        if (!save_new(disk, name, data, length, seconds))
            return 0;
    } else if (!done("save", answer)) {
        return 0;
    }
    return is_saved(disk, name, data, length);
}

/* Opens CARD or CARD:N. */
static lfat_disk *open_card(char *card)
{
    lfat_disk *disk = NULL;
    char *colon = strrchr(card, ':');
    unsigned long partition = 0;
    if (colon != NULL && colon[1] != '\0' && strspn(colon + 1, "0123456789") == strlen(colon + 1)) {
        partition = strtoul(colon + 1, NULL, 10);
        *colon = '\0';
    }
    done(card, lfat_disk_open(card, (uint32_t)partition, 0, &disk));
    return disk;
}

int main(int argc, char **argv)
{
    uint8_t name[LFAT_NAME_BYTES];
    uint8_t *data;
    size_t length = 0;
    lfat_disk *disk;
    int saved;
    if (argc != 4) {
        fprintf(stderr, "usage: save CARD NAME FILE\n");
        return 1;
    }
    short_name(argv[2], name);
    data = load(argv[3], &length);
    if (data == NULL) {
        fprintf(stderr, "cannot read %s\n", argv[3]);
        return 1;
    }
    disk = open_card(argv[1]);
    saved = disk != NULL && save(disk, name, data, length);
    if (saved)
        printf("%s: %lu bytes saved as %s\n", argv[1], (unsigned long)length, argv[2]);
    lfat_disk_close(disk);
    free(data);
    return saved ? 0 : 1;
}
