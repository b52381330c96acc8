/*
 * Moves a saved state between the old form of 88 bytes and the new one of 92, from one file to another. The second file is
 * written only when the move was done, and is otherwise left as it was; it may be the first one.
 *
 *   ./build
 *   cc -I dist examples/old_record.c dist/libtlcs900h.a -o old_record
 *   ./old_record widen state.old state.new
 *   ./old_record narrow state.new state.old
 */
#define _XOPEN_SOURCE 700
#include <stdio.h>
#include <stdlib.h>
#include <string.h>
#include <sys/stat.h>

#include "tlcs900h.h"

/* Reads a file's first bytes, one more than a record has at most: a file that is too long shows by its length. */
static int read_file(const char *name, uint8_t *bytes, size_t most, size_t *length) {
    FILE *file = fopen(name, "rb");
    int failed;
    if (!file) return 0;
    *length = fread(bytes, 1, most, file);
    failed = ferror(file);
    return fclose(file) == 0 && !failed;
}

/* Whether a file may take this name: a device or a link must not be replaced by one. */
static int may_write(const char *name) {
    struct stat there;
    return lstat(name, &there) != 0 || S_ISREG(there.st_mode);
}

/* Writes NAME.part, which must not be there yet, and gives it the name only when all of it is written: on a full disk the old
   file stays. Says so where that fails. */
static int write_file(const char *name, const uint8_t *bytes, size_t length) {
    char *part = malloc(strlen(name) + sizeof ".part");
    FILE *file = part ? fopen(strcat(strcpy(part, name), ".part"), "wbx") : NULL;
    int done = file && fwrite(bytes, 1, length, file) == length;
    if (file) done = fclose(file) == 0 && done && rename(part, name) == 0;
    if (!done) perror(part ? part : name);
    if (file && !done) remove(part);
    free(part);
    return done;
}

int main(int argc, char **argv) {
    uint8_t from[TLCS900H_RECORD + 1], to[TLCS900H_RECORD], number;
    size_t length, room;
    int widens = argc == 4 && strcmp(argv[1], "widen") == 0;

    if (!widens && !(argc == 4 && strcmp(argv[1], "narrow") == 0)) {
        fprintf(stderr, "usage: old_record widen|narrow FROM TO\n");
        return 2;
    }
    if (!may_write(argv[3])) {
        fprintf(stderr, "%s: not a plain file, nothing written\n", argv[3]);
        return 1;
    }
    if (!read_file(argv[2], from, sizeof from, &length)) {
        perror(argv[2]);
        return 1;
    }
    room = widens ? TLCS900H_RECORD : TLCS900H_OLD_RECORD;
    number = widens ? tlcs900h_widen(from, length, to, room) : tlcs900h_narrow(from, length, to, room);
    if (number != TLCS900H_DONE) {
        fprintf(stderr, "%s: number %u (%s), nothing written\n", argv[2], number, tlcs900h_name(number));
        return 1;
    }
    if (!write_file(argv[3], to, room)) return 1;
    printf("%s: a record of %u bytes, written to %s as one of %u\n", argv[2], (unsigned)length, argv[3], (unsigned)room);
    return 0;
}
