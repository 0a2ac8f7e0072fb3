/*
 * Plans sheet files from C: plan_sheet [-o BYTES] FILE..
 *
 * For each file it prints a line `lot N day D` for each lot, or the line `refused R`. With more than one file a
 * line with the file's name comes first. With -o the planner gets that many bytes of output in place of 512. It
 * ends with status 1 where a file was refused, and with 2 where a file cannot be read or where the planner wrote a
 * byte that it has to leave.
 */
#include "rigbuwate.h"

#include <stdio.h>
#include <stdlib.h>
#include <string.h>

enum { OUTPUT = 512, MARK = 0xa5 };

/* Just as many bytes as there are, so that a tool that watches memory sees a read past them. */
static uint8_t *room(size_t length)
{
    uint8_t *bytes = malloc(length ? length : 1);
    if (!bytes) {
        fputs("plan_sheet: out of memory\n", stderr);
        exit(2);
    }
    return bytes;
}

static uint8_t *read_file(const char *name, size_t *length)
{
    FILE *stream = fopen(name, "rb");
    if (!stream || fseek(stream, 0, SEEK_END) != 0) {
        perror(name);
        exit(2);
    }
    long end = ftell(stream);
    rewind(stream);
    *length = end > 0 ? (size_t)end : 0;
    uint8_t *bytes = room(*length);
    if (fread(bytes, 1, *length, stream) != *length) {
        perror(name);
        exit(2);
    }
    fclose(stream);
    return bytes;
}

/* How many lots a file has that was planned: its trailer says so. */
static size_t lots_of(const uint8_t *file, size_t length)
{
    const uint8_t *trailer = file + length - 8;
    return trailer[2] + 256u * trailer[3];
}

static void check_marks(const uint8_t *output, size_t from, size_t to)
{
    for (size_t i = from; i < to; i++) {
        if (output[i] != MARK) {
            fprintf(stderr, "plan_sheet: byte %zu of the output was written\n", i);
            exit(2);
        }
    }
}

/* Plans one file and prints what came of it; 1 where it was refused. */
static int plan(const char *name, size_t offered)
{
    size_t length;
    uint8_t *file = read_file(name, &length);
    uint8_t *output = room(offered);
    memset(output, MARK, offered);
    uint32_t refused = rigbuwate_plan(file, length, output, offered);
    size_t written = refused ? 0 : 2 * lots_of(file, length);
    check_marks(output, written, offered);
    for (size_t i = 0; i < written; i += 2)
        printf("lot %zu day %u\n", i / 2, output[i] + 256u * output[i + 1]);
    if (refused)
        printf("refused %u\n", (unsigned)refused);
    free(output);
    free(file);
    return refused != 0;
}

int main(int argc, char **argv)
{
    size_t offered = OUTPUT;
    int first = 1, status = 0;
    if (argc > 2 && strcmp(argv[1], "-o") == 0) {
        offered = strtoul(argv[2], NULL, 10);
        first = 3;
    }
    if (first >= argc) {
        fputs("usage: plan_sheet [-o BYTES] FILE..\n", stderr);
        return 2;
    }
    for (int i = first; i < argc; i++) {
        if (argc - first > 1)
            printf("%s\n", argv[i]);
        status |= plan(argv[i], offered);
    }
    return status;
}
