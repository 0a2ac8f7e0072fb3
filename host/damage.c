/*
 * Writes sheet files, whole and damaged ones: damage COUNT FOLDER SHEET..
 *
 * Of the files that it writes, 0.sheet to COUNT - 1.sheet, every third is made up, and the others are one of the
 * named sheets with a byte changed, with some bytes dropped or added, or with its trailer changed. A fixed seed:
 * the files are the same each time.
 */
#include <stdint.h>
#include <stdio.h>
#include <stdlib.h>

enum { LONGEST = 2048 };

static uint64_t state = 0x9e3779b97f4a7c15u;

/* The generator splitmix64. */
static unsigned below(unsigned n)
{
    uint64_t z = (state += 0x9e3779b97f4a7c15u);
    z = (z ^ (z >> 30)) * 0xbf58476d1ce4e5b9u;
    z = (z ^ (z >> 27)) * 0x94d049bb133111ebu;
    return (unsigned)((z ^ (z >> 31)) % n);
}

static uint8_t bytes[LONGEST];
static size_t length;

static void put(unsigned number)
{
    bytes[length++] = (uint8_t)(number % 256);
    bytes[length++] = (uint8_t)(number / 256);
}

static void trailer(unsigned lots, unsigned rules)
{
    put(4 * lots);
    put(lots);
    put(rules);
    bytes[length++] = 'H';
    bytes[length++] = 'D';
}

/* A sheet of up to 24 lots and 4 rules; now and then a window or a rule of it has a fault. */
static void make_up(void)
{
    unsigned lots = below(25), rules = lots ? below(5) : 0;
    length = 0;
    for (unsigned i = 0; i < lots; i++) {
        unsigned low = below(12);
        put(low);
        put(below(40) ? low + below(5) : below(20000));
    }
    for (unsigned i = 0; i < rules; i++) {
        unsigned first = below(lots), many = 1 + below(lots - first), floor = below(4);
        put(first);
        put(below(30) ? many : many + below(3));
        put(floor);
        put(below(30) ? floor + below(3) : below(300));
    }
    trailer(lots, rules);
}

static void take(const char *name)
{
    FILE *stream = fopen(name, "rb");
    if (!stream) {
        perror(name);
        exit(2);
    }
    length = fread(bytes, 1, LONGEST - 64, stream);
    fclose(stream);
}

static void damage(void)
{
    switch (below(5)) {
    case 0: /* any byte */
        if (length)
            bytes[below((unsigned)length)] = (uint8_t)below(256);
        break;
    case 1: /* some bytes at the end are missing */
        length -= below((unsigned)length + 1);
        break;
    case 2: /* some bytes are added */
        for (unsigned more = 1 + below(16); more; more--)
            bytes[length++] = (uint8_t)below(256);
        break;
    case 3: /* a byte of the trailer */
        if (length >= 8)
            bytes[length - 8 + below(8)] = (uint8_t)below(256);
        break;
    default: /* a low byte: a day or a rule's number moves a little */
        if (length >= 10)
            bytes[2 * below((unsigned)(length - 8) / 2)] = (uint8_t)below(32);
    }
}

static void write_file(const char *folder, unsigned number)
{
    char name[4096];
    snprintf(name, sizeof name, "%s/%u.sheet", folder, number);
    FILE *stream = fopen(name, "wb");
    if (!stream || fwrite(bytes, 1, length, stream) != length || fclose(stream) != 0) {
        perror(name);
        exit(2);
    }
}

int main(int argc, char **argv)
{
    if (argc < 4) {
        fputs("usage: damage COUNT FOLDER SHEET..\n", stderr);
        return 2;
    }
    unsigned count = (unsigned)strtoul(argv[1], NULL, 10), sheets = (unsigned)argc - 3;
    for (unsigned i = 0; i < count; i++) {
        if (i % 3 == 0) {
            make_up();
        } else {
            take(argv[3 + below(sheets)]);
            damage();
        }
        write_file(argv[2], i);
    }
    return 0;
}
