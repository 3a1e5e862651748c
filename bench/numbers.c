/* Reads a netlist's text the plain way, byte by byte out of blocks, or with any argument by `scanf`: keeps the numbers of each
   line in the order of the text, and counts how often each wire stands in it. It judges nothing but the forms of lines. */
#include <stdio.h>
#include <stdlib.h>
#include <string.h>

enum { NONE = 0xffffffff };

struct line { char kind; unsigned numbers[3]; };

static struct line *lines;
static size_t count, room;

static unsigned char block[65536];
static size_t at, filled;

/* The next byte, or -1 at the end. */
static int next(void) {
    if (at == filled) {
        filled = fread(block, 1, sizeof block, stdin);
        at = 0;
        if (filled == 0) return -1;
    }
    return block[at++];
}

static void fail(void) { exit(1); }

/* A number, or none where `-` stands, and the byte behind it, which has to be `end`. */
static unsigned number(int end) {
    int byte = next();
    unsigned value = 0;
    if (byte == '-') {
        if (next() != end) fail();
        return NONE;
    }
    if (byte < '0' || byte > '9') fail();
    for (; byte >= '0' && byte <= '9'; byte = next()) value = 10 * value + (unsigned)(byte - '0');
    if (byte != end) fail();
    return value;
}

/* The rest of a word and the blank behind it. */
static void word(const char *rest) {
    for (; *rest; rest++)
        if (next() != *rest) fail();
    if (next() != ' ') fail();
}

/* One of two bytes and the blank behind it. */
static void either(char one, char two) {
    int byte = next();
    if ((byte != one && byte != two) || next() != ' ') fail();
}

static void keep(char kind, unsigned a, unsigned b, unsigned c) {
    if (count == room) {
        room = room ? 2 * room : 1024;
        lines = realloc(lines, room * sizeof *lines);
        if (!lines) fail();
    }
    lines[count++] = (struct line){kind, {a, b, c}};
}

static void rail(char kind, const char *rest) {
    word(rest);
    number(' ');
    either('p', 'n');
    keep(kind, number('\n'), NONE, NONE);
}

static void cell(char kind, const char *rest) {
    word(rest);
    unsigned a = number(' '), b = number(' ');
    keep(kind, a, b, number('\n'));
}

static void droc(void) {
    word("roc");
    int role = next();
    if ((role != 'f' && role != 'b' && role != 'c') || next() != ' ') fail();
    either('0', '1');
    unsigned feed = number(' '), q = number(' ');
    keep('d', feed, q, number('\n'));
}

/* The rest of a line that has no wire. */
static void pass(void) {
    for (int byte = next(); byte != '\n'; byte = next())
        if (byte < 0) fail();
}

/* `input` and `iname` begin alike, as `output` and `oname` do. */
static void port(char kind, char second, const char *rest) {
    int byte = next();
    if (byte == second) rail(kind, rest);
    else if (byte == 'n') pass();
    else fail();
}

/* Reads a line; the last one is `end`. */
static int read_line(void) {
    switch (next()) {
    case 'l': cell('l', "a"); return 1;
    case 'f': cell('f', "a"); return 1;
    case 's': cell('s', "plit"); return 1;
    case 'd': droc(); return 1;
    case 'i': {
        int byte = next();
        if (byte != 'n') fail();
        byte = next();
        if (byte == 'p') rail('i', "ut");
        else pass();
        return 1;
    }
    case 'o': port('o', 'u', "tput"); return 1;
    case 'e': pass(); return 0;
    default: pass(); return 1;
    }
}

/* A number by `scanf`, or none where `-` stands. */
static unsigned scanned(void) {
    char word[16];
    if (scanf("%15s", word) != 1) fail();
    return word[0] == '-' ? NONE : (unsigned)strtoul(word, NULL, 10);
}

/* Reads a line by `scanf`; the last one is `end`. */
static int scan_line(void) {
    char word[16], name[1200], role, sign;
    unsigned a, b, c;
    if (scanf("%15s", word) != 1) fail();
    if (!strcmp(word, "la") || !strcmp(word, "fa") || !strcmp(word, "split")) {
        if (scanf("%u %u %u", &a, &b, &c) != 3) fail();
        keep(word[0], a, b, c);
    } else if (!strcmp(word, "input") || !strcmp(word, "output")) {
        if (scanf("%u %c %u", &a, &sign, &b) != 3) fail();
        keep(word[0], b, NONE, NONE);
    } else if (!strcmp(word, "droc")) {
        if (scanf(" %c %c", &role, &sign) != 2) fail();
        a = scanned(), b = scanned();
        keep('d', a, b, scanned());
    } else if (!strcmp(word, "end")) {
        return 0;
    } else if (scanf(" %1199[^\n]", name) != 1) {
        fail();
    }
    return 1;
}

/* How many wires stand more than once or once in the text, over the numbers that were kept. */
int main(int words, char **given) {
    unsigned greatest = 0, twice = 0;
    (void)given;
    while (words > 1 ? scan_line() : read_line()) {}
    for (size_t place = 0; place < count; place++)
        for (int k = 0; k < 3; k++)
            if (lines[place].numbers[k] != NONE && lines[place].numbers[k] > greatest) greatest = lines[place].numbers[k];
    unsigned char *often = calloc((size_t)greatest + 1, 1);
    if (!often) fail();
    for (size_t place = 0; place < count; place++)
        for (int k = 0; k < 3; k++)
            if (lines[place].numbers[k] != NONE && often[lines[place].numbers[k]]++ == 1) twice++;
    printf("%zu lines, wires up to %u, %u of them twice\n", count, greatest, twice);
    return 0;
}
