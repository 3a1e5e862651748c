/* Runs a netlist on vectors the plain way, over flat tables: engine first|mix:N < INPUT. The input is that of `simulate`, and so are the
   lines that it writes: the same pending row, from which a pulse is taken by moving the last one into its place, in the same order. It
   judges nothing but that each line has a form of the text. The number of deliveries goes to standard error. */
#include <stdio.h>
#include <stdlib.h>
#include <string.h>

enum { NONE = 0xffffffff };

/* What reads a wire: a cell of one kind, at one of its ports, or an output rail. */
enum kind { SPLIT, LA, FA, DROC, RAIL };
struct reader { unsigned kind, place, port; };

/* What a cell drives, and its state: the port that an LA or FA waits behind, from 1, or 0; the bit of a DROC. */
struct cell { unsigned one, two, state; };

struct rail { unsigned port, sign, wire; };

static struct reader *readers;
static struct cell *cells;
static struct rail *inputs, *outputs;
static unsigned *drocs, *pending;
static char *pulsed, *vector;
static unsigned cell_count, input_count, output_count, droc_count, port_count;
static unsigned seed, mixes;
static unsigned long long delivered;

static char *text;
static size_t at;

static void fail(const char *why) {
    fprintf(stderr, "engine: %s\n", why);
    exit(1);
}

static void *room(size_t count, size_t size) {
    void *taken = calloc(count + 1, size);
    if (!taken) fail("no memory");
    return taken;
}

static void read_text(void) {
    size_t filled = 0, space = 1 << 20;
    text = malloc(space + 1);
    for (;;) {
        if (!text) fail("no memory");
        size_t got = fread(text + filled, 1, space - filled, stdin);
        filled += got;
        if (got == 0) break;
        if (filled == space) text = realloc(text, (space *= 2) + 1);
    }
    text[filled] = 0;
}

/* A number, or none where `-` stands, and the byte behind it. */
static unsigned number(void) {
    unsigned value = 0;
    if (text[at] == '-') {
        at += 2;
        return NONE;
    }
    for (; text[at] >= '0' && text[at] <= '9'; at++) value = 10 * value + (unsigned)(text[at] - '0');
    at++;
    return value;
}

/* Whether the line begins so; then it goes on behind that. */
static int begins(const char *word) {
    size_t length = strlen(word);
    if (strncmp(text + at, word, length)) return 0;
    at += length;
    return 1;
}

static void pass(void) {
    while (text[at] && text[at] != '\n') at++;
    if (text[at]) at++;
}

/* At most so many lines and so many wires. */
static void measure(size_t *line_count, size_t *wire_count) {
    size_t greatest = 0, value = 0;
    *line_count = 0;
    for (const char *byte = text; *byte; byte++) {
        value = *byte >= '0' && *byte <= '9' ? 10 * value + (size_t)(*byte - '0') : 0;
        if (value > greatest && value < 4194304) greatest = value;
        *line_count += *byte == '\n';
        if (*byte == 'v') break;
    }
    *wire_count = greatest + 1;
}

static void read_by(unsigned wire, unsigned kind, unsigned place, unsigned port) {
    readers[wire] = (struct reader){kind, place, port};
}

static struct rail read_rail(void) {
    unsigned port = number(), sign = text[at] == 'p';
    at += 2;
    return (struct rail){port, sign, number()};
}

static void read_cell(unsigned kind) {
    unsigned a = number(), b = number(), c = number();
    read_by(a, kind, cell_count, 1);
    if (kind != SPLIT) read_by(b, kind, cell_count, 2);
    cells[cell_count++] = kind == SPLIT ? (struct cell){b, c, 0} : (struct cell){c, NONE, 0};
}

static void read_droc(void) {
    at += 2;
    unsigned preload = number(), feed = number(), q = number(), n = number();
    read_by(feed, DROC, cell_count, 1);
    drocs[droc_count++] = cell_count;
    cells[cell_count++] = (struct cell){q, n, preload};
}

static void read_line(void) {
    if (begins("la ")) read_cell(LA);
    else if (begins("fa ")) read_cell(FA);
    else if (begins("split ")) read_cell(SPLIT);
    else if (begins("droc ")) read_droc();
    else if (begins("input ")) inputs[input_count++] = read_rail();
    else if (begins("output ")) {
        outputs[output_count] = read_rail();
        read_by(outputs[output_count].wire, RAIL, output_count, 1);
        output_count++;
    } else if (begins("ports ")) {
        port_count = number();
        number();
    } else pass();
}

static void read_netlist(void) {
    size_t line_count, wire_count;
    measure(&line_count, &wire_count);
    readers = room(wire_count, sizeof *readers);
    cells = room(line_count, sizeof *cells);
    drocs = room(line_count, sizeof *drocs);
    inputs = room(line_count, sizeof *inputs);
    outputs = room(line_count, sizeof *outputs);
    pending = room(wire_count, sizeof *pending);
    pulsed = room(line_count, 1);
    while (!begins("end\n")) {
        if (!text[at]) fail("no end of the netlist");
        read_line();
    }
}

static unsigned open_phase(unsigned sign) {
    unsigned count = 0;
    memset(pulsed, '0', output_count);
    for (unsigned k = 0; k < input_count; k++)
        if ((vector[inputs[k].port] == '1') == (inputs[k].sign == sign)) pending[count++] = inputs[k].wire;
    for (unsigned k = 0; k < droc_count; k++) {
        struct cell *cell = &cells[drocs[k]];
        unsigned wire = cell->state ? cell->one : cell->two;
        cell->state = 0;
        if (wire != NONE) pending[count++] = wire;
    }
    return count;
}

static unsigned place_of(unsigned count) {
    if (!mixes) return 0;
    unsigned x = (unsigned)(seed + (unsigned)delivered) * 2654435761u;
    return (unsigned)((unsigned long long)x * count >> 32);
}

/* Delivers every pulse of a phase. A second pulse at one port ends the program. */
static void settle(unsigned count) {
    while (count) {
        unsigned place = place_of(count), wire = pending[place];
        pending[place] = pending[--count];
        delivered++;
        struct reader reader = readers[wire];
        struct cell *cell = &cells[reader.place];
        switch (reader.kind) {
        case SPLIT:
            pending[count++] = cell->one;
            pending[count++] = cell->two;
            break;
        case RAIL:
            pulsed[reader.place] = '1';
            break;
        case DROC:
            if (cell->state) fail("upset");
            cell->state = 1;
            break;
        default:
            if (cell->state == reader.port) fail("upset");
            if ((reader.kind == LA) == (cell->state != 0)) pending[count++] = cell->one;
            cell->state = cell->state ? 0 : reader.port;
        }
    }
}

static void cycle(unsigned long long place) {
    for (unsigned phase = 0; phase < 2; phase++) {
        settle(open_phase(1 - phase));
        if (phase == 0) printf("%llu ", place);
        fwrite(pulsed, 1, output_count, stdout);
        putchar(phase == 0 ? ' ' : '\n');
    }
}

int main(int count, char **words) {
    if (count != 2) fail("one word: first or mix:N");
    mixes = !strncmp(words[1], "mix:", 4);
    if (mixes) seed = (unsigned)strtoul(words[1] + 4, NULL, 10);
    read_text();
    read_netlist();
    if (!begins("vectors\n")) fail("no vectors");
    unsigned long long place = 0;
    while (!begins("stop\n")) {
        if (!begins("v")) fail("no stop");
        vector = text + at;
        at += port_count + 1;
        cycle(place++);
    }
    fprintf(stderr, "%llu\n", delivered);
    return 0;
}
