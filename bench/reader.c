/* Reads a configuration text of either version on standard input, and writes it again on standard output, as `step 0`
 * does: lines by getline, numbers by strtoul, the arrays that a run of steps would use, then a buffer and digits.
 * A faulty text is refused on standard error, with status 3; which of two faults of a line is told may differ. */
#include <inttypes.h>
#include <stdbool.h>
#include <stdint.h>
#include <stdio.h>
#include <stdlib.h>
#include <string.h>
#include <unistd.h>

#define LOOSE UINT32_MAX
#define LONGEST_LINE 128

/* A line of an element has a number: 4 times the element's, and its own. */
enum { NORTH, EAST, SOUTH, WEST };

static struct {
    uint32_t version, count, start, end, at, columns;
    bool has_left;
    uint64_t steps, *upright;
    uint32_t *targets, *sources;
} it;

static char *line, *at, text[1 << 16];
static size_t room;
static uint64_t lines;

static void refuse(const char *fault) {
    fprintf(stderr, "text: line %" PRIu64 " %s\n", lines, fault);
    exit(3);
}

static void hold(bool holds, const char *fault) {
    if (!holds) refuse(fault);
}

/* Reading */

static void next_line(void) {
    lines++;
    ssize_t length = getline(&line, &room, stdin);
    hold(length > 0 && line[length - 1] == '\n', "syntax");
    at = line;
}

static void take(const char *word) {
    for (; *word; word++) hold(*at++ == *word, "syntax");
}

static bool is_digit(char letter) {
    return letter >= '0' && letter <= '9';
}

static uint64_t take_number(void) {
    hold(is_digit(*at) && !(*at == '0' && is_digit(at[1])), "syntax");
    uint64_t number = strtoul(at, &at, 10);
    hold(number <= 1ull << 62, "syntax");
    return number;
}

static uint32_t take_side(void) {
    switch (*at++) {
    case 'n': return NORTH;
    case 'e': return EAST;
    case 's': return SOUTH;
    case 'w': return WEST;
    }
    refuse("syntax");
    return LOOSE;
}

static uint32_t take_line(void) {
    uint64_t element = take_number();
    take(".");
    uint32_t side = take_side();
    hold(element < it.count, "target");
    return 4 * (uint32_t)element + side;
}

static bool take_bar(void) {
    char bar = *at++;
    hold(bar == 'V' || bar == 'H', "syntax");
    return bar == 'V';
}

static bool is_upright(uint32_t element) {
    return it.upright[element >> 6] >> (element & 63) & 1;
}

static void set_bar(uint32_t element, bool upright) {
    it.upright[element >> 6] |= (uint64_t)upright << (element & 63);
}

static void connect(uint32_t from, uint32_t to) {
    hold(from != it.end, "end wired");
    hold(!it.has_left || from != it.at, "left wired");
    hold(to != it.start, "start fed");
    hold(it.sources[to] == LOOSE, "two sources");
    it.targets[from] = to;
    it.sources[to] = from;
}

static void take_target(uint32_t from) {
    take(" ");
    if (*at == '-') at++;
    else connect(from, take_line());
}

static uint32_t *loose(size_t count) {
    uint32_t *ends = malloc(4 * count);
    if (!ends) exit(9);
    return memset(ends, 0xff, 4 * count);
}

static uint64_t read_number(const char *word) {
    next_line();
    take(word);
    uint64_t number = take_number();
    take("\n");
    return number;
}

static uint32_t read_name(const char *word) {
    next_line();
    take(word);
    uint32_t name = take_line();
    take("\n");
    return name;
}

static void read_header(void) {
    uint64_t version = read_number("rotary ");
    hold(version == 1 || version == 2, "syntax");
    uint64_t count = read_number("elements ");
    hold(count > 0, "syntax");
    hold(count <= (version == 1 ? 1u << 20 : 1u << 22), "too many");
    it.version = version;
    it.count = count;
    it.start = read_name("start ");
    it.end = read_name("end ");
    it.steps = read_number("steps ");
    next_line();
    it.has_left = *at == 'l';
    take(it.has_left ? "left " : "at ");
    it.at = take_line();
    take("\n");
    it.targets = loose(4 * count);
    it.sources = loose(4 * count);
    it.upright = calloc(count / 64 + 1, 8);
    if (!it.upright) exit(9);
}

static void read_rows(uint32_t first, uint32_t bottom) {
    for (uint32_t row = first; row < bottom; row++) {
        connect(4 * row + SOUTH, 4 * (row + 1) + NORTH);
        connect(4 * (row + 1) + NORTH, 4 * row + SOUTH);
        set_bar(row, true);
    }
    connect(4 * bottom + SOUTH, 4 * bottom + SOUTH);
    connect(4 * bottom + WEST, 4 * first + NORTH);
    connect(4 * first + NORTH, 4 * bottom + EAST);
    for (uint32_t row = first; row < bottom; row++) {
        next_line();
        take("r");
        take_target(4 * row + EAST);
        take_target(4 * row + WEST);
        take("\n");
    }
}

/* Reads the entry at this element, and gives the next one's. */
static uint32_t read_entry(uint32_t element) {
    next_line();
    bool is_column = it.version == 2 && *at == 'c';
    take(is_column ? "c " : "e ");
    hold(take_number() == element, "order");
    take(" ");
    if (is_column) {
        uint64_t rows = take_number();
        hold(rows > 0, "syntax");
        hold(rows < it.count - element, "target");
        take(" ");
        uint32_t bottom = element + rows;
        set_bar(bottom, take_bar());
        take("\n");
        read_rows(element, bottom);
        it.columns++;
        return bottom + 1;
    }
    set_bar(element, take_bar());
    for (uint32_t side = NORTH; side <= WEST; side++) take_target(4 * element + side);
    take("\n");
    return element + 1;
}

/* How many rows the column has that begins at this element, and 0 where none does. */
static uint32_t rows_at(uint32_t first) {
    const uint32_t *to = it.targets;
    uint32_t back = to[4 * first + NORTH], bottom = back >> 2;
    if (it.version == 1 || back == LOOSE || (back & 3) != EAST || bottom <= first) return 0;
    if (to[4 * bottom + SOUTH] != 4 * bottom + SOUTH || to[4 * bottom + WEST] != 4 * first + NORTH) return 0;
    if (to[4 * bottom + EAST] != LOOSE) return 0;
    for (uint32_t row = first; row < bottom; row++) {
        if (!is_upright(row) || to[4 * row + SOUTH] != 4 * (row + 1) + NORTH) return 0;
        if (to[4 * (row + 1) + NORTH] != 4 * row + SOUTH) return 0;
    }
    return bottom - first;
}

static void read_text(void) {
    read_header();
    for (uint32_t element = 0; element < it.count;) element = read_entry(element);
    lines++;
    hold(getchar() == EOF, "syntax");
    uint32_t columns = 0;
    for (uint32_t element = 0, rows; element < it.count; element += rows + 1) columns += (rows = rows_at(element)) > 0;
    hold(columns == it.columns, "spelling");
}

/* Writing: `to` is where the next byte goes. */

static void flush(const char *to) {
    for (const char *from = text; from < to;) {
        ssize_t given = write(STDOUT_FILENO, from, to - from);
        if (given < 1) exit(8);
        from += given;
    }
}

static char *put(char *to, const char *word) {
    while (*word) *to++ = *word++;
    return to;
}

static char *put_number(char *to, uint64_t number) {
    char digits[20];
    int count = 0;
    do digits[count++] = '0' + number % 10;
    while (number /= 10);
    while (count) *to++ = digits[--count];
    return to;
}

static char *put_line(char *to, uint32_t name) {
    to = put_number(to, name >> 2);
    *to++ = '.';
    *to++ = "nesw"[name & 3];
    return to;
}

static char *put_target(char *to, uint32_t from) {
    *to++ = ' ';
    if (it.targets[from] != LOOSE) return put_line(to, it.targets[from]);
    *to++ = '-';
    return to;
}

static char *put_bar(char *to, uint32_t element) {
    *to++ = ' ';
    *to++ = is_upright(element) ? 'V' : 'H';
    return to;
}

static char *end_line(char *to) {
    *to++ = '\n';
    if (to + LONGEST_LINE <= text + sizeof text) return to;
    flush(to);
    return text;
}

static char *write_header(char *to) {
    to = end_line(put_number(put(to, "rotary "), it.version));
    to = end_line(put_number(put(to, "elements "), it.count));
    to = end_line(put_line(put(to, "start "), it.start));
    to = end_line(put_line(put(to, "end "), it.end));
    to = end_line(put_number(put(to, "steps "), it.steps));
    return end_line(put_line(put(to, it.has_left ? "left " : "at "), it.at));
}

static char *write_column(char *to, uint32_t first, uint32_t rows) {
    to = put_number(put(to, "c "), first);
    *to++ = ' ';
    to = end_line(put_bar(put_number(to, rows), first + rows));
    for (uint32_t row = first; row < first + rows; row++) {
        *to++ = 'r';
        to = end_line(put_target(put_target(to, 4 * row + EAST), 4 * row + WEST));
    }
    return to;
}

static char *write_element(char *to, uint32_t element) {
    to = put_bar(put_number(put(to, "e "), element), element);
    for (uint32_t side = NORTH; side <= WEST; side++) to = put_target(to, 4 * element + side);
    return end_line(to);
}

int main(void) {
    read_text();
    char *to = write_header(text);
    for (uint32_t element = 0, rows; element < it.count; element += rows + 1) {
        rows = rows_at(element);
        to = rows ? write_column(to, element, rows) : write_element(to, element);
    }
    flush(to);
    return 0;
}
