/* Steps of a ring both ways over arrays like those of the packed netlist, as a measure beside the program's own steps.
 *
 *     loop COUNT STEPS    the ring's elements, in the order of a round, as 32-bit numbers on standard input
 *
 * Each element leads with its south output to the next one's north input, and all bars stand upright, which is a bit
 * 1. A line has one number from step to step: 4 times its element's, and its own: north 0, east 1, south 2, west 3. So
 * a step needs no element by itself: it goes straight to the opposite line by an exclusive or with 2, and by 1 or 3
 * round the bar, which turns. Compiled with -DBLOCKS lines are numbered as in the program: in blocks of 1,024 elements,
 * first the north lines of a block, then the east, the south and the west ones, and an output line has the number of
 * the input line across from it. Straight on, the number stays then, and lines of one name lie side by side. Prints the
 * millions of steps a second forward and back, by the processor's clock. */
#include <stdint.h>
#include <stdio.h>
#include <stdlib.h>
#include <string.h>
#include <time.h>

#define LOOSE UINT32_MAX

#ifdef BLOCKS
enum { SPAN = 1024, STRAIGHT = 0, UPRIGHT = 3 * SPAN, LEVEL = SPAN, UPRIGHT_BACK = SPAN, LEVEL_BACK = 3 * SPAN };
#define NUMBER(element, line) (((element) / SPAN * 4 + (line)) * SPAN + (element) % SPAN)
/* an output line goes by the number of the input line across from it */
#define ACROSS (2 * SPAN)
#define WORD(number) (((number) & ~(3u * SPAN)) >> 6)
#define BIT(number) ((number) & 63)
#else
enum { SPAN = 1, STRAIGHT = 2, UPRIGHT = 1, LEVEL = 3, UPRIGHT_BACK = 3, LEVEL_BACK = 1 };
#define NUMBER(element, line) (4 * (element) + (line))
/* an output line goes by a number of its own */
#define ACROSS 0
#define WORD(number) ((number) >> 8)
#define BIT(number) ((number) >> 2 & 63)
#endif

static uint64_t forward(const uint32_t *targets, uint64_t *upright, uint32_t *now_at, uint64_t steps) {
    uint32_t place = *now_at;
    for (uint64_t made = 0; made < steps; made++) {
        uint64_t *word = &upright[WORD(place)], bit = 1ull << BIT(place);
        uint32_t out, is_odd = place & SPAN;
        if (*word & bit) {
            if (!is_odd) out = place ^ STRAIGHT;
            else { *word ^= bit; out = place ^ UPRIGHT; }
        } else {
            if (is_odd) out = place ^ STRAIGHT;
            else { *word ^= bit; out = place ^ LEVEL; }
        }
        uint32_t to = targets[out];
        if (to == LOOSE) { *now_at = out; return made + 1; }
        place = to;
    }
    *now_at = place;
    return steps;
}

static uint64_t back(const uint32_t *sources, uint64_t *upright, uint32_t *now_at, uint64_t steps) {
    uint32_t place = *now_at;
    for (uint64_t made = 0; made < steps; made++) {
        uint32_t from = sources[place];
        if (from == LOOSE) { *now_at = place; return made; }
        uint64_t *word = &upright[WORD(from)], bit = 1ull << BIT(from);
        uint32_t is_odd = from & SPAN;
        if (*word & bit) {
            if (!is_odd) place = from ^ STRAIGHT;
            else { *word ^= bit; place = from ^ UPRIGHT_BACK; }
        } else {
            if (is_odd) place = from ^ STRAIGHT;
            else { *word ^= bit; place = from ^ LEVEL_BACK; }
        }
    }
    *now_at = place;
    return steps;
}

static double now(void) {
    struct timespec clock;
    clock_gettime(CLOCK_PROCESS_CPUTIME_ID, &clock);
    return clock.tv_sec + clock.tv_nsec / 1e9;
}

static void *filled(size_t bytes) {
    void *there = malloc(bytes);
    if (!there) exit(9);
    return memset(there, 0xff, bytes);
}

static void wire(const uint32_t *order, uint32_t count, uint32_t *targets, uint32_t *sources) {
    for (uint32_t each = 0; each < count; each++) {
        uint32_t from = NUMBER(order[each], 2) ^ ACROSS, to = NUMBER(order[(each + 1) % count], 0);
        targets[from] = to;
        sources[to] = from;
    }
}

int main(int argc, char **argv) {
    if (argc != 3) return 2;
    size_t count = strtoul(argv[1], 0, 10);
    uint64_t steps = strtoull(argv[2], 0, 10);
    /* whole blocks, of 4 lines of 4 bytes an element */
    size_t lines = 16 * ((count + 1023) / 1024 * 1024);
    uint32_t *order = filled(4 * count), *targets = filled(lines), *sources = filled(lines);
    uint64_t *upright = filled(8 * (count / 16 + 1));
    if (!count || fread(order, 4, count, stdin) != count) return 3;
    wire(order, count, targets, sources);
    uint32_t first = NUMBER(order[0], 0), place = first;
    double begin = now();
    uint64_t there = forward(targets, upright, &place, steps);
    double middle = now();
    uint64_t again = back(sources, upright, &place, steps);
    double end = now();
    if (there != steps || again != steps || place != first) return 1;
    printf("%f %f\n", steps / (middle - begin) / 1e6, steps / (end - middle) / 1e6);
    return 0;
}
