/* Plain loops over arrays that do what crates/leaf_bench does with `judge`, a trail and a ring, for bench/leaves to time:
   `plain_loops PART ROUNDS` makes so many rounds and prints the same number. */
#include <stdint.h>
#include <stdio.h>
#include <stdlib.h>
#include <string.h>

/* ---- judge: the nodes of a rule in an array, the parts of each before it, and one pass over it */

typedef __int128 whole;

enum kind { WHOLE, SLOT, SUM, ALWAYS, AT_MOST, BOTH, NOT };
enum verdict { FALSE_, OPEN, TRUE_ };
enum { NODES = 50, BOX_SLOTS = 9 };

struct node { enum kind kind; uint32_t a, b; whole number; };
struct ends { int64_t low, high; };

static struct node nodes[NODES];
static uint32_t node_count;
static struct { whole least, greatest; } spans[NODES];
static enum verdict verdicts[NODES];

static uint32_t node(enum kind kind, uint32_t a, uint32_t b, whole number)
{
    nodes[node_count] = (struct node){ kind, a, b, number };
    return node_count++;
}

static void make_rule(void)
{
    uint32_t rule = node(ALWAYS, 0, 0, 0);
    for (uint32_t slot = 0; slot < BOX_SLOTS - 1; slot++) {
        uint32_t first = node(SLOT, slot, 0, 0);
        uint32_t next = node(SLOT, slot + 1, 0, 0);
        uint32_t nine = node(WHOLE, 0, 0, 9);
        uint32_t sum = node(SUM, next, nine, 0);
        uint32_t near = node(AT_MOST, first, sum, 0);
        rule = node(BOTH, near, rule, 0);
    }
    node(NOT, rule, 0, 0);
}

static __attribute__((noinline)) enum verdict judge(const struct ends *box)
{
    for (uint32_t i = 0; i < node_count; i++) {
        const struct node *n = &nodes[i];
        switch (n->kind) {
        case WHOLE:
            spans[i].least = n->number;
            spans[i].greatest = n->number;
            break;
        case SLOT:
            spans[i].least = box[n->a].low;
            spans[i].greatest = box[n->a].high;
            break;
        case SUM:
            spans[i].least = spans[n->a].least + spans[n->b].least;
            spans[i].greatest = spans[n->a].greatest + spans[n->b].greatest;
            break;
        case ALWAYS:
            verdicts[i] = TRUE_;
            break;
        case AT_MOST:
            verdicts[i] = spans[n->a].greatest <= spans[n->b].least  ? TRUE_
                          : spans[n->b].greatest < spans[n->a].least ? FALSE_
                                                                     : OPEN;
            break;
        case BOTH:
            verdicts[i] = verdicts[n->a] < verdicts[n->b] ? verdicts[n->a] : verdicts[n->b];
            break;
        case NOT:
            verdicts[i] = (enum verdict)(TRUE_ - verdicts[n->a]);
            break;
        }
    }
    return verdicts[node_count - 1];
}

static uint64_t open_verdicts(uint32_t rounds)
{
    struct ends narrow[BOX_SLOTS], wide[BOX_SLOTS];
    uint64_t count = 0;
    make_rule();
    for (uint32_t slot = 0; slot < BOX_SLOTS; slot++) {
        narrow[slot] = (struct ends){ 0, 3 };
        wide[slot] = (struct ends){ 0, 20 };
    }
    for (uint32_t round = 0; round < rounds; round++) {
        count += judge(narrow) == OPEN;
        count += judge(wide) == OPEN;
    }
    return count;
}

/* ---- a trail: the ends of each slot, and what was changed */

enum { TRAIL_SLOTS = 32 };

static int64_t low[TRAIL_SLOTS], high[TRAIL_SLOTS];
static uint32_t changed[TRAIL_SLOTS];
static int64_t was_low[TRAIL_SLOTS], was_high[TRAIL_SLOTS];
static uint32_t mark, room = TRAIL_SLOTS;

static __attribute__((noinline)) uint32_t set_and_undo(void)
{
    for (uint32_t slot = 0; slot < TRAIL_SLOTS; slot++) {
        if (mark < room && low[slot] < high[slot]) {
            changed[mark] = slot;
            was_low[mark] = low[slot];
            was_high[mark] = high[slot];
            mark++;
            high[slot]--;
        }
    }
    uint32_t made = mark;
    while (mark > 0) {
        mark--;
        low[changed[mark]] = was_low[mark];
        high[changed[mark]] = was_high[mark];
    }
    return made;
}

static uint64_t sets(uint32_t rounds)
{
    uint64_t count = 0;
    for (uint32_t slot = 0; slot < TRAIL_SLOTS; slot++) {
        low[slot] = 0;
        high[slot] = 9;
    }
    for (uint32_t round = 0; round < rounds; round++)
        count += set_and_undo();
    return count;
}

/* ---- a ring: the numbers after and before each, the end of the ring past the last */

enum { NUMBERS = 64 };

static uint32_t next[NUMBERS + 1], prev[NUMBERS + 1];

static void unlink_number(uint32_t i)
{
    next[prev[i]] = next[i];
    prev[next[i]] = prev[i];
    next[i] = i;
    prev[i] = i;
}

static int push_back(uint32_t i)
{
    if (next[i] != i)
        return 0;
    uint32_t last = prev[NUMBERS];
    next[last] = i;
    next[i] = NUMBERS;
    prev[NUMBERS] = i;
    prev[i] = last;
    return 1;
}

static int take_out(uint32_t i)
{
    if (next[i] == i)
        return 0;
    unlink_number(i);
    return 1;
}

static uint32_t pop_front(void)
{
    uint32_t i = next[NUMBERS];
    if (i == NUMBERS)
        return 0;
    unlink_number(i);
    return i;
}

static uint64_t answers(uint32_t rounds)
{
    uint64_t sum = 0;
    for (uint32_t i = 0; i <= NUMBERS; i++)
        next[i] = prev[i] = i;
    for (uint32_t round = 0; round < rounds; round++) {
        uint32_t number = round % NUMBERS;
        sum += push_back(number);
        sum += push_back((number * 5 + 17) % NUMBERS);
        sum += take_out(number * 3 % NUMBERS);
        sum += pop_front();
    }
    return sum;
}

int main(int count, char **words)
{
    if (count != 3)
        return 2;
    uint32_t rounds = (uint32_t)strtoul(words[2], NULL, 10);
    uint64_t total;
    if (!strcmp(words[1], "judge"))
        total = open_verdicts(rounds);
    else if (!strcmp(words[1], "trail"))
        total = sets(rounds);
    else if (!strcmp(words[1], "ring"))
        total = answers(rounds);
    else
        return 2;
    printf("%llu\n", (unsigned long long)total);
    return 0;
}
