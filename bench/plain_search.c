/* The search of crates/seeded_search in plain C over arrays, on the flat forms of crates/search_bench, for bench/search to time:
   `plain_search PART NUMBER` prints the same number as that program, and `plain_search PART NUMBER cuts` how many cuts it made. */
#include <stdint.h>
#include <stdio.h>
#include <stdlib.h>
#include <string.h>

typedef __int128 whole;

/* ---- rules and terms */

enum term_kind { WHOLE, SLOT, SUM, LESS, TIMES };
enum rule_kind { BELOW, AT_MOST, EQUAL, DIFFER, BOTH, EITHER };
enum verdict { FALSE_, OPEN, TRUE_ };

struct term { enum term_kind kind; uint32_t slot; whole number; const struct term *a, *b; };
struct rule { enum rule_kind kind; const struct term *x, *y; const struct rule *a, *b; };
struct span { whole least, greatest; };

static void *taken(size_t size)
{
    void *place = malloc(size ? size : 1);
    if (!place)
        exit(3);
    return place;
}

static const struct term *term(enum term_kind kind, uint32_t slot, whole number, const struct term *a, const struct term *b)
{
    struct term *t = taken(sizeof *t);
    *t = (struct term){ kind, slot, number, a, b };
    return t;
}

static const struct term *whole_of(whole number) { return term(WHOLE, 0, number, NULL, NULL); }
static const struct term *slot_of(uint32_t slot) { return term(SLOT, slot, 0, NULL, NULL); }
static const struct term *sum(const struct term *a, const struct term *b) { return term(SUM, 0, 0, a, b); }
static const struct term *less(const struct term *a, const struct term *b) { return term(LESS, 0, 0, a, b); }
static const struct term *times(const struct term *a, const struct term *b) { return term(TIMES, 0, 0, a, b); }

static const struct rule *rule(enum rule_kind kind, const struct term *x, const struct term *y, const struct rule *a, const struct rule *b)
{
    struct rule *r = taken(sizeof *r);
    *r = (struct rule){ kind, x, y, a, b };
    return r;
}

static const struct rule *compare(enum rule_kind kind, const struct term *x, const struct term *y) { return rule(kind, x, y, NULL, NULL); }
static const struct rule *join(enum rule_kind kind, const struct rule *a, const struct rule *b) { return rule(kind, NULL, NULL, a, b); }

/* ---- the box, and what it says of a rule */

static int64_t *low, *high;

static whole least_of(whole a, whole b) { return a < b ? a : b; }
static whole greatest_of(whole a, whole b) { return a < b ? b : a; }

static struct span span(const struct term *t)
{
    if (t->kind == WHOLE)
        return (struct span){ t->number, t->number };
    if (t->kind == SLOT)
        return (struct span){ low[t->slot], high[t->slot] };
    struct span a = span(t->a), b = span(t->b);
    if (t->kind == SUM)
        return (struct span){ a.least + b.least, a.greatest + b.greatest };
    if (t->kind == LESS)
        return (struct span){ a.least - b.greatest, a.greatest - b.least };
    whole p = a.least * b.least, q = a.least * b.greatest, r = a.greatest * b.least, s = a.greatest * b.greatest;
    return (struct span){ least_of(least_of(p, q), least_of(r, s)), greatest_of(greatest_of(p, q), greatest_of(r, s)) };
}

static enum verdict judge(const struct rule *r)
{
    if (r->kind == BOTH) {
        enum verdict a = judge(r->a);
        if (a == FALSE_)
            return a;
        enum verdict b = judge(r->b);
        return a < b ? a : b;
    }
    if (r->kind == EITHER) {
        enum verdict a = judge(r->a);
        if (a == TRUE_)
            return a;
        enum verdict b = judge(r->b);
        return a < b ? b : a;
    }
    struct span a = span(r->x), b = span(r->y);
    switch (r->kind) {
    case BELOW:
        return a.greatest < b.least ? TRUE_ : b.greatest <= a.least ? FALSE_ : OPEN;
    case AT_MOST:
        return a.greatest <= b.least ? TRUE_ : b.greatest < a.least ? FALSE_ : OPEN;
    default:;
        enum verdict same = a.greatest < b.least || b.greatest < a.least      ? FALSE_
                            : a.greatest <= b.least && b.greatest <= a.least ? TRUE_
                                                                             : OPEN;
        return r->kind == EQUAL ? same : (enum verdict)(TRUE_ - same);
    }
}

/* ---- flat forms, and which rule reads which slots */

struct list { uint32_t count, room, *items; };

static struct { uint32_t slots, rules, room; int64_t *low, *high; const struct rule **rule; } flat;
static struct list *slots_by_rule, *rules_by_slot;

static void push(struct list *list, uint32_t item)
{
    if (list->count == list->room) {
        list->room = list->room ? 2 * list->room : 4;
        list->items = realloc(list->items, list->room * sizeof *list->items);
        if (!list->items)
            exit(3);
    }
    list->items[list->count++] = item;
}

static void begin_flat(uint32_t slots)
{
    flat.slots = slots;
    flat.rules = flat.room = 0;
    flat.low = taken(slots * sizeof *flat.low);
    flat.high = taken(slots * sizeof *flat.high);
    flat.rule = NULL;
}

static void put_rule(const struct rule *r)
{
    if (flat.rules == flat.room) {
        flat.room = flat.room ? 2 * flat.room : 16;
        flat.rule = realloc(flat.rule, flat.room * sizeof *flat.rule);
        if (!flat.rule)
            exit(3);
    }
    flat.rule[flat.rules++] = r;
}

static void read_term(const struct term *t, struct list *list)
{
    if (t->kind == SLOT) {
        push(list, t->slot);
    } else if (t->kind != WHOLE) {
        read_term(t->a, list);
        read_term(t->b, list);
    }
}

static void read_rule(const struct rule *r, struct list *list)
{
    if (r->kind == BOTH || r->kind == EITHER) {
        read_rule(r->a, list);
        read_rule(r->b, list);
    } else {
        read_term(r->x, list);
        read_term(r->y, list);
    }
}

static int ascending(const void *a, const void *b)
{
    uint32_t x = *(const uint32_t *)a, y = *(const uint32_t *)b;
    return (x > y) - (x < y);
}

static void make_lists(void)
{
    slots_by_rule = calloc(flat.rules, sizeof *slots_by_rule);
    rules_by_slot = calloc(flat.slots, sizeof *rules_by_slot);
    for (uint32_t number = 0; number < flat.rules; number++) {
        struct list *list = &slots_by_rule[number];
        read_rule(flat.rule[number], list);
        qsort(list->items, list->count, sizeof *list->items, ascending);
        uint32_t kept = 0;
        for (uint32_t i = 0; i < list->count; i++)
            if (kept == 0 || list->items[kept - 1] != list->items[i])
                list->items[kept++] = list->items[i];
        list->count = kept;
        for (uint32_t i = 0; i < kept; i++)
            push(&rules_by_slot[list->items[i]], number);
    }
}

static void drop_lists(void)
{
    for (uint32_t i = 0; i < flat.rules; i++)
        free(slots_by_rule[i].items);
    for (uint32_t i = 0; i < flat.slots; i++)
        free(rules_by_slot[i].items);
    free(slots_by_rule);
    free(rules_by_slot);
}

/* ---- the record, the trail, the queue, the rules that are done, and the decisions */

enum side { LOW, HIGH };
enum line_kind { LOW_LINE, HIGH_LINE, CLOSE_LINE, OPEN_LINE };

struct line { enum line_kind kind; uint32_t number; int64_t value; };
struct change { uint32_t slot; int64_t low, high; };
struct cut { enum side side; uint32_t slot; int64_t value; };
struct decision { struct cut cut; uint32_t mark, marked; };

static struct line *lines;
static struct change *changes;
static struct decision *decisions;
static uint32_t *next, *prev, *done_list;
static uint8_t *is_done;
static uint32_t line_count, mark, decision_count, done_count, made, deepest, cuts;

static void set(uint32_t slot, int64_t new_low, int64_t new_high)
{
    changes[mark++] = (struct change){ slot, low[slot], high[slot] };
    low[slot] = new_low;
    high[slot] = new_high;
}

static void undo_to(uint32_t to)
{
    while (mark > to) {
        struct change was = changes[--mark];
        low[was.slot] = was.low;
        high[was.slot] = was.high;
    }
}

static void unlink_number(uint32_t i)
{
    next[prev[i]] = next[i];
    prev[next[i]] = prev[i];
    next[i] = prev[i] = i;
}

static void push_back(uint32_t i)
{
    uint32_t end = flat.rules;
    if (next[i] != i)
        return;
    next[prev[end]] = i;
    prev[i] = prev[end];
    next[i] = end;
    prev[end] = i;
}

static void retire_number(uint32_t number)
{
    if (!is_done[number]) {
        is_done[number] = 1;
        done_list[done_count++] = number;
    }
}

static void unmark_to(uint32_t count)
{
    while (done_count > count)
        is_done[done_list[--done_count]] = 0;
}

static void note(enum line_kind kind, uint32_t number, int64_t value)
{
    lines[line_count++] = (struct line){ kind, number, value };
}

static void count_cut(void)
{
    made++;
    if (mark > deepest)
        deepest = mark;
}

/* ---- the seed's numbers: two words each of ChaCha with 8 rounds */

static uint32_t key[8], words[16], word_at;
static uint64_t block;

static uint32_t turned(uint32_t x, int by) { return x << by | x >> (32 - by); }

static void quarter(uint32_t *s, int a, int b, int c, int d)
{
    s[a] += s[b]; s[d] = turned(s[d] ^ s[a], 16);
    s[c] += s[d]; s[b] = turned(s[b] ^ s[c], 12);
    s[a] += s[b]; s[d] = turned(s[d] ^ s[a], 8);
    s[c] += s[d]; s[b] = turned(s[b] ^ s[c], 7);
}

static void next_block(void)
{
    uint32_t start[16] = { 0x61707865, 0x3320646e, 0x79622d32, 0x6b206574, key[0], key[1], key[2], key[3], key[4], key[5], key[6], key[7],
                           (uint32_t)block, (uint32_t)(block >> 32), 0, 0 };
    memcpy(words, start, sizeof words);
    for (int round = 0; round < 4; round++) {
        quarter(words, 0, 4, 8, 12);
        quarter(words, 1, 5, 9, 13);
        quarter(words, 2, 6, 10, 14);
        quarter(words, 3, 7, 11, 15);
        quarter(words, 0, 5, 10, 15);
        quarter(words, 1, 6, 11, 12);
        quarter(words, 2, 7, 8, 13);
        quarter(words, 3, 4, 9, 14);
    }
    for (int i = 0; i < 16; i++)
        words[i] += start[i];
    block++;
    word_at = 0;
}

static void begin_draws(uint64_t seed)
{
    memset(key, 0, sizeof key);
    key[0] = (uint32_t)seed;
    key[1] = (uint32_t)(seed >> 32);
    block = 0;
    word_at = 16;
}

static uint32_t next_word(void)
{
    if (word_at == 16)
        next_block();
    return words[word_at++];
}

static struct cut drawn(uint32_t slot)
{
    uint64_t number = next_word();
    number |= (uint64_t)next_word() << 32;
    uint64_t width = (uint64_t)high[slot] - (uint64_t)low[slot];
    int64_t picked = low[slot] + (int64_t)(number / 4 % width);
    switch (number % 4) {
    case 0:
        return (struct cut){ LOW, slot, low[slot] };
    case 1:
        return (struct cut){ HIGH, slot, high[slot] - 1 };
    case 2:
        return (struct cut){ LOW, slot, picked };
    default:
        return (struct cut){ HIGH, slot, picked };
    }
}

/* ---- turns */

enum step { NONE, CUT, SPENT };
enum turn { OVER, CUT_MADE, CLOSED, ALL_SPENT };

static int64_t value_of(enum side side, uint32_t slot, uint64_t count)
{
    return side == LOW ? low[slot] + (int64_t)(count - 1) : high[slot] - (int64_t)count;
}

static int is_false_on(const struct rule *r, uint32_t slot, enum side side, uint64_t count)
{
    int64_t was_low = low[slot], was_high = high[slot], value = value_of(side, slot, count);
    if (side == LOW)
        high[slot] = value;
    else
        low[slot] = value + 1;
    enum verdict verdict = judge(r);
    low[slot] = was_low;
    high[slot] = was_high;
    return verdict == FALSE_;
}

static int longest(const struct rule *r, uint32_t slot, enum side side, int64_t *value)
{
    if (low[slot] == high[slot] || !is_false_on(r, slot, side, 1))
        return 0;
    uint64_t least = 1, most = (uint64_t)high[slot] - (uint64_t)low[slot];
    while (least < most) {
        uint64_t half = most - (most - least) / 2;
        if (is_false_on(r, slot, side, half))
            least = half;
        else
            most = half - 1;
    }
    *value = value_of(side, slot, least);
    return 1;
}

static void wake(uint32_t slot)
{
    const struct list *list = &rules_by_slot[slot];
    for (uint32_t i = 0; i < list->count; i++)
        if (!is_done[list->items[i]])
            push_back(list->items[i]);
}

static int is_fixed(const struct list *list)
{
    for (uint32_t i = 0; i < list->count; i++)
        if (low[list->items[i]] != high[list->items[i]])
            return 0;
    return 1;
}

static void retire(uint32_t slot)
{
    if (low[slot] != high[slot])
        return;
    const struct list *list = &rules_by_slot[slot];
    for (uint32_t i = 0; i < list->count; i++) {
        uint32_t number = list->items[i];
        if (!is_done[number] && is_fixed(&slots_by_rule[number]) && judge(flat.rule[number]) == TRUE_) {
            if (next[number] != number)
                unlink_number(number);
            retire_number(number);
        }
    }
}

static void enter(struct cut cut, int first)
{
    if ((cut.side == LOW) == first)
        set(cut.slot, low[cut.slot], cut.value);
    else
        set(cut.slot, cut.value + 1, high[cut.slot]);
}

static enum step narrow(uint32_t number, uint32_t slot, enum side side)
{
    struct cut cut = { side, slot, 0 };
    if (!longest(flat.rule[number], slot, side, &cut.value))
        return NONE;
    if (made == cuts)
        return SPENT;
    note(side == LOW ? LOW_LINE : HIGH_LINE, slot, cut.value);
    note(CLOSE_LINE, number, 0);
    enter(cut, 0);
    count_cut();
    wake(slot);
    retire(slot);
    return CUT;
}

static enum step sweep(uint32_t number)
{
    const struct list *list = &slots_by_rule[number];
    enum step step = NONE;
    for (uint32_t i = 0; i < list->count; i++) {
        for (enum side side = LOW; side <= HIGH; side++) {
            enum step one = narrow(number, list->items[i], side);
            if (one == SPENT)
                return SPENT;
            if (one == CUT)
                step = CUT;
        }
    }
    return step;
}

static enum turn take_turn(uint32_t number)
{
    switch (judge(flat.rule[number])) {
    case FALSE_:
        return CLOSED;
    case TRUE_:
        retire_number(number);
        return OVER;
    default:;
        enum step step = sweep(number);
        if (step == SPENT)
            push_back(number);
        return step == NONE ? OVER : step == CUT ? CUT_MADE : ALL_SPENT;
    }
}

/* ---- the course of the search */

enum end { GOES_ON, POINT, REFUTED, UNDECIDED };

static enum end close_by(uint32_t number)
{
    note(CLOSE_LINE, number, 0);
    if (decision_count == 0) {
        undo_to(0);
        return REFUTED;
    }
    struct decision last = decisions[--decision_count];
    undo_to(last.mark);
    unmark_to(last.marked);
    enter(last.cut, 0);
    while (next[flat.rules] != flat.rules)
        unlink_number(next[flat.rules]);
    wake(last.cut.slot);
    retire(last.cut.slot);
    return GOES_ON;
}

static enum end give_up(void)
{
    for (uint32_t number = 0; number < flat.rules; number++)
        if (judge(flat.rule[number]) == FALSE_)
            return close_by(number);
    return UNDECIDED;
}

static enum end settle(void)
{
    uint32_t slot = 0;
    while (slot < flat.slots && low[slot] == high[slot])
        slot++;
    if (slot == flat.slots)
        return POINT;
    if (made == cuts)
        return give_up();
    struct cut cut = drawn(slot);
    note(cut.side == LOW ? LOW_LINE : HIGH_LINE, slot, cut.value);
    decisions[decision_count++] = (struct decision){ cut, mark, done_count };
    enter(cut, 1);
    count_cut();
    wake(slot);
    retire(slot);
    return GOES_ON;
}

static enum end advance(void)
{
    while (next[flat.rules] != flat.rules) {
        uint32_t number = next[flat.rules];
        unlink_number(number);
        switch (take_turn(number)) {
        case OVER:
            break;
        case CUT_MADE:
            return GOES_ON;
        case CLOSED:
            return close_by(number);
        case ALL_SPENT:
            return give_up();
        }
    }
    return settle();
}

static enum end search(uint64_t seed)
{
    line_count = mark = decision_count = done_count = made = deepest = 0;
    begin_draws(seed);
    for (uint32_t number = 0; number < flat.rules; number++)
        push_back(number);
    for (;;) {
        enum end end = advance();
        if (end == GOES_ON)
            continue;
        if (end == UNDECIDED)
            for (uint32_t left = 1 + decision_count; left > 0; left--)
                note(OPEN_LINE, 0, 0);
        return end;
    }
}

/* ---- a search with the memory that it takes, and a number that depends on all of its answer */

static uint64_t mixed(uint64_t sum, uint64_t number) { return sum * 31 + number; }

static uint64_t total_of(enum end end)
{
    uint64_t sum = 0;
    if (end == POINT) {
        for (uint32_t slot = 0; slot < flat.slots; slot++)
            sum = mixed(sum, (uint64_t)llabs(low[slot]));
        return sum;
    }
    sum = mixed(sum, deepest);
    for (uint32_t i = 0; i < line_count; i++)
        sum = mixed(mixed(mixed(sum, lines[i].kind), lines[i].number), (uint64_t)llabs(lines[i].value));
    return sum;
}

static uint64_t searched(uint64_t seed, uint32_t most, uint64_t *cuts_made)
{
    cuts = most;
    make_lists();
    lines = taken((2 * (size_t)most + 1) * sizeof *lines);
    changes = taken((size_t)most * sizeof *changes);
    decisions = taken((size_t)most * sizeof *decisions);
    next = taken((flat.rules + 1) * sizeof *next);
    prev = taken((flat.rules + 1) * sizeof *prev);
    done_list = taken(flat.rules * sizeof *done_list);
    is_done = calloc(flat.rules, 1);
    low = taken(flat.slots * sizeof *low);
    high = taken(flat.slots * sizeof *high);
    memcpy(low, flat.low, flat.slots * sizeof *low);
    memcpy(high, flat.high, flat.slots * sizeof *high);
    for (uint32_t i = 0; i <= flat.rules; i++)
        next[i] = prev[i] = i;
    uint64_t total = total_of(search(seed));
    *cuts_made += made;
    drop_lists();
    void *places[] = { lines, changes, decisions, next, prev, done_list, is_done, low, high };
    for (size_t i = 0; i < sizeof places / sizeof *places; i++)
        free(places[i]);
    return total;
}

/* ---- the flat forms */

static void root(void)
{
    begin_flat(1);
    flat.low[0] = 0;
    flat.high[0] = 1000000;
    put_rule(compare(EQUAL, times(slot_of(0), slot_of(0)), whole_of(2)));
}

static void circle(void)
{
    begin_flat(3);
    for (uint32_t slot = 0; slot < 3; slot++) {
        flat.low[slot] = -1000000000;
        flat.high[slot] = 1000000000;
    }
    for (uint32_t slot = 0; slot < 3; slot++)
        put_rule(compare(EQUAL, sum(slot_of(slot), whole_of(1)), slot_of((slot + 1) % 3)));
}

enum { TICKS = 100 };
enum part { LANE, POSITION, SPEED };

static const struct term *at(uint32_t vehicle, uint32_t tick, enum part part)
{
    return slot_of((vehicle * TICKS + tick) * 3 + part);
}

static const struct rule *within(const struct term *x, const struct term *y, whole least, whole greatest)
{
    return join(BOTH, compare(AT_MOST, whole_of(least), x), compare(AT_MOST, y, whole_of(greatest)));
}

static void put_step(uint32_t vehicle, uint32_t tick)
{
    put_rule(compare(EQUAL, at(vehicle, tick + 1, POSITION), sum(at(vehicle, tick, POSITION), at(vehicle, tick, SPEED))));
    put_rule(compare(AT_MOST, less(at(vehicle, tick + 1, SPEED), at(vehicle, tick, SPEED)), whole_of(30)));
    put_rule(compare(AT_MOST, less(at(vehicle, tick, SPEED), at(vehicle, tick + 1, SPEED)), whole_of(80)));
    put_rule(compare(AT_MOST, less(at(vehicle, tick + 1, LANE), at(vehicle, tick, LANE)), whole_of(1)));
    put_rule(compare(AT_MOST, less(at(vehicle, tick, LANE), at(vehicle, tick + 1, LANE)), whole_of(1)));
}

static void put_apart(uint32_t tick)
{
    const struct rule *ahead = compare(AT_MOST, sum(at(0, tick, POSITION), whole_of(5000)), at(1, tick, POSITION));
    const struct rule *after = compare(AT_MOST, sum(at(1, tick, POSITION), whole_of(5000)), at(0, tick, POSITION));
    put_rule(join(EITHER, compare(DIFFER, at(0, tick, LANE), at(1, tick, LANE)), join(EITHER, ahead, after)));
}

static void two_vehicles(void)
{
    static const int64_t greatest[] = { 2, 1000000, 5000 };
    begin_flat(2 * TICKS * 3);
    for (uint32_t slot = 0; slot < flat.slots; slot++) {
        flat.low[slot] = 0;
        flat.high[slot] = greatest[slot % 3];
    }
    for (uint32_t vehicle = 0; vehicle < 2; vehicle++) {
        for (uint32_t tick = 0; tick < TICKS; tick++)
            put_rule(within(at(vehicle, tick, SPEED), at(vehicle, tick, SPEED), 1000, 4000));
        for (uint32_t tick = 0; tick + 1 < TICKS; tick++)
            put_step(vehicle, tick);
    }
    for (uint32_t tick = 0; tick < TICKS; tick++)
        put_apart(tick);
    /* the first vehicle starts in the lane of the second and 20 m after it, and ends 20 m before it in the same lane */
    put_rule(compare(EQUAL, at(0, 0, LANE), at(1, 0, LANE)));
    put_rule(compare(EQUAL, sum(at(0, 0, POSITION), whole_of(20000)), at(1, 0, POSITION)));
    put_rule(compare(EQUAL, at(0, TICKS - 1, LANE), at(1, TICKS - 1, LANE)));
    put_rule(compare(EQUAL, at(0, TICKS - 1, POSITION), sum(at(1, TICKS - 1, POSITION), whole_of(20000))));
}

int main(int count, char **word)
{
    if (count != 3 && count != 4)
        return 2;
    uint32_t number = (uint32_t)strtoul(word[2], NULL, 10);
    uint64_t total = 0, cuts_made = 0;
    if (!strcmp(word[1], "root")) {
        root();
        for (uint32_t seed = 0; seed < number; seed++)
            total = mixed(total, searched(seed, 10, &cuts_made));
    } else if (!strcmp(word[1], "below")) {
        circle();
        total = searched(0, number, &cuts_made);
    } else if (!strcmp(word[1], "field")) {
        two_vehicles();
        for (uint32_t seed = 0; seed < number; seed++)
            total = mixed(total, searched(seed, 20000, &cuts_made));
    } else {
        return 2;
    }
    printf("%llu\n", (unsigned long long)(count == 4 ? cuts_made : total));
    return 0;
}
