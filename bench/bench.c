/* Times each C function beside the same work in plain C (baseline.c), in one binary and one run: the ratio of the two
 * times, and how the library's time grows when the number of elements doubles; then the walk by the record, and what
 * stopping early saves where one element is decided. Times alone say little, ratios more. Different dossiers are taken
 * in turn, with as many elements in all for every size: a processor learns the way through a few that it sees again and
 * again. */
#include "baseline.h"

long write(int, const void *, size_t);
void *memcpy(void *, const void *, size_t);
void exit(int);

struct timespec {
    long seconds, nanoseconds;
};

int clock_gettime(int, struct timespec *);

static double now(void)
{
    struct timespec t;
    clock_gettime(1, &t);
    return (double)t.seconds * 1e9 + (double)t.nanoseconds;
}

/* ---- printing */

static char line[256];
static size_t at;

static void text(const char *s, size_t width)
{
    size_t n = 0;
    for (; s[n]; n++)
        line[at++] = s[n];
    for (; n < width; n++)
        line[at++] = ' ';
}

static void number(uint64_t v, size_t width)
{
    char digits[24];
    size_t n = 0;
    do
        digits[n++] = (char)('0' + v % 10);
    while ((v /= 10) > 0);
    for (size_t i = n; i < width; i++)
        line[at++] = ' ';
    while (n > 0)
        line[at++] = digits[--n];
}

/* two digits behind the point */
static void fraction(double x, size_t width)
{
    uint64_t hundredths = (uint64_t)(x * 100 + 0.5);
    number(hundredths / 100, width - 3);
    line[at++] = '.';
    line[at++] = (char)('0' + hundredths / 10 % 10);
    line[at++] = (char)('0' + hundredths % 10);
}

static void end(void)
{
    line[at++] = '\n';
    if (write(1, line, at) < 0)
        exit(1);
    at = 0;
}

/* ---- dossiers */

enum { MOST = 4096 };

static uint32_t seed;

static uint32_t draw(uint32_t below)
{
    seed = seed * 1664525u + 1013904223u;
    return (uint32_t)((uint64_t)(seed >> 8) * below >> 24);
}

/* the same in all dossiers, so that one list can stand for all */
static uint32_t key_of(size_t i) { return (uint32_t)i * 2654435761u; }

/* 0 a chain that starts again at depth 1 once it is 63 deep, 1 a star, 2 any depths to 63, 3 a chain that starts again
 * once it is 1,023 deep; one element in so many is denied */
static void make(uint8_t *d, size_t n, int shape, uint32_t denied)
{
    unsigned depth = 0;
    for (size_t i = 0; i < n; i++) {
        if (i > 0)
            depth = shape == 0   ? depth % 63 + 1
                    : shape == 1 ? 1
                    : shape == 2 ? 1 + draw(depth < 63 ? depth + 1 : 63)
                                 : depth % 1023 + 1;
        d[i * 8] = (uint8_t)depth;
        d[i * 8 + 1] = draw(denied) != 0;
        d[i * 8 + 2] = 0;
        d[i * 8 + 3] = (uint8_t)(depth / 256);
        uint32_t key = key_of(i);
        memcpy(d + i * 8 + 4, &key, 4);
    }
}

/* ---- what is timed: one call of each kind, by the library or by the baseline */

enum { ALL = 65536 }; /* elements of all dossiers of one size */

/* a dossier, and the same with the least marks: by the walk, where deny and where permit overrides */
typedef struct given {
    uint8_t *dossier, *marked, *denying, *permitting;
    uint8_t *opened; /* another, with little denied, and its marks */
    uint8_t *rules;
    size_t size, rules_size;
} given;

/* the dossiers of one size, and where their bytes are */
typedef struct set {
    given each[ALL / 32];
    size_t count;
    uint8_t dossiers[5][ALL * 8], rules[ALL * 16];
} set;

static set halves, wholes;
static const given *g; /* what the next call takes */
static uint8_t out[MOST * 16], far[MOST * 16];

typedef uint64_t (*work)(void);

static uint64_t lib_read(void) { return nv_read(g->marked, g->size); }
static uint64_t c_read(void) { return base_read(g->marked, g->size); }
static uint64_t lib_list(void) { return nv_list(g->marked, g->size, out, sizeof out); }
static uint64_t c_list(void) { return base_list(g->marked, g->size, out, sizeof out); }
static uint64_t lib_back(void) { return nv_read_back(g->dossier, g->size, g->rules, g->rules_size); }
static uint64_t c_back(void) { return base_read_back(g->dossier, g->size, g->rules, g->rules_size); }
static uint64_t lib_decide(void) { return nv_decide(g->marked, g->size, g->rules, g->rules_size, g->rules, 0, 0, g->size / 8 - 1); }
static uint64_t c_decide(void) { return base_decide(g->marked, g->size, g->rules, g->rules_size, g->rules, 0, 0, g->size / 8 - 1); }
static uint64_t lib_far(void) { return nv_decide(g->marked, g->size, far, sizeof far, far, 0, 0, g->size / 8 - 1); }
static uint64_t c_far(void) { return base_decide(g->marked, g->size, far, sizeof far, far, 0, 0, g->size / 8 - 1); }
static uint64_t c_far_all(void) { return base_decide_reading_all(g->marked, g->size, far, sizeof far, far, 0, 0, g->size / 8 - 1); }
static uint64_t lib_fold(void) { return nv_fold(g->dossier, g->size); }
static uint64_t c_fold(void) { return base_fold(g->dossier, g->size); }
static uint64_t lib_judge(void) { return nv_judge(g->marked, g->size); }
static uint64_t c_judge(void) { return base_judge(g->marked, g->size); }
static uint64_t lib_fold_1(void) { return nv_fold_for(g->dossier, g->size, 1); }
static uint64_t c_fold_1(void) { return base_fold_for(g->dossier, g->size, 1); }
static uint64_t lib_fold_2(void) { return nv_fold_for(g->dossier, g->size, 2); }
static uint64_t c_fold_2(void) { return base_fold_for(g->dossier, g->size, 2); }
static uint64_t lib_judge_1(void) { return nv_judge_for(g->denying, g->size, 1); }
static uint64_t c_judge_1(void) { return base_judge_for(g->denying, g->size, 1); }
static uint64_t lib_judge_2(void) { return nv_judge_for(g->permitting, g->size, 2); }
static uint64_t c_judge_2(void) { return base_judge_for(g->permitting, g->size, 2); }
static uint64_t lib_view(void) { return nv_view(g->opened, g->size, out, sizeof out); }
static uint64_t c_view(void) { return base_view(g->opened, g->size, out, sizeof out); }

/* all records through one walk */
static uint64_t steps(void (*fresh)(nv_walk *), uint64_t (*step)(nv_walk *, const uint8_t *, size_t))
{
    nv_walk walk;
    uint64_t sum = 0;
    fresh(&walk);
    for (size_t i = 0; i < g->size; i += 8)
        sum += step(&walk, g->marked + i, 8);
    return sum;
}

static uint64_t lib_steps(void) { return steps(nv_walk_fresh, nv_walk_step); }
static uint64_t c_steps(void) { return steps(base_walk_fresh, base_walk_step); }
static uint64_t c_steps_64(void) { return steps(base_walk_fresh_64, base_walk_step_64); }

/* what is compared, from so many elements on */
static const struct {
    const char *name;
    work lib, c;
    size_t from;
} kinds[] = {
    {"read", lib_read, c_read, 64},
    {"list", lib_list, c_list, 64},
    {"read back", lib_back, c_back, 64},
    {"decide", lib_decide, c_decide, 64},
    {"decide far", lib_far, c_far, MOST},
    {"walk", lib_steps, c_steps, 64},
    {"fold", lib_fold, c_fold, 64},
    {"fold for 1", lib_fold_1, c_fold_1, 64},
    {"fold for 2", lib_fold_2, c_fold_2, 64},
    {"judge", lib_judge, c_judge, 64},
    {"judge for 1", lib_judge_1, c_judge_1, 64},
    {"judge for 2", lib_judge_2, c_judge_2, 64},
    {"view", lib_view, c_view, 64},
};

static uint64_t kept;

/* The time of one call, in nanoseconds, where all dossiers are taken so often. */
static double once(work f, const set *s, unsigned turns)
{
    double from = now();
    for (unsigned i = 0; i < turns; i++)
        for (g = s->each; g < s->each + s->count; g++)
            kept += f();
    return (now() - from) / (double)(turns * s->count);
}

static unsigned turns_for(work f, const set *s)
{
    unsigned turns = 1;
    while (once(f, s, turns) * (double)(turns * s->count) < 2e6)
        turns *= 2;
    return turns;
}

/* two times, taken one right after the other */
typedef struct pair {
    double a, b;
} pair;

enum { ROUNDS = 25 };

/* The pair with the middle ratio: a machine that changes its speed now and then changes both times of most pairs alike. */
static pair middle(pair *pairs)
{
    for (size_t i = 1; i < ROUNDS; i++)
        for (size_t k = i; k > 0 && pairs[k].a * pairs[k - 1].b < pairs[k - 1].a * pairs[k].b; k--) {
            pair p = pairs[k];
            pairs[k] = pairs[k - 1];
            pairs[k - 1] = p;
        }
    return pairs[ROUNDS / 2];
}

/* As many rules as a list holds, all cascading, on the sixteen elements behind the root. None of the shapes has its last
 * element below one of these, once it has 2,048. */
static void aim_far(void)
{
    for (size_t i = 0; i < sizeof far; i += 8) {
        size_t target = 1 + i / 8 % 16;
        uint32_t key = key_of(target);
        far[i] = (uint8_t)target;
        far[i + 1] = 0;
        far[i + 2] = i / 8 % 2;
        far[i + 3] = 1;
        memcpy(far + i + 4, &key, 4);
    }
}

static void prepare(set *s, size_t n, int shape)
{
    seed = (uint32_t)n * 3u + (uint32_t)shape;
    s->count = ALL / n;
    for (size_t i = 0; i < s->count; i++) {
        given *to = &s->each[i];
        size_t size = n * 8, at = i * size;
        *to = (given){s->dossiers[0] + at, s->dossiers[1] + at, s->dossiers[2] + at, s->dossiers[3] + at, s->dossiers[4] + at,
                      s->rules + at * 2, size, 0};
        make(to->dossier, n, shape, 2);
        memcpy(to->marked, to->dossier, size);
        base_fold(to->marked, size);
        memcpy(to->denying, to->dossier, size);
        base_fold_for(to->denying, size, 1);
        memcpy(to->permitting, to->dossier, size);
        base_fold_for(to->permitting, size, 2);
        to->rules_size = 8 * base_list(to->marked, size, to->rules, size * 2);
        make(to->opened, n, shape, 16);
        to->opened[1] = 1;
        base_fold(to->opened, size);
    }
}

static const size_t sizes[] = {64, 512, 4096};
static const char *const shapes[] = {"chain", "star", "random", "deep"};
enum { DEEP = 3, DEEPLY = 1024 };

static void differ(work a, work b)
{
    for (g = wholes.each; g < wholes.each + wholes.count; g++)
        if (a() != b()) {
            text("  THE REPLIES DIFFER", 0);
            return;
        }
}

/* One function beside the baseline's, with what it takes for half the elements. */
static void row(size_t k, int shape, size_t n)
{
    if (n < kinds[k].from)
        return;
    pair beside[ROUNDS], doubled[ROUNDS];
    prepare(&halves, n / 2, shape);
    prepare(&wholes, n, shape);
    unsigned half_turns = turns_for(kinds[k].lib, &halves);
    unsigned lib_turns = turns_for(kinds[k].lib, &wholes), c_turns = turns_for(kinds[k].c, &wholes);
    for (size_t i = 0; i < ROUNDS; i++) {
        double half = once(kinds[k].lib, &halves, half_turns), lib = once(kinds[k].lib, &wholes, lib_turns);
        beside[i] = (pair){lib, once(kinds[k].c, &wholes, c_turns)};
        doubled[i] = (pair){lib, half};
    }
    pair m = middle(beside), grown = middle(doubled);
    text(kinds[k].name, 12);
    text(shapes[shape], 8);
    number(n, 8);
    number((uint64_t)m.a, 13);
    number((uint64_t)m.b, 11);
    fraction(m.a / m.b, 7);
    fraction(grown.a / grown.b, 8);
    differ(kinds[k].lib, kinds[k].c);
    end();
}

static void beside_c(void)
{
    text("function    shape   elements   library ns       C ns  ratio  growth per doubling", 0);
    end();
    for (size_t k = 0; k < sizeof kinds / sizeof *kinds; k++) {
        for (int shape = 0; shape < DEEP; shape++)
            for (int s = 0; s < 3; s++)
                row(k, shape, sizes[s]);
        row(k, DEEP, DEEPLY);
    }
}

/* The walk by the record: the baseline with 64 places, as before request M-103, and the library with 1,024. */
static void by_the_record(void)
{
    text("walk        shape   elements    before ns   after ns  a record", 0);
    end();
    for (int shape = 0; shape < DEEP; shape++) {
        pair pairs[ROUNDS];
        prepare(&wholes, MOST, shape);
        unsigned before_turns = turns_for(c_steps_64, &wholes), after_turns = turns_for(lib_steps, &wholes);
        for (size_t i = 0; i < ROUNDS; i++) {
            double before = once(c_steps_64, &wholes, before_turns);
            pairs[i] = (pair){before / MOST, once(lib_steps, &wholes, after_turns) / MOST};
        }
        pair m = middle(pairs);
        text("", 12);
        text(shapes[shape], 8);
        number(MOST, 8);
        number((uint64_t)(m.a + 0.5), 13);
        number((uint64_t)(m.b + 0.5), 11);
        differ(c_steps_64, lib_steps);
        end();
    }
}

/* Deciding far behind the targets: the baseline reading every record between, as before request M-101, and the library. */
static void before_and_after(void)
{
    text("decide far  shape   elements    before ns   after ns  before over after", 0);
    end();
    for (int shape = 0; shape < 3; shape++) {
        pair pairs[ROUNDS];
        prepare(&wholes, MOST, shape);
        unsigned before_turns = turns_for(c_far_all, &wholes), after_turns = turns_for(lib_far, &wholes);
        for (size_t i = 0; i < ROUNDS; i++) {
            double before = once(c_far_all, &wholes, before_turns);
            pairs[i] = (pair){before, once(lib_far, &wholes, after_turns)};
        }
        pair m = middle(pairs);
        text("", 12);
        text(shapes[shape], 8);
        number(MOST, 8);
        number((uint64_t)m.a, 13);
        number((uint64_t)m.b, 11);
        fraction(m.a / m.b, 9);
        differ(c_far_all, lib_far);
        end();
    }
}

int main(void)
{
    aim_far();
    beside_c();
    end();
    by_the_record();
    end();
    before_and_after();
    return 0;
}
