/* How much of the stack each C function needs: the room below the call is painted, the function is called, and what is no
 * longer painted was needed. The dossiers are as deep as they come: a chain of 1,024 elements, and the same with 3,072 more
 * below its second to last. Fails where a function needs more than the header says. */
#include <nuggetvale.h>

long write(int, const void *, size_t);
void *memcpy(void *, const void *, size_t);

enum { ROOM = 1 << 20, PAINT = 0xA5, DEPTHS = 1024, MOST = 4096 };

static uint8_t dossier[MOST * 8], marked[MOST * 8], right[MOST * 8], rules[MOST * 16], out[MOST * 16], part[8];
static size_t size, rules_size;
static nv_walk walk;

typedef void (*work)(void);

static void read_(void) { nv_read(marked, size); }
static void list(void) { nv_list(marked, size, out, sizeof out); }
static void read_back(void) { nv_read_back(dossier, size, rules, rules_size); }
static void decide(void) { nv_decide(marked, size, rules, rules_size, rules, rules_size, 1, size / 8 - 1); }
static void deciding(void) { nv_deciding(marked, size, rules, rules_size, rules, rules_size, 1, size / 8 - 1, part); }
static void walk_fresh(void) { nv_walk_fresh(&walk); }
static void walk_step(void) { nv_walk_step(&walk, marked, 8); }
static void fold(void) { nv_fold(dossier, size); }
static void fold_for_1(void) { nv_fold_for(dossier, size, 1); }
static void fold_for_2(void) { nv_fold_for(dossier, size, 2); }
static void judge(void) { nv_judge(right, size); }
static void judge_for_1(void) { nv_judge_for(right, size, 1); }
static void judge_for_2(void) { nv_judge_for(right, size, 2); }
static void view(void) { nv_view(marked, size, out, sizeof out); }

static const struct {
    const char *name;
    work f;
    size_t allowed;
} calls[] = {
    {"nv_read", read_, NV_STACK_SMALL},          {"nv_list", list, NV_STACK_SMALL},
    {"nv_read_back", read_back, NV_STACK_SMALL}, {"nv_decide", decide, NV_STACK_SMALL},
    {"nv_deciding", deciding, NV_STACK_SMALL},   {"nv_walk_fresh", walk_fresh, NV_STACK_SMALL},
    {"nv_walk_step", walk_step, NV_STACK_SMALL}, {"nv_view", view, NV_STACK_SMALL},
    {"nv_fold", fold, NV_STACK},                 {"nv_fold_for 1", fold_for_1, NV_STACK},
    {"nv_fold_for 2", fold_for_2, NV_STACK},     {"nv_judge", judge, NV_STACK},
    {"nv_judge_for 1", judge_for_1, NV_STACK},   {"nv_judge_for 2", judge_for_2, NV_STACK},
};

/* ---- the stack: both functions are called from one place, so that their areas lie alike */

__attribute__((noinline)) static void paint(void)
{
    volatile uint8_t area[ROOM];
    for (size_t i = 0; i < ROOM; i++)
        area[i] = PAINT;
}

__attribute__((noinline)) static size_t unpainted(void)
{
    volatile uint8_t area[ROOM];
    size_t i = 0;
    while (i < ROOM && area[i] == PAINT)
        i++;
    return ROOM - i;
}

__attribute__((noinline)) static size_t needed(work f)
{
    f(); /* once before, so that what the loader binds late is bound */
    paint();
    f();
    return unpainted();
}

/* ---- dossiers: with no marks, with the folder's, and with - everywhere, which is right for every combining */

static void make(size_t n)
{
    size = n * 8;
    for (size_t i = 0; i < n; i++) {
        size_t depth = i < DEPTHS ? i : DEPTHS - 1;
        dossier[i * 8] = (uint8_t)depth;
        dossier[i * 8 + 1] = i % 3 == 1;
        dossier[i * 8 + 2] = 0;
        dossier[i * 8 + 3] = (uint8_t)(depth / 256);
    }
    memcpy(marked, dossier, size);
    nv_fold(marked, size);
    memcpy(right, dossier, size);
    for (size_t i = 0; i < n; i++)
        right[i * 8 + 2] = 1;
    rules_size = 8 * nv_list(marked, size, rules, sizeof rules);
}

static char line[128];

static void say(const char *name, size_t bytes)
{
    size_t at = 0;
    char digits[24];
    size_t n = 0;
    for (; name[at]; at++)
        line[at] = name[at];
    while (at < 16)
        line[at++] = ' ';
    do
        digits[n++] = (char)('0' + bytes % 10);
    while ((bytes /= 10) > 0);
    while (n > 0)
        line[at++] = digits[--n];
    line[at++] = '\n';
    if (write(1, line, at) < 0)
        return;
}

int main(void)
{
    int over = 0;
    for (size_t k = 0; k < sizeof calls / sizeof *calls; k++) {
        size_t most = 0;
        for (size_t n = DEPTHS; n <= MOST; n *= 4) {
            make(n);
            size_t found = needed(calls[k].f);
            most = most < found ? found : most;
        }
        say(calls[k].name, most);
        if (most > calls[k].allowed) {
            say("  MORE THAN", calls[k].allowed);
            over = 1;
        }
    }
    return over;
}
