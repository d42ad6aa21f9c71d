/* What a careful C programmer would write for the functions of include/nuggetvale.h: the same algorithms and the same
 * refusals, for the benchmark to compare with. Nothing here is proved. */
#include "baseline.h"

void *memcpy(void *, const void *, size_t);
void *memset(void *, int, size_t);
int memcmp(const void *, const void *, size_t);

static uint64_t refusal(uint64_t number, uint64_t list, uint64_t position)
{
    return (1ull << 63) + (number << 40) + (list << 32) + position;
}

static int refused(uint64_t reply) { return reply >> 63 != 0; }

/* ---- reading */

enum { DEEPEST = 1023, DEPTHS };

static size_t depth_of(const uint8_t *r) { return r[0] + 256u * r[3]; }

static unsigned fault(size_t low, size_t high, size_t depth, unsigned decision, unsigned mark)
{
    if (depth > DEEPEST)
        return 5;
    if (depth < low || depth > high)
        return 4;
    if (decision > 1 || mark > 3)
        return 6;
    return 0;
}

uint64_t base_read(const uint8_t *d, size_t len)
{
    if (len == 0)
        return refusal(1, 0, 0);
    if (len % 8)
        return refusal(2, 0, 0);
    if (len > 32768)
        return refusal(3, 0, 0);
    size_t n = len / 8;
    size_t low = 0, high = 0;
    for (size_t i = 0; i < n; i++) {
        const uint8_t *r = d + i * 8;
        size_t depth = depth_of(r);
        unsigned number = fault(low, high, depth, r[1], r[2]);
        if (number)
            return refusal(number, 0, i);
        low = 1;
        high = depth + 1;
    }
    return n;
}

static size_t target_of(const uint8_t *r) { return r[0] + 256u * r[1]; }

static uint64_t read_rules(const uint8_t *d, size_t n, const uint8_t *rules, size_t len, uint64_t list)
{
    if (len % 8)
        return refusal(2, list, 0);
    if (len > 65536)
        return refusal(3, list, 0);
    for (size_t i = 0; i < len / 8; i++) {
        const uint8_t *r = rules + i * 8;
        size_t target = target_of(r);
        if (target >= n || r[2] > 1 || r[3] > 1 || memcmp(r + 4, d + target * 8 + 4, 4) != 0)
            return refusal(7, list, i);
    }
    return len / 8;
}

/* ---- deciding */

static int below(const uint8_t *d, size_t upper, size_t lower)
{
    if (lower < upper)
        return 0;
    size_t shallowest = depth_of(d + upper * 8);
    for (size_t i = upper + 1; i <= lower; i++)
        if (depth_of(d + i * 8) <= shallowest)
            return 0;
    return 1;
}

/* The same as it was before request M-101: it reads every record between the two. */
static int below_reading_all(const uint8_t *d, size_t upper, size_t lower)
{
    if (lower < upper)
        return 0;
    int inside = 1;
    size_t shallowest = depth_of(d + upper * 8);
    for (size_t i = upper + 1; i <= lower; i++)
        inside &= depth_of(d + i * 8) > shallowest;
    return inside;
}

static int applies(const uint8_t *d, const uint8_t *rule, size_t element, int all)
{
    size_t target = target_of(rule);
    if (rule[3] == 0)
        return target == element;
    return all ? below_reading_all(d, target, element) : below(d, target, element);
}

static size_t first_applying(const uint8_t *d, const uint8_t *rules, size_t count, size_t element, unsigned wanted, int all)
{
    for (size_t i = 0; i < count; i++) {
        const uint8_t *r = rules + i * 8;
        if ((wanted > 1 || r[2] == wanted) && applies(d, r, element, all))
            return i;
    }
    return count;
}

static size_t first_of_both(const uint8_t *d, const uint8_t *house, size_t h, const uint8_t *recipient, size_t r,
                            size_t element, unsigned wanted, int all)
{
    size_t k = first_applying(d, house, h, element, wanted, all);
    return k < h ? k : h + first_applying(d, recipient, r, element, wanted, all);
}

static uint64_t decide(const uint8_t *d, size_t len, const uint8_t *house, size_t house_len, const uint8_t *recipient,
                       size_t recipient_len, size_t combining, size_t element, int all)
{
    uint64_t n = base_read(d, len);
    if (refused(n))
        return n;
    uint64_t h = read_rules(d, n, house, house_len, 1);
    if (refused(h))
        return h;
    uint64_t r = read_rules(d, n, recipient, recipient_len, 2);
    if (refused(r))
        return r;
    if (combining > 2)
        return refusal(11, 0, 0);
    if (element >= n)
        return refusal(10, 0, 0);
    unsigned over = combining == 0 ? 2 : (unsigned)combining - 1;
    size_t k = first_of_both(d, house, h, recipient, r, element, over, all);
    if (k == h + r && over < 2)
        k = first_of_both(d, house, h, recipient, r, element, 1 - over, all);
    if (k == h + r)
        return 2;
    return (k < h ? house + k * 8 : recipient + (k - h) * 8)[2];
}

uint64_t base_decide(const uint8_t *d, size_t len, const uint8_t *house, size_t house_len, const uint8_t *recipient,
                     size_t recipient_len, size_t combining, size_t element)
{
    return decide(d, len, house, house_len, recipient, recipient_len, combining, element, 0);
}

uint64_t base_decide_reading_all(const uint8_t *d, size_t len, const uint8_t *house, size_t house_len,
                                 const uint8_t *recipient, size_t recipient_len, size_t combining, size_t element)
{
    return decide(d, len, house, house_len, recipient, recipient_len, combining, element, 1);
}

/* ---- marks */

static unsigned hands(unsigned mark, unsigned decision, unsigned above)
{
    if (mark <= 1)
        return above;
    return mark == 2 ? decision : 1 - decision;
}

void base_walk_fresh(nv_walk *w)
{
    memset(w->handed, 2, DEPTHS);
    w->depth = 0;
    w->taken = 0;
}

/* Every place is looked at, so that the compiler can take many at once. */
static int could_be_left(const nv_walk *w)
{
    if (w->depth == 0 ? w->taken > 1 : (w->taken <= w->depth || w->taken > 4096 || w->depth > DEEPEST))
        return 0;
    size_t open = w->taken ? w->depth + 1 : 0, i = 0;
    uint8_t above = 2, wrong = 0;
    for (; i < open; i++) {
        uint8_t x = w->handed[i];
        wrong |= (uint8_t)((x > 1) & (x != above));
        above = x;
    }
    for (; i < DEPTHS; i++)
        wrong |= w->handed[i] != 2;
    return wrong == 0;
}

uint64_t base_walk_step(nv_walk *w, const uint8_t *r, size_t len)
{
    if (!could_be_left(w))
        return refusal(17, 0, 0);
    if (len != 8)
        return refusal(2, 0, 0);
    if (w->taken >= 4096)
        return refusal(3, 0, 0);
    size_t depth = depth_of(r);
    unsigned number = fault(w->taken ? 1 : 0, w->taken ? w->depth + 1 : 0, depth, r[1], r[2]);
    if (number)
        return refusal(number, 0, w->taken);
    unsigned above = depth ? w->handed[depth - 1] : 2;
    w->handed[depth] = (uint8_t)hands(r[2], r[1], above);
    for (size_t i = depth + 1; i < DEPTHS; i++)
        w->handed[i] = 2;
    w->depth = depth;
    w->taken++;
    return r[2] == 0 ? above : r[1];
}

/* ---- the walk as it was before request M-103: 64 places, and an end at the first that is wrong */

enum { WERE_DEEPEST = 63, WERE_DEPTHS };

void base_walk_fresh_64(nv_walk *w)
{
    memset(w->handed, 2, WERE_DEPTHS);
    w->depth = 0;
    w->taken = 0;
}

static int could_be_left_64(const nv_walk *w)
{
    if (w->depth == 0 ? w->taken > 1 : (w->taken <= w->depth || w->taken > 4096 || w->depth > WERE_DEEPEST))
        return 0;
    size_t open = w->taken ? w->depth + 1 : 0;
    unsigned above = 2;
    for (size_t i = 0; i < WERE_DEPTHS; i++) {
        unsigned x = w->handed[i];
        if (i < open ? (x > 1 && x != above) : x != 2)
            return 0;
        above = x;
    }
    return 1;
}

uint64_t base_walk_step_64(nv_walk *w, const uint8_t *r, size_t len)
{
    if (!could_be_left_64(w))
        return refusal(17, 0, 0);
    if (len != 8)
        return refusal(2, 0, 0);
    if (w->taken >= 4096)
        return refusal(3, 0, 0);
    if (r[0] > WERE_DEEPEST)
        return refusal(5, 0, w->taken);
    unsigned number = fault(w->taken ? 1 : 0, w->taken ? w->depth + 1 : 0, r[0], r[1], r[2]);
    if (number || r[3])
        return refusal(number ? number : 6, 0, w->taken);
    size_t depth = r[0];
    unsigned above = depth ? w->handed[depth - 1] : 2;
    w->handed[depth] = (uint8_t)hands(r[2], r[1], above);
    for (size_t i = depth + 1; i < WERE_DEPTHS; i++)
        w->handed[i] = 2;
    w->depth = depth;
    w->taken++;
    return r[2] == 0 ? above : r[1];
}

static const unsigned cost[4] = {0, 1, 1, 2};

static size_t count(const uint8_t *d, size_t n)
{
    size_t sum = 0;
    for (size_t i = 0; i < n; i++)
        sum += cost[d[i * 8 + 2]];
    return sum;
}

static uint8_t *put(const uint8_t *d, size_t q, unsigned effect, unsigned reach, uint8_t *out)
{
    out[0] = (uint8_t)q;
    out[1] = (uint8_t)(q / 256);
    out[2] = (uint8_t)effect;
    out[3] = (uint8_t)reach;
    memcpy(out + 4, d + q * 8 + 4, 4);
    return out + 8;
}

static uint8_t *put_own(const uint8_t *d, size_t q, uint8_t *out)
{
    unsigned mark = d[q * 8 + 2], decision = d[q * 8 + 1];
    if (mark == 0)
        return out;
    if (mark == 1)
        return put(d, q, decision, 0, out);
    if (mark == 2)
        return put(d, q, decision, 1, out);
    return put(d, q, 1 - decision, 1, put(d, q, decision, 0, out));
}

uint64_t base_list(const uint8_t *d, size_t len, uint8_t *out, size_t out_len)
{
    uint64_t n = base_read(d, len);
    if (refused(n))
        return n;
    size_t rules = count(d, n);
    if (out_len < rules * 8)
        return refusal(8, 0, 0);
    size_t stack[DEPTHS], top = 0;
    for (size_t p = 0; p < n; p++) {
        size_t depth = depth_of(d + p * 8);
        while (top > depth)
            out = put_own(d, stack[--top], out);
        stack[depth] = p;
        top = depth + 1;
    }
    while (top > 0)
        out = put_own(d, stack[--top], out);
    return rules;
}

static int rule_is(const uint8_t *rules, size_t count_, size_t i, size_t q, unsigned effect, unsigned reach)
{
    const uint8_t *r = rules + i * 8;
    return i < count_ && target_of(r) == q && r[2] == effect && r[3] == reach;
}

static int own_is(const uint8_t *d, size_t q, unsigned mark, const uint8_t *rules, size_t n, size_t i)
{
    unsigned decision = d[q * 8 + 1];
    if (mark == 0)
        return 1;
    if (mark == 3)
        return rule_is(rules, n, i, q, decision, 0) && rule_is(rules, n, i + 1, q, 1 - decision, 1);
    return rule_is(rules, n, i, q, decision, mark - 1);
}

uint64_t base_read_back(uint8_t *d, size_t len, const uint8_t *rules, size_t rules_len)
{
    uint64_t n = base_read(d, len);
    if (refused(n))
        return n;
    uint64_t m = read_rules(d, n, rules, rules_len, 1);
    if (refused(m))
        return m;
    uint8_t plan[4096];
    memset(plan, 0, n);
    for (size_t i = 0; i < m; i++) {
        const uint8_t *r = rules + i * 8;
        size_t t = target_of(r);
        plan[t] = r[3] == 0 ? 1 : r[2] == d[t * 8 + 1] ? 2 : 3;
    }
    size_t stack[DEPTHS], top = 0, at = 0;
    for (size_t p = 0; p <= n; p++) {
        size_t depth = p < n ? depth_of(d + p * 8) : 0;
        while (top > depth) {
            size_t q = stack[--top];
            if (!own_is(d, q, plan[q], rules, m, at))
                return refusal(9, 1, 0);
            at += cost[plan[q]];
        }
        if (p < n) {
            stack[depth] = p;
            top = depth + 1;
        }
    }
    if (at != m)
        return refusal(9, 1, 0);
    for (size_t i = 0; i < n; i++)
        d[i * 8 + 2] = plan[i];
    return n;
}

/* ---- least marks */

typedef struct sums {
    size_t none, deny, permit;
} sums;

static size_t least(size_t a, size_t b) { return a <= b ? a : b; }

static unsigned other(size_t self, size_t all, size_t both)
{
    if (self <= all)
        return self <= both ? 1 : 3;
    return all <= both ? 2 : 3;
}

static unsigned same(size_t none, size_t both) { return none <= both ? 0 : 3; }

static unsigned planned(unsigned marks, unsigned above) { return marks >> (above == 0 ? 2 : above == 1 ? 4 : 0) & 3; }

/* The best sums of a branch for each value from above; its chosen marks go into the plan, two bits for each value. */
static sums branch(const uint8_t *d, size_t n, uint8_t *plan, size_t at, size_t *next)
{
    size_t depth = depth_of(d + at * 8);
    sums s = {0, 0, 0};
    size_t p = at + 1;
    while (p < n && depth_of(d + p * 8) > depth) {
        sums b = branch(d, n, plan, p, &p);
        s.none += b.none;
        s.deny += b.deny;
        s.permit += b.permit;
    }
    *next = p;
    if (d[at * 8 + 1] == 0) {
        size_t all = 1 + s.deny, both = 2 + s.permit, turned = least(all, both);
        plan[at] = (uint8_t)(other(1 + s.none, all, both) + 4 * same(s.deny, both) + 16 * other(1 + s.permit, all, both));
        return (sums){least(1 + s.none, turned), least(s.deny, turned), least(1 + s.permit, turned)};
    }
    size_t all = 1 + s.permit, both = 2 + s.deny, turned = least(all, both);
    plan[at] = (uint8_t)(other(1 + s.none, all, both) + 4 * other(1 + s.deny, all, both) + 16 * same(s.permit, both));
    return (sums){least(1 + s.none, turned), least(1 + s.deny, turned), least(s.permit, turned)};
}

uint64_t base_fold(uint8_t *d, size_t len)
{
    uint64_t n = base_read(d, len);
    if (refused(n))
        return n;
    uint8_t plan[4096], handed[DEPTHS];
    size_t next;
    sums s = branch(d, n, plan, 0, &next);
    for (size_t p = 0; p < n; p++) {
        size_t depth = depth_of(d + p * 8);
        unsigned above = depth ? handed[depth - 1] : 2;
        unsigned mark = planned(plan[p], above);
        d[p * 8 + 2] = (uint8_t)mark;
        handed[depth] = (uint8_t)hands(mark, d[p * 8 + 1], above);
    }
    return s.none;
}

static uint64_t wrong(size_t given, size_t p, unsigned answer)
{
    return given + (p << 16) + (2ull << 32) + ((uint64_t)answer << 34);
}

static uint64_t right(size_t given, size_t best)
{
    return given == best ? given : given + ((given - best) << 16) + (1ull << 32);
}

uint64_t base_judge(const uint8_t *d, size_t len)
{
    uint64_t n = base_read(d, len);
    if (refused(n))
        return n;
    size_t given = count(d, n);
    uint8_t plan[4096], handed[DEPTHS];
    for (size_t p = 0; p < n; p++) {
        size_t depth = depth_of(d + p * 8);
        unsigned above = depth ? handed[depth - 1] : 2;
        unsigned mark = d[p * 8 + 2], decision = d[p * 8 + 1], answer = mark == 0 ? above : decision;
        if (answer != decision)
            return wrong(given, p, answer);
        handed[depth] = (uint8_t)hands(mark, decision, above);
    }
    size_t next;
    return right(given, branch(d, n, plan, 0, &next).none);
}

/* ---- least marks where deny overrides, or permit: that is the same with all decisions turned */

/* more rules than any dossier's marks list */
enum { IMPOSSIBLE = 8193 };

/* The same sums: under a deny from above all is denied, whatever the marks, and ± denies the element itself if set on a
 * permit. */
static sums branch_over(const uint8_t *d, size_t n, uint8_t *plan, unsigned turn, size_t at, size_t *next)
{
    size_t depth = depth_of(d + at * 8);
    sums s = {0, 0, 0};
    size_t p = at + 1;
    while (p < n && depth_of(d + p * 8) > depth) {
        sums b = branch_over(d, n, plan, turn, p, &p);
        s.none += b.none;
        s.deny += b.deny;
        s.permit += b.permit;
    }
    *next = p;
    if (d[at * 8 + 1] == turn) {
        size_t self = 1 + s.none, all = 1 + s.deny, both = 2 + s.permit, kept = 1 + s.permit;
        plan[at] = (uint8_t)(other(self, all, both) + 16 * other(kept, all, both));
        return (sums){least(self, least(all, both)), s.deny, least(kept, all)};
    }
    plan[at] = s.none <= s.permit ? 1 : 2;
    return (sums){1 + least(s.none, s.permit), IMPOSSIBLE, s.permit};
}

/* The elements, then the combining number: how many elements there are, or the refusal. */
static uint64_t asked_for(const uint8_t *d, size_t len, size_t combining)
{
    uint64_t n = base_read(d, len);
    return refused(n) || combining <= 2 ? n : refusal(11, 0, 0);
}

/* Of two values the one that stands: deny is the smallest and none the largest. */
static unsigned over(unsigned a, unsigned b) { return a <= b ? a : b; }

static uint64_t fold_over(uint8_t *d, size_t n, unsigned turn)
{
    uint8_t plan[4096], handed[DEPTHS];
    size_t next;
    sums s = branch_over(d, n, plan, turn, 0, &next);
    for (size_t p = 0; p < n; p++) {
        size_t depth = depth_of(d + p * 8);
        unsigned above = depth ? handed[depth - 1] : 2;
        unsigned mark = planned(plan[p], above);
        d[p * 8 + 2] = (uint8_t)mark;
        handed[depth] = (uint8_t)over(hands(mark, d[p * 8 + 1] ^ turn, above), above);
    }
    return s.none;
}

uint64_t base_fold_for(uint8_t *d, size_t len, size_t combining)
{
    uint64_t n = asked_for(d, len, combining);
    return refused(n) ? n : combining == 0 ? base_fold(d, len) : fold_over(d, n, combining == 2);
}

static uint64_t judge_over(const uint8_t *d, size_t n, unsigned turn)
{
    size_t given = count(d, n);
    uint8_t plan[4096], handed[DEPTHS];
    for (size_t p = 0; p < n; p++) {
        size_t depth = depth_of(d + p * 8);
        unsigned above = depth ? handed[depth - 1] : 2;
        unsigned mark = d[p * 8 + 2], decision = d[p * 8 + 1] ^ turn, down = over(hands(mark, decision, above), above);
        unsigned answer = over(mark == 0 ? above : decision, down);
        if (answer != decision)
            return wrong(given, p, answer == 2 ? 2 : answer ^ turn);
        handed[depth] = (uint8_t)down;
    }
    size_t next;
    return right(given, branch_over(d, n, plan, turn, 0, &next).none);
}

uint64_t base_judge_for(const uint8_t *d, size_t len, size_t combining)
{
    uint64_t n = asked_for(d, len, combining);
    return refused(n) ? n : combining == 0 ? base_judge(d, len) : judge_over(d, n, combining == 2);
}

/* ---- the view */

uint64_t base_view(const uint8_t *d, size_t len, uint8_t *out, size_t out_len)
{
    uint64_t n = base_read(d, len);
    if (refused(n))
        return n;
    uint8_t handed[DEPTHS], shown[4096];
    size_t total = 0, limit = DEPTHS;
    for (size_t p = 0; p < n; p++) {
        size_t depth = depth_of(d + p * 8);
        shown[p] = 0;
        if (depth > limit)
            continue;
        unsigned above = depth ? handed[depth - 1] : 2;
        unsigned mark = d[p * 8 + 2], decision = d[p * 8 + 1];
        shown[p] = (mark == 0 ? above : decision) == 1;
        total += shown[p];
        handed[depth] = (uint8_t)hands(mark, decision, above);
        limit = shown[p] ? DEPTHS : depth;
    }
    if (out_len < total * 8)
        return refusal(8, 0, 0);
    for (size_t p = 0; p < n; p++)
        if (shown[p]) {
            memcpy(out, d + p * 8, 8);
            out += 8;
        }
    return total;
}
