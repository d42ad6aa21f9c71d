/* Runs the C functions on cases from standard input and writes back what each replied and what every lent area then
 * holds. A case is a byte that says which function, then its areas, each a length in four bytes and that many bytes, and
 * its numbers in eight bytes each; an answer is the reply in eight bytes, then the areas in the same form. */
#include <nuggetvale.h>

long read(int, void *, size_t);
long write(int, const void *, size_t);
void *memcpy(void *, const void *, size_t);
void exit(int);

enum { ROOM = 1 << 20 };

static uint8_t in[ROOM], out[ROOM];
static size_t in_at, in_end, out_at;

static void flush(void)
{
    size_t done = 0;
    while (done < out_at) {
        long n = write(1, out + done, out_at - done);
        if (n <= 0)
            exit(3);
        done += (size_t)n;
    }
    out_at = 0;
}

static void put(const void *bytes, size_t n)
{
    if (ROOM - out_at < n)
        flush();
    memcpy(out + out_at, bytes, n);
    out_at += n;
}

/* Fills in n bytes; at the end of the input between two cases the program ends. */
static void get(void *bytes, size_t n, int between)
{
    uint8_t *to = bytes;
    while (n > 0) {
        if (in_at == in_end) {
            long got = read(0, in, ROOM);
            if (got <= 0) {
                flush();
                exit(between ? 0 : 2);
            }
            in_at = 0;
            in_end = (size_t)got;
        }
        size_t part = in_end - in_at < n ? in_end - in_at : n;
        memcpy(to, in + in_at, part);
        in_at += part;
        to += part;
        n -= part;
        between = 0;
    }
}

typedef struct area {
    uint8_t bytes[ROOM / 4];
    size_t len;
} area;

static area a, b, c, d;

static void get_area(area *to)
{
    uint32_t n;
    get(&n, 4, 0);
    if (n > sizeof to->bytes)
        exit(2);
    get(to->bytes, n, 0);
    to->len = n;
}

static void put_area(const area *from)
{
    uint32_t n = (uint32_t)from->len;
    put(&n, 4);
    put(from->bytes, from->len);
}

static uint64_t get_number(void)
{
    uint64_t n;
    get(&n, 8, 0);
    return n;
}

static void answer(uint64_t reply, int areas)
{
    put(&reply, 8);
    if (areas > 0)
        put_area(&a);
    if (areas > 1)
        put_area(&b);
    if (areas > 2)
        put_area(&c);
    if (areas > 3)
        put_area(&d);
}

static void two_areas(uint64_t (*call)(void))
{
    get_area(&a);
    get_area(&b);
    answer(call(), 2);
}

static uint64_t list(void) { return nv_list(a.bytes, a.len, b.bytes, b.len); }
static uint64_t read_back(void) { return nv_read_back(a.bytes, a.len, b.bytes, b.len); }
static uint64_t view(void) { return nv_view(a.bytes, a.len, b.bytes, b.len); }

static uint64_t walk_step(void)
{
    nv_walk walk;
    memcpy(&walk, a.bytes, sizeof walk);
    uint64_t reply = nv_walk_step(&walk, b.bytes, b.len);
    memcpy(a.bytes, &walk, sizeof walk);
    return reply;
}

static void decide(int part)
{
    get_area(&a);
    get_area(&b);
    get_area(&c);
    if (part)
        get_area(&d);
    size_t combining = get_number(), element = get_number();
    if (part)
        answer(nv_deciding(a.bytes, a.len, b.bytes, b.len, c.bytes, c.len, combining, element, d.bytes), 4);
    else
        answer(nv_decide(a.bytes, a.len, b.bytes, b.len, c.bytes, c.len, combining, element), 3);
}

int main(void)
{
    for (;;) {
        uint8_t which;
        get(&which, 1, 1);
        switch (which) {
        case 'r': get_area(&a); answer(nv_read(a.bytes, a.len), 1); break;
        case 'l': two_areas(list); break;
        case 'b': two_areas(read_back); break;
        case 'd': decide(0); break;
        case 'p': decide(1); break;
        case 'f': {
            nv_walk walk;
            get_area(&a);
            memcpy(&walk, a.bytes, sizeof walk);
            nv_walk_fresh(&walk);
            memcpy(a.bytes, &walk, sizeof walk);
            answer(0, 1);
            break;
        }
        case 's': two_areas(walk_step); break;
        case 'o': get_area(&a); answer(nv_fold(a.bytes, a.len), 1); break;
        case 'j': get_area(&a); answer(nv_judge(a.bytes, a.len), 1); break;
        case 'O': get_area(&a); answer(nv_fold_for(a.bytes, a.len, get_number()), 1); break;
        case 'J': get_area(&a); answer(nv_judge_for(a.bytes, a.len, get_number()), 1); break;
        case 'v': two_areas(view); break;
        default: flush(); exit(2);
        }
    }
}
