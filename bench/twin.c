// A plain C twin of the public calls, written from document 01 for speed, and the workloads of crates/bench over it.
// The kit has no headers: what is called of the C library is declared here. To see what each costs: -DCLEAR clears 8 KiB a check,
// -DTWO_PASSES always writes in two passes, -DHASH finds repeated words of a pool by hashing.
typedef unsigned long u64;
typedef unsigned int u32;
typedef unsigned char u8;

extern long read(int, void *, u64);
extern long write(int, const void *, u64);
extern void *memcpy(void *, const void *, u64);
extern void *memset(void *, int, u64);

#define ENDLESS (1ul << 63)
#define LARGEST (1ul << 62)
#define LIMIT (LARGEST + 256) // from here on a number inside a walk is BIG: no walk's excepts lower it to 2^62
#define BIG (~0ul)
#define WRONG (~0ul - 1)
#define MOST_NODES 256
#define MOST_WORDS 4096
#define MOST_CELLS 65536
#define DEPTH 200
#define ALONE static __attribute__((noinline))
#define likely(x) __builtin_expect(!!(x), 1)
#define unlikely(x) __builtin_expect(!!(x), 0)

enum kind { BELOW, NATS, POOL, SHIFT, OR, CONS, DEP, EXCEPT, FIX, AGAIN };

// What a visit does, decided once a check.
enum does {
    D_BELOW, D_NATS, D_POOL, D_SHIFT, D_PASS, D_EXCEPT,
    D_OR_FIRST, D_OR_SECOND, // the part that is used up first
    D_SQUARE, D_MOD_FIRST, D_MOD_SECOND, D_BITS_FIRST, D_BITS_SECOND,
    D_DEP_FINITE, D_DEP_ENDLESS
};

// word: a below's count, a pool's count, a shift's k, the removed number, or the size that a number is divided by.
struct node {
    u64 size, word;
    u32 does, first, second, depth;
    u64 cells;
};

struct answer {
    u64 refusal, node, item, count, cells;
};

// ---- the check

ALONE int all_different(const u64 *w, u64 count) {
#ifdef HASH
    // open addressing on places of words; short runs are compared
    if (count > 16) {
        unsigned short slot[8192];
        u64 bits = 64 - __builtin_clzl(count - 1) + 1;
        memset(slot, 0, sizeof(short) << bits);
        for (u64 i = 0; i < count; i++) {
            u64 h = (w[i] * 0x9E3779B97F4A7C15ul) >> (64 - bits);
            while (slot[h]) {
                if (w[slot[h] - 1] == w[i]) return 0;
                h = (h + 1) & ((1ul << bits) - 1);
            }
            slot[h] = i + 1;
        }
        return 1;
    }
#endif
    for (u64 i = 0; i < count; i++)
        for (u64 j = i + 1; j < count; j++)
            if (w[j] == w[i]) return 0;
    return 1;
}

struct search {
    const u64 *table, *pool;
    const struct node *plan;
    u64 goal; // the node to come back to, or MOST_NODES for any open one
    int guarded;
    u8 mark[MOST_NODES];
};

// Whether an open node (or the goal) is met from n on. Each node is opened once.
static int meets(struct search *s, u64 n) {
    s->mark[n] = 1;
    const u64 *t = s->table + 3 * n;
#define TO(x) do { u64 x_ = (x); \
        if (s->goal == MOST_NODES ? s->mark[x_] == 1 : x_ == s->goal) return 1; \
        if (!s->mark[x_] && meets(s, x_)) return 1; } while (0)
    if (t[0] >= SHIFT) {
        TO(t[1]);
        if (t[0] == CONS || (t[0] == OR && s->guarded)) TO(t[2]);
        if (t[0] == DEP) {
            u64 m = s->plan[t[1]].size;
            for (u64 i = 0; i < m; i++) TO(s->pool[t[2] + i]);
        }
    }
    s->mark[n] = 2;
    return 0;
}

static u64 lowest(struct search *s, u64 nodes, u64 kind) {
    for (u64 n = 0; n < nodes; n++)
        if (s->table[3 * n] == kind) {
            memset(s->mark, 0, nodes);
            s->goal = n;
            if (meets(s, n)) return n;
        }
    return MOST_NODES;
}

// Each cycle has an again, its lowest node. One search over all agains says whether there is an unguarded cycle.
static u64 cycles(const u64 *table, const u64 *pool, const struct node *plan, u64 nodes, int has_except, u64 *at) {
    struct search s;
    s.table = table, s.pool = pool, s.plan = plan, s.guarded = 0, s.goal = MOST_NODES;
    memset(s.mark, 0, nodes);
    for (u64 n = 0; n < nodes; n++)
        if (table[3 * n] == AGAIN && !s.mark[n] && meets(&s, n)) {
            *at = lowest(&s, nodes, AGAIN);
            return 9;
        }
    if (!has_except) return 0;
    s.guarded = 1;
    *at = lowest(&s, nodes, EXCEPT);
    if (*at < MOST_NODES) return 10;
    *at = 0;
    return 0;
}

static int power(u64 x) { return (x & (x - 1)) == 0; }

ALONE u64 prepare(const u64 *table, u64 words, const u64 *pool, u64 pool_words, struct node *plan, u64 *at) {
#ifdef CLEAR
    memset(plan, 0, 8192);
#endif
    u64 nodes = words / 3;
    *at = 0;
    if (words != 3 * nodes || nodes < 1 || nodes > MOST_NODES || pool_words > MOST_WORDS) return 1;
    int has_again = 0, has_except = 0;
    for (u64 n = 0; n < nodes; n++) {
        u64 kind = table[3 * n], a = table[3 * n + 1], b = table[3 * n + 2];
        struct node *p = plan + n;
        *at = n;
        switch (kind) {
        case BELOW:
            if (b) return 3;
            if (a < 1 || a > LARGEST) return 5;
            p->does = D_BELOW, p->word = a, p->size = a;
            break;
        case NATS:
            if (a | b) return 3;
            p->does = D_NATS, p->size = ENDLESS;
            break;
        case POOL:
            if (b < 1 || b > pool_words || a > pool_words - b) return 5;
            if (!all_different(pool + a, b)) return 6;
            p->does = D_POOL, p->first = a, p->word = b, p->size = b;
            break;
        case SHIFT:
            if (a >= n) return 4;
            if (b > 1ul << 32) return 5;
            if (table[3 * a] > NATS && table[3 * a] != SHIFT) return 7;
            p->does = D_SHIFT, p->first = a, p->word = b, p->size = plan[a].size;
            break;
        case OR: {
            if (a >= n || b >= n) return 4;
            u64 s = plan[a].size, t = plan[b].size;
            p->first = a, p->second = b;
            p->does = s <= t ? D_OR_FIRST : D_OR_SECOND;
            p->word = s <= t ? s : t;
            if ((s | t) & ENDLESS) { p->size = ENDLESS; break; }
            if (s + t > LARGEST) return 8;
            p->size = s + t;
            break;
        }
        case CONS: {
            if (a >= n || b >= n) return 4;
            u64 i = plan[a].size, j = plan[b].size;
            p->first = a, p->second = b;
            if (i & j & ENDLESS)
                p->does = D_SQUARE;
            else if (i < j)
                p->does = power(i) ? D_BITS_FIRST : D_MOD_FIRST, p->word = i;
            else
                p->does = power(j) ? D_BITS_SECOND : D_MOD_SECOND, p->word = j;
            if ((i | j) & ENDLESS) { p->size = ENDLESS; break; }
            u64 size;
            if (__builtin_mul_overflow(i, j, &size) || size > LARGEST) return 8;
            p->size = size;
            break;
        }
        case DEP: {
            if (a >= n) return 4;
            u64 m = plan[a].size;
            if (m > 256) return 7;
            if (m > pool_words || b > pool_words - m) return 5;
            u64 finite = 0, total = 0;
            for (u64 i = 0; i < m; i++) {
                u64 x = pool[b + i];
                if (x >= n) return 4;
                u64 s = plan[x].size;
                finite += s < ENDLESS;
                total += s;
                if (total > LARGEST) total = LARGEST + 1;
            }
            if (finite != m && finite) return 7;
            p->first = a, p->second = b, p->word = m;
            p->does = finite ? D_DEP_FINITE : D_DEP_ENDLESS;
            if (finite && total > LARGEST) return 8;
            p->size = finite ? total : ENDLESS;
            break;
        }
        case EXCEPT: {
            if (a >= n) return 4;
            u64 s = plan[a].size;
            if (s == 1) return 7;
            if (b >= s || b >= LARGEST) return 5;
            p->does = D_EXCEPT, p->first = a, p->word = b;
            p->size = s & ENDLESS ? ENDLESS : s - 1;
            has_except = 1;
            break;
        }
        case FIX:
            if (b) return 3;
            if (a >= n) return 4;
            if (plan[a].size < ENDLESS) return 7;
            p->does = D_PASS, p->first = a, p->size = ENDLESS;
            break;
        case AGAIN:
            if (b) return 3;
            if (a <= n || a >= nodes || table[3 * a] != FIX) return 4;
            p->does = D_PASS, p->first = a, p->size = ENDLESS;
            has_again = 1;
            break;
        default:
            return 2;
        }
    }
    *at = 0;
    return has_again ? cycles(table, pool, plan, nodes, has_except, at) : 0;
}

// ---- from a number to cells

// The processor's root of a rounded number is right or one off.
static u64 root_of(u64 n) {
    u64 r = (u64)__builtin_sqrt((double)n);
    if (r * r > n) r--;
    else if (n - r * r > 2 * r) r++;
    return r;
}

// The most cells and visits of a node's cases; recursion has no bound.
static void bound(struct node *plan, const u64 *pool, u64 start) {
    for (u64 n = 0; n <= start; n++) {
        struct node *p = plan + n;
        const struct node *f = plan + p->first, *s;
        switch (p->does) {
        case D_BELOW: case D_NATS: case D_POOL:
            p->cells = 1, p->depth = 1;
            break;
        case D_PASS:
            if (p->first > n) { p->cells = MOST_CELLS + 1, p->depth = DEPTH + 1; break; }
            // fallthrough: a fix
        case D_SHIFT: case D_EXCEPT:
            p->cells = f->cells, p->depth = f->depth + 1;
            break;
        case D_OR_FIRST: case D_OR_SECOND:
            s = plan + p->second;
            p->cells = 1 + (f->cells > s->cells ? f->cells : s->cells);
            p->depth = 1 + (f->depth > s->depth ? f->depth : s->depth);
            break;
        case D_DEP_FINITE: case D_DEP_ENDLESS: {
            u64 cells = 0;
            u32 depth = f->depth;
            for (u64 i = 0; i < p->word; i++) {
                s = plan + pool[p->second + i];
                if (s->cells > cells) cells = s->cells;
                if (s->depth > depth) depth = s->depth;
            }
            p->cells = f->cells + cells, p->depth = depth + 1;
            break;
        }
        default:
            s = plan + p->second;
            p->cells = f->cells + s->cells;
            p->depth = 1 + (f->depth > s->depth ? f->depth : s->depth);
        }
        if (p->cells > MOST_CELLS) p->cells = MOST_CELLS + 1;
        if (p->depth > DEPTH) p->depth = DEPTH + 1;
    }
}

// The numbers of both parts, for each node that has two.
#define SPLIT(p, n, x, y, q) \
    case D_SQUARE: { u64 r = root_of(n), d = n - r * r; q = p->second; \
        if (d < r) x = d, y = r; else x = r, y = d - r; break; } \
    case D_MOD_FIRST: x = n % p->word, y = n / p->word, q = p->second; break; \
    case D_MOD_SECOND: x = n / p->word, y = n % p->word, q = p->second; break; \
    case D_BITS_FIRST: x = n & (p->word - 1), y = n >> __builtin_ctzl(p->word), q = p->second; break; \
    case D_BITS_SECOND: x = n >> __builtin_ctzl(p->word), y = n & (p->word - 1), q = p->second; break; \
    case D_DEP_FINITE: { u64 k = 0; y = n; \
        for (;; k++) { q = pool[p->second + k]; if (y < plan[q].size) break; y -= plan[q].size; } \
        x = k; break; } \
    default: x = n % p->word, y = n / p->word, q = pool[p->second + x]; break;

#define OR_PART(p, n, tag) \
    if (n / 2 < p->word) { tag = n & 1, n /= 2; } \
    else { tag = p->does == D_OR_FIRST, n -= p->word; }

// Where the bounds say that the case has room: no tests.
static u64 *fill(const struct node *plan, const u64 *pool, u64 i, u64 n, u64 *out) {
    u64 add = 0;
    for (;;) {
        const struct node *p = plan + i;
        u64 x, y, q, tag;
        switch (p->does) {
        case D_BELOW: case D_NATS: *out++ = n + add; return out;
        case D_POOL: *out++ = pool[p->first + n]; return out;
        case D_SHIFT: add += p->word; i = p->first; continue;
        case D_PASS: i = p->first; continue;
        case D_EXCEPT: n += n >= p->word; i = p->first; continue;
        case D_OR_FIRST: case D_OR_SECOND:
            OR_PART(p, n, tag);
            *out++ = tag;
            i = tag ? p->second : p->first;
            continue;
        SPLIT(p, n, x, y, q)
        }
        out = fill(plan, pool, p->first, x, out);
        i = q, n = y;
    }
}

// Cells past the scratch are counted and not kept.
#define SCRATCH 6144
struct out {
    const struct node *plan;
    const u64 *pool;
    u64 at, room;
    u64 *to;
    u64 keep;
};

static u64 put(struct out *o, u64 cell) {
    if (unlikely(o->at == o->room)) return 14;
    if (likely(o->at < o->keep)) o->to[o->at] = cell;
    o->at++;
    return 0;
}

// 0, 13 or 14.
static u64 tried(struct out *o, u64 i, u64 n, u64 left) {
    const struct node *plan = o->plan;
    const u64 *pool = o->pool;
    u64 add = 0;
    for (;;) {
        if (unlikely(left == 0)) return 13;
        left--;
        const struct node *p = plan + i;
        u64 x, y, q, tag, r;
        switch (p->does) {
        case D_BELOW: case D_NATS: return put(o, n + add);
        case D_POOL: return put(o, pool[p->first + n]);
        case D_SHIFT: add += p->word; i = p->first; continue;
        case D_PASS: i = p->first; continue;
        case D_EXCEPT: n += n >= p->word; i = p->first; continue;
        case D_OR_FIRST: case D_OR_SECOND:
            OR_PART(p, n, tag);
            r = put(o, tag);
            if (unlikely(r)) return r;
            i = tag ? p->second : p->first;
            continue;
        SPLIT(p, n, x, y, q)
        }
        r = tried(o, p->first, x, left);
        if (unlikely(r)) return r;
        i = q, n = y;
    }
}

ALONE struct answer case_check(const u64 *table, u64 words, const u64 *pool, u64 pool_words) {
    struct node plan[MOST_NODES];
    struct answer r = {0};
    r.refusal = prepare(table, words, pool, pool_words, plan, &r.node);
    return r;
}

static u64 prepare_at(const u64 *table, u64 words, const u64 *pool, u64 pool_words, struct node *plan, u64 start, u64 *at) {
    u64 r = prepare(table, words, pool, pool_words, plan, at);
    return r ? r : words / 3 <= start ? 11 : 0;
}

static u64 least(u64 a, u64 b) { return a < b ? a : b; }

ALONE struct answer row_write(const u64 *table, u64 words, const u64 *pool, u64 pool_words, u64 start,
                              const u64 *numbers, u64 items, u64 *cells, u64 room) {
    struct node plan[MOST_NODES];
    u64 scratch[SCRATCH];
    struct answer r = {0};
    r.refusal = prepare_at(table, words, pool, pool_words, plan, start, &r.node);
    if (r.refusal) return r;
    bound(plan, pool, start);
    u64 used = 0, size = least(plan[start].size, LARGEST);
    for (u64 k = 0; k < items; k++) {
        struct out o = {plan, pool, 0, least(room - used, MOST_CELLS), scratch + used, used < SCRATCH ? SCRATCH - used : 0};
        u64 n = numbers[k], bad = n >= size ? 12 : tried(&o, start, n, DEPTH);
        if (bad) { r.refusal = bad, r.item = k; return r; }
        used += o.at;
    }
    if (used <= SCRATCH)
        memcpy(cells, scratch, 8 * used);
    else
        for (u64 k = 0; k < items; k++) cells = fill(plan, pool, start, numbers[k], cells);
    r.count = items, r.cells = used;
    return r;
}

ALONE struct answer case_write(const u64 *table, u64 words, const u64 *pool, u64 pool_words, u64 start,
                               u64 number, u64 *cells, u64 room) {
    struct node plan[MOST_NODES];
    struct answer r = {0};
    r.refusal = prepare_at(table, words, pool, pool_words, plan, start, &r.node);
    if (r.refusal) return r;
    if (number >= plan[start].size || number >= LARGEST) { r.refusal = 12; return r; }
    bound(plan, pool, start);
    room = least(room, MOST_CELLS);
#ifndef TWO_PASSES
    if (plan[start].depth <= DEPTH && plan[start].cells <= room) {
        r.cells = fill(plan, pool, start, number, cells) - cells;
        return r;
    }
#endif
    u64 scratch[SCRATCH];
    struct out o = {plan, pool, 0, room, scratch, SCRATCH};
    r.refusal = tried(&o, start, number, DEPTH);
    if (r.refusal) return r;
#ifndef TWO_PASSES
    if (o.at <= SCRATCH)
        memcpy(cells, scratch, 8 * o.at);
    else
#endif
        fill(plan, pool, start, number, cells);
    r.cells = o.at;
    return r;
}

// ---- from cells to a number

struct in {
    const struct node *plan;
    const u64 *pool, *at, *end;
    u64 over, refusal; // over: what it is to need a cell from end on
};

static u64 wrong(struct in *r, u64 refusal) {
    r->refusal = refusal;
    return WRONG;
}

static u64 capped(u64 n) { return likely(n < LIMIT) ? n : BIG; }

static u64 times_plus(u64 q, u64 m, u64 rest) {
    u64 n;
    if (unlikely((q | rest) >= WRONG)) return BIG;
    if (unlikely(__builtin_mul_overflow(q, m, &n) || __builtin_add_overflow(n, rest, &n))) return BIG;
    return capped(n);
}

static u64 take(struct in *r, u64 i, u64 left) {
    const struct node *p;
    u64 off = 0, c, x, y;
    for (;; i = p->first) {
        if (unlikely(left == 0)) return wrong(r, 13);
        left--;
        p = r->plan + i;
        switch (p->does) {
        case D_SHIFT: off += p->word; continue;
        case D_PASS: continue;
        }
        break;
    }
    switch (p->does) {
    case D_BELOW: case D_NATS:
        if (unlikely(r->at == r->end)) return wrong(r, r->over);
        c = *r->at++;
        if (unlikely(c < off)) return wrong(r, 15);
        c -= off;
        if (p->does == D_NATS) return capped(c);
        return likely(c < p->word) ? c : wrong(r, 15);
    case D_POOL: {
        if (unlikely(r->at == r->end)) return wrong(r, r->over);
        c = *r->at++;
        const u64 *w = r->pool + p->first;
        u64 m = p->word;
        for (u64 k = 0; k < m; k++)
            if (w[k] == c) return k;
        return wrong(r, 15);
    }
    case D_EXCEPT:
        x = take(r, p->first, left);
        if (unlikely(x >= WRONG)) return x;
        if (x == p->word) return wrong(r, 15);
        return x - (x > p->word);
    case D_OR_FIRST: case D_OR_SECOND: {
        if (unlikely(r->at == r->end)) return wrong(r, r->over);
        c = *r->at++;
        if (unlikely(c > 1)) return wrong(r, 15);
        x = take(r, c ? p->second : p->first, left);
        if (unlikely(x >= WRONG)) return x;
        // number x of the part that lasts has the other's size before it once that is used up
        u64 other = r->plan[c ? p->first : p->second].size;
        return x < other ? capped(2 * x + c) : capped(x + other);
    }
    }
    x = take(r, p->first, left);
    if (unlikely(x == WRONG)) return WRONG;
    u64 q = p->second;
    if (p->does >= D_DEP_FINITE) q = r->pool[q + x];
    y = take(r, q, left);
    if (unlikely(y == WRONG)) return WRONG;
    switch (p->does) {
    case D_SQUARE:
        if (unlikely(x > 1ul << 31 || y > 1ul << 31)) return BIG;
        return capped(x < y ? y * y + x : x * x + x + y);
    case D_MOD_FIRST: case D_BITS_FIRST: return times_plus(y, p->word, x);
    case D_MOD_SECOND: case D_BITS_SECOND: return times_plus(x, p->word, y);
    case D_DEP_ENDLESS: return times_plus(y, p->word, x);
    default:
        for (u64 k = 0; k < x; k++) y += r->plan[r->pool[p->second + k]].size;
        return y;
    }
}

// One case from the front of the cells: its number, BIG or WRONG.
static u64 front(struct in *r, u64 start, const u64 *at, u64 count) {
    r->at = at;
    r->end = at + least(count, MOST_CELLS);
    r->over = count >= MOST_CELLS ? 14 : 15;
    return take(r, start, DEPTH);
}

ALONE struct answer case_read(const u64 *table, u64 words, const u64 *pool, u64 pool_words, u64 start,
                              const u64 *cells, u64 count) {
    struct node plan[MOST_NODES];
    struct answer a = {0};
    a.refusal = prepare_at(table, words, pool, pool_words, plan, start, &a.node);
    if (a.refusal) return a;
    struct in r = {plan, pool};
    u64 n = front(&r, start, cells, count);
    if (n == WRONG) a.refusal = r.refusal;
    else if (r.at != cells + count) a.refusal = 15;
    else if (n >= LARGEST) a.refusal = 16;
    else a.count = n;
    return a;
}

ALONE struct answer row_read(const u64 *table, u64 words, const u64 *pool, u64 pool_words, u64 start,
                             const u64 *cells, u64 count, u64 *numbers, u64 room) {
    struct node plan[MOST_NODES];
    u64 scratch[SCRATCH];
    struct answer a = {0};
    a.refusal = prepare_at(table, words, pool, pool_words, plan, start, &a.node);
    if (a.refusal) return a;
    struct in r = {plan, pool};
    u64 items = 0;
    for (const u64 *at = cells; at != cells + count; at = r.at, items++) {
        u64 n = front(&r, start, at, cells + count - at);
        u64 bad = n == WRONG ? r.refusal : n >= LARGEST ? 16 : items == room ? 14 : 0;
        if (bad) { a.refusal = bad, a.item = items; return a; }
        if (items < SCRATCH) scratch[items] = n;
    }
    if (items <= SCRATCH)
        memcpy(numbers, scratch, 8 * items);
    else {
        const u64 *at = cells;
        for (u64 k = 0; k < items; k++, at = r.at) numbers[k] = front(&r, start, at, cells + count - at);
    }
    a.count = items, a.cells = count;
    return a;
}

// count: 1 where a case was read and 0 at the row's end; item: its number.
ALONE struct answer reader_next(const u64 *table, u64 words, const u64 *pool, u64 pool_words, u64 start,
                                const u64 *row, u64 length, u64 *place) {
    struct node plan[MOST_NODES];
    struct answer a = {0};
    a.refusal = prepare_at(table, words, pool, pool_words, plan, start, &a.node);
    if (a.refusal || *place >= length) return a;
    struct in r = {plan, pool};
    u64 n = front(&r, start, row + *place, length - *place);
    if (n == WRONG) a.refusal = r.refusal;
    else if (n >= LARGEST) a.refusal = 16;
    else {
        a.count = 1, a.item = n, a.cells = r.at - (row + *place);
        *place += a.cells;
    }
    return a;
}

// ---- the workloads, as crates/bench has them

static u64 stirred(u64 x) { return ((x % 2147483648) * 1103515245 + 12345) % 2147483648; }

static u64 drawn(u64 k) {
    u64 b = stirred(stirred(k));
    return b * 2147483648 + stirred(b);
}

static u64 drawn_below(u64 k, u64 limit) { return limit ? drawn(k) % limit : 0; }

static u64 mixed(u64 sum, u64 answer) { return ((sum % 2147483647) * 31 + answer % 2147483629) % 2147483647; }

static u64 table[768], pool[4096], numbers[8000], cells[65536];
static u64 nodes, pool_words, start, limit;

static void node(u64 n, u64 kind, u64 a, u64 b) { table[3 * n] = kind, table[3 * n + 1] = a, table[3 * n + 2] = b; }

static void endless(u64 n, u64 s) { nodes = n, pool_words = 0, start = s, limit = LARGEST; }

static void pairs(u64 levels) {
    node(0, NATS, 0, 0);
    for (u64 i = 0; i < levels; i++) node(i + 1, CONS, i, i);
    endless(levels + 1, levels);
}

static void lists(u64 levels) {
    node(0, NATS, 0, 0);
    for (u64 i = 0; i < levels; i++) {
        u64 base = 5 * i + 1;
        node(base, BELOW, 1, 0);
        node(base + 1, AGAIN, base + 4, 0);
        node(base + 2, CONS, base - 1, base + 1);
        node(base + 3, OR, base, base + 2);
        node(base + 4, FIX, base + 3, 0);
    }
    endless(5 * levels + 1, 5 * levels);
}

static void of_pool(u64 n, u64 count, u64 levels) {
    node(0, POOL, 0, count);
    for (u64 i = 0; i < levels; i++) node(i + 1, CONS, i, i);
    for (u64 i = 0; i < count; i++) pool[i] = drawn(i);
    nodes = n, pool_words = count, start = levels, limit = 1ul << 48;
}

static void wide(void) {
    pairs(15);
    node(16, CONS, 13, 11), node(17, CONS, 14, 16), node(18, CONS, 15, 17);
    endless(19, 18);
}

static void laid_out(u64 number) {
    switch (number) {
    case 1: pairs(6); break;
    case 2: pairs(7); break;
    case 3: pairs(10); break;
    case 4: pairs(13); break;
    case 5: wide(); break;
    case 6:
        node(0, BELOW, 256, 0), node(1, BELOW, 3, 0), node(2, BELOW, 1000, 0), node(3, BELOW, 1048576, 0);
        node(4, BELOW, 7, 0), node(5, DEP, 0, 0);
        for (u64 i = 0; i < 256; i++) pool[i] = 1 + i % 4;
        nodes = 6, pool_words = 256, start = 5, limit = 67173504;
        break;
    case 7: of_pool(4, 64, 3); break;
    case 8: of_pool(3, 4096, 2); break;
    case 9:
        node(0, BELOW, 10, 0), node(1, NATS, 0, 0), node(2, SHIFT, 1, 5), node(3, OR, 0, 2);
        node(4, CONS, 0, 3), node(5, CONS, 4, 1);
        endless(6, 5);
        break;
    case 10: lists(1); break;
    case 11: lists(3); break;
    case 12: lists(12); break;
    case 13: lists(25); break;
    case 14: lists(51); break;
    case 15:
        node(0, NATS, 0, 0);
        for (u64 i = 0; i < 127; i++) node(i + 1, AGAIN, i + 128, 0), node(i + 128, FIX, i + 2, 0);
        node(254, FIX, 0, 0);
        endless(255, 254);
        break;
    // at number 0
    case 16: pairs(7), limit = 1; break;
    case 17: pairs(10), limit = 1; break;
    case 18: pairs(13), limit = 1; break;
    case 19: wide(), limit = 1; break;
    default:
        node(0, BELOW, 1, 0), node(1, NATS, 0, 0), node(2, AGAIN, 5, 0), node(3, CONS, 1, 2);
        node(4, OR, 0, 3), node(5, FIX, 4, 0);
        endless(6, 5);
    }
}

#define TABLE table, 3 * nodes, pool, pool_words
#define TOUCH __asm__ volatile("" ::: "memory")

static u64 count_written(u64 k) {
    return case_write(TABLE, start, drawn_below(k, limit), cells, MOST_CELLS).cells;
}

static u64 refused(struct answer a) { return mixed(a.refusal, a.node); }

static u64 task(u64 which, u64 times) {
    u64 sum = 0;
    switch (which) {
    case 0:
        for (u64 k = 0; k < times; k++) {
            TOUCH;
            struct answer a = case_check(TABLE);
            sum = mixed(sum, a.refusal ? refused(a) : 0);
        }
        return sum;
    case 1:
        for (u64 k = 0; k < times; k++) {
            TOUCH;
            u64 count = count_written(k);
            sum = mixed(mixed(sum, count), cells[k % 16]);
        }
        return sum;
    case 2:
        for (u64 k = 0; k < times; k++) {
            u64 count = count_written(k), own = 0;
            for (u64 j = 0; j < 16; j++) {
                TOUCH;
                struct answer a = case_read(TABLE, start, cells, count);
                own = mixed(own, a.refusal ? refused(a) : a.count);
            }
            sum = mixed(sum, own);
        }
        return sum;
    }
    u64 items = which == 6 ? 125 : which == 7 ? 8000 : 1000;
    for (u64 i = 0; i < items; i++) numbers[i] = drawn_below(i, 100);
    if (which == 3) {
        for (u64 k = 0; k < times; k++) {
            TOUCH;
            struct answer a = row_write(TABLE, start, numbers, items, cells, MOST_CELLS);
            sum = mixed(mixed(sum, a.cells), cells[k % 1024]);
        }
        return sum;
    }
    u64 used = row_write(TABLE, start, numbers, items, cells, MOST_CELLS).cells;
    if (which == 4) {
        for (u64 k = 0; k < times; k++) {
            TOUCH;
            struct answer a = row_read(TABLE, start, cells, used, numbers, items);
            u64 got = a.refusal ? mixed(refused(a), a.item) : a.count;
            sum = mixed(mixed(sum, got), k % 1024 < items ? numbers[k % 1024] : 0);
        }
        return sum;
    }
    for (u64 k = 0; k < times; k++) {
        u64 place = 0, own = 0;
        for (u64 i = 0; i < items; i++) {
            TOUCH;
            struct answer a = reader_next(TABLE, start, cells, used, &place);
            own = mixed(own, a.refusal ? refused(a) : a.count ? mixed(a.item, a.cells) : 0);
        }
        sum = mixed(sum, own);
    }
    return sum;
}

static char *decimal(u64 n, char *end) {
    do *--end = '0' + n % 10; while (n /= 10);
    return end;
}

static void say(u64 workload, u64 sum) {
    char line[48], *p = line + 47;
    *p = '\n';
    p = decimal(sum, p);
    *--p = ' ';
    p = decimal(workload, p);
    write(1, p, line + 48 - p);
}

int main(void) {
    static char text[4097];
    long size = 0, got;
    while (size < 4096 && (got = read(0, text + size, 4096 - size)) > 0) size += got;
    for (char *p = text; *p;) {
        u64 field[2] = {0, 0};
        for (int k = 0; k < 2; k++, p++)
            for (; *p >= '0' && *p <= '9'; p++) field[k] = 10 * field[k] + (*p - '0');
        laid_out(field[0] / 10);
        u64 sum = task(field[0] % 10, field[1]);
        for (u64 i = 0; i < MOST_CELLS; i++) sum = mixed(sum, cells[i]);
        for (u64 i = 0; i < 8000; i++) sum = mixed(sum, numbers[i]);
        say(field[0], sum);
    }
    return 0;
}
