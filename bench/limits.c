// What plain C comes to on the same rows: the limits that `measure` prints beside the calls. Each function is the inner work alone; none tests
// its input but the matrix element, whose tests are most of it. Compiled with -O3 for every x86-64 processor, by build.rs.
#include <stddef.h>
#include <stdint.h>
#include <string.h>

typedef uint64_t word;

static size_t words(size_t bits) { return (bits + 63) / 64; }

static word parity(word v) {
    for (int s = 32; s >= 4; s /= 2) v ^= v >> s;
    return 0x6996u >> (v & 15) & 1;
}

// Half of the pairs, the XOR of the words and one parity a pair, each bit marked on both sides.
void limit_half(size_t n, size_t m, const word *x, const word *z, word *out) {
    size_t w = words(n), v = words(m);
    memset(out, 0, m * v * sizeof *out);
    for (size_t i = 0; i < m; i++)
        for (size_t j = 0; j <= i; j++) {
            word a = 0;
            for (size_t k = 0; k < w; k++) a ^= (x[i * w + k] & z[j * w + k]) ^ (z[i * w + k] & x[j * w + k]);
            word b = parity(a) ^ 1;
            out[i * v + j / 64] |= b << j % 64;
            out[j * v + i / 64] |= b << i % 64;
        }
}

// 64 words of 64 bits: row and column change places.
static void turn(word *a) {
    word mask = 0x00000000ffffffff;
    for (int j = 32; j; j /= 2, mask ^= mask << j)
        for (int k = 0; k < 64; k = ((k | j) + 1) & ~j) {
            word t = ((a[k] >> j) ^ a[k | j]) & mask;
            a[k] ^= t << j;
            a[k | j] ^= t;
        }
}

// Tables of 256 words for eight qubits of 64 rows, the sums of 64 columns in a local array, from the diagonal down; the mirror by turned blocks.
enum { MOST = 4096 };

static void column(size_t w, size_t m, size_t first, const word *a, const word *b, word *sums) {
    word c[64], t[8][256];
    for (size_t k = 0; k < w; k++) {
        for (size_t j = 0; j < 64; j++) c[j] = first + j < m ? b[(first + j) * w + k] : 0;
        turn(c);
        for (size_t g = 0; g < 8; g++) {
            t[g][0] = 0;
            for (size_t r = 0; r < 8; r++)
                for (size_t e = 0, o = (size_t)1 << r; e < o; e++) t[g][o + e] = t[g][e] ^ c[8 * g + r];
        }
        for (size_t i = first; i < m; i++) {
            word u = a[i * w + k], s = sums[i];
            for (size_t g = 0; g < 8; g++, u >>= 8) s ^= t[g][u & 255];
            sums[i] = s;
        }
    }
}

void limit_tables(size_t n, size_t m, const word *x, const word *z, word *out) {
    size_t w = words(n), v = words(m);
    word sums[MOST], c[64];
    for (size_t e = 0; e < v; e++) {
        size_t first = e * 64;
        word mask = first + 64 <= m ? ~(word)0 : ((word)1 << (m - first)) - 1;
        for (size_t i = first; i < m; i++) sums[i] = mask;
        column(w, m, first, x, z, sums);
        column(w, m, first, z, x, sums);
        for (size_t i = first; i < m; i++) out[i * v + e] = sums[i];
    }
    for (size_t b = 0; b < v; b++)
        for (size_t a = 0; a < b; a++) {
            for (size_t r = 0; r < 64; r++) c[r] = b * 64 + r < m ? out[(b * 64 + r) * v + a] : 0;
            turn(c);
            for (size_t r = 0; r < 64; r++) out[(a * 64 + r) * v + b] = c[r];
        }
}

// The bits of a pairwise product alone, no exponent and no count: what memory allows.
void limit_xor(size_t n, size_t m, const word *lx, const word *lz, const word *rx, const word *rz, word *ox, word *oz) {
    for (size_t k = 0; k < m * words(n); k++) {
        ox[k] = lx[k] ^ rx[k];
        oz[k] = lz[k] ^ rz[k];
    }
}

// ---- products of rows, reduction and replay

// Row a becomes a times b, and its exponent comes back: the ones and the twos of the qubits' exponents are kept in two words, and counted at the end.
static unsigned product(size_t w, word *restrict ax, word *restrict az, const word *restrict bx, const word *restrict bz) {
    word ones = 0, twos = 0;
    for (size_t k = 0; k < w; k++) {
        word x = ax[k] ^ bx[k], z = az[k] ^ bz[k], xz = ax[k] & bz[k], clash = xz ^ (az[k] & bx[k]);
        twos ^= (ones ^ x ^ z ^ xz) & clash;
        ones ^= clash;
        ax[k] = x;
        az[k] = z;
    }
    return (__builtin_popcountll(ones) + 2 * __builtin_popcountll(twos)) % 4;
}

struct rows {
    size_t n, m, w;
    word *x, *z;
    uint8_t *p;
};

static struct rows rows(size_t n, size_t m, word *x, word *z, uint8_t *p) {
    return (struct rows){n, m, words(n), x, z, p};
}

static void multiply(struct rows s, size_t a, const word *bx, const word *bz, unsigned bp) {
    s.p[a] = (s.p[a] + bp + product(s.w, s.x + a * s.w, s.z + a * s.w, bx, bz)) % 4;
}

static void in_place(struct rows s, size_t a, size_t b) { multiply(s, a, s.x + b * s.w, s.z + b * s.w, s.p[b]); }

// Gates on every row: bits are turned, and the sign.
void limit_h(size_t n, size_t m, word *x, word *z, uint8_t *p, size_t q) {
    size_t w = words(n), k = q % 64;
    for (size_t r = 0, t = q / 64; r < m; r++, t += w) {
        word a = x[t], b = z[t], d = (a ^ b) >> k & 1;
        x[t] = a ^ d << k;
        z[t] = b ^ d << k;
        p[r] ^= ((a & b) >> k & 1) << 1;
    }
}

void limit_s(size_t n, size_t m, word *x, word *z, uint8_t *p, size_t q) {
    size_t w = words(n), k = q % 64;
    for (size_t r = 0, t = q / 64; r < m; r++, t += w) {
        word a = x[t], b = z[t];
        z[t] = b ^ (a >> k & 1) << k;
        p[r] ^= ((a & b) >> k & 1) << 1;
    }
}

void limit_cx(size_t n, size_t m, word *x, word *z, uint8_t *p, size_t control, size_t target) {
    size_t w = words(n), i = control % 64, j = target % 64;
    for (size_t r = 0, c = control / 64, t = target / 64; r < m; r++, c += w, t += w) {
        word cx = x[c] >> i & 1, cz = z[c] >> i & 1, tx = x[t] >> j & 1, tz = z[t] >> j & 1;
        x[t] ^= cx << j;
        z[c] ^= tz << i;
        p[r] ^= (cx & tz & ~(tx ^ cz)) << 1;
    }
}

// Each row times the next one, all around.
void limit_in_place(size_t n, size_t m, word *x, word *z, uint8_t *p) {
    struct rows s = rows(n, m, x, z, p);
    for (size_t a = 0; a < m; a++) in_place(s, a, (a + 1) % m);
}

void limit_replay(size_t n, size_t m, word *x, word *z, uint8_t *p, const uint16_t *log, size_t entries) {
    struct rows s = rows(n, m, x, z, p);
    for (size_t e = 0; e < entries; e++) in_place(s, log[2 * e], log[2 * e + 1]);
}

static int bit(struct rows s, size_t r, size_t c) {
    return c < s.n ? s.x[r * s.w + c / 64] >> c % 64 & 1 : s.z[r * s.w + (c - s.n) / 64] >> (c - s.n) % 64 & 1;
}

static size_t logged(uint16_t *log, size_t e, size_t target, size_t source) {
    log[2 * e] = target;
    log[2 * e + 1] = source;
    return e + 1;
}

// All columns, all rows, straight by the rule. Gives the entries.
size_t limit_by_rule(size_t n, size_t m, word *x, word *z, uint8_t *p, uint16_t *log) {
    struct rows s = rows(n, m, x, z, p);
    size_t t = 0, e = 0;
    for (size_t c = 0; c < 2 * n && t < m; c++) {
        size_t found = t;
        while (found < m && !bit(s, found, c)) found++;
        if (found == m) continue;
        if (found != t) {
            in_place(s, t, found);
            e = logged(log, e, t, found);
        }
        for (size_t k = 0; k < m; k++)
            if (k != t && bit(s, k, c)) {
                in_place(s, k, t);
                e = logged(log, e, k, t);
            }
        t++;
    }
    return e;
}

// The same rows, exponents and log by strips of 64 columns: a row owes the pivots of the strip that its pattern names, and pays with one product, looked
// up in a table of the products of eight pivots.
enum { PIVOTS = 8, PATTERNS = 1 << PIVOTS, MOST_WORDS = MOST / 64 };

struct pivots {
    size_t count;
    word x[PIVOTS][MOST_WORDS], z[PIVOTS][MOST_WORDS], tx[PATTERNS][MOST_WORDS], tz[PATTERNS][MOST_WORDS];
    uint8_t p[PIVOTS], tp[PATTERNS], owed[MOST];
};

static struct pivots v;

static void settle(struct rows s) {
    size_t bytes = s.w * sizeof(word);
    memset(v.tx[0], 0, bytes);
    memset(v.tz[0], 0, bytes);
    v.tp[0] = 0;
    for (size_t r = 0; r < v.count; r++)
        for (size_t c = 0, o = (size_t)1 << r; c < o; c++) {
            memcpy(v.tx[o + c], v.tx[c], bytes);
            memcpy(v.tz[o + c], v.tz[c], bytes);
            v.tp[o + c] = (v.tp[c] + v.p[r] + product(s.w, v.tx[o + c], v.tz[o + c], v.x[r], v.z[r])) % 4;
        }
    for (size_t r = 0; r < s.m; r++)
        if (v.owed[r]) multiply(s, r, v.tx[v.owed[r]], v.tz[v.owed[r]], v.tp[v.owed[r]]);
    memset(v.owed, 0, s.m);
    v.count = 0;
}

static void pay(struct rows s, size_t r) {
    for (size_t q = 0; q < v.count; q++)
        if (v.owed[r] >> q & 1) multiply(s, r, v.x[q], v.z[q], v.p[q]);
    v.owed[r] = 0;
}

size_t limit_tabled(size_t n, size_t m, word *x, word *z, uint8_t *p, uint16_t *log) {
    static word strip[MOST];
    struct rows s = rows(n, m, x, z, p);
    size_t t = 0, e = 0;
    memset(v.owed, 0, m);
    v.count = 0;
    for (size_t half = 0; half < 2; half++)
        for (size_t c = 0; c < n && t < m; c++) {
            const word *part = (half ? z : x) + c / 64;
            if (c % 64 == 0) {
                settle(s);
                for (size_t r = 0; r < m; r++) strip[r] = part[r * s.w];
            }
            if (v.count == PIVOTS) settle(s);
            size_t found = t;
            while (found < m && !(strip[found] >> c % 64 & 1)) found++;
            if (found == m) continue;
            pay(s, t);
            if (found != t) {
                pay(s, found);
                in_place(s, t, found);
                strip[t] ^= strip[found];
                e = logged(log, e, t, found);
            }
            memcpy(v.x[v.count], x + t * s.w, s.w * sizeof(word));
            memcpy(v.z[v.count], z + t * s.w, s.w * sizeof(word));
            v.p[v.count] = p[t];
            for (size_t k = 0, of = strip[t]; k < m; k++) {
                word one = k == t ? 0 : strip[k] >> c % 64 & 1;
                strip[k] ^= of & -one;
                v.owed[k] |= one << v.count;
                logged(log, e, k, t);
                e += one;
            }
            v.count++;
            t++;
        }
    settle(s);
    return e;
}

// ---- a matrix element in floats: the tests of all terms by words (bits at n and above, a fall of X by the borrow of the difference, the exponent bits of
// the parts), and the sum of the terms from `first` to `last`, of which the place is given.
int limit_element(size_t n, size_t m, const word *x, const word *z, const double *re, const double *im, word ket, size_t first, size_t last, double *sum) {
    word all = 0, fall = 0, wild = 0, before = 0;
    for (size_t i = 0; i < m; i++) {
        word a = x[i];
        all |= a | z[i];
        fall |= (~a & before) | ((~a | before) & (a - before));
        before = a;
    }
    const word exponent = 0x7ff0000000000000, one = 0x0010000000000000;
    for (size_t i = 0; i < m; i++) {
        word a, b;
        memcpy(&a, re + i, sizeof a);
        memcpy(&b, im + i, sizeof b);
        wild |= ((a & exponent) + one) | ((b & exponent) + one);
    }
    if (n < 64 && all >> n) return 4;
    if (fall >> 63) return 10;
    if (wild >> 63) return 11;
    double r = 0, s = 0;
    for (size_t i = first; i < last; i++) {
        unsigned k = (__builtin_popcountll(x[i] & z[i]) + 2 * __builtin_popcountll(z[i] & ket)) % 4;
        double parts[4] = {re[i], -im[i], -re[i], im[i]};
        r += parts[k];
        s += parts[(k + 3) % 4];
    }
    sum[0] = r;
    sum[1] = s;
    return 0;
}
