/*
 * Calls the two exported functions from C and holds each answer to the tables below: the 16 pairs of Paulis and the 8 Paulis
 * on one-qubit states at bits 0, 31, 32 and 63, the same at two bits at once, and words with all 64 qubits set.
 * Its last line is 'N passed, M failed'; it exits with 1 where M is not 0.
 */
#include "bawersun.h"

#include <inttypes.h>
#include <stdint.h>
#include <stdio.h>

/* The Paulis by number, 0 to 3: I, X, Y, Z. */
static const uint64_t x_bit[4] = { 0, 1, 1, 0 };
static const uint64_t z_bit[4] = { 0, 0, 1, 1 };

/* The exponent of the product of the left Pauli by the right one. */
static const unsigned product_exponent[4][4] = {
    /*         I  X  Y  Z */
    /* I */ { 0, 0, 0, 0 },
    /* X */ { 0, 0, 1, 3 },
    /* Y */ { 0, 3, 0, 1 },
    /* Z */ { 0, 1, 3, 0 },
};

/* The exponent of a Pauli on |0> and on |1>. */
static const unsigned action_exponent[4][2] = {
    /* I */ { 0, 0 },
    /* X */ { 0, 0 },
    /* Y */ { 1, 3 },
    /* Z */ { 0, 2 },
};

static const unsigned places[4] = { 0, 31, 32, 63 };

static unsigned long passed, failed;

/* 64 qubits: a left and a right Pauli each, and a bit of a basis state. */
struct word {
    unsigned char left[64], right[64], bit[64];
};

static void judge(const char *name, uint64_t got, unsigned want, const uint64_t in[4])
{
    if (got == want) {
        passed++;
        return;
    }
    failed++;
    printf("%s(%" PRIx64 ", %" PRIx64 ", %" PRIx64 ", %" PRIx64 ") is %" PRIu64 ", not %u\n", name, in[0], in[1], in[2], in[3], got, want);
}

static void check_product(const struct word *w)
{
    uint64_t in[4] = { 0, 0, 0, 0 };
    unsigned want = 0;
    for (unsigned q = 0; q < 64; q++) {
        in[0] |= x_bit[w->left[q]] << q;
        in[1] |= z_bit[w->left[q]] << q;
        in[2] |= x_bit[w->right[q]] << q;
        in[3] |= z_bit[w->right[q]] << q;
        want += product_exponent[w->left[q]][w->right[q]];
    }
    judge("mul_op_op_phase_u64", mul_op_op_phase_u64(in[0], in[1], in[2], in[3]), want % 4, in);
}

static void check_action(const struct word *w)
{
    uint64_t in[4] = { 0, 0, 0, 0 };
    unsigned want = 0;
    for (unsigned q = 0; q < 64; q++) {
        in[0] |= x_bit[w->left[q]] << q;
        in[1] |= z_bit[w->left[q]] << q;
        in[2] |= (uint64_t)w->bit[q] << q;
        want += action_exponent[w->left[q]][w->bit[q]];
    }
    judge("mul_op_state_phase_u64", mul_op_state_phase_u64(in[0], in[1], in[2]), want % 4, in);
}

/* One qubit set: the pair k of 16, or the Pauli and bit k of 8, at each place. */
static void one_qubit(void)
{
    for (unsigned i = 0; i < 4; i++) {
        for (unsigned k = 0; k < 16; k++) {
            struct word w = { { 0 }, { 0 }, { 0 } };
            w.left[places[i]] = k / 4;
            w.right[places[i]] = k % 4;
            check_product(&w);
        }
        for (unsigned k = 0; k < 8; k++) {
            struct word w = { { 0 }, { 0 }, { 0 } };
            w.left[places[i]] = k / 2;
            w.bit[places[i]] = k % 2;
            check_action(&w);
        }
    }
}

/* Two qubits set: every two of these, at every two places. */
static void two_qubits(void)
{
    for (unsigned i = 0; i < 4; i++) {
        for (unsigned j = i + 1; j < 4; j++) {
            for (unsigned k = 0; k < 256; k++) {
                struct word w = { { 0 }, { 0 }, { 0 } };
                w.left[places[i]] = k / 64;
                w.right[places[i]] = k / 16 % 4;
                w.left[places[j]] = k / 4 % 4;
                w.right[places[j]] = k % 4;
                check_product(&w);
            }
            for (unsigned k = 0; k < 64; k++) {
                struct word w = { { 0 }, { 0 }, { 0 } };
                w.left[places[i]] = k / 16;
                w.bit[places[i]] = k / 8 % 2;
                w.left[places[j]] = k / 2 % 4;
                w.bit[places[j]] = k % 2;
                check_action(&w);
            }
        }
    }
}

/* All 64 qubits set: the same pair everywhere, and pairs from a fixed sequence. */
static void whole_words(void)
{
    for (unsigned k = 0; k < 16; k++) {
        struct word w;
        for (unsigned q = 0; q < 64; q++) {
            w.left[q] = k / 4;
            w.right[q] = k % 4;
            w.bit[q] = k % 2;
        }
        check_product(&w);
        check_action(&w);
    }
    uint64_t seed = 1;
    for (unsigned k = 0; k < 10000; k++) {
        struct word w;
        for (unsigned q = 0; q < 64; q++) {
            seed = seed * 6364136223846793005u + 1442695040888963407u;
            w.left[q] = seed >> 62;
            w.right[q] = seed >> 60 & 3;
            w.bit[q] = seed >> 59 & 1;
        }
        check_product(&w);
        check_action(&w);
    }
}

int main(void)
{
    one_qubit();
    two_qubits();
    whole_words();
    printf("%lu passed, %lu failed\n", passed, failed);
    return failed != 0;
}
