/* Functions of the archive with a fault, which the environment's FAULT names; without it they are the true ones, under other names. What
 * tools/fooled puts before the archive. Each line of BEFORE is a function that stands here. */
#define BEFORE(name)
BEFORE(bawersun_get_qubit)
BEFORE(bawersun_commutes_with)
BEFORE(bawersun_phase_of_mul)
BEFORE(bawersun_compatibility_matrix)
BEFORE(bawersun_imul)
BEFORE(bawersun_canonicalize_all)
BEFORE(bawersun_fmt_elem)
BEFORE(bawersun_pwl_open)

#define bawersun_get_qubit true_bawersun_get_qubit
#define bawersun_commutes_with true_bawersun_commutes_with
#define bawersun_phase_of_mul true_bawersun_phase_of_mul
#define bawersun_compatibility_matrix true_bawersun_compatibility_matrix
#define bawersun_imul true_bawersun_imul
#define bawersun_canonicalize_all true_bawersun_canonicalize_all
#define bawersun_fmt_elem true_bawersun_fmt_elem
#define bawersun_pwl_open true_bawersun_pwl_open
#include "bawersun.h"
#undef bawersun_get_qubit
#undef bawersun_commutes_with
#undef bawersun_phase_of_mul
#undef bawersun_compatibility_matrix
#undef bawersun_imul
#undef bawersun_canonicalize_all
#undef bawersun_fmt_elem
#undef bawersun_pwl_open

#include <stdlib.h>
#include <string.h>

static int is(const char *fault) {
    const char *named = getenv("FAULT");
    return named != NULL && strcmp(named, fault) == 0;
}

/* Refusal 6 as 5. */
uint8_t bawersun_get_qubit(size_t n, size_t m, const uint64_t *x, size_t x_len, const uint64_t *z, size_t z_len,
    const uint64_t *phases, size_t phases_len, size_t row, size_t qubit, uint8_t *pauli) {
    uint8_t number = true_bawersun_get_qubit(n, m, x, x_len, z, z_len, phases, phases_len, row, qubit, pauli);
    return is("number") && number == BAWERSUN_TOO_LARGE ? BAWERSUN_SPARE_PHASE : number;
}

/* The answer turned around. */
uint8_t bawersun_commutes_with(size_t n, size_t m, const uint64_t *x, size_t x_len, const uint64_t *z, size_t z_len,
    const uint64_t *phases, size_t phases_len, size_t a, size_t b, uint8_t *truth) {
    uint8_t number = true_bawersun_commutes_with(n, m, x, x_len, z, z_len, phases, phases_len, a, b, truth);
    if (is("answer") && number == 0) *truth ^= 1;
    return number;
}

/* What is only read, changed. */
uint8_t bawersun_phase_of_mul(size_t n, size_t m, const uint64_t *x, size_t x_len, const uint64_t *z, size_t z_len,
    const uint64_t *phases, size_t phases_len, size_t a, size_t b, uint8_t *exponent) {
    uint8_t number = true_bawersun_phase_of_mul(n, m, x, x_len, z, z_len, phases, phases_len, a, b, exponent);
    if (is("read") && number == 0 && z_len > 0) ((uint64_t *)z)[z_len - 1] ^= 1;
    return number;
}

/* One word past the end. */
uint8_t bawersun_compatibility_matrix(size_t n, size_t m, const uint64_t *x, size_t x_len, const uint64_t *z,
    size_t z_len, const uint64_t *phases, size_t phases_len, uint64_t *out, size_t out_len) {
    uint8_t number = true_bawersun_compatibility_matrix(n, m, x, x_len, z, z_len, phases, phases_len, out, out_len);
    if (is("past") && number == 0) out[out_len] = 0;
    return number;
}

/* A refusal that changes a phase. */
uint8_t bawersun_imul(size_t n, size_t m, uint64_t *x, size_t x_len, uint64_t *z, size_t z_len, uint64_t *phases,
    size_t phases_len, size_t a, size_t b, uint16_t *clashes) {
    uint8_t number = true_bawersun_imul(n, m, x, x_len, z, z_len, phases, phases_len, a, b, clashes);
    if (is("refusal") && number != 0 && phases_len > 0) phases[0] ^= 1;
    return number;
}

/* A unit past the entries. */
uint8_t bawersun_canonicalize_all(size_t n, size_t m, uint64_t *x, size_t x_len, uint64_t *z, size_t z_len,
    uint64_t *phases, size_t phases_len, uint16_t *log, size_t log_len, size_t *entries, size_t *t) {
    uint8_t number = true_bawersun_canonicalize_all(n, m, x, x_len, z, z_len, phases, phases_len, log, log_len, entries, t);
    if (is("log") && number == 0 && log_len > 2 * *entries) log[2 * *entries] ^= 1;
    return number;
}

/* A zero byte behind the text, where there is room. */
uint8_t bawersun_fmt_elem(size_t n, size_t m, const uint64_t *x, size_t x_len, const uint64_t *z, size_t z_len,
    const uint64_t *phases, size_t phases_len, size_t row, uint8_t *out, size_t out_len, size_t *length) {
    uint8_t number = true_bawersun_fmt_elem(n, m, x, x_len, z, z_len, phases, phases_len, row, out, out_len, length);
    if (is("text") && number == 0 && out_len > *length) out[*length] = 0;
    return number;
}

/* A front that is not the file's. */
uint8_t bawersun_pwl_open(const uint8_t *file, size_t file_len, size_t *n, size_t *m, size_t *order, size_t *listed,
    size_t *extra, size_t *entries) {
    uint8_t number = true_bawersun_pwl_open(file, file_len, n, m, order, listed, extra, entries);
    if (is("front") && number == 0) *entries += 1;
    return number;
}
