/*
 * Bawersun: packed Pauli words for callers in C and C++, on x86-64.
 *
 * Proved, for every input: each function below ends, stays within what it is lent, and answers and leaves what its contract says.
 * Not covered by the proof is what comes from C: that each pointer points to as many values as its length says, that the
 * single values that are written through a pointer are there, and that what a call changes overlaps nothing else that it is
 * lent. Nor are these declarations and the C compiler.
 *
 * A row has n qubits and w = BAWERSUN_WORDS(n) words: qubit q is bit q % 64 of word q / 64, its X part in x, its Z part in z. With
 * (x,z) the Pauli of a qubit is I (0,0), X (1,0), Y (1,1), Z (0,1). By number a Pauli is 0 for I, 1 for X, 2 for Y, 3 for Z.
 * A set has m rows of n qubits: row r has the words from r * w up to (r + 1) * w of x and of z, and a phase p, which stands for i
 * to the p: bits 2 * (r % 32) and the next of word r / 32 of phases. So x_len and z_len are m * w and phases_len is
 * BAWERSUN_PHASE_WORDS(m). Bits at n and above in a row's last word, and those past row m - 1 in the last phase word, are 0.
 *
 * What comes back is 0 where the call is done, else the number of a refusal or of a verdict. A refusal changes nothing that is
 * lent, but for 8, a full log. A value that a call does not give stays as it was. Where several refusals fit, the first of the
 * enum below is given.
 *
 * A slice is a pointer and the number of its values. NULL with length 0 is an empty slice, and so is any pointer with length 0:
 * it is not read. A pointer to a single value (pauli, count, exponent, truth, clashes of imul, entries, t, place, length, real,
 * imag, the six numbers of a log file's front) is never NULL. Pointers are aligned as C aligns their types. No function keeps a
 * pointer, allocates, or has state: calls on different memory may run at the same time. No call takes more than 128 KiB of stack.
 */
#ifndef BAWERSUN_H
#define BAWERSUN_H

#include <stddef.h>
#include <stdint.h>

#ifdef __cplusplus
extern "C" {
#endif

/* The version of this header and its archive; bawersun.pc has it from here. */
#define BAWERSUN_VERSION "0.1.0"

/* The limits. */
#define BAWERSUN_MAX_QUBITS 4096       /* n of a set */
#define BAWERSUN_MAX_ROWS 4096         /* m of a set */
#define BAWERSUN_MAX_TEXT 23465        /* bytes of the longest text of a row */
#define BAWERSUN_MAX_TERM_QUBITS 64    /* n of terms, at least 1 */
#define BAWERSUN_MAX_TERMS 65536       /* X words of terms */
#define BAWERSUN_MAX_STATES 256        /* words of a state of mat_elem_from_presorted */

/* The words of a row of n qubits, the phase words of m rows, and the phase of row r. */
#define BAWERSUN_WORDS(n) (((n) + 63) / 64)
#define BAWERSUN_PHASE_WORDS(m) (((m) + 31) / 32)
#define BAWERSUN_PHASE(phases, r) ((unsigned)((phases)[(r) / 32] >> (2 * ((r) % 32)) & 3))

/* The Paulis by number. */
enum bawersun_pauli { BAWERSUN_I = 0, BAWERSUN_X = 1, BAWERSUN_Y = 2, BAWERSUN_Z = 3 };

/* What comes back, in the order in which refusals are tested. */
enum bawersun_number {
    BAWERSUN_DONE = 0,
    BAWERSUN_NO_FILE = 17,       /* log files: the bytes do not start with the mark P W L, or end inside it */
    BAWERSUN_OTHER_VERSION = 18, /* log files: the version is not 1, or the bytes end inside it */
    BAWERSUN_SHORT_FILE = 19,    /* log files: fewer bytes than the front says, or the bytes end inside the front */
    BAWERSUN_LEFT_OVER = 20,     /* log files: more bytes than the front says */
    BAWERSUN_QUBITS = 1,         /* n is above its limit; for matrix elements also 0 */
    BAWERSUN_ROWS = 2,           /* too many rows, terms or words of a state */
    BAWERSUN_LENGTHS = 3,        /* a length does not fit n, m or another length */
    BAWERSUN_HIGH_BIT = 4,       /* a bit is set at qubit n or above, in a set that is read, a state or a term */
    BAWERSUN_SPARE_PHASE = 5,    /* a phase bit past the last row is set, in a set that is read */
    BAWERSUN_TOO_LARGE = 6,      /* a row of m or above, a qubit of n or above, a column of 2n or above, a Pauli above 3 */
    BAWERSUN_ONE_QUBIT = 21,     /* control and target are the same qubit */
    BAWERSUN_ROW_TWICE = 7,      /* a row stands twice among the listed ones */
    BAWERSUN_COLUMN_TWICE = 15,  /* a column stands twice in the order */
    BAWERSUN_LOG_FULL = 8,       /* the log has no room for the next entry; rows and log are as after those that fitted */
    BAWERSUN_ODD_LOG = 9,        /* the log that is read has an odd length */
    BAWERSUN_X_FALLS = 10,       /* an X word of the terms is below the one before */
    BAWERSUN_COEFFICIENT = 11,   /* a coefficient is not finite */
    BAWERSUN_SUM = 12,           /* a sum is not finite after some addition */
    BAWERSUN_RANGE = 16,         /* a number of the sum leaves 64 bits */
    BAWERSUN_NO_TEXT = 13,       /* the text is not that of a row of n qubits */
    BAWERSUN_SHORT = 14,         /* the output is shorter than the text, the log file or the part of a file that goes there */
    BAWERSUN_DIFFERS = 252,      /* check: the log leads to other rows than the claimed ones */
    BAWERSUN_BAD_ENTRY = 253,    /* check, undo: an entry of the log that no reduction with these lists makes */
    BAWERSUN_NOT_REDUCED = 254,  /* check: the claimed rows are not reduced */
    BAWERSUN_NO_BLOCK = 255      /* matrix elements: no term has the X word; the element is 0 */
};

/* ---- one qubit, counts */

/* get_qubit: the Pauli at a qubit of a row.
 * Lent: the set, read. Changed: *pauli, to 0 to 3, where 0 comes back. Refusals: 1 to 5 of the set; 6 of row and qubit. */
uint8_t bawersun_get_qubit(size_t n, size_t m, const uint64_t *x, size_t x_len, const uint64_t *z, size_t z_len,
    const uint64_t *phases, size_t phases_len, size_t row, size_t qubit, uint8_t *pauli);

/* set_qubit: a qubit of a row becomes a Pauli; the row's phase stays.
 * Lent: the set; x and z are changed where 0 comes back. Refusals: 1 to 5 of the set; 6 of row, qubit and Pauli. */
uint8_t bawersun_set_qubit(size_t n, size_t m, uint64_t *x, size_t x_len, uint64_t *z, size_t z_len,
    const uint64_t *phases, size_t phases_len, size_t row, size_t qubit, uint8_t pauli);

/* count: how many of the n qubits of a row hold a Pauli.
 * Lent: the set, read. Changed: *count, where 0 comes back. Refusals: 1 to 5 of the set; 6 of row and Pauli. */
uint8_t bawersun_count(size_t n, size_t m, const uint64_t *x, size_t x_len, const uint64_t *z, size_t z_len,
    const uint64_t *phases, size_t phases_len, size_t row, uint8_t pauli, uint64_t *count);

/* ---- two rows */

/* phase_of_mul: the exponent of i, 0 to 3, of the product of row a by row b, without the rows' own phases.
 * Lent: the set, read. Changed: *exponent, where 0 comes back. Refusals: 1 to 5 of the set; 6 of the rows. */
uint8_t bawersun_phase_of_mul(size_t n, size_t m, const uint64_t *x, size_t x_len, const uint64_t *z, size_t z_len,
    const uint64_t *phases, size_t phases_len, size_t a, size_t b, uint8_t *exponent);

/* phase_of_mul_by_table: the same answer as phase_of_mul, by look-ups, for chips that have no instruction for counting ones.
 * Lent, changed and refused as there. */
uint8_t bawersun_phase_of_mul_by_table(size_t n, size_t m, const uint64_t *x, size_t x_len, const uint64_t *z,
    size_t z_len, const uint64_t *phases, size_t phases_len, size_t a, size_t b, uint8_t *exponent);

/* commutes_with: whether rows a and b commute.
 * Lent: the set, read. Changed: *truth, to 1 for yes or 0 for no, where 0 comes back. Refusals: 1 to 5 of the set; 6 of the rows. */
uint8_t bawersun_commutes_with(size_t n, size_t m, const uint64_t *x, size_t x_len, const uint64_t *z, size_t z_len,
    const uint64_t *phases, size_t phases_len, size_t a, size_t b, uint8_t *truth);

/* ---- whole sets */

/* belongs_to_centralizer: whether a row commutes with every row of its set.
 * Lent: the set, read. Changed: *truth, to 1 or 0, where 0 comes back. Refusals: 1 to 5 of the set; 6 of the row. */
uint8_t bawersun_belongs_to_centralizer(size_t n, size_t m, const uint64_t *x, size_t x_len, const uint64_t *z,
    size_t z_len, const uint64_t *phases, size_t phases_len, size_t row, uint8_t *truth);

/* compatibility_matrix: bit j of row i of the matrix is 1 exactly when rows i and j commute. The matrix has m rows of
 * BAWERSUN_WORDS(m) words each, bit j in bit j % 64 of word j / 64; bits past the last are 0.
 * Lent: the set, read; out, whose old content does not matter. Changed: out, where 0 comes back.
 * Refusals: 1 to 5 of the set; 3 where out_len is not m * BAWERSUN_WORDS(m). */
uint8_t bawersun_compatibility_matrix(size_t n, size_t m, const uint64_t *x, size_t x_len, const uint64_t *z,
    size_t z_len, const uint64_t *phases, size_t phases_len, uint64_t *out, size_t out_len);

/* cmpnts_mul_pairwise: each row of the left set times the same row of the right set goes into a third set, with its phase:
 * the sum of theirs and of the product's. For each row the number of qubits at which left and right hold differing
 * Paulis other than I goes into clashes. All three sets have the same n and m.
 * Lent: the left set (l..) and the right one (r..), read; the third (o..) and clashes, whose old content does not matter.
 * Changed: the third set and clashes, where 0 comes back. Refusals: 1 to 5 of left and right; 3 of the third set, or where
 * clashes_len is not m. */
uint8_t bawersun_cmpnts_mul_pairwise(size_t n, size_t m, const uint64_t *lx, size_t lx_len, const uint64_t *lz,
    size_t lz_len, const uint64_t *lp, size_t lp_len, const uint64_t *rx, size_t rx_len, const uint64_t *rz,
    size_t rz_len, const uint64_t *rp, size_t rp_len, uint64_t *ox, size_t ox_len, uint64_t *oz, size_t oz_len,
    uint64_t *op, size_t op_len, uint16_t *clashes, size_t clashes_len);

/* imul_state: a row acts on a basis state of BAWERSUN_WORDS(n) words, qubit q in bit q % 64 of word q / 64.
 * Lent: the set, read; the state. Changed: the state, and *exponent, 0 to 3, without the row's own phase, where 0 comes back.
 * Refusals: 1 to 5 of the set; 3 and 4 of the state; 6 of the row. */
uint8_t bawersun_imul_state(size_t n, size_t m, const uint64_t *x, size_t x_len, const uint64_t *z, size_t z_len,
    const uint64_t *phases, size_t phases_len, size_t row, uint64_t *state, size_t state_len, uint8_t *exponent);

/* ---- products in place, and reduction */

/* imul: row a becomes row a times row b, with its phase. Where a is b the bits are cleared and the phase is doubled.
 * Lent: the set. Changed: row a, and *clashes, the number of qubits at which the two rows held differing Paulis other than I,
 * where 0 comes back. Refusals: 1 to 5 of the set; 6 of the rows. */
uint8_t bawersun_imul(size_t n, size_t m, uint64_t *x, size_t x_len, uint64_t *z, size_t z_len, uint64_t *phases,
    size_t phases_len, size_t a, size_t b, uint16_t *clashes);

/* canonicalize: the set is reduced by the order of columns. X of qubit q is column q, Z of qubit q column n + q. t counts the
 * pivots. For each column of the order the first listed row, from place t on, with a 1 there is found; if there is one, the
 * listed row at place t is the pivot, multiplied by the row found if that is another. Then every other listed row and every
 * extra row with a 1 there is multiplied by the pivot, and t is one more. Each product, row a becoming a times b, is an
 * entry of the log: two numbers, a and then b. A log for min(2 * n, listed_len) * (listed_len + extra_len) entries is never full.
 * Lent: the set; order, listed and extra, read; the log, which has room for log_len / 2 entries.
 * Changed, where 0 comes back: the set, the log's first entries, *entries, their number, and *t, the number of pivots. Where 8
 * comes back the log was full: the set and the log are as after the entries that fitted, and *entries is that number.
 * Refusals: 1 to 5 of the set; 6 of order, listed and extra; 7; 15; 8. */
uint8_t bawersun_canonicalize(size_t n, size_t m, uint64_t *x, size_t x_len, uint64_t *z, size_t z_len,
    uint64_t *phases, size_t phases_len, const uint16_t *order, size_t order_len, const uint16_t *listed,
    size_t listed_len, const uint16_t *extra, size_t extra_len, uint16_t *log, size_t log_len, size_t *entries,
    size_t *t);

/* canonicalize_all: canonicalize by all columns, X of each qubit and then Z, with all rows listed and no extra rows. It
 * needs at most m * (m < 2 * n ? m : 2 * n) entries.
 * Lent and changed as there. Refusals: 1 to 5 of the set; 8. */
uint8_t bawersun_canonicalize_all(size_t n, size_t m, uint64_t *x, size_t x_len, uint64_t *z, size_t z_len,
    uint64_t *phases, size_t phases_len, uint16_t *log, size_t log_len, size_t *entries, size_t *t);

/* ---- logs */

/* check: whether a log, whoever made it, leads from the set's rows to the claimed rows (c..), and these are reduced by the order
 * over the listed rows. log_len is twice the number of entries.
 * Lent: the set, whose rows are the starting ones; order, listed, extra, the log and the claimed rows, read.
 * Changed: the set, to the rows that the log leads to, but not at a refusal or a bad entry.
 * Comes back: 0 for yes; BAWERSUN_BAD_ENTRY, with *place the first entry whose two numbers are equal, whose first is neither
 * listed nor extra, or whose second is not listed; BAWERSUN_DIFFERS, with *place the first row that is not the claimed one, bits
 * and phase; BAWERSUN_NOT_REDUCED. Else *place stays. Entries and rows are counted from 0.
 * Refusals: 1 to 5 of the set and of the claimed rows; 6 of order, listed and extra; 7; 15; 9. */
uint8_t bawersun_check(size_t n, size_t m, uint64_t *x, size_t x_len, uint64_t *z, size_t z_len, uint64_t *phases,
    size_t phases_len, const uint16_t *order, size_t order_len, const uint16_t *listed, size_t listed_len,
    const uint16_t *extra, size_t extra_len, const uint16_t *log, size_t log_len, const uint64_t *cx, size_t cx_len,
    const uint64_t *cz, size_t cz_len, const uint64_t *cphases, size_t cphases_len, size_t *place);

/* undo: the rows that a log led to become those that it started from, to every bit and phase.
 * Lent: the set; listed, extra and the log, read. Changed: the set, where 0 comes back.
 * Comes back: 0; or BAWERSUN_BAD_ENTRY, with *place the first bad entry, as for check, and nothing changed. After a full log (8)
 * the entries that fitted lead back too.
 * Refusals: 1 to 5 of the set; 6 of listed and extra; 7; 9. */
uint8_t bawersun_undo(size_t n, size_t m, uint64_t *x, size_t x_len, uint64_t *z, size_t z_len, uint64_t *phases,
    size_t phases_len, const uint16_t *listed, size_t listed_len, const uint16_t *extra, size_t extra_len,
    const uint16_t *log, size_t log_len, size_t *place);

/* ---- log files: a run, kept as bytes
 *
 * A run is n and m, an order, listed and extra rows, the starting rows, a log, and the rows that it is claimed to lead to: what check
 * is given. Its image is the bytes of a log file: a front of 41 bytes, the mark PWL, the version 1, n, m, and how many columns the
 * order has, how many rows are listed and extra and how many entries the log has; then the parts. A run has one image, of
 * BAWERSUN_PWL_BYTES bytes, the same on every machine. Files are opened, written and read by the caller: the calls work on bytes. */

/* The bytes of a log file; order, listed and extra are lengths, and entries is half of the log's length. */
#define BAWERSUN_PWL_BYTES(n, m, order, listed, extra, entries) \
    ((size_t)41 + 2 * ((size_t)(order) + (size_t)(listed) + (size_t)(extra)) + 4 * (size_t)(entries) \
        + 32 * (size_t)(m) * BAWERSUN_WORDS((size_t)(n)) + 16 * BAWERSUN_PHASE_WORDS((size_t)(m)))

/* pwl_write: the image of a run. Whether its log leads to the claimed rows (c..) is not asked: that is check's to say.
 * Lent: the starting rows, order, listed, extra, the log and the claimed rows, read, all as check has them; out.
 * Changed: the first bytes of out and *length, their number, where 0 comes back; what out has past them stays.
 * Refusals: 1 to 5 of the starting and of the claimed rows; 6 of order, listed and extra; 7; 15; 9; 14. */
uint8_t bawersun_pwl_write(size_t n, size_t m, const uint64_t *x, size_t x_len, const uint64_t *z, size_t z_len,
    const uint64_t *phases, size_t phases_len, const uint16_t *order, size_t order_len, const uint16_t *listed,
    size_t listed_len, const uint16_t *extra, size_t extra_len, const uint16_t *log, size_t log_len,
    const uint64_t *cx, size_t cx_len, const uint64_t *cz, size_t cz_len, const uint64_t *cphases, size_t cphases_len,
    uint8_t *out, size_t out_len, size_t *length);

/* pwl_open: the six numbers in front of a file: n, m, the columns of the order, the listed rows, the extra rows, the entries of the
 * log. It looks at the front and at the length of the file alone, so n and m may still be above their limits.
 * Lent: the file's bytes, read. Changed: the six numbers, where 0 comes back. Refusals: 17 to 20. */
uint8_t bawersun_pwl_open(const uint8_t *file, size_t file_len, size_t *n, size_t *m, size_t *order, size_t *listed,
    size_t *extra, size_t *entries);

/* pwl_read: the run in a file. What is read may be handed to check as it stands: see claimed and units.
 * Lent: the file's bytes, read; five outputs, whose old content does not matter. With the numbers that pwl_open gives they need
 *     units      order + listed + extra + 2 * entries: order, listed rows, extra rows and the log, one behind the other
 *     x, z       m * BAWERSUN_WORDS(n) each, and
 *     phases     BAWERSUN_PHASE_WORDS(m): the starting rows
 *     claimed    2 * m * BAWERSUN_WORDS(n) + BAWERSUN_PHASE_WORDS(m): the claimed rows' X, Z and phase words, one behind the other
 * and may be longer. Changed, where 0 comes back: the first values of the outputs, and the six numbers, as by pwl_open; what an
 * output has past its content stays.
 * Refusals: 17 to 20; 1, 2, 4 to 7 and 15 of the run in the file, as check gives them; 14. */
uint8_t bawersun_pwl_read(const uint8_t *file, size_t file_len, uint16_t *units, size_t units_len, uint64_t *x,
    size_t x_len, uint64_t *z, size_t z_len, uint64_t *phases, size_t phases_len, uint64_t *claimed, size_t claimed_len,
    size_t *n, size_t *m, size_t *order, size_t *listed, size_t *extra, size_t *entries);

/* ---- the text of a row */

/* fmt_elem: the text of a row, such as X0 Y3: its Paulis other than I, by qubit, with one space between; no phase. There is
 * no zero byte after it. BAWERSUN_MAX_TEXT bytes hold any row's text.
 * Lent: the set, read; out. Changed: the first bytes of out and *length, their number, where 0 comes back.
 * Refusals: 1 to 5 of the set; 6 of the row; 14. */
uint8_t bawersun_fmt_elem(size_t n, size_t m, const uint64_t *x, size_t x_len, const uint64_t *z, size_t z_len,
    const uint64_t *phases, size_t phases_len, size_t row, uint8_t *out, size_t out_len, size_t *length);

/* parse_elem: a row becomes the row whose text it is, as fmt_elem writes it; the row's phase stays. Nothing is stripped: a
 * space too many, a zero before a number or a zero byte at the end is no text.
 * Lent: the set; the text, read. Changed: the row in x and z, where 0 comes back. Refusals: 1 to 5 of the set; 6 of the row; 13. */
uint8_t bawersun_parse_elem(size_t n, size_t m, uint64_t *x, size_t x_len, uint64_t *z, size_t z_len,
    const uint64_t *phases, size_t phases_len, size_t row, const uint8_t *text, size_t text_len);

/* ---- gates: each row P of the set becomes U P U^-1, phases included */

/* conj_h: H of a qubit: X and Z are exchanged, Y becomes -Y.
 * Lent: the set. Changed: the set, where 0 comes back. Refusals: 1 to 5 of the set; 6 of the qubit. */
uint8_t bawersun_conj_h(size_t n, size_t m, uint64_t *x, size_t x_len, uint64_t *z, size_t z_len, uint64_t *phases,
    size_t phases_len, size_t q);

/* conj_s: S of a qubit: X becomes Y, Y becomes -X, Z stays.
 * Lent: the set. Changed: the set, where 0 comes back. Refusals: 1 to 5 of the set; 6 of the qubit. */
uint8_t bawersun_conj_s(size_t n, size_t m, uint64_t *x, size_t x_len, uint64_t *z, size_t z_len, uint64_t *phases,
    size_t phases_len, size_t q);

/* conj_cx: controlled-X of a control and a target: X of the control becomes X of both, Z of the target Z of both.
 * Lent: the set. Changed: the set, where 0 comes back. Refusals: 1 to 5 of the set; 6 of the qubits; 21. */
uint8_t bawersun_conj_cx(size_t n, size_t m, uint64_t *x, size_t x_len, uint64_t *z, size_t z_len, uint64_t *phases,
    size_t phases_len, size_t control, size_t target);

/* ---- matrix elements: terms, each one X word, one Z word and a coefficient, on n qubits, 1 to 64; bra and ket are basis states of
 * one word. No X word is below the one before. All slices of the terms have one length, up to BAWERSUN_MAX_TERMS */

/* mat_elem_cmpnts_from_presorted: the entry of the operator's matrix between two basis states, in doubles: the sum over the
 * terms whose X word is bra ^ ket, in their order, of the coefficient turned by the power of i of the term on the ket.
 * Lent: X words, Z words, real and imaginary parts of the coefficients, read. Changed: *real and *imag, where 0 comes back.
 * Comes back: 0; or BAWERSUN_NO_BLOCK where no term has that X word. Refusals: 1 to 4, 10, 11, 12. */
uint8_t bawersun_mat_elem_cmpnts_from_presorted(size_t n, const uint64_t *x, size_t x_len, const uint64_t *z,
    size_t z_len, const double *re, size_t re_len, const double *im, size_t im_len, uint64_t bra, uint64_t ket,
    double *real, double *imag);

/* mat_elem_cmpnts_from_presorted_whole: the same with whole coefficients; the sum is exact.
 * Lent, changed and what comes back as there. Refusals: 1 to 4, 10. */
uint8_t bawersun_mat_elem_cmpnts_from_presorted_whole(size_t n, const uint64_t *x, size_t x_len, const uint64_t *z,
    size_t z_len, const int32_t *re, size_t re_len, const int32_t *im, size_t im_len, uint64_t bra, uint64_t ket,
    int64_t *real, int64_t *imag);

/* mat_elem_from_presorted: the number <bra|operator|ket> of two states, each a list of basis states with whole coefficients, those of
 * the bra conjugated; the sum is exact. A pair without terms adds 0. A basis state may stand in a list more than once.
 * Lent: terms as above; words, real and imaginary parts of the bra (b..) and of the ket (k..), read. Changed: *real and *imag,
 * where 0 comes back. Refusals: 1 to 4, 10, 16. */
uint8_t bawersun_mat_elem_from_presorted(size_t n, const uint64_t *x, size_t x_len, const uint64_t *z, size_t z_len,
    const int32_t *re, size_t re_len, const int32_t *im, size_t im_len, const uint64_t *bras, size_t bras_len,
    const int32_t *bre, size_t bre_len, const int32_t *bim, size_t bim_len, const uint64_t *kets, size_t kets_len,
    const int32_t *kre, size_t kre_len, const int32_t *kim, size_t kim_len, int64_t *real, int64_t *imag);

/* ---- words of 64 qubits: any words are taken, nothing is refused, an exponent of i, 0 to 3, comes back */

/* The exponent of the product of the left word by the right word: the sum over the qubits, mod 4.
 * XY, YZ, ZX give 1; YX, ZY, XZ give 3; the rest 0. The bits of the product are lx ^ rx and lz ^ rz. */
uint64_t mul_op_op_phase_u64(uint64_t lx, uint64_t lz, uint64_t rx, uint64_t rz);

/* The exponent of the word's action on the basis state r: the sum over the qubits, mod 4.
 * Y|0> gives 1, Y|1> gives 3, Z|1> gives 2; the rest 0. The new state is r ^ lx. */
uint64_t mul_op_state_phase_u64(uint64_t lx, uint64_t lz, uint64_t r);

#ifdef __cplusplus
}
#endif

#endif
