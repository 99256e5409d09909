/*
 * A booking host in C: rows from their texts, commutation, a reduction with its log, the check of that log, the way back, the log
 * file, written, read back, checked and undone, and a matrix element. Every answer is looked at; the last line is 'N passed, M
 * failed', and it exits with 1 where M is not 0.
 *
 *     cc host.c $(pkg-config --cflags --libs bawersun)
 */
#include <bawersun.h>

#include <stdio.h>
#include <string.h>

#define QUBITS 5
#define ROWS 4
#define WORDS (ROWS * BAWERSUN_WORDS(QUBITS))
#define PHASES BAWERSUN_PHASE_WORDS(ROWS)
#define ENTRIES (ROWS * ROWS)

/* A set: ROWS rows of QUBITS qubits. */
struct set {
    uint64_t x[WORDS], z[WORDS], phases[PHASES];
};

#define READ(s) (s)->x, WORDS, (s)->z, WORDS, (s)->phases, PHASES

static unsigned long passed, failed;

static void look(const char *what, unsigned long long got, unsigned long long want)
{
    if (got == want) {
        passed++;
        return;
    }
    failed++;
    printf("%s: %llu, not %llu\n", what, got, want);
}

static int same(const struct set *a, const struct set *b)
{
    return memcmp(a, b, sizeof *a) == 0;
}

static uint8_t parse(struct set *s, size_t row, const char *text)
{
    return bawersun_parse_elem(QUBITS, ROWS, READ(s), row, (const uint8_t *)text, strlen(text));
}

/* The stabilizers of the five-qubit code. */
static void book(struct set *s)
{
    static const char *const texts[ROWS] = { "X0 Z1 Z2 X3", "X1 Z2 Z3 X4", "X0 X2 Z3 Z4", "Z0 X1 X3 Z4" };
    struct set kept;
    uint8_t out[32];
    size_t length = 0;
    memset(s, 0, sizeof *s);
    for (size_t row = 0; row < ROWS; row++) {
        look("parse_elem", parse(s, row, texts[row]), BAWERSUN_DONE);
        look("fmt_elem", bawersun_fmt_elem(QUBITS, ROWS, READ(s), row, out, sizeof out, &length), BAWERSUN_DONE);
        look("the text", length == strlen(texts[row]) && memcmp(out, texts[row], length) == 0, 1);
    }
    kept = *s;
    look("a text of qubit 5", parse(s, 0, "X0 Z5"), BAWERSUN_NO_TEXT);
    look("no row 4", parse(s, ROWS, "X0"), BAWERSUN_TOO_LARGE);
    look("an output too short", bawersun_fmt_elem(QUBITS, ROWS, READ(s), 0, out, 10, &length), BAWERSUN_SHORT);
    look("refusals change nothing", same(s, &kept), 1);
}

static void qubits(struct set *s)
{
    struct set kept = *s;
    uint8_t pauli = 9;
    uint64_t count = 99;
    look("get_qubit", bawersun_get_qubit(QUBITS, ROWS, READ(s), 1, 2, &pauli), BAWERSUN_DONE);
    look("the Pauli", pauli, BAWERSUN_Z);
    look("count", bawersun_count(QUBITS, ROWS, READ(s), 0, BAWERSUN_X, &count), BAWERSUN_DONE);
    look("the count", count, 2);
    look("no Pauli 4", bawersun_count(QUBITS, ROWS, READ(s), 0, 4, &count), BAWERSUN_TOO_LARGE);
    look("no Pauli 4", bawersun_set_qubit(QUBITS, ROWS, READ(s), 0, 0, 4), BAWERSUN_TOO_LARGE);
    look("the count stays", count, 2);
    look("refusals change nothing", same(s, &kept), 1);
    look("set_qubit", bawersun_set_qubit(QUBITS, ROWS, READ(s), 0, 4, BAWERSUN_Y), BAWERSUN_DONE);
    look("get_qubit", bawersun_get_qubit(QUBITS, ROWS, READ(s), 0, 4, &pauli), BAWERSUN_DONE);
    look("the Pauli", pauli, BAWERSUN_Y);
    look("set_qubit back", bawersun_set_qubit(QUBITS, ROWS, READ(s), 0, 4, BAWERSUN_I), BAWERSUN_DONE);
    look("as before", same(s, &kept), 1);
}

static void commutation(const struct set *s)
{
    uint64_t matrix[ROWS * BAWERSUN_WORDS(ROWS)];
    uint8_t truth = 9, exponent = 9, again = 9;
    look("compatibility_matrix", bawersun_compatibility_matrix(QUBITS, ROWS, READ(s), matrix, sizeof matrix / sizeof *matrix), BAWERSUN_DONE);
    for (size_t row = 0; row < ROWS; row++) {
        look("all commute", matrix[row], 15);
        look("commutes_with", bawersun_commutes_with(QUBITS, ROWS, READ(s), 0, row, &truth), BAWERSUN_DONE);
        look("yes", truth, 1);
        look("belongs_to_centralizer", bawersun_belongs_to_centralizer(QUBITS, ROWS, READ(s), row, &truth), BAWERSUN_DONE);
        look("yes", truth, 1);
        look("phase_of_mul", bawersun_phase_of_mul(QUBITS, ROWS, READ(s), 0, row, &exponent), BAWERSUN_DONE);
        look("by look-ups", bawersun_phase_of_mul_by_table(QUBITS, ROWS, READ(s), 0, row, &again), BAWERSUN_DONE);
        look("the same", again, exponent);
    }
    look("a matrix of another length", bawersun_compatibility_matrix(QUBITS, ROWS, READ(s), matrix, 3), BAWERSUN_LENGTHS);
    look("no row 4", bawersun_commutes_with(QUBITS, ROWS, READ(s), 0, ROWS, &truth), BAWERSUN_TOO_LARGE);
}

/* The reduction, by all columns; the same by lists; its check, its faults, and the way back. */
static void reduction(const struct set *s)
{
    struct set done = *s, listed_done = *s, work = *s;
    uint16_t order[2 * QUBITS], listed[ROWS], log[2 * ENTRIES], other[2 * ENTRIES];
    uint8_t text[32];
    size_t entries = 99, t = 99, other_entries = 99, other_t = 99, place = 99, length = 0;
    for (size_t c = 0; c < 2 * QUBITS; c++)
        order[c] = (uint16_t)c;
    for (size_t row = 0; row < ROWS; row++)
        listed[row] = (uint16_t)row;
    look("canonicalize_all", bawersun_canonicalize_all(QUBITS, ROWS, READ(&done), log, 2 * ENTRIES, &entries, &t), BAWERSUN_DONE);
    look("pivots", t, ROWS);
    look("fmt_elem", bawersun_fmt_elem(QUBITS, ROWS, READ(&done), 0, text, sizeof text, &length), BAWERSUN_DONE);
    look("the first row", length == 11 && memcmp(text, "Y0 Z1 Z3 Y4", 11) == 0 && BAWERSUN_PHASE(done.phases, 0) == 0, 1);
    look("canonicalize", bawersun_canonicalize(QUBITS, ROWS, READ(&listed_done), order, 2 * QUBITS, listed, ROWS, NULL, 0, other, 2 * ENTRIES,
        &other_entries, &other_t), BAWERSUN_DONE);
    look("the same rows", same(&done, &listed_done), 1);
    look("the same log", other_entries == entries && other_t == t && memcmp(log, other, 4 * entries) == 0, 1);
    look("check", bawersun_check(QUBITS, ROWS, READ(&work), order, 2 * QUBITS, listed, ROWS, NULL, 0, log, 2 * entries, READ(&done), &place),
        BAWERSUN_DONE);
    look("the replayed rows", same(&work, &done), 1);
    look("no place", place, 99);
    look("undo", bawersun_undo(QUBITS, ROWS, READ(&work), listed, ROWS, NULL, 0, log, 2 * entries, &place), BAWERSUN_DONE);
    look("the booked rows", same(&work, s), 1);
    look("other claimed rows", bawersun_check(QUBITS, ROWS, READ(&work), order, 2 * QUBITS, listed, ROWS, NULL, 0, log, 2 * entries, READ(s), &place),
        BAWERSUN_DIFFERS);
    look("the first row that differs is one", place < ROWS, 1);
    work = *s;
    other[0] = other[1] = 2;
    look("a bad entry", bawersun_undo(QUBITS, ROWS, READ(&work), listed, ROWS, NULL, 0, other, 2 * entries, &place), BAWERSUN_BAD_ENTRY);
    look("its place", place, 0);
    look("an odd log", bawersun_undo(QUBITS, ROWS, READ(&work), listed, ROWS, NULL, 0, other, 3, &place), BAWERSUN_ODD_LOG);
    look("nothing changed", same(&work, s), 1);
    look("a log of one entry", bawersun_canonicalize_all(QUBITS, ROWS, READ(&work), log, 2, &entries, &t), BAWERSUN_LOG_FULL);
    look("its room", entries, 1);
    look("undo of the cut log", bawersun_undo(QUBITS, ROWS, READ(&work), listed, ROWS, NULL, 0, log, 2, &place), BAWERSUN_DONE);
    look("the booked rows again", same(&work, s), 1);
}

/* What a host keeps on disk: a tmpfile, written and read back. */
static size_t kept(const uint8_t *image, size_t length, uint8_t *file, size_t room)
{
    FILE *disk = tmpfile();
    size_t got = 0;
    if (disk == NULL)
        return 0;
    if (fwrite(image, 1, length, disk) == length) {
        rewind(disk);
        got = fread(file, 1, room, disk);
    }
    fclose(disk);
    return got;
}

#define UNITS (2 * QUBITS + ROWS + 2 * ENTRIES)
#define IMAGE BAWERSUN_PWL_BYTES(QUBITS, ROWS, 2 * QUBITS, ROWS, 0, ENTRIES)

/* What is read from a log file: the outputs, and the numbers of its front. */
struct run {
    struct set start;
    uint64_t claimed[2 * WORDS + PHASES];
    uint16_t units[UNITS];
    size_t n, m, order, listed, extra, entries;
};

#define OUTPUTS(r) (r)->units, UNITS, READ(&(r)->start), (r)->claimed, 2 * WORDS + PHASES
#define FRONT(r) &(r)->n, &(r)->m, &(r)->order, &(r)->listed, &(r)->extra, &(r)->entries

/* The check of a run that was read, and the way back: all that is asked stands in the file. */
static void audit(struct run *r, const struct set *booked)
{
    size_t words = r->m * BAWERSUN_WORDS(r->n), phases = BAWERSUN_PHASE_WORDS(r->m), place = 99;
    const uint16_t *listed = r->units + r->order, *extra = listed + r->listed, *log = extra + r->extra;
    const uint64_t *cz = r->claimed + words, *cphases = cz + words;
    struct set *s = &r->start;
    look("check of the file", bawersun_check(r->n, r->m, s->x, words, s->z, words, s->phases, phases, r->units, r->order, listed, r->listed, extra,
        r->extra, log, 2 * r->entries, r->claimed, words, cz, words, cphases, phases, &place), BAWERSUN_DONE);
    look("the claimed rows", memcmp(s->x, r->claimed, sizeof s->x) == 0 && memcmp(s->z, cz, sizeof s->z) == 0, 1);
    look("undo from the file", bawersun_undo(r->n, r->m, s->x, words, s->z, words, s->phases, phases, listed, r->listed, extra, r->extra, log,
        2 * r->entries, &place), BAWERSUN_DONE);
    look("the booked rows", same(s, booked), 1);
    look("no place", place, 99);
}

/* Files that are none, and outputs that are too short: nothing is changed. */
static void bad_files(const uint8_t *image, size_t length)
{
    struct run r, before;
    uint8_t file[IMAGE + 1];
    memset(&r, 9, sizeof r);
    memcpy(&before, &r, sizeof r);
    memcpy(file, image, length);
    file[length] = 0;
    look("no bytes", bawersun_pwl_open(NULL, 0, FRONT(&r)), BAWERSUN_NO_FILE);
    look("a byte less", bawersun_pwl_open(file, length - 1, FRONT(&r)), BAWERSUN_SHORT_FILE);
    look("a byte more", bawersun_pwl_read(file, length + 1, OUTPUTS(&r), FRONT(&r)), BAWERSUN_LEFT_OVER);
    look("units for the order alone", bawersun_pwl_read(file, length, r.units, 2 * QUBITS, READ(&r.start), r.claimed, 2 * WORDS + PHASES, FRONT(&r)),
        BAWERSUN_SHORT);
    file[41] = 2 * QUBITS;
    look("no column 10", bawersun_pwl_read(file, length, OUTPUTS(&r), FRONT(&r)), BAWERSUN_TOO_LARGE);
    file[3] = 2;
    look("version 2", bawersun_pwl_open(file, length, FRONT(&r)), BAWERSUN_OTHER_VERSION);
    file[0] = 'p';
    look("another mark", bawersun_pwl_read(file, length, OUTPUTS(&r), FRONT(&r)), BAWERSUN_NO_FILE);
    look("refusals change nothing", memcmp(&r, &before, sizeof r) == 0, 1);
}

/* The log file of a reduction: written, read back, checked and undone from what was read. */
static void log_file(const struct set *s)
{
    struct set done = *s;
    struct run r;
    uint16_t order[2 * QUBITS], listed[ROWS], log[2 * ENTRIES] = { 0 };
    uint8_t image[IMAGE], file[IMAGE];
    size_t entries = 99, t = 99, length = 99;
    for (size_t c = 0; c < 2 * QUBITS; c++)
        order[c] = (uint16_t)c;
    for (size_t row = 0; row < ROWS; row++)
        listed[row] = (uint16_t)row;
    look("canonicalize_all", bawersun_canonicalize_all(QUBITS, ROWS, READ(&done), log, 2 * ENTRIES, &entries, &t), BAWERSUN_DONE);
    memset(image, 9, sizeof image);
    look("an odd log", bawersun_pwl_write(QUBITS, ROWS, READ(s), order, 2 * QUBITS, listed, ROWS, NULL, 0, log, 2 * entries + 1, READ(&done), image,
        sizeof image, &length), BAWERSUN_ODD_LOG);
    look("no room", bawersun_pwl_write(QUBITS, ROWS, READ(s), order, 2 * QUBITS, listed, ROWS, NULL, 0, log, 2 * entries, READ(&done), image, 41,
        &length), BAWERSUN_SHORT);
    look("refusals change nothing", length == 99 && image[0] == 9 && image[40] == 9, 1);
    look("pwl_write", bawersun_pwl_write(QUBITS, ROWS, READ(s), order, 2 * QUBITS, listed, ROWS, NULL, 0, log, 2 * entries, READ(&done), image,
        sizeof image, &length), BAWERSUN_DONE);
    look("its length", length, BAWERSUN_PWL_BYTES(QUBITS, ROWS, 2 * QUBITS, ROWS, 0, entries));
    look("kept", kept(image, length, file, sizeof file), length);
    memset(&r, 0, sizeof r);
    look("pwl_open", bawersun_pwl_open(file, length, FRONT(&r)), BAWERSUN_DONE);
    look("the front", r.n == QUBITS && r.m == ROWS && r.order == 2 * QUBITS && r.listed == ROWS && r.extra == 0 && r.entries == entries, 1);
    look("pwl_read", bawersun_pwl_read(file, length, OUTPUTS(&r), FRONT(&r)), BAWERSUN_DONE);
    look("the starting rows", same(&r.start, s), 1);
    look("the lists", memcmp(r.units, order, sizeof order) == 0 && memcmp(r.units + 2 * QUBITS, listed, sizeof listed) == 0, 1);
    audit(&r, s);
    bad_files(image, length);
}

static void products(const struct set *s)
{
    struct set work = *s, out;
    uint16_t clashes = 99, numbers[ROWS];
    uint64_t state[BAWERSUN_WORDS(QUBITS)] = { 0 };
    uint8_t exponent = 9;
    look("imul", bawersun_imul(QUBITS, ROWS, READ(&work), 0, 1, &clashes), BAWERSUN_DONE);
    look("clashes", clashes, 2);
    look("cmpnts_mul_pairwise", bawersun_cmpnts_mul_pairwise(QUBITS, ROWS, READ(s), READ(s), READ(&out), numbers, ROWS), BAWERSUN_DONE);
    look("each row by itself is 1", out.x[0] | out.z[1] | out.phases[0] | numbers[3], 0);
    look("imul_state", bawersun_imul_state(QUBITS, ROWS, READ(s), 0, state, BAWERSUN_WORDS(QUBITS), &exponent), BAWERSUN_DONE);
    look("the new state", state[0], 9);
    look("its exponent", exponent, 0);
    work = *s;
    look("conj_h", bawersun_conj_h(QUBITS, ROWS, READ(&work), 0), BAWERSUN_DONE);
    look("X0 is Z0", work.x[0] == 8 && work.z[0] == 7, 1);
    look("conj_h", bawersun_conj_h(QUBITS, ROWS, READ(&work), 0), BAWERSUN_DONE);
    look("conj_cx", bawersun_conj_cx(QUBITS, ROWS, READ(&work), 0, 1), BAWERSUN_DONE);
    look("conj_cx", bawersun_conj_cx(QUBITS, ROWS, READ(&work), 0, 1), BAWERSUN_DONE);
    for (int i = 0; i < 4; i++) {
        look("conj_s", bawersun_conj_s(QUBITS, ROWS, READ(&work), 2), BAWERSUN_DONE);
        look("X is Y, -X, -Y, X", BAWERSUN_PHASE(work.phases, 2), i == 1 || i == 2 ? 2 : 0);
    }
    look("H and CX twice, S four times", same(&work, s), 1);
    look("control and target are one", bawersun_conj_cx(QUBITS, ROWS, READ(&work), 1, 1), BAWERSUN_ONE_QUBIT);
    look("X times Y", mul_op_op_phase_u64(1, 0, 1, 1), 1);
    look("Y on 1", mul_op_state_phase_u64(1, 1, 1), 3);
}

/* 2 Z0 + 3 Z1 - X0, on two qubits: its X words never fall. */
static void elements(void)
{
    static const uint64_t x[] = { 0, 0, 1 }, z[] = { 1, 2, 0 }, bras[] = { 0, 1 }, one[] = { 1 };
    static const int32_t re[] = { 2, 3, -1 }, im[] = { 0, 0, 0 }, ones[] = { 1, 1 }, none[] = { 0, 0 };
    static const double fre[] = { 2, 3, -1 }, fim[] = { 0, 0, 0 };
    double real = 99, imag = 99;
    int64_t whole = 99, whole_imag = 99;
    look("an element", bawersun_mat_elem_cmpnts_from_presorted(2, x, 3, z, 3, fre, 3, fim, 3, 1, 1, &real, &imag), BAWERSUN_DONE);
    look("-2 + 3", real == 1.0 && imag == 0.0, 1);
    look("no block", bawersun_mat_elem_cmpnts_from_presorted(2, x, 3, z, 3, fre, 3, fim, 3, 2, 0, &real, &imag), BAWERSUN_NO_BLOCK);
    look("the sum stays", real == 1.0, 1);
    look("no terms", bawersun_mat_elem_cmpnts_from_presorted(2, NULL, 0, NULL, 0, NULL, 0, NULL, 0, 2, 0, &real, &imag), BAWERSUN_NO_BLOCK);
    look("in whole numbers", bawersun_mat_elem_cmpnts_from_presorted_whole(2, x, 3, z, 3, re, 3, im, 3, 1, 0, &whole, &whole_imag), BAWERSUN_DONE);
    look("-1", whole == -1 && whole_imag == 0, 1);
    look("between states", bawersun_mat_elem_from_presorted(2, x, 3, z, 3, re, 3, im, 3, bras, 2, ones, 2, none, 2, one, 1, ones, 1, none, 1, &whole,
        &whole_imag), BAWERSUN_DONE);
    look("1 - 1", whole == 0 && whole_imag == 0, 1);
    look("n of 65", bawersun_mat_elem_cmpnts_from_presorted(65, x, 3, z, 3, fre, 3, fim, 3, 1, 1, &real, &imag), BAWERSUN_QUBITS);
    look("a length", bawersun_mat_elem_cmpnts_from_presorted(2, x, 3, z, 2, fre, 3, fim, 3, 1, 1, &real, &imag), BAWERSUN_LENGTHS);
}

/* A set of no rows, lent as NULL. */
static void nothing(void)
{
    size_t entries = 99, t = 99;
    look("no rows", bawersun_canonicalize_all(QUBITS, 0, NULL, 0, NULL, 0, NULL, 0, NULL, 0, &entries, &t), BAWERSUN_DONE);
    look("no entries", entries + t, 0);
    look("a row of no rows", bawersun_parse_elem(QUBITS, 0, NULL, 0, NULL, 0, NULL, 0, 0, NULL, 0), BAWERSUN_TOO_LARGE);
}

int main(void)
{
    struct set booked;
    book(&booked);
    qubits(&booked);
    commutation(&booked);
    reduction(&booked);
    log_file(&booked);
    products(&booked);
    elements();
    nothing();
    printf("%lu passed, %lu failed\n", passed, failed);
    return failed != 0;
}
