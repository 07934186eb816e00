// Times adds of touching and of distant pairs, through the C interface, against two C loops of the sums of their local matrices: one entry at a time (plain),
// and points outermost. The kinds are fixed at compile time in both loops, and neither checks anything. The time of ours is that of a whole add: checks 20 to
// 23 and 9 to 11, the local matrix, and its sums into the matrix. `bench/run-local-matrices` builds and runs it.
//
// Each line: pair, terms, dim, points a side, nanoseconds of ours, of plain, of outermost, then ours/plain and ours/outermost. Thread time, best of some
// rounds. A result that differs from the plain loop's in a bit ends the run.
#define _POSIX_C_SOURCE 199309L
#include <stdint.h>
#include <stdio.h>
#include <stdlib.h>
#include <string.h>
#include <time.h>
#include "seivalto.h"

#define INLINE static inline __attribute__((always_inline))
#define FACTOR1 0.7
#define FACTOR2 -1.3

// What is lent, and room for the result.
struct lent {
    size_t m, n, test_points, trial_points;
    const double *test_weights, *trial_weights, *test_table, *trial_table, *kernel, *test_geometry, *trial_geometry;
    double *entries;
};

// ---- the point value, with the kinds known to the compiler

INLINE double kind_value(int kind, const double *k, const double *t, const double *r, const double *tg, const double *rg) {
    const double *tn = tg + 1, *rn = rg + 1, *tj = tg + 4, *rj = rg + 4;
    switch (kind) {
    case 0: return k[0] * t[0] * r[0];
    case 1: return (k[1] * rn[0] + k[2] * rn[1] + k[3] * rn[2]) * t[0] * r[0];
    case 2: return -(k[1] * tn[0] + k[2] * tn[1] + k[3] * tn[2]) * t[0] * r[0];
    case 3: {
        double p0 = (tj[3] * t[1] - tj[0] * t[2]) * (rj[3] * r[1] - rj[0] * r[2]);
        double p1 = (tj[4] * t[1] - tj[1] * t[2]) * (rj[4] * r[1] - rj[1] * r[2]);
        double p2 = (tj[5] * t[1] - tj[2] * t[2]) * (rj[5] * r[1] - rj[2] * r[2]);
        return k[0] * (p0 + p1 + p2) / tg[0] / rg[0];
    }
    default: return k[0] * (rn[0] * tn[0] + rn[1] * tn[1] + rn[2] * tn[2]) * t[0] * r[0];
    }
}

INLINE double value(int terms, int s1, int k1, int s2, int k2, const double *k, const double *t, const double *r, const double *tg, const double *rg) {
    double a = kind_value(k1, k, t, r, tg, rg);
    if (s1) a = FACTOR1 * a;
    if (terms == 1) return a;
    double b = kind_value(k2, k, t, r, tg, rg);
    if (s2) b = FACTOR2 * b;
    return a + b;
}

INLINE int width(int terms, int k1, int k2) { return k1 == 1 || k1 == 2 || (terms == 2 && (k2 == 1 || k2 == 2)) ? 4 : 1; }
INLINE int rows(int terms, int k1, int k2) { return k1 == 3 || (terms == 2 && k2 == 3) ? 3 : 1; }

// ---- the two C loops

INLINE void touching_plain(int terms, int s1, int k1, int s2, int k2, const struct lent *a) {
    const size_t P = a->test_points, m = a->m, n = a->n, K = width(terms, k1, k2), D = rows(terms, k1, k2);
    double *restrict entries = a->entries;
    for (size_t j = 0; j < n; j++)
        for (size_t i = 0; i < m; i++) {
            double sum = 0;
            for (size_t q = 0; q < P; q++) {
                const double *tg = a->test_geometry + 10 * q, *rg = a->trial_geometry + 10 * q;
                sum += value(terms, s1, k1, s2, k2, a->kernel + K * q, a->test_table + D * (q + P * i), a->trial_table + D * (q + P * j), tg, rg)
                    * (a->test_weights[q] * (tg[0] * rg[0]));
            }
            entries[i + m * j] = sum;
        }
}

INLINE void touching_outermost(int terms, int s1, int k1, int s2, int k2, const struct lent *a) {
    const size_t P = a->test_points, m = a->m, n = a->n, K = width(terms, k1, k2), D = rows(terms, k1, k2);
    double *restrict entries = a->entries;
    memset(entries, 0, m * n * sizeof(double));
    for (size_t q = 0; q < P; q++) {
        const double *tg = a->test_geometry + 10 * q, *rg = a->trial_geometry + 10 * q;
        double w = a->test_weights[q] * (tg[0] * rg[0]);
        for (size_t j = 0; j < n; j++)
            for (size_t i = 0; i < m; i++)
                entries[i + m * j] +=
                    value(terms, s1, k1, s2, k2, a->kernel + K * q, a->test_table + D * (q + P * i), a->trial_table + D * (q + P * j), tg, rg) * w;
    }
}

INLINE void distant_plain(int terms, int s1, int k1, int s2, int k2, const struct lent *a) {
    const size_t T = a->test_points, R = a->trial_points, m = a->m, n = a->n, K = width(terms, k1, k2), D = rows(terms, k1, k2);
    double *restrict entries = a->entries;
    for (size_t j = 0; j < n; j++)
        for (size_t i = 0; i < m; i++) {
            double sum = 0;
            for (size_t t = 0; t < T; t++)
                for (size_t r = 0; r < R; r++) {
                    const double *tg = a->test_geometry + 10 * t, *rg = a->trial_geometry + 10 * r;
                    sum += value(terms, s1, k1, s2, k2, a->kernel + K * (t + T * r), a->test_table + D * (t + T * i), a->trial_table + D * (r + R * j), tg, rg)
                        * (a->trial_weights[r] * rg[0]) * (a->test_weights[t] * tg[0]);
                }
            entries[i + m * j] = sum;
        }
}

INLINE void distant_outermost(int terms, int s1, int k1, int s2, int k2, const struct lent *a) {
    const size_t T = a->test_points, R = a->trial_points, m = a->m, n = a->n, K = width(terms, k1, k2), D = rows(terms, k1, k2);
    double *restrict entries = a->entries;
    memset(entries, 0, m * n * sizeof(double));
    for (size_t t = 0; t < T; t++) {
        const double *tg = a->test_geometry + 10 * t;
        double v = a->test_weights[t] * tg[0];
        for (size_t r = 0; r < R; r++) {
            const double *rg = a->trial_geometry + 10 * r;
            double w = a->trial_weights[r] * rg[0];
            for (size_t j = 0; j < n; j++)
                for (size_t i = 0; i < m; i++)
                    entries[i + m * j] += value(terms, s1, k1, s2, k2, a->kernel + K * (t + T * r), a->test_table + D * (t + T * i),
                                              a->trial_table + D * (r + R * j), tg, rg) * w * v;
        }
    }
}

// ---- the integrands, each with its loops

// name, number of terms; of either term, whether it has a factor, and its kind
#define FORMS(X) \
    X(k0, 1, 0, 0, 0, 0) X(k1, 1, 0, 1, 0, 0) X(k2, 1, 0, 2, 0, 0) X(k3, 1, 0, 3, 0, 0) X(k4, 1, 0, 4, 0, 0) \
    X(f_k0, 1, 1, 0, 0, 0) X(f_k1, 1, 1, 1, 0, 0) X(f_k2, 1, 1, 2, 0, 0) X(f_k3, 1, 1, 3, 0, 0) X(f_k4, 1, 1, 4, 0, 0) \
    X(k0_k0, 2, 0, 0, 0, 0) X(k0_f_k1, 2, 0, 0, 1, 1) X(f_k2_f_k0, 2, 1, 2, 1, 0) X(k3_f_k4, 2, 0, 3, 1, 4) X(f_k3_f_k3, 2, 1, 3, 1, 3)

typedef void loop(const struct lent *);

#define LOOPS(name, terms, s1, k1, s2, k2) \
    static __attribute__((noinline)) void tp_##name(const struct lent *a) { touching_plain(terms, s1, k1, s2, k2, a); } \
    static __attribute__((noinline)) void to_##name(const struct lent *a) { touching_outermost(terms, s1, k1, s2, k2, a); } \
    static __attribute__((noinline)) void dp_##name(const struct lent *a) { distant_plain(terms, s1, k1, s2, k2, a); } \
    static __attribute__((noinline)) void do_##name(const struct lent *a) { distant_outermost(terms, s1, k1, s2, k2, a); }
FORMS(LOOPS)

struct form {
    const char *name;
    int terms, s1, k1, s2, k2;
    loop *plain[2], *outermost[2];
};
#define ROW(name, terms, s1, k1, s2, k2) {#name, terms, s1, k1, s2, k2, {tp_##name, dp_##name}, {to_##name, do_##name}},
static const struct form forms[] = {FORMS(ROW)};

// ---- ours: a run on mesh M of the paper, at a record of the wanted kind

static const uint8_t kinds[] = {3, 3, 3};

struct ours {
    seivalto_run run;
    seivalto_record record;
    uint32_t test_dofs[30], trial_dofs[30], work[27];
    size_t dofs, size;
    double matrix[900];
};

static void accepted(uint32_t refusal) {
    if (refusal) {
        fprintf(stderr, "refused: %u\n", refusal);
        exit(1);
    }
}

static void plan(struct ours *o, const struct form *f, int distant, size_t dim) {
    static const uint32_t vertices[] = {0, 1, 2, 1, 3, 2, 4, 5, 6}, edges[] = {0, 1, 2, 3, 0, 4, 5, 6, 7};
    const seivalto_element e = {dim >= 3, dim >= 6, dim == 1 ? 1 : dim == 10 ? 4 : 0};
    const seivalto_elements es = {e, e};
    const seivalto_integrand integrand = {f->terms, {f->s1, f->k1, FACTOR1}, {f->s2, f->k2, FACTOR2}};
    uint32_t test_colours[3], trial_colours[3], test_owners[90], trial_owners[90];
    o->dofs = 3 * dim;
    seivalto_planned planned = seivalto_plan(3, 7, 8, kinds, 3, vertices, 9, edges, 9, es, es, 1, integrand, o->test_dofs, o->dofs, o->trial_dofs, o->dofs, test_colours, 3,
        trial_colours, 3, test_owners, 3 * o->dofs, trial_owners, 3 * o->dofs, o->work, 27);
    accepted(planned.refusal);
    o->size = (size_t)planned.numbers.rows * planned.numbers.columns;
    o->run = seivalto_begin(planned.numbers);
    o->run.position = distant ? 0 : planned.numbers.distant;
    seivalto_looked looked = seivalto_look(o->run, kinds, 3, o->test_dofs, o->dofs, o->trial_dofs, o->dofs, o->work, 27);
    accepted(looked.refusal);
    o->record = looked.record;
    memset(o->matrix, 0, sizeof o->matrix);
}

// The run stays where it is, so each call adds the same pair again.
static void add(struct ours *o, const struct form *f, int distant, const struct lent *a) {
    const size_t T = a->test_points, R = a->trial_points, m = a->m, n = a->n;
    const size_t K = width(f->terms, f->k1, f->k2), D = rows(f->terms, f->k1, f->k2);
    seivalto_added added = distant
        ? seivalto_add_distant(o->run, kinds, 3, o->test_dofs, o->dofs, o->trial_dofs, o->dofs, o->work, 27, T, R, a->test_weights, T, a->trial_weights, R, a->test_table,
              D * T * m, a->trial_table, D * R * n, a->kernel, K * T * R, a->test_geometry, 10 * T, a->trial_geometry, 10 * R, o->matrix, o->size)
        : seivalto_add_touching(o->run, kinds, 3, o->test_dofs, o->dofs, o->trial_dofs, o->dofs, o->work, 27, T, a->test_weights, T, a->test_table, D * T * m,
              a->trial_table, D * R * n, a->kernel, K * T, a->test_geometry, 10 * T, a->trial_geometry, 10 * R, o->matrix, o->size);
    accepted(added.refusal);
}

// Entry (i, j) of the pair, where the matrix has it.
static double added_entry(const struct ours *o, size_t dim, size_t i, size_t j) {
    return o->matrix[o->test_dofs[dim * o->record.test_cell + i] + (size_t)o->run.numbers.rows * o->trial_dofs[dim * o->record.trial_cell + j]];
}

// ---- timing

static double now(void) {
    struct timespec t;
    clock_gettime(CLOCK_THREAD_CPUTIME_ID, &t);
    return 1e9 * t.tv_sec + t.tv_nsec;
}

static double once(const struct form *f, int distant, int which, struct ours *o, const struct lent *a, int turns) {
    double start = now();
    for (int k = 0; k < turns; k++)
        if (which == 0) add(o, f, distant, a);
        else if (which == 1) f->plain[distant](a);
        else f->outermost[distant](a);
    return (now() - start) / turns;
}

static double *numbers(size_t count, double low, double high) {
    static uint64_t state = 1;
    double *at = malloc(count * sizeof(double));
    for (size_t i = 0; i < count; i++) {
        state = state * 6364136223846793005u + 1442695040888963407u;
        at[i] = low + (high - low) * ((state >> 11) * 0x1p-53);
    }
    return at;
}

static void compare(const struct form *f, int distant, size_t dim, size_t points, int rounds) {
    double entries[100];
    struct ours o;
    struct lent a = {dim, dim, points, points, numbers(points, 0, 1), numbers(points, 0, 1), numbers(3 * points * dim, -1, 1), numbers(3 * points * dim, -1, 1),
        numbers(4 * points * points, -1, 1), numbers(10 * points, 0.5, 1), numbers(10 * points, 0.5, 1), entries};
    double best[3] = {1e18, 1e18, 1e18};
    int turns[3];
    plan(&o, f, distant, dim);
    add(&o, f, distant, &a);
    for (int which = 1; which < 3; which++) {
        once(f, distant, which, &o, &a, 1);
        for (size_t k = 0; k < dim * dim; k++) {
            double x = added_entry(&o, dim, k % dim, k / dim);
            if (memcmp(&x, &entries[k], sizeof x)) {
                fprintf(stderr, "%s %s %zu %zu: another result\n", distant ? "distant" : "touching", f->name, dim, points);
                exit(1);
            }
        }
    }
    for (int which = 0; which < 3; which++) {
        double guess = once(f, distant, which, &o, &a, 3);
        turns[which] = guess > 20000 ? 1 : (int)(20000 / guess) + 1;
    }
    for (int k = 0; k < rounds; k++)
        for (int which = 0; which < 3; which++) {
            double t = once(f, distant, which, &o, &a, turns[which]);
            if (t < best[which]) best[which] = t;
        }
    printf("%s %-10s %2zu %2zu %9.0f %9.0f %9.0f  %5.2f %5.2f\n", distant ? "distant " : "touching", f->name, dim, points, best[0], best[1], best[2],
        best[0] / best[1], best[0] / best[2]);
    const double *all[] = {a.test_weights, a.trial_weights, a.test_table, a.trial_table, a.kernel, a.test_geometry, a.trial_geometry};
    for (int k = 0; k < 7; k++) free((void *)all[k]);
}

// Arguments: rounds (400), and the only dim and the only number of points to time (0: all).
int main(int argc, char **argv) {
    static const size_t dims[] = {1, 3, 6, 10}, counts[] = {1, 6, 16, 37};
    int rounds = argc > 1 ? atoi(argv[1]) : 400;
    size_t dim = argc > 2 ? (size_t)atoi(argv[2]) : 0, points = argc > 3 ? (size_t)atoi(argv[3]) : 0;
    for (int distant = 0; distant < 2; distant++)
        for (size_t f = 0; f < sizeof forms / sizeof *forms; f++)
            for (int d = 0; d < 4; d++)
                for (int c = 0; c < 4; c++)
                    if ((dim == 0 || dim == dims[d]) && (points == 0 || points == counts[c])) compare(&forms[f], distant, dims[d], counts[c], rounds);
    return 0;
}
