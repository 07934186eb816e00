// Records the cases that the program local_runs runs: local matrices of touching and distant pairs, with their results, written from the paper alone,
// one entry at a time, with one rounding per operation. Compile without contraction of products and sums, and run, in the top folder:
//
//     cc -std=c11 -O1 -ffp-contract=off -o record_cases tools/record_cases.c
//     ./record_cases > crates/local_runs/data/cases
//
// It draws from a generator of its own with a fixed seed, so each run writes the same bytes. What occurs in the results goes to standard error.
//
// A line is a case: words of 16 hexadecimal digits, parted by one blank.
//     word 0     digits: 0 touching or 1 distant; number of terms; form (0 bare, 1 with a factor) and kind of the first term, the same of the second;
//                test dim, trial dim; points of a touching pair or test points; 0 or trial points; six zeros
//     word 1     eight lengths of two digits: of the seven lists below, and of the entries
//     words 2, 3 the factors of the two terms (0 for a bare one)
//     then       weights (of the test points); trial weights (none touching); test table, trial table; kernel; test geometry, trial geometry;
//                entries, test basis i and trial basis j at i + test dim * j
// A float is written by its bits, and each NaN as 7ff8000000000000.
#include <math.h>
#include <stdint.h>
#include <stdio.h>
#include <stdlib.h>
#include <string.h>

enum { TOUCHING = 0, DISTANT = 1, MOST = 255 };

struct term { int scaled, kind; double factor; };
struct list { int n; double at[MOST + 1]; };
struct cell_pair {
    int pair, terms, m, n, test_points, trial_points;
    struct term term[2];
    struct list test_weights, trial_weights, test_table, trial_table, kernel, test_geometry, trial_geometry, entries;
};

// ---- the paper: widths, point values, local entries

static int any_kind(const struct cell_pair *c, int kind) {
    for (int i = 0; i < c->terms; i++)
        if (c->term[i].kind == kind) return 1;
    return 0;
}

static int kernel_width(const struct cell_pair *c) { return any_kind(c, 1) || any_kind(c, 2) ? 4 : 1; }

static int table_rows(const struct cell_pair *c) { return any_kind(c, 3) ? 3 : 1; }

// k: kernel values; t, r: table rows of the test and the trial basis function; tg, rg: jdet, normal 0 to 2, jacobian 0 to 5
static double kind_value(int kind, const double *k, const double *t, const double *r, const double *tg, const double *rg) {
    const double *tn = tg + 1, *rn = rg + 1, *tj = tg + 4, *rj = rg + 4;
    switch (kind) {
    case 0:
        return k[0] * t[0] * r[0];
    case 1:
        return (k[1] * rn[0] + k[2] * rn[1] + k[3] * rn[2]) * t[0] * r[0];
    case 2:
        return -(k[1] * tn[0] + k[2] * tn[1] + k[3] * tn[2]) * t[0] * r[0];
    case 3: {
        double p[3];
        for (int m = 0; m < 3; m++) {
            double a = tj[3 + m] * t[1] - tj[m] * t[2];
            double b = rj[3 + m] * r[1] - rj[m] * r[2];
            p[m] = a * b;
        }
        return k[0] * (p[0] + p[1] + p[2]) / tg[0] / rg[0];
    }
    default:
        return k[0] * (rn[0] * tn[0] + rn[1] * tn[1] + rn[2] * tn[2]) * t[0] * r[0];
    }
}

static double point_value(const struct cell_pair *c, const double *k, const double *t, const double *r, const double *tg, const double *rg) {
    double v[2];
    for (int i = 0; i < c->terms; i++) {
        v[i] = kind_value(c->term[i].kind, k, t, r, tg, rg);
        if (c->term[i].scaled) v[i] = c->term[i].factor * v[i];
    }
    return c->terms == 1 ? v[0] : v[0] + v[1];
}

static double touching_entry(const struct cell_pair *c, int i, int j) {
    int K = kernel_width(c), D = table_rows(c), P = c->test_points;
    double sum = 0.0;
    for (int q = 0; q < P; q++) {
        const double *tg = c->test_geometry.at + 10 * q, *rg = c->trial_geometry.at + 10 * q;
        double value = point_value(c, c->kernel.at + K * q, c->test_table.at + D * (q + P * i), c->trial_table.at + D * (q + P * j), tg, rg);
        double jdets = tg[0] * rg[0];
        double weight = c->test_weights.at[q] * jdets;
        sum = sum + value * weight;
    }
    return sum;
}

static double distant_entry(const struct cell_pair *c, int i, int j) {
    int K = kernel_width(c), D = table_rows(c), T = c->test_points, R = c->trial_points;
    double sum = 0.0;
    for (int t = 0; t < T; t++)
        for (int r = 0; r < R; r++) {
            const double *tg = c->test_geometry.at + 10 * t, *rg = c->trial_geometry.at + 10 * r;
            double value = point_value(c, c->kernel.at + K * (t + T * r), c->test_table.at + D * (t + T * i), c->trial_table.at + D * (r + R * j), tg, rg);
            double trial = c->trial_weights.at[r] * rg[0];
            double test = c->test_weights.at[t] * tg[0];
            sum = sum + value * trial * test;
        }
    return sum;
}

static void work_out(struct cell_pair *c) {
    c->entries.n = c->m * c->n;
    for (int j = 0; j < c->n; j++)
        for (int i = 0; i < c->m; i++) c->entries.at[i + c->m * j] = c->pair == TOUCHING ? touching_entry(c, i, j) : distant_entry(c, i, j);
}

// ---- the generator (splitmix64) and its numbers

static uint64_t state = 20261115;

static uint64_t draw(void) {
    uint64_t z = state += 0x9e3779b97f4a7c15u;
    z = (z ^ (z >> 30)) * 0xbf58476d1ce4e5b9u;
    z = (z ^ (z >> 27)) * 0x94d049bb133111ebu;
    return z ^ (z >> 31);
}

static int below(int n) { return (int)(draw() % (uint64_t)n); }

static double of_bits(uint64_t b) {
    double x;
    memcpy(&x, &b, 8);
    return x;
}

static uint64_t to_bits(double x) {
    uint64_t b;
    memcpy(&b, &x, 8);
    return x != x ? 0x7ff8000000000000u : b;
}

// sign, exponent from low to high, and a random fraction
static double number(int low, int high) {
    uint64_t bits = draw();
    uint64_t exponent = (uint64_t)(1023 + low + below(high - low + 1));
    return of_bits((bits & 0x800fffffffffffffu) | exponent << 52);
}

enum size { ORDINARY, SMALL, LARGE };

static double any_number(enum size size) {
    int d = below(32);
    if (size == ORDINARY) return d == 0 ? (below(2) ? 0.0 : -0.0) : d == 1 ? (double)below(9) - 4 : number(-2, 1);
    d /= 2;
    if (size == LARGE) return d < 6 ? number(-2, 2) : number(330, 520);
    if (d < 2) return below(2) ? 0.0 : -0.0;
    if (d < 6) return of_bits(draw() & 0x800fffffffffffffu); // subnormal
    if (d < 8) return of_bits((draw() & 0x8000000000000000u) | (uint64_t)(1 + below(3))); // the least subnormals
    return d < 11 ? number(-540, -400) : d < 12 ? number(400, 900) : number(-3, 3);
}

static double jdet(enum size size) {
    double x;
    do x = fabs(any_number(size)); while (!(x > 0.0));
    return x;
}

static void fill(struct list *l, int n, enum size size) {
    if (n > MOST) exit(1);
    l->n = n;
    for (int i = 0; i < n; i++) l->at[i] = any_number(size);
}

static struct term any_term(int scaled, int kind, enum size size) {
    struct term t = { scaled, kind, scaled ? any_number(size) : 0.0 };
    return t;
}

static void lend(struct cell_pair *c, enum size size) {
    int K = kernel_width(c), D = table_rows(c), T = c->test_points, R = c->pair == TOUCHING ? T : c->trial_points;
    fill(&c->test_weights, T, size);
    fill(&c->trial_weights, c->pair == TOUCHING ? 0 : R, size);
    fill(&c->test_table, D * T * c->m, size);
    fill(&c->trial_table, D * R * c->n, size);
    fill(&c->kernel, c->pair == TOUCHING ? K * T : K * T * R, size);
    fill(&c->test_geometry, 10 * T, size);
    fill(&c->trial_geometry, 10 * R, size);
    for (int p = 0; p < T; p++) c->test_geometry.at[10 * p] = jdet(size);
    for (int p = 0; p < R; p++) c->trial_geometry.at[10 * p] = jdet(size);
}

// ---- lines

static int seen_subnormal, seen_infinite, seen_nan, seen_cases, seen_entries;

static void put(const struct list *l) {
    for (int i = 0; i < l->n; i++) printf(" %016llx", (unsigned long long)to_bits(l->at[i]));
}

static void write_case(const struct cell_pair *c) {
    printf("%x%x%x%x%x%x%x%x%x%x000000", c->pair, c->terms, c->term[0].scaled, c->term[0].kind, c->term[1].scaled, c->term[1].kind, c->m, c->n,
           c->test_points, c->trial_points);
    printf(" %02x%02x%02x%02x%02x%02x%02x%02x", c->test_weights.n, c->trial_weights.n, c->test_table.n, c->trial_table.n, c->kernel.n,
           c->test_geometry.n, c->trial_geometry.n, c->entries.n);
    printf(" %016llx %016llx", (unsigned long long)to_bits(c->term[0].factor), (unsigned long long)to_bits(c->term[1].factor));
    put(&c->test_weights);
    put(&c->trial_weights);
    put(&c->test_table);
    put(&c->trial_table);
    put(&c->kernel);
    put(&c->test_geometry);
    put(&c->trial_geometry);
    put(&c->entries);
    printf("\n");
    seen_cases++;
    seen_entries += c->entries.n;
    for (int i = 0; i < c->entries.n; i++) {
        double x = c->entries.at[i];
        seen_subnormal += fpclassify(x) == FP_SUBNORMAL;
        seen_infinite += isinf(x) != 0;
        seen_nan += isnan(x) != 0;
    }
}

// ---- F1 to F4, each touching and distant where it is a point value

static void example(int pair, int kind, const double *k, const double *t, const double *r, double weight, double test_jdet, double trial_jdet, double want) {
    static const double rest[9] = { 1, 1, 1, 1, 0, 0, 0, 1, 0 };
    struct cell_pair c = { .pair = pair, .terms = 1, .m = 1, .n = 1, .test_points = 1, .trial_points = pair == DISTANT };
    c.term[0].kind = kind;
    lend(&c, ORDINARY);
    c.test_weights.at[0] = c.trial_weights.at[0] = weight;
    memcpy(c.kernel.at, k, sizeof(double) * (size_t)c.kernel.n);
    memcpy(c.test_table.at, t, sizeof(double) * (size_t)c.test_table.n);
    memcpy(c.trial_table.at, r, sizeof(double) * (size_t)c.trial_table.n);
    memcpy(c.test_geometry.at + 1, rest, sizeof rest);
    memcpy(c.trial_geometry.at + 1, rest, sizeof rest);
    c.test_geometry.at[0] = test_jdet;
    c.trial_geometry.at[0] = trial_jdet;
    if (kind == 2) c.trial_geometry.at[1] = 5; // F3 reads the test normal alone
    work_out(&c);
    if (c.entries.at[0] != want) {
        fprintf(stderr, "kind %d: %g, not %g\n", kind, c.entries.at[0], want);
        exit(1);
    }
    write_case(&c);
}

static void examples(void) {
    static const double quarter[] = { 0.25 }, one[] = { 1 }, k123[] = { 0, 1, 2, 3 }, two[] = { 2 }, first[] = { 0, 1, 0 };
    example(TOUCHING, 0, quarter, one, one, 0.5, 2, 4, 1.0);   // F1
    example(DISTANT, 0, quarter, one, one, 0.5, 2, 4, 0.5);    // F2
    example(TOUCHING, 2, k123, one, one, 1, 1, 1, -6);         // F3, weight and jdets 1
    example(DISTANT, 2, k123, one, one, 1, 1, 1, -6);
    example(TOUCHING, 3, two, first, first, 0.125, 2, 4, 0.25); // F4, weight 1/8 against the jdets
    example(DISTANT, 3, two, first, first, 0.5, 2, 4, 0.5);     // F4 times 1/2 * 4 times 1/2 * 2
}

// ---- drawn cases

static const int dims[][2] = { { 1, 1 }, { 3, 3 }, { 1, 3 }, { 2, 2 }, { 3, 1 }, { 1, 2 }, { 3, 3 }, { 6, 3 }, { 2, 1 }, { 1, 1 }, { 3, 2 }, { 4, 2 }, { 1, 10 },
                              { 2, 2 }, { 3, 4 }, { 1, 1 }, { 2, 3 }, { 8, 1 }, { 3, 3 }, { 1, 7 }, { 2, 1 }, { 5, 2 }, { 3, 3 }, { 1, 2 }, { 10, 1 },
                              { 2, 2 }, { 2, 9 }, { 1, 1 }, { 3, 3 }, { 3, 6 }, { 10, 10 } };
static int drawn;

static int few_points(enum size size) {
    int d = below(6);
    if (size != ORDINARY) return d < 4 ? 1 : 2;
    return d < 2 ? 1 : d < 5 ? 2 : 3;
}

// Kinds go round with the cases and dims with them; the second term, where it is not read, has any kind, or none that there is.
static void draw_pair(struct cell_pair *c, int pair, int terms, int scaled, enum size size) {
    int n = drawn++, count = (int)(sizeof dims / sizeof *dims);
    memset(c, 0, sizeof *c);
    c->pair = pair;
    c->terms = terms;
    c->m = dims[n % count][0];
    c->n = dims[n % count][1];
    if (size != ORDINARY) {
        c->m = 1 + below(3);
        c->n = 1 + below(3);
    }
    int large = c->m * c->n > 20;
    c->test_points = large ? 1 : few_points(size);
    c->trial_points = pair == TOUCHING ? 0 : large ? 1 : few_points(size);
    c->term[0] = any_term(scaled < 0 ? below(2) : scaled, n % 5, size);
    c->term[1] = any_term(terms == 2 ? below(2) : 0, terms == 2 ? n / 5 % 5 : below(6) == 5 ? 15 : below(5), size);
    lend(c, size);
}

static void plain(int count, int pair, int terms, int scaled) {
    struct cell_pair c;
    for (int i = 0; i < count; i++) {
        draw_pair(&c, pair, terms, scaled, ORDINARY);
        work_out(&c);
        write_case(&c);
    }
}

static int some(const struct cell_pair *c, int what) {
    for (int i = 0; i < c->entries.n; i++)
        if (fpclassify(c->entries.at[i]) == what) return 1;
    return 0;
}

// Cases of which each has an entry of that class.
static void special(int count, enum size size, int what) {
    struct cell_pair c;
    for (int i = 0; i < count; i++) {
        int kind = drawn;
        do {
            drawn = kind;
            draw_pair(&c, i % 2, 1 + i / 2 % 2, -1, size);
            work_out(&c);
        } while (!some(&c, what));
        write_case(&c);
    }
}

// Finite summands of which two of one sign come to infinity, so that the order of the points tells.
static void full_sums(int count) {
    struct cell_pair c;
    for (int i = 0; i < count; i++) {
        do {
            memset(&c, 0, sizeof c);
            c.pair = i % 2;
            c.terms = 1;
            c.m = 1 + below(3);
            c.n = 1 + below(3);
            c.test_points = c.pair == TOUCHING ? 3 : 2;
            c.trial_points = c.pair == TOUCHING ? 0 : 2;
            lend(&c, ORDINARY);
            for (int p = 0; p < c.test_points; p++) c.test_weights.at[p] = c.test_geometry.at[10 * p] = 1;
            for (int p = 0; p < c.trial_points; p++) c.trial_weights.at[p] = 1;
            for (int p = 0; p < c.trial_geometry.n; p += 10) c.trial_geometry.at[p] = 1;
            for (int k = 0; k < c.test_table.n; k++) c.test_table.at[k] = below(2) ? 1 : -1;
            for (int k = 0; k < c.trial_table.n; k++) c.trial_table.at[k] = 1;
            for (int k = 0; k < c.kernel.n; k++) c.kernel.at[k] = number(1023, 1023);
            work_out(&c);
        } while (!some(&c, FP_INFINITE));
        write_case(&c);
    }
}

// Two points whose values are plus and minus infinity: kernel values of two signs, and a factor that takes both over the largest number.
static void opposed(int count) {
    struct cell_pair c;
    for (int i = 0; i < count; i++) {
        do {
            draw_pair(&c, i % 2, 1, 1, ORDINARY);
            if (c.test_points == 1) continue;
            c.term[0].factor = number(1015, 1023);
            for (int k = 0; k < c.kernel.n; k++) c.kernel.at[k] = number(20, 40);
            work_out(&c);
        } while (c.test_points == 1 || !some(&c, FP_NAN) || !some(&c, FP_INFINITE));
        write_case(&c);
    }
}

int main(void) {
    examples();
    plain(36, TOUCHING, 1, 0);
    plain(20, TOUCHING, 1, 1);
    plain(25, TOUCHING, 2, -1);
    plain(36, DISTANT, 1, 0);
    plain(20, DISTANT, 1, 1);
    plain(25, DISTANT, 2, -1);
    special(30, SMALL, FP_SUBNORMAL);
    special(20, LARGE, FP_INFINITE);
    full_sums(14);
    special(10, LARGE, FP_NAN);
    opposed(12);
    fprintf(stderr, "%d cases, %d entries: %d subnormal, %d infinite, %d NaN\n", seen_cases, seen_entries, seen_subnormal, seen_infinite, seen_nan);
    return 0;
}
