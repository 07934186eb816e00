// Records the lists of calls that the program replay_runs plays, each with what it must answer and leave, and the sparse rows that the entries give. Written
// from the paper alone, and the sparse rows from the request for them: it plans a mesh, plays the calls by the checks in their order, and sums one local entry
// at a time, with one rounding per operation; for each row and column it goes through all entries. Compile without contraction of products and sums, and run,
// in the top folder:
//
//     cc -std=c11 -O1 -ffp-contract=off -o record_calls tools/record_calls.c -lm
//     ./record_calls dense > crates/replay_runs/data/dense
//     ./record_calls entries > crates/replay_runs/data/entries
//
// `dense`: dense runs with looks and both adds. `entries`: entries runs, and dense runs that are asked an entries call, each that planning
// accepts with the sparse rows of its entry lists. Both draw from a generator of their own with a fixed seed, so each run writes the same bytes. What occurs
// goes to standard error.
//
// A file is words of 16 hexadecimal digits, a blank or a line end after each: a line with the number of cases, then a line a case.
//     word 0      C, V, E and batch, four digits each
//     word 1      digits: test a, b, c and trial a, b, c of triangles; number of terms; form (0 bare, 1 with a factor) and kind of the first term, the same of
//                 the second; 0 for a dense run or 1 for an entries run; planning's refusal, two digits; two zeros
//     words 2, 3  the factors of the two terms (0 for a bare one)
//     word 4      digits: test a, b, c and trial a, b, c of quads; ten zeros
//     twenty numbers, four in a word: lengths of cell vertices (and of cell edges), test DOFs, trial DOFs, colours (each), test owners, trial owners, work
//                 list, calls, pool, matrix, entry lists (each), answers; the position after the last call; lengths of row starts, columns and values of the
//                 sparse rows; what gathering them answers: 0 0 where it is not asked, 1 and how many values are kept, or 2 and the refusal; the length of the
//                 kind list; a zero
//     then        kinds, cell vertices, cell edges and calls, as numbers; pool and matrix, as floats;
//                 after the calls answers, as numbers; matrix, as floats; entry rows and columns, as numbers; entry values, as floats;
//                 and of the sparse rows, before they are written and after, row starts, as words; columns, as numbers; values, as floats
// Numbers of a list stand four in a word, and the last word of a list is filled up with zeros. A float is written by its bits, and each
// NaN as 7ff8000000000000.
//
// A call is eleven numbers: kind (0 look, 1 distant, 2 touching, 3 entries), two point counts (of kinds 2 and 3 the first alone is read), and eight places that
// part the pool into seven lists (kinds 2 and 3 have six); a list whose places are not there is empty. Lists: weights (distant: of the test points, then of the
// trial points), test table, trial table, kernel, test geometry, trial geometry. An answer is four numbers: 0 and the record; 1 0 0 0; or 2, the refusal, 0 0.
// Before the calls each number of the answers and of the entry rows and columns is 65535, and each entry value 0.5.
#include <math.h>
#include <stdint.h>
#include <stdio.h>
#include <stdlib.h>
#include <string.h>

enum { CELLS = 8, DIM = 10, CALLS = 160, POOL = 1200, MATRIX = 300, ENTRIES = 600, STARTS = 24, BLOCKS = 16, NOTHING = 65535 };
enum { LOOK = 0, DISTANT = 1, TOUCHING = 2, WRITE = 3 };

// ---- the mesh: the kind of a cell, 3 or 4, is how many vertices and edges it has; edges are numbered as they are met

static int C, V, E, kind[CELLS], vert[CELLS][4], edge[CELLS][4];
static const int triangle_ends[3][2] = { { 1, 2 }, { 0, 2 }, { 0, 1 } }, quad_ends[4][2] = { { 0, 1 }, { 0, 2 }, { 1, 3 }, { 2, 3 } };

// the two local vertices that local edge g of a cell of kind n joins
static const int *ends(int n, int g) { return n == 3 ? triangle_ends[g] : quad_ends[g]; }

static int joins_same(int i, int g, int j, int h) {
    const int *x = ends(kind[i], g), *y = ends(kind[j], h);
    int a = vert[i][x[0]], b = vert[i][x[1]], c = vert[j][y[0]], d = vert[j][y[1]];
    return (a == c && b == d) || (a == d && b == c);
}

static int edge_number(int i, int g) {
    for (int j = 0; j <= i; j++)
        for (int h = 0; h < kind[j] && (j < i || h < g); h++)
            if (joins_same(i, g, j, h)) return edge[j][h];
    return E++;
}

static void set_mesh(int cells, const int *kinds, const int *vertices) {
    C = cells;
    V = E = 0;
    for (int i = 0; i < C; i++) {
        kind[i] = kinds[i];
        for (int v = 0; v < kind[i]; v++) {
            vert[i][v] = *vertices++;
            if (V <= vert[i][v]) V = vert[i][v] + 1;
        }
    }
    for (int i = 0; i < C; i++)
        for (int g = 0; g < kind[i]; g++) edge[i][g] = edge_number(i, g);
}

static int meet(int list[CELLS][4], int i, int j) {
    for (int p = 0; p < kind[i]; p++)
        for (int q = 0; q < kind[j]; q++)
            if (list[i][p] == list[j][q]) return 1;
    return 0;
}

// ---- elements, one for each kind: DOFs and colours

struct form { int a, b, c; };
struct element { struct form triangle, quad; int dim[CELLS], count, places, dof[CELLS][DIM], colour[CELLS]; };

static struct form form_of(const struct element *e, int n) { return n == 3 ? e->triangle : e->quad; }

static int dim_of(const struct element *e, int n) {
    struct form f = form_of(e, n);
    return n * f.a + n * f.b + f.c;
}

static void number_dofs(struct element *e) {
    int of_vertex[4 * CELLS], of_edge[4 * CELLS], next = 0;
    memset(of_vertex, -1, sizeof of_vertex);
    memset(of_edge, -1, sizeof of_edge);
    e->places = 0;
    for (int i = 0; i < C; i++) {
        struct form f = form_of(e, kind[i]);
        int k = 0;
        for (int v = 0; v < kind[i]; v++) {
            int *first = &of_vertex[vert[i][v]];
            if (*first < 0) { *first = next; next += f.a; }
            for (int q = 0; q < f.a; q++) e->dof[i][k++] = *first + q;
        }
        for (int g = 0; g < kind[i]; g++) {
            int *first = &of_edge[edge[i][g]];
            if (*first < 0) { *first = next; next += f.b; }
            for (int q = 0; q < f.b; q++) e->dof[i][k++] = *first + q;
        }
        for (int q = 0; q < f.c; q++) e->dof[i][k++] = next++;
        e->dim[i] = k;
        e->places += k;
    }
    e->count = next;
}

// the element of the first kind present, triangles first
static struct form leading(const struct element *e) {
    for (int i = 0; i < C; i++)
        if (kind[i] == 3) return e->triangle;
    return e->quad;
}

static void colour_cells(struct element *e) {
    struct form f = leading(e);
    for (int i = 0; i < C; i++) {
        int taken[CELLS + 1] = { 0 }, c = 0;
        for (int j = 0; j < i; j++)
            if (f.a > 0 ? meet(vert, i, j) : f.b > 0 ? meet(edge, i, j) : 0) taken[e->colour[j]] = 1;
        while (taken[c]) c++;
        e->colour[i] = c;
    }
}

// ---- the work list

struct record { int pattern, test, trial; };

static struct record work[CELLS * CELLS];
static int records, distant_records;

static int smallest_shared(int i, int j) {
    int least = -1;
    for (int p = 0; p < kind[i]; p++)
        for (int q = 0; q < kind[j]; q++)
            if (vert[i][p] == vert[j][q] && (least < 0 || vert[i][p] < least)) least = vert[i][p];
    return least;
}

// the local edge of a cell of kind n that joins two local vertices; -1 where none does
static int edge_of(int n, int p, int q) {
    for (int g = 0; g < n; g++)
        if ((ends(n, g)[0] == p && ends(n, g)[1] == q) || (ends(n, g)[0] == q && ends(n, g)[1] == p)) return g;
    return -1;
}

// The number of two cells in the table: the triangle formula with the trial kind for 3, after the start of the block of the two kinds. Of all vertices of cells
// of one kind, in whatever order, the block's last; of other lists -1. Where either of these is not right planning refuses.
static int pattern(int i, int j) {
    int n = kind[i], k = kind[j], start = n == 3 ? (k == 3 ? 0 : 28) : (k == 3 ? 64 : 100), test[4], trial[4], shared = 0;
    for (int q = 0; q < k; q++)
        for (int p = 0; p < n; p++)
            if (vert[i][p] == vert[j][q]) { test[shared] = p; trial[shared++] = q; }
    if (shared == 1) return start + k * test[0] + trial[0];
    if (shared == 2) {
        int e = edge_of(n, test[0], test[1]), g = edge_of(k, trial[0], trial[1]);
        return e < 0 || g < 0 ? -1 : start + n * k + 2 * (k * e + g) + (test[0] > test[1]);
    }
    return n == k && shared == n ? start + 3 * n * k : -1;
}

// cell number k of a kind and a colour, the cells rising; -1 past the last
static int cell_of(const struct element *e, int n, int colour, int k) {
    for (int i = 0; i < C; i++)
        if (kind[i] == n && e->colour[i] == colour && k-- == 0) return i;
    return -1;
}

static void list_distant(const struct element *test, const struct element *trial, int test_kind, int trial_kind, int batch) {
    int B = batch < C ? batch : C; // a larger batch holds all cells of a kind and a colour, as this one does
    for (int tc = 0; tc < C; tc++)
        for (int rc = 0; rc < C; rc++)
            for (int tb = 0; tb < C; tb++)
                for (int rb = 0; rb < C; rb++)
                    for (int q = rb * B; q < rb * B + B; q++)
                        for (int p = tb * B; p < tb * B + B; p++) {
                            int i = cell_of(test, test_kind, tc, p), j = cell_of(trial, trial_kind, rc, q);
                            if (i >= 0 && j >= 0 && !meet(vert, i, j)) work[records++] = (struct record){ 255, i, j };
                        }
}

static void list_work(const struct element *test, const struct element *trial, int batch) {
    records = 0;
    for (int n = 3; n <= 4; n++)
        for (int k = 3; k <= 4; k++) list_distant(test, trial, n, k, batch);
    distant_records = records;
    for (int p = 0; p < 149; p++)
        for (int v = 0; v < V; v++)
            for (int i = 0; i < C; i++)
                for (int j = 0; j < C; j++)
                    if (smallest_shared(i, j) == v && pattern(i, j) == p) work[records++] = (struct record){ p, i, j };
}

// ---- the integrand

struct term { int scaled, kind; double factor; };
struct integrand { int terms; struct term term[2]; };

static int any_kind(const struct integrand *f, int kind) {
    for (int i = 0; i < f->terms; i++)
        if (f->term[i].kind == kind) return 1;
    return 0;
}

static int kernel_width(const struct integrand *f) { return any_kind(f, 1) || any_kind(f, 2) ? 4 : 1; }

static int table_rows(const struct integrand *f) { return any_kind(f, 3) ? 3 : 1; }

// k: kernel values; t, r: table rows of the test and the trial basis function; tg, rg: jdet, normal 0 to 2, jacobian 0 to 5
static double kind_value(int kind, const double *k, const double *t, const double *r, const double *tg, const double *rg) {
    const double *tn = tg + 1, *rn = rg + 1, *tj = tg + 4, *rj = rg + 4;
    double p[3];
    switch (kind) {
    case 0: return k[0] * t[0] * r[0];
    case 1: return (k[1] * rn[0] + k[2] * rn[1] + k[3] * rn[2]) * t[0] * r[0];
    case 2: return -(k[1] * tn[0] + k[2] * tn[1] + k[3] * tn[2]) * t[0] * r[0];
    case 3:
        for (int m = 0; m < 3; m++) p[m] = (tj[3 + m] * t[1] - tj[m] * t[2]) * (rj[3 + m] * r[1] - rj[m] * r[2]);
        return k[0] * (p[0] + p[1] + p[2]) / tg[0] / rg[0];
    default: return k[0] * (rn[0] * tn[0] + rn[1] * tn[1] + rn[2] * tn[2]) * t[0] * r[0];
    }
}

static double point_value(const struct integrand *f, const double *k, const double *t, const double *r, const double *tg, const double *rg) {
    double v[2];
    for (int i = 0; i < f->terms; i++) {
        v[i] = kind_value(f->term[i].kind, k, t, r, tg, rg);
        if (f->term[i].scaled) v[i] = f->term[i].factor * v[i];
    }
    return f->terms == 1 ? v[0] : v[0] + v[1];
}

// ---- a case: what planning and the calls are given, and what the calls leave

struct list { int n; const double *at; };

struct sparse { uint64_t starts[STARTS]; int columns[ENTRIES]; double values[ENTRIES]; };

struct run_case {
    struct element test, trial;
    int kinds[CELLS + 1], kinds_length, batch, entries_run, refusal;
    struct integrand f;
    int calls[CALLS][11], call_numbers, pool_length, matrix_length, entry_length, answer_numbers, test_dofs_length;
    double pool[POOL], before[MATRIX];
    int position, answers[4 * CALLS], rows[ENTRIES], columns[ENTRIES];
    double matrix[MATRIX], values[ENTRIES];
    int starts_length, kept_columns_length, kept_values_length, gathered[2];
    struct sparse lists_before, lists;
};

static struct run_case c;

// list j of a call
static struct list list_of(const int *call, int j) {
    int a = call[3 + j], e = call[4 + j];
    if (a <= e && e <= c.pool_length) return (struct list){ e - a, c.pool + a };
    return (struct list){ 0, c.pool };
}

// what an add is lent; of a touching pair the second point count is the first, and there are no trial weights
struct lent { int T, R; struct list test_weights, trial_weights, test_table, trial_table, kernel, test_geometry, trial_geometry; };

static struct lent lent_of(const int *call) {
    if (call[0] == DISTANT)
        return (struct lent){ call[1], call[2], list_of(call, 0), list_of(call, 1), list_of(call, 2), list_of(call, 3), list_of(call, 4), list_of(call, 5),
                              list_of(call, 6) };
    return (struct lent){ call[1], call[1], list_of(call, 0), { 0, c.pool }, list_of(call, 1), list_of(call, 2), list_of(call, 3), list_of(call, 4),
                          list_of(call, 5) };
}

static double distant_entry(const struct lent *l, int i, int j) {
    int K = kernel_width(&c.f), D = table_rows(&c.f), T = l->T, R = l->R;
    double sum = 0.0;
    for (int t = 0; t < T; t++)
        for (int r = 0; r < R; r++) {
            const double *tg = l->test_geometry.at + 10 * t, *rg = l->trial_geometry.at + 10 * r;
            double value = point_value(&c.f, l->kernel.at + K * (t + T * r), l->test_table.at + D * (t + T * i), l->trial_table.at + D * (r + R * j), tg, rg);
            double trial = l->trial_weights.at[r] * rg[0], test = l->test_weights.at[t] * tg[0];
            sum = sum + value * trial * test;
        }
    return sum;
}

static double touching_entry(const struct lent *l, int i, int j) {
    int K = kernel_width(&c.f), D = table_rows(&c.f), P = l->T;
    double sum = 0.0;
    for (int q = 0; q < P; q++) {
        const double *tg = l->test_geometry.at + 10 * q, *rg = l->trial_geometry.at + 10 * q;
        double value = point_value(&c.f, l->kernel.at + K * q, l->test_table.at + D * (q + P * i), l->trial_table.at + D * (q + P * j), tg, rg);
        double jdets = tg[0] * rg[0], weight = l->test_weights.at[q] * jdets;
        sum = sum + value * weight;
    }
    return sum;
}

// ---- checks 9 to 11

static int all_finite(struct list l) {
    for (int i = 0; i < l.n; i++)
        if (!isfinite(l.at[i])) return 0;
    return 1;
}

static int jdets_right(struct list geometry) {
    for (int i = 0; i < geometry.n; i += 10)
        if (!(geometry.at[i] > 0.0)) return 0;
    return 1;
}

// m and n: the dims of the record's cells
static int lent_refusal(const struct lent *l, int distant, int m, int n) {
    int K = kernel_width(&c.f), D = table_rows(&c.f), T = l->T, R = l->R, most = distant ? 64 : 2048;
    if (T < 1 || T > most || R < 1 || R > most) return 9;
    if (l->test_weights.n != T || l->trial_weights.n != (distant ? R : 0) || l->test_table.n != D * T * m || l->trial_table.n != D * R * n ||
        l->kernel.n != (distant ? K * T * R : K * T) || l->test_geometry.n != 10 * T || l->trial_geometry.n != 10 * R)
        return 10;
    if (!all_finite(l->test_weights) || !all_finite(l->trial_weights) || !all_finite(l->test_table) || !all_finite(l->trial_table) || !all_finite(l->kernel) ||
        !all_finite(l->test_geometry) || !all_finite(l->trial_geometry) || !jdets_right(l->test_geometry) || !jdets_right(l->trial_geometry))
        return 11;
    return 0;
}

// ---- the machine: one call

static int seen[32], seen_looks, seen_adds, seen_kept, seen_cases, seen_calls, seen_nan, seen_infinite, cases;

// the entries of the touching records before p, record after record
static int entries_before(int p) {
    int sum = 0;
    for (int q = distant_records; q < p; q++) sum += c.test.dim[work[q].test] * c.trial.dim[work[q].trial];
    return sum;
}

// 21, 20, 23, then 9 to 11: the run's numbers and its plan are planning's own, so 22 turns nothing down, and 21 what is lent alone
static int call_refusal(const int *call) {
    int kind = call[0];
    struct record e;
    if ((kind == DISTANT || kind == TOUCHING) && c.matrix_length != c.test.count * c.trial.count) return 21;
    if (kind == WRITE && c.entry_length != entries_before(C * C)) return 21;
    if (c.position == C * C) return 20;
    if (kind == LOOK) return 0;
    e = work[c.position];
    if ((kind == WRITE) != c.entries_run || (kind == DISTANT) != (e.pattern == 255)) return 23;
    struct lent l = lent_of(call);
    return lent_refusal(&l, kind == DISTANT, c.test.dim[e.test], c.trial.dim[e.trial]);
}

static void put_entries(const int *call) {
    struct record e = work[c.position];
    struct lent l = lent_of(call);
    int place = entries_before(c.position);
    for (int j = 0; j < c.trial.dim[e.trial]; j++)
        for (int i = 0; i < c.test.dim[e.test]; i++) {
            int row = c.test.dof[e.test][i], column = c.trial.dof[e.trial][j];
            double x = call[0] == DISTANT ? distant_entry(&l, i, j) : touching_entry(&l, i, j);
            if (call[0] == WRITE) {
                c.rows[place] = row;
                c.columns[place] = column;
                c.values[place++] = x;
            } else {
                c.matrix[row + c.test.count * column] = c.matrix[row + c.test.count * column] + x;
            }
        }
    c.position++;
}

static void play(const int *call, int *answer) {
    int refusal = call_refusal(call);
    struct record e = c.position < records ? work[c.position] : (struct record){ 0, 0, 0 };
    if (refusal) memcpy(answer, (int[4]){ 2, refusal, 0, 0 }, 4 * sizeof(int));
    else if (call[0] == LOOK) memcpy(answer, (int[4]){ 0, e.pattern, e.test, e.trial }, 4 * sizeof(int));
    else {
        memcpy(answer, (int[4]){ 1, 0, 0, 0 }, 4 * sizeof(int));
        put_entries(call);
    }
    seen_calls++;
    if (refusal) seen[refusal]++;
    else if (call[0] == LOOK) seen_looks++;
    else seen_adds++;
}

// ---- sparse rows

// the sum of the entries at a row and column, in run order and from the first on; answers whether there is one
static int sum_at(int row, int column, double *sum) {
    int met = 0;
    for (int i = 0; i < c.entry_length; i++)
        if (c.rows[i] == row && c.columns[i] == column) {
            *sum = met ? *sum + c.values[i] : c.values[i];
            met = 1;
        }
    return met;
}

// each row and column is below its size; the entry lists of a case have one length
static int entries_fit(void) {
    for (int i = 0; i < c.entry_length; i++)
        if (c.rows[i] >= c.test.count || c.columns[i] >= c.trial.count) return 0;
    return 1;
}

// Gathers the entries that the calls have left, into lists that are so much longer than needed.
static void gather(int starts_more, int columns_more, int values_more) {
    int rows = c.test.count, kept = 0, refusal;
    static struct sparse found;
    if (rows + 1 > STARTS) exit(1);
    for (int row = 0; row < rows; row++) {
        found.starts[row] = (uint64_t)kept;
        for (int column = 0; column < c.trial.count; column++)
            if (sum_at(row, column, &found.values[kept])) found.columns[kept++] = column;
    }
    found.starts[rows] = (uint64_t)kept;
    c.starts_length = rows + 1 + starts_more;
    c.kept_columns_length = kept + columns_more;
    c.kept_values_length = kept + values_more;
    if (c.starts_length > STARTS || c.kept_columns_length > ENTRIES || c.kept_values_length > ENTRIES) exit(1);
    for (int i = 0; i < STARTS; i++) c.lists_before.starts[i] = 0xfedcba9876543200u + (uint64_t)i;
    for (int i = 0; i < ENTRIES; i++) {
        c.lists_before.columns[i] = 60000 + i;
        c.lists_before.values[i] = -1000.0 - i;
    }
    c.lists = c.lists_before;
    refusal = !entries_fit() ? 25 : c.starts_length < rows + 1 || c.kept_columns_length < kept || c.kept_values_length < kept ? 24 : 0;
    c.gathered[0] = refusal ? 2 : 1;
    c.gathered[1] = refusal ? refusal : kept;
    if (refusal) {
        seen[refusal]++;
        return;
    }
    seen_kept++;
    memcpy(c.lists.starts, found.starts, (size_t)(rows + 1) * sizeof *found.starts);
    memcpy(c.lists.columns, found.columns, (size_t)kept * sizeof *found.columns);
    memcpy(c.lists.values, found.values, (size_t)kept * sizeof *found.values);
}

// ---- the generator (splitmix64) and its numbers

static uint64_t state = 20261116;

static uint64_t draw(void) {
    uint64_t z = state += 0x9e3779b97f4a7c15u;
    z = (z ^ (z >> 30)) * 0xbf58476d1ce4e5b9u;
    z = (z ^ (z >> 27)) * 0x94d049bb133111ebu;
    return z ^ (z >> 31);
}

static int below(int n) { return (int)(draw() % (uint64_t)n); }

static uint64_t to_bits(double x) {
    uint64_t b;
    memcpy(&b, &x, 8);
    return x != x ? 0x7ff8000000000000u : b;
}

// from -2 to 2, now and then a signed zero
static double number(void) {
    if (below(40) == 0) return below(2) ? 0.0 : -0.0;
    return ldexp((double)(draw() >> 11), -51) - 2.0;
}

static double positive(void) { return 0.25 + fabs(number()); }

// ---- what is lent: blocks of the pool, each the lists of one add

enum fault { RIGHT, INFINITE, JDET_ZERO, JDET_NEGATIVE };
struct block { int kind, T, R, test_kind, trial_kind, place[8]; enum fault fault; };

static struct block blocks[BLOCKS];
static int block_count;

static double *grow(int n) {
    double *at = c.pool + c.pool_length;
    if (c.pool_length + n > POOL) exit(1);
    for (int i = 0; i < n; i++) at[i] = number();
    c.pool_length += n;
    return at;
}

// for a pair of cells of these kinds
static void add_block(int kind, int test_kind, int trial_kind, int T, int R, enum fault fault) {
    struct block *b = &blocks[block_count++];
    int K = kernel_width(&c.f), D = table_rows(&c.f), distant = kind == DISTANT, n = 0, start = c.pool_length;
    const int lengths[7] = { T, distant ? R : 0, D * T * dim_of(&c.test, test_kind), D * R * dim_of(&c.trial, trial_kind), distant ? K * T * R : K * T, 10 * T,
                             10 * R };
    *b = (struct block){ .kind = kind, .T = T, .R = R, .test_kind = test_kind, .trial_kind = trial_kind, .fault = fault };
    b->place[n++] = start;
    for (int j = 0; j < 7; j++) {
        double *at = grow(lengths[j]);
        if (j >= 5)
            for (int p = 0; p < lengths[j]; p += 10) at[p] = positive();
        if (j == 5 && fault == JDET_ZERO) at[10 * (T - 1)] = 0.0;
        if (j == 6 && fault == JDET_NEGATIVE) at[10 * (R - 1)] = -1.0;
        if (j != 1 || distant) b->place[n++] = c.pool_length;
    }
    if (!distant) b->place[n] = c.pool_length;
    if (fault == INFINITE) c.pool[start + below(c.pool_length - start)] = below(2) ? INFINITY : -INFINITY;
}

static const struct block *any_block(int kind, enum fault fault) {
    for (;;) {
        const struct block *b = &blocks[below(block_count)];
        if (b->kind == kind && b->fault == fault) return b;
    }
}

// one that is right for the kinds of the record at the run's position; after the last, any
static const struct block *right_block(int of) {
    for (;;) {
        const struct block *b = any_block(of, RIGHT);
        if (c.position == C * C || (b->test_kind == kind[work[c.position].test] && b->trial_kind == kind[work[c.position].trial])) return b;
    }
}

// ---- lists of calls

static int call_count;

static int *next_call(int kind, const struct block *b) {
    int *call = c.calls[call_count++];
    if (call_count > CALLS) exit(1);
    memset(call, 0, 11 * sizeof(int));
    call[0] = kind;
    if (b) {
        call[1] = b->T;
        call[2] = kind == DISTANT ? b->R : 0;
        memcpy(call + 3, b->place, sizeof b->place);
    }
    return call;
}

static void play_next(const int *call) { play(call, c.answers + 4 * (call_count - 1)); }

static void look(void) { play_next(next_call(LOOK, NULL)); }

// A call of that kind with blocks of its own kind (the entries call takes touching ones): right, or turned down by 9, 10 or 11.
static void ask(int kind) {
    play_next(next_call(kind, right_block(kind == DISTANT ? DISTANT : TOUCHING)));
}

static void ask_wrong(int kind) {
    int blocks_of = kind == DISTANT ? DISTANT : TOUCHING, d = below(8), lists = kind == DISTANT ? 7 : 6;
    int *call = next_call(kind, any_block(blocks_of, d < 5 ? RIGHT : d == 5 ? INFINITE : d == 6 ? JDET_ZERO : JDET_NEGATIVE));
    if (d == 0) call[1] = 0;
    if (d == 1) call[kind == DISTANT ? 2 : 1] = kind == DISTANT ? 65 : 2049;
    if (d == 2) call[3 + 1 + below(lists - 1)]++;
    if (d == 3) call[3 + lists] = c.pool_length + 1;
    if (d == 4) call[1]++;
    play_next(call);
}

// Every record is added (or written), with looks, adds of the other kind and wrong calls before it; then calls after the end.
static void play_whole(int with_entries) {
    while (c.position < C * C) {
        int right = c.entries_run ? WRITE : work[c.position].pattern == 255 ? DISTANT : TOUCHING;
        int other = with_entries ? 1 + below(3) : DISTANT + TOUCHING - right, d = below(12);
        if (call_count > CALLS - 8 - (C * C - c.position)) d = 11;
        if (d == 0) look();
        else if (d < 3 && other != right) ask(other);
        else if (d < 5) ask_wrong(right);
        else ask(right);
    }
    look();
    ask(DISTANT);
    ask(TOUCHING);
    if (with_entries) ask(WRITE);
    ask_wrong(DISTANT);
}

// Some calls of each kind, in no order.
static void play_some(int n, int with_entries) {
    for (int k = 0; k < n; k++) {
        int kind = below(with_entries ? 4 : 3);
        if (kind == LOOK) look();
        else if (below(2)) ask(kind);
        else ask_wrong(kind);
    }
}

// ---- cases

static const int triangles[] = { 3, 3, 3, 3, 3, 3, 3, 3 }, quads[] = { 4, 4, 4, 4, 4, 4, 4, 4 };
static const int paper[] = { 0, 1, 2, 1, 3, 2, 4, 5, 6 };
static const int octahedron[] = { 0, 2, 4, 2, 1, 4, 1, 3, 4, 3, 0, 4, 2, 0, 5, 1, 2, 5, 3, 1, 5, 0, 3, 5 };
static const int by_edge[] = { 0, 1, 2, 2, 1, 3 }, by_vertex[] = { 0, 1, 2, 3, 2, 4 }, apart[] = { 0, 1, 2, 3, 4, 5 }, twice[] = { 0, 1, 2, 0, 1, 2 },
                 turned[] = { 0, 1, 2, 1, 2, 0 };
// a triangle and a quad that share an edge; these with a triangle and a quad that share nothing; a quad, two triangles and a quad in a row; quads alone, two
// with an edge and one apart; a quad twice; quads that meet only at a diagonal; a triangle that shares three vertices with a quad
static const int pair_kinds[] = { 3, 4 }, pair[] = { 0, 1, 2, 1, 3, 2, 4 };
static const int pairs_kinds[] = { 3, 4, 3, 4 }, pairs[] = { 0, 1, 2, 1, 3, 2, 4, 5, 6, 7, 8, 9, 10, 11 };
static const int row_kinds[] = { 4, 3, 3, 4 }, row[] = { 0, 1, 4, 5, 1, 2, 5, 6, 5, 2, 7, 3, 6, 2 };
static const int panels[] = { 0, 1, 2, 3, 5, 4, 3, 1, 6, 7, 8, 9 }, quad_twice[] = { 0, 1, 2, 3, 0, 1, 2, 3 }, diagonal[] = { 0, 1, 2, 3, 0, 4, 5, 3 };
static const int three_kinds[] = { 3, 4 }, three_shared[] = { 0, 1, 2, 0, 1, 2, 3 };
static const struct { int cells; const int *kinds, *vertices; } meshes[] = {
    { 3, triangles, paper }, { 8, triangles, octahedron }, { 2, triangles, by_edge }, { 2, triangles, by_vertex }, { 2, triangles, apart }, { 2, triangles, twice },
    { 1, triangles, paper }, { 2, triangles, turned }, { 2, pair_kinds, pair }, { 4, pairs_kinds, pairs }, { 4, row_kinds, row }, { 3, quads, panels },
    { 2, quads, quad_twice }, { 2, quads, diagonal }, { 2, three_kinds, three_shared }
};
enum mesh { PAPER, OCTAHEDRON, BY_EDGE, BY_VERTEX, APART, TWICE, ALONE, TURNED, PAIR, PAIRS, ROW, PANELS, QUAD_TWICE, DIAGONAL, THREE_SHARED };

static const struct integrand single = { 1, { { 0, 0, 0 } } };

static struct integrand bare(int kind) { return (struct integrand){ 1, { { 0, kind, 0 } } }; }

static struct integrand scaled(int kind) { return (struct integrand){ 1, { { 1, kind, number() } } }; }

static struct integrand two(int s1, int k1, int s2, int k2) {
    return (struct integrand){ 2, { { s1, k1, s1 ? number() : 0.0 }, { s2, k2, s2 ? number() : 0.0 } } };
}

static int has_kind(int n) {
    for (int i = 0; i < C; i++)
        if (kind[i] == n) return 1;
    return 0;
}

// Blocks for the one kind that the cells have; where they have both, for each two kinds.
static void add_blocks(void) {
    int mixed = has_kind(3) && has_kind(4), n = kind[0];
    if (mixed)
        for (int k = 0; k < 4; k++) {
            add_block(DISTANT, 3 + k / 2, 3 + k % 2, 1 + k % 2, 1, RIGHT);
            add_block(TOUCHING, 3 + k / 2, 3 + k % 2, 1, 1, RIGHT);
        }
    else
        for (int k = 0; k < 2; k++) {
            add_block(DISTANT, n, n, 1 + below(2), 1 + below(3), RIGHT);
            add_block(TOUCHING, n, n, 1 + k, 1 + k, RIGHT);
        }
    for (enum fault fault = INFINITE; fault <= JDET_NEGATIVE; fault++) {
        add_block(DISTANT, n, n, 1, 1, fault);
        add_block(TOUCHING, n, mixed ? 7 - n : n, 1, 1, fault);
    }
}

// An element is a, b, c of triangles, then of quads.
static struct element element(const int e[6]) { return (struct element){ .triangle = { e[0], e[1], e[2] }, .quad = { e[3], e[4], e[5] } }; }

static void begin(enum mesh mesh, const int test[6], const int trial[6], int batch, struct integrand f, int entries_run) {
    memset(&c, 0, sizeof c);
    call_count = block_count = 0;
    set_mesh(meshes[mesh].cells, meshes[mesh].kinds, meshes[mesh].vertices);
    memcpy(c.kinds, kind, (size_t)C * sizeof *kind);
    c.kinds_length = C;
    c.test = element(test);
    c.trial = element(trial);
    c.batch = batch;
    c.f = f;
    c.entries_run = entries_run;
    number_dofs(&c.test);
    number_dofs(&c.trial);
    colour_cells(&c.test);
    colour_cells(&c.trial);
    if (batch > 0) list_work(&c.test, &c.trial, batch);
    c.position = entries_run ? distant_records : 0;
    c.test_dofs_length = c.test.places;
    c.matrix_length = c.test.count * c.trial.count;
    if (c.matrix_length > MATRIX) exit(1);
    for (int i = 0; i < c.matrix_length; i++) c.before[i] = number();
    for (int i = 0; i < 4 * CALLS; i++) c.answers[i] = NOTHING;
    for (int i = 0; i < ENTRIES; i++) {
        c.rows[i] = c.columns[i] = NOTHING;
        c.values[i] = 0.5;
    }
    add_blocks();
    memcpy(c.matrix, c.before, sizeof c.matrix);
}

static void with_entry_lists(int more) {
    c.entry_length = entries_before(C * C) + more;
    if (c.entry_length > ENTRIES) exit(1);
}

// ---- words

static int column;

static void word(uint64_t x) { printf(column++ ? " %016llx" : "%016llx", (unsigned long long)x); }

static void numbers(const int *list, int n) {
    for (int i = 0; i < n; i += 4) {
        uint64_t x = 0;
        for (int k = i; k < i + 4; k++) x = x << 16 | (uint64_t)(k < n ? list[k] : 0);
        word(x);
    }
}

static void floats(const double *list, int n) {
    for (int i = 0; i < n; i++) word(to_bits(list[i]));
}

// the numbers of the cells, one cell after the other
static int flat[4 * CELLS];

static int flatten(int list[CELLS][4]) {
    int n = 0;
    for (int i = 0; i < C; i++)
        for (int v = 0; v < kind[i]; v++) flat[n++] = list[i][v];
    return n;
}

static void sparse_lists(const struct sparse *l) {
    for (int i = 0; i < c.starts_length; i++) word(l->starts[i]);
    numbers(l->columns, c.kept_columns_length);
    floats(l->values, c.kept_values_length);
}

static void end_line(void) {
    printf("\n");
    column = 0;
}

static void digits(const int *list, int n) {
    uint64_t x = 0;
    for (int i = 0; i < 16; i++) x = x << 4 | (uint64_t)(i < n ? list[i] : 0);
    word(x);
}

static void write_case(void) {
    const struct form t = c.test.triangle, r = c.trial.triangle, tq = c.test.quad, rq = c.trial.quad;
    const int forms[14] = { t.a, t.b, t.c, r.a, r.b, r.c, c.f.terms, c.f.term[0].scaled, c.f.term[0].kind, c.f.term[1].scaled, c.f.term[1].kind, c.entries_run,
                            c.refusal / 16, c.refusal % 16 };
    const int of_quads[6] = { tq.a, tq.b, tq.c, rq.a, rq.b, rq.c };
    const int sizes[4] = { C, V, E, c.batch };
    const int lengths[20] = { flatten(vert), c.test_dofs_length, c.trial.places, C, 3 * c.test.places, 3 * c.trial.places, 3 * C * C, c.call_numbers,
                              c.pool_length, c.matrix_length, c.entry_length, c.answer_numbers, c.position, c.starts_length, c.kept_columns_length,
                              c.kept_values_length, c.gathered[0], c.gathered[1], c.kinds_length };
    numbers(sizes, 4);
    digits(forms, 14);
    word(to_bits(c.f.term[0].factor));
    word(to_bits(c.f.term[1].factor));
    digits(of_quads, 6);
    numbers(lengths, 20);
    numbers(c.kinds, c.kinds_length);
    numbers(flat, flatten(vert));
    numbers(flat, flatten(edge));
    numbers(&c.calls[0][0], c.call_numbers);
    floats(c.pool, c.pool_length);
    floats(c.before, c.matrix_length);
    numbers(c.answers, c.answer_numbers);
    floats(c.matrix, c.matrix_length);
    numbers(c.rows, c.entry_length);
    numbers(c.columns, c.entry_length);
    floats(c.values, c.entry_length);
    sparse_lists(&c.lists_before);
    sparse_lists(&c.lists);
    end_line();
    seen_cases++;
    for (int i = 0; i < c.matrix_length; i++) {
        seen_nan += isnan(c.matrix[i]) != 0;
        seen_infinite += isinf(c.matrix[i]) != 0;
    }
    for (int i = 0; i < c.kept_values_length; i++) {
        seen_nan += isnan(c.lists.values[i]) != 0;
        seen_infinite += isinf(c.lists.values[i]) != 0;
    }
}

static void head(int n) {
    cases = n;
    word((uint64_t)n);
    end_line();
}

static void finish(void) {
    c.call_numbers = 11 * call_count;
    c.answer_numbers = 4 * call_count;
    write_case();
}

// ---- the two files

static const int vertices_1[] = { 1, 0, 0, 1, 0, 0 }, edges_1[] = { 0, 1, 0, 0, 1, 0 }, cells_1[] = { 0, 0, 1, 0, 0, 1 }, cells_2[] = { 0, 0, 2, 0, 0, 2 },
                 dim_4[] = { 1, 0, 1, 1, 0, 1 }, dim_6[] = { 1, 1, 0, 1, 1, 0 }, dim_10[] = { 1, 1, 4, 1, 1, 2 }, dim_11[] = { 1, 1, 5, 1, 1, 0 };
// a quad has more or fewer DOFs inside than a triangle; a kind that is not there has an element that check 4 would turn down; a or b differ
static const int more_in_quads[] = { 1, 0, 0, 1, 0, 1 }, fewer_in_quads[] = { 0, 1, 3, 0, 1, 0 }, only_triangles[] = { 1, 0, 0, 15, 15, 15 },
                 only_quads[] = { 0, 0, 0, 1, 0, 0 }, other_a[] = { 1, 0, 0, 2, 0, 0 }, other_b[] = { 0, 1, 0, 0, 2, 0 }, large_quads[] = { 1, 1, 0, 1, 1, 3 };

static void dense_whole(enum mesh mesh, const int test[6], const int trial[6], int batch, struct integrand f) {
    begin(mesh, test, trial, batch, f, 0);
    play_whole(0);
    finish();
}

// planning refuses, and the calls that are there are not played
static void begin_refused(enum mesh mesh, int batch, struct integrand f, int refusal) {
    begin(mesh, vertices_1, vertices_1, batch, f, 0);
    next_call(DISTANT, any_block(DISTANT, RIGHT));
    next_call(TOUCHING, any_block(TOUCHING, RIGHT));
    c.refusal = refusal;
}

static void refused(enum mesh mesh, const int test[6], int batch, struct integrand f, int dofs_more, int refusal) {
    begin_refused(mesh, batch, f, refusal);
    c.test.triangle = (struct form){ test[0], test[1], test[2] };
    c.test.quad = (struct form){ test[3], test[4], test[5] };
    c.test_dofs_length += dofs_more;
    finish();
}

// the kind list has other kinds at the end, or is longer or shorter
static void refused_kinds(enum mesh mesh, int last, int more, int refusal) {
    begin_refused(mesh, 1, single, refusal);
    if (last) c.kinds[C - 1] = last;
    c.kinds_length += more;
    if (more > 0) c.kinds[C] = 3;
    finish();
}

static void dense_file(void) {
    head(58);
    // whole runs
    dense_whole(PAPER, vertices_1, vertices_1, 2, single);
    dense_whole(PAPER, dim_6, vertices_1, 1, two(0, 1, 1, 3));
    dense_whole(PAPER, cells_1, cells_1, 65535, bare(4));
    dense_whole(OCTAHEDRON, dim_6, vertices_1, 1, two(1, 2, 0, 0));
    dense_whole(OCTAHEDRON, edges_1, cells_1, 3, scaled(1));
    dense_whole(BY_EDGE, dim_10, dim_10, 1, bare(3));
    dense_whole(BY_VERTEX, dim_10, cells_2, 1, two(1, 3, 1, 4));
    dense_whole(APART, dim_4, dim_6, 2, two(0, 0, 0, 2));
    dense_whole(TWICE, vertices_1, dim_4, 1, bare(2));
    dense_whole(ALONE, dim_10, dim_10, 1, bare(1));
    // each kind, bare and with a factor, and pairs of kinds, over the meshes and dims
    static const int *const dims[] = { cells_1, vertices_1, dim_4, edges_1, dim_6, cells_2 };
    for (int k = 0; k < 15; k++) {
        static const enum mesh round[] = { PAPER, BY_EDGE, APART, BY_VERTEX };
        struct integrand f = k < 5 ? bare(k) : k < 10 ? scaled(k - 5) : two(k & 1, k - 10, 1, (2 * k + 1) % 5);
        dense_whole(round[k % 4], dims[k % 6], dims[(2 * k + 1) % 5], 1 + k % 3, f);
    }
    // a matrix of the wrong length
    for (int more = -1; more < 2; more += 2) {
        begin(PAPER, vertices_1, cells_1, 1, single, 0);
        c.matrix_length += more;
        play_some(12, 0);
        finish();
    }
    // no call; fewer answers than calls, and a call that is not whole; more room than answers
    begin(PAPER, vertices_1, vertices_1, 1, single, 0);
    finish();
    begin(APART, vertices_1, cells_1, 1, single, 0);
    ask(DISTANT);
    look();
    ask(DISTANT);
    c.call_numbers = 11 * call_count + 5;
    c.answer_numbers = 4 * call_count + 3;
    next_call(LOOK, NULL);
    write_case();
    begin(APART, vertices_1, cells_1, 1, single, 0);
    ask(DISTANT);
    ask(DISTANT);
    next_call(TOUCHING, any_block(TOUCHING, RIGHT));
    c.call_numbers = 11 * call_count;
    c.answer_numbers = 4 * (call_count - 1) + 2;
    write_case();
    // sums that overflow, and infinity minus infinity
    begin(BY_EDGE, vertices_1, vertices_1, 1, (struct integrand){ 1, { { 1, 0, 1e308 } } }, 0);
    for (int i = 0; i < c.matrix_length; i++) c.before[i] = i % 3 == 0 ? INFINITY : 1.5e308;
    memcpy(c.matrix, c.before, sizeof c.matrix);
    play_whole(0);
    finish();
    // planning refuses
    refused(PAPER, dim_11, 1, single, 0, 4);
    refused(PAPER, vertices_1, 0, single, 0, 5);
    refused(PAPER, vertices_1, 1, bare(5), 0, 6);
    refused(TURNED, vertices_1, 1, single, 0, 7);
    refused(PAPER, vertices_1, 1, single, 1, 8);
    // a batch of 0 in the same call as a list of the wrong length: the first check answers
    refused(PAPER, vertices_1, 0, single, 1, 5);
    // a second term that is not read
    begin(PAPER, vertices_1, vertices_1, 1, (struct integrand){ 1, { { 0, 0, 0 }, { 1, 9, INFINITY } } }, 0);
    play_whole(0);
    finish();
    // triangles and quads, and quads alone
    dense_whole(PAIR, vertices_1, vertices_1, 1, single);
    dense_whole(PAIRS, more_in_quads, vertices_1, 2, two(0, 1, 1, 4));
    dense_whole(PAIRS, fewer_in_quads, cells_2, 1, bare(0));
    dense_whole(ROW, vertices_1, more_in_quads, 1, scaled(2));
    dense_whole(ROW, cells_1, edges_1, 2, bare(3));
    dense_whole(PANELS, vertices_1, only_quads, 2, two(1, 0, 0, 3));
    dense_whole(QUAD_TWICE, dim_6, dim_4, 1, scaled(1));
    // the element of a kind that is not there is not read
    dense_whole(PAPER, only_triangles, vertices_1, 2, single);
    // planning refuses a mesh with quads, or its elements or kinds
    refused(PAIR, other_a, 1, single, 0, 4);
    refused(PAIR, other_b, 1, single, 0, 4);
    refused(PAIR, large_quads, 1, single, 0, 4);
    refused(PANELS, only_triangles, 1, single, 0, 4);
    refused(DIAGONAL, vertices_1, 1, single, 0, 7);
    refused(THREE_SHARED, vertices_1, 1, single, 0, 7);
    refused(PAIR, vertices_1, 1, single, -1, 8);
    refused_kinds(PAPER, 5, 0, 26);
    refused_kinds(PAPER, 0, -1, 26);
    refused_kinds(PAIR, 0, 1, 26);
    refused_kinds(PAPER, 4, 0, 1);
    refused_kinds(PAIR, 3, 0, 1);
}

// the lists of the sparse rows are as long as needed, somewhat longer, and longer than the entry lists, in turn
static void entries_whole(enum mesh mesh, const int test[6], const int trial[6], int batch, struct integrand f, int entries_run) {
    int turn = seen_cases % 3;
    begin(mesh, test, trial, batch, f, entries_run);
    with_entry_lists(0);
    play_whole(1);
    gather(turn, turn < 2 ? 2 * turn : c.entry_length, turn < 2 ? 3 * turn : c.entry_length);
    finish();
}

static void entries_file(void) {
    head(34);
    // whole entries runs
    entries_whole(PAPER, vertices_1, vertices_1, 2, single, 1);
    entries_whole(PAPER, dim_6, vertices_1, 1, two(0, 1, 1, 3), 1);
    entries_whole(OCTAHEDRON, vertices_1, vertices_1, 1, two(1, 2, 0, 0), 1);
    entries_whole(BY_EDGE, dim_10, dim_10, 1, bare(3), 1);
    entries_whole(TWICE, dim_6, cells_2, 1, scaled(4), 1);
    entries_whole(APART, dim_4, edges_1, 1, two(1, 4, 1, 0), 1);
    for (int kind = 0; kind < 5; kind++) entries_whole(kind % 2 ? BY_VERTEX : PAPER, edges_1, dim_4, 1, scaled(kind), 1);
    // dense runs that are asked an entries call
    entries_whole(PAPER, vertices_1, vertices_1, 2, single, 0);
    entries_whole(OCTAHEDRON, vertices_1, cells_1, 2, bare(1), 0);
    entries_whole(APART, dim_6, cells_1, 1, bare(3), 0);
    // entry lists, then the matrix, of the wrong length
    for (int k = 0; k < 4; k++) {
        begin(PAPER, vertices_1, cells_1, 1, single, k % 2);
        with_entry_lists(k < 2 ? 1 - 2 * k : 0);
        if (k >= 2) c.matrix_length--;
        play_some(16, 1);
        gather(k, 3, 2);
        finish();
    }
    // two cells apart: two touching records, each a cell with itself
    begin(APART, cells_1, cells_1, 1, single, 1);
    with_entry_lists(0);
    ask(WRITE);
    ask(WRITE);
    ask(WRITE);
    gather(0, 0, 0);
    finish();
    // planning refuses
    begin(PAPER, vertices_1, vertices_1, 1, single, 1);
    with_entry_lists(0);
    next_call(WRITE, any_block(TOUCHING, RIGHT));
    c.batch = 0;
    c.refusal = 5;
    c.position = 0;
    finish();
    // of the sparse rows one list too short; then all three, with a record that is not written
    for (int k = 0; k < 4; k++) {
        static const int more[4][3] = { { -1, 1, 0 }, { 2, -1, 0 }, { 2, 1, -1 }, { -1, -1, -1 } };
        begin(PAPER, vertices_1, cells_1, 1, single, 1);
        with_entry_lists(0);
        while (c.position < C * C - (k == 3)) ask(WRITE);
        gather(more[k][0], more[k][1], more[k][2]);
        finish();
    }
    // no entry
    begin(PAPER, vertices_1, cells_1, 1, single, 1);
    ask(WRITE);
    gather(1, 1, 1);
    finish();
    // entries that overflow, and infinity minus infinity
    begin(PAPER, vertices_1, vertices_1, 1, (struct integrand){ 1, { { 1, 0, 1e308 } } }, 1);
    with_entry_lists(0);
    play_whole(1);
    gather(1, 0, 2);
    finish();
    // triangles and quads, and quads alone
    entries_whole(PAIR, vertices_1, vertices_1, 1, single, 1);
    entries_whole(PAIRS, more_in_quads, vertices_1, 2, two(0, 1, 1, 4), 1);
    entries_whole(PAIRS, vertices_1, fewer_in_quads, 1, bare(0), 1);
    entries_whole(ROW, more_in_quads, cells_1, 1, scaled(3), 1);
    entries_whole(PANELS, only_quads, vertices_1, 2, bare(2), 1);
    entries_whole(PAIRS, vertices_1, more_in_quads, 2, single, 0);
    // entry lists as long as if all cells were triangles, and all quads
    for (int n = 3; n <= 4; n++) {
        begin(PAIRS, vertices_1, vertices_1, 1, single, 1);
        with_entry_lists(6 * n * n - entries_before(C * C));
        play_some(8, 1);
        finish();
    }
}

int main(int argc, char **argv) {
    if (argc == 2 && strcmp(argv[1], "dense") == 0) dense_file();
    else if (argc == 2 && strcmp(argv[1], "entries") == 0) entries_file();
    else {
        fprintf(stderr, "record_calls dense | entries\n");
        return 1;
    }
    fprintf(stderr, "%d cases, %d calls: %d looks, %d adds, %d sparse rows", seen_cases, seen_calls, seen_looks, seen_adds, seen_kept);
    for (int i = 0; i < 32; i++)
        if (seen[i]) fprintf(stderr, ", %d of %d", seen[i], i);
    fprintf(stderr, "; %d infinite, %d NaN\n", seen_infinite, seen_nan);
    return seen_cases != cases;
}
