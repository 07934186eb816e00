/* Writes what host/check/assemble.c has to print: whole assemblies on mesh M of the paper, on an octahedron and on panels of triangles and quads.
 * Written from the paper alone, by the plainest means: each list is what its sentence says, found by search, and a local entry is summed on its own.
 * The answers 23, 9, 10 and 20 are known from the order of the calls, not worked out by checks.
 *   cc -O0 -ffp-contract=off -o assemble tools/assemble.c && ./assemble
 */
#include <inttypes.h>
#include <stdint.h>
#include <stdio.h>
#include <string.h>

enum { MAXC = 8, MAXD = 9 };

/* kind: 3 a triangle, 4 a quad; so many vertices and so many edges */
static int C, V, E, B, kind[MAXC], vert[MAXC][4], edge[MAXC][4];

/* the local vertices that a local edge joins */
static const int triangle_ends[3][2] = {{1, 2}, {0, 2}, {0, 1}}, quad_ends[4][2] = {{0, 1}, {0, 2}, {1, 3}, {2, 3}};

static const int *ends(int n, int g) { return n == 3 ? triangle_ends[g] : quad_ends[g]; }

/* ---- elements: a DOFs per vertex, b per edge, c per cell, where a triangle and a quad have their own c; numbering and colours */

struct element { int a, b, triangle_c, quad_c, dim[MAXC], count, dof[MAXC][MAXD], colour[MAXC]; };

static int interior(const struct element *e, int n) { return n == 3 ? e->triangle_c : e->quad_c; }

static void number_dofs(struct element *e) {
    int of_vertex[64], of_edge[64], next = 0;
    memset(of_vertex, -1, sizeof of_vertex);
    memset(of_edge, -1, sizeof of_edge);
    for (int i = 0; i < C; i++) {
        int k = 0;
        for (int v = 0; v < kind[i]; v++) {
            int *first = &of_vertex[vert[i][v]];
            if (*first < 0) { *first = next; next += e->a; }
            for (int q = 0; q < e->a; q++) e->dof[i][k++] = *first + q;
        }
        for (int g = 0; g < kind[i]; g++) {
            int *first = &of_edge[edge[i][g]];
            if (*first < 0) { *first = next; next += e->b; }
            for (int q = 0; q < e->b; q++) e->dof[i][k++] = *first + q;
        }
        for (int q = 0; q < interior(e, kind[i]); q++) e->dof[i][k++] = next++;
        e->dim[i] = k;
    }
    e->count = next;
}

static int meet(int list[MAXC][4], int i, int j) {
    for (int p = 0; p < kind[i]; p++)
        for (int q = 0; q < kind[j]; q++)
            if (list[i][p] == list[j][q]) return 1;
    return 0;
}

static void colour_cells(struct element *e) {
    for (int i = 0; i < C; i++) {
        int c = 0, again = 1;
        while (again) {
            again = 0;
            for (int j = 0; j < i; j++) {
                int neighbours = e->a > 0 ? meet(vert, i, j) : e->b > 0 ? meet(edge, i, j) : 0;
                if (neighbours && e->colour[j] == c) again = 1;
            }
            if (again) c++;
        }
        e->colour[i] = c;
    }
}

/* ---- the work list */

static int smallest_shared(int i, int j) {
    int least = -1;
    for (int p = 0; p < kind[i]; p++)
        for (int q = 0; q < kind[j]; q++)
            if (vert[i][p] == vert[j][q] && (least < 0 || vert[i][p] < least)) least = vert[i][p];
    return least;
}

/* The place of two cells in the table: it is gone through from its first pattern on. The blocks are triangle with triangle, with quad, quad with triangle, with
 * quad; in a block come one shared vertex, by the test place and then by the trial place, then a shared edge, by the test edge and then by the trial edge, first
 * with the first vertices of both the same, then with those of one the second of the other, and then the identical cell. */
static int pattern(int i, int j) {
    int test[4], trial[4], shared = 0, number = 0;
    for (int q = 0; q < kind[j]; q++)
        for (int p = 0; p < kind[i]; p++)
            if (vert[i][p] == vert[j][q]) { test[shared] = p; trial[shared++] = q; }
    for (int n = 3; n <= 4; n++)
        for (int k = 3; k <= 4; k++) {
            int here = n == kind[i] && k == kind[j];
            for (int p = 0; p < n; p++)
                for (int q = 0; q < k; q++, number++)
                    if (here && shared == 1 && test[0] == p && trial[0] == q) return number;
            for (int e = 0; e < n; e++)
                for (int g = 0; g < k; g++)
                    for (int flip = 0; flip < 2; flip++, number++)
                        if (here && shared == 2 && trial[0] == ends(k, g)[0] && trial[1] == ends(k, g)[1] && test[0] == ends(n, e)[flip] &&
                            test[1] == ends(n, e)[1 - flip])
                            return number;
            if (here && n == k && shared == n) return number;
            number += n == k;
        }
    return -1;
}

struct record { int pattern, test, trial; };

static struct record work[MAXC * MAXC];
static int records, distant_records;

/* cell number k of a kind and a colour, the cells rising; -1 past the last */
static int cell_of(const struct element *e, int n, int colour, int k) {
    for (int i = 0; i < C; i++)
        if (kind[i] == n && e->colour[i] == colour && k-- == 0) return i;
    return -1;
}

static void put(int p, int i, int j) { work[records++] = (struct record){p, i, j}; }

static void list_distant(const struct element *test, const struct element *trial, int test_kind, int trial_kind) {
    for (int tc = 0; tc < C; tc++)
        for (int rc = 0; rc < C; rc++)
            for (int tb = 0; tb < C; tb++)
                for (int rb = 0; rb < C; rb++)
                    for (int q = rb * B; q < rb * B + B; q++)
                        for (int p = tb * B; p < tb * B + B; p++) {
                            int i = cell_of(test, test_kind, tc, p), j = cell_of(trial, trial_kind, rc, q);
                            if (i >= 0 && j >= 0 && !meet(vert, i, j)) put(255, i, j);
                        }
}

static void list_work(const struct element *test, const struct element *trial) {
    records = 0;
    for (int n = 3; n <= 4; n++)
        for (int k = 3; k <= 4; k++) list_distant(test, trial, n, k);
    distant_records = records;
    for (int p = 0; p < 149; p++)
        for (int v = 0; v < V; v++)
            for (int i = 0; i < C; i++)
                for (int j = 0; j < C; j++)
                    if (smallest_shared(i, j) == v && pattern(i, j) == p) put(p, i, j);
}

/* ---- the numbers that are lent: the same seeds as the program's */

static uint32_t seed;

static void fill(double *list, int n, double shift) {
    for (int k = 0; k < n; k++) {
        seed = (uint32_t)((uint64_t)seed * 1664525 + 1013904223);
        list[k] = (double)seed / 4294967296.0 + 0.5 - shift;
    }
}

static uint32_t next_record(uint32_t x) { return (uint32_t)((uint64_t)x * 69069 + 1); }

/* ---- the integrand: kind 1, and 0.75 times kind 3; K = 4, D = 3 */

enum { K = 4, D = 3 };

/* k: the kernel values of the point; g, h: the geometry of its test and trial point; t, r: table rows 0 to 2 */
static double value(const double *k, const double *g, const double *h, const double *t, const double *r) {
    const double *n = h + 1, *J = g + 4, *L = h + 4;
    double one = (k[1] * n[0] + k[2] * n[1] + k[3] * n[2]) * t[0] * r[0];
    double P[3];
    for (int m = 0; m < 3; m++) P[m] = (J[3 + m] * t[1] - J[m] * t[2]) * (L[3 + m] * r[1] - L[m] * r[2]);
    double three = k[0] * (P[0] + P[1] + P[2]) / g[0] / h[0];
    return one + 0.75 * three;
}

/* local entry (f, q) of a distant pair: 2 test points, 3 trial points */
static double distant_entry(int f, int q, const double *wt, const double *wr, const double *t, const double *r, const double *k,
                            const double *g, const double *h) {
    double sum = 0;
    for (int p = 0; p < 2; p++)
        for (int s = 0; s < 3; s++)
            sum += value(k + K * (p + 2 * s), g + 10 * p, h + 10 * s, t + D * (p + 2 * f), r + D * (s + 3 * q)) * (wr[s] * h[10 * s]) *
                   (wt[p] * g[10 * p]);
    return sum;
}

/* of a touching pair: 4 points */
static double touching_entry(int f, int q, const double *w, const double *t, const double *r, const double *k, const double *g, const double *h) {
    double sum = 0;
    for (int p = 0; p < 4; p++)
        sum += value(k + K * p, g + 10 * p, h + 10 * p, t + D * (p + 4 * f), r + D * (p + 4 * q)) * (w[p] * (g[10 * p] * h[10 * p]));
    return sum;
}

/* the local matrix of a record, from its seed: entry (f, q); m and n are the dims of its cells */
static void local_matrix(struct record e, uint32_t start, int m, int n, double local[MAXD][MAXD]) {
    double wt[2], wr[3], w[4], t[D * 4 * MAXD], r[D * 4 * MAXD], k[24], g[40], h[40];
    seed = start;
    if (e.pattern == 255) {
        fill(wt, 2, 0); fill(wr, 3, 0); fill(t, D * 2 * m, 1); fill(r, D * 3 * n, 1); fill(k, 24, 1); fill(g, 20, 0.25); fill(h, 30, 0.25);
    } else {
        fill(w, 4, 0); fill(t, D * 4 * m, 1); fill(r, D * 4 * n, 1); fill(k, 16, 1); fill(g, 40, 0.25); fill(h, 40, 0.25);
    }
    for (int f = 0; f < m; f++)
        for (int q = 0; q < n; q++)
            local[f][q] = e.pattern == 255 ? distant_entry(f, q, wt, wr, t, r, k, g, h) : touching_entry(f, q, w, t, r, k, g, h);
}

/* ---- both runs */

static void print_bits(double x) {
    uint64_t bits;
    memcpy(&bits, &x, sizeof bits);
    if (x != x) printf("nan"); else printf("%" PRIu64, bits);
}

static void dense_run(const struct element *test, const struct element *trial) {
    static double M[64 * 64];
    double local[MAXD][MAXD];
    uint32_t start = 1;
    seed = 7;
    fill(M, test->count * trial->count, 1);
    for (int p = 0; p < records; p++, start = next_record(start)) {
        struct record e = work[p];
        printf("%d %d %d: 23 %d accepted\n", e.pattern, e.test, e.trial, e.pattern == 255 ? 9 : 10);
        local_matrix(e, start, test->dim[e.test], trial->dim[e.trial], local);
        for (int q = 0; q < trial->dim[e.trial]; q++)
            for (int f = 0; f < test->dim[e.test]; f++) M[test->dof[e.test][f] + test->count * trial->dof[e.trial][q]] += local[f][q];
    }
    printf("20: 20 20\n");
    for (int i = 0; i < test->count * trial->count; i++) { print_bits(M[i]); printf("\n"); }
}

static void entries_run(const struct element *test, const struct element *trial) {
    double local[MAXD][MAXD];
    uint32_t start = 2;
    for (int p = distant_records; p < records; p++) printf("%d %d %d: 23 10 accepted\n", work[p].pattern, work[p].test, work[p].trial);
    printf("20: 20 20 20\n");
    for (int p = distant_records; p < records; p++, start = next_record(start)) {
        struct record e = work[p];
        local_matrix(e, start, test->dim[e.test], trial->dim[e.trial], local);
        for (int q = 0; q < trial->dim[e.trial]; q++)
            for (int f = 0; f < test->dim[e.test]; f++) {
                printf("%d %d ", test->dof[e.test][f], trial->dof[e.trial][q]);
                print_bits(local[f][q]);
                printf("\n");
            }
    }
}

/* The cells have the kinds, vertices and edges that stand one after the other. Test has one DOF a vertex and one an edge, and quads have one more; trial has one a
 * vertex, and quads have two more. */
static void assemble(const char *name, int cells, int vertices, int edges, const int *kinds, const int *vs, const int *es, int batch) {
    struct element test = {.a = 1, .b = 1, .quad_c = 1}, trial = {.a = 1, .quad_c = 2};
    C = cells; V = vertices; E = edges; B = batch;
    for (int i = 0; i < C; i++) {
        kind[i] = kinds[i];
        for (int v = 0; v < kind[i]; v++) { vert[i][v] = *vs++; edge[i][v] = *es++; }
    }
    number_dofs(&test); number_dofs(&trial);
    colour_cells(&test); colour_cells(&trial);
    list_work(&test, &trial);
    printf("%s\n", name);
    dense_run(&test, &trial);
    entries_run(&test, &trial);
}

int main(void) {
    const int triangles[] = {3, 3, 3, 3, 3, 3, 3, 3};
    const int m_vertices[] = {0, 1, 2, 1, 3, 2, 4, 5, 6}, m_edges[] = {0, 1, 2, 3, 0, 4, 5, 6, 7};
    const int o_vertices[] = {0, 2, 4, 2, 1, 4, 1, 3, 4, 3, 0, 4, 2, 0, 5, 1, 2, 5, 3, 1, 5, 0, 3, 5};
    const int o_edges[] = {0, 1, 2, 3, 0, 4, 5, 3, 6, 1, 5, 7, 8, 9, 2, 9, 10, 4, 10, 11, 6, 11, 8, 7};
    const int p_kinds[] = {4, 3, 3, 4, 3, 3, 4, 4};
    const int p_vertices[] = {0, 1, 4, 5, 1, 2, 5, 6, 5, 2, 3, 7, 2, 6, 4, 5, 8, 9, 8, 5, 10, 9, 6, 5, 6, 10, 7, 11};
    const int p_edges[] = {0, 1, 2, 3, 4, 2, 5, 4, 6, 7, 8, 9, 10, 6, 11, 12, 3, 11, 13, 14, 15, 16, 13, 7, 16, 10, 17, 18};
    assemble("M", 3, 7, 8, triangles, m_vertices, m_edges, 2);
    assemble("octahedron", 8, 6, 12, triangles, o_vertices, o_edges, 1);
    assemble("panels", 8, 12, 19, p_kinds, p_vertices, p_edges, 2);
    return 0;
}
