/* Whole assemblies on mesh M of the paper, on an octahedron and on panels of triangles and quads, through include/seivalto.h: it prints what tools/assemble.c
 * prints, which works the same numbers out from the paper, without the library. Sparse rows are held to sums by search, and a line more is printed if they are wrong. */
#include <inttypes.h>
#include <stdio.h>
#include <stdlib.h>
#include <string.h>

#include "seivalto.h"

enum { KERNEL = 4, ROWS = 3 };

static const seivalto_elements test_elements = {{1, 1, 0}, {1, 1, 1}};
static const seivalto_elements trial_elements = {{1, 0, 0}, {1, 0, 2}};
static const seivalto_integrand integrand = {2, {0, 1, 0.0}, {1, 3, 0.75}};

/* ---- lists */

typedef struct {
    uint32_t *at;
    size_t length;
} numbers;

typedef struct {
    double *at;
    size_t length;
} floats;

static void *room(size_t count, size_t size) {
    void *p = calloc(count + 1, size);
    if (p == NULL) exit(1);
    return p;
}

static numbers new_numbers(size_t length) {
    numbers list = {room(length, sizeof(uint32_t)), length};
    return list;
}

static floats new_floats(size_t length) {
    floats list = {room(length, sizeof(double)), length};
    return list;
}

/* A list of floats made from the seed, which moves on. */
static floats filled(size_t length, uint32_t *seed, double shift) {
    floats list = new_floats(length);
    for (size_t k = 0; k < length; k++) {
        *seed = *seed * 1664525u + 1013904223u;
        list.at[k] = (double)*seed / 4294967296.0 + 0.5 - shift;
    }
    return list;
}

#define LENT(list) (list).at, (list).length

/* The kind list, the two DOF lists and the work list. */
typedef struct {
    const uint8_t *kinds;
    size_t cells;
    numbers test_dofs, trial_dofs, work;
} plan;

#define LENT_PLAN(p) (p)->kinds, (p)->cells, LENT((p)->test_dofs), LENT((p)->trial_dofs), LENT((p)->work)

/* ---- dims */

/* The local DOFs of a cell of that kind: 3 a triangle, 4 a quad. */
static size_t dim_of(seivalto_elements elements, uint8_t kind) {
    seivalto_element e = kind == 3 ? elements.triangle : elements.quad;
    return (size_t)kind * e.a + (size_t)kind * e.b + e.c;
}

/* Those of all cells together. */
static size_t places(seivalto_elements elements, const uint8_t *kinds, size_t cells) {
    size_t sum = 0;
    for (size_t i = 0; i < cells; i++) sum += dim_of(elements, kinds[i]);
    return sum;
}

/* The dims of the two cells of a record; after the last record those of two triangles. */
typedef struct {
    size_t test, trial;
} dims;

static dims dims_of(seivalto_looked looked, const plan *p) {
    uint8_t test = looked.refusal == 0 ? p->kinds[looked.record.test_cell] : 3, trial = looked.refusal == 0 ? p->kinds[looked.record.trial_cell] : 3;
    dims d = {dim_of(test_elements, test), dim_of(trial_elements, trial)};
    return d;
}

/* ---- the calls, with their answers printed */

static seivalto_run answered(seivalto_added answer) {
    if (answer.refusal == 0) printf(" accepted");
    else printf(" %" PRIu32, answer.refusal);
    return answer.run;
}

/* 2 test points and 3 trial points are lent; `points` test points are said. */
static seivalto_run add_distant(seivalto_run run, const plan *p, dims d, size_t points, uint32_t seed, floats matrix) {
    floats test_weights = filled(2, &seed, 0.0);
    floats trial_weights = filled(3, &seed, 0.0);
    floats test_table = filled(ROWS * 2 * d.test, &seed, 1.0);
    floats trial_table = filled(ROWS * 3 * d.trial, &seed, 1.0);
    floats kernel = filled(KERNEL * 2 * 3, &seed, 1.0);
    floats test_geometry = filled(10 * 2, &seed, 0.25);
    floats trial_geometry = filled(10 * 3, &seed, 0.25);
    run = answered(seivalto_add_distant(run, LENT_PLAN(p), points, 3, LENT(test_weights), LENT(trial_weights), LENT(test_table), LENT(trial_table),
                                        LENT(kernel), LENT(test_geometry), LENT(trial_geometry), LENT(matrix)));
    free(test_weights.at);
    free(trial_weights.at);
    free(test_table.at);
    free(trial_table.at);
    free(kernel.at);
    free(test_geometry.at);
    free(trial_geometry.at);
    return run;
}

/* What is lent for a touching pair: 4 points. */
typedef struct {
    floats weights, test_table, trial_table, kernel, test_geometry, trial_geometry;
} touching;

static touching touching_numbers(dims d, uint32_t seed) {
    touching t;
    t.weights = filled(4, &seed, 0.0);
    t.test_table = filled(ROWS * 4 * d.test, &seed, 1.0);
    t.trial_table = filled(ROWS * 4 * d.trial, &seed, 1.0);
    t.kernel = filled(KERNEL * 4, &seed, 1.0);
    t.test_geometry = filled(10 * 4, &seed, 0.25);
    t.trial_geometry = filled(10 * 4, &seed, 0.25);
    return t;
}

static void drop_touching(touching t) {
    free(t.weights.at);
    free(t.test_table.at);
    free(t.trial_table.at);
    free(t.kernel.at);
    free(t.test_geometry.at);
    free(t.trial_geometry.at);
}

#define LENT_TOUCHING(t) LENT((t).weights), LENT((t).test_table), LENT((t).trial_table), LENT((t).kernel), LENT((t).test_geometry), LENT((t).trial_geometry)

/* `points` points are said. */
static seivalto_run add_touching(seivalto_run run, const plan *p, dims d, size_t points, uint32_t seed, floats matrix) {
    touching t = touching_numbers(d, seed);
    run = answered(seivalto_add_touching(run, LENT_PLAN(p), points, LENT_TOUCHING(t), LENT(matrix)));
    drop_touching(t);
    return run;
}

/* The lists of the entries call. */
typedef struct {
    numbers rows, columns;
    floats values;
} entries;

static seivalto_run add_entries(seivalto_run run, const plan *p, dims d, size_t points, uint32_t seed, entries e) {
    touching t = touching_numbers(d, seed);
    run = answered(seivalto_add_entries(run, LENT_PLAN(p), points, LENT_TOUCHING(t), LENT(e.rows), LENT(e.columns), LENT(e.values)));
    drop_touching(t);
    return run;
}

static seivalto_looked look(seivalto_run run, const plan *p) {
    seivalto_looked looked = seivalto_look(run, LENT_PLAN(p));
    if (looked.refusal == 0) printf("%" PRIu32 " %" PRIu32 " %" PRIu32 ":", looked.record.pattern, looked.record.test_cell, looked.record.trial_cell);
    else printf("%" PRIu32 ":", looked.refusal);
    return looked;
}

static void print_bits(double x) {
    uint64_t bits;
    memcpy(&bits, &x, sizeof bits);
    if (x != x) printf("nan");
    else printf("%" PRIu64, bits);
}

/* ---- the two runs, and sparse rows */

/* A look; at a record an add of the other kind, one with a wrong point count and the right one, after the last both adds. */
static seivalto_run add_next(seivalto_run run, const plan *p, uint32_t seed, floats matrix) {
    seivalto_looked looked = look(run, p);
    dims d = dims_of(looked, p);
    run = looked.run;
    if (looked.refusal != 0) {
        run = add_distant(run, p, d, 2, seed, matrix);
        return add_touching(run, p, d, 4, seed, matrix);
    }
    if (looked.record.pattern == 255) {
        run = add_touching(run, p, d, 4, seed, matrix);
        run = add_distant(run, p, d, 0, seed, matrix);
        return add_distant(run, p, d, 2, seed, matrix);
    }
    run = add_distant(run, p, d, 2, seed, matrix);
    run = add_touching(run, p, d, 5, seed, matrix);
    return add_touching(run, p, d, 4, seed, matrix);
}

static floats assemble_dense(seivalto_numbers n, const plan *p) {
    uint32_t matrix_seed = 7, seed = 1;
    floats matrix = filled((size_t)n.rows * n.columns, &matrix_seed, 1.0);
    seivalto_run run = seivalto_begin(n);
    for (uint32_t k = 0; k <= n.cells * n.cells; k++) {
        run = add_next(run, p, seed, matrix);
        printf("\n");
        seed = seed * 69069u + 1;
    }
    for (size_t k = 0; k < matrix.length; k++) {
        print_bits(matrix.at[k]);
        printf("\n");
    }
    return matrix;
}

static void gather(seivalto_numbers n, entries e) {
    size_t starts = (size_t)n.rows + 1;
    uint64_t *row_starts = room(starts, sizeof(uint64_t));
    numbers columns = new_numbers(e.columns.length);
    floats values = new_floats(e.values.length);
    seivalto_gathered gathered =
        seivalto_sparse_rows(LENT(e.rows), LENT(e.columns), LENT(e.values), n.rows, n.columns, row_starts, starts, LENT(columns), LENT(values));
    uint64_t at = 0;
    int right = gathered.refusal == 0;
    for (uint32_t row = 0; row < n.rows; row++) {
        right &= row_starts[row] == at;
        for (uint32_t column = 0; column < n.columns; column++) {
            double sum = 0.0;
            int met = 0;
            for (size_t k = 0; k < e.values.length; k++) {
                if (e.rows.at[k] != row || e.columns.at[k] != column) continue;
                sum = met ? sum + e.values.at[k] : e.values.at[k];
                met = 1;
            }
            if (!met) continue;
            right &= columns.at[at] == column && memcmp(&values.at[at], &sum, sizeof sum) == 0;
            at++;
        }
    }
    right &= row_starts[n.rows] == at && gathered.kept == at;
    if (!right) printf("the sparse rows are wrong\n");
    free(row_starts);
    free(columns.at);
    free(values.at);
}

static void assemble_entries(seivalto_numbers n, const plan *p, floats matrix) {
    size_t test[2] = {dim_of(n.test, 3), dim_of(n.test, 4)}, trial[2] = {dim_of(n.trial, 3), dim_of(n.trial, 4)};
    size_t count = n.pairs.triangle_triangle * test[0] * trial[0] + n.pairs.triangle_quad * test[0] * trial[1] + n.pairs.quad_triangle * test[1] * trial[0] +
                   n.pairs.quad_quad * test[1] * trial[1];
    entries e = {new_numbers(count), new_numbers(count), new_floats(count)};
    seivalto_run run = seivalto_begin_entries(n);
    uint32_t seed = 2;
    for (uint32_t k = 0; k <= n.touching; k++) {
        seivalto_looked looked = look(run, p);
        dims d = dims_of(looked, p);
        run = looked.run;
        run = add_touching(run, p, d, 4, seed, matrix);
        run = add_entries(run, p, d, 5, seed, e);
        run = add_entries(run, p, d, 4, seed, e);
        printf("\n");
        seed = seed * 69069u + 1;
    }
    for (size_t k = 0; k < count; k++) {
        printf("%" PRIu32 " %" PRIu32 " ", e.rows.at[k], e.columns.at[k]);
        print_bits(e.values.at[k]);
        printf("\n");
    }
    gather(n, e);
    free(e.rows.at);
    free(e.columns.at);
    free(e.values.at);
}

static size_t sum_of(const uint8_t *kinds, size_t cells) {
    size_t sum = 0;
    for (size_t i = 0; i < cells; i++) sum += kinds[i];
    return sum;
}

static void assemble(uint32_t cells, uint32_t vertices, uint32_t edges, const uint8_t *kinds, const uint32_t *cell_vertices, const uint32_t *cell_edges,
                     uint32_t batch) {
    size_t c = cells, own = sum_of(kinds, c), test = places(test_elements, kinds, c), trial = places(trial_elements, kinds, c);
    plan p = {kinds, c, new_numbers(test), new_numbers(trial), new_numbers(3 * c * c)};
    numbers test_colours = new_numbers(c), trial_colours = new_numbers(c);
    numbers test_owners = new_numbers(3 * test), trial_owners = new_numbers(3 * trial);
    seivalto_planned planned = seivalto_plan(cells, vertices, edges, kinds, c, cell_vertices, own, cell_edges, own, test_elements, trial_elements, batch,
                                             integrand, LENT(p.test_dofs), LENT(p.trial_dofs), LENT(test_colours), LENT(trial_colours), LENT(test_owners),
                                             LENT(trial_owners), LENT(p.work));
    if (planned.refusal != 0) {
        printf("refused %" PRIu32 "\n", planned.refusal);
    } else {
        floats matrix = assemble_dense(planned.numbers, &p);
        assemble_entries(planned.numbers, &p, matrix);
        free(matrix.at);
    }
    free(p.test_dofs.at);
    free(p.trial_dofs.at);
    free(p.work.at);
    free(test_colours.at);
    free(trial_colours.at);
    free(test_owners.at);
    free(trial_owners.at);
}

int main(void) {
    static const uint8_t triangles[8] = {3, 3, 3, 3, 3, 3, 3, 3};
    static const uint32_t m_vertices[9] = {0, 1, 2, 1, 3, 2, 4, 5, 6};
    static const uint32_t m_edges[9] = {0, 1, 2, 3, 0, 4, 5, 6, 7};
    static const uint32_t o_vertices[24] = {0, 2, 4, 2, 1, 4, 1, 3, 4, 3, 0, 4, 2, 0, 5, 1, 2, 5, 3, 1, 5, 0, 3, 5};
    static const uint32_t o_edges[24] = {0, 1, 2, 3, 0, 4, 5, 3, 6, 1, 5, 7, 8, 9, 2, 9, 10, 4, 10, 11, 6, 11, 8, 7};
    static const uint8_t p_kinds[8] = {4, 3, 3, 4, 3, 3, 4, 4};
    static const uint32_t p_vertices[28] = {0, 1, 4, 5, 1, 2, 5, 6, 5, 2, 3, 7, 2, 6, 4, 5, 8, 9, 8, 5, 10, 9, 6, 5, 6, 10, 7, 11};
    static const uint32_t p_edges[28] = {0, 1, 2, 3, 4, 2, 5, 4, 6, 7, 8, 9, 10, 6, 11, 12, 3, 11, 13, 14, 15, 16, 13, 7, 16, 10, 17, 18};
    printf("M\n");
    assemble(3, 7, 8, triangles, m_vertices, m_edges, 2);
    printf("octahedron\n");
    assemble(8, 6, 12, triangles, o_vertices, o_edges, 1);
    printf("panels\n");
    assemble(8, 12, 19, p_kinds, p_vertices, p_edges, 2);
    return 0;
}
