// Times planning, look, and a look with the add of a distant pair, through the C interface, on a torus, which is a closed surface, of triangles, of quads and
// of both; and planning and look on a fan of triangles, all at one vertex, which has no distant pair. `bench/run-calls` builds and runs it; it compares the
// libraries of two commits, where what a host lends is the same.
//
// Each line: cells, kinds or fan, element, milliseconds of a planning, nanoseconds of a look, and of a look and an add together. Kind 0,
// 6 points a side, batch 128.
// Each figure is the least of many short rounds, so that work beside it harms less; beside a loaded machine compare several processes.
#define _POSIX_C_SOURCE 199309L
#include <stdint.h>
#include <stdio.h>
#include <stdlib.h>
#include <time.h>
#include "seivalto.h"

enum { POINTS = 6, PAIRS = 1500, ROUNDS = 800, PLANNINGS = 60 };

static double now(void) {
    struct timespec t;
    clock_gettime(CLOCK_MONOTONIC, &t);
    return t.tv_sec * 1e9 + t.tv_nsec;
}

static void *room(size_t bytes) {
    void *p = calloc(1, bytes + 1);
    if (p == NULL) exit(1);
    return p;
}

static void accepted(uint32_t refusal) {
    if (refusal == 0) return;
    printf("refused %u\n", refusal);
    exit(1);
}

struct mesh {
    uint32_t cells, vertices, edges;
    size_t places;
    uint8_t *kinds;
    uint32_t *cell_vertices, *cell_edges;
};

static void cell(struct mesh *m, uint8_t kind, const uint32_t *vertices, const uint32_t *edges) {
    for (int p = 0; p < kind; p++) {
        m->cell_vertices[m->places + p] = vertices[p];
        m->cell_edges[m->places + p] = edges[p];
    }
    m->kinds[m->cells++] = kind;
    m->places += kind;
}

// A torus of columns by rows squares. Of `step` rows the first `quads` have quads, in the others each square is two triangles. A square has three edges of its
// own: to the right, up, and across.
static struct mesh torus(uint32_t columns, uint32_t rows, uint32_t quads, uint32_t step) {
    uint32_t squares = columns * rows;
    struct mesh m = {0, squares, 3 * squares, 0, room(2 * squares), room(24 * (size_t)squares), room(24 * (size_t)squares)};
    for (uint32_t y = 0; y < rows; y++)
        for (uint32_t x = 0; x < columns; x++) {
            uint32_t a = y * columns + x, b = y * columns + (x + 1) % columns, c = (y + 1) % rows * columns + x, d = (y + 1) % rows * columns + (x + 1) % columns;
            uint32_t right = 3 * a, up = 3 * a + 1, across = 3 * a + 2, above = 3 * c, beside = 3 * b + 1;
            if (y % step < quads) {
                cell(&m, 4, (uint32_t[]){a, b, c, d}, (uint32_t[]){right, up, beside, above});
            } else {
                cell(&m, 3, (uint32_t[]){a, b, c}, (uint32_t[]){across, up, right});
                cell(&m, 3, (uint32_t[]){b, d, c}, (uint32_t[]){above, across, beside});
            }
        }
    return m;
}

// A closed fan of n triangles at vertex 0, the others being 1 to n. Triangle i has edge i to its second vertex, the next triangle's to its third, and edge
// n + i between these.
static struct mesh fan(uint32_t n) {
    struct mesh m = {0, n + 1, 2 * n, 0, room(n), room(12 * (size_t)n), room(12 * (size_t)n)};
    for (uint32_t i = 0; i < n; i++) {
        uint32_t next = (i + 1) % n;
        cell(&m, 3, (uint32_t[]){0, i + 1, next + 1}, (uint32_t[]){n + i, next, i});
    }
    return m;
}

static void time_calls(const char *name, const struct mesh *m, seivalto_element element) {
    const seivalto_elements elements = {element, element};
    const seivalto_integrand integrand = {1, {0, 0, 0.0}, {0, 0, 0.0}};
    const size_t C = m->cells, work_length = 3 * C * C;
    size_t T = 0;
    for (size_t i = 0; i < C; i++) T += m->kinds[i] * (element.a + element.b) + element.c;
    uint32_t *dofs = room(4 * T), *other_dofs = room(4 * T), *colours = room(4 * C), *other_colours = room(4 * C), *owners = room(12 * T), *other_owners = room(12 * T);
    uint32_t *work = room(4 * work_length);
    seivalto_planned planned;
    double planning = 1e18, looks = 1e18, pairs = 1e18;
    for (int k = 0; k < PLANNINGS; k++) {
        double start = now();
        planned = seivalto_plan(m->cells, m->vertices, m->edges, m->kinds, C, m->cell_vertices, m->places, m->cell_edges, m->places, elements, elements, 128, integrand,
                                dofs, T, other_dofs, T, colours, C, other_colours, C, owners, 3 * T, other_owners, 3 * T, work, work_length);
        double taken = now() - start;
        accepted(planned.refusal);
        if (taken < planning) planning = taken;
    }
    const int adds = planned.numbers.distant >= PAIRS;
    const size_t entries = adds ? (size_t)planned.numbers.rows * planned.numbers.columns : 0;
    double *matrix = room(8 * entries), weights[POINTS], table[10 * POINTS], kernel[POINTS * POINTS], geometry[10 * POINTS];
    for (int k = 0; k < POINTS; k++) weights[k] = 0.1 + k;
    for (int k = 0; k < 10 * POINTS; k++) table[k] = 0.01 * k, geometry[k] = 0.5 + k;
    for (int k = 0; k < POINTS * POINTS; k++) kernel[k] = 0.3 * k;
#define PLAN m->kinds, C, dofs, T, other_dofs, T, work, work_length
    for (int k = 0; k < ROUNDS; k++) {
        seivalto_run run = seivalto_begin(planned.numbers);
        double start = now();
        for (int p = 0; p < PAIRS; p++) {
            seivalto_looked looked = seivalto_look(run, PLAN);
            accepted(looked.refusal);
            run = looked.run;
        }
        double taken = (now() - start) / PAIRS;
        if (taken < looks) looks = taken;
        if (!adds) continue;
        start = now();
        for (int p = 0; p < PAIRS; p++) {
            seivalto_looked looked = seivalto_look(run, PLAN);
            accepted(looked.refusal);
            size_t test = m->kinds[looked.record.test_cell] * (element.a + element.b) + element.c;
            size_t trial = m->kinds[looked.record.trial_cell] * (element.a + element.b) + element.c;
            seivalto_added added = seivalto_add_distant(looked.run, PLAN, POINTS, POINTS, weights, POINTS, weights, POINTS, table, POINTS * test, table, POINTS * trial,
                                                        kernel, POINTS * POINTS, geometry, 10 * POINTS, geometry, 10 * POINTS, matrix, entries);
            accepted(added.refusal);
            run = added.run;
        }
        taken = (now() - start) / PAIRS;
        if (taken < pairs) pairs = taken;
    }
    printf("%4zu %-9s (%u,%u,%u)  planning %.3f ms, look %.0f ns", C, name, element.a, element.b, element.c, planning / 1e6, looks);
    if (adds) printf(", look and add %.0f ns", pairs);
    printf("\n");
    fflush(stdout);
    free(dofs), free(other_dofs), free(colours), free(other_colours), free(owners), free(other_owners), free(work), free(matrix);
}

int main(void) {
    const seivalto_element elements[3] = {{1, 0, 0}, {0, 0, 1}, {1, 1, 0}};
    const struct mesh large = torus(32, 32, 0, 1), small = torus(8, 8, 0, 1), quads = torus(32, 64, 1, 1), both = torus(32, 40, 1, 2), around = fan(2048);
    for (int e = 0; e < 3; e++) time_calls("triangles", &large, elements[e]);
    for (int e = 0; e < 3; e++) time_calls("triangles", &small, elements[e]);
    for (int e = 0; e < 3; e++) time_calls("quads", &quads, elements[e]);
    for (int e = 0; e < 3; e++) time_calls("both", &both, elements[e]);
    for (int e = 0; e < 3; e++) time_calls("fan", &around, elements[e]);
    return 0;
}
