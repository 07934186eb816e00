/* Seivalto: the boundary assembler, for C. On a mesh of triangles and quads it numbers the DOFs, lists every ordered pair of cells once, and adds up the
 * dense Galerkin matrix of a boundary operator. The host brings the mesh and, pair by pair, kernel values, geometry, tables of basis functions and weights.
 * Entry (i, j) of the matrix belongs to test DOF i and trial DOF j: it sums, over test points x and trial points y, weights * test function i at x *
 * kernel(x, y) * trial function j at y, in the form that the terms of the integrand say.
 *
 * The functions are those of the crate `seivalto` (crates/seivalto), in libseivalto.a, which `tools/staticlib` writes for x86-64 Linux. It needs no
 * other library: cc host.c libseivalto.a.
 *
 * The calls, in order:
 *   1. seivalto_plan is given mesh, elements, batch and integrand, and writes the lists; its numbers say how large the matrix is.
 *   2. seivalto_begin turns the numbers into a run. The host makes a matrix of rows * columns doubles, all 0, or holding what is to be added to.
 *   3. seivalto_look answers the record of the next pair: pattern, test cell, trial cell. Refusal 20 says that none is left: the matrix is finished.
 *   4. At pattern 255 seivalto_add_distant, at any other seivalto_add_touching, is lent the numbers of this pair. Then 3 again.
 * For the touching pairs alone, as a list of entries, 2 is seivalto_begin_entries and 4 is seivalto_add_entries; of the finished list seivalto_sparse_rows
 * writes sparse rows. The plan, which is the mesh's kinds, and test_dofs, trial_dofs and work as planning wrote them, is lent to every call of 3 and 4. "What
 * an add is lent", before the adds, says what each lent number is.
 *
 * Every function answers every argument: bad meshes, elements, lengths, numbers and runs get a refusal. A refused call changes neither the run nor any list
 * that it was lent. That is proved. What no proof can hold is the caller's part:
 *   - each pointer is aligned and not null, also that of an empty list, and the length after it is the number of elements that stand there;
 *   - a list that is written (one without const) overlaps no other list of the same call, and no other thread touches it, or writes into a list that is
 *     only read, during the call;
 *   - the floating-point state is the default one, MXCSR 0x1F80: round to nearest, no flush to zero, no denormals-are-zero, every exception masked. A program
 *     linked with -ffast-math may begin in another one;
 *   - some 300 KiB of stack are free;
 *   - of a run only the value last handed back is used, with one matrix. An older value adds a pair again, and nothing can tell;
 *   - the lent numbers mean what "What an add is lent" says. The checks see lengths, numbers that are not finite, and jdets, and nothing else.
 *
 * Refusals: 0 is none. Planning:
 *    1  cells not from 1 to 2,048, or cell_vertices not as long as the cells' own counts add up to, 3 for a triangle and 4 for a quad
 *    2  vertices not from 3 to 4,096, a vertex number not below vertices, or twice in one cell
 *    3  edges not from 3 to 8,192, cell_edges not as long as the cells' own counts add up to, a number not below edges, or two edge places that have the
 *       same number and do not join the same two vertices, or join them and have not the same number
 *    4  of test or of trial: dim of the element of a kind that a cell has, 3 * a + 3 * b + c of a triangle and 4 * a + 4 * b + c of a quad, not from 1 to
 *       10; or, where there are triangles and quads, a or b not the same in both elements. The element of a kind that no cell has is not read
 *    5  batch not from 1 to 65,535
 *    6  terms not 1 or 2, a kind above 4, or a factor that is not finite
 *    7  two cells that share vertices in a way that has no pattern: two that are not an edge of both cells, as of quads that meet only at a diagonal; or
 *       three or four, but for two triangles or two quads that share all of them, each at the same place
 *    8  a list of the wrong length
 *   26  kinds not cells long, or a kind neither 3 nor 4
 * Adds and the entries call:
 *    9  a point count out of its range
 *   10  a lent length that is not the one that its counts give
 *   11  a lent number that is not finite, or a jdet that is not above 0
 * The state (look answers only 20, 21 and 22):
 *   20  no record is left
 *   21  sizes, elements (by the run's triangles and quads) or integrand of the run as 1 to 4 and 6 turn them down; kinds as 26 turns them down, or with
 *       other numbers of triangles and quads than the run's; the pairs per two kinds do not add up to touching, or touching and distant to
 *       cells * cells; position above cells * cells, or of an entries run below distant; rows or columns above the length of the DOF list; or a plan,
 *       matrix or entry list of the wrong length
 *   22  the record at the run's position has another pattern, a cell not below cells, or a DOF of its cells is not below rows or columns; of the
 *       entries call also: from distant on, the cells are of other kinds than the pairs per two kinds put at the position
 *   23  the record, or the run, is of the other kind
 * Sparse rows:
 *   24  an output list shorter than needed
 *   25  entry lists of unequal length, a row not below row_count, or a column not below column_count
 * Planning tests 1 (cells), 26, 1 (cell_vertices), 2 to 8 in this order, the adds and the entries call 21, 20, 22, 23, 9, 10, 11, look 21, 20, 22, sparse
 * rows 25, 24. */
#ifndef SEIVALTO_H
#define SEIVALTO_H

#include <stddef.h>
#include <stdint.h>

#ifdef __cplusplus
extern "C" {
#endif

/* DOFs per vertex (a), per edge (b) and per cell (c). dim, the local DOFs of a cell, is 3 * a + 3 * b + c of a triangle and 4 * a + 4 * b + c of a quad. The
 * local order is vertices 0, 1, 2 (and 3), edges 0, 1, 2 (and 3), interior; the DOFs of one vertex or edge stand together. So, on triangles, c = 1 is P0,
 * a = 1 continuous P1, a = b = 1 continuous P2, c = 3 discontinuous P1; on quads c = 1 is constant and a = 1 continuous bilinear. Where b is 2 or more, the DOFs
 * of an edge have the same order in each cell that has the edge, whichever way round it runs there, and the host orders its basis functions so. */
typedef struct {
    uint32_t a;
    uint32_t b;
    uint32_t c;
} seivalto_element;

/* The elements of one side, test or trial: that of its triangles and that of its quads. Where a mesh has both, a and b are the same in the two, so that a
 * vertex or an edge has as many DOFs in each cell that has it; c may differ. That of a kind which no cell has is not read. */
typedef struct {
    seivalto_element triangle;
    seivalto_element quad;
} seivalto_elements;

/* A term. scaled: 0 for a bare term, whose factor is not read; any other number for one that carries the factor.
 * kind: 0 single layer, 1 double layer, 2 adjoint double layer, 3 curl-curl, 4 normal-normal. The hypersingular operator, minus the normal derivative of the
 * double layer potential, is kind 3 alone for Laplace, and for Helmholtz two terms: kind 3, bare, and kind 4 with the factor -k * k, k the wave number.
 * The value of a bare term at a test and a trial point, where t, t1, t2 are table rows 0, 1, 2 of a test basis function, r, r1, r2 those of a trial one, k0 to
 * k3 kernel numbers, n a normal and J a jacobian:
 *   0  k0 * t * r
 *   1  (k1 * n0 + k2 * n1 + k3 * n2) * t * r       with the trial normal
 *   2  (-(k1 * n0 + k2 * n1 + k3 * n2)) * t * r    with the test normal
 *   3  k0 * (P0 + P1 + P2) / test jdet / trial jdet, where Pm is (J(3 + m) * t1 - Jm * t2), with the test jacobian, times
 *      (J(3 + m) * r1 - Jm * r2), with the trial jacobian
 *   4  k0 * (Q0 + Q1 + Q2) * t * r, where Qm is trial nm * test nm
 * So kinds 0, 3 and 4 read k0, and kinds 1 and 2 read k1 to k3. A factor stands on the left: factor * value. Here and below, products and sums go from
 * left to right, and each is rounded. */
typedef struct {
    uint32_t scaled;
    uint32_t kind;
    double factor;
} seivalto_term;

/* terms: 1 or 2; where it is 1 the second term is not read, where it is 2 the value is that of the first plus that of the second.
 * K, the kernel numbers of a point, is 4 (k0 to k3) if a kind is 1 or 2, else 1 (k0).
 * D, the rows of a table, is 3 if a kind is 3, else 1: row 0 is the value of a basis function, rows 1 and 2 are its derivatives in the first and in the
 * second reference direction. */
typedef struct {
    uint32_t terms;
    seivalto_term first;
    seivalto_term second;
} seivalto_integrand;

/* Touching pairs per two kinds: the kind of the test cell, then that of the trial cell. */
typedef struct {
    uint32_t triangle_triangle;
    uint32_t triangle_quad;
    uint32_t quad_triangle;
    uint32_t quad_quad;
} seivalto_kind_pairs;

/* What planning hands back: the sizes of the mesh; triangles and quads, the cells of each kind; touching, the ordered pairs of cells that share a vertex;
 * distant, those that share none; pairs, the touching ones per two kinds; rows and columns, the DOFs of test and trial; elements and integrand as they were
 * given. */
typedef struct {
    uint32_t cells;
    uint32_t vertices;
    uint32_t edges;
    uint32_t triangles;
    uint32_t quads;
    uint32_t touching;
    uint32_t distant;
    seivalto_kind_pairs pairs;
    uint32_t rows;
    uint32_t columns;
    seivalto_elements test;
    seivalto_elements trial;
    seivalto_integrand integrand;
} seivalto_numbers;

/* refusal: 0, or the number of a refusal; then the numbers have no cell, and every call of a run begun from them answers 21. */
typedef struct {
    uint32_t refusal;
    seivalto_numbers numbers;
} seivalto_planned;

/* A run, which every call hands back. entries: 0 for a dense run, any other number for an entries run. position: the next record of the work list. */
typedef struct {
    seivalto_numbers numbers;
    uint32_t entries;
    uint32_t position;
} seivalto_run;

/* A record of the work list. pattern: 255 for a distant pair, whose cells share no vertex. A touching pair has one of 149 patterns, in four blocks by the
 * kinds of the test cell, n, and of the trial cell, k:
 *   n  k  start  patterns
 *   3  3      0    0 to  27
 *   3  4     28   28 to  63
 *   4  3     64   64 to  99
 *   4  4    100  100 to 148
 * and in a block by the vertices that the cells share, at which local places:
 *   one, at i of the test cell and j of the trial cell    start + k * i + j
 *   two, edge e of the test cell and g of the trial cell  start + n * k + 2 * (k * e + g), and 1 more if the first vertex of g is the second of e
 *   all, each at the same place of both cells, n = k      start + 3 * n * k, which is 27 and 148; a cell with itself is such a pair
 * docs/patterns.svg has the 27 of two triangles that share one or two vertices, drawn. */
typedef struct {
    uint32_t pattern;
    uint32_t test_cell;
    uint32_t trial_cell;
} seivalto_record;

/* The run is the one that was given. Where refusal is not 0 the record is all 0. */
typedef struct {
    uint32_t refusal;
    seivalto_run run;
    seivalto_record record;
} seivalto_looked;

/* Where refusal is 0 the run is at the next position, else it is the one that was given. */
typedef struct {
    uint32_t refusal;
    seivalto_run run;
} seivalto_added;

/* kept: how many values the sparse rows have; 0 where refusal is not 0. */
typedef struct {
    uint32_t refusal;
    uint64_t kept;
} seivalto_gathered;

/* Plans, and writes seven lists. kinds: one number a cell, 3 a triangle, 4 a quad. cell_vertices and cell_edges: as many numbers for each cell as its kind
 * says, one cell after the other, from 0 on. Local edges of a triangle join local vertices (1,2), (0,2), (0,1), those of a quad (0,1), (0,2), (1,3), (2,3): a
 * quad's vertices go row by row and not round about, 0 and 3 are opposite, and so are 1 and 2.
 * Edge places that join the same two vertices have the same number, all others different ones. Vertices and edges that no cell has are allowed.
 * batch: how many cells of a kind and a colour are taken together, 128 say; it decides the order of the distant records and nothing else.
 * These lengths are asked, where C = cells, and T and R are what the dims of all cells for test and for trial add up to, each cell's by its kind (for
 * triangles alone C * dim):
 *   test_dofs, trial_dofs        T and R           DOF numbers of each cell, one cell after the other
 *   test_colours, trial_colours  C                 colour of each cell
 *   test_owners, trial_owners    3 * T and 3 * R   dimension, entity, place on it, for each DOF; what is past the last DOF is left as it was
 *   work                         3 * C * C         the records: each ordered pair of cells once, distant ones first
 * kinds, test_dofs, trial_dofs and work are the plan, which the calls of a run are lent. */
seivalto_planned seivalto_plan(
    uint32_t cells, uint32_t vertices, uint32_t edges,
    const uint8_t *kinds, size_t kinds_length,
    const uint32_t *cell_vertices, size_t cell_vertices_length,
    const uint32_t *cell_edges, size_t cell_edges_length,
    seivalto_elements test, seivalto_elements trial, uint32_t batch, seivalto_integrand integrand,
    uint32_t *test_dofs, size_t test_dofs_length,
    uint32_t *trial_dofs, size_t trial_dofs_length,
    uint32_t *test_colours, size_t test_colours_length,
    uint32_t *trial_colours, size_t trial_colours_length,
    uint32_t *test_owners, size_t test_owners_length,
    uint32_t *trial_owners, size_t trial_owners_length,
    uint32_t *work, size_t work_length);

/* A dense run, at the first record: its adds put every pair into one matrix. */
seivalto_run seivalto_begin(seivalto_numbers numbers);

/* An entries run, at the first touching record: its entries call writes each touching pair into three lists. */
seivalto_run seivalto_begin_entries(seivalto_numbers numbers);

/* The record at the run's position. */
seivalto_looked seivalto_look(
    seivalto_run run,
    const uint8_t *kinds, size_t kinds_length,
    const uint32_t *test_dofs, size_t test_dofs_length,
    const uint32_t *trial_dofs, size_t trial_dofs_length,
    const uint32_t *work, size_t work_length);

/* What an add is lent. x is a point of the test cell, y one of the trial cell. Every number has to be finite, whether a kind reads it or not.
 *
 * Reference cells. Corners 0, 1, 2 of the reference triangle are (0,0), (1,0), (0,1), corners 0 to 3 of the reference quad (0,0), (1,0), (0,1), (1,1); they
 * stand for the vertices of a cell in their local order. The weights of a rule on the triangle sum to 1/2, on the quad to 1. A touching pair has one rule for
 * both cells, of pairs of points (u, v), u for the test cell and v for the trial cell; its weights sum to 1/4 for two triangles, 1/2 for a triangle and a
 * quad, 1 for two quads.
 *
 * Geometry of a point. J is the jacobian, at the point, of the map from the reference cell to the cell: J0 to J2 is the derivative along the first reference
 * direction, J3 to J5 along the second. In a flat triangle with vertices A, B, C these are B - A and C - A. In a quad with vertices A, B, C, D whose map is
 * bilinear they are, at (s, t), (1 - t) * (B - A) + t * (D - C) and (1 - s) * (C - A) + s * (D - B). jdet is the length of (J0,J1,J2) x (J3,J4,J5) at the
 * point, which is twice the area of a flat triangle, and the area of a parallelogram; it is above 0. The normal has length 1. Kinds 1, 2 and 4 read the
 * normal; kind 3 reads J, and not the normal. So all cells have to be oriented alike; for a cell that is listed the other way round, so that (J0,J1,J2) x
 * (J3,J4,J5) points against its normal, lend -J, all six numbers. Kind 3 is then k0 times the inner product of n x grad test and n x grad trial.
 *
 * Kernel. k0 is the kernel G(x, y), for Laplace 1 / (4 pi |x - y|). k1 to k3 is the gradient of G with respect to the trial point y, for Laplace
 * (x - y) / (4 pi |x - y|^3). Kind 1 is then the double layer operator and kind 2 its adjoint; the gradient with respect to x would turn the sign of both.
 * A complex kernel takes two runs, one with its real part and one with its imaginary part, each with a matrix of its own.
 *
 * Table. Values and derivatives of the basis functions of the reference cell, at the points of the rule, in the local order of the DOFs: those of the element
 * of the cell's kind.
 *
 * Rules of distant pairs. Any rule of the cell's reference cell, for either cell; each pair may have its own.
 *
 * Rules of touching pairs. The kernel is singular where the cells touch, and the rule has to be made for it and for the two kinds, as those of Sauter and
 * Schwab for two triangles are: one for cells that share corner 0, one for cells that share edge 0-1 with corner 0 on corner 0 and 1 on 1, one for a cell
 * with itself. (Edge 0-1 joins corners 0 and 1, whatever its number.) Such a rule is turned by the pattern of the record, so that the corner or edge for
 * which it is made goes to the places that the cells share. With n, k and start of the pattern's block (see seivalto_record), and p the pattern less start,
 * these are, in C's division:
 *   p < n * k               i = p / k, j = p % k: place i of the test cell is place j of the trial cell
 *   n * k <= p < 3 * n * k  e = (p - n * k) / 2 / k, g = (p - n * k) / 2 % k, flip = (p - n * k) % 2: edge e of the test cell, whose places are e0, e1, is
 *                           edge g of the trial cell, whose places are g0, g1 (the local vertices that edges e and g join, see seivalto_plan); e0 is g0
 *                           and e1 is g1, with flip e0 is g1 and e1 is g0
 *   p = 3 * n * k           each place is the same place
 * Corners 0, 1, 2 of the rule go, in the test and in the trial cell, to these places, where "rest" is what is left of a triangle, in any order; in a quad
 * corners 1 and 2 go to neighbours of the place to which corner 0 goes, that is not to the opposite one, so "rest" is what is left of these two, and corner 3
 * goes to the opposite place:
 *   p < n * k               i, rest          j, rest
 *   n * k <= p < 3 * n * k  e0, e1, rest     g0, g1, rest, with flip g1, g0, rest
 *   p = 3 * n * k           0, 1, 2          0, 1, 2
 * A point (s, t) of the rule becomes Q0 + s * (Q1 - Q0) + t * (Q2 - Q0), in a triangle and in a quad, where Qk is the corner of the reference cell at the
 * place to which corner k goes. Weights stay as they are. Table, geometry and kernel are those at the turned points. With the turn of one pattern left out
 * the result is smooth and wrong, and no check sees it. For a triangle with itself 2,048 points are room for a rule of Sauter and Schwab with four points a
 * direction, 6 * 4^4 points, whose error was 1.6e-4; an uneven product, 6 * (4 * 3 * 3 * 9), had 1.7e-8. No error of a rule with a quad was measured.
 *
 * Tests of a host. Let V, K, K', W be the matrices of kinds 0, 1, 2, 3 for Laplace, M the mass matrix for the same test and trial element, and the normals
 * outward. Then, on a closed polyhedron, K 1 = -M 1 / 2, V n = M x / 2 + K x, W x = M n / 2 - K' n, and K' is the transpose of K, up to rounding and
 * quadrature. Here 1 and the coordinates x are trial functions with a = 1, and the components of the normal n are trial functions with c = 1. */

/* Adds the local matrix of the distant pair at the run's position. T = test_points and R = trial_points are from 1 to 64. These lengths are asked, here and
 * below with the dims of the record's own cells, each by its kind:
 *   test_weights T, trial_weights R
 *   test_table D * T * test dim, trial_table D * R * trial dim   row i, point p, basis function f of P points at i + D * (p + P * f)
 *   kernel K * T * R                                             number d of test point t and trial point r at d + K * (t + T * r)
 *   test_geometry 10 * T, trial_geometry 10 * R                  jdet, normal 0 to 2, jacobian 0 to 5 of point p from 10 * p on
 *   matrix rows * columns                                        row i, column j at i + rows * j
 * A local entry is the sum, from 0 on, over the test points and for each over the trial points, of
 *   value * (trial weight * trial jdet) * (test weight * test jdet)
 * so what is lent is multiplied by no weight or jdet beforehand. The entry of test basis function i and trial basis function j is added at the row of DOF i
 * of the test cell and the column of DOF j of the trial cell. */
seivalto_added seivalto_add_distant(
    seivalto_run run,
    const uint8_t *kinds, size_t kinds_length,
    const uint32_t *test_dofs, size_t test_dofs_length,
    const uint32_t *trial_dofs, size_t trial_dofs_length,
    const uint32_t *work, size_t work_length,
    size_t test_points, size_t trial_points,
    const double *test_weights, size_t test_weights_length,
    const double *trial_weights, size_t trial_weights_length,
    const double *test_table, size_t test_table_length,
    const double *trial_table, size_t trial_table_length,
    const double *kernel, size_t kernel_length,
    const double *test_geometry, size_t test_geometry_length,
    const double *trial_geometry, size_t trial_geometry_length,
    double *matrix, size_t matrix_length);

/* Adds the local matrix of the touching pair at the run's position. P = points is from 1 to 2,048. These lengths are asked:
 *   weights P, test_table D * P * test dim, trial_table D * P * trial dim, test_geometry and trial_geometry 10 * P, matrix rows * columns
 *   kernel K * P, number d of point q at d + K * q
 * Tables, geometry and matrix are laid out as above. A local entry is the sum, from 0 on, over the points, of
 *   value * (weight * (test jdet * trial jdet)) */
seivalto_added seivalto_add_touching(
    seivalto_run run,
    const uint8_t *kinds, size_t kinds_length,
    const uint32_t *test_dofs, size_t test_dofs_length,
    const uint32_t *trial_dofs, size_t trial_dofs_length,
    const uint32_t *work, size_t work_length,
    size_t points,
    const double *weights, size_t weights_length,
    const double *test_table, size_t test_table_length,
    const double *trial_table, size_t trial_table_length,
    const double *kernel, size_t kernel_length,
    const double *test_geometry, size_t test_geometry_length,
    const double *trial_geometry, size_t trial_geometry_length,
    double *matrix, size_t matrix_length);

/* Of an entries run: writes row, column and value of each local entry of the touching pair at the run's position into three lists, trial basis outer. Entries
 * stand record after record, without gaps: a record has test dim * trial dim of them, by the kinds of its cells, and each list is as long as the entries of
 * all touching records. These come block after block of the pattern table, so with the pairs of the run's numbers and q = position - distant a record's
 * entries begin at
 *   min(q, triangle_triangle) * (test dim of a triangle * trial dim of a triangle)
 *   + min(q less those, triangle_quad) * (test dim of a triangle * trial dim of a quad)
 *   + min(q less those, quad_triangle) * (test dim of a quad * trial dim of a triangle)
 *   + min(q less those, quad_quad) * (test dim of a quad * trial dim of a quad)
 * where "less those" is what is left of q after the blocks before, at least 0; the lists are as long as this is at q = touching. For triangles alone that is
 * q * test dim * trial dim. What the call is lent beside run and plan, and how an entry is summed, is as in seivalto_add_touching. */
seivalto_added seivalto_add_entries(
    seivalto_run run,
    const uint8_t *kinds, size_t kinds_length,
    const uint32_t *test_dofs, size_t test_dofs_length,
    const uint32_t *trial_dofs, size_t trial_dofs_length,
    const uint32_t *work, size_t work_length,
    size_t points,
    const double *weights, size_t weights_length,
    const double *test_table, size_t test_table_length,
    const double *trial_table, size_t trial_table_length,
    const double *kernel, size_t kernel_length,
    const double *test_geometry, size_t test_geometry_length,
    const double *trial_geometry, size_t trial_geometry_length,
    uint32_t *rows, size_t rows_length,
    uint32_t *columns, size_t columns_length,
    double *values, size_t values_length);

/* Writes the entries of a finished entries run as sparse rows. rows, columns and values are the run's three lists, row_count and column_count the rows and
 * columns of planning's numbers. Row r has the places p of kept_columns and kept_values with row_starts[r] <= p < row_starts[r + 1]; row_starts[row_count] is
 * kept. Each column that occurs in a row stands there once, no other does, and the columns of a row rise. Entries with the same row and column are added in
 * run order, starting from the first. These lengths are asked, at the least:
 *   row_starts                 row_count + 1
 *   kept_columns, kept_values  kept, which is never more than the number of entries, so that lists of that length always do
 * What is past the written numbers is left as it was. Infinite values and NaN are not refused, and are added as IEEE 754 has it. A value that is alone at its
 * row and column keeps its bits, but a signalling NaN comes out quiet. No scratch is lent, and the call takes no other memory than the stack. */
seivalto_gathered seivalto_sparse_rows(
    const uint32_t *rows, size_t rows_length,
    const uint32_t *columns, size_t columns_length,
    const double *values, size_t values_length,
    uint32_t row_count, uint32_t column_count,
    uint64_t *row_starts, size_t row_starts_length,
    uint32_t *kept_columns, size_t kept_columns_length,
    double *kept_values, size_t kept_values_length);

#ifdef __cplusplus
}
#endif

#endif
