/* The worked example of include/tailboardy.h: fits one tree on four fixtures, prints its nodes and predicts with it; then a listing
 * that lost a row and a draw that is out of range, which are refused; a tree whose thresholds are measured values; and a forest of two
 * trees, which is written to a file and read back. c/run compares what it prints with example.out. */
#include <inttypes.h>
#include <stdio.h>
#include <stdlib.h>

#include "tailboardy.h"

/* A slice as the calls take it: a pointer, and how many entries it has. */
#define ALL(array) array, sizeof(array) / sizeof((array)[0])

enum { ROWS = 4, FEATURES = 2, TREES = 2, NODES = 2 * ROWS - 1 };

/* Trim height and truss offset of each fixture, and the pan correction that it was given. */
static const double values[ROWS * FEATURES] = {7.5, -3, 7.5, 3, 6.2, -3, 6.2, 3};
static const double targets[ROWS] = {-22, 22, -26, 26};
/* The rows in ascending order of trim height, and of truss offset. */
static const uint32_t listings[FEATURES * ROWS] = {2, 3, 0, 1, 0, 2, 1, 3};
/* No weights: a slice of length 0, whose pointer must still not be null. */
static const double weights[1] = {0};

/* What a fit of either kind is lent: a place for each node in six columns and in the two that only a fit fills, and memory to work in. */
typedef struct {
    double value[TREES * NODES];
    uint32_t feature[TREES * NODES];
    double threshold[TREES * NODES];
    double score[TREES * NODES];
    uint32_t true_child[TREES * NODES];
    uint32_t false_child[TREES * NODES];
} Nodes;

typedef struct {
    uint32_t count[TREES * NODES];
    double mass[TREES * NODES];
} Behind;

typedef struct {
    uint32_t order[FEATURES * ROWS];
    uint32_t scratch[ROWS];
    bool flags[ROWS];
    uint32_t wholes[ROWS][6];
    double reals[ROWS][3];
} Work;

static void stop(const char *call, uint32_t number) {
    fprintf(stderr, "%s: refusal %" PRIu32 "\n", call, number);
    exit(1);
}

/* Prints some of the nodes, numbered from 0, and what stands behind them, if that is known. */
static void print_nodes(const Nodes *nodes, const Behind *behind, uint32_t start, uint32_t end) {
    printf("node  value  feature  threshold  score  true  false%s\n", behind == NULL ? "" : "  count   mass");
    for (uint32_t at = start; at < end; at++) {
        printf("%4" PRIu32 " %6g %8" PRIu32 " %10g %6g %5" PRIu32 " %6" PRIu32, at - start, nodes->value[at],
            nodes->feature[at], nodes->threshold[at], nodes->score[at], nodes->true_child[at], nodes->false_child[at]);
        if (behind != NULL) printf(" %6" PRIu32 " %6g", behind->count[at], behind->mass[at]);
        printf("\n");
    }
}

/* Each search tries both features: with the random splitter, and with the best, which here cuts at the lower of two values. */
static const TailboardyTreeSettings drawn = {.leaf = 1, .split = 2, .tried = FEATURES, .random = true};
static const TailboardyTreeSettings measured = {.leaf = 1, .split = 2, .tried = FEATURES, .lower = true};

/* Fits one tree, each row once. */
static TailboardyTreeTold fit_tree(Nodes *nodes, Behind *behind, TailboardyTreeSettings settings, const uint32_t *listing,
    const double *thresholds) {
    static const uint32_t counts[ROWS] = {1, 1, 1, 1};
    static const uint32_t words[] = {1, 0, 0, 1, 1, 0};
    static Work work;
    return tailboardy_fit_tree(
        nodes->value, NODES, nodes->feature, NODES, nodes->threshold, NODES, nodes->score, NODES,
        nodes->true_child, NODES, nodes->false_child, NODES, behind->count, NODES, behind->mass, NODES,
        ALL(work.order), ALL(work.scratch), ALL(work.flags), ALL(work.wholes), ALL(work.reals),
        ALL(values), ALL(targets), weights, 0, ALL(counts), listing, FEATURES * ROWS, ALL(words), thresholds, 4,
        ROWS, FEATURES, settings);
}

static void one_tree(void) {
    static Nodes nodes;
    static Behind behind;
    static const double thresholds[] = {0.5, 7.0, 6.8, 7.2};
    const TailboardyTreeTold told = fit_tree(&nodes, &behind, drawn, listings, thresholds);
    if (told.number != 0) stop("tailboardy_fit_tree", told.number);
    printf("one tree: %" PRIu32 " nodes, depth %" PRIu32 ", mass %g, %" PRIu32 " searches, %" PRIu32 " words, %" PRIu32
           " thresholds\n", told.nodes, told.depth, told.mass, told.searches, told.words, told.thresholds);
    print_nodes(&nodes, &behind, 0, told.nodes);

    /* A reader takes all entries of the columns as the tree, so it is given as many as there are nodes. */
    static const double house[3 * FEATURES] = {6.5, -2.5, 7.4, 0.5, 9.0, 3.5};
    double out[3];
    const size_t length = told.nodes;
    const uint32_t number = tailboardy_predict_tree(3, FEATURES, ALL(house), nodes.value, length, nodes.feature, length,
        nodes.threshold, length, nodes.score, length, nodes.true_child, length, nodes.false_child, length, ALL(out));
    if (number != 0) stop("tailboardy_predict_tree", number);
    for (size_t row = 0; row < 3; row++) {
        printf("a fixture at %g, %g: %g\n", house[FEATURES * row], house[FEATURES * row + 1], out[row]);
    }
}

/* Prints where a listing is damaged. */
static void print_damage(const char *by, uint32_t number, uint32_t column, uint32_t place, uint32_t row) {
    printf("a damaged listing, by %s: refusal %" PRIu32 " in column %" PRIu32 " at place %" PRIu32 ", and row %" PRIu32
           " is missing\n", by, number, column, place, row);
}

/* The listing of the truss offsets has row 0 a second time, in place of row 1. */
static void damaged_listing(void) {
    static Nodes nodes;
    static Behind behind;
    static const uint32_t damaged[FEATURES * ROWS] = {2, 3, 0, 1, 0, 2, 0, 3};
    static const double thresholds[] = {0.5, 7.0, 6.8, 7.2};
    const TailboardyTreeTold told = fit_tree(&nodes, &behind, drawn, damaged, thresholds);
    print_damage("a fit", told.number, told.part, told.place, told.row);
    const TailboardyRefusal alone = tailboardy_check_listings(ROWS, FEATURES, ALL(values), ALL(damaged));
    print_damage("the check alone", alone.number, alone.part, alone.place, alone.row);
}

/* The third threshold, which search 1 takes for rows of trim heights 6.2 and 7.5, is not below the highest of these. */
static void bad_draw(void) {
    static Nodes nodes;
    static Behind behind;
    static const double thresholds[] = {0.5, 7.0, 7.5, 7.2};
    const TailboardyTreeTold told = fit_tree(&nodes, &behind, drawn, listings, thresholds);
    printf("a threshold out of range: refusal %" PRIu32 ", search %" PRIu32 "\n", told.number, told.place);
}

/* The best splitter takes nothing from the tape of thresholds. If it cut at midpoints, this tree would have 0 and 6.85 in place of -3
 * and 6.2, as the forest below does. */
static void measured_cuts(void) {
    static Nodes nodes;
    static Behind behind;
    static const double unused[4] = {0};
    const TailboardyTreeTold told = fit_tree(&nodes, &behind, measured, listings, unused);
    if (told.number != 0) stop("tailboardy_fit_tree", told.number);
    printf("a tree cut at measured values: %" PRIu32 " nodes\n", told.nodes);
    print_nodes(&nodes, &behind, 0, told.nodes);
}

/* Reads a forest from the bytes of a file. */
static TailboardyModelTold read_file(Nodes *nodes, uint32_t *starts, const uint8_t *file, size_t length) {
    return tailboardy_read_model(ALL(nodes->value), ALL(nodes->feature), ALL(nodes->threshold), ALL(nodes->score),
        ALL(nodes->true_child), ALL(nodes->false_child), starts, TREES + 1, file, length);
}

/* The forest as the bytes of a file, which the caller would save or send, and what is read from them. Then the last byte is lost, which
 * belongs to the true child of the last node. */
static void model_file(const Nodes *nodes, const uint32_t *starts) {
    static Nodes back;
    static uint32_t back_starts[TREES + 1];
    const TailboardySizeTold size = tailboardy_model_size(FEATURES, TREES, starts, TREES + 1, ALL(nodes->value),
        ALL(nodes->feature), ALL(nodes->threshold), ALL(nodes->score), ALL(nodes->true_child), ALL(nodes->false_child));
    if (size.number != 0) stop("tailboardy_model_size", size.number);
    uint8_t *file = malloc(size.bytes);
    if (file == NULL) exit(1);
    const TailboardySizeTold written = tailboardy_write_model(FEATURES, TREES, starts, TREES + 1, ALL(nodes->value),
        ALL(nodes->feature), ALL(nodes->threshold), ALL(nodes->score), ALL(nodes->true_child), ALL(nodes->false_child),
        file, size.bytes);
    if (written.number != 0) stop("tailboardy_write_model", written.number);
    printf("the forest as a file: %zu bytes, and the first are", written.bytes);
    for (size_t at = 0; at < 9; at++) printf(" %02x", file[at]);
    const TailboardyModelTold told = read_file(&back, back_starts, file, written.bytes);
    if (told.number != 0) stop("tailboardy_read_model", told.number);
    printf("\nread from it: %" PRIu32 " features, %" PRIu32 " trees and %" PRIu32 " nodes, of which the last tree has\n",
        told.features, told.trees, told.nodes);
    print_nodes(&back, NULL, back_starts[1], back_starts[2]);
    const TailboardyModelTold cut = read_file(&back, back_starts, file, written.bytes - 1);
    printf("without its last byte: refusal %" PRIu32 " at byte %zu\n", cut.number, cut.place);
    free(file);
}

/* Two trees with the best splitter, which takes no thresholds. The first has row 0 twice and leaves row 1 out, the second has row 3
 * twice and leaves row 2 out. Each has six words of the tape; what it does not take is not looked at. */
static void forest(void) {
    static const uint32_t counts[TREES * ROWS] = {2, 0, 1, 1, 1, 1, 0, 2};
    static const uint32_t words[] = {0, 1, 1, 0, 0, 1, 1, 0, 0, 1, 1, 0};
    static const double thresholds[1] = {0};
    static const size_t word_starts[TREES + 1] = {0, 6, 12};
    static const size_t threshold_starts[TREES + 1] = {0, 0, 0};
    static Nodes nodes;
    static Behind behind;
    static Work work;
    static uint32_t starts[TREES + 1], own[TREES], depth[TREES], searches[TREES], words_used[TREES], thresholds_used[TREES];
    static double mass[TREES], out[ROWS];
    const TailboardyForestSettings settings = {.leaf = 1, .split = 2, .said = true, .tried = FEATURES};
    const TailboardyRefusal told = tailboardy_fit_forest(
        ALL(nodes.value), ALL(nodes.feature), ALL(nodes.threshold), ALL(nodes.score), ALL(nodes.true_child),
        ALL(nodes.false_child), ALL(behind.count), ALL(behind.mass), ALL(starts), ALL(own), ALL(depth), ALL(mass),
        ALL(searches), ALL(words_used), ALL(thresholds_used), ALL(work.order), ALL(work.scratch), ALL(work.flags),
        ALL(work.wholes), ALL(work.reals), ALL(values), ALL(targets), weights, 0, ALL(counts), ALL(listings), ALL(words),
        thresholds, 0, ALL(word_starts), ALL(threshold_starts), ROWS, FEATURES, TREES, settings);
    if (told.number != 0) stop("tailboardy_fit_forest", told.number);
    for (size_t tree = 0; tree < TREES; tree++) {
        printf("tree %zu of the forest: mass %g, %" PRIu32 " searches, %" PRIu32 " words\n", tree, mass[tree],
            searches[tree], words_used[tree]);
        print_nodes(&nodes, &behind, starts[tree], starts[tree + 1]);
    }
    const uint32_t number = tailboardy_out_of_bag_means(ROWS, FEATURES, TREES, ALL(values), ALL(counts), ALL(starts),
        ALL(nodes.value), ALL(nodes.feature), ALL(nodes.threshold), ALL(nodes.score), ALL(nodes.true_child),
        ALL(nodes.false_child), ALL(out));
    if (number != 0) stop("tailboardy_out_of_bag_means", number);
    printf("out-of-bag means of rows 1 and 2: %g and %g\n", out[1], out[2]);
    const TailboardyErrorTold error = tailboardy_out_of_bag_error(ROWS, ALL(targets), ALL(out));
    if (error.number != 0) stop("tailboardy_out_of_bag_error", error.number);
    printf("their error: %g, over %" PRIu32 " of %d rows\n", error.error, error.rows, ROWS);
    model_file(&nodes, starts);
}

int main(void) {
    one_tree();
    damaged_listing();
    bad_draw();
    measured_cuts();
    forest();
    return 0;
}
