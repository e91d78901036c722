/* Tailboardy: a proved regression forest. The calls of target/staticlib/libexports.a, which is x86-64 code.
 *
 * A slice is passed as a pointer followed by a length in entries. A `const` slice is only read; every other slice is written, and is
 * said to be lent to the call. Every call returns on every input: an input that it does not accept is refused with a number, and the
 * numbers in the slices may be anything. The caller must guarantee the following about memory (docs/BOUNDARY.md has the details):
 *   - each pointer is valid for its length, aligned for its entries, and not null, even if the slice is empty;
 *   - every entry is initialised, those of lent slices too, and a bool holds 0 or 1;
 *   - no lent slice overlaps another slice, and nothing else reads or writes a lent slice during the call;
 *   - the floating-point mode is the default: round to nearest, no traps, subnormals not flushed to zero.
 *
 * Lists: `values` are stored row after row, `counts` tree after tree, `listings` feature after feature. There is one weight per
 * row, or none (length 0). The nodes of a tree are in six columns: value, feature, threshold, score, true_child and false_child;
 * the shortest column decides how many nodes there are. `true_child` is the number of the child for values at or below the
 * threshold, `false_child` that of the other child; a node where both are 0 is a leaf. The trees of a forest are stored one after
 * another, each with its own node numbers starting at 0; `starts` has trees + 1 positions: where each tree begins, and where the
 * last one ends.
 *
 * What stands behind a node: a fit fills two more columns, which no other call takes and no file has. A row is kept if its count is
 * above 0 and its weight, if there are weights, is above 0; its mass is its count, times its weight if there are weights.
 *   - `node_count`: the sum of the counts of the kept rows in the node;
 *   - `node_mass`: the mass that the node's value was divided by, or would have been if it were above 0: in the root the reported mass,
 *     added up over all rows by number, and in any other node the sum, from 0, along the listing of the feature that its parent is
 *     split by. It may be infinite, and since each addition is rounded, a split's mass need not be the sum of its children's.
 *
 * Draws: nothing in the library is random. A fit takes its draws from two tapes, from front to back; in a forest each tree has its
 * own part of both:
 *   - `words`: each search of a node takes as many words as there are features. They must be the numbers of all features, each
 *     exactly once. The search tries the first `tried` of them, in this order, and of two cuts that are equally good keeps the
 *     first.
 *   - `thresholds`: only the random splitter takes any. Each feature that a search tries takes one threshold, unless all rows of
 *     the node have the same value of it. It must be at least the lowest of these values and below the highest.
 * Searches are made in this order: first the root; then, as long as a searched node with a cut is left that has not been split,
 * the last of them to be searched is split, and its true child is searched, then its false child. So the false child is split
 * before the true child. A node is searched if its rows' counts add up to at least `split` and the depth limit lets it have
 * children. A search that has too few words left, or whose words or thresholds are not as above, is refused (7). What no search takes
 * is not looked at, so a tape may be longer than needed: features x (2 x kept rows - 1) words, and as many thresholds, are always
 * enough.
 *
 * An example, which c/example.c makes and prints. Four rows have two features, trim height and truss offset, and a target:
 *     values      7.5 -3   7.5 3   6.2 -3   6.2 3
 *     targets     -22      22      -26      26
 *     counts      1        1       1        1
 *     listings    2 3 0 1 (6.2 6.2 7.5 7.5)   0 2 1 3 (-3 -3 3 3)
 *     settings    not limited, leaf 1, split 2, tried 2, random
 *     words       1 0   0 1   1 0
 *     thresholds  0.5 7.0   6.8   7.2
 * Search 0, of the root, takes the words 1 0. Feature 1, from -3 to 3, takes the threshold 0.5, and feature 0, from 6.2 to 7.5,
 * takes 7.0. The first cut is better. The root is split: its true child, node 1, has the rows 0 and 2, its false child, node 2,
 * the rows 1 and 3. Search 1, of node 1, takes 0 1: feature 0 takes 6.8; feature 1 is -3 in both rows and takes nothing. Search
 * 2, of node 2, takes 1 0: feature 1 is 3 in both rows and takes nothing; feature 0 takes 7.2. Node 2 was searched last and is
 * split first, into nodes 3 and 4, then node 1 into nodes 5 and 6. All four have one row, which is fewer than `split`, and are
 * not searched. 7 nodes, depth 3, mass 4, 3 searches, 6 words and 4 thresholds are reported:
 *     node  value  feature  threshold  score  true_child  false_child  node_count  node_mass
 *        0      0        1        0.5   2304           1            2           4          4
 *        1    -24        0        6.8      8           5            6           2          2
 *        2     24        0        7.2      8           3            4           2          2
 *        3     26        0          0      0           0            0           1          1    (row 3)
 *        4     22        0          0      0           0            0           1          1    (row 1)
 *        5    -26        0          0      0           0            0           1          1    (row 2)
 *        6    -22        0          0      0           0            0           1          1    (row 0)
 *
 * Files: a forest can be written to bytes and read back; one tree is a forest of one. A file has these numbers one after another, each
 * with its least byte first, and nothing after the last node:
 *     bytes
 *     3            the mark: R G F (52 47 46)
 *     2 2 2        the version: 1; how many features there are, and how many trees: 1 to 1,024 each
 *     for each tree:
 *       4          the number of its nodes, at least 1; all trees together have at most 2^32 - 1
 *       for each node:
 *         8 4      the value, as a binary64 float; true_child, which is 0 in a leaf
 *         2 8 8    only of a split: feature; threshold and score, as floats. Its false_child is the number after true_child
 * So the first tree begins at byte 9, a leaf has 12 bytes and a split 30. Infinities and both zeros are kept. Every NaN is written as
 * 00 00 00 00 00 00 f8 7f, and no other is read. What a leaf has in feature, threshold and score is not written, and these entries are
 * 0 after reading.
 *
 * Refusals: 1 sizes, 2 lengths, 3 numbers, 4 counts, 6 rooms, 7 draw, 8 table, 9 no counts, 10 other counts, 11 no such row, 12 row
 * twice, 13 value falls, 14 file ends early, 15 not such a file, 16 bad field, 17 bytes left over, 18 no means. 11, 12 and 13 are about
 * a damaged listing. They tell where it is damaged, as 7 tells where the bad draw is (TailboardyRefusal). 14 to 17 are about the bytes
 * of a file, and tell where in it (TailboardyModelTold). The table in docs/RULES.md says when each is given. Below, the refusals that a
 * call can give are listed after its description, in the order of its checks. A refused call leaves every lent slice unchanged, except
 * that refusal 7 fills them all with zeros. */
#ifndef TAILBOARDY_H
#define TAILBOARDY_H

#include <stdbool.h>
#include <stddef.h>
#include <stdint.h>

#ifdef __cplusplus
extern "C" {
#endif

/* The parameters of one tree: the maximum depth, which is `limit` if `limited` is true and unlimited otherwise; the least leaf; the
 * least split; how many features each search tries; whether the splitter is random or the best; and where the best splitter cuts
 * between two values of a feature: at the lower of them if `lower` is true, and at their midpoint otherwise, or at the lower where
 * the midpoint is not below the upper one. Of equal values the lower is the first in the listing, so a threshold of zero has its
 * sign. The random splitter ignores `lower`. */
typedef struct {
    bool limited;
    uint16_t limit;
    uint32_t leaf;
    uint32_t split;
    uint32_t tried;
    bool random;
    bool lower;
} TailboardyTreeSettings;

/* The same for the trees of a forest. How many features each search tries is `tried` if `said` is true, and otherwise the square root
 * of the number of features, rounded down. */
typedef struct {
    bool limited;
    uint16_t limit;
    uint32_t leaf;
    uint32_t split;
    bool said;
    uint32_t tried;
    bool random;
    bool lower;
} TailboardyForestSettings;

/* A refusal: its number, or 0 if there is none, and where it is. With 11, 12 and 13 `part` is the feature whose listing is damaged,
 * and `place` the place in this listing, both counted from 0; with 12 `row` is the lowest row that is missing from the whole listing.
 * With 7 `part` is the tree, always 0 in the fit of one tree, and `place` the search of the bad draw. All other fields are 0. */
typedef struct {
    uint32_t number, part, place, row;
} TailboardyRefusal;

/* The four fields of a refusal and, if `number` is 0, a report: the number of nodes, the depth, the root mass, and how many searches,
 * words and thresholds were used. If it is not 0, these fields are 0. */
typedef struct {
    uint32_t number, part, place, row;
    uint32_t nodes, depth;
    double mass;
    uint32_t searches, words, thresholds;
} TailboardyTreeTold;

/* 0 or a refusal. With 0: the error, and the number of rows that it is over; otherwise these fields are 0. */
typedef struct {
    uint32_t number;
    double error;
    uint32_t rows;
} TailboardyErrorTold;

/* 0 or a refusal. With 0: whether the node exists and, if it does, its value and, if it is a split, its other entries. All other
 * fields are 0. */
typedef struct {
    uint32_t number;
    bool there;
    double value;
    uint32_t feature;
    double threshold;
    double score;
    uint32_t true_child;
    uint32_t false_child;
} TailboardyNodeTold;

/* 0 or a refusal. With 0: the number of bytes of a model's file; otherwise 0. */
typedef struct {
    uint32_t number;
    size_t bytes;
} TailboardySizeTold;

/* 0 or a refusal. With 0: how many features, trees and nodes the model has that was read. With 14, 15 and 16 `place` is the byte,
 * counted from 0, at which the field begins that is refused, and with 17 the first byte that is left over. All other fields are 0. */
typedef struct {
    uint32_t number;
    size_t place;
    uint32_t features;
    uint32_t trees;
    uint32_t nodes;
} TailboardyModelTold;

/* Grows one tree. Refusals: 1, 2, 3, 4, 11, 12, 13, 6, 7.
 * Required lengths: at least 2 x kept rows - 1, and at least 1, for the eight columns of nodes, from `value` to `node_mass`; at least
 * features x rows for `order`, rows for `scratch`, the greater of rows and features for `flags`, and rows for `wholes` and `reals`.
 * Afterwards the nodes are at the front of the eight columns, the entries after them are unchanged, and the other five slices are all
 * zero. */
TailboardyTreeTold tailboardy_fit_tree(
    double *value, size_t value_length,
    uint32_t *feature, size_t feature_length,
    double *threshold, size_t threshold_length,
    double *score, size_t score_length,
    uint32_t *true_child, size_t true_child_length,
    uint32_t *false_child, size_t false_child_length,
    uint32_t *node_count, size_t node_count_length,
    double *node_mass, size_t node_mass_length,
    uint32_t *order, size_t order_length,
    uint32_t *scratch, size_t scratch_length,
    bool *flags, size_t flags_length,
    uint32_t (*wholes)[6], size_t wholes_length,
    double (*reals)[3], size_t reals_length,
    const double *values, size_t values_length,
    const double *targets, size_t targets_length,
    const double *weights, size_t weights_length,
    const uint32_t *counts, size_t counts_length,
    const uint32_t *listings, size_t listings_length,
    const uint32_t *words, size_t words_length,
    const double *thresholds, size_t thresholds_length,
    size_t rows, size_t features,
    TailboardyTreeSettings plain);

/* Grows a forest. Refusals: 1, 2, 3, 4, 11, 12, 13, 6, 7.
 * Each tree has its own counts and its own part of both tapes: `word_starts` and `threshold_starts` each have trees + 1 positions,
 * from 0 to the length of the tape, in ascending order.
 * Required lengths: for the eight columns of nodes the sum over all trees of what one tree requires; at least trees + 1 for `starts`;
 * exactly trees for the six columns from `nodes` to `thresholdsused`; for the five from `order` to `reals` as for one tree.
 * Afterwards the trees are at the front of the columns and `starts` says where each begins, the entries after them are unchanged, the
 * columns from `nodes` to `thresholdsused` report on each tree, and the five from `order` to `reals` are all zero. */
TailboardyRefusal tailboardy_fit_forest(
    double *value, size_t value_length,
    uint32_t *feature, size_t feature_length,
    double *threshold, size_t threshold_length,
    double *score, size_t score_length,
    uint32_t *true_child, size_t true_child_length,
    uint32_t *false_child, size_t false_child_length,
    uint32_t *node_count, size_t node_count_length,
    double *node_mass, size_t node_mass_length,
    uint32_t *starts, size_t starts_length,
    uint32_t *nodes, size_t nodes_length,
    uint32_t *depth, size_t depth_length,
    double *mass, size_t mass_length,
    uint32_t *searches, size_t searches_length,
    uint32_t *wordsused, size_t wordsused_length,
    uint32_t *thresholdsused, size_t thresholdsused_length,
    uint32_t *order, size_t order_length,
    uint32_t *scratch, size_t scratch_length,
    bool *flags, size_t flags_length,
    uint32_t (*wholes)[6], size_t wholes_length,
    double (*reals)[3], size_t reals_length,
    const double *values, size_t values_length,
    const double *targets, size_t targets_length,
    const double *weights, size_t weights_length,
    const uint32_t *counts, size_t counts_length,
    const uint32_t *listings, size_t listings_length,
    const uint32_t *words, size_t words_length,
    const double *thresholds, size_t thresholds_length,
    const size_t *word_starts, size_t word_starts_length,
    const size_t *threshold_starts, size_t threshold_starts_length,
    size_t rows, size_t features, size_t trees,
    TailboardyForestSettings plain);

/* The value of the leaf that each row reaches. Refusals: 1, 2, 6, 8. The tree is made of all entries of the columns; `out` has one
 * entry per row. */
uint32_t tailboardy_predict_tree(
    size_t rows, size_t features,
    const double *values, size_t values_length,
    const double *value, size_t value_length,
    const uint32_t *feature, size_t feature_length,
    const double *threshold, size_t threshold_length,
    const double *score, size_t score_length,
    const uint32_t *true_child, size_t true_child_length,
    const uint32_t *false_child, size_t false_child_length,
    double *out, size_t out_length);

/* The mean of the trees' predictions for each row. Refusals: 1, 2, 6, 8. `out` has one entry per row. */
uint32_t tailboardy_forest_means(
    size_t rows, size_t features, size_t trees,
    const double *values, size_t values_length,
    const uint32_t *starts, size_t starts_length,
    const double *value, size_t value_length,
    const uint32_t *feature, size_t feature_length,
    const double *threshold, size_t threshold_length,
    const double *score, size_t score_length,
    const uint32_t *true_child, size_t true_child_length,
    const uint32_t *false_child, size_t false_child_length,
    double *out, size_t out_length);

/* For each row the mean over the trees in which its count is 0, or NaN if there are none. Refusals: 1, 9, 10, 2, 6, 8. `out` has one
 * entry per row. */
uint32_t tailboardy_out_of_bag_means(
    size_t rows, size_t features, size_t trees,
    const double *values, size_t values_length,
    const uint32_t *counts, size_t counts_length,
    const uint32_t *starts, size_t starts_length,
    const double *value, size_t value_length,
    const uint32_t *feature, size_t feature_length,
    const double *threshold, size_t threshold_length,
    const double *score, size_t score_length,
    const uint32_t *true_child, size_t true_child_length,
    const uint32_t *false_child, size_t false_child_length,
    double *out, size_t out_length);

/* The scores of the splits, added up by feature and divided by `mass` if `by_mass` is true, and by their total otherwise, provided that
 * the divisor is above 0. Refusals: 1, 6, 8. `out` has one entry per feature. */
uint32_t tailboardy_tree_importances(
    size_t features, bool by_mass, double mass,
    const double *value, size_t value_length,
    const uint32_t *feature, size_t feature_length,
    const double *threshold, size_t threshold_length,
    const double *score, size_t score_length,
    const uint32_t *true_child, size_t true_child_length,
    const uint32_t *false_child, size_t false_child_length,
    double *out, size_t out_length);

/* The mean of the trees' importances, each divided by its total, and then divided by the total of these means if that is above 0.
 * Refusals: 1, 6, 8. `out` has one entry per feature. */
uint32_t tailboardy_forest_importances(
    size_t features, size_t trees,
    const uint32_t *starts, size_t starts_length,
    const double *value, size_t value_length,
    const uint32_t *feature, size_t feature_length,
    const double *threshold, size_t threshold_length,
    const double *score, size_t score_length,
    const uint32_t *true_child, size_t true_child_length,
    const uint32_t *false_child, size_t false_child_length,
    double *out, size_t out_length);

/* The sum of the squared differences between target and mean, divided by how many rows have a mean that is not NaN; and how
 * many they are. Refusals: 1, 2, 18. */
TailboardyErrorTold tailboardy_out_of_bag_error(
    size_t rows,
    const double *targets, size_t targets_length,
    const double *means, size_t means_length);

/* Checks that each feature's listing contains each row exactly once, and that values never decrease along it.
 * Refusals: 1, 2, 11, 12, 13. Of the last three, here as in the fits, the first that is met is told: features are taken in order, the
 * places of a listing from its front, and at each place the tests are whether the row number is too large (11), whether the row was
 * met before in this listing (12), and whether its value is below that of the row at the place before (13). This check accepts a NaN,
 * which a fit refuses: it is below nothing, and nothing is below it. */
TailboardyRefusal tailboardy_check_listings(
    size_t rows, size_t features,
    const double *values, size_t values_length,
    const uint32_t *listings, size_t listings_length);

/* Checks that all entries of the columns are a valid tree. Refusals: 1, 8. */
uint32_t tailboardy_check_tree(
    size_t features,
    const double *value, size_t value_length,
    const uint32_t *feature, size_t feature_length,
    const double *threshold, size_t threshold_length,
    const double *score, size_t score_length,
    const uint32_t *true_child, size_t true_child_length,
    const uint32_t *false_child, size_t false_child_length);

/* Checks that the starts and all trees are valid. Refusals: 1, 6, 8. */
uint32_t tailboardy_check_forest(
    size_t features, size_t trees,
    const uint32_t *starts, size_t starts_length,
    const double *value, size_t value_length,
    const uint32_t *feature, size_t feature_length,
    const double *threshold, size_t threshold_length,
    const double *score, size_t score_length,
    const uint32_t *true_child, size_t true_child_length,
    const uint32_t *false_child, size_t false_child_length);

/* The node with number `k` of one tree. Refusals: 1, 8. It is not refused if a valid tree has no such node. */
TailboardyNodeTold tailboardy_read_node(
    size_t features,
    const double *value, size_t value_length,
    const uint32_t *feature, size_t feature_length,
    const double *threshold, size_t threshold_length,
    const double *score, size_t score_length,
    const uint32_t *true_child, size_t true_child_length,
    const uint32_t *false_child, size_t false_child_length,
    size_t k);

/* How many bytes the file of a forest has. Refusals: 1, 6, 8. */
TailboardySizeTold tailboardy_model_size(
    size_t features, size_t trees,
    const uint32_t *starts, size_t starts_length,
    const double *value, size_t value_length,
    const uint32_t *feature, size_t feature_length,
    const double *threshold, size_t threshold_length,
    const double *score, size_t score_length,
    const uint32_t *true_child, size_t true_child_length,
    const uint32_t *false_child, size_t false_child_length);

/* Writes the file of a forest to the front of `file`, whose further bytes are unchanged, and tells how many bytes were written.
 * Refusals: 1, 6 if `starts` is too short, 8, 6 if `file` is too short. */
TailboardySizeTold tailboardy_write_model(
    size_t features, size_t trees,
    const uint32_t *starts, size_t starts_length,
    const double *value, size_t value_length,
    const uint32_t *feature, size_t feature_length,
    const double *threshold, size_t threshold_length,
    const double *score, size_t score_length,
    const uint32_t *true_child, size_t true_child_length,
    const uint32_t *false_child, size_t false_child_length,
    uint8_t *file, size_t file_length);

/* Reads a forest from the bytes of a file, all of them. Refusals: of the fields in their order the first that is cut short (14), is
 * not the mark or the version (15), or says what no valid forest has, or a NaN other than the one that is written (16); 17; 6.
 * Required lengths: at least as many entries as the file has nodes for the six columns, and at least trees + 1 for `starts`.
 * Afterwards the trees are at the front of the columns and `starts` says where each begins; the entries after them are unchanged. */
TailboardyModelTold tailboardy_read_model(
    double *value, size_t value_length,
    uint32_t *feature, size_t feature_length,
    double *threshold, size_t threshold_length,
    double *score, size_t score_length,
    uint32_t *true_child, size_t true_child_length,
    uint32_t *false_child, size_t false_child_length,
    uint32_t *starts, size_t starts_length,
    const uint8_t *file, size_t file_length);

#ifdef __cplusplus
}
#endif

#endif
