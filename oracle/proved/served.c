// Serves the exported calls to a program that has not linked them: each call is read from standard input and answered on standard output.
// A call starts with its kind, as in the list. A number has 64 bits; a slice is its length followed by its entries. The answer has the
// numbers of the result, and then the entries of the slices that were written.
#include "tailboardy.h"
#include <stdio.h>
#include <stdlib.h>
#include <string.h>

static void take(void *at, size_t size) {
    if (size != 0 && fread(at, size, 1, stdin) != 1) exit(1);
}

static void give(const void *at, size_t size) {
    if (size != 0 && fwrite(at, size, 1, stdout) != 1) exit(1);
}

static uint64_t number(void) {
    uint64_t n;
    take(&n, sizeof n);
    return n;
}

static double real(void) {
    double f;
    take(&f, sizeof f);
    return f;
}

static void tell(uint64_t n) {
    give(&n, sizeof n);
}

static void tell_real(double f) {
    give(&f, sizeof f);
}

static void tell_refusal(TailboardyRefusal told) {
    tell(told.number);
    tell(told.part);
    tell(told.place);
    tell(told.row);
}

// The slices of the current call. Before and after each there is one more entry with a fixed pattern, which must not change.
enum { MOST = 29, PATTERN = 0xA5 };

typedef uint32_t Wholes[6];
typedef double Reals[3];

static struct Slice {
    unsigned char *at;
    size_t length, size;
} slices[MOST];
static int taken;

static size_t size_of(char entry) {
    switch (entry) {
    case 'd': return sizeof(double);
    case 'u': return sizeof(uint32_t);
    case 'z': return sizeof(size_t);
    case 'b': return sizeof(bool);
    case 'y': return sizeof(uint8_t);
    case 'w': return sizeof(Wholes);
    default: return sizeof(Reals);
    }
}

// Reads a slice for each letter.
static void take_slices(const char *entries) {
    for (taken = 0; entries[taken] != 0; taken++) {
        struct Slice *s = &slices[taken];
        s->size = size_of(entries[taken]);
        s->length = number();
        s->at = malloc((s->length + 2) * s->size);
        if (s->at == NULL) exit(1);
        memset(s->at, PATTERN, s->size);
        take(s->at + s->size, s->length * s->size);
        memset(s->at + (s->length + 1) * s->size, PATTERN, s->size);
    }
}

// Writes all slices from this one on.
static void give_slices(int from) {
    for (int i = 0; i < taken; i++) {
        struct Slice *s = &slices[i];
        for (size_t j = 0; j < s->size; j++) {
            if (s->at[j] != PATTERN || s->at[(s->length + 1) * s->size + j] != PATTERN) exit(2);
        }
        if (i >= from) give(s->at + s->size, s->length * s->size);
        free(s->at);
    }
}

// A slice as it is passed, by the letter of its entries.
#define S(type, i) (type *)(slices[i].at + slices[i].size), slices[i].length
#define D(i) S(double, i)
#define U(i) S(uint32_t, i)
#define COLUMNS "dudduu"
#define COLUMNS_AT(i) D(i), U(i + 1), D(i + 2), D(i + 3), U(i + 4), U(i + 5)
#define BEHIND "ud"
#define BEHIND_AT(i) U(i), D(i + 1)
#define GIVEN "ddduuud"
#define GIVEN_AT(i) D(i), D(i + 1), D(i + 2), U(i + 3), U(i + 4), U(i + 5), D(i + 6)
#define REPORTS "uuduuu"
#define REPORTS_AT(i) U(i), U(i + 1), D(i + 2), U(i + 3), U(i + 4), U(i + 5)
#define WORK "uubwr"
#define WORK_AT(i) U(i), U(i + 1), S(bool, i + 2), S(Wholes, i + 3), S(Reals, i + 4)

static void fit_tree(void) {
    take_slices(GIVEN COLUMNS BEHIND WORK);
    size_t rows = number(), features = number();
    TailboardyTreeSettings plain;
    plain.limited = number();
    plain.limit = number();
    plain.leaf = number();
    plain.split = number();
    plain.tried = number();
    plain.random = number();
    plain.lower = number();
    TailboardyTreeTold told = tailboardy_fit_tree(COLUMNS_AT(7), BEHIND_AT(13), WORK_AT(15), GIVEN_AT(0), rows, features,
        plain);
    tell(told.number);
    tell(told.part);
    tell(told.place);
    tell(told.row);
    tell(told.nodes);
    tell(told.depth);
    tell_real(told.mass);
    tell(told.searches);
    tell(told.words);
    tell(told.thresholds);
    give_slices(7);
}

static void fit_forest(void) {
    take_slices(GIVEN "zz" COLUMNS BEHIND "u" REPORTS WORK);
    size_t rows = number(), features = number(), trees = number();
    TailboardyForestSettings plain;
    plain.limited = number();
    plain.limit = number();
    plain.leaf = number();
    plain.split = number();
    plain.said = number();
    plain.tried = number();
    plain.random = number();
    plain.lower = number();
    tell_refusal(tailboardy_fit_forest(COLUMNS_AT(9), BEHIND_AT(15), U(17), REPORTS_AT(18), WORK_AT(24),
        GIVEN_AT(0), S(size_t, 7), S(size_t, 8), rows, features, trees, plain));
    give_slices(9);
}

static void predict_tree(void) {
    size_t rows = number(), features = number();
    take_slices("d" COLUMNS "d");
    tell(tailboardy_predict_tree(rows, features, D(0), COLUMNS_AT(1), D(7)));
    give_slices(7);
}

static void forest_means(void) {
    size_t rows = number(), features = number(), trees = number();
    take_slices("du" COLUMNS "d");
    tell(tailboardy_forest_means(rows, features, trees, D(0), U(1), COLUMNS_AT(2), D(8)));
    give_slices(8);
}

static void out_of_bag_means(void) {
    size_t rows = number(), features = number(), trees = number();
    take_slices("duu" COLUMNS "d");
    tell(tailboardy_out_of_bag_means(rows, features, trees, D(0), U(1), U(2), COLUMNS_AT(3), D(9)));
    give_slices(9);
}

static void tree_importances(void) {
    size_t features = number();
    bool by_mass = number();
    double mass = real();
    take_slices(COLUMNS "d");
    tell(tailboardy_tree_importances(features, by_mass, mass, COLUMNS_AT(0), D(6)));
    give_slices(6);
}

static void forest_importances(void) {
    size_t features = number(), trees = number();
    take_slices("u" COLUMNS "d");
    tell(tailboardy_forest_importances(features, trees, U(0), COLUMNS_AT(1), D(7)));
    give_slices(7);
}

static void out_of_bag_error(void) {
    size_t rows = number();
    take_slices("dd");
    TailboardyErrorTold told = tailboardy_out_of_bag_error(rows, D(0), D(1));
    tell(told.number);
    tell_real(told.error);
    tell(told.rows);
    give_slices(taken);
}

static void check_listings(void) {
    size_t rows = number(), features = number();
    take_slices("du");
    tell_refusal(tailboardy_check_listings(rows, features, D(0), U(1)));
    give_slices(taken);
}

static void check_tree(void) {
    size_t features = number();
    take_slices(COLUMNS);
    tell(tailboardy_check_tree(features, COLUMNS_AT(0)));
    give_slices(taken);
}

static void check_forest(void) {
    size_t features = number(), trees = number();
    take_slices("u" COLUMNS);
    tell(tailboardy_check_forest(features, trees, U(0), COLUMNS_AT(1)));
    give_slices(taken);
}

static void read_node(void) {
    size_t features = number();
    take_slices(COLUMNS);
    size_t k = number();
    TailboardyNodeTold told = tailboardy_read_node(features, COLUMNS_AT(0), k);
    tell(told.number);
    tell(told.there);
    tell_real(told.value);
    tell(told.feature);
    tell_real(told.threshold);
    tell_real(told.score);
    tell(told.true_child);
    tell(told.false_child);
    give_slices(taken);
}

static void tell_size(TailboardySizeTold told) {
    tell(told.number);
    tell(told.bytes);
}

static void model_size(void) {
    size_t features = number(), trees = number();
    take_slices("u" COLUMNS);
    tell_size(tailboardy_model_size(features, trees, U(0), COLUMNS_AT(1)));
    give_slices(taken);
}

static void write_model(void) {
    size_t features = number(), trees = number();
    take_slices("u" COLUMNS "y");
    tell_size(tailboardy_write_model(features, trees, U(0), COLUMNS_AT(1), S(uint8_t, 7)));
    give_slices(7);
}

static void read_model(void) {
    take_slices("y" COLUMNS "u");
    TailboardyModelTold told = tailboardy_read_model(COLUMNS_AT(1), U(7), S(uint8_t, 0));
    tell(told.number);
    tell(told.place);
    tell(told.features);
    tell(told.trees);
    tell(told.nodes);
    give_slices(1);
}

// By kind; the two ways to divide a tree's importances are one call.
static void (*const calls[])(void) = {
    NULL, fit_tree, fit_forest, predict_tree, forest_means, out_of_bag_means, tree_importances, NULL, forest_importances,
    out_of_bag_error, check_listings, check_tree, check_forest, read_node, model_size, write_model, read_model,
};

int main(void) {
    uint64_t kind;
    while (fread(&kind, sizeof kind, 1, stdin) == 1) {
        if (kind >= sizeof calls / sizeof *calls || calls[kind] == NULL) return 1;
        calls[kind]();
        fflush(stdout);
    }
}
