/* Plain C that does the same work as the calls it is compared with: points of a plan held in arrays, block by block. */
#ifndef BASELINE_H
#define BASELINE_H
#include <stddef.h>
#include <stdint.h>

/* A plan: family 0 Halton, 1 permuted, 2 Sobol, 3 with the permutations of Kocis and Whiten, as in the plan bytes. */
typedef struct {
    int family, axes;
    unsigned base[6];            /* Halton families */
    uint32_t direction[6][32];   /* Sobol */
} plan_t;

/* Faure's image of digit k in base b, by his rules. */
unsigned faure_image(unsigned b, unsigned k);

/* The image of digit k in base b by Kocis and Whiten, from its lowest binary digit up: of h numbers below b that end in those taken so far, the
   (h + 1) / 2 that have 0 next come first. */
unsigned kocis_image(unsigned b, unsigned k);

/* The images of all digits of base b, as a table. */
void baseline_images(int family, unsigned b, uint8_t *t);

/* `count` points from index `start` on, point after point; the tables are made at the start of each call. */
void baseline_block(const plan_t *p, uint64_t start, size_t count, uint64_t *out);

/* How many of them are inside the window u / q. */
uint64_t baseline_count(const plan_t *p, uint64_t start, uint64_t count, const uint64_t *window);

/* The numbers 0, 1, .. into the first words of `count` rows of `width` words: the column that a day set has before those of the plan. */
void baseline_column(size_t count, size_t width, uint64_t *out);

/* A plan with what a jump wants made beforehand: the images of the digits, the reciprocal of each base and the axis's denominator. */
typedef struct {
    plan_t plan;
    uint64_t denominator[6];
    uint64_t reciprocal[6];
    uint8_t image[6][256];
} jumper_t;
void baseline_prepare(const plan_t *p, jumper_t *j);
/* The numerator of an index in base b, by the reciprocal of b and the axis's denominator, made beforehand; each digit's image by the rule. */
uint64_t baseline_axis_jump(int family, unsigned b, uint64_t reciprocal, uint64_t denominator, uint64_t index);
void baseline_jump(const jumper_t *j, uint64_t index, uint64_t *out);
#endif
