/* Multilinear polynomials over the integers modulo 2013265921 and their extension of degree four.
 *
 * Words. An element of the base field is one uint32_t, its least residue. An element of the
 * extension is four: the coefficients of 1, X, X^2 and X^3, where X^4 is 11. A table of n
 * variables is the words of its 2^n elements, where variable 0 reads the highest bit of an index; a
 * point is the words of its coordinates. Each operand is a pointer and the number of its words.
 *
 * Status. Each call tests the size of each operand (MLU_LENGTH), then whether the sizes fit one
 * another (MLU_ARITY), then the words that it reads (MLU_RESIDUE); then it asks malloc for memory
 * (MLU_MEMORY). It writes at the end alone: wherever the status is not MLU_DONE, each output is as
 * before. A call may be made with any sizes and any words.
 *
 * What a caller owes. A pointer is aligned and has so many words behind it, which nothing else
 * writes during the call, and which are initialized but where an output is only written; an output
 * overlaps no other operand. With no words the pointer is not read, and may be any. A call may be
 * made from any thread, but from no signal handler.
 *
 * Points, those of a batch too, scales, scalars, challenges, claims, rounds and every output are of
 * the extension.
 */
#ifndef MLU_H
#define MLU_H

#include <stdbool.h>
#include <stddef.h>
#include <stdint.h>

#ifdef __cplusplus
extern "C" {
#endif

/* The modulus: a word that is read is below it. */
#define MLU_MODULUS UINT32_C(2013265921)

/* The call was done. */
#define MLU_DONE 0u
/* An operand has a number of words that it cannot have. */
#define MLU_LENGTH 1u
/* The sizes of the operands do not fit one another, or there is no variable to fold. */
#define MLU_ARITY 2u
/* A word that is read is the modulus or more. */
#define MLU_RESIDUE 3u
/* Memory was refused. */
#define MLU_MEMORY 4u
/* The rounds do not fit the claim (mlu_sumcheck_verify alone). */
#define MLU_REFUSED 5u

/* The value of a table over the base field at a point of the extension: 4 words. The table has as
 * many variables as the point has coordinates. */
uint32_t mlu_eval_base(const uint32_t *table, size_t table_len,
                       const uint32_t *point, size_t point_len,
                       uint32_t *out, size_t out_len);

/* The same of a table over the extension. */
uint32_t mlu_eval_ext(const uint32_t *table, size_t table_len,
                      const uint32_t *point, size_t point_len,
                      uint32_t *out, size_t out_len);

/* The sum over all vertices of the weight at a point of the extension times the value at the next
 * vertex, of a table over the base field: the weight of x times value x + 1, and the last weight
 * times the last value. */
uint32_t mlu_eval_next_base(const uint32_t *table, size_t table_len,
                            const uint32_t *point, size_t point_len,
                            uint32_t *out, size_t out_len);

/* The weights of all vertices at a point of the extension, each times a scale of it: 2^k elements of
 * the extension, where the point has k coordinates. Coordinate 0 reads the highest bit of an index. */
uint32_t mlu_equality_weights_msb(const uint32_t *point, size_t point_len,
                                  const uint32_t *scale, size_t scale_len,
                                  uint32_t *out, size_t out_len);

/* The same, where coordinate 0 reads the lowest bit of an index. */
uint32_t mlu_equality_weights_lsb(const uint32_t *point, size_t point_len,
                                  const uint32_t *scale, size_t scale_len,
                                  uint32_t *out, size_t out_len);

/* The sum of the equality tables of points, each times its scalar, written to out, or added to it
 * where `adds`. The values stand row after row: coordinate 0 of each point, then coordinate 1 of
 * each, and so on; coordinate 0 reads the highest bit of an index, and there is a scalar for each
 * point. out has 2^n elements, 4 * 2^n words, where the points have n coordinates. With no points
 * there are no values, and out may be any table. */
uint32_t mlu_eval_eq_batch(bool adds,
                           const uint32_t *values, size_t values_len,
                           const uint32_t *scalars, size_t scalars_len,
                           uint32_t *out, size_t out_len);

/* A table over the extension with its first variable at r, 4 words: element i is low[i] + r *
 * (high[i] - low[i]), where low and high are the halves. It stands in the first half of the words;
 * the second half is as before. The table has a variable, else MLU_ARITY. */
uint32_t mlu_fix_prefix_var_mut(uint32_t *table, size_t table_len,
                                const uint32_t *r, size_t r_len);

/* The same of its last variable: element i is e[2i] + r * (e[2i + 1] - e[2i]). */
uint32_t mlu_fix_suffix_var_mut(uint32_t *table, size_t table_len,
                                const uint32_t *r, size_t r_len);

/* A table over the base field with its first k variables at a point of k coordinates, times a
 * scale: a table over the extension with the other n - k variables, 4 * 2^(n - k) words. */
uint32_t mlu_compress_prefix(const uint32_t *table, size_t table_len,
                             const uint32_t *point, size_t point_len,
                             const uint32_t *scale, size_t scale_len,
                             uint32_t *out, size_t out_len);

/* The same of its last k variables. */
uint32_t mlu_compress_suffix(const uint32_t *table, size_t table_len,
                             const uint32_t *point, size_t point_len,
                             const uint32_t *scale, size_t scale_len,
                             uint32_t *out, size_t out_len);

/* Sumcheck over a table of the extension in n variables and the weights of a point, at n challenges:
 * n rounds of three coefficients, 12 n words, and n + 1 claims, 4 n + 4 words. The first claim is
 * the sum of each value times its weight, the last the product of both tables' values at the
 * challenges. */
uint32_t mlu_sumcheck_run(const uint32_t *table, size_t table_len,
                          const uint32_t *point, size_t point_len,
                          const uint32_t *challenges, size_t challenges_len,
                          uint32_t *rounds, size_t rounds_len,
                          uint32_t *claims, size_t claims_len);

/* The last claim, 4 words, where the rounds, 12 words each, fit the first one at as many challenges:
 * each round adds up to the claim before it, and its value at its challenge is the next. MLU_REFUSED
 * where they do not. This alone accepts no proof: the caller tests that the last claim is the
 * product of the values of the weights and of the table at the challenges, and draws each challenge
 * after its round. */
uint32_t mlu_sumcheck_verify(const uint32_t *claim, size_t claim_len,
                             const uint32_t *rounds, size_t rounds_len,
                             const uint32_t *challenges, size_t challenges_len,
                             uint32_t *out, size_t out_len);

#ifdef __cplusplus
}
#endif

#endif
