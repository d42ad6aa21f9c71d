/* Nuggetvale for C: folding access decisions into few rules, and judging, listing, reading back and deciding them.
 *
 * A dossier is a run of eight-byte element records: the depth's low byte, set decision (0 deny, 1 permit), mark (0 n,
 * 1 -, 2 +, 3 ±), the depth's high byte, and a key of four bytes, the lowest first. A rule list is a run of eight-byte
 * rule records: target position in two bytes, the lower first, effect (0 deny, 1 permit), reach (0 self, 1 all), and the
 * target's key. A dossier has 1 to 4,096 elements and depths 0 to 1,023; a rule list has 0 to 8,192 rules. A dossier
 * that was accepted when depths went to 63 has zero in the high bytes, and gets the same replies as then.
 *
 * No call asks its caller to check anything first: every sequence of bytes gets a definite reply.
 *
 * A reply with bit 63 set is a refusal: 2^63 + number * 2^40 + list * 2^32 + position. The number is one of the table
 * in docs/REFUSALS.md, the list is 0 for the elements, 1 for the first rule list and 2 for the second. A refusal
 * changes no byte of any lent area. An area that is lent to be written to overlaps no other area of the same call; a
 * pointer may be any where its length is 0.
 */
#ifndef NUGGETVALE_H
#define NUGGETVALE_H

#include <stddef.h>
#include <stdint.h>

#ifdef __cplusplus
extern "C" {
#endif

/* How many bytes of the stack a call needs at most: folding and judging go down level by level, and the others don't. */
#define NV_STACK 163840
#define NV_STACK_SMALL 8192

#define NV_REFUSED(reply) ((reply) >> 63 != 0)
#define NV_NUMBER(reply) ((unsigned)((reply) >> 40 & 255))
#define NV_LIST(reply) ((unsigned)((reply) >> 32 & 255))
#define NV_POSITION(reply) ((unsigned)((reply) & 4294967295u))

/* The walk that a gateway keeps: what each depth hands down (0 deny, 1 permit, 2 none), the depth of the last accepted
 * record, and how many were accepted. */
typedef struct nv_walk {
    uint8_t handed[1024];
    size_t depth;
    size_t taken;
} nv_walk;

/* How many elements the dossier has. Refusals 1 to 6. */
uint64_t nv_read(const uint8_t *dossier, size_t dossier_len);

/* Writes the rules of the dossier's marks to the front of out; replies how many. The rest of out is unchanged.
 * Refusals 1 to 6, then 8. At most 65,536 bytes are written. */
uint64_t nv_list(const uint8_t *dossier, size_t dossier_len, uint8_t *out, size_t out_len);

/* Writes into the mark bytes the marks that give these rules; replies how many elements there are.
 * Refusals 1 to 6, then 2, 3 and 7 for list 1, then 9. */
uint64_t nv_read_back(uint8_t *dossier, size_t dossier_len, const uint8_t *rules, size_t rules_len);

/* Decides one element over the house list followed by the recipient's: 0 deny, 1 permit, 2 none. The combining is
 * 0 first applicable, 1 deny overrides, 2 permit overrides. Refusals 1 to 6, then those of the lists, 11, 10. */
uint64_t nv_decide(const uint8_t *dossier, size_t dossier_len, const uint8_t *house, size_t house_len,
                   const uint8_t *recipient, size_t recipient_len, size_t combining, size_t element);

/* The deciding rule of the same question: replies 8 and writes the rule's eight bytes, or replies 0 and leaves out as
 * it was, where the answer is none or nv_decide refuses. It never refuses itself. */
uint64_t nv_deciding(const uint8_t *dossier, size_t dossier_len, const uint8_t *house, size_t house_len,
                     const uint8_t *recipient, size_t recipient_len, size_t combining, size_t element,
                     uint8_t out[8]);

/* Makes the walk a fresh one. */
void nv_walk_fresh(nv_walk *walk);

/* Gives the walk one record: 0 deny, 1 permit, 2 none. Refusals 17, 2, 3, 5, 4, 6; a refused step leaves the walk as
 * it was. */
uint64_t nv_walk_step(nv_walk *walk, const uint8_t *record, size_t record_len);

/* Writes the least marks into the mark bytes; replies how many rules they list. Refusals 1 to 6. */
uint64_t nv_fold(uint8_t *dossier, size_t dossier_len);

/* The same for a recipient that combines by this number, 0 first applicable, 1 deny overrides, 2 permit overrides: the
 * least marks whose rules then give each element its set decision. Refusals 1 to 6, then 11. */
uint64_t nv_fold_for(uint8_t *dossier, size_t dossier_len, size_t combining);

/* Judges the dossier's marks: count + number * 2^16 + verdict * 2^32 + answer * 2^34, where the verdict is 0 least,
 * 1 longer by number, or 2 wrong at element number, which the walk gives that answer (0 but for a wrong one).
 * Refusals 1 to 6. */
uint64_t nv_judge(const uint8_t *dossier, size_t dossier_len);

/* The same for a recipient that combines by this number: least, longer and wrong are as for nv_fold_for, and the answer
 * at a wrong element is that of the rules of the marks. Refusals 1 to 6, then 11. */
uint64_t nv_judge_for(const uint8_t *dossier, size_t dossier_len, size_t combining);

/* Writes the records of the elements that are permitted and have only permitted elements above them to the front of
 * out; replies how many. Permitted are those that the walk over the dossier's marks answers with permit. What is written
 * is a sound dossier, or nothing: a root that isn't permitted shows nothing. The rest of out is unchanged. Refusals 1 to
 * 6, then 8. */
uint64_t nv_view(const uint8_t *dossier, size_t dossier_len, uint8_t *out, size_t out_len);

#ifdef __cplusplus
}
#endif

#endif
