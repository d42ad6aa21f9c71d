/* The same functions as include/nuggetvale.h, the same algorithms, written by hand in plain C. */
#include <nuggetvale.h>

uint64_t base_read(const uint8_t *d, size_t len);
uint64_t base_list(const uint8_t *d, size_t len, uint8_t *out, size_t out_len);
uint64_t base_read_back(uint8_t *d, size_t len, const uint8_t *rules, size_t rules_len);
uint64_t base_decide(const uint8_t *d, size_t len, const uint8_t *house, size_t house_len, const uint8_t *recipient,
                     size_t recipient_len, size_t combining, size_t element);
/* the same by the test that reads every record between a target and the element, as before request M-101 */
uint64_t base_decide_reading_all(const uint8_t *d, size_t len, const uint8_t *house, size_t house_len,
                                 const uint8_t *recipient, size_t recipient_len, size_t combining, size_t element);
void base_walk_fresh(nv_walk *walk);
uint64_t base_walk_step(nv_walk *walk, const uint8_t *record, size_t record_len);
/* the same with the first 64 places alone, as before request M-103 */
void base_walk_fresh_64(nv_walk *walk);
uint64_t base_walk_step_64(nv_walk *walk, const uint8_t *record, size_t record_len);
uint64_t base_fold(uint8_t *d, size_t len);
uint64_t base_fold_for(uint8_t *d, size_t len, size_t combining);
uint64_t base_judge(const uint8_t *d, size_t len);
uint64_t base_judge_for(const uint8_t *d, size_t len, size_t combining);
uint64_t base_view(const uint8_t *d, size_t len, uint8_t *out, size_t out_len);
