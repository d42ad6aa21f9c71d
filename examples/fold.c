/* Calls the library from C: folds a dossier from standard input, lists its rules, and judges the marks that it wrote.
 *
 *     (cd crates/capi && rt lib)
 *     cc -Iinclude examples/fold.c crates/capi/out/libcapi.a -o fold-in-c
 *     ./fold-in-c < examples/hillside.dossier
 */
#include <nuggetvale.h>
#include <stdio.h>

static uint8_t dossier[32769], rules[32768];

static int refused(uint64_t reply)
{
    printf("refused %u %u %u\n", NV_NUMBER(reply), NV_LIST(reply), NV_POSITION(reply));
    return 1;
}

int main(void)
{
    size_t size = fread(dossier, 1, sizeof dossier, stdin);

    uint64_t count = nv_fold(dossier, size);
    if (NV_REFUSED(count))
        return refused(count);

    /* least marks list at most one rule for each element, so this area is never too short */
    uint64_t listed = nv_list(dossier, size, rules, sizeof rules);
    if (NV_REFUSED(listed))
        return refused(listed);

    printf("rules %u\n", (unsigned)listed);
    for (size_t i = 0; i < listed; i++) {
        const uint8_t *rule = rules + i * 8;
        printf("%u %s %s\n", rule[0] + 256u * rule[1], rule[2] ? "permit" : "deny", rule[3] ? "all" : "self");
    }

    uint64_t verdict = nv_judge(dossier, size) >> 32 & 3;
    printf("the judge says %s\n", verdict == 0 ? "least" : verdict == 1 ? "longer" : "wrong");
    return 0;
}
