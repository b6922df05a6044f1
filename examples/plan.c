/* Plans the record on standard input, as the program `plan` does:
 *
 *     (cd crates/depot_c && rt lib)
 *     mkdir -p target/staticlib && cp crates/depot_c/out/libdepot_c.a target/staticlib/libdepot.a
 *     cc -O2 -Iinclude -o target/plan_c examples/plan.c target/staticlib/libdepot.a
 *     target/plan_c < examples/fetch.record
 */
#include "depot.h"
#include <stdio.h>

static uint8_t record[19532], plan[8192];
static uint64_t table[4096], answer[4];

int main(void) {
    size_t length = fread(record, 1, sizeof record, stdin);
    uint32_t nodes = 1;
    while (nodes < 4096 && depot_table_words(record, length, nodes + 1) != 0 && depot_table_words(record, length, nodes + 1) <= 4096)
        nodes++;
    uint32_t number = depot_plan(record, length, nodes, 4096, plan, sizeof plan, table, 4096, answer, 4);
    if (number == DEPOT_PLAN) {
        printf("plan %llu cost %llu expanded %llu kept %llu\n", (unsigned long long)answer[0], (unsigned long long)answer[1],
               (unsigned long long)answer[2], (unsigned long long)answer[3]);
        for (uint64_t k = 0; k < answer[0]; k++)
            printf("%u\n", plan[k]);
    } else if (number == DEPOT_UNSOLVABLE) {
        printf("unsolvable expanded %llu kept %llu\n", (unsigned long long)answer[2], (unsigned long long)answer[3]);
    } else {
        printf("refused %u expanded %llu kept %llu\n", number, (unsigned long long)answer[2], (unsigned long long)answer[3]);
    }
    return 0;
}
