/* Runs the whole case of docs/RULES.md (12.13): v0 is settled and v1 provisional, and each goes out on its own channel. */
#include "buzorinde.h"
#include <stdio.h>

int main(void) {
    const uint32_t table[] = {9, 0, 0, 0, 5, 0, 0, 0, 9, 1, 0, 0, 5, 1, 2, 0, 2, 1, 3, 0};
    uint32_t memory[BUZORINDE_VARIABLES] = {7, 9}, trace[4] = {0}, answer[BUZORINDE_RUN_WORDS] = {0};
    uint32_t status = buzorinde_run(table, 20, memory, BUZORINDE_VARIABLES, 2, 10, trace, 4, answer, BUZORINDE_RUN_WORDS);
    printf("status=%u refusal=%u verdict=%u row=%u\n", status, answer[BUZORINDE_REFUSAL], answer[BUZORINDE_VERDICT], answer[BUZORINDE_ROW]);
    printf("steps=%u records=%u marks=%u because=%u\n", answer[BUZORINDE_STEPS], answer[BUZORINDE_RECORDS], answer[BUZORINDE_MARKS],
           answer[BUZORINDE_BECAUSE]);
    for (uint32_t i = 0; i < answer[BUZORINDE_RECORDS]; i++)
        printf("out=%u,%u\n", trace[2 * i], trace[2 * i + 1]);
    status = buzorinde_judge(table, 19, answer, BUZORINDE_JUDGE_WORDS);
    printf("status=%u refusal=%u row=%u\n", status, answer[BUZORINDE_REFUSAL], answer[BUZORINDE_ROW]);
    status = buzorinde_check(table, 20, 3, answer, BUZORINDE_CHECK_WORDS);
    printf("status=%u verdict=%u row=%u marks=%u\n", status, answer[BUZORINDE_VERDICT], answer[BUZORINDE_ROW], answer[BUZORINDE_CHECK_MARKS]);
    printf("status=%u\n", buzorinde_judge(table, 20, answer, 2));
    printf("status=%u\n", buzorinde_run(table, 20, memory, 31, 2, 10, trace, 4, answer, BUZORINDE_RUN_WORDS));
    printf("status=%u\n", buzorinde_run(table, 20, memory, 31, 2, 10, trace, 4, answer, 6));
}
