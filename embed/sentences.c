/* Prints the version and the sentence for every number of a status, a verdict and a refusal, and for the first beyond them. */
#include "buzorinde.h"
#include <stdio.h>

static void print_all(const char *name, const char *(*text)(uint32_t), uint32_t beyond) {
    for (uint32_t number = 0; number <= beyond; number++)
        printf("%s %u: %s\n", name, number, text(number));
}

int main(void) {
    printf("version %d.%d.%d\n", BUZORINDE_VERSION_MAJOR, BUZORINDE_VERSION_MINOR, BUZORINDE_VERSION_PATCH);
    print_all("status", buzorinde_status_text, BUZORINDE_MEMORY_TOO_SHORT + 1);
    print_all("verdict", buzorinde_verdict_text, BUZORINDE_NO_ROOM + 1);
    print_all("check", buzorinde_check_text, BUZORINDE_FAIL + 1);
    print_all("refusal", buzorinde_refusal_text, BUZORINDE_REFUSED_TABLE + 1);
}
