/* Reads recipes' texts and runs them with v0 = 7 and v1 = 9. Where a text is refused, the faulty word is underlined, as in an editor;
 * where a run is stopped, the variables that its output should not have read are named. */
#include "buzorinde.h"
#include <stdio.h>
#include <string.h>

enum { TABLE_WORDS = BUZORINDE_MOST_ROWS * BUZORINDE_ROW_WORDS };

/* Prints the line where a part of the text stands, and below it a ^ for each byte of the part, or one where the part is empty. */
static void underline(const char *text, uint32_t start, uint32_t size) {
    uint32_t line = start;
    while (line > 0 && text[line - 1] != '\n')
        line--;
    printf("%.*s\n%*s", (int)strcspn(text + line, "\n"), text + line, (int)(start - line), "");
    for (uint32_t i = 0; i == 0 || i < size; i++)
        putchar('^');
    putchar('\n');
}

/* Prints what a stopped run was stopped because of: the variables that its output reads, or else the tests around the output. */
static void print_because(uint32_t because) {
    printf("because of");
    if (because == 0)
        printf(" the tests around the output");
    for (uint32_t variable = 0; variable < BUZORINDE_VARIABLES; variable++)
        if (because >> variable & 1)
            printf(" v%u", variable);
    putchar('\n');
}

static void read_and_run(const char *text) {
    uint32_t table[TABLE_WORDS], memory[BUZORINDE_VARIABLES] = {7, 9}, trace[4], read[BUZORINDE_READ_WORDS], ran[BUZORINDE_RUN_WORDS];
    buzorinde_read((const uint8_t *)text, strlen(text), table, TABLE_WORDS, read, BUZORINDE_READ_WORDS);
    if (read[BUZORINDE_REFUSAL] != 0) {
        underline(text, read[BUZORINDE_READ_START], read[BUZORINDE_READ_SIZE]);
        printf("refused %u at row %u: %s\n", read[BUZORINDE_REFUSAL], read[BUZORINDE_ROW], buzorinde_refusal_text(read[BUZORINDE_REFUSAL]));
        return;
    }
    printf("%u rows, marks %u\n", read[BUZORINDE_READ_ROWS], read[BUZORINDE_READ_MARKS]);
    buzorinde_run(table, read[BUZORINDE_READ_ROWS] * BUZORINDE_ROW_WORDS, memory, BUZORINDE_VARIABLES, read[BUZORINDE_READ_MARKS], 100,
                  trace, 4, ran, BUZORINDE_RUN_WORDS);
    printf("%s\n", buzorinde_verdict_text(ran[BUZORINDE_VERDICT]));
    if (ran[BUZORINDE_VERDICT] == BUZORINDE_STOPPED)
        print_because(ran[BUZORINDE_BECAUSE]);
    for (uint32_t i = 0; i < ran[BUZORINDE_RECORDS]; i++)
        printf("out=%u,%u\n", trace[2 * i], trace[2 * i + 1]);
}

int main(void) {
    read_and_run("in v0; in v1 provisional;\nsettled v0;\nprovisional v1");
    read_and_run("in v0 provisional;\nset v2 = (v0 + 1);\nsettled (v2 - (v1 * v0))");
    read_and_run("in v0 provisional;\nif v0 then settled 1 else settled 0 end");
    read_and_run("in v0 provisional;\nset v1 = v0 + 1;\nsettled v1");
    read_and_run("in v0; in v1; in v0 provisional; skip");
    read_and_run("if v0 then\n  skip\nelse\n  skip");
    read_and_run("while 0 do while 0 do while 0 do while 0 do skip end end end end");
}
