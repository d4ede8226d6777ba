// Runs B and I of docs/RULES.md, the whole case with a trace of an odd number of words, and B from its text, from C++.
#include "buzorinde.h"
#include <array>
#include <iostream>
#include <string>
#include <vector>

static_assert(BUZORINDE_VERSION == 400, "this program is for version 0.4.0");

using Answer = std::array<uint32_t, BUZORINDE_RUN_WORDS>;

// Runs a table with v0 = 7 and v1 = 9 within 100 steps, and prints how it ended and the trace that it leaves.
static void run_and_print(const std::vector<uint32_t> &table, uint32_t marks, std::vector<uint32_t> trace) {
    std::array<uint32_t, BUZORINDE_VARIABLES> memory = {{7, 9}};
    Answer answer = Answer();
    uint32_t status = buzorinde_run(table.data(), table.size(), memory.data(), memory.size(), marks, 100, trace.data(),
                                    trace.size(), answer.data(), answer.size());
    std::cout << buzorinde_status_text(status) << '\n';
    if (answer[BUZORINDE_REFUSAL] != 0)
        std::cout << buzorinde_refusal_text(answer[BUZORINDE_REFUSAL]);
    else
        std::cout << buzorinde_verdict_text(answer[BUZORINDE_VERDICT]);
    std::cout << ": row " << answer[BUZORINDE_ROW] << ", because " << answer[BUZORINDE_BECAUSE] << ", steps "
              << answer[BUZORINDE_STEPS] << ", records " << answer[BUZORINDE_RECORDS] << "\ntrace";
    for (uint32_t word : trace)
        std::cout << ' ' << word;
    std::cout << '\n';
}

// A table, and the marks to start with.
struct Recipe {
    std::vector<uint32_t> table;
    uint32_t marks;
};

// Reads a recipe's text. Where it is refused, prints why and the faulty word; there are no rows then.
static Recipe read_text(const std::string &text) {
    std::vector<uint32_t> table(BUZORINDE_MOST_ROWS * BUZORINDE_ROW_WORDS);
    std::array<uint32_t, BUZORINDE_READ_WORDS> answer = {{0}};
    buzorinde_read(reinterpret_cast<const uint8_t *>(text.data()), text.size(), table.data(), table.size(), answer.data(),
                   answer.size());
    if (answer[BUZORINDE_REFUSAL] != 0)
        std::cout << buzorinde_refusal_text(answer[BUZORINDE_REFUSAL]) << ": "
                  << text.substr(answer[BUZORINDE_READ_START], answer[BUZORINDE_READ_SIZE]) << '\n';
    table.resize(answer[BUZORINDE_READ_ROWS] * BUZORINDE_ROW_WORDS);
    return {table, answer[BUZORINDE_READ_MARKS]};
}

int main() {
    const std::vector<uint32_t> b = {
        BUZORINDE_VARIABLE, 0, 0, 0,
        BUZORINDE_VARIABLE, 0, 0, 0,
        BUZORINDE_BINARY, BUZORINDE_DIFFERENCE, 0, 1,
        BUZORINDE_OUTPUT, BUZORINDE_SETTLED, 2, 0};
    const std::vector<uint32_t> i = {
        BUZORINDE_CONSTANT, 5, 0, 0,
        BUZORINDE_OUTPUT, BUZORINDE_SETTLED, 0, 0};
    const std::vector<uint32_t> whole = {
        BUZORINDE_VARIABLE, 0, 0, 0,
        BUZORINDE_OUTPUT, BUZORINDE_SETTLED, 0, 0,
        BUZORINDE_VARIABLE, 1, 0, 0,
        BUZORINDE_OUTPUT, BUZORINDE_PROVISIONAL, 2, 0,
        BUZORINDE_SEQUENCE, 1, 3, 0};
    run_and_print(b, 1, {3, 3});
    run_and_print(i, 1, {3});
    run_and_print(whole, 2, {3, 3, 3, 3, 3});
    run_and_print(whole, 2, {3, 3, 3});
    const Recipe typed = read_text("in v0 provisional; settled (v0 - v0)");
    run_and_print(typed.table, typed.marks, {3, 3});
    read_text("in v0 provisional; settled v0 - v0");
}
