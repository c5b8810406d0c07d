// A driver in C++: driver FORMULA STEPS loads the formula, runs the steps, prints the verdict's line, then each clause and each variable, then the formula as
// tidy text.
#include "../include/kefthrun.h"

#include <cstdio>
#include <fstream>
#include <iterator>
#include <string>
#include <vector>

// A file that cannot be read counts as empty.
static std::vector<uint8_t> bytes_of(const char *path) {
    std::ifstream file(path, std::ios::binary);
    return std::vector<uint8_t>((std::istreambuf_iterator<char>(file)), std::istreambuf_iterator<char>());
}

int main(int argc, char **argv) {
    if (argc != 3) {
        std::fprintf(stderr, "usage: driver FORMULA STEPS\n");
        return 2;
    }
    const std::vector<uint8_t> text = bytes_of(argv[1]);
    const std::vector<uint8_t> records = bytes_of(argv[2]);
    kefthrun::Checker checker;

    const kefthrun::Result loaded = checker.load(text.data(), text.size());
    if (loaded.tag != KEFTHRUN_LOAD_ACCEPTED) {
        std::printf("formula %u %u\n", loaded.first, loaded.second);
        return 0;
    }
    const kefthrun::Result ran = checker.run(records.data(), records.size());
    if (ran.tag == KEFTHRUN_RUN_REFUTED) std::printf("refuted %u %u\n", ran.first, ran.second);
    if (ran.tag == KEFTHRUN_RUN_OPEN) std::printf("open %u\n", ran.first);
    if (ran.tag == KEFTHRUN_RUN_BAD) {
        std::printf("bad %u %u", ran.first, ran.second);
        if (ran.second == KEFTHRUN_COMPLEMENTARY_IN_RESOLVENT) std::printf(" %u", ran.third);
        std::printf("\n");
    }

    for (uint32_t c = 1; checker.clause(c).tag == KEFTHRUN_ANSWERED; c++) {
        std::printf("clause %u:", c);
        for (int literal : checker.literals(c)) std::printf(" %d", literal);
        std::printf("\n");
    }
    for (uint32_t v = 1;; v++) {
        const kefthrun::Result variable = checker.variable(v);
        if (variable.tag != KEFTHRUN_ANSWERED) break;
        std::printf("variable %u: kind %u, universals %u\n", v, variable.first, variable.second);
    }
    const std::string tidy = checker.text();
    std::printf("text, %zu bytes:\n%s", tidy.size(), tidy.c_str());
    return 0;
}
