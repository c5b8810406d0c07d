// The class never hands on a null pointer: it is driven over functions that are defined here, which tell whether they got one.
#include "../include/kefthrun.h"

#include <cstdio>
#include <cstdlib>
#include <initializer_list>
#include <vector>

static int failures = 0;
static unsigned calls = 0;
static size_t given = 0; // the length or the number of the last call
static bool got_null = false;

static void expect(const char *what, bool holds) {
    if (holds) return;
    std::printf("FAILED: %s\n", what);
    failures++;
}

static uint64_t seen(size_t number, std::initializer_list<const uint8_t *> pointers) {
    calls++;
    given = number;
    for (const uint8_t *pointer : pointers) got_null = got_null || pointer == nullptr;
    return 1;
}

uint32_t kefthrun_interface(void) { return KEFTHRUN_INTERFACE; }

uint64_t kefthrun_load(const uint8_t *text, size_t text_length, uint8_t *literals, size_t, uint8_t *ends, size_t, uint8_t *sets, size_t, uint8_t *kinds,
                       size_t, uint8_t *state, size_t) {
    return seen(text_length, {text, literals, ends, sets, kinds, state});
}

uint64_t kefthrun_run(const uint8_t *records, size_t records_length, uint8_t *literals, size_t, uint8_t *ends, size_t, uint8_t *sets, size_t,
                      uint8_t *kinds, size_t, uint8_t *state, size_t) {
    return seen(records_length, {records, literals, ends, sets, kinds, state});
}

uint64_t kefthrun_show(const uint8_t *literals, size_t, const uint8_t *ends, size_t, const uint8_t *sets, size_t, const uint8_t *kinds, size_t,
                       const uint8_t *state, size_t, uint32_t number) {
    return seen(number, {literals, ends, sets, kinds, state});
}

uint64_t kefthrun_clause(const uint8_t *literals, size_t, const uint8_t *ends, size_t, const uint8_t *sets, size_t, const uint8_t *kinds, size_t,
                         const uint8_t *state, size_t, uint32_t number) {
    return seen(number, {literals, ends, sets, kinds, state});
}

uint64_t kefthrun_variable(const uint8_t *literals, size_t, const uint8_t *ends, size_t, const uint8_t *sets, size_t, const uint8_t *kinds, size_t,
                           const uint8_t *state, size_t, uint32_t number) {
    return seen(number, {literals, ends, sets, kinds, state});
}

uint64_t kefthrun_write(uint8_t *out, size_t out_length, const uint8_t *literals, size_t, const uint8_t *ends, size_t, const uint8_t *sets, size_t,
                        const uint8_t *kinds, size_t, const uint8_t *state, size_t) {
    return seen(out_length, {out, literals, ends, sets, kinds, state});
}

// A call hands on its length or its number, once, and no null pointer.
template <class Call> static void hands_on(const char *what, size_t number, Call call) {
    calls = 0;
    given = number + 1;
    got_null = false;
    call();
    expect(what, calls == 1 && given == number && !got_null);
}

// A call throws and hands nothing on.
template <class Call> static void throws(const char *what, Call call) {
    calls = 0;
    bool thrown = false;
    try {
        call();
    } catch (const std::invalid_argument &) {
        thrown = true;
    }
    expect(what, thrown && calls == 0);
}

int main() {
    kefthrun::Checker checker;
    const std::vector<uint8_t> none, some(16, 2);
    hands_on("a load of an empty vector", 0, [&] { checker.load(none.data(), none.size()); });
    hands_on("a load of no bytes", 0, [&] { checker.load(nullptr, 0); });
    hands_on("a load", 16, [&] { checker.load(some.data(), some.size()); });
    hands_on("a run of an empty vector", 0, [&] { checker.run(none.data(), none.size()); });
    hands_on("a run of no bytes", 0, [&] { checker.run(nullptr, 0); });
    hands_on("a run", 16, [&] { checker.run(some.data(), some.size()); });
    hands_on("a question about a clause", 3, [&] { checker.clause(3); });
    hands_on("a question about a variable", 4, [&] { checker.variable(4); });
    hands_on("a shown clause", 5, [&] { checker.show(5); });
    hands_on("a copied clause", 6, [&] { checker.literals(6); });
    std::vector<uint8_t> empty, output(16);
    hands_on("a write over an empty vector", 0, [&] { checker.write(empty.data(), empty.size()); });
    hands_on("a write over no bytes", 0, [&] { checker.write(nullptr, 0); });
    hands_on("a write", 16, [&] { checker.write(output.data(), output.size()); });
    hands_on("a text", KEFTHRUN_TIDY_BYTES, [&] { checker.text(); });
    throws("a load of a null pointer with a length", [&] { checker.load(nullptr, 1); });
    throws("a run of a null pointer with a length", [&] { checker.run(nullptr, 16); });
    throws("a write over a null pointer with a length", [&] { checker.write(nullptr, 16); });
    if (failures == 0) std::printf("no null pointer is handed on: passed\n");
    return failures == 0 ? EXIT_SUCCESS : EXIT_FAILURE;
}
