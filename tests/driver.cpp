// The exported calls over buffers with guard bytes around them, lent whole, short and long.
#include "../include/kefthrun.h"

#include <cstddef>
#include <cstdio>
#include <cstdlib>
#include <string>
#include <vector>

static int failures = 0;

static void expect(const char *what, bool holds) {
    if (holds) return;
    std::printf("FAILED: %s\n", what);
    failures++;
}

// Bytes in the middle of a larger block, so that a write outside them is seen.
class Guarded {
public:
    explicit Guarded(size_t length) : length_(length), block_(length + 2 * margin, mark) {
        for (size_t i = 0; i < length; i++) data()[i] = static_cast<uint8_t>(7 * i + 3);
    }
    uint8_t *data() { return block_.data() + margin; }
    size_t size() const { return length_; }
    bool guards_stand() const {
        for (size_t i = 0; i < margin; i++)
            if (block_[i] != mark || block_[margin + length_ + i] != mark) return false;
        return true;
    }
    std::vector<uint8_t> bytes() { return std::vector<uint8_t>(data(), data() + length_); }
    // whether the bytes from a place on are those of a new buffer
    bool fresh_from(size_t place) {
        Guarded other(length_);
        for (size_t i = place; i < length_; i++)
            if (data()[i] != other.data()[i]) return false;
        return true;
    }

private:
    static constexpr size_t margin = 64;
    static constexpr uint8_t mark = 0xa5;
    size_t length_;
    std::vector<uint8_t> block_;
};

static const size_t sizes[5] = {KEFTHRUN_LITERAL_BYTES, KEFTHRUN_END_BYTES, KEFTHRUN_SET_BYTES, KEFTHRUN_KIND_BYTES, KEFTHRUN_STATE_BYTES};

struct Buffers {
    std::vector<Guarded> all;
    explicit Buffers(int which = -1, int more = 0) {
        for (int i = 0; i < 5; i++) all.emplace_back(sizes[i] + (i == which ? more : 0));
    }
    Guarded &operator[](int i) { return all[static_cast<size_t>(i)]; }
    uint64_t load(const std::string &text) {
        return kefthrun_load(reinterpret_cast<const uint8_t *>(text.data()), text.size(), all[0].data(), all[0].size(), all[1].data(), all[1].size(),
                             all[2].data(), all[2].size(), all[3].data(), all[3].size(), all[4].data(), all[4].size());
    }
    uint64_t run(const std::vector<uint8_t> &records) {
        static const uint8_t none = 0;
        const uint8_t *bytes = records.empty() ? &none : records.data(); // an empty vector's pointer may be null
        return kefthrun_run(bytes, records.size(), all[0].data(), all[0].size(), all[1].data(), all[1].size(), all[2].data(), all[2].size(),
                            all[3].data(), all[3].size(), all[4].data(), all[4].size());
    }
    uint64_t ask(uint64_t (*call)(const uint8_t *, size_t, const uint8_t *, size_t, const uint8_t *, size_t, const uint8_t *, size_t, const uint8_t *,
                                  size_t, uint32_t),
                 uint32_t number) {
        return call(all[0].data(), all[0].size(), all[1].data(), all[1].size(), all[2].data(), all[2].size(), all[3].data(), all[3].size(), all[4].data(),
                    all[4].size(), number);
    }
    uint64_t write(Guarded &out) {
        return kefthrun_write(out.data(), out.size(), all[0].data(), all[0].size(), all[1].data(), all[1].size(), all[2].data(), all[2].size(),
                              all[3].data(), all[3].size(), all[4].data(), all[4].size());
    }
    std::vector<std::vector<uint8_t>> bytes() {
        std::vector<std::vector<uint8_t>> copied;
        for (Guarded &g : all) copied.push_back(g.bytes());
        return copied;
    }
    bool guards_stand() {
        for (Guarded &g : all)
            if (!g.guards_stand()) return false;
        return true;
    }
};

static const std::string formula = "p cnf 2 2\na 1 0\nd 2 0\n1 2 0\n-1 -2 0\n";

static std::vector<uint8_t> record(uint8_t kind, uint32_t clause, uint32_t second, uint32_t third) {
    std::vector<uint8_t> bytes = {kind, 0, 0, 0};
    for (uint32_t word : {clause, second, third})
        for (int i = 0; i < 4; i++) bytes.push_back(static_cast<uint8_t>(word >> 8 * i));
    return bytes;
}

static std::vector<uint8_t> listing() {
    std::vector<uint8_t> all;
    for (const std::vector<uint8_t> &r : {record(2, 1, 0, 1), record(2, 2, 0, 0xffffffffu), record(1, 3, 4, 2)}) all.insert(all.end(), r.begin(), r.end());
    return all;
}

// A result; the last field is 0 except for a resolvent with complementary literals.
static uint64_t packed(uint64_t tag, uint64_t a, uint64_t b, uint64_t c = 0) { return tag + (a << 16) + (b << 32) + (c << 48); }

static bool is_text(Guarded &out, const std::string &text) {
    const std::vector<uint8_t> bytes = out.bytes();
    return bytes.size() >= text.size() && std::string(bytes.begin(), bytes.begin() + static_cast<std::ptrdiff_t>(text.size())) == text;
}

// The text over outputs that are just long enough, longer, a byte short and of no byte.
static void written(Buffers &b, const std::string &text) {
    const std::vector<std::vector<uint8_t>> before = b.bytes();
    const uint64_t told = packed(1, text.size() & 0xffff, text.size() >> 16);
    expect("the length of a text", kefthrun_length(told) == text.size());
    for (size_t more : {0u, 1u, 8u, 70000u}) {
        Guarded out(text.size() + more);
        expect("a text", b.write(out) == told && is_text(out, text));
        expect("bytes behind the text stay", out.fresh_from(text.size()) && out.guards_stand());
    }
    for (size_t length : {text.size() - 1, text.size() / 2, size_t{1}, size_t{0}}) {
        Guarded out(length);
        expect("a short output is 30", b.write(out) == packed(2, KEFTHRUN_OUTPUT_TOO_SHORT, 0));
        expect("a short output stays", out.fresh_from(0) && out.guards_stand());
    }
    expect("a write changes nothing else", b.bytes() == before && b.guards_stand());
}

// A write over tables that are refused with a number, whatever the output's length.
static void not_written(Buffers &b, unsigned number) {
    const std::vector<std::vector<uint8_t>> before = b.bytes();
    for (size_t length : {0u, 9u, 200u}) {
        Guarded out(length);
        expect("a refused write", b.write(out) == packed(2, number, 0));
        expect("its output stays", out.fresh_from(0) && out.guards_stand());
    }
    expect("a refused write changes nothing else", b.bytes() == before && b.guards_stand());
}

static std::string numbers(unsigned first, unsigned last) {
    std::string all;
    for (unsigned n = first; n <= last; n++) all += std::to_string(n) + " ";
    return all;
}

// Universals of three digits, which all other variables see: a length above 16 bits.
static void full_sets(Buffers &b, unsigned universals, size_t length) {
    const unsigned others = 512 - universals;
    const std::string members = numbers(others + 1, 512), start = "p cnf 512 0\na " + members + "0\n";
    expect("an e line", b.load(start + "e " + numbers(1, others) + "0\n") == packed(1, 0, 0));
    std::string all = start;
    for (unsigned x = 1; x <= others; x++) all += "d " + std::to_string(x) + " " + members + "0\n";
    expect("the length of full sets", all.size() == length);
    written(b, all);
}

static void texts() {
    Buffers b;
    expect("an untidy text", b.load("c x\np  cnf 5 3\na 4 0\ne 2 0\nd 5 4 4 0\na 3 1 0\n2  -5 2 0\n0\n-4 -2 0\n") == packed(1, 0, 0));
    expect("its e line sees the universal before it", b.ask(kefthrun_variable, 2) == packed(1, 2, 1));
    const std::string tidy = "p cnf 5 3\na 4 3 1 0\nd 2 4 0\nd 5 4 0\n2 -5 0\n0\n-2 -4 0\n";
    written(b, tidy);
    expect("the text is loaded again", b.load(tidy) == packed(1, 0, 0));
    written(b, tidy);
    const std::string forked = "p cnf 4 1\na 1 2 0\nd 4 2 0\n1 4 0\n";
    expect("a text", b.load(forked) == packed(1, 0, 0));
    expect("a fork", b.run(record(3, 1, 1, 2)) == packed(2, 1, 0));
    written(b, forked);
    full_sets(b, 64, 118436);
    full_sets(b, 256, 265124);
    expect("a refused text", b.load(std::string(32769, 'c')) == packed(4, 0, KEFTHRUN_OVER_LIMIT));
    written(b, "p cnf 0 0\n");
    b[3].data()[0] = 9;
    not_written(b, KEFTHRUN_NOT_WELL_FORMED);
}

// The word of a variable's set, from 0 on.
static uint64_t word(Buffers &b, unsigned variable, unsigned word) {
    const uint8_t *bytes = b[2].data() + 32 * (variable - 1) + 8 * word;
    uint64_t bits = 0;
    for (unsigned i = 0; i < 8; i++) bits |= static_cast<uint64_t>(bytes[i]) << 8 * i;
    return bits;
}

// A set of at most one universal, counted from 0; none: 256.
static bool is_single(Buffers &b, unsigned variable, unsigned place) {
    for (unsigned w = 0; w < 4; w++)
        if (word(b, variable, w) != (place / 64 == w ? uint64_t{1} << place % 64 : 0)) return false;
    return true;
}

static const std::string wide_formula = "p cnf 258 2\na " + numbers(1, 256) + "0\nd 257 1 200 0\nd 258 200 256 0\n257 258 0\n200 -258 0\n";

// Sets of four words.
static void wide_sets() {
    static_assert(KEFTHRUN_SET_BYTES == 16384 && KEFTHRUN_TIDY_BYTES == 311296 && KEFTHRUN_INTERFACE == 4, "Note 6");
    Buffers b;
    expect("256 universals", b.load(wide_formula) == packed(1, 0, 0));
    for (unsigned x : {1u, 64u, 65u, 128u, 129u, 192u, 193u, 256u}) expect("a universal's bit", is_single(b, x, x - 1));
    expect("two sets", b.ask(kefthrun_variable, 257) == packed(1, 2, 2) && b.ask(kefthrun_variable, 258) == packed(1, 2, 2));
    expect("{1, 200}", word(b, 257, 0) == 1 && word(b, 257, 1) == 0 && word(b, 257, 2) == 0 && word(b, 257, 3) == 1u << 7);
    expect("no variable 259", is_single(b, 259, 256) && b.ask(kefthrun_variable, 259) == packed(2, 22, 0));
    expect("a fork", b.run(record(3, 1, 1, 2)) == packed(2, 1, 0));
    expect("its set is {200}", is_single(b, 259, 199) && b.ask(kefthrun_variable, 259) == packed(1, 3, 1));
    expect("{200, -259}", b.run(record(1, 4, 2, 258)) == packed(2, 2, 0));
    expect("200 is seen", b.run(record(2, 5, 0, 200)) == packed(3, 1, KEFTHRUN_READ_BY_ANOTHER));
    b[2].data()[32 * 258 + 31] = 128;
    expect("256 is no universal of its set, but may be", b.ask(kefthrun_variable, 259) == packed(1, 3, 2));
    b[2].data()[32 * 259 + 31] = 1;
    not_written(b, KEFTHRUN_NOT_WELL_FORMED);
    for (const char *last : {"257", "300", "301", "99999"})
        expect("257 universals", b.load("p cnf 300 0\na " + numbers(1, 256) + last + " 0\n") == packed(4, 2, KEFTHRUN_OVER_LIMIT));
    expect("256, one of them twice", b.load("p cnf 300 0\na " + numbers(1, 256) + "256 0\n") == packed(4, 2, KEFTHRUN_VARIABLE));
    for (int i = 0; i < 5; i++) expect("leaves zeros", b[i].bytes() == std::vector<uint8_t>(sizes[i], 0));
    expect("guards", b.guards_stand());
}

// Sets buffers of other lengths: of 2,048 words and one to three more, or a set more, and of less.
static void set_lengths() {
    for (int more : {8, 16, 24, 32, 64}) {
        Buffers b(2, more);
        expect("256 universals", b.load(wide_formula) == packed(1, 0, 0) && b.run(record(3, 1, 1, 2)) == packed(2, 1, 0));
        expect("words behind stay", b[2].fresh_from(KEFTHRUN_SET_BYTES));
        expect("a refused text", b.load("p cnf 1\n") == packed(4, 1, 10) && b[2].fresh_from(KEFTHRUN_SET_BYTES));
    }
    for (int less : {1, 8, 32, 16384 - 4096}) {
        Buffers b(2, -less);
        expect("too short", b.load(wide_formula) == packed(4, 0, 1) && b[2].fresh_from(0));
    }
}

// Resolutions of clause 1 and another one on a literal: the lowest variable that the resolvent holds in both signs.
static void clash(Buffers &b, uint32_t pivot, unsigned variable, uint32_t second = 2) {
    const std::vector<std::vector<uint8_t>> before = b.bytes();
    const uint64_t told = b.run(record(1, 1, second, pivot));
    expect("23 with its variable", told == packed(3, 1, KEFTHRUN_COMPLEMENTARY_IN_RESOLVENT, variable));
    expect("the variable is the last field", kefthrun_third(told) == variable);
    expect("a clash changes nothing", b.bytes() == before && b.guards_stand());
}

static void clashes() {
    Buffers b;
    expect("four pairs", b.load("p cnf 512 2\ne 511 1 512 2 0\n512 -2 511 1 0\n-511 2 -1 -512 0\n") == packed(1, 0, 0));
    clash(b, 1, 2);
    clash(b, 0xfffffffeu, 1);
    clash(b, 511, 1);
    clash(b, 512, 1);
    expect("no pivot, no variable", b.run(record(1, 1, 2, 3)) == packed(3, 1, 22));
    expect("a high variable", b.load("p cnf 512 2\na 511 0\ne 512 0\n511 512 0\n-511 -512 0\n") == packed(1, 0, 0));
    clash(b, 511, 512);
    clash(b, 512, 511);
    const std::string pairs = "-31 -40 0\n-31 32 -40 0\n-31 -40 " + numbers(41, 70) + "0\n", none = "-40 " + numbers(32, 33) + "0\n";
    const std::string wide = "p cnf 70 5\ne " + numbers(1, 70) + "0\n" + numbers(1, 31) + "40 0\n" + pairs + none;
    expect("wide clauses", b.load(wide) == packed(1, 0, 0));
    clash(b, 40, 31);    // 32 literals
    clash(b, 40, 31, 3); // 33 literals
    clash(b, 40, 31, 4); // 62 literals
    const std::vector<std::vector<uint8_t>> before = b.bytes();
    expect("33 literals and no pair", b.run(record(1, 1, 5, 40)) == packed(3, 1, KEFTHRUN_TOO_WIDE));
    expect("a wide resolvent changes nothing", b.bytes() == before && b.guards_stand());
    expect("the listing", b.load(formula) == packed(1, 0, 0) && b.run(listing()) == packed(1, 3, 5));
    clash(b, 1, 2);
    clash(b, 2, 1);
    std::vector<uint8_t> two = record(2, 1, 0, 1), wrong = record(1, 1, 2, 2);
    two.insert(two.end(), wrong.begin(), wrong.end());
    expect("a clash at step 2", b.run(two) == packed(3, 2, 23, 1));
    expect("no variable behind it", b.run(record(4, 0, 0, 0)) == packed(3, 1, 20) && b.run({}) == packed(1, 4, 5));
}

static void whole() {
    Buffers b;
    expect("the header's interface", kefthrun_interface() == KEFTHRUN_INTERFACE);
    expect("accepted", b.load(formula) == packed(1, 0, 0));
    expect("open before the steps", b.run({}) == packed(2, 0, 0));
    expect("refuted 3 5", b.run(listing()) == packed(1, 3, 5));
    expect("length of clause 1", b.ask(kefthrun_clause, 1) == packed(1, 2, 0));
    expect("length of the empty clause", b.ask(kefthrun_clause, 5) == packed(1, 0, 0));
    for (uint32_t unknown : {0u, 6u, 65537u, 0xffffffffu}) {
        expect("an unknown clause is refused", b.ask(kefthrun_clause, unknown) == packed(2, 21, 0));
        expect("and shown as the empty stretch at the start", b.ask(kefthrun_show, unknown) == packed(1, 0, 0));
    }
    expect("place of clause 2", b.ask(kefthrun_show, 2) == packed(1, 2, 2));
    expect("place of the empty clause", b.ask(kefthrun_show, 5) == packed(1, 6, 0));
    expect("its literals", kefthrun_literal(b[0].data(), 2) == -1 && kefthrun_literal(b[0].data(), 3) == -2);
    expect("variable 1", b.ask(kefthrun_variable, 1) == packed(1, 1, 1));
    expect("variable 2", b.ask(kefthrun_variable, 2) == packed(1, 2, 0));
    expect("variable 3 not in use", b.ask(kefthrun_variable, 3) == packed(2, 22, 0));
    const std::vector<std::vector<uint8_t>> before = b.bytes();
    expect("a refused step names itself", b.run(record(4, 0, 0, 0)) == packed(3, 1, 20));
    expect("and changes nothing", b.bytes() == before);
    b[3].data()[0] = 9;
    const std::vector<std::vector<uint8_t>> broken = b.bytes();
    expect("a run over ill-formed tables", b.run(listing()) == packed(3, 0, 2));
    expect("a question about them", b.ask(kefthrun_clause, 1) == packed(2, 2, 0) && b.ask(kefthrun_variable, 1) == packed(2, 2, 0));
    expect("a clause of them", b.ask(kefthrun_show, 2) == packed(1, 0, 0));
    expect("stay as they are", b.bytes() == broken);
    expect("a refused text", b.load("p cnf 1\n") == packed(4, 1, 10));
    for (int i = 0; i < 5; i++) expect("leaves zeros", b[i].bytes() == std::vector<uint8_t>(sizes[i], 0));
    expect("guards", b.guards_stand());
}

// One buffer is a byte short.
static void brief(int which) {
    Buffers b(which, -1);
    const std::vector<std::vector<uint8_t>> before = b.bytes();
    expect("a short run is 1", b.run(listing()) == packed(3, 0, 1));
    expect("a short show is empty", b.ask(kefthrun_show, 1) == packed(1, 0, 0));
    expect("a short question is 1", b.ask(kefthrun_clause, 1) == packed(2, 1, 0) && b.ask(kefthrun_variable, 1) == packed(2, 1, 0));
    not_written(b, KEFTHRUN_TABLE_TOO_SHORT);
    expect("nothing is changed", b.bytes() == before);
    expect("a short load is 1", b.load(formula) == packed(4, 0, 1));
    for (int i = 0; i < 4; i++) expect("tables stay", b[i].bytes() == before[static_cast<size_t>(i)]);
    expect("a whole state is zeroed, a short one stays", which == 4 ? b[4].bytes() == before[4] : b[4].bytes() == std::vector<uint8_t>(16, 0));
    expect("guards", b.guards_stand());
}

// One buffer is longer: the bytes past its size stay.
static void longer(int which) {
    Buffers b(which, 40);
    expect("accepted", b.load(formula) == packed(1, 0, 0));
    expect("refuted 3 5", b.run(listing()) == packed(1, 3, 5));
    expect("bytes past the size stay", b[which].fresh_from(sizes[which]));
    written(b, formula);
    expect("a refused text", b.load("p cnf 1\n") == packed(4, 1, 10));
    expect("bytes past the size stay", b[which].fresh_from(sizes[which]));
    expect("guards", b.guards_stand());
}

static bool is(const kefthrun::Result &r, unsigned tag, unsigned first, unsigned second, unsigned third = 0) {
    return r.tag == tag && r.first == first && r.second == second && r.third == third;
}

// The class: a cleared result is no case, and a null pointer is no bytes.
static void class_in_cpp() {
    const kefthrun::Result cleared(0);
    for (unsigned some : {KEFTHRUN_LOAD_ACCEPTED + 0u, KEFTHRUN_LOAD_REFUSED + 0u, KEFTHRUN_RUN_REFUTED + 0u, KEFTHRUN_RUN_OPEN + 0u, KEFTHRUN_RUN_BAD + 0u,
                          KEFTHRUN_ANSWERED + 0u, KEFTHRUN_REFUSED + 0u})
        expect("0 is no case", cleared.tag != some);
    kefthrun::Checker checker;
    const std::vector<uint8_t> none;
    expect("no text", is(checker.load(none.data(), none.size()), KEFTHRUN_LOAD_REFUSED, 1, KEFTHRUN_NO_FORM));
    const std::vector<uint8_t> text(formula.begin(), formula.end());
    expect("accepted", is(checker.load(text.data(), text.size()), KEFTHRUN_LOAD_ACCEPTED, 0, 0));
    expect("no records", is(checker.run(none.data(), none.size()), KEFTHRUN_RUN_OPEN, 0, 0));
    expect("no bytes at all", is(checker.run(nullptr, 0), KEFTHRUN_RUN_OPEN, 0, 0));
    bool thrown = false;
    try {
        checker.run(nullptr, 16);
    } catch (const std::invalid_argument &) {
        thrown = true;
    }
    expect("a null pointer with a length", thrown);
    expect("refuted 3 5", is(checker.run(listing().data(), listing().size()), KEFTHRUN_RUN_REFUTED, 3, 5));
    expect("a clash", is(checker.run(record(1, 1, 2, 1).data(), 16), KEFTHRUN_RUN_BAD, 1, KEFTHRUN_COMPLEMENTARY_IN_RESOLVENT, 2));
    expect("clause 2", checker.literals(2) == std::vector<int>({-1, -2}));
    expect("no clause 6", checker.literals(6).empty() && is(checker.clause(6), KEFTHRUN_REFUSED, KEFTHRUN_UNKNOWN_CLAUSE, 0));
    expect("variable 1", is(checker.variable(1), KEFTHRUN_ANSWERED, KEFTHRUN_KIND_UNIVERSAL, 1));
    expect("no variable 3", is(checker.variable(3), KEFTHRUN_REFUSED, KEFTHRUN_UNKNOWN_VARIABLE, 0));
}

// The class: the text as a string, and outputs of the caller.
static void texts_in_cpp() {
    kefthrun::Checker checker;
    expect("the text before a load", checker.text() == "p cnf 0 0\n");
    const std::vector<uint8_t> text(formula.begin(), formula.end());
    expect("accepted", is(checker.load(text.data(), text.size()), KEFTHRUN_LOAD_ACCEPTED, 0, 0));
    expect("the text", checker.text() == formula);
    expect("refuted 3 5", is(checker.run(listing().data(), listing().size()), KEFTHRUN_RUN_REFUTED, 3, 5));
    expect("the text without the steps", checker.text() == formula);
    std::vector<uint8_t> out(text.size());
    expect("an output of the text's length", checker.write(out.data(), out.size()).length() == text.size() && out == text);
    std::vector<uint8_t> brief(text.size() - 1, 126);
    expect("an output a byte short", is(checker.write(brief.data(), brief.size()), KEFTHRUN_REFUSED, KEFTHRUN_OUTPUT_TOO_SHORT, 0));
    expect("which stays", brief == std::vector<uint8_t>(text.size() - 1, 126));
    std::vector<uint8_t> more(text.size() + 5, 126), wanted = text;
    wanted.insert(wanted.end(), 5, 126);
    expect("a longer output", checker.write(more.data(), more.size()).length() == text.size() && more == wanted);
    std::vector<uint8_t> none;
    expect("an empty vector", is(checker.write(none.data(), none.size()), KEFTHRUN_REFUSED, KEFTHRUN_OUTPUT_TOO_SHORT, 0));
    expect("no output at all", is(checker.write(nullptr, 0), KEFTHRUN_REFUSED, KEFTHRUN_OUTPUT_TOO_SHORT, 0));
    bool thrown = false;
    try {
        checker.write(nullptr, 100);
    } catch (const std::invalid_argument &) {
        thrown = true;
    }
    expect("a null output with a length", thrown);
    const std::string sets = "p cnf 512 0\na " + numbers(257, 512) + "0\ne " + numbers(1, 256) + "0\n";
    expect("an e line", is(checker.load(reinterpret_cast<const uint8_t *>(sets.data()), sets.size()), KEFTHRUN_LOAD_ACCEPTED, 0, 0));
    expect("a long text", checker.text().size() == 265124 && checker.write(nullptr, 0).first == KEFTHRUN_OUTPUT_TOO_SHORT);
    expect("no text", is(checker.load(nullptr, 0), KEFTHRUN_LOAD_REFUSED, 1, KEFTHRUN_NO_FORM));
    expect("the text after a refused load", checker.text() == "p cnf 0 0\n");
}

// The class: 256 universals and no more.
static void wide_sets_in_cpp() {
    kefthrun::Checker checker;
    expect("256 universals", is(checker.load(reinterpret_cast<const uint8_t *>(wide_formula.data()), wide_formula.size()), KEFTHRUN_LOAD_ACCEPTED, 0, 0));
    expect("universal 256", is(checker.variable(256), KEFTHRUN_ANSWERED, KEFTHRUN_KIND_UNIVERSAL, 1));
    expect("a fork", is(checker.run(record(3, 1, 1, 2).data(), 16), KEFTHRUN_RUN_OPEN, 1, 0));
    expect("its set is {200}", is(checker.variable(259), KEFTHRUN_ANSWERED, KEFTHRUN_KIND_FORK, 1));
    expect("its clauses", checker.literals(3) == std::vector<int>({257, 259}) && checker.literals(4) == std::vector<int>({258, -259}));
    expect("the text", checker.text() == wide_formula);
    const std::string more = "p cnf 300 0\na " + numbers(1, 257) + "0\n";
    expect("257 universals", is(checker.load(reinterpret_cast<const uint8_t *>(more.data()), more.size()), KEFTHRUN_LOAD_REFUSED, 2, KEFTHRUN_OVER_LIMIT));
}

int main() {
    whole();
    wide_sets();
    set_lengths();
    clashes();
    texts();
    class_in_cpp();
    texts_in_cpp();
    wide_sets_in_cpp();
    for (int i = 0; i < 5; i++) {
        brief(i);
        longer(i);
    }
    if (failures == 0) std::printf("the exported calls: passed\n");
    return failures == 0 ? EXIT_SUCCESS : EXIT_FAILURE;
}
