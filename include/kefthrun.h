/* Kefthrun for a solver's driver, in C and C++: a formula and its refutation by Fork-Resolution, checked over the driver's own buffers.
 *
 * Buffers. Each table is its entries in little-endian bytes; the state is eight counts of 16 bits: the header's V, variables in use, universals, formula
 * clauses, clauses, literals, accepted steps, lowest empty clause (0: none). The driver owns every buffer and keeps it from call to call; a call keeps no
 * pointer to one. Bytes past the sizes below are never changed. Nothing needs to be cleared before a load. The output of a write is one more buffer of any
 * length, of which only the text's bytes are changed.
 *
 * The driver's duties. The library is of this interface: kefthrun_interface() == KEFTHRUN_INTERFACE. A pointer is never null, also where its length is 0. No
 * two buffers of one call share a byte. Nothing else writes to a buffer while a call runs. The class kefthrun::Checker sees to the first three.
 *
 * Results. A result has four 16-bit fields, the lowest first: the case, which is never 0, and up to three values; a field without a value is 0. Too few bytes in
 * a buffer is refusal 1; nothing is changed then, except that a load zeroes a state of 16 bytes or more. An output shorter than its text is refusal 30.
 *
 * Stack. No call uses the heap or recursion. A load was measured to use 104,848 bytes of stack, a run 38,656, a question or a shown clause 38,160, a write
 * 39,192 (docs/PERFORMANCE.md): give a thread at least 160 KB of stack. */
#ifndef KEFTHRUN_H
#define KEFTHRUN_H

#include <stddef.h>
#include <stdint.h>

/* The number of this interface: one higher with each change of a function, a buffer's size or the fields of a result. */
#define KEFTHRUN_INTERFACE 4u

/* Sizes of the buffers, in bytes. */
enum {
    KEFTHRUN_LITERAL_BYTES = 16384, /* 8,192 signed literals of 16 bits */
    KEFTHRUN_END_BYTES = 4096,      /* 2,048 clause ends of 16 bits */
    KEFTHRUN_SET_BYTES = 16384,     /* 512 dependency sets of four 64-bit words, lowest bits first: bit i for the universal declared as number i + 1 */
    KEFTHRUN_KIND_BYTES = 512,      /* 512 kinds */
    KEFTHRUN_STATE_BYTES = 16,
    KEFTHRUN_TIDY_BYTES = 311296 /* an output of this many bytes is long enough for every formula */
};

/* The cases of a result: of a load, of a run, of a question, a shown clause or a write. */
enum { KEFTHRUN_LOAD_ACCEPTED = 1, KEFTHRUN_LOAD_REFUSED = 4 };
enum { KEFTHRUN_RUN_REFUTED = 1, KEFTHRUN_RUN_OPEN = 2, KEFTHRUN_RUN_BAD = 3 };
enum { KEFTHRUN_ANSWERED = 1, KEFTHRUN_REFUSED = 2 };

/* The kinds of variables. */
enum { KEFTHRUN_KIND_UNDECLARED = 0, KEFTHRUN_KIND_UNIVERSAL = 1, KEFTHRUN_KIND_EXISTENTIAL = 2, KEFTHRUN_KIND_FORK = 3 };

/* The numbers of refusal: of any call, of a formula, of a step or a list of steps (21 and 22 also of a question), of a write. */
enum {
    KEFTHRUN_TABLE_TOO_SHORT = 1, /* a table is lent too short */
    KEFTHRUN_NOT_WELL_FORMED = 2, /* the tables are not well formed */

    KEFTHRUN_NO_FORM = 10,                 /* a line has no form of the format, or stands out of order; the header is missing */
    KEFTHRUN_OVER_LIMIT = 11,              /* over a limit of the text, such as 256 universals; more than 32,768 bytes of records */
    KEFTHRUN_VARIABLE = 12,                /* above V, declared twice, or used undeclared; a set member that is no earlier universal */
    KEFTHRUN_COMPLEMENTARY_IN_CLAUSE = 13, /* complementary literals in a clause */
    KEFTHRUN_CLAUSE_COUNT = 14,            /* the number of clauses is not C */

    KEFTHRUN_MALFORMED_RECORD = 20,           /* kind not 1 to 3, a byte that should be 0 is not, or fewer than 16 bytes are left */
    KEFTHRUN_UNKNOWN_CLAUSE = 21,             /* clause number 0 or above the count */
    KEFTHRUN_NOT_IN_CLAUSE = 22,              /* the literal, or the complement, is not in its clause */
    KEFTHRUN_UNKNOWN_VARIABLE = 22,           /* a question about a variable that is not in use */
    KEFTHRUN_COMPLEMENTARY_IN_RESOLVENT = 23, /* the resolvent has complementary literals; the third value is their lowest variable */
    KEFTHRUN_TOO_WIDE = 24,                   /* the resolvent has more than 32 literals, none of them complementary */
    KEFTHRUN_NO_ROOM = 25,                    /* no room for more clauses, literals or variables */
    KEFTHRUN_NOT_UNIVERSAL = 26,              /* the literal is not universal */
    KEFTHRUN_READ_BY_ANOTHER = 27,            /* another literal's set has the variable */
    KEFTHRUN_MASKS = 28,                      /* the masks do not make the clause */
    KEFTHRUN_COMPARABLE = 29,                 /* one part's set contains the other's */

    KEFTHRUN_OUTPUT_TOO_SHORT = 30 /* the output is lent shorter than the text */
};

#ifdef __cplusplus
extern "C" {
#endif

/* The number of the library's interface. */
uint32_t kefthrun_interface(void);

/* Loads the text of a formula. Accepted; or refused with line (0: the whole text) and number. */
uint64_t kefthrun_load(const uint8_t *text, size_t text_length, uint8_t *literals, size_t literals_length, uint8_t *ends, size_t ends_length,
                       uint8_t *sets, size_t sets_length, uint8_t *kinds, size_t kinds_length, uint8_t *state, size_t state_length);

/* Runs a list of 16-byte records. Refuted with accepted steps and lowest empty clause; open with accepted steps; or bad with the step (0: the whole list)
 * and number, and for number 23 the lowest variable that the resolvent holds in both signs (0 for every other). Open does not mean that the formula is true. */
uint64_t kefthrun_run(const uint8_t *records, size_t records_length, uint8_t *literals, size_t literals_length, uint8_t *ends, size_t ends_length,
                      uint8_t *sets, size_t sets_length, uint8_t *kinds, size_t kinds_length, uint8_t *state, size_t state_length);

/* Where a clause stands: always answered with its place and its length, both in entries of the literals. For an unknown clause number, short or ill-formed
 * tables it is the empty stretch at the start, 0 and 0; kefthrun_clause tells these apart from an empty clause. */
uint64_t kefthrun_show(const uint8_t *literals, size_t literals_length, const uint8_t *ends, size_t ends_length, const uint8_t *sets, size_t sets_length,
                       const uint8_t *kinds, size_t kinds_length, const uint8_t *state, size_t state_length, uint32_t clause);

/* The length of a clause. Answered with it; or refused with a number. */
uint64_t kefthrun_clause(const uint8_t *literals, size_t literals_length, const uint8_t *ends, size_t ends_length, const uint8_t *sets, size_t sets_length,
                         const uint8_t *kinds, size_t kinds_length, const uint8_t *state, size_t state_length, uint32_t clause);

/* A variable. Answered with its kind (0 undeclared, 1 universal, 2 existential, 3 fork) and the number of universals in its set; or refused with a number. */
uint64_t kefthrun_variable(const uint8_t *literals, size_t literals_length, const uint8_t *ends, size_t ends_length, const uint8_t *sets,
                           size_t sets_length, const uint8_t *kinds, size_t kinds_length, const uint8_t *state, size_t state_length, uint32_t variable);

/* Writes the formula, without its steps, as tidy DQDIMACS text (docs/FORMAT.md) to the front of the output. Answered with the length of the text, its low 16
 * bits and its high 16 bits (kefthrun_length); or refused with a number, and the output is as it was. Nothing else is written, and no 0 behind the text. */
uint64_t kefthrun_write(uint8_t *out, size_t out_length, const uint8_t *literals, size_t literals_length, const uint8_t *ends, size_t ends_length,
                        const uint8_t *sets, size_t sets_length, const uint8_t *kinds, size_t kinds_length, const uint8_t *state, size_t state_length);

#ifdef __cplusplus
}
#endif

/* The fields of a result. */
static inline unsigned kefthrun_case(uint64_t result) { return (unsigned)(result & 0xffffu); }
static inline unsigned kefthrun_first(uint64_t result) { return (unsigned)(result >> 16 & 0xffffu); }
static inline unsigned kefthrun_second(uint64_t result) { return (unsigned)(result >> 32 & 0xffffu); }
static inline unsigned kefthrun_third(uint64_t result) { return (unsigned)(result >> 48 & 0xffffu); }

/* The length that an answered write tells. */
static inline size_t kefthrun_length(uint64_t result) { return kefthrun_first(result) + (size_t)65536 * kefthrun_second(result); }

/* The literal at an entry of the literals. */
static inline int kefthrun_literal(const uint8_t *literals, size_t entry) {
    int bits = literals[2 * entry] + 256 * literals[2 * entry + 1];
    return bits < 32768 ? bits : bits - 65536;
}

#ifdef __cplusplus

#include <array>
#include <stdexcept>
#include <string>
#include <vector>

namespace kefthrun {

/* A result, taken apart: the tag is its case. */
struct Result {
    unsigned tag, first, second, third;
    explicit Result(uint64_t r) : tag(kefthrun_case(r)), first(kefthrun_first(r)), second(kefthrun_second(r)), third(kefthrun_third(r)) {}
    /* The length that an answered write tells. */
    size_t length() const { return kefthrun_length((uint64_t)first << 16 | (uint64_t)second << 32); }
};

/* One formula with its steps: owns the five buffers. */
class Checker {
public:
    /* Throws std::runtime_error where the library has another interface than this header. */
    Checker() {
        if (kefthrun_interface() != KEFTHRUN_INTERFACE) throw std::runtime_error("kefthrun: the library has another interface than its header");
    }
    /* A null pointer, as an empty vector's, is no bytes; with a length it is an std::invalid_argument. */
    Result load(const uint8_t *text, size_t length) {
        return Result(kefthrun_load(some(text, length), length, literals_.data(), literals_.size(), ends_.data(), ends_.size(), sets_.data(), sets_.size(), kinds_.data(),
                                    kinds_.size(), state_.data(), state_.size()));
    }
    Result run(const uint8_t *records, size_t length) {
        return Result(kefthrun_run(some(records, length), length, literals_.data(), literals_.size(), ends_.data(), ends_.size(), sets_.data(), sets_.size(),
                                   kinds_.data(), kinds_.size(), state_.data(), state_.size()));
    }
    Result clause(uint32_t number) const {
        return Result(kefthrun_clause(literals_.data(), literals_.size(), ends_.data(), ends_.size(), sets_.data(), sets_.size(), kinds_.data(),
                                      kinds_.size(), state_.data(), state_.size(), number));
    }
    Result variable(uint32_t number) const {
        return Result(kefthrun_variable(literals_.data(), literals_.size(), ends_.data(), ends_.size(), sets_.data(), sets_.size(), kinds_.data(),
                                        kinds_.size(), state_.data(), state_.size(), number));
    }
    /* Place and length of a clause in the literals; 0 and 0 for a number that the question above refuses. */
    Result show(uint32_t number) const {
        return Result(kefthrun_show(literals_.data(), literals_.size(), ends_.data(), ends_.size(), sets_.data(), sets_.size(), kinds_.data(),
                                    kinds_.size(), state_.data(), state_.size(), number));
    }
    /* The literals of a clause, copied; none for a number that the question refuses. */
    std::vector<int> literals(uint32_t number) const {
        const Result shown = show(number);
        std::vector<int> copied;
        for (unsigned i = 0; i < shown.second; i++) copied.push_back(kefthrun_literal(literals_.data(), shown.first + i));
        return copied;
    }
    /* Writes the tidy text to the front of the output. A null pointer is no bytes, as for a load. */
    Result write(uint8_t *out, size_t length) const {
        return Result(kefthrun_write(some(out, length), length, literals_.data(), literals_.size(), ends_.data(), ends_.size(), sets_.data(), sets_.size(),
                                     kinds_.data(), kinds_.size(), state_.data(), state_.size()));
    }
    /* The tidy text, copied; before a load and after a refused one that of the empty formula. Nothing if the tables are refused. */
    std::string text() const {
        std::string text(KEFTHRUN_TIDY_BYTES, '\0');
        const Result written = write(reinterpret_cast<uint8_t *>(&text[0]), text.size());
        text.resize(written.tag == KEFTHRUN_ANSWERED ? written.length() : 0);
        text.shrink_to_fit();
        return text;
    }

private:
    /* A pointer that is never null. */
    template <class Byte> static Byte *some(Byte *bytes, size_t length) {
        static Byte none = 0;
        if (bytes != nullptr) return bytes;
        if (length != 0) throw std::invalid_argument("kefthrun: a null pointer with a length");
        return &none;
    }
    std::array<uint8_t, KEFTHRUN_LITERAL_BYTES> literals_{};
    std::array<uint8_t, KEFTHRUN_END_BYTES> ends_{};
    std::array<uint8_t, KEFTHRUN_SET_BYTES> sets_{};
    std::array<uint8_t, KEFTHRUN_KIND_BYTES> kinds_{};
    std::array<uint8_t, KEFTHRUN_STATE_BYTES> state_{};
};

} // namespace kefthrun

#endif
#endif
