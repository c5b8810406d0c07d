// The class is not made where header and library have different interfaces: tests/driver.sh builds this with a header of another number.
#include "kefthrun.h"

#include <cstdio>

int main() {
    try {
        kefthrun::Checker checker;
    } catch (const std::runtime_error &) {
        std::printf("another interface: refused\n");
        return 0;
    }
    return 1;
}
