#include "harness.h"

int main(void) {
    header();
    lines();
    life();
    odd();
    maintenance();
    rewritten();
    refusals();
    faults();
    rescue();
    through();
    flushed();
    printf("state %llu\n", (unsigned long long)sizeof(marble_state));
    costs_told();
    printf("tests/c: %llu checks, %s\n", (unsigned long long)checks(), failed() ? "some failed" : "all passed");
    return failed();
}
