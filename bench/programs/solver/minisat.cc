#include <chrono>
#include <cstdio>
#include <minisat/core/Solver.h>
using namespace Minisat;

static uint32_t next(uint32_t s) {
    s ^= s << 13;
    s ^= s >> 17;
    s ^= s << 5;
    return s;
}
static Lit any(uint32_t n) { return mkLit(n % 150, n / 65536 % 2 != 0); }
static Lit sits(int pigeon, int hole) { return mkLit(6 * pigeon + hole); }

static bool drawn(uint32_t number, uint64_t &conflicts, uint64_t &propagations) {
    Solver s;
    for (int i = 0; i < 150; i++) s.newVar();
    uint32_t state = number * 7919u + 1;
    for (int i = 0; i < 639; i++) {
        state = next(state);
        Lit a = any(state);
        state = next(state);
        Lit b = any(state);
        state = next(state);
        Lit c = any(state);
        if (var(a) == var(b) || var(a) == var(c) || var(b) == var(c)) continue;
        s.addClause(a, b, c);
    }
    bool model = s.solve();
    conflicts += s.conflicts;
    propagations += s.propagations;
    return model;
}

static uint64_t pigeons() {
    Solver s;
    for (int i = 0; i < 42; i++) s.newVar();
    for (int p = 0; p < 7; p++) {
        vec<Lit> lits;
        for (int h = 0; h < 6; h++) lits.push(sits(p, h));
        s.addClause(lits);
        for (int q = 0; q < p; q++)
            for (int h = 0; h < 6; h++) s.addClause(~sits(q, h), ~sits(p, h));
    }
    s.solve();
    return s.conflicts;
}

int main() {
    uint64_t conflicts = 0, propagations = 0;
    int models = 0;
    auto now = [] { return std::chrono::steady_clock::now(); };
    auto ms = [](std::chrono::steady_clock::duration d) { return (long)std::chrono::duration_cast<std::chrono::milliseconds>(d).count(); };
    auto start = now();
    for (uint32_t number = 0; number < 200; number++) models += drawn(number, conflicts, propagations);
    long drawn_ms = ms(now() - start);
    start = now();
    uint64_t holes = pigeons();
    printf("%d %lu %ld %lu %ld\n", models, conflicts, drawn_ms, holes, ms(now() - start));
}
