#include <chrono>
#include <cstdio>
#include <minisat/core/Solver.h>
using namespace Minisat;

struct Rounds : Solver {
    static uint32_t next(uint32_t s) { return (s * 1103515245u + 12345u) % 2147483648u; }
    static Lit lit(uint32_t v, bool positive) { return mkLit(v - 1, !positive); }
    static Lit any(uint32_t s) { return lit(s / 64 % 60000 + 1, s / 1024 % 2 == 0); }
    void attach_three(Lit a, Lit b, Lit c) {
        if (var(a) == var(b) || var(a) == var(c) || var(b) == var(c)) return;
        vec<Lit> lits;
        lits.push(a);
        lits.push(b);
        lits.push(c);
        addClause(lits);
    }
    void attach_all() {
        uint32_t s = 1;
        for (uint32_t i = 0; i < 100000; i++) {
            s = next(s);
            Lit gate = lit(50001 + s / 64 % 10000, false);
            attach_three(lit(i * 7 % 50000 + 1, false), gate, lit(i * 7 % 50000 * 3 % 50000 + 1, true));
            s = next(s);
            Lit a = any(s);
            s = next(s);
            Lit b = any(s);
            s = next(s);
            attach_three(a, b, any(s));
        }
    }
    void round(uint32_t from, uint64_t &count, uint64_t &clashes) {
        uint32_t s = from;
        for (uint32_t i = 0; i < 60000; i++) {
            s = next(s);
            Lit l = lit((i * 17 + from) % 60000 + 1, s / 1024 % 4 == 0);
            if (!(value(l) == l_Undef)) continue;
            int before = trail.size();
            newDecisionLevel();
            uncheckedEnqueue(l);
            bool clash = propagate() != CRef_Undef;
            count += trail.size() - before;
            if (clash) {
                clashes++;
                cancelUntil(decisionLevel() / 2);
            }
        }
        cancelUntil(0);
    }
};

int main() {
    Rounds rounds;
    // none is a variable for decisions, so that going back puts none into a heap
    for (int i = 0; i < 60000; i++) rounds.newVar(l_Undef, false);
    rounds.attach_all();
    uint64_t count = 0, clashes = 0;
    auto start = std::chrono::steady_clock::now();
    for (uint32_t r = 0; r < 40; r++) rounds.round(r * 7919, count, clashes);
    auto gone = std::chrono::steady_clock::now() - start;
    long ms = std::chrono::duration_cast<std::chrono::milliseconds>(gone).count();
    printf("%lu %lu %ld\n", count, clashes, ms);
}
