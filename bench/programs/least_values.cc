// The least values of the criteria of a log, by minisat's or cadical's library.
//
// The clauses are those of the log's Formula lines, all at once. A criterion is at least k where the variable of its k-th
// Bound line is true. The first question is for any model; then each criterion in the log's order is made less and less,
// with those before it held, as `draw` does. Learnt, Query, Model and Refuted lines are passed over.
//
// It prints each criterion with its least value, or `none`; then how many questions were asked, the conflicts, and the milliseconds of
// processor time of giving the clauses and of all questions, without reading. Built with -DMINISAT or with -DCADICAL.
#include <cstdio>
#include <cstdlib>
#include <ctime>
#include <fstream>
#include <sstream>
#include <string>
#include <utility>
#include <vector>

#ifdef MINISAT
#include <minisat/core/Solver.h>

/// minisat; a literal is a number as in the log
struct Peer {
    Minisat::Solver solver;
    static Minisat::Lit lit(int number) { return Minisat::mkLit(std::abs(number) - 1, number < 0); }
    void add(const std::vector<int> &clause) {
        Minisat::vec<Minisat::Lit> lits;
        for (int number : clause) {
            while (solver.nVars() < std::abs(number)) solver.newVar();
            lits.push(lit(number));
        }
        solver.addClause_(lits);
    }
    void keep(int) {}
    bool ask(const std::vector<int> &assumed) {
        Minisat::vec<Minisat::Lit> lits;
        for (int number : assumed) lits.push(lit(number));
        return solver.solve(lits);
    }
    bool holds(int variable) { return solver.modelValue(lit(variable)) == Minisat::lbool((uint8_t)0); }
    long conflicts() { return (long)solver.conflicts; }
};
#else
#include <cadical.hpp>

/// counts the clauses that cadical learns
struct Counter : CaDiCaL::Learner {
    long count = 0;
    bool learning(int) override {
        count++;
        return false;
    }
    void learn(int) override {}
};

/// cadical; a literal is a number as in the log
struct Peer {
    CaDiCaL::Solver solver;
    Counter learnt;
    Peer() {
        solver.set("quiet", 1);
        solver.connect_learner(&learnt);
    }
    ~Peer() { solver.disconnect_learner(); }
    void add(const std::vector<int> &clause) {
        for (int number : clause) solver.add(number);
        solver.add(0);
    }
    void keep(int variable) { solver.freeze(variable); }
    bool ask(const std::vector<int> &assumed) {
        for (int number : assumed) solver.assume(number);
        return solver.solve() == 10;
    }
    bool holds(int variable) { return solver.val(variable) > 0; }
    long conflicts() { return learnt.count; }
};
#endif

/// a criterion: its word, and the variables of its Bound lines
using Criterion = std::pair<std::string, std::vector<int>>;

double milliseconds() { return 1000.0 * std::clock() / CLOCKS_PER_SEC; }

/// reads the clauses of the log, and lists its criteria in their order
std::vector<Criterion> read(const char *path, std::vector<std::vector<int>> &clauses) {
    std::ifstream log(path);
    std::vector<Criterion> criteria;
    std::string line, word;
    while (std::getline(log, line)) {
        if (line[0] == 'f') {
            std::vector<int> clause;
            const char *at = line.c_str() + 1;
            for (char *end; int number = (int)std::strtol(at, &end, 10); at = end) clause.push_back(number);
            clauses.push_back(clause);
        } else if (line[0] == 'b') {
            std::istringstream parts(line.substr(2));
            int bound, variable;
            parts >> word >> bound >> variable;
            if (criteria.empty() || criteria.back().first != word) criteria.push_back({word, {}});
            criteria.back().second.push_back(variable);
        }
    }
    return criteria;
}

/// gives the clauses
void give(Peer &peer, const std::vector<std::vector<int>> &clauses, const std::vector<Criterion> &criteria) {
    for (const std::vector<int> &clause : clauses) peer.add(clause);
    for (const Criterion &criterion : criteria)
        for (int variable : criterion.second) peer.keep(variable);
}

/// how many of the variables in front are true
int value_of(Peer &peer, const std::vector<int> &bounds) {
    size_t value = 0;
    while (value < bounds.size() && peer.holds(bounds[value])) value++;
    return (int)value;
}

/// the values of a model
std::vector<int> values_of(Peer &peer, const std::vector<Criterion> &criteria) {
    std::vector<int> values;
    for (const Criterion &criterion : criteria) values.push_back(value_of(peer, criterion.second));
    return values;
}

/// makes one criterion after the other less, until no model has less; how many questions that took
int lower(Peer &peer, const std::vector<Criterion> &criteria, std::vector<int> &values) {
    std::vector<int> held;
    int questions = 0;
    for (size_t c = 0; c < criteria.size(); c++) {
        const std::vector<int> &bounds = criteria[c].second;
        bool less = true;
        while (less && values[c] > 0) {
            std::vector<int> question = held;
            question.push_back(-bounds[values[c] - 1]);
            questions++;
            less = peer.ask(question);
            if (less) values = values_of(peer, criteria);
        }
        if (values[c] < (int)bounds.size()) held.push_back(-bounds[values[c]]);
    }
    return questions;
}

int main(int count, char **words) {
    if (count != 2) return 2;
    Peer peer;
    std::vector<std::vector<int>> clauses;
    std::vector<Criterion> criteria = read(words[1], clauses);
    double start = milliseconds();
    give(peer, clauses, criteria);
    int questions = 1;
    if (peer.ask({})) {
        std::vector<int> values = values_of(peer, criteria);
        questions += lower(peer, criteria, values);
        for (size_t c = 0; c < criteria.size(); c++) std::printf("%s %d ", criteria[c].first.c_str(), values[c]);
    } else {
        std::printf("none ");
    }
    std::printf("%d %ld %.0f\n", questions, peer.conflicts(), milliseconds() - start);
    return 0;
}
