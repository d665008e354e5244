// The models of clauses, by cadical. Each line of standard input begins with a letter; literals end with 0:
//   c LITERALS 0   a clause
//   p LITERALS 0   the variables that count: two models with the same of these are one
//   e MOST         prints each model as a line of 0 and 1, by the variables that count, and at last `end`, or `more` behind so many
//   q LITERALS 0   prints one model in which these are true, or `none`, or `unknown` behind the conflicts that are allowed
//   l CONFLICTS    so many conflicts are allowed for each `q` from here on
#include <cadical.hpp>
#include <cstdio>
#include <vector>

static void print_model(CaDiCaL::Solver& solver, const std::vector<int>& counting) {
    for (int variable : counting) std::putchar(solver.val(variable) > 0 ? '1' : '0');
    std::putchar('\n');
}

static std::vector<int> literals() {
    std::vector<int> found;
    for (int literal; std::scanf("%d", &literal) == 1 && literal;) found.push_back(literal);
    return found;
}

int main() {
    CaDiCaL::Solver solver;
    std::vector<int> counting;
    int conflicts = -1;
    for (char letter; std::scanf(" %c", &letter) == 1;) {
        if (letter == 'c') {
            for (int literal : literals()) solver.add(literal);
            solver.add(0);
        } else if (letter == 'p') {
            counting = literals();
        } else if (letter == 'e') {
            long most = 0, found = 0;
            if (std::scanf("%ld", &most) != 1) return 2;
            while (found < most && solver.solve() == 10) {
                std::vector<int> other;
                for (int variable : counting) other.push_back(solver.val(variable) > 0 ? -variable : variable);
                print_model(solver, counting);
                for (int literal : other) solver.add(literal);
                solver.add(0);
                found++;
            }
            std::puts(found < most ? "end" : "more");
        } else if (letter == 'q') {
            for (int literal : literals()) solver.assume(literal);
            if (conflicts >= 0) solver.limit("conflicts", conflicts);
            int answer = solver.solve();
            if (answer == 10) print_model(solver, counting);
            else std::puts(answer == 20 ? "none" : "unknown");
        } else if (letter == 'l') {
            if (std::scanf("%d", &conflicts) != 1) return 2;
        } else {
            return 2;
        }
        std::fflush(stdout);
    }
    return 0;
}
