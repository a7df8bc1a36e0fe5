// Adds hints to a DRAT proof, so that a checker of LRAT needs no search: lrat CLAUSES PROOF >LRAT.
// It is trusted for nothing.
//
// CLAUSES is DIMACS, and PROOF a proof in binary DRAT, each step of which follows by unit
// propagation. The program goes through the steps in order. For each it notes the clauses that lead
// to the contradiction, and then writes the steps that the empty clause needs. Units that follow
// become steps of their own. A clause that is a reason for a unit is not deleted. Status 1: a step
// does not follow. Build: c++ -O2 -std=c++17 -o lrat measure/lrat.cpp
#include <algorithm>
#include <cstdio>
#include <fstream>
#include <iterator>
#include <map>
#include <string>
#include <vector>

using Clause = std::vector<int>;

struct Step {
  Clause literals;
  std::vector<int> hints;
};

// Clauses under unit propagation. Clause 0 is none; the first ones are those of the file, the
// others are steps.
class Checker {
 public:
  explicit Checker(int variables)
      : value(variables + 1),
        reason(variables + 1),
        seen(variables + 1),
        watches(2 * variables + 2),
        clauses(1),
        steps(1) {}

  // Takes the clauses of the file, whose numbers are from 1.
  void take(const std::vector<Clause> &all) {
    for (const Clause &literals : all) steps.push_back({literals, {}});
    originals = static_cast<int>(all.size());
    for (int id = 1; id <= originals && !empty; ++id) attach(id, all[id - 1]);
  }

  // Takes a step of the proof. False: it does not follow.
  bool add(const Clause &literals) {
    std::vector<int> hints;
    if (!refute(literals, hints)) return false;
    steps.push_back({literals, hints});
    if (literals.empty())
      empty = static_cast<int>(steps.size()) - 1;
    else
      attach(static_cast<int>(steps.size()) - 1, literals);
    return true;
  }

  // Deletes a clause, unless it is a reason or is not there.
  void remove(Clause literals) {
    std::sort(literals.begin(), literals.end());
    auto found = by_literals.find(literals);
    if (found == by_literals.end()) return;
    const int id = found->second;
    for (int literal : literals)
      if (reason[std::abs(literal)] == id) return;
    by_literals.erase(found);
    clauses[id].clear();
  }

  bool done() const { return empty != 0; }

  // Writes the steps that the empty clause needs.
  void write() const {
    std::vector<bool> needed(steps.size());
    needed[empty] = true;
    for (int id = empty; id > originals; --id)
      if (needed[id])
        for (int hint : steps[id].hints) needed[hint] = true;
    for (int id = originals + 1; id <= empty; ++id) {
      if (!needed[id]) continue;
      std::printf("%d", id);
      for (int literal : steps[id].literals) std::printf(" %d", literal);
      std::printf(" 0");
      for (int hint : steps[id].hints) std::printf(" %d", hint);
      std::printf(" 0\n");
    }
  }

 private:
  static size_t at(int literal) { return 2 * std::abs(literal) + (literal < 0); }
  int of(int literal) const { return literal > 0 ? value[literal] : -value[-literal]; }

  void assign(int literal, int why) {
    value[std::abs(literal)] = literal > 0 ? 1 : -1;
    reason[std::abs(literal)] = why;
    trail.push_back(literal);
  }

  // Watches a clause, and draws the units that follow; each becomes a step. A contradiction becomes
  // the empty clause.
  void attach(int id, const Clause &literals) {
    clauses.resize(steps.size());
    Clause &clause = clauses[id] = literals;
    Clause key = literals;
    std::sort(key.begin(), key.end());
    by_literals.insert({key, id});
    std::stable_partition(clause.begin(), clause.end(), [this](int literal) {
      return of(literal) >= 0;
    });
    if (clause.size() > 1)
      for (int i = 0; i < 2; ++i) watches[at(clause[i])].push_back(id);
    int conflict = 0;
    if (clause.empty() || of(clause[0]) < 0)
      conflict = id;
    else if (of(clause[0]) == 0 && (clause.size() == 1 || of(clause[1]) < 0))
      assign(clause[0], id);
    const size_t from = settled;
    if (!conflict) conflict = propagate(settled);
    for (size_t i = from; i < trail.size() && !empty; ++i) fix(trail[i]);
    settled = trail.size();
    if (conflict && !empty) {
      std::vector<int> hints;
      for (int literal : clauses[conflict]) hints.push_back(reason[std::abs(literal)]);
      hints.push_back(conflict);
      steps.push_back({{}, hints});
      empty = static_cast<int>(steps.size()) - 1;
    }
  }

  // Makes a unit that has been drawn a step, which is its reason from then on.
  void fix(int literal) {
    const int why = reason[std::abs(literal)];
    if (clauses[why].size() == 1) return;
    std::vector<int> hints;
    for (int other : clauses[why])
      if (other != literal) hints.push_back(reason[std::abs(other)]);
    hints.push_back(why);
    steps.push_back({{literal}, hints});
    reason[std::abs(literal)] = static_cast<int>(steps.size()) - 1;
    clauses.resize(steps.size());
    clauses.back() = {literal};
  }

  // Propagates from a place of the trail on. Gives the clause of a contradiction, or 0.
  int propagate(size_t from) {
    while (from < trail.size()) {
      const int literal = -trail[from++];
      std::vector<int> &list = watches[at(literal)];
      size_t kept = 0;
      for (size_t i = 0; i < list.size(); ++i) {
        const int id = list[i];
        Clause &clause = clauses[id];
        if (clause.empty()) continue;
        if (clause[0] == literal) std::swap(clause[0], clause[1]);
        if (clause[1] != literal) continue;
        const auto other = std::find_if(clause.begin() + 2, clause.end(), [this](int one) {
          return of(one) >= 0;
        });
        if (of(clause[0]) <= 0 && other != clause.end()) {
          std::swap(clause[1], *other);
          watches[at(clause[1])].push_back(id);
          continue;
        }
        list[kept++] = id;
        if (of(clause[0]) > 0) continue;
        if (of(clause[0]) < 0) {
          while (++i < list.size()) list[kept++] = list[i];
          list.resize(kept);
          return id;
        }
        assign(clause[0], id);
      }
      list.resize(kept);
    }
    return 0;
  }

  // Denies the literals, and propagates. Gives the hints of the contradiction, in the order in
  // which a checker uses them.
  bool refute(const Clause &literals, std::vector<int> &hints) {
    const size_t from = trail.size();
    int conflict = 0, held = 0;
    for (int literal : literals) {
      if (of(literal) > 0 && reason[std::abs(literal)]) held = literal;
      if (of(literal) == 0) assign(-literal, 0);
    }
    if (held) {
      hints = {reason[std::abs(held)]};
    } else {
      conflict = propagate(from);
      if (conflict) explain(conflict, literals, from, hints);
    }
    while (trail.size() > from) {
      value[std::abs(trail.back())] = reason[std::abs(trail.back())] = 0;
      trail.pop_back();
    }
    return held || conflict;
  }

  // The reasons of a contradiction, from the end of the trail to its beginning, turned round. What
  // the denied literals say has none.
  void explain(int conflict, const Clause &literals, size_t from, std::vector<int> &hints) {
    std::vector<int> marked, units;
    const auto mark = [&](int id) {
      for (int literal : clauses[id]) {
        if (seen[std::abs(literal)]) continue;
        seen[std::abs(literal)] = true;
        marked.push_back(std::abs(literal));
      }
    };
    mark(conflict);
    hints.push_back(conflict);
    for (size_t i = trail.size(); i-- > from;) {
      const int variable = std::abs(trail[i]);
      if (!seen[variable] || !reason[variable]) continue;
      hints.push_back(reason[variable]);
      mark(reason[variable]);
    }
    std::vector<bool> above(value.size());
    for (size_t i = from; i < trail.size(); ++i) above[std::abs(trail[i])] = true;
    for (int literal : literals) above[std::abs(literal)] = true;
    for (int variable : marked) {
      if (!above[variable] && reason[variable]) units.push_back(reason[variable]);
      seen[variable] = false;
    }
    hints.insert(hints.end(), units.begin(), units.end());
    std::reverse(hints.begin(), hints.end());
  }

  std::vector<signed char> value;
  std::vector<int> reason;
  std::vector<bool> seen;
  std::vector<std::vector<int>> watches;
  std::vector<Clause> clauses;
  std::vector<Step> steps;
  std::multimap<Clause, int> by_literals;
  std::vector<int> trail;
  size_t settled = 0;
  int originals = 0, empty = 0;
};

int main(int count, char **words) {
  if (count != 3) return 2;
  std::ifstream file(words[1]);
  std::string word;
  int variables = 0, number = 0, literal = 0;
  file >> word >> word >> variables >> number;
  std::vector<Clause> all(1);
  while (file >> literal) {
    if (literal)
      all.back().push_back(literal);
    else
      all.emplace_back();
  }
  all.pop_back();
  Checker checker(variables);
  checker.take(all);
  std::ifstream proof(words[2], std::ios::binary);
  const std::string bytes{std::istreambuf_iterator<char>(proof), {}};
  for (size_t i = 0; i < bytes.size() && !checker.done();) {
    const char kind = bytes[i++];
    Clause clause;
    for (unsigned code; i < bytes.size();) {
      code = 0;
      for (int shift = 0;; shift += 7) {
        const unsigned char byte = bytes[i++];
        code |= (byte & 127u) << shift;
        if (byte < 128) break;
      }
      if (!code) break;
      clause.push_back(code & 1 ? -static_cast<int>(code >> 1) : static_cast<int>(code >> 1));
    }
    if (kind == 'd')
      checker.remove(clause);
    else if (!checker.add(clause))
      return std::fprintf(stderr, "a step does not follow by unit propagation\n"), 1;
  }
  if (!checker.done()) return std::fprintf(stderr, "the empty clause is missing\n"), 1;
  checker.write();
}
