// Another picture with the clues of a known one, by gecode: `unique`, or its cells. Its input is
// made by others.py.
#include <fstream>
#include <gecode/int.hh>
#include <gecode/minimodel.hh>
#include <gecode/search.hh>
#include <iostream>
#include <vector>

using namespace Gecode;

struct Grid : public Space {
  IntVarArray cells;
  Grid(std::istream& in, int height, int width, int colours)
      : cells(*this, height * width, 0, colours - 1) {
    std::vector<int> known(height * width);
    for (int& colour : known) in >> colour;
    BoolVarArgs differs(height * width);
    for (int i = 0; i < height * width; i++) differs[i] = expr(*this, cells[i] != known[i]);
    rel(*this, BOT_OR, differs, 1);
    for (int line = 0; line < height + width; line++) {
      int last, count;
      in >> last >> count;
      std::vector<DFA::Transition> steps(count + 1);
      for (int i = 0; i < count; i++) in >> steps[i].i_state >> steps[i].symbol >> steps[i].o_state;
      steps[count].i_state = -1;
      int ends[] = {last, -1};
      DFA automaton(0, steps.data(), ends);
      IntVarArgs along;
      if (line < height)
        for (int i = 0; i < width; i++) along << cells[line * width + i];
      else
        for (int i = 0; i < height; i++) along << cells[i * width + line - height];
      extensional(*this, along, automaton);
    }
    branch(*this, cells, INT_VAR_AFC_SIZE_MAX(0.99), INT_VAL_MIN());
  }
  Grid(Grid& other) : Space(other) { cells.update(*this, other.cells); }
  Space* copy() override { return new Grid(*this); }
};

int main(int, char** words) {
  std::ifstream in(words[1]);
  int height, width, colours;
  in >> height >> width >> colours;
  Grid* grid = new Grid(in, height, width, colours);
  DFS<Grid> search(grid);
  delete grid;
  Grid* found = search.next();
  if (!found) {
    std::cout << "unique\n";
    return 0;
  }
  for (int i = 0; i < height * width; i++)
    std::cout << found->cells[i].val() << (i % width == width - 1 ? '\n' : ' ');
  delete found;
}
