// projection: what a conjunction of inequalities over the fields says of its last names, by the Parma Polyhedra Library (PPL).
//
// Input: the number of names, how many of them go (the first ones), the number of rows; then each row by its coefficients and its constant:
// the sum is to be at most 0. Output: the number of constraints of the projection, minimized, and the seconds that it took.
#include <chrono>
#include <iostream>
#include <ppl.hh>

using namespace Parma_Polyhedra_Library;

int main() {
  std::ios::sync_with_stdio(false);
  unsigned names, gone, rows;
  std::cin >> names >> gone >> rows;
  Constraint_System system;
  for (unsigned row = 0; row < rows; ++row) {
    Linear_Expression sum;
    long number;
    for (unsigned name = 0; name < names; ++name) {
      std::cin >> number;
      sum += number * Variable(name);
    }
    std::cin >> number;
    system.insert(sum + number <= 0);
  }
  auto begun = std::chrono::steady_clock::now();
  C_Polyhedron set(names);
  set.add_constraints(system);
  Variables_Set leave;
  for (unsigned name = 0; name < gone; ++name)
    leave.insert(Variable(name));
  set.remove_space_dimensions(leave);
  unsigned count = 0;
  for (const Constraint &constraint : set.minimized_constraints()) {
    (void)constraint;
    ++count;
  }
  std::chrono::duration<double> taken = std::chrono::steady_clock::now() - begun;
  std::cout << count << ' ' << taken.count() << '\n';
}
