// Requests share ten units of memory. A request says how many units it needs. Its worker takes them, works in three
// pieces with the turns of others between, answers, and gives them back.
void worker(int n) {
  int units;
  int piece;
  while (1) {
    units = accept();
    take(1, units);
    for (piece = 0; piece < 3; piece = piece + 1) yield();
    put(units);
    give(1, units);
  }
}

int main() {
  spawn(worker, 1);
  spawn(worker, 2);
  return 0;
}
