/* Two threads that hand the right to run to and fro, TURNS times each. Resource 1 is free when the first may run, and
   resource 2 when the second may. */
void hander(int me) {
  int turn;
  for (turn = 0; turn < TURNS; turn = turn + 1) {
    take(1 + me, 1);
    give(2 - me, 1);
  }
}

int main() {
  take(2, 1);
  spawn(hander, 0);
  spawn(hander, 1);
  return 0;
}
