// Each arrival starts a thread that sleeps as many ticks as the arrival says, and then puts the number.
void remind(int ticks) {
  sleep(ticks);
  put(ticks);
}

int main() {
  int ticks;
  while (1) {
    ticks = accept();
    spawn(remind, ticks);
  }
}
