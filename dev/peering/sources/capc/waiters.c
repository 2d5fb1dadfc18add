/* THREADS threads, each of which waits on one of 64 channels. */
void waiter(int channel) {
  int message;
  message = wait(channel);
}

int main() {
  int i;
  for (i = 0; i < THREADS; i = i + 1)
    spawn(waiter, i % 64);
  return 0;
}
