/* THREADS threads that wait, and one that recurses 10,000 deep, where it waits for a request. */
void waiter(int channel) {
  int message;
  message = wait(channel);
}

int depth(int n) {
  if (n < 1)
    return accept();
  return depth(n - 1) + 1;
}

void deep(int n) {
  put(depth(n));
}

int main() {
  int i;
  for (i = 0; i < THREADS; i = i + 1)
    spawn(waiter, i % 64);
  spawn(deep, 10000);
  return 0;
}
