// An arrival is the number of a channel. On it come the prices of an order, one after another; 500 ticks after the last of them the
// order is over. Two workers take orders, and each answers with what both have sold so far.
int sold;

int sum_of(int channel) {
  int sum;
  sum = 0;
  while (waitfor(channel, 500)) sum = sum + wait(channel);
  return sum;
}

void worker(int n) {
  while (1) {
    sold = sum_of(accept()) + sold;
    put(sold);
  }
}

int main() {
  spawn(worker, 1);
  spawn(worker, 2);
  return 0;
}
