// An arrival is the number of a channel. On it come the length of a list and then its numbers; the answer is their sum.
int sum_of_list(int channel) {
  int left;
  int part;
  int sum;
  sum = 0;
  left = wait(channel);
  while (left > 0) {
    part = wait(channel);
    sum = sum + part;
    left = left - 1;
  }
  return sum;
}

void worker(int n) {
  int channel;
  int sum;
  while (1) {
    channel = accept();
    sum = sum_of_list(channel);
    put(sum);
  }
}

int main() {
  spawn(worker, 1);
  spawn(worker, 2);
  return 0;
}
