// An arrival is the number of a channel. On it come the length of a list and then its numbers; the answer is their sum. A
// peer that is silent for 500 ticks is given up: the answer is -1, and the worker takes the next one.
int sum_of_list(int channel) {
  int left;
  int part;
  int sum;
  int heard;
  heard = waitfor(channel, 500);
  if (!heard) return -1;
  left = wait(channel);
  sum = 0;
  while (left > 0) {
    heard = waitfor(channel, 500);
    if (!heard) return -1;
    part = wait(channel);
    sum = sum + part;
    left = left - 1;
  }
  return sum;
}

void worker(int n) {
  int channel;
  int sum;
  while (1) {
    channel = accept();
    sum = sum_of_list(channel);
    put(sum);
  }
}

int main() {
  spawn(worker, 1);
  return 0;
}
