// A calculator. An arrival is the number of a channel, on which the characters of a sum come, and = at its end: numbers, + - * and
// parentheses, nested as deep as memory for stacks goes. next has the character of each channel that is to be read next.
int next[64];

int sum(int channel);

void step(int channel) {
  next[channel] = wait(channel);
}

int number(int channel) {
  int value;
  value = 0;
  while (next[channel] >= 48 && next[channel] <= 57) {
    value = value * 10 + next[channel] - 48;
    step(channel);
  }
  return value;
}

int factor(int channel) {
  int value;
  if (next[channel] != 40) return number(channel);
  step(channel);
  value = sum(channel);
  step(channel);
  return value;
}

int product(int channel) {
  int value;
  value = factor(channel);
  while (next[channel] == 42) {
    step(channel);
    value = value * factor(channel);
  }
  return value;
}

int sum(int channel) {
  int value;
  int sign;
  value = product(channel);
  while (next[channel] == 43 || next[channel] == 45) {
    sign = 44 - next[channel];
    step(channel);
    value = value + sign * product(channel);
  }
  return value;
}

void worker(int n) {
  int channel;
  while (1) {
    channel = accept();
    step(channel);
    put(sum(channel));
  }
}

int main() {
  spawn(worker, 0);
  return 0;
}
