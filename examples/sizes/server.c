// Each arrival starts a thread that waits on that channel for a number n, and puts in how many ways n is a sum of numbers above 0,
// whatever their order. For that it needs a list; while it waits it needs next to nothing.
int ways(int n) {
  int of[101];
  int part;
  int i;
  of[0] = 1;
  for (part = 1; part <= n; part = part + 1) {
    for (i = part; i <= n; i = i + 1) of[i] = of[i] + of[i - part];
    yield();
  }
  return of[n];
}

void guest(int channel) {
  int n;
  int answer;
  n = wait(channel);
  take(1, 1);
  answer = ways(n);
  put(answer);
  give(1, 1);
}

int main() {
  int channel;
  while (1) {
    channel = accept();
    spawn(guest, channel);
  }
}
