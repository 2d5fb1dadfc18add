// The answer to a request n is 1 + 2 + .. + n, by a recursion n calls deep. At its end the thread yields once, so that
// the log tells how many chunks it holds there.
int sum_to(int n) {
  int rest;
  if (n < 1) {
    yield();
    return 0;
  }
  rest = sum_to(n - 1);
  return n + rest;
}

int main() {
  int request;
  int answer;
  while (1) {
    request = accept();
    answer = sum_to(request);
    put(answer);
  }
}
