// 1,000 connections that mostly wait, each a thread of its own. A request goes to the one that has waited longest, which works for 1,000
// ticks and answers.
void connection(int n) {
  int request;
  while (1) {
    request = accept();
    sleep(1000);
    put(request);
  }
}

int main() {
  int n;
  for (n = 0; n < 1000; n = n + 1) spawn(connection, n);
  return 0;
}
