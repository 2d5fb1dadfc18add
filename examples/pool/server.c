// Two workers share the arrivals: a free one takes the oldest, and answers with its square.
void worker(int n) {
  int request;
  while (1) {
    request = accept();
    put(request * request);
  }
}

int main() {
  spawn(worker, 1);
  spawn(worker, 2);
  return 0;
}
