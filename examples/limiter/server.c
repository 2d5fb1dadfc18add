// A rate limiter: no more than two requests are answered in any 1,000 ticks. A request takes a unit of resource 1, and a thread of its
// own gives the unit back 1,000 ticks later.
void give_back(int n) {
  sleep(1000);
  give(1, 1);
}

void worker(int n) {
  int request;
  while (1) {
    request = accept();
    take(1, 1);
    spawn(give_back, 0);
    put(request);
  }
}

int main() {
  spawn(worker, 0);
  return 0;
}
