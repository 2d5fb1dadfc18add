// Three workers share four units. The second request reads past its array, while the third waits for its units.
int get(int i) {
  int a[4];
  a[0] = 7;
  return a[i];
}

int twice(int i) {
  return get(i) + get(i + 1);
}

void worker(int n) {
  int request;
  while (1) {
    request = accept();
    take(1, request);
    sleep(50);
    put(twice(request));
    give(1, request);
  }
}

int main() {
  int n;
  for (n = 0; n < 3; n = n + 1) spawn(worker, n);
  return 0;
}
