/* A pool of 16 workers. */
void worker(int n) {
  int request;
  while (1) {
    request = accept();
    put(request * request);
  }
}

int main() {
  int i;
  for (i = 0; i < 16; i = i + 1)
    spawn(worker, i);
  return 0;
}
