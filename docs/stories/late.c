int size;
int slots[8];

void opener(int n) {
  size = 8;
}

void worker(int n) {
  int request;
  while (1) {
    request = accept();
    slots[request % size] = request;
    put(request);
  }
}

int main() {
  spawn(opener, 0);
  spawn(worker, 1);
  return 0;
}
