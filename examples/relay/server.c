// A relay of three threads. Between two of them stands a box with room for one letter. Of box b resource 2b + 1 counts the letters that
// are there, and 2b + 2 the free places: main takes the letters, since there are none yet.
int box[2];

void send(int b, int letter) {
  take(2 * b + 2, 1);
  box[b] = letter;
  give(2 * b + 1, 1);
}

int receive(int b) {
  int letter;
  take(2 * b + 1, 1);
  letter = box[b];
  give(2 * b + 2, 1);
  return letter;
}

void reader(int n) {
  while (1) send(0, accept());
}

void doubler(int n) {
  while (1) send(1, 2 * receive(0));
}

void writer(int n) {
  while (1) put(receive(1));
}

int main() {
  take(1, 1);
  take(3, 1);
  spawn(reader, 0);
  spawn(doubler, 0);
  spawn(writer, 0);
  return 0;
}
