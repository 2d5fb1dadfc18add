// A key-value store. An arrival is the number of a channel, on which a client's operations come: 1, a key and a value to set it, 2 and a
// key to get its value, 0 to leave. Keys are above 0. An answer is 1 or the value, and -1 where the store is full or has no such key.
int keys[16];
int values[16];

int slot_of(int key) {
  int slot;
  int tries;
  slot = key % 16;
  for (tries = 0; tries < 16; tries = tries + 1) {
    if (keys[slot] == key || keys[slot] == 0) return slot;
    slot = (slot + 1) % 16;
  }
  return -1;
}

int set(int key, int value) {
  int slot;
  slot = slot_of(key);
  if (slot < 0) return -1;
  keys[slot] = key;
  values[slot] = value;
  return 1;
}

int get(int key) {
  int slot;
  slot = slot_of(key);
  if (slot < 0) return -1;
  return keys[slot] == key ? values[slot] : -1;
}

void serve(int channel) {
  int operation;
  int key;
  while (1) {
    operation = wait(channel);
    if (operation == 0) return;
    key = wait(channel);
    if (operation == 1) put(set(key, wait(channel)));
    else put(get(key));
  }
}

void worker(int n) {
  while (1) serve(accept());
}

int main() {
  spawn(worker, 1);
  spawn(worker, 2);
  return 0;
}
