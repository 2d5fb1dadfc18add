// A key-value store with a log of its changes. A request is 100000 * operation + 1000 * key + value, with keys from 1 to 15:
// 1 sets a key, 2 gets it, 3 removes it, 4 makes the log short. The table and the log have a lock each, resources 1 and 2.
int keys[64];
int values[64];
int used;

int log_keys[48];
int log_values[48];
int logged;
int removals;

int slot_of(int key) {
  int slot;
  slot = key * 7 % 64;
  while (keys[slot] != 0 && keys[slot] != key) slot = (slot + 1) % 64;
  return slot;
}

void lock(int which) {
  take(which, 1);
}

void unlock(int which) {
  give(which, 1);
}

int get(int key) {
  int slot;
  int found;
  lock(1);
  slot = slot_of(key);
  found = keys[slot] == key ? values[slot] : -1;
  unlock(1);
  return found;
}

// A change goes into the table and then to the end of the log.
int change(int key, int value) {
  int slot;
  lock(1);
  slot = slot_of(key);
  if (keys[slot] == 0) {
    keys[slot] = key;
    used = used + 1;
  }
  values[slot] = value;
  lock(2);
  log_keys[logged] = key;
  log_values[logged] = value;
  logged = logged + 1;
  unlock(2);
  unlock(1);
  return logged;
}

int set(int key, int value) {
  if (key < 1 || key > 15) return -1;
  change(key, value);
  return value;
}

int remove(int key) {
  int before;
  before = get(key);
  if (before < 0) return -1;
  change(key, -1);
  removals = removals + 1;
  return before;
}

// The log keeps the last change of each key that the table has.
int shorten() {
  int slot;
  int kept;
  lock(2);
  lock(1);
  kept = 0;
  for (slot = 0; slot < 64; slot = slot + 1) {
    if (keys[slot] != 0 && values[slot] >= 0) {
      log_keys[kept] = keys[slot];
      log_values[kept] = values[slot];
      kept = kept + 1;
    }
  }
  logged = kept;
  unlock(1);
  unlock(2);
  return kept;
}

int done(int request) {
  int operation;
  int key;
  operation = request / 100000;
  key = request / 1000 % 100;
  if (operation == 1) return set(key, request % 1000);
  if (operation == 2) return get(key);
  if (operation == 3) return remove(key);
  return shorten();
}

void worker(int n) {
  int request;
  while (1) {
    request = accept();
    put(done(request));
    if (logged > 30) shorten();
  }
}

int main() {
  int n;
  for (n = 0; n < 4; n = n + 1) spawn(worker, n);
  return 0;
}
