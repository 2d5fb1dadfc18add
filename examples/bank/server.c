// Transfers between two accounts. Each account is a resource of one unit, which a transfer holds while it changes the balance: the first
// account first. Two transfers in opposite directions, at the same time, wait for each other for ever.
int balances[3];

void transfer(int from, int to, int amount) {
  take(from, 1);
  sleep(100);
  take(to, 1);
  balances[from] = balances[from] - amount;
  balances[to] = balances[to] + amount;
  put(balances[to]);
  give(to, 1);
  give(from, 1);
}

void teller(int n) {
  int request;
  while (1) {
    request = accept();
    transfer(request / 10, request % 10, 5);
  }
}

int main() {
  spawn(teller, 1);
  spawn(teller, 2);
  return 0;
}
