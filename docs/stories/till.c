// A till. A request above 0 is a sale of that many cents: the answer is the price with its tax. A request of 0 closes the
// till: the answer is what was taken since it was opened.
int total;

// The tax office answers after a while.
int tax(int cents) {
  int rate;
  rate = cents > 1000 ? 20 : 10;
  sleep(150);
  return cents * rate / 100;
}

int sale(int cents) {
  int price;
  int before;
  before = total;
  price = cents + tax(cents);
  total = before + price;
  return price;
}

int closed() {
  int taken;
  taken = total;
  total = 0;
  return taken;
}

void cashier(int n) {
  int request;
  while (1) {
    request = accept();
    if (request > 0) put(sale(request));
    else put(closed());
  }
}

int main() {
  spawn(cashier, 1);
  spawn(cashier, 2);
  spawn(cashier, 3);
  return 0;
}
