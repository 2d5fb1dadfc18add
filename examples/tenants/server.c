// Two tenants share the machine. Each puts its number and lets the other have a turn, again and again.
void tenant(int number) {
  while (1) {
    put(number);
    yield();
  }
}

int main() {
  spawn(tenant, 1);
  spawn(tenant, 2);
  return 0;
}
