int main() { put(7); return 0; }
