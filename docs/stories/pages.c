// A server of pages. A request is a channel, on which come the number of a page and a query. The answer is the value of the
// page plus the query; a page that isn't there has no value, and its answer is 404.
int values[4];

int value_of(int page) {
  if (page < 0 || page > 3) return 404;
  return values[page];
}

int answer(int channel) {
  int page;
  int query;
  page = wait(channel);
  query = wait(channel);
  return value_of(page) + query;
}

void worker(int n) {
  while (1) put(answer(accept()));
}

int main() {
  int i;
  for (i = 0; i < 4; i = i + 1) values[i] = 100 * (i + 1);
  spawn(worker, 1);
  spawn(worker, 2);
  return 0;
}
