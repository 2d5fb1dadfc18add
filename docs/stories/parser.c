// A parser of requests, as of a web server. An arrival is the number of a channel, on which the characters of a request come: G or P for the
// method, a path of parts as /7/42, a ? with pairs as a=1&b=2, and an end of line (10). The body of P follows: its length and that many
// numbers. The answer is a checksum, or below 0: -1 bad method, -2 bad path, -3 bad pair, -4 too long, -5 silent.
int met[64];

int next(int channel) {
  if (!waitfor(channel, 2000)) return -5;
  return wait(channel);
}

int is_digit(int c) {
  return c >= 48 && c <= 57;
}

int is_letter(int c) {
  return c >= 97 && c <= 122;
}

int number_of(int channel, int first) {
  int value;
  int c;
  value = first - 48;
  c = next(channel);
  while (is_digit(c)) {
    value = value * 10 + c - 48;
    c = next(channel);
  }
  met[channel] = c;
  return value;
}

int path_of(int channel) {
  int parts[8];
  int count;
  int sum;
  int i;
  count = 0;
  while (met[channel] == 47) {
    int c = next(channel);
    if (!is_digit(c)) return -2;
    if (count == 8) return -4;
    parts[count] = number_of(channel, c);
    count = count + 1;
  }
  sum = 0;
  for (i = 0; i < count; i = i + 1) sum = sum * 31 + parts[i];
  return sum & 65535;
}

int pairs_of(int channel) {
  int names[16];
  int values[16];
  int count;
  int sum;
  int i;
  count = 0;
  while (met[channel] == 63 || met[channel] == 38) {
    int c = next(channel);
    if (!is_letter(c)) return -3;
    if (count == 16) return -4;
    names[count] = c;
    if (next(channel) != 61) return -3;
    c = next(channel);
    if (!is_digit(c)) return -3;
    values[count] = number_of(channel, c);
    count = count + 1;
  }
  sum = 0;
  for (i = 0; i < count; i = i + 1) sum = sum + names[i] * values[i];
  return sum & 65535;
}

int body_of(int channel) {
  int left;
  int sum;
  sum = 0;
  left = next(channel);
  if (left > 64) return -4;
  while (left > 0) {
    int part = next(channel);
    if (part < 0) return part;
    sum = sum + part;
    left = left - 1;
  }
  return sum & 65535;
}

int request_of(int channel) {
  int method;
  int path;
  int pairs;
  method = next(channel);
  if (method != 71 && method != 80) return -1;
  met[channel] = next(channel);
  path = path_of(channel);
  if (path < 0) return path;
  pairs = met[channel] == 63 ? pairs_of(channel) : 0;
  if (pairs < 0) return pairs;
  if (met[channel] != 10) return -3;
  if (method == 71) return path + pairs;
  return path + pairs + body_of(channel);
}

void connection(int n) {
  while (1) put(request_of(accept()));
}

int main() {
  int n;
  for (n = 0; n < 8; n = n + 1) spawn(connection, n);
  return 0;
}
