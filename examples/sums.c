/* Sums through a table of functions: a loop, calls, globals, a table and a memory with data. */

static const int primes[] = {2, 3, 5, 7, 11, 13};

static int counted;

static int twice(int x) { counted++; return 2 * x; }

static int square(int x) { counted++; return x * x; }

static int (*const steps[])(int) = {twice, square};

__attribute__((export_name("sum"))) long long sum(int which) {
  long long total = 0;
  for (unsigned i = 0; i < sizeof primes / sizeof primes[0]; i++)
    total += steps[which & 1](primes[i]);
  return total;
}

__attribute__((export_name("counted"))) int how_often(void) { return counted; }

__attribute__((export_name("_start"))) void start(void) { sum(0); }
