// The work of the scripts beside it as OpenMP tasks: tasks NAME prints nanoseconds, tasks made and a check.
// gcc -O2 -fopenmp -o tasks tasks.c && OMP_NUM_THREADS=4 ./tasks chain 10000
#include <omp.h>
#include <stdio.h>
#include <stdlib.h>
#include <string.h>

static long made[64 * 16];

static void count(void) { made[omp_get_thread_num() * 16]++; }

// A loop of n prints: each task writes its number into a text of its thread.
static long flat(long n) {
  static char texts[64][64];
  for (long i = 1; i <= n; i++) {
#pragma omp task firstprivate(i)
    {
      count();
      snprintf(texts[omp_get_thread_num()], 64, "%ld", i);
    }
  }
#pragma omp taskwait
  return n;
}

static long fib(long n) {
  count();
  if (n < 2) return n;
  long a, b;
#pragma omp task shared(a)
  a = fib(n - 1);
#pragma omp task shared(b)
  b = fib(n - 2);
#pragma omp taskwait
  return a + b;
}

// A chain of n scalars, each a task that depends on the one before.
static long chain(long n) {
  long *x = calloc(n + 1, sizeof *x);
  for (long i = 1; i <= n; i++) {
#pragma omp task firstprivate(i) depend(in : x[i - 1]) depend(out : x[i])
    {
      count();
      x[i] = x[i - 1] + 1;
    }
  }
#pragma omp taskwait
  long last = x[n];
  free(x);
  return last;
}

// n x n turns, each a task that stores into every other place.
static long nested(long n) {
  long *a = calloc(n * n, sizeof *a), filled = 0;
  for (long i = 0; i < n; i++) {
#pragma omp task firstprivate(i)
    {
      count();
      for (long j = 0; j < n; j++) {
#pragma omp task firstprivate(i, j)
        {
          count();
          if ((i + j) % 2 == 0) a[i * n + j] = i + 1;
        }
      }
#pragma omp taskwait
    }
  }
#pragma omp taskwait
  for (long k = 0; k < n * n; k++) filled += a[k] != 0;
  free(a);
  return filled;
}

static long square(long n) {
  count();
  return n * n;
}

// n calls of a small function, each a task in a task.
static long calls(long n) {
  long *a = calloc(n + 1, sizeof *a), sum = 0;
  for (long i = 1; i <= n; i++) {
#pragma omp task firstprivate(i)
    {
      count();
      long r;
#pragma omp task shared(r)
      r = square(i);
#pragma omp taskwait
      a[i] = r;
    }
  }
#pragma omp taskwait
  for (long i = 1; i <= n; i++) sum += a[i] != 0;
  free(a);
  return sum;
}

int main(int argc, char **argv) {
  const char *name = argc > 1 ? argv[1] : "";
  long answer = 0;
  double start = omp_get_wtime();
#pragma omp parallel
#pragma omp single
  {
    if (!strcmp(name, "flat")) answer = flat(1000000);
    if (!strcmp(name, "fib22")) answer = fib(22);
    if (!strcmp(name, "fib24")) answer = fib(24);
    if (!strcmp(name, "chain")) answer = chain(argc > 2 ? atol(argv[2]) : 10000);
    if (!strcmp(name, "array")) answer = chain(1000000);
    if (!strcmp(name, "nested")) answer = nested(1000);
    if (!strcmp(name, "calls")) answer = calls(200000);
  }
  double time = omp_get_wtime() - start;
  long tasks = 0;
  for (int i = 0; i < 64; i++) tasks += made[i * 16];
  printf("%.0f %ld %ld\n", time * 1e9, tasks, answer);
  return 0;
}
