/* Five functions with loop invariants and array bounds. */

/*@ requires 0 <= n <= 1000;
    assigns \nothing;
    ensures 2 * \result == n * 2 || \result == n;
*/
int count_up(int n) {
  int i = 0;
  /*@ loop invariant 0 <= i <= n;
      loop assigns i;
      loop variant n - i;
  */
  while (i < n) {
    i = i + 1;
  }
  return i;
}

/*@ requires 0 <= n <= 10000;
    assigns \nothing;
    ensures \result == 3 * n;
*/
int three_times(int n) {
  int sum = 0;
  int i = 0;
  /*@ loop invariant 0 <= i <= n;
      loop invariant sum == 3 * i;
      loop assigns i, sum;
      loop variant n - i;
  */
  while (i < n) {
    sum = sum + 3;
    i = i + 1;
  }
  return sum;
}

/*@ requires n >= 0 && \valid(a + (0 .. n - 1));
    assigns a[0 .. n - 1];
*/
void clear(int *a, int n) {
  int i;
  /*@ loop invariant 0 <= i <= n;
      loop assigns i, a[0 .. n - 1];
      loop variant n - i;
  */
  for (i = 0; i < n; i++) {
    a[i] = 0;
  }
}

/*@ requires 0 < n && \valid_read(a + (0 .. n - 1));
    assigns \nothing;
    ensures 0 <= \result < n;
*/
int place_of_greatest(const int *a, int n) {
  int best = 0;
  int i;
  /*@ loop invariant 1 <= i <= n;
      loop invariant 0 <= best < i;
      loop assigns i, best;
      loop variant n - i;
  */
  for (i = 1; i < n; i++) {
    if (a[i] > a[best]) best = i;
  }
  return best;
}

/*@ requires 0 <= n <= 100000 && \valid_read(a + (0 .. n - 1));
    assigns \nothing;
    ensures -1 <= \result < n;
*/
int find(const int *a, int n, int wanted) {
  int low = 0;
  int high = n - 1;
  /*@ loop invariant 0 <= low <= n;
      loop invariant -1 <= high <= n - 1;
      loop assigns low, high;
      loop variant high - low + 1;
  */
  while (low <= high) {
    int middle = low + (high - low) / 2;
    if (a[middle] == wanted) return middle;
    if (a[middle] < wanted) low = middle + 1; else high = middle - 1;
  }
  return -1;
}
