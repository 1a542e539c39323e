/* Functions that are wrong: no prover may prove what is said of them. */

/*@ requires 0 <= n;
    assigns \nothing;
    ensures \result == n + 1;
*/
int one_too_few(int n) {
  int i = 0;
  /*@ loop invariant 0 <= i <= n;
      loop assigns i;
  */
  while (i < n) i = i + 1;
  return i;
}

/*@ requires n >= 0 && \valid(a + (0 .. n - 1));
    assigns a[0 .. n];
*/
void one_too_far(int *a, int n) {
  int i;
  /*@ loop invariant 0 <= i <= n + 1;
      loop assigns i, a[0 .. n];
  */
  for (i = 0; i <= n; i++) a[i] = 0;
}

/*@ requires \valid_read(a + (0 .. 9));
    assigns \nothing;
*/
int below_the_first(const int *a, int k) {
  return a[k - 1];
}
