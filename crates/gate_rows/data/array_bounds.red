% The middle of two places lies between them.
rlset pasf$
rlqe all({low,high,mid}, low <= high and (2*mid = low + high or 2*mid + 1 = low + high) impl low <= mid and mid <= high);
% For which lengths n is a[i + 1] within the array whenever a[i] is?
rlqe all(i, 0 <= i and i < n impl i + 1 < n);
