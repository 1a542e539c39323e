% A loop counts up:  i := 0; while i < n do i := i + 1.
% The invariant holds at first, is kept, and gives i = n behind the loop.
rlset pasf$
inv := 0 <= i and i <= n$
rlqe all(n, n >= 0 impl 0 <= 0 and 0 <= n);
rlqe all({i,n}, inv and i < n impl 0 <= i + 1 and i + 1 <= n);
rlqe all({i,n}, inv and i >= n impl i = n);
% By how much may i grow at once?
rlqe all({i,n}, 0 <= i and i < n impl i + k <= n);
