% A feed is mixed of oats and beans. A kilo of oats has 5 units of fat, 4 of starch and 2 of protein, and
% costs 12; a kilo of beans has 7, 2 and 1, and costs 7. What is the cheapest feed with 8, 15 and 3 units?
rlopt({5*oats + 7*beans >= 8, 4*oats + 2*beans >= 15, 2*oats + beans >= 3, oats >= 0, beans >= 0}, 12*oats + 7*beans);

% Two stores have 10 and 15 loads, two shops want 8 and 17. The first store sends a and b, the second c and d;
% a load costs 4, 6, 5 and 3.
rlopt({a + b = 10, c + d = 15, a + c = 8, b + d = 17, a >= 0, b >= 0, c >= 0, d >= 0}, 4*a + 6*b + 5*c + 3*d);

% When can a project be finished at the earliest? The second job begins 3 days after the first, the third 2
% days after it, the fourth 5 days after the second and 6 after the third, and it takes a day.
rlopt({s1 >= 0, s2 >= s1 + 3, s3 >= s1 + 2, s4 >= s2 + 5, s4 >= s3 + 6, finish >= s4 + 1}, finish);

% The greatest value of a sum is the least one of its negative, with the other sign.
rlopt({chairs >= 0, tables >= 0, chairs + 2*tables <= 4, 3*chairs + tables <= 6}, -chairs - tables);

% Constraints that nothing meets, and a target without a least value.
rlopt({x >= 1, x <= 0}, x);
rlopt({x <= y, y <= 3}, x + y);
