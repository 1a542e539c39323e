% A workshop makes chairs and tables. A chair takes 2 boards and an hour, a table 3 boards and 2 hours.
% There are 12 boards and 7 hours.

% Is there a plan with 2 chairs and 2 tables at least? A point that meets all constraints is one, in fractions.
rlcert({2*chairs + 3*tables <= 12, chairs + 2*tables <= 7, chairs >= 2, tables >= 2});

% With 3 tables at least there is none. The multipliers say why: the boards once, the chairs twice and the
% tables three times add up to 1 <= 0, since 2 chairs and 3 tables take 13 boards.
rlcert({2*chairs + 3*tables <= 12, chairs + 2*tables <= 7, chairs >= 2, tables >= 3});

% Anyone can check multipliers, also others: the hours are too few as well. The last ones prove nothing.
rlcheck({2*chairs + 3*tables <= 12, chairs + 2*tables <= 7, chairs >= 2, tables >= 3}, {1,0,2,3});
rlcheck({2*chairs + 3*tables <= 12, chairs + 2*tables <= 7, chairs >= 2, tables >= 3}, {0,1,1,2});
rlcheck({2*chairs + 3*tables <= 12, chairs + 2*tables <= 7, chairs >= 2, tables >= 3}, {1,0,1,1});
