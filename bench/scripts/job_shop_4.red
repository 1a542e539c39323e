rlset ofsf$
rlqe ex({s1,s2,s3,s4},(s1 >= 0 and s2 >= 0 and s3 >= 0 and s4 >= 0 and s1+1 <= 10 and s2+2 <= 10 and s3+3 <= 10 and s4+4 <= 10 and (s1+1 <= s2 or s2+2 <= s1) and (s1+1 <= s3 or s3+3 <= s1) and (s1+1 <= s4 or s4+4 <= s1) and (s2+2 <= s3 or s3+3 <= s2) and (s2+2 <= s4 or s4+4 <= s2) and (s3+3 <= s4 or s4+4 <= s3)));
