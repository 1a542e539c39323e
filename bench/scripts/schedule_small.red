rlset ofsf$
rlqe ex({s1,s2,s3},(s1 >= 0 and s2 >= s1+1 and s3 >= s2+2 and s1+1 <= 6 and s2+2 <= 6 and s3+3 <= 6));
