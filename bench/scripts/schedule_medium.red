rlset ofsf$
rlqe ex({s1,s2,s3,s4,s5,s6},(s1 >= 0 and s2 >= s1+1 and s3 >= s2+2 and s4 >= s3+3 and s5 >= s4+4 and s6 >= s5+5 and s1+1 <= 21 and s2+2 <= 21 and s3+3 <= 21 and s4+4 <= 21 and s5+5 <= 21 and s6+6 <= 21));
