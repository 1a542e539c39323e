rlset ofsf$
rlqe ex({x1,y1,x2,y2,x3,y3},(0 <= x1 and x1+2 <= w and 0 <= y1 and y1+3 <= h and 0 <= x2 and x2+2 <= w and 0 <= y2 and y2+1 <= h and 0 <= x3 and x3+2 <= w and 0 <= y3 and y3+3 <= h and (x1+2 <= x2 or x2+2 <= x1 or y1+3 <= y2 or y2+1 <= y1) and (x1+2 <= x3 or x3+2 <= x1 or y1+3 <= y3 or y3+3 <= y1) and (x2+2 <= x3 or x3+2 <= x2 or y2+1 <= y3 or y3+3 <= y2)));
