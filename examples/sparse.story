# A sparse file of a low user on the site examples/site.policy, and a high user who takes a copy of it.

# User 0 makes `image` in the root, of 16,384 bytes with data in one place, and looks for data and for a hole.
0 0 101 | EXCHANGE_ID low
0 0 102 | CREATE_SESSION 0.1
0 0 103 | SEQUENCE 0.1 1 | PUTROOTFH | OPEN +image 3 0 | ALLOCATE 0.1.1 0 16384 | WRITE 0.1.1 9000 hello | SEEK - 0 data | SEEK - 8192 hole

# User 300, of level 3, makes `copy` in its own directory and clones `image` into it.
1 300 104 | EXCHANGE_ID high
1 300 105 | CREATE_SESSION 3.1
1 300 106 | SEQUENCE 3.1 1 | PUTROOTFH | LOOKUP top | OPEN +copy 3 0
1 300 107 | SEQUENCE 3.1 2 | PUTROOTFH | LOOKUP image | SAVEFH | PUTFH 3.1 | CLONE - 3.1.1 0 0 0 | READ 3.1.1 9000 5

# It can't clone its own file back.
1 300 108 | SEQUENCE 3.1 3 | PUTFH 3.1 | SAVEFH | PUTROOTFH | LOOKUP image | CLONE 3.1.1 - 0 0 0

# User 0 clears the data: nothing but a hole is left. The time of access is that of its own SEEKs.
0 0 109 | SEQUENCE 0.1 2 | PUTROOTFH | LOOKUP image | GETATTR 47 | DEALLOCATE 0.1.1 9000 5 | SEEK 0.1.1 0 data | GETATTR 4
