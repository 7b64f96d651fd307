# A low and a high user of the site examples/site.policy, and a file of each.

# User 0 has level 0. It makes the file `notes` in the root, writes it and closes it.
0 0 101 | EXCHANGE_ID low
0 0 102 | CREATE_SESSION 0.1
0 0 103 | SEQUENCE 0.1 1 | PUTROOTFH | OPEN +notes 2 0 | GETFH | WRITE 0.1.1 0 We meet at nine. | CLOSE 0.1.1

# User 300 has level 3, which dominates level 0. It reads `notes`, and can't write it.
1 300 104 | EXCHANGE_ID high
1 300 105 | CREATE_SESSION 3.1
1 300 106 | SEQUENCE 3.1 1 | PUTROOTFH | LOOKUP notes | GETATTR 4 80 | READ - 0 100
1 300 107 | SEQUENCE 3.1 2 | PUTROOTFH | LOOKUP notes | WRITE - 0 We don't meet at all.

# It makes the file `plan` in /top, whose label is level 3.
1 300 108 | SEQUENCE 3.1 3 | PUTROOTFH | LOOKUP top | OPEN +plan 2 0 | GETFH | WRITE 3.1.1 0 We meet at eight. | CLOSE 3.1.1

# User 0 can't look into /top. With the handle of `plan`, if it guesses it, it learns no more than with one of no node.
0 0 109 | SEQUENCE 0.1 2 | PUTROOTFH | LOOKUP top | LOOKUP plan
0 0 110 | SEQUENCE 0.1 3 | PUTFH 3.1
0 0 111 | SEQUENCE 0.1 4 | PUTFH 3.99
