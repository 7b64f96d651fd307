# A lock of a low user on a file of the site examples/site.policy, and what a high one is told of it.

# User 0 makes `notes` in the root, locks its first ten bytes for writing, and unlocks two in the middle.
0 0 101 | EXCHANGE_ID low
0 0 102 | CREATE_SESSION 0.1
0 0 103 | SEQUENCE 0.1 1 | PUTROOTFH | OPEN +notes 3 0 | LOCK w 0 10 0.1.1 alice
0 0 104 | SEQUENCE 0.1 2 | PUTROOTFH | LOOKUP notes | LOCKT r 9 1 bob
0 0 105 | SEQUENCE 0.1 3 | PUTROOTFH | LOOKUP notes | LOCKU 4 2 0.1.1 | LOCK r 4 2 0.1.1 bob

# User 300, of level 3, sees what is locked below. It can't lock there itself: user 0 would learn of it.
1 300 106 | EXCHANGE_ID high
1 300 107 | CREATE_SESSION 3.1
1 300 108 | SEQUENCE 3.1 1 | PUTROOTFH | LOOKUP notes | LOCKT r 0 all carol
1 300 109 | SEQUENCE 3.1 2 | PUTROOTFH | OPEN notes 1 0 | LOCK r 20 5 3.1.1 carol

# User 0 unlocks all that `alice` has. It is answered as if nobody above were there.
0 0 110 | SEQUENCE 0.1 4 | PUTROOTFH | LOOKUP notes | LOCKU 0 all 0.1.2
