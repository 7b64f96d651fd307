# A program of the site examples/site.policy asserts labels. It calls by class 2, which no guest line of the site fits.

# So a uid alone has no level there.
2 300 201 | EXCHANGE_ID guest

# Parent 7 asserts the label of level 3 and gets a context of that level. It makes a client and a session in it, and
# lists the root.
2 7: 202 | ASSERT 101 1 000000010103e4000000
2 7:3.1 203 | EXCHANGE_ID asserted
2 7:3.1 204 | CREATE_SESSION 3.1
2 7:3.1 205 | SEQUENCE 3.1 1 | PUTROOTFH | READDIR

# Parent 8 may assert labels up to that of level 1, and this one isn't among them.
2 8: 206 | ASSERT 101 1 000000010103e4000000

# Who doesn't have the secret of parent 7 calls in no context of it.
2 7:3.1 207 FORGED | SEQUENCE 3.1 2 | PUTROOTFH

# The context ends, and nobody calls in it any more.
2 7:3.1 208 | END
2 7:3.1 209 | SEQUENCE 3.1 2 | PUTROOTFH

# The session is its level's, and stays. In a new context the listing is asked again under its sequence.
2 7: 210 | ASSERT 101 1 000000010103e4000000
2 7:3.2 211 | SEQUENCE 3.1 1 | PUTROOTFH | READDIR
