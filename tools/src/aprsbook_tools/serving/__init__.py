"""A live net: what `aprs-net serve`, `push` and `token` are made of.

All that is kept is an append-only file of lines, and each line is an element of a set: a log of a
receiver and a day, or the journal of a desk. Sets are united, which is associative, commutative and
idempotent, as merging is. So lines may come late, twice and in any order, and nothing is agreed on.
"""
