"""Documents 01 and 02 in plain Python, written from the documents alone: slow, literal, and independent of the library
that it judges. The words are the documents': marks, ranks, ties, loads, nets."""
