#!/usr/bin/env python3
"""What crates/patterns_run must write, made from the paper's sentences and not from the Rattle programs.

The patterns are the twelve-bit words with exactly six ones, in rising order: every choice of six of the twelve bit
positions, as a number, sorted. The paper's index of a word is its place among them. The library's own answers where
there is none: index 924 of a word that is no pattern, word 0 of an index above 923.
"""
import sys
from itertools import combinations

WORDS = sorted(sum(2**bit for bit in bits) for bits in combinations(range(12), 6))
PATTERNS = set(WORDS)


def lines():
    n = len(WORDS)
    yield f"rebuilt {n} words, {n} equal to the table"
    yield f"{n} indexes, {n} with word_of equal"
    yield f"{n} words, {n} with index_of equal"
    yield f"first word {WORDS[0]}, last word {WORDS[-1]}"
    yield f"sum of the words {sum(WORDS)}"
    low = sum(word not in PATTERNS for word in range(4096))
    yield f"{low} other words below 4096, {low} with index_of 924"
    high = sum(word not in PATTERNS for word in range(4096, 65536))
    yield f"{high} words from 4096 to 65535, {high} with index_of 924"
    past = len(range(n, 65536))
    yield f"{past} indexes from {n} to 65535, {past} with word_of 0"


for line in lines():
    sys.stdout.write(line + "\n")
