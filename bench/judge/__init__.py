"""A second implementation of what can be told from outside, written from docs/formats.md and docs/commands.md for small cases.

It shares nothing with the program: bench/differ.py compares the two. words reads a command's words, files the files, model makes
problems of samples, tile sets and boxes, legal says what a legal map is and looks for one by trying all, turns makes the defined run,
proofs checks and spells refutations, texts spells the answers, and answers puts them together.
"""
