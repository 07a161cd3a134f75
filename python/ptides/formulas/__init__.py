"""Formulas: named blocks in a text file. This reads them as the program does, with the same lines for what is refused, and computes them."""
