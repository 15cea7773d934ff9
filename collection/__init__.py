"""Decides a whole collection of designs, and writes its report: a page to look at, a table, and the certificates."""
