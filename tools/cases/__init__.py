"""Runs the program on the cases of the folder `cases`, of the pages on the language and of the bench.

cases/README.md says how they are written.
"""
