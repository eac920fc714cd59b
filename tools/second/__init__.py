"""A second reading of the rules of play, in Python and slow, for `bench/agree` to compare what the program writes with.

It has all commands, refuses what the program refuses, and follows docs/LANGUAGE.md and docs/FORMATS.md; it shares nothing with the
program. The grammar of transcripts is that of tables.
"""
