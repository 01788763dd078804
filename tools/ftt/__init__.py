"""The tools of fttcan that make, check, search and read its files.

`ftt.model`, `ftt.lint`, `ftt.search` and `ftt.log` are the commands, each with a function `main`. The modules beside
them have what they share. tools/reference and the checks use none of it, so that they can tell where it is wrong.
"""
