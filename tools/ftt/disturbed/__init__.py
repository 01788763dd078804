"""A bus with errors: what they cost, how often they come, and runs of a plan on it. docs/ERRORS.md says what is promised.

This program is a help for people. Nothing of it is proved, and nothing that is proved rests on it.
"""
