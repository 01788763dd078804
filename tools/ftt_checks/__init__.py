"""What the check scripts of tools/ share: cases and their count, calls of tools, and the cases of command_cases.

None of it is used by the tools that are checked.
"""
