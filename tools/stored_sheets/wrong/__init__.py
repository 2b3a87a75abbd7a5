"""Wrong rules. The tests put each in the place of the right one, and it has to be noticed.

What is imported here stays the right one: the tests replace names of the rules' modules.
"""
