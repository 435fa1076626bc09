"""What the tools beside `flow` share: reading graph files and journals, and what is made of them.

They are written in Python's standard library, and nothing is proved of them.
"""
