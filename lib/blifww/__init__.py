"""What the repository's scripts stand on: one module for each format and job. CONTRIBUTING.md has the table.

A text is Latin-1 in all of them: a character for each byte. So names are bytes, whatever their encoding.
"""
