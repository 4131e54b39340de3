"""Readable texts of job sheets and panels, and the files that they stand for.

docs/TEXT.md says how a text is written. The modules, from the bottom up:

    limits           the numbers that a text is held to
    faults           what is wrong, and where
    source           a file's characters
    words, literals  the words of a line; integers and byte strings
    forms            what a text is made of
    naming           the number of each name
    type_reading, pattern_reading, reading
                     a text line by line
    resolving        the types of a text, and their rules
    fitting          patterns and values against types
    writing          sheet and panel files
    checking         all of these for one text
    sameness         the types of two texts against each other
    sheet_reading    a sheet file's records, and refusals 2 to 11
    showing          a sheet file as a text
"""
