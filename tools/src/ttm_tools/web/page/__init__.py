"""A matrix as one file of HTML: its content (`content`), encoded as text (`parts`), and the document with both
(`document`), which the files of `assets` show in a browser.
"""
