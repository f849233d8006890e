"""A study in one file and one command: from published feeds to a folder with the matrix, its tables, maps and a report,
resumed wherever it was interrupted.
"""
