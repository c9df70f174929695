"""A generator of files of evidence, each with the verdict that is intended."""
