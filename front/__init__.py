"""The command that staff use, in front of the proved programs: words in, the place and the reason of an error out.

It works out no number of a settlement. What is settled, refused or written is the programs' answer.
"""
