"""What stands between the proved library and the people of an office: its calls, words for its numbers, pictures.

Nothing about papers is worked out here that a call answers: numbers, lines, verdicts, keys, counts, cuts and slips
come from the library.
"""
