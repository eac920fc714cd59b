"""Explains the line that the program ends with to a person: where in the source it points, and what would mend it."""
