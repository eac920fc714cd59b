"""A series of matches that is longer than one plan may be: played in pieces, by any engine that runs commands, and put together."""
