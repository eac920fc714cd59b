"""Tables of what came of matches: reads house texts and adds up who had how many points, and how long the matches were."""
