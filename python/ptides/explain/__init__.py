"""What `ptides explain` knows: which text of which file a line of the program means, and what to change there."""
