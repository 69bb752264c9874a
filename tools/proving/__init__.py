"""From a FEN and a claim to rules texts whose tables prove it."""
