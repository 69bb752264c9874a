"""What tools/draft is made of."""
