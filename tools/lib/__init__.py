"""What the tools share; none of it comes from the program under test."""
