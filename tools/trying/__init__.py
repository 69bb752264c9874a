"""What tools/check-prove hands to ./prove, and what it wants of it."""
