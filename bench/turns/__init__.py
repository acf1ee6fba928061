"""What bench/turns.py measures: rows by subject, and what makes and measures them."""
