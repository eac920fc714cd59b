"""Sheets and plans made by chance, and what the program is to write alike of them."""
