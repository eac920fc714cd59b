"""What a sheet may say and is likely a mistake."""
