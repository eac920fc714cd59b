"""Lays out sheets over lines."""
