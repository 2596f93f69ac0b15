"""Certificates, checked from a program's text alone."""
