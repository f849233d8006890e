"""Measures of travel times and access, as functions of arrays."""
