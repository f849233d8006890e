"""Outputs for people and other programs: tables, pictures, files of geographic information systems."""
