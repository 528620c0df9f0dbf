"""Captures: how they are read, sessions whose truth is known, and damage."""
