"""The drawings of what the program made: each from a specification and the files beside it."""
