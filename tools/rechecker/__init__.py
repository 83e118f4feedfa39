"""A second checker of certificates: what docs/assessing.md says, in Python. Not proved: a tool."""
