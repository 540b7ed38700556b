"""Witness circuits, and the six conditions under which they are some: for tools/witness_judge."""
