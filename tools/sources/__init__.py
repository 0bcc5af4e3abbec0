"""What tools/promises, tools/pages and tools/edits share: the sources of the crates, the page of statements, and the must-fail edits."""
