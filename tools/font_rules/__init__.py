"""What tools/fonts and tools/lend share: real fonts, their tables as data memories, and judgements that no rule had a hand in."""
