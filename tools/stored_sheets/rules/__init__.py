"""The rules of docs/RULES.md, stated by themselves: what has to be answered."""
