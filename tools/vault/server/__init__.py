"""The language server: the Language Server Protocol 3.17 over standard input and output."""
