"""The tool around the compiler `vaultc`: programs that are built and kept, pictures of errors, tests and measurements."""
