"""Emitted C text that a debugger shows in the Vault text."""
