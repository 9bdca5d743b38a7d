"""Exploration of a driver: all orders in which a host may call its functions, asked of `vaultc host`."""
