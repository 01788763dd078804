"""How the scripts build what the gate does not build: programs without proofs, and the library for C."""
