"""How the program is built: with its proofs (tools/prove), and at once without them (tools/compile)."""
