"""The gate: all proofs and all tests, and what looks at the sources. Each tool runs in tools/ as `python3 -m gate.NAME`."""
