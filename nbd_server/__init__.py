"""The NBD server that `./nbd` runs (docs/NBD.md), the gate's test of it, and a comparison with real clients."""
