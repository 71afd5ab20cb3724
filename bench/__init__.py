"""The bench around the lab (docs/LAB.md): what `./lab --NAME` runs. It asks the program, and has no rule of its own."""
