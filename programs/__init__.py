"""How the programs at the top (./lab, ./status, ./compare, ./audit, ./library) are built and run."""
