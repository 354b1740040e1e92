"""What the tools beside the program share: readers of project files, bodies and histories, the rules
of the chain, and what is printed about a place. The scripts beside this package are thin."""
