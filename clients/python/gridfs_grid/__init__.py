"""A grid of nodes on one machine, as `./grid` starts it: the nodes, what carries their lines, and S3 in front of them."""
