"""Runs: of the program on this machine or a cluster, by the kit, of the second opinion, and of a campaign."""
