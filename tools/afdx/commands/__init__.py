"""The commands of `afdx`, one file each."""
