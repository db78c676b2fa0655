"""What the programs of checks/ are made of; each file's head says whom it is for."""
