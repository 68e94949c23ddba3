"""What tools/fuzz tries: random scripts, random damage to log files, and random kills."""
