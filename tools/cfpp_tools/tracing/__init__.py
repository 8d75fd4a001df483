"""What `cfpp run --show moves` wrote, followed from move to move and written again for other tools."""
