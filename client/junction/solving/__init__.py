"""Settling studies that a search alone does not settle: by shifts, renumbering and parts, on copies of the block. The service's replies are the only ground."""
