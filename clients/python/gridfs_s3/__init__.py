"""An endpoint of S3 in front of one tenant's files by name (docs/S3.md)."""
