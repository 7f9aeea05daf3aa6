"""What the C library does with memory that was given back."""

TRIM_THRESHOLD, MMAP_THRESHOLD = -1, -3  # of mallopt
LONG, KEPT = 2 << 20, 4 << 20  # bytes from which on a piece is the system's own; that are kept at most, for each of some threads


def keep_for_chunks() -> None:
    """For a program, at its start: what one chunk took is kept for the next one. Else each line of a MiB is taken from the system page by page, and given back."""
    import ctypes  # (which takes as long as a short command may)

    try:
        adjust = ctypes.CDLL(None).mallopt
    except (OSError, AttributeError):  # another C library
        return
    adjust(MMAP_THRESHOLD, LONG)
    adjust(TRIM_THRESHOLD, KEPT)
