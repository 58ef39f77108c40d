"""How many crates `rt` works on at once.

Left alone, rt expects of a crate above brc_model two or three times the memory that it takes, and lets it wait until that
is free: of brc_c_flow 12 GB. It would then come last, with the longest chain of others behind it.
"""
import os

# What a proof takes at the most, in bytes; brc_c_flow alone takes 9 GB, when the others beside it take less.
MEMORY_OF_ONE = 5_000_000_000


def lanes():
    """Returns how many proofs run side by side: one for each processor, as many as the memory holds."""
    memory = os.sysconf("SC_PAGE_SIZE") * os.sysconf("SC_PHYS_PAGES")
    return max(1, min(len(os.sched_getaffinity(0)), memory // MEMORY_OF_ONE))


def environment():
    """Returns the environment of a run of `rt`. What its caller sets stays."""
    return {"RT_JOBS": str(lanes()), **os.environ}
