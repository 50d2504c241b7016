"""The end of a list: how much it is."""
import textwrap


def summary(entries, kit):
    lines, comments = count(entries)
    crates = sorted({entry.key.crate for entry in entries})
    words = ", ".join(sorted({word.name for word in kit}))
    return "\n".join([
        f"-- {len(entries)} definitions, {lines} lines, of which {comments} are comments, in {len(crates)} crates: "
        f"{', '.join(crates)}",
        *textwrap.wrap(f"Of the kit's library they stop at {len({word.name for word in kit})} words: {words}", 110,
                       initial_indent="-- ", subsequent_indent="-- ", break_on_hyphens=False)])


def count(entries):
    """How many lines the definitions have, and how many of these are comments."""
    return sum(len(entry.lines()) for entry in entries), sum(len(entry.comments()) for entry in entries)
