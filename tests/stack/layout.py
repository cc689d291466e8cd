"""How a record lies in memory: each field at the next place that its alignment allows, as in C. An enum has a tag."""

TAG = (1, 1)


def laid_out(fields):
    """The size and the alignment of fields, each a size and an alignment, one after another."""
    place, widest = 0, 1
    for size, alignment in fields:
        place += -place % alignment + size
        widest = max(widest, alignment)
    return place + -place % widest, widest


def of_enum(variants):
    """Those of an enum: the largest variant, each with the tag before its fields."""
    found = [laid_out([TAG, *fields]) for fields in variants]
    widest = max(alignment for _, alignment in found)
    size = max(size for size, _ in found)
    return size + -size % widest, widest


def of_array(element, count):
    size, alignment = element
    return size * count, alignment
