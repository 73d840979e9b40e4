"""Why a call was refused."""

# The refusals by their number.
WORDS = {
    1: "a side is 0 or over 32768",
    2: "there are fewer cells than pixels",
    3: "the set of variables, the range of a parameter or the interval of a plot's edge is not legal",
    4: "there is not one verdict for each child",
    5: "a verdict is not legal for its child",
    6: "the new blocks do not fit the ring",
    7: "the numbers of blocks are used up",
    8: "the record, the front block or a cell is damaged, or a block is none of the plot's",
    9: "the number has no code",
    10: "the bytes of a code end early",
    11: "a code begins with the byte 0",
    12: "the picture buffer is shorter than the pixels",
    13: "the queue is empty",
    14: "the sheet is not one that the program takes",
    15: "a bound of the box is not finite, or its ends cross",
    16: "the padding leaves no width or no height",
    17: "the table has fewer than four numbers a tile",
    18: "the pixel lies outside the picture",
}


class Refused(Exception):
    """A call was refused, and has changed nothing. `number` is its number in the table of refusals. A step's 4 has also `given` and
    `children`, two counts; its 5 has `child`, the place in the listing from 0 (a Reason counts from 1), its `level`, and the `byte` that it
    cannot have. Where the steps of a tape are repeated, `step` is the one that was refused, from 1."""

    def __init__(self, number: int, words: str = "", **about: int):
        super().__init__(number, words or WORDS.get(number, "this module has no words for it"))
        self.number = number
        self.__dict__.update(about)

    def __str__(self) -> str:
        return "refused {}: {}".format(*self.args)


class NoMemory(Refused, MemoryError):
    """As a refusal by 6, where a chart should get a longer ring: there is no memory for so many `bytes`."""

    def __init__(self, count: int):
        Refused.__init__(self, 6, f"there is no memory for {count} bytes", bytes=count)

    def __reduce__(self):
        return (NoMemory, (self.bytes,))


def check(number: int) -> None:
    if number:
        raise Refused(number)
