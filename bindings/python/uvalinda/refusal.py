"""The refusals by name and number."""

# Number, name and what it says of itself, and for one that tells something besides its number the name of that: the list that the classes are made of.
_REFUSALS = (
    (1, "AreaLimit", "the width or the height is 0 or over 65,535"),
    (2, "SquareOutside", "the square is outside the area"),
    (3, "NumberOutside", "the area has no such number"),
    (4, "TableLength", "the table has not as many places as the area has squares, or the file to be written not as many bytes as its card"),
    (5, "NotANumber", "a field of the line is not a number"),
    (6, "WrongShape", "the line has the wrong shape"),
    (7, "NoArea", "no area is in force"),
    (8, "LongLine", "the line has over 64 bytes"),
    (9, "TooDeep", "over 64 blocks of the division hold the square"),
    (10, "CornersCrossed", "the window's corners are crossed"),
    (11, "NoRoom", "there are more runs than there is room for"),
    (12, "OriginLimit", "the origin is beyond 1,000,000 either way"),
    (13, "TooManySquares", "the area has more than 16,777,216 squares"),
    (14, "BadCheck", "the check of block {block} is bad", "block"),
    (15, "Departure", "the file is not the card of this area and kind, or the table not the right one"),
)


class Refusal(ValueError):
    """Why a call or a line is refused. Each refusal is a class of its own below this one, and has its number; `BadCheck` has the block too."""

    number = 0
    says = ""
    tells = ()

    def __init__(self, *told):
        super().__init__(*told)
        vars(self).update(zip(self.tells, told, strict=True))

    def __str__(self):
        return self.says.format(**vars(self))


def _made(number, name, says, *tells):
    return type(name, (Refusal,), {"__doc__": f"Refusal {number}: {says}.", "__module__": __name__, "number": number, "says": says, "tells": tells})


BY_NUMBER = {number: _made(number, *rest) for number, *rest in _REFUSALS}
globals().update((refusal.__name__, refusal) for refusal in BY_NUMBER.values())
__all__ = ["Refusal", *(refusal.__name__ for refusal in BY_NUMBER.values())]


def unless_refused(returned, *values):
    """Raises the refusal whose number a call returned. No result slice of these bindings is too short, so that it returns no other number.

    What a refusal tells is the first of the values that the call wrote.
    """
    if returned != 0:
        refused = BY_NUMBER[returned]
        raise refused(*values[: len(refused.tells)])
