"""What document 01 says of answers, as tables: the order of the refusals, the blocks counted, the sizes at the limits."""
import model

ORDER = {
    "load": range(40, 49),
    "request": (39, 28, 20, 21, 22, 23, 7),
    "proof": (39, 4, 25, 26, 27, 7),
    "command": (39, *range(1, 20)),
    "reply": (39, 4, 6, 29, 30, 7),
    "close": (39, 4),
    "revoke": (39, 14, 15),
    "issue": (28, 15, 7),
    "narrow": (28, 32, 31, 7),
    "seal": (28, 5, 12, 30, 7),
    "open": (28, 1, 2, 5, 7, 8, 11, 12),
}

# Call, size of what is handed in, and the number that a call at that size must have been seen with.
SIZES = [("request", 20, 20), ("request", 21, 0), ("request", 276, 0), ("request", 277, 20),
         ("command", 95, 1), ("command", 96, 0), ("command", 16480, 0), ("command", 16481, 2),
         ("reply", 0, 0), ("reply", 12, 0), ("reply", 13, 0), ("reply", 16384, 0), ("reply", 16385, 30),
         ("seal", 0, 0), ("seal", 1, 0), ("seal", 16384, 0), ("seal", 16385, 30),
         ("open", 31, 1), ("open", 32, 0), ("open", 16416, 0), ("open", 16417, 2)]
SIZED = {"request": 0, "command": 0, "reply": 2, "seal": 8, "open": 2}      # the field whose size it is


def sixteenths(length):
    return (length + 15) // 16


def chained(words):
    """How many words stand before the first all-ones word."""
    count = 0
    for word in words:
        if word == model.ONES:
            break
        count += 1
    return count


def command_blocks(number, fields, answer):
    if number in (39, 1, 2, 3, 4, 5, 6, 7):
        return (0,)
    if number == 8:
        return (2,)
    opened = 2 + sixteenths(len(fields[0]) - 32)
    if 9 <= number <= 18:
        return (opened,)
    if number == 19:                        # the answer doesn't tell the words
        return range(opened + 1, opened + 6)
    return (opened + 1 + chained(answer.fields[7:11]),)


def open_blocks(number, fields):
    if number == 8:
        return (2,)
    return (2 + sixteenths(len(fields[2]) - 28),) if number in (0, 11, 12) else (0,)


def blocks(name, fields, answer):
    """The counts that the table "Blocks counted" allows for that answer."""
    if name == "command":
        return command_blocks(answer.number, fields, answer)
    if name == "open":
        return open_blocks(answer.number, fields)
    if answer.number != 0:
        return (0,)
    if name == "reply":
        return (2 + sixteenths(4 + len(fields[2])),)
    if name == "seal":
        return (2 + sixteenths(64 + len(fields[8])),)
    return (1,) if name in ("proof", "issue", "narrow") else (0,)
