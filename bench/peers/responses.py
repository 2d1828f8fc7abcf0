"""Reads the responses of a trace that is taken for sound: a list of names for each operation, with the operation's name."""
from pathlib import Path


def responses_of(path: str) -> list[tuple[str, list[str]]]:
    """The operations' names and responses, in the order of the text's lines."""
    counts, responses = {}, []
    for line in Path(path).read_text().splitlines()[2:]:
        front, colon, names = line.partition(" :")
        if colon:
            replica = front.split(" ", 1)[0]
            counts[replica] = counts.get(replica, 0) + 1
            responses.append((f"{replica}.{counts[replica]}", names.split()))
    return responses
