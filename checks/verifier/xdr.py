"""XDR (RFC 4506): reading items from bytes, and writing them."""


class Undecodable(Exception):
    """The bytes break a rule of their items."""


class Reader:
    """Takes items from the front of some bytes. Where no such item stands each call raises Undecodable, and `at` stays
    where the item begins; within an array and whatever else has items of its own, where the first one begins that
    doesn't decode."""

    def __init__(self, data: bytes):
        self.data = data
        self.at = 0

    def fixed(self, length: int) -> bytes:
        """Bytes of a known length, and their padding, which is zero."""
        padded = padded_length(length)
        taken = self.data[self.at:self.at + padded]
        if len(taken) < padded or any(taken[length:]):
            raise Undecodable
        self.at += padded
        return taken[:length]

    def word(self) -> int:
        return int.from_bytes(self.fixed(4), 'big')

    def word_among(self, least: int, greatest: int) -> int:
        start, number = self.at, self.word()
        if not least <= number <= greatest:
            self.at = start
            raise Undecodable
        return number

    def hyper(self) -> int:
        return int.from_bytes(self.fixed(8), 'big')

    def flag(self) -> bool:
        return self.word_among(0, 1) == 1

    def opaque(self, limit: int) -> bytes:
        start = self.at
        try:
            return self.fixed(self.word_among(0, limit))
        except Undecodable:
            self.at = start
            raise

    def array(self, limit: int, read_item, least: int = 0) -> list:
        count = self.word_among(least, limit)
        return [read_item(self) for _ in range(count)]

    def end(self):
        if self.at != len(self.data):
            raise Undecodable


def padded_length(length: int) -> int:
    return (length + 3) // 4 * 4


def word(*numbers: int) -> bytes:
    return b''.join(number.to_bytes(4, 'big') for number in numbers)


def hyper(number: int) -> bytes:
    return number.to_bytes(8, 'big')


def opaque(data: bytes) -> bytes:
    return word(len(data)) + data + bytes(padded_length(len(data)) - len(data))


def array(items: list[bytes]) -> bytes:
    """Items that are spelled already, after their count."""
    return word(len(items)) + b''.join(items)


def linked(items: list[bytes]) -> bytes:
    """Items that are spelled already, each after TRUE, and then FALSE."""
    return b''.join(word(1) + item for item in items) + word(0)
