"""Subnets that have some addresses and none of others."""

from collections.abc import Collection

from headers import address_text


def common_bits(one: int, other: int, size: int) -> int:
    """Returns how many first bits two numbers of so many bits have in common."""
    return size - (one ^ other).bit_length()


def cover(addresses: Collection[bytes], others: Collection[bytes]) -> list[tuple[bytes, int]]:
    """Returns as few subnets as have all these addresses of one version, and none of the others: each by its first address and its bits."""
    if not addresses:
        return []
    length = len(next(iter(addresses)))
    size = 8 * length
    numbers = sorted(int.from_bytes(it, "big") for it in addresses)
    avoided = sorted(int.from_bytes(it, "big") for it in others if len(it) == length)
    found: list[tuple[bytes, int]] = []
    parts = [numbers]
    while parts:
        part = parts.pop()
        bits = common_bits(part[0], part[-1], size)
        first = part[0] >> size - bits << size - bits
        if bits == size or not any(first <= it < first + (1 << size - bits) for it in avoided):
            found.append((first.to_bytes(length, "big"), bits))
            continue
        middle = first + (1 << size - bits - 1)
        parts += [[it for it in part if it >= middle], [it for it in part if it < middle]]
    return found


def subnet_text(first: bytes, bits: int) -> str:
    return address_text(first) + (f"/{bits}" if bits < 8 * len(first) else "")
