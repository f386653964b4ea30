"""What kind of packet a frame of Ethernet has, as it is counted in tests of captured traffic."""

OVER_IPV6, BARE = "TCP over IPv6", "TCP over IPv4 without an identification"
EXTENDED = "UDP over IPv6 behind extension headers"
EXTENSIONS, FRAGMENT = (0, 43, 60), 44


def behind(frame: bytes) -> int:
    """The number of what stands behind the extension headers of a frame of IPv6, or of that of a fragment."""
    number, at = frame[20], 54
    while number in EXTENSIONS:
        number, at = frame[at], at + 8 * (frame[at + 1] + 1)
    return number


def kind_of(frame: bytes) -> str:
    """The protocols of a frame; of one that is no message, an empty text."""
    family = {b"\x08\x00": "IPv4", b"\x86\xdd": "IPv6"}.get(frame[12:14])
    if family is None:
        return ""
    number = behind(frame) if family == "IPv6" else frame[23]
    protocol = {6: "TCP", 17: "UDP"}.get(number)
    if number == FRAGMENT or (family == "IPv4" and int.from_bytes(frame[20:22], "big") & 0x3FFF):
        return f"fragments over {family}"
    if (protocol, family, frame[18:20]) == ("TCP", "IPv4", bytes(2)):
        return BARE
    if protocol and family == "IPv6" and frame[20] in EXTENSIONS:
        return EXTENDED
    return f"{protocol} over {family}" if protocol else ""
