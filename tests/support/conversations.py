"""Conversations of TCP and UDP between sockets in namespaces."""

import socket
import time
from collections.abc import Sequence
from random import Random

from .spaces import within

PATIENCE = 30  # seconds for which a socket waits
MOST_OF_A_READ = 65_536

Turns = Sequence[tuple[int, int]]  # how many bytes are asked, and how many are answered
Address = tuple[str, int]


def bound(space: str, address: str, family: int, kind: int) -> tuple[socket.socket, Address]:
    """A socket in a namespace that has an address there, and its address."""
    with within(space):
        found = socket.socket(family, kind)
    found.settimeout(PATIENCE)
    found.bind((address, 0))
    return found, found.getsockname()[:2]


def serve(listener: socket.socket, turns: Turns) -> None:
    """Answers each question of a connection by so many bytes."""
    with listener, listener.accept()[0] as connection:
        connection.settimeout(PATIENCE)
        for question, answer in turns:
            receive(connection, question)
            connection.sendall(bytes(answer))


def ask(connection: socket.socket, address: tuple[str, int], turns: Turns) -> None:
    """Asks each question of so many bytes, and reads the answer."""
    with connection:
        connection.connect(address)
        for question, answer in turns:
            connection.sendall(bytes(question))
            receive(connection, answer)


def receive(connection: socket.socket, count: int) -> None:
    """Reads so many bytes. Raises ConnectionError where they do not come."""
    while count:
        part = len(connection.recv(min(count, MOST_OF_A_READ)))
        if not part:
            raise ConnectionError("a connection ended early")
        count -= part


def serve_datagrams(end: socket.socket, draw: Random, turns: Turns) -> None:
    """Answers each datagram by one of so many bytes, which go to where it came from."""
    with end:
        for _, answer in turns:
            _, source = end.recvfrom(MOST_OF_A_READ)
            end.sendto(draw.randbytes(answer), source)


def ask_datagrams(end: socket.socket, address: Address, draw: Random, turns: Turns) -> None:
    """Asks by a datagram of so many bytes, and reads the answer."""
    with end:
        for question, _ in turns:
            end.sendto(draw.randbytes(question), address)
            end.recv(MOST_OF_A_READ)
            time.sleep(draw.random() * 0.003)
