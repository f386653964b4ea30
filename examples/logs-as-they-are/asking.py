"""What make.sh has logs of: a client that asks a gate by HTTP, or web that asks app, of which both tell a daemon.

    python3 asking.py gate PORT
    python3 asking.py syslog SOCKET
"""

import socket
import sys
import threading
import time

NUMBERS = ("7f3a", "7f3b", "7f3c")


def ask(port: int, path: str, number: str, pause: float) -> None:
    """Asks the gate; with a pause the request goes in two parts."""
    it = socket.create_connection(("127.0.0.1", port))
    parts = [f"GET {path} HTTP/1.1\r\nHost: gate\r\nX-Request-Id: {number}\r\n".encode(), b"Connection: close\r\n\r\n"]
    for part in parts if pause else [b"".join(parts)]:
        it.sendall(part)
        time.sleep(pause)
    while it.recv(65536):
        pass
    it.close()


def log(path: str, name: str, text: str) -> None:
    """Tells a daemon of syslog something."""
    with socket.socket(socket.AF_UNIX, socket.SOCK_DGRAM) as it:
        it.sendto(f"<14>{time.strftime('%b %e %T')} {name}[{411 if name == 'web' else 523}]: {text}".encode(), path)


def serve(path: str, app: socket.socket) -> None:
    """Answers as app."""
    while number := app.recv(100):
        log(path, "app", f"received id={number.decode()}")
        time.sleep(0.004)
        log(path, "app", f"answered id={number.decode()}")
        app.send(number)


def ask_app(path: str) -> None:
    """Asks as web."""
    web, app = socket.socketpair()
    threading.Thread(target=serve, args=(path, app), daemon=True).start()
    for number in NUMBERS:
        log(path, "web", f"sent id={number}")
        web.send(number.encode())
        web.recv(100)
        log(path, "web", f"got id={number}")
        time.sleep(0.01)


if __name__ == "__main__":
    if sys.argv[1] == "gate":
        for path, number, pause in zip(("/cart", "/menu", "/pay"), NUMBERS, (0, 0.03, 0)):
            ask(int(sys.argv[2]), path, number, pause)
            time.sleep(0.02)
    else:
        ask_app(sys.argv[2])
