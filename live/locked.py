"""Cases of TLS: a right and a wrong key, none, strangers in the handshake, connections that are cut at any byte. Each
returns what is wrong, or None."""

import concurrent.futures
import contextlib
import os
import pathlib
import random
import shutil
import socket
import ssl
import subprocess
import tempfile

import between
import hurt
import pair

MEMORY = ["--memory", "8M", "--cold", "16", "--threads", "3", "--given", "1", "--buffer", "16384"]
BROKEN = "the connection is broken"
STRANGERS = 64
CUTS = 16
# The begin of a ClientHello, a record longer than TLS allows, a message of 16 MiB, an alert, and what is not TLS.
BEGUN = bytes.fromhex("16030100c8010000c40303") + bytes(20)
HALVES = (
    b"", b"\x16", BEGUN, b"\x16\x03\x01\xff\xff" + bytes(60), b"\x16\x03\x01\x40\x00\x01\xff\xff\xff" + bytes(16380),
    b"\x15\x03\x03\x00\x02\x02\x28", b"GET / HTTP/1.1\r\n\r\n", hurt.hello(),
)


def folder():
    return tempfile.TemporaryDirectory(prefix="live-")


def source_of(program, address, words, text=""):
    """What becomes of a source, of which the migration is cancelled once it says this text."""
    source = pair.Side([str(program), "source", "--connect", address, *MEMORY, "--rounds", "0", *pair.KEPT, *words])
    if text:
        source.says(text)
        source.ask_end()
    return source.end()


def lets_in_only(program, key, others):
    """A destination with this key or none turns each of these sources away, whose guests run on; and then lets the
    right one in."""
    dest = pair.Side([str(program), "dest", "--listen", "127.0.0.1:0", *MEMORY, *key])
    dest.listening.wait(pair.PATIENCE)
    address = f"127.0.0.1:{dest.number('listening', 'port')}"
    wrong = []
    for name, words, text in others:
        said = source_of(program, address, words, text)
        wrong.append(hurt.expect([(name, said, pair.LOST, text), (name, said, pair.LOST, "its memory is right")]))
    wrong.append(hurt.expect([("the right source", source_of(program, address, key), pair.DONE, "")]))
    dest.ask_end()
    wrong.append(hurt.expect([("destination", dest.end(), pair.DONE, "")]))
    return "; ".join(filter(None, wrong)) or None


def keys_at_the_door(program):
    with folder() as name:
        key, other, user = pair.new_key(name), pair.new_key(name, "other"), pair.new_key(name, "user", "someone")
        same = pathlib.Path(name, "same")
        same.write_text(pathlib.Path(key[1]).read_text().replace("guest:", "someone:"))
        same.chmod(0o600)
        return lets_in_only(
            program,
            key,
            (
                ("another key", other, "TLS: "),
                ("another user", user, "TLS: "),
                ("another user with the key", ["--psk", str(same)], "TLS: "),
                ("no key", ["--patience", "1"], ""),
            ),
        )


def key_at_a_plain_door(program):
    with folder() as name:
        return lets_in_only(program, [], (("a key", pair.new_key(name), BROKEN),))


def strangers_in_the_handshake(program):
    with folder() as name:
        return hurt.strangers(program, pair.new_key(name), HALVES)


def strangers_take_no_memory(program):
    """Many that begin a handshake, before a source comes: what the destination takes grows by less than 4 MiB."""
    def resident(dest):
        return int(pathlib.Path(f"/proc/{dest.process.pid}/statm").read_text().split()[1]) * 4096

    with folder() as name:
        key = pair.new_key(name)
        dest = pair.Side(
            [str(program), "dest", "--listen", "127.0.0.1:0", "--control", f"unix:{name}/control", *MEMORY, *key]
        )
        dest.listening.wait(pair.PATIENCE)
        address = f"127.0.0.1:{dest.number('listening', 'port')}"
        before = resident(dest)
        for number in range(STRANGERS):
            with socket.create_connection(between.place(address), 5) as stranger:
                stranger.sendall(HALVES[number % len(HALVES)])
        are_gone = pair.wait_until(lambda: dest.status("turned_away") >= STRANGERS // 2)
        grown = resident(dest) - before
        wrong = hurt.expect([("source", source_of(program, address, key), pair.DONE, "")])
        dest.ask_end()
        wrong = wrong or hurt.expect([("destination", dest.end(), pair.DONE, "")])
    return (
        wrong
        or (
            None
            if are_gone and grown < 4 << 20
            else f"{grown} bytes after {STRANGERS} strangers, turned away: {are_gone}"
        )
    )


def listener_without_tls(program):
    """It says nothing, or what is not TLS: the guest runs on at the source."""
    with folder() as name:
        key = pair.new_key(name)
        for answer in (b"", b"HTTP/1.1 200 OK\r\n\r\n", b"\x15\x03\x03\x00\x02\x02\x28", BEGUN, bytes(100)):
            with socket.create_server(("127.0.0.1", 0)) as server:
                address = f"127.0.0.1:{server.getsockname()[1]}"
                source = pair.Side(
                    [str(program), "source", "--connect", address, *MEMORY, *pair.KEPT, "--patience", "1", *key]
                )
                with server.accept()[0] as connection:
                    connection.sendall(answer)
                    wrong = hurt.expect(
                        [(f"source that hears {answer!r}", source.end(), pair.LOST, "its memory is right")]
                    )
            if wrong:
                return wrong
    return None


def listener_with_a_certificate(program):
    """It speaks TLS, and has not the key."""
    if not shutil.which("openssl"):
        return None
    with folder() as name, socket.create_server(("127.0.0.1", 0)) as server:
        files = [f"{name}/{part}.pem" for part in ("certificate", "secret")]
        subprocess.run(
            [
                "openssl", "req", "-x509", "-newkey", "ec", "-pkeyopt", "ec_paramgen_curve:P-256", "-nodes", "-subj",
                "/CN=live", "-days", "2", "-out", files[0], "-keyout", files[1],
            ],
            check=True,
            capture_output=True,
        )
        context = ssl.SSLContext(ssl.PROTOCOL_TLS_SERVER)
        context.load_cert_chain(*files)
        address = f"127.0.0.1:{server.getsockname()[1]}"
        with concurrent.futures.ThreadPoolExecutor(1) as thread:
            source = thread.submit(source_of, program, address, pair.new_key(name), "TLS: ")
            server.settimeout(0.1)
            while not source.done():
                with contextlib.suppress(TimeoutError, ssl.SSLError, ConnectionError), server.accept()[0] as connection:
                    connection.settimeout(2)
                    if context.wrap_socket(connection, server_side=True).recv(1):
                        return "it is taken for the destination"
        return hurt.expect(
            [
                ("source", source.result(), pair.LOST, "TLS: "),
                ("source", source.result(), pair.LOST, "its memory is right"),
            ]
        )


def cut_at_any_byte(program):
    """Of what is on the wire, handshakes included, in both directions: at any byte that each epoch sends, whatever the
    machine does."""
    choice = random.Random(7)
    for is_handed in (False, True):
        cuts = [
            choice.choice(
                (
                    ("out", choice.randrange(choice.choice((8, 400, 2000, 100000)))),
                    ("in", choice.randrange(choice.choice((8, 300)))),
                )
            )
            for _ in range(CUTS)
        ]
        with folder() as name:
            migration = pair.Migration(
                [*MEMORY, *pair.new_key(name), "--progress"],
                ["--rounds", "1", "--target", "0"],
                ["--check-owed"],
                program,
                cuts=cuts,
                is_handed=is_handed,
            )
            wrong = migration.finish()
        if wrong or migration.relay.made < CUTS:
            return wrong or f"only {migration.relay.made} connections"
    return None


def keys_that_are_none(program):
    with folder() as name:
        for text, mode, said in (
            ("guest:00112233445566778899aabbccddeeff\n", 0o600, None),
            ("guest:00112233445566778899aabbccddeeff\n", 0o640, "others may read"),
            ("", 0o600, "USER:HEXKEY"),
            (":00112233445566778899aabbccddeeff\n", 0o600, "USER:HEXKEY"),
            ("guest:0011\n", 0o600, "USER:HEXKEY"),
            ("guest:00112233445566778899aabbccddeefg\n", 0o600, "USER:HEXKEY"),
            ("guest:00112233445566778899aabbccddeef\n", 0o600, "USER:HEXKEY"),
            (f"guest:{'ab' * 65}\n", 0o600, "USER:HEXKEY"),
            ("x" * 200 + ":00112233445566778899aabbccddeeff\n", 0o600, "USER:HEXKEY"),
        ):
            file = pathlib.Path(name, "key")
            file.write_text(text)
            os.chmod(file, mode)
            dest = pair.Side([str(program), "dest", "--listen", "127.0.0.1:0", "--memory", "1M", "--psk", str(file)])
            dest.listening.wait(pair.PATIENCE)
            dest.ask_end()
            status, text_said = dest.end()
            if (said and (status != pair.REFUSED or said not in text_said)) or (not said and status != pair.LOST):
                return f"the key {text!r}, mode {mode:o}: status {status}, {text_said}"
    return None


CASES = (
    keys_at_the_door, key_at_a_plain_door, strangers_in_the_handshake, strangers_take_no_memory, listener_without_tls,
    listener_with_a_certificate, cut_at_any_byte, keys_that_are_none,
)
